// A run of a changed lock, move by move: memory and the sequential object after the shown move,
// and the moment of harm.

import { html, show } from '../lib/markup.js';
import { LOCKS } from '../locks/locks.js';
import { capital, texts } from '../texts/texts.js';
import { harmsAt, isChanged, memoryAfter, objectAfter } from '../model/line_changes.js';
import { codeOfMove } from './why_code.js';

/** @typedef {import('../model/line_changes.js').Change} Change */

const T = texts.why;

// Below the verdict on a change, by its number.
export const stepsFrame = (number) => html`<div class="why-steps"><div class="row">
  <button type="button" data-of="${number}" data-step="-1">${texts.tools.back}<kbd>P</kbd></button>
  <button type="button" data-of="${number}" data-step="1">${texts.tools.forward}<kbd>N</kbd>
  </button></div><div class="why-step" role="status"></div></div>`;

/** @param {Change} change */
function headOf(lines, change, count) {
  if (!count) return html`<p><b>${capital(texts.before)}</b></p>`;
  const move = change.run[count - 1];
  return html`<p><b>${T.step(count, change.run.length)}</b> <b translate="no">${move}</b>${
    codeOfMove(lines, move)}${isChanged(change, move) && html` <mark>${T.mark}</mark>`}</p>`;
}

// All words, and which of them the move wrote.
/** @param {Change} change */
function memoryOf(lock, change, count) {
  const { listedValue = (_, value) => value } = LOCKS[lock];
  return memoryAfter(lock, change, count).map(({ name, value, wrote }) => {
    const code = html`<code translate="no">${name} = ${listedValue(name, value)}</code>`;
    return wrote ? html` <mark title="${texts.signs.changed}">${code}</mark>`
      : html` <span>${code}</span>`;
  });
}

// What came of the last move.
/** @param {Change} change */
function endOf(change, count) {
  if (count < change.run.length) return null;
  const said = harmsAt(change, count - 1) ? T.forbidden(change.verdict) : T.stuck;
  return html`<p class="harm">✕ ${said}</p>`;
}

/** @param {Change} change */
const stepView = (lock, lines, change, count) => html`${headOf(lines, change, count)}
  <p class="why-words">${T.memory}${memoryOf(lock, change, count)}</p>
  <p>${T.object(objectAfter(change, count))}</p>${endOf(change, count)}`;

// The place of the move that is shown; -1 before the first, null in another run.
function markMove(section, at) {
  section.classList.toggle('stepped', at !== null);
  [...section.querySelectorAll('li')].forEach((move, place) => {
    if (place === at) move.setAttribute('aria-current', 'step');
    else move.removeAttribute('aria-current');
  });
}

// Shows the run of one change after so many moves, and what is shown of no other.
export function drawSteps(box, { lock, lines, changes, number, count }) {
  [...box.querySelectorAll('section')].forEach((section, at) => {
    const panel = section.querySelector('.why-step');
    if (!panel) return;
    const isShown = at === number;
    markMove(section, isShown ? count - 1 : null);
    show(panel, isShown ? stepView(lock, lines, changes[at], count) : html``);
  });
}

// A move that is out of view is brought into it.
export function revealMove(box) {
  box.querySelector('[aria-current=step]')?.scrollIntoView({ block: 'nearest' });
}
