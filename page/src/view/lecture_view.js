// A lecture in the page: its bar, and what there is after a plan. The clock and what the lecturer
// says are in the presenter's window alone.

import { byId } from '../lib/elements.js';
import { html, show } from '../lib/markup.js';
import { texts } from '../texts/texts.js';
import { lockTitle } from '../locks/locks.js';

const T = texts.plans;

export function drawLecture({ isOn, plan, at, following }) {
  if (!isOn) {
    show(byId('lecture'), html``);
    return;
  }
  show(byId('lecture'), html`<span title="${lockTitle(plan.lock)}">${
  T.step(at + 1, plan.steps.length)}</span>
    <button type="button" data-lecture="back" aria-label="${T.back}">‹</button>
    <button type="button" data-lecture="next">${following ? T.next : T.last}</button>`);
}

const wayView = (way, name) => html`<button type="button" data-end-way="${way}">${name}</button> `;

// The next plan before all; without one the end.
export function lectureEndView({ plan, nextPlan }) {
  const sheet = wayView('sheet', T.sheet);
  const end = wayView('end', T.end);
  return html`<p>${T.ended(lockTitle(plan.lock))}</p><p>${plan.aim}</p><div class="row">${nextPlan
    ? html`${wayView('next', T.nextPlan(lockTitle(nextPlan.lock)))}${sheet}${end}`
    : html`${end}${sheet}`}</div>`;
}
