// Choosing who moves: the moves of each thread, and what can happen next.

import { html } from '../lib/markup.js';
import { texts } from '../texts/texts.js';
import { choicesOf, hasRoom, mayGoOn } from '../model/choices.js';
import { standstillOf } from '../model/standstill.js';
import { LOCKS } from '../locks/locks.js';
import { movingThread, standingIn } from '../locks/shapes.js';

/** @typedef {import('../model/session.js').Session} Session */
/** @typedef {import('../model/session.js').View} View */

const T = texts.play;

/** @param {View} view */
function threadRow(view, thread, choices) {
  const name = view.names.of(thread);
  const standing = standingIn(view, thread);
  const buttons = choices.map(({ word, look }) => html`<button type="button"
    class="mono ${look}" data-thread="${thread}"
    data-word="${word}" aria-label="${name}: ${word}">${word}</button>`);
  const here = thread === movingThread(view) && 'data-here';
  return html`<li ${here}><span class="disc ${standing}">${view.names.mark(thread)}</span>
    <span class="who">${name}</span><span class="choices">${buttons}</span></li>`;
}

// With `every` all moves of the lock are offered; `answered` says whether the question's answer is
// shown.
/** @param {Session} session */
export function choicesView(session, every, answered) {
  if (session.machine.stored) return html`<p class="hint">${T.noMachine}</p>`;
  if (!session.run.hasLock) return html`<p class="hint">${T.faulty}</p>`;
  const { run, move } = session;
  if (!mayGoOn(move)) return html`<p class="hint">${T.full}</p>`;
  if (!hasRoom(session)) return html`<p class="hint">${T.long}</p>`;
  const view = session.view({ answered });
  const threads = Array.from({ length: run.threads }, (_, thread) => thread);
  const row = (thread) => threadRow(view, thread, choicesOf(session, thread, every));
  return html`<p class="hint">${move < run.last ? T.branch(move) : T.hint}</p>
    <ul class="threads">${threads.map(row)}</ul>`;
}

// In how many moves each kind of move can be reached.
export function nextKindsView({ ways, whole }) {
  const rows = ways.map(([name, moves], at) => html`<li><button type="button"
    data-next-kind="${at}">${T.inMoves(moves.length)}</button> ${name}</li>`);
  return html`<ul>${rows}</ul>${!whole && html`<p class="hint">${T.nextKindsCut}</p>`}`;
}

// Why nobody moves: who waits, and for whom.
/** @param {Session} session */
export function standstillView(session) {
  if (session.machine.stored) return T.noMachine;
  const { names } = session;
  const { words, going, waiting } = standstillOf(session);
  if (!going.length) return T.allIdle;
  const waits = names.few(waiting);
  if (waiting.length && going.length === 1) {
    return T.allWait(names.of(going[0]), words[going[0]], waits);
  }
  const can = names.few(going, (thread) => T.canGoOn(names.of(thread), words[thread]));
  return waiting.length ? T.someWait(can, waits) : T.nobodyWaits(can);
}

const headerOf = (lock, threads, bits) => (
  `lock ${lock} threads ${threads}${String(bits) === '64' ? '' : ` bits ${bits}`}\n`);

// The header of a new schedule; the machine says whether it is one.
export function newHeader(form) {
  const { lock, threads, bits } = Object.fromEntries(new FormData(form));
  return headerOf(lock, threads, bits);
}

export function lockOptions() {
  const option = ({ name, title }) => html`<option value="${name}">${title}</option>`;
  return html`${LOCKS.map(option)}`;
}
