// What a trace says of a move, beside what the lock has there.

import { html } from '../lib/markup.js';
import { MOVES, NO_WORD, OUTCOMES } from '../machine/codes.js';
import { texts } from '../texts/texts.js';
import { resultText, wordText } from '../model/trace_advice.js';

/** @typedef {import('../model/run.js').Run} Run */
/** @typedef {import('../model/session.js').View} View */

const T = texts.traces;

// What the machine's record says of a move, in the words of a trace.
/** @param {Run} run */
function lockText(run, move) {
  const { records } = run;
  const step = MOVES[records.action(move)];
  const outcome = OUTCOMES[records.outcome(move)];
  if (step === 'section' || records.touched(move) === NO_WORD) return outcome;
  const result = step === 'cas' ? resultText(records, move) : '';
  const parts = [wordText(run, records.touched(move)), `found ${records.found(move)}`];
  if (step !== 'read' && result !== 'failed') parts.push(`left ${records.left(move)}`);
  return `${[...parts, result].join(' ').trim()}, ${outcome}`;
}

// The word of a move, or of the refused one after the last.
/** @param {Run} run */
export const doneWord = (run, move) => (move > run.count ? run.refusal.word
  : MOVES[run.records.action(move)]);

// The same, of a trace with all that was recorded.
/** @param {Run} run */
export const doneText = (run, move) => run.recorded(move).replace(/^\d+ /, '')
  || doneWord(run, move);

export const sourceView = (source) => source && html`<span class="soft source">${source}</span>`;

// The line as it is written, with its place in the source; nothing if it says no more than its
// move.
/** @param {View} view */
export function recordedRows({ run, move }) {
  const line = run.recorded(move);
  const said = line && html`<dt class="recorded">${T.recorded}</dt>
    <dd class="recorded"><code>${line}</code> ${sourceView(run.sourceOf(move))}</dd>`;
  const own = run.said(move) && html`<dt class="recorded">${T.here}</dt>
    <dd class="recorded"><code>${lockText(run, move)}</code></dd>`;
  return html`${said}${own}`;
}
