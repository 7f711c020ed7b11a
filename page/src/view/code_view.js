// The lock's code, with the line of the move just made and the line that each thread does next,
// unless a question is open: it may ask for that.

import { html } from '../lib/markup.js';
import { MOVES, PHASES } from '../machine/codes.js';
import { isAsked } from '../model/remarks.js';
import { movingThread, standingIn } from '../locks/shapes.js';

/** @typedef {import('../machine/machine.js').AnyState} State */
/** @typedef {import('../model/session.js').View} View */

// The phase or the call whose lines of code the move was; of a refused move the phase that is due.
function madeLine({ run, move, refused }, state) {
  if (refused) return dueOf(run, state);
  if (!move) return null;
  const { records } = run;
  return records.isCall(move)
    ? { call: MOVES[records.action(move)] } : { phase: run.phaseBefore(move) };
}

function dueOf({ refusal: { thread }, threads }, state) {
  return thread < threads && state.dueStep(thread) ? { phase: state.phase(thread) } : null;
}

/** @param {State} state */
function threadsAt(state, phase, threads) {
  return Array.from({ length: threads }, (_, thread) => thread)
    .filter((thread) => state.phase(thread) === phase);
}

const MOST_MARKS = 5;

/** @param {View} view */
function marks(view, threads) {
  const shown = threads.slice(0, MOST_MARKS).map((thread) => {
    const standing = standingIn(view, thread);
    const title = html`title="${view.names.of(thread)}"`;
    const moving = thread === movingThread(view) && 'moving';
    return html`<span class="disc ${standing} ${moving}" ${title}>${
      view.names.mark(thread)}</span>`;
  });
  const more = threads.length - MOST_MARKS;
  return html`${shown}${more > 0 && html`<span class="more">+${more}</span>`}`;
}

function wasMade(line, made) {
  if (!made) return false;
  if (made.call) return line.kind === 'call' && line.call === made.call;
  return line.phase !== undefined && line.phase === made.phase && line.kind !== 'inside';
}

// The lines of the move that is shown.
/** @param {View} view @param {State} state */
export function linesMade(view, state, lines) {
  const made = madeLine(view, state);
  return lines.filter((line) => wasMade(line, made));
}

// If a phase has several lines, its threads are at the first.
/** @param {View} view */
function codeLine(view, line, here, threads) {
  const phase = line.phase !== undefined && html`data-phase="${PHASES[line.phase]}"`;
  return html`<div class="code-line ${line.kind || 'plain'} ${here && 'here'}" ${phase}
    ${here && html`aria-current="step"`}><code translate="no">${line.code}</code>
    <span class="discs">${marks(view, threads)}</span></div>`;
}

/** @param {View} view @param {State} state */
export function codeView(view, state, lines) {
  const made = madeLine(view, state);
  return html`${lines.map((line, i) => {
    const first = line.phase !== undefined && line.phase !== lines[i - 1]?.phase;
    const threads = first && !isAsked(view) ? threadsAt(state, line.phase, view.run.threads) : [];
    return codeLine(view, line, wasMade(line, made), threads);
  })}`;
}
