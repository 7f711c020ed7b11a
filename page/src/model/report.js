// Lines of the report, from the machine's answers.

import { MOVES, OUTCOMES } from '../machine/codes.js';

/** @typedef {import('./run.js').Run} Run */
/** @typedef {import('../machine/machine.js').AnyState} State */

const HOLDER_LETTERS = ['', '', 'r', 'w'];

/** @param {State} state */
export const holdersText = (state) => (state.holders.length
  ? HOLDER_LETTERS[state.holderKind] + state.holders.join(',') : '-');
/** @param {State} state */
export const queueText = (state) => state.queue.join(',') || '-';

/** @param {Run} run */
export function moveText(run, move) {
  const { records } = run;
  return `${records.thread(move)} ${MOVES[records.action(move)]}`;
}

/** @param {Run} run */
export function reportLine(run, move) {
  const state = run.state(move);
  const outcome = OUTCOMES[run.records.outcome(move)];
  const after = `hold ${holdersText(state)} queue ${queueText(state)}`;
  return `${move} ${moveText(run, move)} ${outcome} ${after}`;
}

function faultLine(fault) {
  return fault.line ? `fault line ${fault.line} ${fault.name}` : `fault ${fault.name}`;
}

function refusedLine(refusal) {
  const wanted = refusal.wanted ? ` next ${MOVES[refusal.wanted]}` : '';
  return `refused line ${refusal.line} ${refusal.name}${wanted}`;
}

// The report's last line.
/** @param {Run} run */
export function lastLine(run) {
  if (run.fault) return faultLine(run.fault);
  return run.refusal ? refusedLine(run.refusal) : `end ${run.count}`;
}

// The whole report of a schedule text.
/** @param {Run} run */
export function reportOf(run) {
  const lines = [];
  for (let move = 1; !run.fault && move <= run.count; move += 1) lines.push(reportLine(run, move));
  lines.push(lastLine(run));
  return `${lines.join('\n')}\n`;
}
