// Two runs beside each other: which lock has the same calls, how many moves they have in common,
// and where they differ first.

import { LOCK_NAMES, OUTCOMES } from '../machine/codes.js';
import { holdersText, moveText, queueText } from './report.js';

/** @typedef {import('./run.js').Run} Run */

// The two locks whose calls are the same.
const OTHER = { 'rw-simple': 'rw-fifo', 'rw-fifo': 'rw-simple' };
// Longer runs are not compared with the other lock: they might be replayed too often.
const MOST_MOVES = 2000;

const sameMove = (one, other, move) => one.records.thread(move) === other.records.thread(move)
  && one.records.action(move) === other.records.action(move);

// How many moves both begin with.
export function commonMoves(one, other) {
  const alike = one.hasLock && other.hasLock && one.kind === other.kind
    && one.threads === other.threads && one.bits === other.bits;
  const most = alike ? Math.min(one.count, other.count) : 0;
  let move = 0;
  while (move < most && sameMove(one, other, move + 1)) move += 1;
  return move;
}

/** @param {Run} run */
export const otherLock = (run) => run.hasLock && run.count <= MOST_MOVES
  && OTHER[LOCK_NAMES[run.kind]];

// The report's line on a move, without its number.
/** @param {Run} run */
function said(run, move) {
  const state = run.state(move);
  const outcome = OUTCOMES[run.records.outcome(move)];
  return [moveText(run, move), outcome, holdersText(state), queueText(state)].join(' ');
}

// The refused move after the last one; empty if there is none.
/** @param {Run} run */
const refusedIn = ({ refusal }) => (refusal
  ? [refusal.thread, refusal.word, refusal.name].join(' ') : '');

// The first move here after which the two differ; 0 if none does. `at` gives for a move here how
// many moves are made there by then, and `turns` says that only the moves made here are turns
// there, but no refused move.
/** @param {Run} run @param {Run} other */
export function firstDifference(run, other, at, turns) {
  for (let move = 1; move <= run.count; move += 1) {
    const there = at(move);
    const made = there > at(move - 1);
    if (!made || said(run, move) !== said(other, there)) return move;
  }
  const goesOn = other.count > at(run.count) || (!turns && refusedIn(run) !== refusedIn(other));
  return goesOn ? run.count + 1 : 0;
}
