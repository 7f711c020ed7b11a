// The activity of a thread between its moves: in a call, in the queue, holding, not linked.
// All of it is read off the records that the machine wrote; a stretch of moves is found by
// bisection.

import { placeAfter } from '../lib/ascending.js';
import { AS_WRITER, HOLDS, IN_QUEUE } from '../machine/codes.js';

/** @typedef {import('./run.js').Run} Run */

// One of holds, reads, writes, queue, call, rest.
/** @param {Run} run */
export function standingAfter(run, move) {
  if (!move) return 'rest';
  const standing = run.records.standing(move);
  if (standing & HOLDS) {
    if (standing & AS_WRITER) return 'writes';
    return run.hasReaders ? 'reads' : 'holds';
  }
  if (standing & IN_QUEUE) return 'queue';
  return run.records.due(move) ? 'call' : 'rest';
}

/** @param {Run} run */
export const unlinkedAfter = (run, move) => move > 0 && run.records.isUnlinked(move);

// Stretches {kind, from, to} of one thread over moves `from` to `to`, where something is the same
// from move to move. One that began before `from` begins there.
/** @param {Run} run */
function stretches(run, thread, from, to, kindAfter) {
  const moves = run.movesOf.get(thread) ?? [];
  let place = placeAfter(moves, from - 1);
  let open = { kind: kindAfter(run, moves[place - 1] ?? 0), from: from - 1 };
  const found = [];
  for (; place < moves.length && moves[place] <= to; place += 1) {
    const kind = kindAfter(run, moves[place]);
    if (kind === open.kind) continue;
    found.push({ ...open, to: moves[place] });
    open = { kind, from: moves[place] };
  }
  found.push({ ...open, to: to + 1 });
  return found;
}

/** @param {Run} run */
export const spansOf = (run, thread, from, to) => stretches(run, thread, from, to, standingAfter)
  .filter(({ kind }) => kind !== 'rest');

/** @param {Run} run */
export function unlinkedSpans(run, thread, from, to) {
  return stretches(run, thread, from, to, unlinkedAfter).filter(({ kind }) => kind);
}
