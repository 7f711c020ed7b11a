// The moves of each thread and on each word, and with which move a thread joined the queue: what
// is needed to find the state after any move.

import { IN_QUEUE, NO_WORD } from '../machine/codes.js';

/** @typedef {import('../machine/machine.js').Records} Records */

// Moves by what `keyOf` gives of each.
/** @param {Records} records */
function movesBy(records, keyOf) {
  const moves = new Map();
  for (let move = 1; move <= records.count; move += 1) {
    const key = keyOf(move);
    const list = moves.get(key);
    if (list) list.push(move);
    else if (key !== NO_WORD) moves.set(key, [move]);
  }
  return moves;
}

/** @param {Records} records */
export const movesByThread = (records) => movesBy(records, (move) => records.thread(move));

// By the word that was touched, and by the second one that a section changed.
/** @param {Records} records */
export const movesByWord = (records) => ({
  touched: movesBy(records, (move) => records.touched(move)),
  alsoChanged: movesBy(records, (move) => records.alsoChanged(move)),
});

// By move: the one with which its thread joined the queue in which it is afterwards; else 0.
/** @param {Records} records */
export function joinedByMove(records) {
  const joined = new Uint32Array(records.count + 1);
  const before = new Uint32Array(256);
  for (let move = 1; move <= records.count; move += 1) {
    const thread = records.thread(move);
    if (records.standing(move) & IN_QUEUE) joined[move] = joined[before[thread]] || move;
    before[thread] = move;
  }
  return joined;
}
