// The moves by which threads go on, as the module finds them: each is accepted, and is neither a
// call for the lock nor a failed poll. This file lends the memory, and gives the numbers their
// names.

import { MOVES } from './codes.js';
import { moveOf } from './search.js';

/** @typedef {import('../model/run.js').Run} Run */

// So many are enough for 64 threads of each lock, as the module's contract says.
const MOST_FINISHING = 640;
const CELL = 8;

// The move by which a thread goes on after a move of the run, as a word; null if it has to wait or
// is idle.
/** @param {Run} run */
export function goesOnBy(machine, run, move, thread) {
  const { played } = run;
  machine.hold(played, 0);
  const numbers = [machine.textAt, played.length, move, thread].map(BigInt);
  return MOVES[Number(machine.exports.finishing_move(...numbers)) || -1] ?? null;
}

// Moves after which all threads are idle, as lines of a schedule.
/** @param {Run} run */
export function movesToRest(machine, run, move) {
  const { played } = run;
  const numberAt = machine.hold(played, CELL * (1 + MOST_FINISHING));
  const codesAt = numberAt + CELL;
  const slices = [codesAt, MOST_FINISHING, numberAt, 1];
  machine.exports.finish(...[machine.textAt, played.length, move, ...slices].map(BigInt));
  const { buffer } = machine.exports.memory;
  const count = Number(new BigUint64Array(buffer, numberAt, 1)[0]);
  return [...new BigUint64Array(buffer, codesAt, count)].map((code) => moveOf(Number(code)));
}
