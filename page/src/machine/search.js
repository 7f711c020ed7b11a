// Looking for a moment: the module searches all schedules of a lock for a shortest run that has the
// lines of a sketch, or that leads from a state to a transition of a kind. This file lends the
// memory, and gives the numbers their names.

import { bytesOf } from '../lib/bytes.js';
import { MOVES } from './codes.js';

export const FOUND = {
  run: 0, nowhere: 1, tooLarge: 2, longRun: 3, badLine: 4, manyLines: 5, noRoom: 6, notAsked: 7,
};

// About a second of search. A state of 64 threads takes 266 cells, so the cells have a bound of
// their own, 64 MB.
const MOST_STATES = 250000;
const MOST_CELLS = 1 << 23;
// There is a search for each kind of the lock: of 20,166 states of an MCS lock of two threads.
const MOST_NEXT_CELLS = 363000;
const MOST_MOVES_FOUND = 4096;
const BYTE = 1;
const SLOT = 4;
const CELL = 8;

// Slices one after another, from the beginning of the memory that the page may use.
function lendSlices(machine, shapes) {
  let end = machine.base;
  const slices = shapes.map(([length, size]) => {
    const at = end;
    end += length * size;
    return { at, length };
  });
  machine.lend(end - machine.base);
  // The text that was played last is overwritten.
  machine.text = null;
  return slices;
}

const asked = (slices) => slices.flatMap(({ at, length }) => [BigInt(at), BigInt(length)]);

// A move of a run, whose code is 512 times the code of the move plus its thread.
export const moveOf = (code) => `${code & 255} ${MOVES[code >> 9]}`;

// The answer of a search from a state of this lock, its number, and the run that it found, as lines
// of a schedule. `call` gives the module the text and the memory.
function searched(machine, state, mostCells, text, call) {
  const width = 9 + state.wordCount + 2 * state.threads;
  const states = Math.min(MOST_STATES, Math.floor(mostCells / width));
  const [number, codes, cells, slots, lines] = lendSlices(machine, [
    [1, CELL], [MOST_MOVES_FOUND, CELL], [states * width, CELL], [2 * states, SLOT],
    [text.length, BYTE],
  ]);
  new Uint8Array(machine.exports.memory.buffer, lines.at, lines.length).set(text);
  const answer = Number(call(asked([lines]), BigInt(states), asked([cells, slots, codes, number])));
  const { buffer } = machine.exports.memory;
  const count = Number(new BigUint64Array(buffer, number.at, 1)[0]);
  if (answer !== FOUND.run) return { answer, count, moves: [] };
  const first = codes.at + CELL * (codes.length - count);
  const moves = [...new BigUint64Array(buffer, first, count)].map((code) => moveOf(Number(code)));
  return { answer, count, moves };
}

// A shortest run of a new lock with the lines of the sketch. `state` is the lock's in the
// beginning, as played; each thread takes the lock at most `rounds` times.
export function findRun(machine, state, rounds, sketch) {
  const numbers = [state.kind, state.threads, state.bits, rounds].map(BigInt);
  return searched(machine, state, MOST_CELLS, bytesOf(sketch), (text, states, memory) => (
    machine.exports.find_moment(...text, ...numbers, states, ...memory)));
}

// A shortest run from the state after a move, whose last move is a transition of this kind. Each
// thread begins at most one more round.
export function findNext(machine, run, move, kind) {
  const numbers = [move, kind, 1].map(BigInt);
  return searched(machine, run.begun, MOST_NEXT_CELLS, run.played, (text, states, memory) => (
    machine.exports.soon(...text, ...numbers, states, ...memory)));
}
