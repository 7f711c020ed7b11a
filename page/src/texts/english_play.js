// The page's words on playing: who moves next, who waits, and a new schedule, in English.

import { MOST_BYTES, MOST_MOVES } from '../machine/codes.js';

const grouped = (count) => count.toLocaleString('en');

export const play = {
  title: 'Play',
  hint: 'Choose who moves next. The machine plays what you choose.',
  branch: (move) => `Choose who moves next, in place of the moves after move ${move}.`,
  every: 'Every move, also those that are refused',
  undo: 'Undo',
  finish: 'Let all finish',
  standstill: 'Why does nobody move?',
  allIdle: 'All threads are idle: nobody is in a call or holds the lock.',
  allWait: (name, word, waiting) => `Everybody waits for ${name}, whose next move is ${word}. `
    + `Waiting: ${waiting}.`,
  someWait: (can, waiting) => `Can go on: ${can}. Waiting: ${waiting}.`,
  nobodyWaits: (can) => `Nobody waits. Can go on: ${can}.`,
  canGoOn: (name, word) => `${name} (${word})`,
  newLock: 'New schedule',
  nextKinds: 'What can happen next',
  inMoves: (count) => (count === 1 ? 'in 1 move' : `in ${count} moves`),
  nextKindsCut: 'What is further away was not searched.',
  lock: 'lock', threads: 'threads', bits: 'bits', begin: 'Begin',
  full: `A schedule has at most ${grouped(MOST_MOVES)} moves.`,
  long: `A schedule has at most ${grouped(MOST_BYTES)} bytes.`,
  faulty: 'The text has a fault. Correct it, or begin a new schedule.',
  noMachine: 'Playing needs a browser with 64-bit WebAssembly memory.',
};
