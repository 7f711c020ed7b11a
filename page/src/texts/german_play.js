// The page's words on playing: who moves next, who waits, and a new schedule, in German.

import { MOST_BYTES, MOST_MOVES } from '../machine/codes.js';

const grouped = (count) => count.toLocaleString('de');

export const germanPlay = {
  title: 'Spielen',
  hint: 'Wähle, wer den nächsten Zug macht. Die Maschine spielt, was du wählst.',
  branch: (move) => `Wähle, wer als Nächstes zieht, statt der Züge nach Zug ${move}.`,
  every: 'Jeder Zug, auch die, die abgelehnt werden',
  undo: 'Rückgängig',
  finish: 'Alle fertig werden lassen',
  standstill: 'Warum geht es nicht weiter?',
  allIdle: 'Niemand ist in einem Aufruf oder hält die Sperre.',
  allWait: (name, word, waiting) => `Alle warten auf ${name}: Der nächste Zug ist ${word}. `
    + `Es warten: ${waiting}.`,
  canGoOn: (name, word) => `${name} (${word})`,
  someWait: (can, waiting) => `Es können weiter: ${can}. Es warten: ${waiting}.`,
  nobodyWaits: (can) => `Niemand wartet. Es können weiter: ${can}.`,
  nextKinds: 'Was als Nächstes geschehen kann',
  inMoves: (count) => (count === 1 ? 'in 1 Zug' : `in ${count} Zügen`),
  nextKindsCut: 'Was weiter weg ist, wurde nicht gesucht.',
  newLock: 'Neuer Ablauf',
  lock: 'Sperre', threads: 'Threads', bits: 'Bits', begin: 'Beginnen',
  full: `Ein Ablauf hat höchstens ${grouped(MOST_MOVES)} Züge.`,
  long: `Ein Ablauf hat höchstens ${grouped(MOST_BYTES)} Bytes.`,
  faulty: 'Der Text hat einen Fehler. Behebe ihn, oder beginne einen neuen Ablauf.',
  noMachine: 'Zum Spielen braucht der Browser WebAssembly-Speicher mit 64 Bit.',
};
