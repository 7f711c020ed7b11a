// Functions that the tests in Node share: the machine of the module that the command line names
// first, the examples, the locks' code and words, and texts as bytes.

import { readFileSync, readdirSync } from 'node:fs';
import { dirname, join } from 'node:path';
import { fileURLToPath } from 'node:url';
import { setFlagsFromString } from 'node:v8';
import { codeOf, linesOf, wordsOf } from '../../page/src/machine/locks_code.js';
import { Machine, RECORD_BYTES, STATE_BYTES } from '../../page/src/machine/machine.js';

const TOP = join(dirname(fileURLToPath(import.meta.url)), '..', '..');
const EXAMPLES = join(TOP, 'examples');

export const module = readFileSync(process.argv[2]);
export const bytesOf = (text) => new TextEncoder().encode(text);
export const textOf = (...lines) => bytesOf([...lines, ''].join('\n'));

const document = readFileSync(join(TOP, 'docs', 'LOCKS.md'), 'utf8');
export const [lines, words] = [linesOf(codeOf(document)), wordsOf(document)];

// Node has 64-bit memory without a flag since version 24.
if (Number(process.versions.node.split('.')[0]) < 24) {
  setFlagsFromString('--experimental-wasm-memory64');
}

export const machineOf = () => new Machine(module);

// The byte that fills the lent memory before a call.
export const OLD = 0x99;

// Calls `play` with room for so many bytes. The text, the state and the records are in this order
// in the lent memory.
export function playInto(machine, text, { most, records, state }) {
  const stateAt = (text.length + 7) & ~7;
  const recordsAt = stateAt + STATE_BYTES;
  machine.text = null;
  machine.lend(recordsAt + records + RECORD_BYTES).fill(OLD, machine.base);
  const { memory } = machine.exports;
  new Uint8Array(memory.buffer, machine.base).set(text);
  const base = BigInt(machine.base);
  const answer = machine.exports.play(base, BigInt(text.length), BigInt(most),
    base + BigInt(recordsAt), BigInt(records), base + BigInt(stateAt), BigInt(state));
  const written = (place, length) => new Uint8Array(memory.buffer, machine.base + place, length);
  return {
    answer: Number(answer), state: written(stateAt, STATE_BYTES),
    records: written(recordsAt, records + RECORD_BYTES),
  };
}

// Each example: its name, its bytes and its report.
export const examples = () => readdirSync(EXAMPLES).filter((file) => file.endsWith('.schedule'))
  .map((file) => file.replace(/\.schedule$/, '')).map((name) => ({
    name, text: new Uint8Array(readFileSync(join(EXAMPLES, `${name}.schedule`))),
    report: readFileSync(join(EXAMPLES, `${name}.report`), 'utf8'),
  }));

// The rows of a table of tests/rows.
export const rowsOf = (file) => readFileSync(join(TOP, 'tests', 'rows', file), 'utf8').split('\n')
  .filter((line) => line && !line.startsWith('//') && !line.startsWith(' '))
  .map((line) => line.split('|').map((part) => part.trim()));
