// Reading a trace: the module says how many bytes of a line are its move, what else the line says,
// and at which move the trace differs from its lock first. This file lends the memory, and gives
// the numbers their names; it knows neither the grammar nor what is compared.

import { DIFFERENCES, OUTCOMES, WORDS } from './codes.js';

const FEED = 10;
// What a line says, as `trace_line` writes it: so many numbers, of 8 bytes each.
const PARTS = 11;
// The answer of `lt_check`: the bytes of its line, its moves, its fault and its threads.
const ANSWER_BYTES = 24;
const MOVES_AT = 8;
const FAULT_AT = 16;
const RESULTS = ['', 'failed', 'done'];

/**
 * What a line says of its move: some of these.
 * @typedef {object} Said
 * @property {string} [word] the word's name
 * @property {number} [of] the thread in whose record the word is
 * @property {bigint} [found]
 * @property {bigint} [left]
 * @property {string} [result] of a compare-and-swap
 * @property {bigint} [count] of a section
 * @property {string} [outcome]
 *
 * @typedef {object} Difference
 * @property {string} name as `locktrace check` names it
 * @property {number} move
 *
 * @typedef {import('./machine.js').Machine} Machine
 */

// Whether the bytes from there on are a move. If so, what they say is in the numbers `parts`.
/** @param {Machine} machine */
const isMove = ({ exports, base }, at, length) => (
  exports.trace_line(BigInt(at), BigInt(length), BigInt(base), BigInt(PARTS)) === 1n);

/** @param {Machine} machine */
const partsOf = ({ exports, base }) => new BigUint64Array(exports.memory.buffer, base, PARTS);

// The text, of each line that is a move only its first two words, line by line. Null if no line
// says more than that.
/** @param {Machine} machine */
function movesIn(machine, text, textAt) {
  const parts = partsOf(machine);
  const bytes = text.slice();
  let length = 0;
  for (let at = 0, end = 0; at < text.length; at = end + 1) {
    end = text.indexOf(FEED, at);
    if (end < 0) end = text.length;
    const width = isMove(machine, textAt + at, end - at) ? Number(parts[0]) : end - at;
    bytes.copyWithin(length, at, at + width);
    length += width;
    if (end < text.length) bytes[length++] = FEED;
  }
  return length < text.length ? bytes.slice(0, length) : null;
}

// Where the trace differs from its lock first. Null if it does not, or is refused or cannot be read
// before.
/** @param {Machine} machine @returns {Difference | null} */
function differenceIn({ exports }, text, textAt, answerAt) {
  const [at, length, answer] = [textAt, text.length, answerAt].map(BigInt);
  const none = [answer, 0n];
  exports.lt_check(at, length, ...none, answer);
  const view = new DataView(exports.memory.buffer, answerAt, ANSWER_BYTES);
  const name = DIFFERENCES[view.getUint32(FAULT_AT, true)];
  return name ? { name, move: Number(view.getBigUint64(MOVES_AT, true)) + 1 } : null;
}

/**
 * Null for a text none of whose lines says more than its move.
 * @param {Machine} machine
 * @returns {{schedule: Uint8Array, difference: Difference | null} | null}
 */
export function readTrace(machine, text) {
  const answerAt = machine.hold(text, ANSWER_BYTES);
  const textAt = machine.textAt;
  const schedule = movesIn(machine, text, textAt);
  return schedule && { schedule, difference: differenceIn(machine, text, textAt, answerAt) };
}

/**
 * Null for a line that says no more than its move, or is none of a trace.
 * @param {Machine} machine
 * @param {Uint8Array} line
 * @returns {Said | null}
 */
export function saidIn(machine, line) {
  machine.hold(line, 0);
  if (!isMove(machine, machine.textAt, line.length)) return null;
  const [bytes, word, of, hasFound, found, hasLeft, left, result, hasCount, count, outcome] =
    partsOf(machine);
  if (Number(bytes) === line.length) return null;
  return {
    word: WORDS[Number(word)], of: Number(of), found: hasFound ? found : undefined,
    left: hasLeft ? left : undefined, result: RESULTS[Number(result)],
    count: hasCount ? count : undefined, outcome: outcome ? OUTCOMES[Number(outcome) - 1] : '',
  };
}
