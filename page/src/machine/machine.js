// The proved machine, a WebAssembly module with 64-bit memory. Its `play` reads a schedule text,
// plays it, and writes a record for each move and the state after the last one. Its `stops_at` and
// `expected` tell where a line cannot be read. This file copies the text in and the bytes out, and
// gives the bytes their names; it knows no rule of any lock.

import { bytesOf, linesIn } from '../lib/bytes.js';
import { EXPECTED, isStep, MOST_MOVES, UNLINKED, WAITS } from './codes.js';

export const RECORD_BYTES = 56;
export const STATE_BYTES = 2304;
const PAGE_BYTES = 65536;
const LINE_AT = 8;
const THREADS_AT = 192;
const THREAD_BYTES = 16;
const WORDS_AT = 1216;

// Browsers and Node before the final standard take the count of pages as a number.
function growBy(memory, pages) {
  try {
    memory.grow(BigInt(pages));
  } catch {
    memory.grow(pages);
  }
}

// Moves are lines, so a text has no more of them.
const recordsAsked = (text) => Math.min(linesIn(text), MOST_MOVES);

/**
 * What the module exports; page/MODULE.md says what each does.
 * @typedef {(...numbers: bigint[]) => bigint} Call
 * @typedef {object} Exports
 * @property {WebAssembly.Memory} memory
 * @property {WebAssembly.Global} __heap_base
 * @property {Call} play
 * @property {Call} stops_at
 * @property {Call} expected
 * @property {Call} find_moment
 * @property {Call} soon
 * @property {Call} finishing_move
 * @property {Call} finish
 * @property {Call} trace_line
 * @property {(...numbers: bigint[]) => number} lt_check
 * @property {Call} kinds
 * @property {Call} kind_text
 */

export class Machine {
  /** @param {BufferSource} module */
  constructor(module) {
    const { exports } = new WebAssembly.Instance(new WebAssembly.Module(module));
    this.exports = /** @type {Exports} */ (exports);
    // This one can play whatever is asked.
    this.stored = false;
    // The next multiple of 8, so that what is put there begins with a whole word.
    this.base = (Number(this.exports.__heap_base.value) + 7) & ~7;
    this.text = null;
  }

  // The machine's memory, with at least `bytes` bytes from its heap on.
  lend(bytes) {
    const { memory } = this.exports;
    const missing = this.base + bytes - memory.buffer.byteLength;
    if (missing > 0) growBy(memory, Math.ceil(missing / PAGE_BYTES));
    return new Uint8Array(memory.buffer);
  }

  // Where a text is held. The bytes of a state are before it.
  get textAt() { return this.base + STATE_BYTES; }

  // Holds a text, which stays in the memory from call to call, and lends `room` bytes after it.
  // Returns where these begin.
  hold(text, room) {
    const after = STATE_BYTES + ((text.length + 7) & ~7);
    const memory = this.lend(after + room);
    if (this.text !== text) memory.set(text, this.textAt);
    this.text = text;
    return this.base + after;
  }

  // Plays at most `most` moves of the text's first `length` bytes.
  play(text, most, withRecords, length = text.length) {
    const room = withRecords ? recordsAsked(text) * RECORD_BYTES : 0;
    const recordsAt = this.hold(text, room);
    this.exports.play(BigInt(this.textAt), BigInt(length), BigInt(most), BigInt(recordsAt),
      BigInt(room), BigInt(this.base), BigInt(STATE_BYTES));
    const { buffer } = this.exports.memory;
    const state = new State(new Uint8Array(buffer, this.base, STATE_BYTES).slice());
    const played = withRecords ? state.played * RECORD_BYTES : 0;
    return { state, records: new Uint8Array(buffer, recordsAt, played).slice() };
  }

  // Where a line stops being a header, or a move: the column, in bytes from 1, and what is expected
  // there. Null if it does not.
  stop(line, isMove) {
    const bytes = bytesOf(line);
    this.lend(bytes.length).set(bytes, this.base);
    this.text = null;
    const asked = [this.base, bytes.length, isMove].map(BigInt);
    const column = Number(this.exports.stops_at(...asked));
    return column ? { column, expected: EXPECTED[Number(this.exports.expected(...asked))] } : null;
  }
}

// The bytes with other line numbers: the first is at `first`, and another one after every `step`.
function inLines(bytes, first, step, lineNow) {
  const copy = bytes.slice();
  const view = new DataView(copy.buffer);
  for (let at = first; at < copy.length; at += step) {
    view.setUint32(at, lineNow(view.getUint32(at, true)), true);
  }
  return copy;
}

// An answer of the machine, if its text's lines had other numbers.
export const answerInLines = (state, records, lineNow) => ({
  state: new State(inLines(state.bytes, LINE_AT, STATE_BYTES, lineNow)),
  records: inLines(records.bytes, 0, RECORD_BYTES, lineNow),
});

const threadAt = (thread) => THREADS_AT + THREAD_BYTES * thread;

/**
 * A state, as the machine has it or as it is read off the records.
 * @typedef {State | import('../model/state_after.js').StateAfter} AnyState
 */

// The state after the moves played, or the fault of a text.
export class State {
  /** @param {Uint8Array} bytes */
  constructor(bytes) {
    this.bytes = bytes;
    this.view = new DataView(bytes.buffer, bytes.byteOffset, bytes.byteLength);
  }

  number(at) { return this.view.getUint32(at, true); }
  get answer() { return this.number(0); }
  get reason() { return this.number(4); }
  get line() { return this.number(LINE_AT); }
  get wantedStep() { return this.number(12); }
  get kind() { return this.number(16); }
  get threads() { return this.number(20); }
  get bits() { return this.number(24); }
  get played() { return this.number(28); }
  get wordCount() { return this.number(36); }
  get holderKind() { return this.number(40); }
  get holders() { return [...this.bytes.subarray(64, 64 + this.number(44))]; }
  get queue() { return [...this.bytes.subarray(128, 128 + this.number(48))]; }
  phase(thread) { return this.bytes[threadAt(thread)]; }
  dueStep(thread) { return this.bytes[threadAt(thread) + 1]; }
  allows(thread, call) { return (this.bytes[threadAt(thread) + 2] >> call & 1) === 1; }
  // For an MCS lock: the words of the thread's record, and the value that names it.
  nextWord(thread) { return this.bytes[threadAt(thread) + 3]; }
  lockedWord(thread) { return this.bytes[threadAt(thread) + 4]; }
  recordName(thread) { return this.bytes[threadAt(thread) + 5]; }
  phaseNumber(thread) { return this.view.getBigUint64(threadAt(thread) + 8, true); }
  word(index) { return this.view.getBigUint64(WORDS_AT + 8 * index, true); }
}

// The records of all moves played. Moves are counted from 1.
export class Records {
  /** @param {Uint8Array} bytes */
  constructor(bytes) {
    this.bytes = bytes;
    this.view = new DataView(bytes.buffer, bytes.byteOffset, bytes.byteLength);
    this.count = bytes.length / RECORD_BYTES;
  }

  // The bytes of the first moves.
  first(count) { return this.bytes.subarray(0, count * RECORD_BYTES); }
  byte(move, at) { return this.bytes[(move - 1) * RECORD_BYTES + at]; }
  word(move, at) { return this.view.getUint16((move - 1) * RECORD_BYTES + at, true); }
  value(move, at) { return this.view.getBigUint64((move - 1) * RECORD_BYTES + at, true); }
  line(move) { return this.view.getUint32((move - 1) * RECORD_BYTES, true); }
  thread(move) { return this.byte(move, 4); }
  action(move) { return this.byte(move, 5); }
  kind(move) { return this.byte(move, 6); }
  isCall(move) { return !isStep(this.action(move)); }
  outcome(move) { return this.byte(move, 7); }
  phase(move) { return this.byte(move, 8); }
  standing(move) { return this.byte(move, 9); }
  touched(move) { return this.word(move, 10); }
  alsoChanged(move) { return this.word(move, 12); }
  due(move) { return this.byte(move, 14); }
  allows(move, call) { return (this.byte(move, 15) >> call & 1) === 1; }
  isUnlinked(move) { return (this.standing(move) & UNLINKED) !== 0; }
  waits(move) { return (this.standing(move) & WAITS) !== 0; }
  found(move) { return this.value(move, 16); }
  left(move) { return this.value(move, 24); }
  alsoFound(move) { return this.value(move, 32); }
  alsoLeft(move) { return this.value(move, 40); }
  phaseNumber(move) { return this.value(move, 48); }
}
