// A difference of a trace from its lock in the words of both, and what could be its cause: where
// the value that was found is in the run, or the step that is missing. The module finds the
// difference.

import { LOCK_NAMES, MOVES, OUTCOMES } from '../machine/codes.js';
import { wordNames } from '../machine/word_names.js';
import { isField } from './owned_words.js';

/** @typedef {import('./run.js').Run} Run */
/** @typedef {import('../machine/traces.js').Said} Said */
/** @typedef {import('../machine/traces.js').Difference} Difference */

// A word's name as traces have it.
/** @param {Run} run */
export function wordText({ kind, owned }, word) {
  const owner = owned.hasRecords && owned.at(word);
  return owner ? `${owner.field} of ${owner.thread}` : wordNames(LOCK_NAMES[kind])[word];
}

// The same of the word that a line names.
/** @param {Said} said */
const givenWord = ({ word, of }) => (isField(word) ? `${word} of ${of}` : word);

// Whether a compare-and-swap wrote.
export const resultText = (records, move) => (
  records.left(move) === records.found(move) ? 'failed' : 'done');

// The count of the last section before a move whose line has one.
/** @param {Run} run */
function countBefore(run, move) {
  for (let one = move - 1; one > 0; one -= 1) {
    const count = run.said(one)?.count;
    if (count !== undefined) return count;
  }
  return 0n;
}

// What the line says of a difference, and what the lock has.
/** @type {Object<string, [(said: Said) => string | bigint, (run: Run, move: number) => any]>} */
const SIDES = {
  OtherWord: [givenWord, (run, move) => wordText(run, run.records.touched(move))],
  FoundOther: [({ found }) => found, ({ records }, move) => records.found(move)],
  LeftOther: [({ left }) => left, ({ records }, move) => records.left(move)],
  WroteOther: [({ result }) => result, ({ records }, move) => resultText(records, move)],
  CountNotAbove: [({ count }) => count, countBefore],
  OtherOutcome: [({ outcome }) => outcome,
    ({ records }, move) => OUTCOMES[records.outcome(move)]],
};

// The line of a later step of the same call on the word of the lock's step, or 0.
/** @param {Run} run */
function swappedWith(run, move) {
  const { records } = run;
  const own = wordText(run, records.touched(move));
  const moves = run.movesOf.get(records.thread(move)).filter((one) => one > move);
  const calls = moves.findIndex((one) => records.isCall(one));
  const found = (calls < 0 ? moves : moves.slice(0, calls)).find((one) => {
    const said = run.said(one);
    return said && givenWord(said) === own;
  });
  return found ? records.line(found) : 0;
}

const writes = (records, move) => MOVES[records.action(move)] !== 'read'
  && !(MOVES[records.action(move)] === 'cas' && resultText(records, move) === 'failed');

// The moves that wrote a word, in their order: {move, left}
/** @param {Run} run */
function writesOf({ records, movesOfWord: { touched, alsoChanged } }, word) {
  const first = (touched.get(word) ?? []).filter((move) => writes(records, move))
    .map((move) => ({ move, left: records.left(move) }));
  const second = (alsoChanged.get(word) ?? [])
    .map((move) => ({ move, left: records.alsoLeft(move) }));
  return [...first, ...second].sort((one, other) => one.move - other.move);
}

// The last move before this one that wrote a word, or 0.
/** @param {Run} run */
export function lastWrite(run, word, move = Infinity) {
  const before = writesOf(run, word).filter((one) => one.move < move);
  return before.length ? before[before.length - 1].move : 0;
}

// Where the word has the value that a line says its step found: up to the line of the write that
// replaced it, or from the line of a later write on. The nearer of the two, or nothing.
/** @param {Run} run */
function elsewhere(run, move, given) {
  const { records, begun } = run;
  const word = records.touched(move);
  const all = writesOf(run, word);
  const before = all.filter((one) => one.move < move);
  const values = [begun.word(word), ...before.map(({ left }) => left)];
  const ended = before[values.lastIndexOf(given, before.length - 1)];
  const begins = all.find((one) => one.move > move && one.left === given);
  if (ended && !(begins && begins.move - move <= move - ended.move)) {
    return { until: records.line(ended.move) };
  }
  return begins ? { from: records.line(begins.move) } : {};
}

/**
 * The refusal of a difference: what the line says and the lock has, and where what is missing there
 * could be.
 * @param {Run} run with all its moves
 * @param {Difference} difference
 */
export function refusalBy(run, { name, move }) {
  const { records } = run;
  const [given, own] = [SIDES[name][0](run.said(move)), SIDES[name][1](run, move)];
  return {
    name, given, own, line: records.line(move), wanted: 0, thread: records.thread(move),
    word: MOVES[records.action(move)], touched: records.touched(move),
    lastWrite: lastWrite(run, records.touched(move), move),
    ...(name === 'FoundOther' && elsewhere(run, move, /** @type {bigint} */ (given))),
    ...(name === 'OtherWord' && { swapped: swappedWith(run, move) }),
  };
}
