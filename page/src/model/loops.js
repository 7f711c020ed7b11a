// Runs that go on for ever: a comment says where moves begin that lead back to the position before
// them, as `locktrace find` writes it. A comment that the moves do not bear out says nothing.

import { lettersOf } from '../lib/bytes.js';

/**
 * The moves that repeat, from the first to the last of the run.
 * @typedef {import('./run.js').Run} Run
 * @typedef {object} Loop
 * @property {number} first
 * @property {number} last
 */

const HASH = '#'.charCodeAt(0);
const AGAIN = /^# from line \d+ on, again and again$/gm;

const upTo = (count) => Array.from({ length: count }, (_, at) => at);

// Whether the run is after so many moves where it is at its end.
/** @param {Run} run */
function comesBack(run, moves) {
  const [then, end] = [moves, run.count].map((at) => run.state(at));
  const same = (count, part) => upTo(count).every((at) => part(then, at) === part(end, at));
  return same(run.end.wordCount, (state, word) => state.word(word))
    && same(run.threads, (state, thread) => state.phase(thread))
    && same(run.threads, (state, thread) => state.phaseNumber(thread))
    && [then.holders, then.holderKind, then.queue].join(';')
      === [end.holders, end.holderKind, end.queue].join(';');
}

// The lines of the text with the comment.
function linesThatSay(text) {
  if (!text.includes(HASH)) return [];
  const { letters } = lettersOf(text);
  return [...letters.matchAll(AGAIN)]
    .map(({ index }) => letters.slice(0, index).split('\n').length);
}

/**
 * What repeats in a run, or null.
 * @param {Run} run
 * @param {number[]} leftOut lines of the text that do not count
 * @returns {Loop | null}
 */
export function loopOf(run, leftOut) {
  if (!run.hasLock || run.refusal || run.fault) return null;
  const before = linesThatSay(run.text).filter((line) => !leftOut.includes(line))
    .map((line) => run.movesThrough(line))
    .find((moves) => moves < run.count && comesBack(run, moves));
  return before === undefined ? null : { first: before + 1, last: run.count };
}
