// The write that ended a wait, and the step that found it. A move's record says whether its thread
// waits after it. A wait begins with the first such move and goes on through failed polls. It was
// ended by the last change of a word that is polled.

import { placeAfter } from '../lib/ascending.js';
import { NO_WORD, OUTCOME } from '../machine/codes.js';

/** @typedef {import('../machine/machine.js').Records} Records */
/** @typedef {import('./run.js').Run} Run */

// The words whose last change may have ended a wait in this phase. A section's line of code names
// them; a step of one operation looks at the word that its record names.
function watchedWords(lines, wordNames, phase, touched) {
  const line = lines.get(phase);
  return line.words.length ? line.words.map((name) => wordNames.indexOf(name)) : [touched];
}

/** @param {Records} records */
function noteChanges(records, move, changedAt) {
  if (records.touched(move) !== NO_WORD && records.left(move) !== records.found(move)) {
    changedAt.set(records.touched(move), move);
  }
  if (records.alsoChanged(move) !== NO_WORD) changedAt.set(records.alsoChanged(move), move);
}

// The move with which the wait of the thread began; 0 if it does not wait after this move.
/** @param {Records} records */
function waitingSince(records, move, since) {
  if (!records.waits(move)) return 0;
  return records.outcome(move) === OUTCOME.waits && since ? since : move;
}

// Arrows {from, to} in the order of `to`. `awaited` has the waiting lines of the lock's code by
// phase.
/** @param {Run} run */
export function arrowsOf(run, awaited, wordNames) {
  const { records } = run;
  const arrows = [];
  const changedAt = new Map();
  const since = new Array(256).fill(0);
  const phase = new Array(256).fill(0);
  for (let move = 1; move <= records.count; move += 1) {
    const thread = records.thread(move);
    if (since[thread] && records.outcome(move) !== OUTCOME.waits) {
      const words = watchedWords(awaited, wordNames, phase[thread], records.touched(move));
      const from = Math.max(...words.map((word) => changedAt.get(word) ?? 0));
      if (from > since[thread] && records.thread(from) !== thread) arrows.push({ from, to: move });
    }
    since[thread] = waitingSince(records, move, since[thread]);
    phase[thread] = records.phase(move);
    noteChanges(records, move, changedAt);
  }
  return arrows;
}

// The arrows that end at moves `from` to `to`; `ends` has where each arrow ends.
export function arrowsBetween(arrows, ends, from, to) {
  return arrows.slice(placeAfter(ends, from - 1), placeAfter(ends, to));
}
