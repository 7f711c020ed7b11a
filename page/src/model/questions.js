// The questions of the quiz: which moves are asked for, and what about them. Calls are not asked
// for, since their outcome is always the same. Neither a fixed answer nor "as it is now" is right
// more than half of the time. A wrong answer takes a point away, so such answers earn nothing.

import { OUTCOMES } from '../machine/codes.js';
import { holdersText, queueText } from './report.js';

/** @typedef {import('./run.js').Run} Run */

export const KINDS = ['outcome', 'holders', 'queue'];
// Longer schedules are asked for their first moves.
const MOST_ASKED = 400;

const truthOf = {
  outcome: (run, move) => OUTCOMES[run.records.outcome(move)],
  holders: (run, move) => holdersText(run.state(move)),
  queue: (run, move) => queueText(run.state(move)),
};

// The questions on a move: {kind, move, truth, same: whether it is as before}.
/** @param {Run} run */
function questionOf(run, move, kind) {
  const truth = truthOf[kind](run, move);
  const same = kind === 'outcome' ? truth === 'moved' : truth === truthOf[kind](run, move - 1);
  return { kind, move, truth, same };
}

// One question for each step, if possible on something that changes; the kinds take turns.
/** @param {Run} run */
function candidates(run) {
  const found = [];
  for (let move = 1; move <= Math.min(run.count, MOST_ASKED); move += 1) {
    if (run.records.isCall(move)) continue;
    const all = KINDS.map((_, i) => questionOf(run, move, KINDS[(i + found.length) % 3]));
    found.push(all.find(({ same }) => !same) ?? all[0]);
  }
  return found;
}

function counted(questions, classOf) {
  const counts = new Map();
  for (const one of questions) counts.set(classOf(one), (counts.get(classOf(one)) ?? 0) + 1);
  return counts;
}

// The test of a question for the answer, or "as before", that would be right for more than half.
function tooFrequent(questions) {
  const half = questions.length / 2;
  for (const classOf of [({ truth }) => truth, ({ same }) => same || undefined]) {
    for (const [what, count] of counted(questions, classOf)) {
      if (what !== undefined && count > half) return (one) => classOf(one) === what;
    }
  }
  return null;
}

// Removes questions, the last first, until no such answer is left.
function balanced(questions) {
  const left = [...questions];
  for (let test = tooFrequent(left); test; test = tooFrequent(left)) {
    left.splice(left.map(test).lastIndexOf(true), 1);
  }
  return left;
}

// By move.
/** @param {Run} run */
export function questionsOf(run) {
  const all = run.hasLock ? candidates(run) : [];
  const kept = KINDS.flatMap((kind) => balanced(all.filter((one) => one.kind === kind)));
  return new Map(kept.map((one) => [one.move, one]));
}
