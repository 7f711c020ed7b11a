// The kinds of transition of each lock, as the module gave them when the page was built: their
// names, the lines of a sketch of which each shortest run has one, and their sentences.

import { LOCK_NAMES } from '../machine/codes.js';
import { translated } from '../texts/language.js';

/** @typedef {import('./run.js').Run} Run */

const tables = {};

// {lock: [{name, sketch, says}, ..]}, before anything is drawn.
export function learnKinds(kinds) {
  const sentences = Object.entries(kinds).map(([lock, rows]) => (
    [lock, Object.fromEntries(rows.map(({ name, says }) => [name, says]))]));
  const says = translated('kinds', Object.fromEntries(sentences));
  for (const [lock, rows] of Object.entries(kinds)) {
    tables[lock] = rows.map((row) => ({ ...row, says: says[lock][row.name] }));
  }
}

// By the lock's name in schedules.
export const kindsOf = (lock) => tables[lock];

/** @param {Run} run */
export const kindOf = (run, move) => kindsOf(LOCK_NAMES[run.kind])[run.records.kind(move)];

// The first move of a run that is a transition of this kind, or 0.
/** @param {Run} run */
export function firstOf(run, kind) {
  const moves = Array.from({ length: run.count }, (_, at) => at + 1);
  return moves.find((move) => kindOf(run, move) === kind) ?? 0;
}
