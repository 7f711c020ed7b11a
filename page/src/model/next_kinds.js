// What can happen next: the fewest moves from the shown state to each kind of transition, if each
// thread begins at most one more round. The module searches.

import { LOCK_NAMES } from '../machine/codes.js';
import { findNext, FOUND } from '../machine/search.js';
import { kindsOf } from './kinds.js';

/** @typedef {import('./run.js').Run} Run */

// The name of each kind that can be reached and the moves to it, the nearest first; and whether all
// other kinds are unreachable.
/** @param {Run} run */
function searched(machine, run, move) {
  const kinds = kindsOf(LOCK_NAMES[run.kind])
    .map(({ name }, kind) => ({ name, ...findNext(machine, run, move, kind) }));
  const ways = kinds.filter(({ answer }) => answer === FOUND.run)
    .map(({ name, moves }) => [name, moves])
    .sort(([, one], [, other]) => one.length - other.length);
  const whole = kinds.every(({ answer }) => answer === FOUND.run || answer === FOUND.nowhere);
  return { ways, whole };
}

export class NextKinds {
  constructor() { this.known = new WeakMap(); }

  // {ways, whole} after the shown move. Each is searched for once.
  after({ machine, run, move }) {
    if (machine.stored || !run.hasLock) return { ways: [], whole: true };
    if (!this.known.has(run)) this.known.set(run, new Map());
    const known = this.known.get(run);
    if (!known.has(move)) known.set(move, searched(machine, run, move));
    return known.get(move);
  }
}
