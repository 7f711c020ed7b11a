// The moves that may come next: for each thread its due step, or the calls that the machine would
// accept.

import { throughLine } from '../lib/bytes.js';
import { CALLS, MOST_BYTES, MOST_MOVES, MOVES } from '../machine/codes.js';
import { ownWords } from '../machine/locks_code.js';

/** @typedef {import('../machine/machine.js').AnyState} State */

const LONGEST_LINE = 32;

// Whether a schedule may have more moves than these.
export const mayGoOn = (move, moves = 1) => move + moves <= MOST_MOVES;

// Whether the schedule up to its current move, with more moves, stays within its limits. What a
// trace says beyond its schedule does not count.
/** @param {import('./session.js').Session} session */
export function hasRoom(session, moves = 1) {
  const { move, run: { played } } = session;
  const most = MOST_BYTES - moves * LONGEST_LINE;
  return mayGoOn(move, moves)
    && (played.length <= most || throughLine(played, session.line()).length <= most);
}

// The moves that the machine accepts next from a thread, as words of a schedule.
/** @param {State} state */
function acceptedMoves(state, thread) {
  const due = state.dueStep(thread);
  if (due) return [{ word: MOVES[due], look: 'due' }];
  return CALLS.filter((call) => state.allows(thread, call))
    .map((call) => ({ word: MOVES[call], look: 'may' }));
}

// What a thread can be told to do. With `every` these are all moves of the lock, whether they would
// be accepted or not, and nothing shows which would be.
export function choicesOf({ run, move, lines }, thread, every) {
  if (thread >= run.threads) return [];
  if (!every) return acceptedMoves(run.state(move), thread);
  return ownWords(lines[run.kind]).map((word) => ({ word, look: '' }));
}
