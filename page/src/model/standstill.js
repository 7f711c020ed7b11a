// Who can go on after the shown move, and who has to wait until others have gone on.

import { goesOnBy } from '../machine/finishing.js';

/** @typedef {import('./session.js').Session} Session */

// The word of the move by which each thread can go on, if it can; the threads that can, and those
// whose pending call has to wait.
/** @param {Session} session */
export function standstillOf({ machine, run, move }) {
  const state = run.state(move);
  const threads = Array.from({ length: run.threads }, (_, thread) => thread);
  const words = threads.map((thread) => goesOnBy(machine, run, move, thread));
  return {
    words,
    going: threads.filter((thread) => words[thread]),
    waiting: threads.filter((thread) => !words[thread] && state.dueStep(thread)),
  };
}
