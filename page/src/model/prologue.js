// Why a lock: two threads add to one counter, each in three moves, and one of the additions is
// lost. No lock of the machine is in it.

// By the number of a thread whose move it is, and what the move does.
const MOVES = [[0, 'reads'], [1, 'reads'], [0, 'adds'], [1, 'adds'], [0, 'writes'], [1, 'writes']];
export const THREADS = [0, 1];
export const LAST = MOVES.length;

const ACTS = {
  reads: (state, thread) => { state.own[thread] = state.counter; },
  adds: (state, thread) => { state.own[thread] += 1; },
  writes: (state, thread) => { state.counter = state.own[thread]; },
};

// The counter, and what each thread has of its own, after so many moves; null for nothing yet.
export function stateAfter(count) {
  const state = { counter: 0, own: THREADS.map(() => null) };
  for (const [thread, does] of MOVES.slice(0, count)) ACTS[does](state, thread);
  return state;
}

// What a thread does in a move, or null if it is another's.
export const doesIn = (move, thread) => {
  const [mover, does] = MOVES[move - 1];
  return mover === thread ? does : null;
};
