// The numbers of the machine's records and states, by name, as crates/lk_page writes them.

// generated: locks by number
export const LOCK_NAMES = ['ticket', 'mcs', 'rw-simple', 'rw-fifo'];
// end

// The word in a schedule of each move: of calls, and from FIRST_STEP on of steps.
export const MOVES = {
  // generated: numbers of moves
  0: 'acquire', 1: 'release', 2: 'rlock', 3: 'runlock', 4: 'wlock', 5: 'wunlock', 6: 'downgrade',
  16: 'read', 17: 'write', 18: 'swap', 19: 'cas', 20: 'add', 21: 'section',
  // end
};
const FIRST_STEP = 16;
export const isStep = (action) => action >= FIRST_STEP;
export const CALLS = Object.keys(MOVES).map(Number).filter((action) => !isStep(action));
// generated: outcomes by number
export const OUTCOMES = ['called', 'moved', 'waits', 'entered', 'left'];
// end
export const PHASES = [
  // generated: phases by number
  'Idle', 'TakeTicket', 'AwaitTurn', 'TicketInside', 'ReadServing', 'PassOn', 'ClearNext',
  'SwapTail', 'SetLocked', 'LinkTo', 'AwaitGrant', 'McsInside', 'ReadNext', 'CasTail', 'AwaitLink',
  'Grant', 'TryRead', 'Reading', 'LeaveRead', 'TryWrite', 'AwaitReaders', 'Writing', 'LeaveWrite',
  'TryDowngrade',
  // end
];
export const FAULTS = {
  // generated: faults of texts
  16: 'NoHeader', 17: 'BadHeader', 18: 'BadThreads', 19: 'WordsTooNarrow', 20: 'BadLine',
  21: 'TooLong', 22: 'TooManyMoves', 23: 'OutOfMemory',
  // end
};
export const REFUSALS = [
  // generated: refusals by number
  '', 'NoSuchThread', 'WrongLock', 'Busy', 'NotHolder', 'AlreadyHolds', 'NoCall', 'WrongStep',
  // end
];
// The words of locks that a line of a trace may name.
export const WORDS = [
  '',
  // generated: places
  'next_ticket', 'now_serving', 'tail', 'next', 'locked',
  // end
];
// The faults of a trace that are differences from its lock.
export const DIFFERENCES = {
  // generated: differences
  8: 'OtherWord', 9: 'FoundOther', 10: 'LeftOther', 11: 'WroteOther', 12: 'CountNotAbove',
  13: 'OtherOutcome',
  // end
};
// The words that may come next in a header or a move.
export const EXPECTED = [
  // generated: expected by number
  '', 'lock', 'name', 'threads', 'count', 'bits', 'width', 'thread', 'action', 'end',
  // end
];

export const ANSWER = { accepted: 0, refused: 1, fault: 2, short: 3 };
export const OUTCOME = Object.fromEntries(OUTCOMES.map((name, code) => [name, code]));
export const PHASE = Object.fromEntries(PHASES.map((name, code) => [name, code]));

// Bits of a record's standing, what is no word, and limits of a schedule text. Those of its numbers
// the build asks the module for.
// generated: constants
export const HOLDS = 1;
export const IN_QUEUE = 2;
export const AS_WRITER = 4;
export const UNLINKED = 8;
export const WAITS = 16;
export const NO_WORD = 65535;
export const MOST_BYTES = 1048576;
export const MOST_MOVES = 65536;
// end
