// The page's words on why there are locks, in English. Values of a sentence are words' values.

export const prologue = {
  title: 'Why a lock?', number: 'move',
  teaser: 'Two threads add to one counter, and one addition is lost. Six moves, one minute.',
  intro: 'A thread is a part of a program that runs beside others. Ann and Bob are two threads, '
    + 'and each adds 1 to the same counter. That takes three moves: read the counter, add 1, '
    + 'write it back. Press → for each move.',
  names: ['Ann', 'Bob'], counter: 'counter', own: (who) => `${who} has`, nothing: 'nothing',
  does: { reads: 'reads', adds: 'adds 1', writes: 'writes' },
  says: [
    'Ann reads the counter: 0.', 'Bob reads it too: 0.', 'She adds 1. She has 1 now.',
    'He adds 1 to his 0. He has 1 too.', 'She writes 1 into the counter.',
    'He writes his 1 over it.',
  ],
  end: [
    'Both have added 1, and the counter is 1. One addition is lost.',
    'A lock lets one thread at a time do all three moves, and makes the others wait. But how does '
      + 'a lock itself not lose anything? It is made of atomic steps: nobody comes between the '
      + 'parts of one step.',
  ],
  back: 'Back', forward: 'Next move', begin: 'The first lesson',
};
