// The page's words on lessons, lesson plans and lectures, in English.

export const lessons = {
  title: 'Lessons',
  what: [
    'This page plays four textbook locks one atomic step at a time: who holds the lock, who '
      + 'waits, and what is in memory.',
    'Choose a lesson (Enter), then press → for each move.',
  ],
  teaches: {
    ticket: 'First come, first served. Begin here.',
    mcs: 'Each thread waits at a word of its own.',
    'rw-simple': 'Readers share the lock. They can keep a writer out for ever.',
    'rw-fifo': 'A writer announces itself. Later readers wait for it.',
  },
  ways: {
    own: ['Your own', 'Write, open or drop a schedule.'],
    play: ['Play', 'Choose who moves next.'],
    find: ['Find a moment', 'Search for a shortest run with a move.'],
    plans: ['Teach', 'Four lesson plans of ten minutes.'],
  },
  size: (moves, minutes) => `${moves} moves, about ${minutes} min`,
  done: 'done', refusals: 'What is refused: wrong moves, and texts that are no schedules',
  ended: 'End. What to keep:', next: (title) => `Next: ${title}`, noMore: 'That was the last move.',
  allDone: {
    title: 'You have seen all lessons', open: 'What to keep of all lessons',
    lines: [
      'A lock lets in who may enter; the others poll until they may.',
      'A place in the queue is taken in one atomic step: an add or a swap.',
      'From then on the order stands, even if a link is still missing.',
      'Readers share a lock; a writer that is not announced can starve.',
      'Numbers begin again at 0, so only their equality counts.',
    ],
    ways: { why: 'Why each line is there', play: 'Play', quiz: 'Quiz' },
  },
  groups: {
    refused: 'Refused moves', fault: 'Texts that are not schedules',
  },
  kept: (most) => `Kept in this browser, the last ${most} at most`,
  keptMove: (place) => `at move ${place}`,
};

export const hall = { noFullScreen: 'The browser did not allow the full screen.' };

export const plans = {
  title: 'Lesson plans',
  hint: 'Ten minutes a lock, in hall mode. Page Down, as a clicker sends it, shows the answer, '
    + 'then goes on, through one plan after the other. Key 2 opens a window for you, with the '
    + 'clock.',
  minutes: (from, to) => `${from} to ${to} min`,
  place: (title, move) => `${title}, ${move}`,
  step: (at, count) => `Step ${at} of ${count}`,
  homework: 'Homework:', sheet: 'Exercise sheet', next: 'Next step N', last: 'End of the plan N',
  back: 'The step before', left: 'Minutes left',
  after: 'After the plan', ended: (lock) => `This was the plan of the ${lock}.`,
  nextPlan: (lock) => `Next plan: ${lock}`,
  end: 'End the lecture',
};

export const presenter = {
  title: 'lockreplay: for the presenter', now: 'This move', next: 'The next move',
  following: (title, move) => `Next step: ${title}, ${move}`,
  waits: 'The hall does not see the answer yet.',
  keys: 'Keys here: Page Down or → goes on, Page Up or ← goes back, A shows the answer, N goes to '
    + 'the next step, full stop blanks the screen, Escape ends the lecture.',
  blocked: 'The browser did not allow a second window.',
};
