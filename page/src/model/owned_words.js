// In an MCS lock: whose a word is, and whose record a value names. The module says of each thread
// which words its record has and which value names it; the tail is the word that is nobody's.

// The words of each record.
const FIELDS = ['next', 'locked'];
export const isField = (word) => FIELDS.includes(word);

export class OwnedWords {
  // The words and values of a state's threads.
  constructor(state) {
    this.ofWord = new Map();
    this.words = new Map();
    this.ofValue = new Map();
    for (let thread = 0; thread < state.threads; thread += 1) {
      this.ofWord.set(state.nextWord(thread), { thread, field: 'next' });
      this.ofWord.set(state.lockedWord(thread), { thread, field: 'locked' });
      this.ofValue.set(state.recordName(thread), thread);
    }
    for (const [word, { thread, field }] of this.ofWord) this.words.set(`${field} ${thread}`, word);
    this.tail = 0;
    while (this.ofWord.has(this.tail)) this.tail += 1;
    // A lock without records has no value that names one.
    this.hasRecords = state.recordName(0) > 0;
  }

  // {thread, field}; undefined for the tail.
  at(word) { return this.ofWord.get(word); }
  // The word of a thread's field; -1 if there is none.
  wordOf(thread, field) { return this.words.get(`${field} ${thread}`) ?? -1; }
  // The thread; undefined for nil.
  named(value) { return this.ofValue.get(Number(value)); }
}
