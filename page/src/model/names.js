// The names of threads and of the values of words.

import { texts } from '../texts/texts.js';

const FEW = 4;
// What a name has that cannot be seen.
const UNSEEN = /[\p{C}\p{Z}\p{Default_Ignorable_Code_Point}]/gu;
const seenOf = (name) => name.replace(UNSEEN, '');

// The names that tell threads apart: one that cannot be seen is none, and equal ones get their
// numbers.
function told(given) {
  const seen = [...given].filter(([, name]) => seenOf(name));
  const isAlone = (name) => seen.filter(([, one]) => seenOf(one) === seenOf(name)).length === 1;
  return new Map(seen.map(([thread, name]) => (
    [thread, isAlone(name) ? name : `${name} (${thread})`])));
}

export class Names {
  constructor(given = new Map()) {
    this.given = told(given);
  }

  has(thread) { return this.given.has(thread); }
  of(thread) { return this.given.get(thread) ?? texts.thread(thread); }
  // Of a thread with a name also its number.
  numbered(thread) {
    const [name, number] = [this.of(thread), ` (${thread})`];
    return this.has(thread) && !name.endsWith(number) ? name + number : name;
  }
  // For a small mark: the number, or a name's first letter if no other name begins with it.
  mark(thread) {
    const name = this.given.get(thread);
    if (!name) return String(thread);
    const first = (one) => [...one][0].toUpperCase();
    const alike = [...this.given.values()].filter((other) => first(other) === first(name));
    return alike.length === 1 ? first(name) : String(thread);
  }
  short(thread) { return this.given.get(thread) ?? texts.shortThread(thread); }
  // Only the first few of many, and how many more.
  few(threads, say = (thread) => this.of(thread)) {
    const more = threads.length - FEW;
    const list = (some) => some.map((thread) => say(thread)).join(', ');
    if (more < 2) return list(threads);
    return `${list(threads.slice(0, FEW))}, ${texts.folded(more)}`;
  }
  list(threads) { return threads.map((thread) => this.of(thread)).join(', '); }
}
