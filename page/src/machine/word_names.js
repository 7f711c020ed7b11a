// Which word of memory has which name: the build takes it from the tables of docs/LOCKS.md.

const tables = {};

// {lock: [the name of word 0, of word 1, ..]}, before anything is drawn.
export const learnWords = (named) => Object.assign(tables, named);

export const wordNames = (lock) => tables[lock];
export const wordNamed = (lock, name) => tables[lock].indexOf(name);

// What a word of a lock holds in a state, by its name.
export const heldIn = (lock) => (state, name) => state.word(wordNamed(lock, name));
