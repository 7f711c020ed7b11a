// The locks' code, as docs/LOCKS.md has it: the build takes its blocks from there. A line knows
// its kind of step, its phase, and the words that a waiting section looks at.

import { LOCK_NAMES, PHASE } from './codes.js';

const LINE = /^(?<code>.*?)\s*(?:-- (?<kind>\w+) (?<phase>\w+)(?: looks at (?<words>.+))?)?$/;

function codeLine(text) {
  const { code, kind = '', phase = '', words = '' } = text.match(LINE).groups;
  return { code, kind, phase: PHASE[phase], call: phase, words: words ? words.split(', ') : [] };
}

// The blocks of docs/LOCKS.md, one for each lock.
export function codeOf(document) {
  return Object.fromEntries(LOCK_NAMES.map((lock) => {
    const block = document.split(`\n\`\`\`${lock}\n`)[1].split('\n```')[0];
    return [lock, block.split('\n')];
  }));
}

// The blocks' lines, in the order of the locks.
export const linesOf = (code) => LOCK_NAMES.map((lock) => code[lock].map(codeLine));

const WORD = /^\| (?<number>\d+) \| `(?<name>\w+)` \|$/gm;

// The names of each lock's words by their numbers, as the table above its block has them.
export function wordsOf(document) {
  return Object.fromEntries(LOCK_NAMES.map((lock) => {
    const above = document.split(`\n\`\`\`${lock}\n`)[0].split('\n## ').pop();
    const names = [];
    for (const { groups } of above.matchAll(WORD)) names[groups.number] = groups.name;
    return [lock, names];
  }));
}

// The waiting lines by phase.
export function awaitedLines(lines) {
  return new Map(lines.filter(({ code }) => code.trimStart().startsWith('await'))
    .map((line) => [line.phase, line]));
}

// The calls and kinds of step of a lock, as a schedule names them.
export function ownWords(lines) {
  const words = lines.filter(({ kind }) => kind && kind !== 'inside')
    .map(({ kind, call }) => (kind === 'call' ? call : kind));
  return [...new Set(words)];
}
