// The terms of art that the page explains, in the words of docs/GLOSSARY.md.

import { readFileSync } from 'node:fs';

const TERMS = [
  'move', 'call', 'step', 'word', 'poll', 'failed poll', 'holder', 'queue', 'record', 'link',
  'late link', 'section', 'announce', 'linearization point', 'lock', 'thread', 'atomic', 'add',
  'swap', 'compare-and-swap', 'nil', 'monitor',
];
const ROW = /^\| (?<term>[^|]+?) \| (?<meaning>[^|]+?) \|$/gm;

// Without the signs of Markdown, and beginning like a sentence.
const plain = (text) => text.replace(/\[([^\]]*)\]\([^)]*\)/g, '$1').replace(/[`*]/g, '');

export function termsOf(path) {
  const rows = [...readFileSync(path, 'utf8').matchAll(ROW)].map(({ groups }) => groups);
  return Object.fromEntries(TERMS.map((term) => {
    const row = rows.find((one) => one.term === term);
    if (!row) throw new Error(`${path}: no row of ${term}`);
    return [term, plain(row.meaning)];
  }));
}
