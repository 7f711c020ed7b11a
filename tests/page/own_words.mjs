// Prints the calls and kinds of step of each lock that the page reads off docs/LOCKS.md, as JSON:
// {lock: [word, ..]}, sorted.
//
//     node tests/page/own_words.mjs

import { readFileSync } from 'node:fs';
import { LOCK_NAMES } from '../../page/src/machine/codes.js';
import { codeOf, linesOf, ownWords } from '../../page/src/machine/locks_code.js';

const document = readFileSync(new URL('../../docs/LOCKS.md', import.meta.url), 'utf8');
console.log(JSON.stringify(Object.fromEntries(linesOf(codeOf(document)).map(
  (lines, lock) => [LOCK_NAMES[lock], ownWords(lines).sort()],
))));
