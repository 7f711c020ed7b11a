// Blanks and bytes of a line that cannot be seen. The first found is named, and taken away.

import { say, texts } from '../texts/texts.js';

const T = texts.faults;
const HIDDEN = /[\0-\x08\x0b\x0c\x0e-\x1f\x7f\u200b-\u200f\u2060\ufeff]/u;
const STRANGER = /[^\0-\x7f]/u;

const UNSEEN = [
  { found: /^\xff\xfe|^\xfe\xff|(?:[ -~]\0){2}|(?:\0[ -~]){2}/, says: T.utf16, mended: () => null },
  { found: /\r(?=[^\r])/, says: T.returnsAlone, mended: (line) => line.replace(/\r+/g, '\n') },
  { found: /^\uFEFF/, says: T.mark, mended: (line) => line.replace(/^\uFEFF/, '') },
  { found: /\r$/, says: T.returns, mended: (line) => line.replace(/\r+$/, ''), returns: true },
  { found: /\t/, says: T.tab, mended: (line) => line.replace(/\t+/g, ' ') },
  { found: / $/, says: T.blankEnd, mended: (line) => line.trimEnd() },
  { found: /^ /, says: T.blankStart, mended: (line) => line.trimStart() },
  { found: / {2}/, says: T.twoBlanks, mended: (line) => line.replace(/ {2,}/g, ' ') },
  { found: /\u00a0/, says: T.noBreak, mended: (line) => line.replace(/\u00a0/g, ' ') },
  {
    found: HIDDEN, says: T.unseen, mended: (line) => line.replace(new RegExp(HIDDEN, 'gu'), ''),
  },
  { found: STRANGER, says: T.stranger, mended: () => null },
];

const codeOf = (line, found) => {
  const [letter] = line.match(found);
  return { letter, code: `U+${letter.codePointAt(0).toString(16).toUpperCase().padStart(4, '0')}` };
};

// {say, mended, returns} as in an advice; null for a line of plain words.
export function unseenAdvice(line) {
  const unseen = UNSEEN.find(({ found }) => found.test(line));
  if (!unseen) return null;
  const says = say(unseen.says, codeOf(line, unseen.found));
  return { say: [says], mended: unseen.mended(line), returns: unseen.returns };
}
