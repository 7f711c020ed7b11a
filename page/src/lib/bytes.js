// Texts as bytes: what a file holds is never changed by showing it.

const FEED = 10;

// Byte by byte, which is many times faster than with a function for each.
function agree(one, other, length) {
  let at = 0;
  while (at < length && one[at] === other[at]) at += 1;
  return at === length;
}

export function sameBytes(one, other) {
  return one === other || (one.length === other.length && agree(one, other, one.length));
}

// Whether the first lines of a text are these bytes, the last of them whole.
export function beginsWith(bytes, text) {
  const { length } = text;
  const whole = length === bytes.length || text[length - 1] === FEED || bytes[length] === FEED;
  return whole && length <= bytes.length && agree(text, bytes, length);
}

// A letter for each byte. A call takes only so many values.
function byteLetters(bytes) {
  let letters = '';
  for (let at = 0; at < bytes.length; at += 8192) {
    letters += String.fromCharCode(...bytes.subarray(at, at + 8192));
  }
  return letters;
}

export const toBase64 = (bytes) => btoa(byteLetters(bytes));

export function fromBase64(text) {
  return Uint8Array.from(atob(text), (letter) => letter.charCodeAt(0));
}

// Unpacks bytes in zlib's format, which Node 18 reads too. The oldest TypeScript that checks this
// lacks the browser's class.
export function unpacked(bytes) {
  const unpacking = new globalThis['DecompressionStream']('deflate');
  return new Response(new Blob([bytes]).stream().pipeThrough(unpacking)).arrayBuffer();
}

// Base64 for the fragment of a link.
export const toLink = (bytes) => toBase64(bytes)
  .replaceAll('+', '-').replaceAll('/', '_').replaceAll('=', '');
export const fromLink = (text) => fromBase64(text.replaceAll('-', '+').replaceAll('_', '/'));

// Bytes as letters. What is no UTF-8 is shown byte by byte, and goes back to the same bytes.
export function lettersOf(bytes) {
  const decoder = new TextDecoder('utf-8', { fatal: true, ignoreBOM: true });
  try {
    return { letters: decoder.decode(bytes), plain: false };
  } catch {
    return { letters: byteLetters(bytes), plain: true };
  }
}

/** @param {string} letters @param {boolean} [plain] */
export function bytesOf(letters, plain) {
  if (!plain || /[^\0-\xff]/.test(letters)) return new TextEncoder().encode(letters);
  return Uint8Array.from(letters, (letter) => letter.charCodeAt(0));
}

// The bytes before line `number`, counted from 1.
export function beforeLine(bytes, number) {
  let at = 0;
  for (let line = 1; line < number && at >= 0; line += 1) at = bytes.indexOf(FEED, at) + 1 || -1;
  return at < 0 ? bytes : bytes.subarray(0, at);
}

export const throughLine = (bytes, number) => beforeLine(bytes, number + 1);

// How many lines a text has, the last of them perhaps without a line feed.
export function linesIn(bytes) {
  let lines = 0;
  for (let at = 0; at < bytes.length; at = bytes.indexOf(FEED, at) + 1 || bytes.length) lines += 1;
  return lines;
}

// The text without some lines, which are counted from 1.
export function withoutLines(bytes, lines) {
  if (!lines.length) return bytes;
  let line = 1;
  let stays = !lines.includes(line);
  return bytes.filter((value) => {
    const kept = stays;
    if (value === FEED) stays = !lines.includes(line += 1);
    return kept;
  });
}

// Line `number` of the text as letters, without its line feed.
export function lineOf(bytes, number) {
  return lettersOf(lineFrom(bytes, beforeLine(bytes, number).length)).letters;
}

// The bytes from there on up to the end of the line.
export function lineFrom(bytes, start) {
  const end = bytes.indexOf(FEED, start);
  return bytes.subarray(start, end < 0 ? bytes.length : end);
}

// Where each line begins.
export function lineStarts(bytes) {
  const starts = [0];
  for (let at = bytes.indexOf(FEED); at >= 0; at = bytes.indexOf(FEED, at + 1)) starts.push(at + 1);
  return starts;
}
