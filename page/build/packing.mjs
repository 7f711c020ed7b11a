// Bytes as the page has them: zlib's format in base64. Deflate may give other bytes on another
// machine, so those of the page that is there are taken if they unpack to the same.

import { existsSync, readFileSync } from 'node:fs';
import { deflateSync, inflateSync } from 'node:zlib';

// Whether it is these bytes, packed, and nothing after them.
function packs(letters, wanted) {
  const bytes = Buffer.from(letters, 'base64');
  try {
    const { buffer, engine } = inflateSync(bytes, { info: true });
    return buffer.equals(wanted) && engine.bytesWritten === bytes.length
      && bytes.toString('base64') === letters;
  } catch {
    return false;
  }
}

// A part of a page's data by its name, as it is packed.
export const partOf = (page, name) => (
  page.match(new RegExp(`"${name}":"(?<letters>[^"]*)"`))?.groups.letters);

// The bytes for the part of this name.
export function packed(bytes, path, name) {
  const there = existsSync(path) && partOf(readFileSync(path, 'utf8'), name);
  if (there && packs(there, bytes)) return there;
  return deflateSync(bytes, { level: 9 }).toString('base64');
}
