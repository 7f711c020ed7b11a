// Several PNG pictures of one size as one that moves, an APNG: the second and later frames are in
// chunks of another kind. https://www.w3.org/TR/png-3/

const SIGNATURE = 8;
const CRC = new Uint32Array(256).map((_, byte) => {
  let left = byte;
  for (let bit = 0; bit < 8; bit += 1) left = left & 1 ? 0xedb88320 ^ (left >>> 1) : left >>> 1;
  return left;
});

const crcOf = (bytes) => ~bytes.reduce((crc, byte) => CRC[(crc ^ byte) & 255] ^ (crc >>> 8), -1);

// Numbers of four bytes, as PNG has them.
function words(...numbers) {
  const bytes = new Uint8Array(4 * numbers.length);
  const view = new DataView(bytes.buffer);
  numbers.forEach((number, at) => view.setUint32(4 * at, number));
  return bytes;
}

const joined = (parts) => {
  const bytes = new Uint8Array(parts.reduce((sum, part) => sum + part.length, 0));
  let at = 0;
  for (const part of parts) {
    bytes.set(part, at);
    at += part.length;
  }
  return bytes;
};

function chunk(type, ...parts) {
  const checked = joined([new TextEncoder().encode(type), ...parts]);
  return joined([words(checked.length - type.length), checked, words(crcOf(checked))]);
}

// {type, data} of each chunk of a PNG.
function chunksOf(png) {
  const view = new DataView(png.buffer, png.byteOffset, png.byteLength);
  const found = [];
  for (let at = SIGNATURE; at < png.length;) {
    const length = view.getUint32(at);
    const type = String.fromCharCode(...png.subarray(at + 4, at + 8));
    found.push({ type, data: png.subarray(at + 8, at + 8 + length) });
    at += length + 12;
  }
  return found;
}

// Each frame is shown for `milliseconds`, and the last one for `last`.
export function animated(pngs, milliseconds, last) {
  const [head] = chunksOf(pngs[0]);
  const size = new DataView(head.data.buffer, head.data.byteOffset);
  const [width, height] = [size.getUint32(0), size.getUint32(4)];
  const parts = [pngs[0].subarray(0, SIGNATURE), chunk('IHDR', head.data),
    chunk('acTL', words(pngs.length, 0))];
  let number = 0;
  pngs.forEach((png, frame) => {
    const shown = frame === pngs.length - 1 ? last : milliseconds;
    const delay = new Uint8Array([shown >> 8, shown & 255, 1000 >> 8, 1000 & 255, 0, 0]);
    parts.push(chunk('fcTL', words(number, width, height, 0, 0), delay));
    number += 1;
    for (const { type, data } of chunksOf(png)) {
      if (type !== 'IDAT') continue;
      parts.push(frame ? chunk('fdAT', words(number), data) : chunk('IDAT', data));
      if (frame) number += 1;
    }
  });
  return joined([...parts, chunk('IEND')]);
}
