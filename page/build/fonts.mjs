// The letters of the page as rules of its style, with the fonts of page/fonts in them.

import { readFileSync } from 'node:fs';
import { join } from 'node:path';

const FACES = [
  ['Page Sans', 400, 'normal', 'DejaVuSans'], ['Page Sans', 700, 'normal', 'DejaVuSans-Bold'],
  ['Page Sans', 400, 'italic', 'DejaVuSans-Oblique'],
  ['Page Mono', 400, 'normal', 'DejaVuSansMono'],
  ['Page Mono', 700, 'normal', 'DejaVuSansMono-Bold'],
  ['Page Mono', 400, 'italic', 'DejaVuSansMono-Oblique'],
];

export const facesOf = (folder) => FACES.map(([family, weight, style, file]) => {
  const bytes = readFileSync(join(folder, `${file}.woff2`)).toString('base64');
  return `@font-face { font-family: "${family}"; font-weight: ${weight}; font-style: ${style}; `
    + `src: url(data:font/woff2;base64,${bytes}) format("woff2"); }\n`;
}).join('');
