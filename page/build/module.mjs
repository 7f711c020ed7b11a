// The sources of the module, and the module of the page that is there, for a build without the kit:
//
//     node page/build/module.mjs FILE       writes the page's module into a file
//
// It is what the crates build to if they have the sum that the page carries: the sha256 of what
// `sha256sum` writes on all sources, sorted by path.

import { createHash } from 'node:crypto';
import { existsSync, mkdirSync, readdirSync, readFileSync, writeFileSync } from 'node:fs';
import { dirname, join } from 'node:path';
import { fileURLToPath } from 'node:url';
import { inflateSync } from 'node:zlib';
import { partOf } from './packing.mjs';

const TOP = join(dirname(fileURLToPath(import.meta.url)), '..', '..');
export const PAGE = join(TOP, 'built', 'lockreplay.html');
const CRATE = 'lk_page';
// What code, contracts and proofs are written in, and the folder that a build makes in a crate.
const SOURCE = /\.(?:rt|antt)$/;
const OUT = 'out';
const SUM = /^Sum of the module's sources: (?<sum>[0-9a-f]{64})$/m;

const sumOf = (bytes) => createHash('sha256').update(bytes).digest('hex');

// The crates and ports that a crate uses, as crates.txt lists them.
function usedBy(crate) {
  const lines = readFileSync(join(TOP, 'crates.txt'), 'utf8').split('\n')
    .map((line) => line.match(/[\w-]+/g) ?? []);
  return lines.find(([name]) => name === crate).slice(1);
}

const cratesOf = () => [CRATE, ...usedBy(CRATE).filter((name) => name.startsWith('lk_'))];

// The ports of others' crates that the module has.
export const portsOf = () => [...new Set(cratesOf().flatMap(usedBy))]
  .filter((name) => name !== 'staticlib' && !name.startsWith('lk_')).sort();

// The sources in a folder, by their paths from the top.
function sourcesIn(folder) {
  return readdirSync(join(TOP, folder), { withFileTypes: true }).flatMap((one) => {
    const path = `${folder}/${one.name}`;
    if (one.isDirectory()) return one.name === OUT ? [] : sourcesIn(path);
    return SOURCE.test(path) ? [path] : [];
  });
}

export function sourcesSum() {
  const paths = ['crates.txt', ...cratesOf().flatMap((crate) => sourcesIn(`crates/${crate}`))];
  const lines = paths.sort().map((path) => `${sumOf(readFileSync(join(TOP, path)))}  ${path}\n`);
  return sumOf(lines.join(''));
}

// The module that the page has, or nothing if it is not the one of these sources.
function keptModule() {
  const page = existsSync(PAGE) ? readFileSync(PAGE, 'utf8') : '';
  if (page.match(SUM)?.groups.sum !== sourcesSum()) return null;
  return inflateSync(Buffer.from(partOf(page, 'module'), 'base64'));
}

function keep(file) {
  const module = keptModule();
  if (!module) {
    console.error('The module of built/lockreplay.html was built of other sources: crates.txt, '
      + 'crates/lk_page or a crate that it uses has changed since. To build it anew, the kit is '
      + 'needed, with `rt` on the path.');
    process.exit(1);
  }
  mkdirSync(dirname(file), { recursive: true });
  writeFileSync(file, module);
  console.error('The module is the one of built/lockreplay.html, which was built of the same '
    + 'crates: the kit is not on the path.');
}

if (process.argv[1] === fileURLToPath(import.meta.url)) keep(process.argv[2]);
