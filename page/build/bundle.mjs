// Puts ES modules into one script: each becomes a function's result, those that it needs before
// it. It knows the two forms that page/src uses: `import { a, b } from '../x/y.js';` and `export`
// before a declaration.

import { readFileSync } from 'node:fs';
import { join, posix } from 'node:path';

const IMPORT = /^import \{([^}]+)\} from '(\.[\w./]+\.js)';\n/gm;
const EXPORT = /^export (async function|function|class|const) (\w+)/gm;

// Lines of comment, comments with types, empty lines and indents, which a reader finds in the
// sources.
const COMMENT = /^(?: *\/\/.*| *\/\*\*(?:.*\*\/|.*\n(?: *\*.*\n)*? *\*\/))?\n/gm;
const INDENT = /^ +/gm;

const path = (file, named) => posix.join(posix.dirname(file), named);

// A module as a variable's value. `variables` has those of the modules that it needs.
function wrapped(file, source, variables) {
  const names = [...source.matchAll(EXPORT)].map(([, , name]) => name);
  const body = source.replace(COMMENT, '').replace(INDENT, '')
    .replace(IMPORT, (_, list, from) => (
      `const {${list.replace(/\s/g, '')}} = ${variables.get(path(file, from))};\n`))
    .replace(EXPORT, '$1 $2');
  const other = body.match(/^(import|export) .*/m);
  if (other) throw new Error(`${file}: of another form: ${other[0]}`);
  const variable = variables.get(file);
  return `const ${variable} = (() => {\n${body}return { ${names.join(', ')} };\n})();\n`;
}

export function bundle(folder, first) {
  const [done, variables] = [[], new Map()];
  const add = (file, above) => {
    if (above.includes(file)) throw new Error(`modules in a circle: ${[...above, file].join(' ')}`);
    if (variables.has(file)) return;
    const source = readFileSync(join(folder, file), 'utf8');
    for (const [, , needed] of source.matchAll(IMPORT)) add(path(file, needed), [...above, file]);
    variables.set(file, `m${variables.size}`);
    done.push(wrapped(file, source, variables));
  };
  add(first, []);
  return `'use strict';\n${done.join('')}const { start } = ${variables.get(first)};`;
}
