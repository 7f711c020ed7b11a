// The lessons of examples/, and what the machine answers on them.

import { readFileSync, readdirSync } from 'node:fs';
import { join } from 'node:path';
import { faultAdvice } from '../src/model/fault_advice.js';
import { LOCKS } from '../src/locks/locks.js';
import { LOCK_NAMES } from '../src/machine/codes.js';
import { ownWords } from '../src/machine/locks_code.js';
import { Machine } from '../src/machine/machine.js';
import { remarksOf } from '../src/model/remarks.js';
import { Run } from '../src/model/run.js';
import { Recorder } from '../src/machine/stored_machine.js';

const GROUPS = [...LOCK_NAMES, 'refused', 'fault'];
// The group by the first word of a lesson's name.
const KINDS = {
  ...Object.fromEntries(LOCKS.map(({ lesson, name }) => [lesson, name])),
  refused: 'refused', fault: 'fault',
};

// In the order of the groups, and in each as examples/README.md names them.
export function lessonsOf(folder) {
  const order = readFileSync(join(folder, 'README.md'), 'utf8');
  const place = ({ name }) => order.indexOf(`\`${name}\``);
  const files = readdirSync(folder).filter((file) => file.endsWith('.schedule')).sort();
  const lessons = files.map((file) => {
    const text = readFileSync(join(folder, file));
    const name = file.replace('.schedule', '');
    const group = KINDS[name.split('-')[0]];
    if (!group) throw new Error(`${file}: of no group: ${Object.keys(KINDS).join(', ')}`);
    return { name, group, title: remarksOf(text).title || name, text: text.toString('base64') };
  });
  return lessons.sort((one, other) => GROUPS.indexOf(one.group) - GROUPS.indexOf(other.group)
    || place(one) - place(other));
}

// Each lesson played to its end, with what a page asks of it.
export function storedOf(module, lessons, ranges, lines) {
  const recorder = Object.assign(new Recorder(new Machine(module)), { ranges });
  for (const { text } of lessons) {
    const run = new Run(recorder, new Uint8Array(Buffer.from(text, 'base64')));
    if (run.hasLock) run.replayed(0);
    if (run.fault) faultAdvice(run, run.hasLock ? ownWords(lines[run.kind]) : []);
  }
  return recorder.kept();
}
