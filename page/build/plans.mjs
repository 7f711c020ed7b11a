// The lesson plans of examples/plans.json. A step without a question of its own asks that of its
// lesson at its move.

import { readFileSync } from 'node:fs';
import { LOCK_NAMES } from '../src/machine/codes.js';

export function plansOf(path, lessons) {
  const plans = JSON.parse(readFileSync(path, 'utf8'));
  const names = lessons.map(({ name }) => name);
  for (const { lock, steps, homework } of plans) {
    const wrong = [...steps, homework].find(({ lesson }) => !names.includes(lesson));
    if (!LOCK_NAMES.includes(lock) || wrong) throw new Error(`${path}: ${lock} ${wrong?.lesson}`);
  }
  return plans;
}
