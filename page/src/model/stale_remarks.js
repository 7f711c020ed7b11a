// Which remarks hold. A question and its answer belong to the moves before them, title and story to
// all moves of the text in which they were first met. A branch or an edit makes a text from another
// one: a remark whose moves changed may be false there.

import { lettersOf } from '../lib/bytes.js';
import { remarkOf } from './remarks.js';

/** @typedef {import('./run.js').Run} Run */

const FNV = 16777619;
const HASH = '#'.charCodeAt(0);
const SEEDS = [2166136261, 40389];

// For each count of moves a hash of the header and the moves up to it, as 32-bit numbers.
/** @param {Run} run */
function prefixMarks(run) {
  const marks = SEEDS.map(() => new Uint32Array(run.count + 1));
  SEEDS.forEach((seed, lane) => {
    let mark = [run.kind, run.threads, run.bits].reduce(
      (at, part) => Math.imul(at ^ part, FNV), seed);
    marks[lane][0] = mark;
    for (let move = 1; move <= run.count; move += 1) {
      const { records } = run;
      const made = records.thread(move) << 8 | records.action(move);
      mark = Math.imul(mark ^ made, FNV);
      marks[lane][move] = mark;
    }
  });
  return (moves) => marks.map((lane) => lane[moves]).join(':');
}

// The lines of a text that belong to moves: {line, key, moves}; of title and story `moves` is all.
/** @param {Run} run */
function boundLines(run) {
  if (!run.text.includes(HASH)) return [];
  const first = run.count ? run.records.line(1) : Infinity;
  const found = [];
  lettersOf(run.text).letters.split('\n').forEach((key, at) => {
    if (!key.startsWith('#')) return;
    const remark = remarkOf(key);
    const belongs = remark ? remark.what !== 'name' : at + 1 < first;
    if (belongs) found.push({ line: at + 1, key, moves: remark?.number ?? run.count });
  });
  return found;
}

export class BoundRemarks {
  constructor() {
    this.marks = new Map();
  }

  // The lines of the run's text that do not hold. A line that is met for the first time is bound
  // to the moves as they are here, once there are so many.
  stale(run) {
    const lines = run.hasLock ? boundLines(run) : [];
    if (!lines.length) return [];
    const markAt = prefixMarks(run);
    return lines.filter(({ key, moves }) => !this.holds(key, moves, run.count, markAt))
      .map(({ line }) => line);
  }

  holds(key, moves, count, markAt) {
    const known = this.marks.get(key);
    if (known) return known.moves <= count && known.mark === markAt(known.moves);
    if (moves <= count) this.marks.set(key, { moves, mark: markAt(moves) });
    return true;
  }
}
