// Tests in Node what the page stores in the browser: schedules of the reader's own, and which
// lessons are done. A size is that of the base64, which has four letters for three bytes.
//
//     node tests/page/stored_in_browser.mjs MODULE.wasm

import assert from 'node:assert/strict';
import { doneLessons, noteDone } from '../../page/src/model/done_lessons.js';
import {
  isKept, keepPlace, keepSchedule, keptSchedule, keptSchedules, newName,
} from '../../page/src/model/kept_schedules.js';
import { bytesOf } from './node.mjs';

// A storage with room for so many letters.
function storageOf(room) {
  const held = new Map();
  const used = () => [...held.values()].reduce((sum, { length }) => sum + length, 0);
  return { held, getItem: (key) => held.get(key) ?? null, removeItem: (key) => held.delete(key),
    setItem(key, text) {
      if (used() - (held.get(key)?.length ?? 0) + text.length > room) throw new Error('full');
      held.set(key, text);
    } };
}

function begin(storage) {
  Object.assign(globalThis, { localStorage: storage });
  return storage.held;
}

const listed = () => keptSchedules().map(({ name, place, title, size }) => (
  [name, place, title, size].join(' ')));
const [ONE, TWO, THREE] = ['lock mcs threads 1\n', 'lock mcs threads 2\n', '# Three\n']
  .map(bytesOf);

const held = begin(storageOf(Infinity));
assert.deepEqual([listed(), keptSchedule('a'), isKept(ONE)], [[], null, false]);
keepSchedule('a', ONE, 3, 'First');
assert.deepEqual([listed(), keptSchedule('a')], [['a 3 First 28'], { text: ONE, place: 3 }]);
assert.deepEqual([isKept(ONE), isKept(TWO)], [true, false], 'a text of the same size');
keepPlace('a', 5);
keepPlace('nobody', 7);
assert.deepEqual([listed(), keptSchedule('a').place], [['a 5 First 28'], 5]);
// The newest is the first. A text that is kept under another name takes the place of the other one,
// and one under the same name that of the text before.
keepSchedule('b', TWO, 0, 'Second');
assert.deepEqual(listed(), ['b 0 Second 28', 'a 5 First 28']);
keepSchedule('c', ONE, 1, 'First');
assert.deepEqual([listed(), keptSchedule('a')], [['c 1 First 28', 'b 0 Second 28'], null]);
keepSchedule('b', THREE, 2, 'Third');
assert.deepEqual(listed(), ['b 2 Third 12', 'c 1 First 28']);
assert.deepEqual([...held.keys()].sort(),
  ['lockreplay.kept', 'lockreplay.kept.b', 'lockreplay.kept.c']);
// A text that another tab has removed is not kept.
held.delete('lockreplay.kept.c');
assert.deepEqual([keptSchedule('c'), isKept(ONE), isKept(THREE)], [null, false, true]);
for (const damaged of ['{', 'null', '5', '{"name":"b"}']) {
  held.set('lockreplay.kept', damaged);
  assert.deepEqual(keptSchedules(), [], damaged);
}
held.set('lockreplay.kept', '[null,7,{"name":"b","place":4}]');
assert.deepEqual(keptSchedule('b'), { text: THREE, place: 4 });

// All texts together have fewer than 3,000,000 letters, and so has each.
begin(storageOf(Infinity));
keepSchedule('a', THREE, 0, 'a');
keepSchedule('b', new Uint8Array(2250000), 0, 'b');
assert.deepEqual(listed(), ['a 0 a 12']);
keepSchedule('b', new Uint8Array(2249997 - 9), 0, 'b');
assert.deepEqual(listed(), ['b 0 b 2999984', 'a 0 a 12']);
keepSchedule('c', bytesOf('#\n'), 0, 'c');
assert.deepEqual(listed(), ['c 0 c 4', 'b 0 b 2999984'], 'the oldest has no room');
// The last hundred are kept.
for (let at = 0; at < 101; at += 1) keepSchedule(`n${at}`, bytesOf(`# ${at}\n`), at, '');
assert.deepEqual([listed().length, listed()[0], listed()[99]], [100, 'n100 100  8', 'n1 1  8']);

// If the browser has less room, the oldest ones make room. Without any nothing is kept.
const full = begin(storageOf(200));
keepSchedule('a', ONE, 0, '');
keepSchedule('b', TWO, 0, '');
keepSchedule('c', new Uint8Array(75), 0, '');
assert.deepEqual([listed(), full.has('lockreplay.kept.a'), full.has('lockreplay.kept.b')],
  [['c 0  100'], false, false]);
begin(storageOf(0));
keepSchedule('a', ONE, 0, '');
assert.deepEqual([listed(), isKept(ONE)], [[], false]);

// Names differ, and have small letters and digits.
const names = Array.from({ length: 50 }, newName);
assert.ok(names.every((name) => /^[0-9a-z]{8,}$/.test(name)) && new Set(names).size > 40);

// A lesson is done once at its last place, if it has a move.
const done = begin(storageOf(Infinity));
const at = (lesson, place, last) => {
  noteDone({ lesson, place, run: { last } });
  return [...doneLessons()].join();
};
assert.deepEqual([at('a', 2, 3), at('a', 3, 3), at('b', 0, 0), at(null, 3, 3), at('c', 1, 1),
  at('a', 3, 3)], ['', 'a', 'a', 'a', 'a,c', 'a,c']);
assert.equal(done.get('lockreplay.done'), '["a","c"]');
for (const damaged of [']', '5', 'null']) {
  done.set('lockreplay.done', damaged);
  assert.equal(doneLessons().size, 0, damaged);
}
begin(storageOf(0));
assert.equal(at('a', 3, 3), '');
