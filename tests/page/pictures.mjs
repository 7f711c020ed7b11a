// Tests in Node where each part of a picture of memory is, in the picture's own units. The places
// were worked out by hand from the rules beside each picture.
//
//     node tests/page/pictures.mjs MODULE.wasm

import assert from 'node:assert/strict';
import { learnWords } from '../../page/src/machine/word_names.js';
import { lockOf } from '../../page/src/locks/locks.js';
import { Session } from '../../page/src/model/session.js';
import { looks } from '../../page/src/model/looks.js';
import { lines, machineOf, textOf, words } from './node.mjs';

// A pen whose letters are eight units wide, and nine in the font of values.
const pen = {
  font: '',
  measureText({ length }) { return { width: (this.font.endsWith('--mono') ? 9 : 8) * length }; },
};
Object.assign(globalThis, {
  document: { createElement: () => ({ getContext: () => pen }) },
  getComputedStyle: () => ({ getPropertyValue: (name) => name }),
});

learnWords(words);
const machine = machineOf();

const TAG = /<(?<end>\/?)(?<name>\w+)(?<rest>[^>]*?)(?<single>\/?)>|(?<text>[^<]+)/g;
const SHIFT = /transform="translate\((?<x>[\d.-]+),(?<y>[\d.-]+)\)"/;

// The tags of a picture, each with its text and with where the groups around it shift it.
function tagsOf(markup) {
  const [open, found] = [[{ x: 0, y: 0, text: '' }], []];
  for (const { groups } of markup.matchAll(TAG)) {
    const { end, name, rest, single, text } = groups;
    const within = open[open.length - 1];
    if (text) within.text += text.trim();
    else if (end) open.pop();
    else {
      const { x = 0, y = 0 } = rest.match(SHIFT)?.groups ?? {};
      const tag = { name, rest, x: within.x + Number(x), y: within.y + Number(y), text: '' };
      found.push(tag);
      if (!single) open.push(tag);
    }
  }
  return found;
}

const ofTag = ({ rest }, name) => rest.match(new RegExp(`\\b${name}="([^"]*)"`))?.[1];
const numberOf = (tag, name) => Number(ofTag(tag, name) ?? 0);
const placeOf = (tag, across = 'x', down = 'y') => (
  `${tag.x + numberOf(tag, across)} ${tag.y + numberOf(tag, down)}`);

const SHAPES = {
  rect: (tag) => `${placeOf(tag)} ${ofTag(tag, 'width')} ${ofTag(tag, 'height')}`,
  text: (tag) => `${placeOf(tag)} ${tag.text}`,
  circle: (tag) => `${placeOf(tag, 'cx', 'cy')} ${ofTag(tag, 'r')}`,
  path: (tag) => `${tag.x || tag.y ? `${tag.x} ${tag.y} ` : ''}${ofTag(tag, 'd')}`,
};

// The view of a schedule at its end.
function viewOf(lock, moves, wishes) {
  const session = new Session(machine, lines);
  session.open(textOf(lock, ...moves), null, Infinity);
  return session.view(wishes);
}

// The shapes of a picture by their names: of each its class, at which side of a text its place is
// if not at the left, and where it is.
function drawn(lock, moves, wishes) {
  const view = viewOf(lock, moves, { scale: 1, answered: true, ...wishes });
  const picture = lockOf(view.run).draw(view, view.run.state(view.move));
  const shapes = { height: picture.height, note: picture.note };
  for (const tag of tagsOf(picture.text).filter(({ name }) => name in SHAPES)) {
    const kind = `${ofTag(tag, 'class') ?? ''} ${ofTag(tag, 'text-anchor') ?? ''}`;
    (shapes[tag.name] ??= []).push(
      `${kind.split(' ').filter(Boolean).join(' ')}: ${SHAPES[tag.name](tag)}`);
  }
  return shapes;
}

function check(scene, lock, moves, wishes, shapes) {
  const found = drawn(lock, moves, wishes);
  for (const [name, all] of Object.entries(shapes)) {
    assert.deepEqual(found[name] ?? [], all, `${scene}: ${name}`);
  }
}

// A picture of this width, with room below it.
const wide = (width, more = {}) => ({ width, height: 900, ...more });

// Both threads of a ticket lock have a ticket, and the last move drew one.
const TICKETS = ['0 acquire', '0 add', '0 read', '1 acquire', '1 add'];
const [TWO_BITS, ALL_BITS] = ['lock ticket threads 2 bits 2', 'lock ticket threads 2 bits 64'];
const DIAL = ['hand inner: M150 132L150 94', 'hand outer: M150 173L150 192.8'];
// Words are beside each other from 576 units on, and what the hands are is beside the tickets from
// 640 on, else below the wheel.
check('ticket, wide', TWO_BITS, TICKETS, wide(640), {
  height: 258,
  circle: ['rim: 150 132 76', ': 150 56 15', ': 226 132 15', ': 150 208 15', ': 74 132 15',
    ': 150 24 13', ': 258 132 13', ': 323 130 13', ': 323 164 13'],
  path: [...DIAL, 'hand outer: M482 130h26', 'hand inner: M482 154h26'],
  rect: ['word changed: 310 40 112 28', 'word: 438 40 112 28', 'own: 346 116 112 28',
    'own: 346 150 112 28'],
  text: ['middle: 150 60.5 0', 'middle: 226 136.5 1', 'middle: 150 212.5 2', 'middle: 74 136.5 3',
    'middle: 150 28.5 0', 'middle: 258 136.5 1', 'note: 518 134 next_ticket',
    'note: 518 158 now_serving', 'mono word-name: 310 33 next_ticket',
    'mono value middle: 366 59 2', 'mono word-name: 438 33 now_serving',
    'mono value middle: 494 59 0', 'note: 310 102 2 bits: 4 numbers, then 0 again',
    'middle: 323 134.5 0', 'mono value middle: 402 135 ticket = 0', 'middle: 323 168.5 1',
    'mono value middle: 402 169 ticket = 1'],
});
check('ticket, hands below', TWO_BITS, TICKETS, wide(639), {
  height: 292, path: [...DIAL, 'hand outer: M88 258h26', 'hand inner: M88 282h26'],
});
check('ticket, words beside', TWO_BITS, TICKETS, wide(576), {
  rect: ['word changed: 310 40 112 28', 'word: 438 40 112 28', 'own: 346 116 112 28',
    'own: 346 150 112 28'],
});
check('ticket, words stacked', TWO_BITS, TICKETS, wide(575), {
  height: 292, rect: ['word changed: 310 40 112 28', 'word: 310 96 112 28', 'own: 346 156 112 28',
    'own: 346 190 112 28'],
});
// Narrower than 460 units, the variables are below the wheel, two in a row.
check('ticket, slim', TWO_BITS, TICKETS, wide(459), {
  height: 316,
  rect: ['word changed: 256 40 112 28', 'word: 256 96 112 28', 'own: 60 268 112 28',
    'own: 236 268 112 28'],
  path: ['hand inner: M122 132L122 94', 'hand outer: M122 173L122 192.8',
    'hand outer: M256 158h26', 'hand inner: M256 182h26'],
});
const slim = drawn(TWO_BITS, TICKETS, wide(459)).text;
assert.ok(slim.includes('note: 256 216 2 bits') && slim.includes('note: 292 162 next_ticket'));

// Five have tickets, and there is room for three places: the one between those of the first and
// of the last, who moved, is a fold.
const CROWD = [0, 1, 2, 3, 4].flatMap((thread) => [`${thread} acquire`, `${thread} add`]);
const FOLD = { height: 300, tight: true };
check('ticket, fold', 'lock ticket threads 5 bits 3', CROWD, { width: 459, ...FOLD }, {
  height: 350,
  rect: ['word changed: 256 40 112 28', 'word: 256 96 112 28', 'own: 60 268 112 28',
    'own: 198 269 30 26', 'own: 60 302 112 28'],
});

// Wide words: one cell for each ticket, as many in a row as have room.
check('ticket, cells', ALL_BITS, TICKETS, wide(700), {
  height: 232,
  rect: ['word: 24 40 120 28', 'word changed: 160 40 120 28', 'cell: 24 116 66 34',
    'cell: 98 116 66 34', 'cell next: 172 116 66 34'],
  circle: [': 57 170 13', ': 131 170 13'],
  text: ['mono word-name: 24 33 now_serving', 'mono value middle: 84 59 0',
    'mono word-name: 160 33 next_ticket', 'mono value middle: 220 59 2',
    'note: 24 104 Tickets in the order of the queue', 'mono value middle: 57 138 0',
    'middle: 57 174.5 0', 'mono value middle: 131 138 1', 'middle: 131 174.5 1',
    'mono value middle: 205 138 2', 'note middle: 205 168 next'],
});
check('ticket, two rows of cells', ALL_BITS, TICKETS, wide(196), {
  height: 324, rect: ['word: 24 40 120 28', 'word changed: 160 40 120 28', 'cell: 24 116 66 34',
    'cell: 98 116 66 34', 'cell next: 24 208 66 34'],
});
check('ticket, folded cells', 'lock ticket threads 5 bits 64', CROWD, { width: 344, ...FOLD }, {
  rect: ['word: 24 40 120 28', 'word changed: 160 40 120 28', 'cell: 24 116 66 34',
    'own: 116 120 30 26', 'cell: 172 116 66 34', 'cell next: 246 116 66 34'],
});
// Who passes the lock on has read whom it served.
check('ticket, served', ALL_BITS, [...TICKETS.slice(0, 3), '0 release', '0 read'], wide(700), {
  rect: ['word read: 24 40 120 28', 'word: 160 40 120 28', 'cell: 24 116 66 34',
    'cell next: 98 116 66 34', 'own: 296 40 112 28'],
  text: ['mono word-name: 24 33 now_serving', 'mono value middle: 84 59 0',
    'mono word-name: 160 33 next_ticket', 'mono value middle: 220 59 1',
    'note: 24 104 Tickets in the order of the queue', 'mono value middle: 57 138 0',
    'middle: 57 174.5 0', 'mono value middle: 131 138 1', 'note middle: 131 168 next',
    'mono value middle: 352 59 served = 0', 'note middle: 352 84 thread 0’s own variable'],
});

// Records are 156 wide, and up to 88 apart if there is room. The link of a thread that has just
// swapped is missing, and the swap wrote the tail.
const SWAPPED = ['0 acquire', '0 write', '0 swap', '1 acquire', '1 write', '1 swap'];
const HEAD = 'M0 10a10 10 0 0 1 10 -10h136a10 10 0 0 1 10 10v22h-156z';
check('mcs, wide', 'lock mcs threads 3', SWAPPED, wide(700), {
  height: 258, note: '',
  rect: ['word changed: 70 24 86 28', 'frame: 19 86 156 108', 'word: 90 126 74 28',
    'word: 90 159 74 28', 'frame: 263 86 156 108', 'plate: 269 90 144 23', 'word: 334 126 74 28',
    'word: 334 159 74 28', 'own: 263.5 206 155 28', 'frame: 507 86 156 108', 'word: 578 126 74 28',
    'word: 578 159 74 28'],
  path: ['link redirected: M156 38H331q10 0 10 10V82', `head: 19 86 ${HEAD}`,
    `head: 263 86 ${HEAD}`, `head: 507 86 ${HEAD}`, 'link missing: M178 140H259'],
  text: ['mono word-name strong: 24 43 tail', 'mono value middle: 113 43 T1', 'name: 33 107 T0',
    'standing end: 162 107 holds', 'mono field: 33 145 next', 'mono value middle: 127 145 nil',
    'mono field: 33 178 locked', 'mono value middle: 127 178 0', 'name: 277 107 T1',
    'standing end: 406 107 queue', 'mono field: 277 145 next', 'mono value middle: 371 145 nil',
    'mono field: 277 178 locked', 'mono value middle: 371 178 0',
    'mono value middle: 341 225 pred = T0', 'note middle: 341 251 thread 1’s own variable',
    'name: 521 107 T2', 'standing end: 650 107 idle', 'mono field: 521 145 next',
    'mono value middle: 615 145 nil', 'mono field: 521 178 locked', 'mono value middle: 615 178 0',
    'missing-text middle: 217 131 no link'],
});
// The link is written: it begins in the record's next.
const LINKED = [...SWAPPED, '1 write', '1 write'];
const links = (...given) => drawn(...given).path.filter((path) => path.startsWith('link'));
assert.deepEqual(links('lock mcs threads 3', LINKED, wide(700)),
  ['link: M156 38H331q10 0 10 10V82', 'link redirected: M163 140H259']);
// A record below the tail's box, and a link to a record in the next row.
assert.deepEqual(links('lock mcs threads 2', LINKED, wide(330)),
  ['link: M97 52V252', 'link redirected: M163 140h26V238H49V252']);
assert.deepEqual(links('lock mcs threads 2', SWAPPED, wide(330)),
  ['link redirected: M97 52V252', 'link missing: M163 140h26V238H49V252']);
// Two records have room from 336 units on, at 123 each. The third, of a thread that has called, is
// in the next row.
const CALLED = ['2 acquire', ...SWAPPED];
check('mcs, narrow', 'lock mcs threads 3', CALLED, wide(336), {
  height: 428,
  rect: ['word changed: 70 24 86 28', 'frame: 19 86 123 108', 'word: 90 126 41 28',
    'word: 90 159 41 28', 'frame: 194 86 123 108', 'plate: 200 90 111 23', 'word: 265 126 41 28',
    'word: 265 159 41 28', 'own: 194.5 206 122 28', 'frame: 19 256 123 108', 'word: 90 296 41 28',
    'word: 90 329 41 28'],
});
assert.ok(drawn('lock mcs threads 3', CALLED, wide(336)).text
  .includes('note middle: 255.5 251 own variable'), 'the name of its thread has no room');
assert.equal(drawn('lock mcs threads 3', CALLED, wide(335)).height, 598, 'one in each row');
// The queue is folded but for the thread that moved, and the link between both is one.
const QUEUE = [0, 1, 2, 3, 4, 5].flatMap((thread) => (
  ['acquire', 'write', 'swap'].map((word) => `${thread} ${word}`)));
check('mcs, folded', 'lock mcs threads 6', QUEUE, { width: 336, height: 270, tight: true }, {
  height: 258,
  rect: ['word changed: 70 24 86 28', 'own: 19 86 123 108', 'frame: 194 86 123 108',
    'plate: 200 90 111 23', 'word: 265 126 41 28', 'word: 265 159 41 28', 'own: 194.5 206 122 28'],
  text: ['mono word-name strong: 24 43 tail', 'mono value middle: 113 43 T5',
    'name middle: 80.5 144 5 more', 'name: 208 107 T5', 'standing end: 304 107 queue',
    'mono field: 208 145 next', 'mono value middle: 285.5 145 nil', 'mono field: 208 178 locked',
    'mono value middle: 285.5 178 0', 'mono value middle: 255.5 225 pred = T4',
    'note middle: 255.5 251 own variable', 'missing-text middle: 166 131 no link'],
});
// A second row of records has room from 412 units on.
assert.deepEqual([411, 412].map((height) => drawn('lock mcs threads 6', QUEUE,
  { width: 336, height, tight: true }).height), [258, 428]);
// Records and the tail's box are as wide as the longest name needs, as a value or in a head beside
// the longest standing, up to 240 and 170.
const named = (name) => drawn('lock mcs threads 2', [`#! name 0 ${name}`, ...SWAPPED], wide(700))
  .rect.filter((rect) => /^(frame|word changed):/.test(rect));
assert.deepEqual(named('A'.repeat(15)),
  ['word changed: 70 24 147 28', 'frame: 19 86 229 108', 'frame: 336 86 229 108']);
assert.deepEqual(named('A'.repeat(20)),
  ['word changed: 70 24 170 28', 'frame: 19 86 240 108', 'frame: 347 86 240 108']);
// Beside another run in a hall it is lower, and does not say whose a variable is.
looks.hall = true;
check('mcs, low', 'lock mcs threads 3', SWAPPED, wide(700, { compares: true }), {
  height: 214,
  rect: ['word changed: 70 24 86 28', 'frame: 19 64 156 108', 'word: 90 104 74 28',
    'word: 90 137 74 28', 'frame: 263 64 156 108', 'plate: 269 68 144 23', 'word: 334 104 74 28',
    'word: 334 137 74 28', 'own: 263.5 184 155 28', 'frame: 507 64 156 108', 'word: 578 104 74 28',
    'word: 578 137 74 28'],
});
const notes = (compares) => drawn('lock mcs threads 2', SWAPPED, wide(700, { compares })).text
  .filter((one) => one.startsWith('note'));
assert.deepEqual([notes(true), notes(false)],
  [[], ['note middle: 341 251 thread 1’s own variable']]);
// Records are further apart there, so that a missing link has room for its text.
const columns = (width) => drawn('lock mcs threads 2', SWAPPED, wide(width)).rect
  .filter((rect) => rect.startsWith('frame')).map((rect) => rect.split(' ').slice(1).join(' '));
assert.deepEqual([columns(358), columns(357)], [['19 86 123 108', '216 86 123 108'],
  ['19 86 156 108', '19 256 156 108']]);
looks.hall = false;

// A reader is inside, a writer has polled in vain, and another reader has called.
const INSIDE = ['0 rlock', '0 section', '1 wlock', '1 section', '2 rlock'];
check('simple, wide', 'lock rw-simple threads 3', INSIDE, wide(700), {
  height: 180,
  rect: ['word: 24 40 108 28', 'word: 152 40 108 28', 'room: 24 92 272 76'],
  circle: [': 48 142 13', ': 349 64 13', ': 349 98 13'],
  text: ['mono word-name: 24 33 readers', 'mono value middle: 78 59 1',
    'mono word-name: 152 33 flag', 'mono value middle: 206 59 0',
    'room-name: 38 115 inside: reads', 'middle: 48 146.5 0', 'room-name: 336 38 at the monitor',
    'middle: 349 68.5 1', 'wants: 372 63 wants to write', 'note: 372 78 failed poll',
    'middle: 349 102.5 2', 'wants: 372 103 wants to read'],
});
// From 600 units on the monitor is beside the room, which has 44 % of the width then.
check('simple, beside', 'lock rw-simple threads 3', INSIDE, wide(600), {
  height: 180, rect: ['word: 24 40 108 28', 'word: 152 40 108 28', 'room: 24 92 264 76'],
  circle: [': 48 142 13', ': 341 64 13', ': 341 98 13'],
});
check('simple, below', 'lock rw-simple threads 3', INSIDE, wide(599), {
  height: 276, rect: ['word: 24 40 108 28', 'word: 152 40 108 28', 'room: 24 92 272 76'],
  circle: [': 48 142 13', ': 37 220 13', ': 37 254 13'],
});
check('simple, compared', 'lock rw-simple threads 3', INSIDE, wide(700, { compares: true }), {
  height: 180, circle: [': 48 142 13'],
});
check('simple, nobody', 'lock rw-simple threads 3', [], wide(700), {
  text: ['mono word-name: 24 33 readers', 'mono value middle: 78 59 0',
    'mono word-name: 152 33 flag', 'mono value middle: 206 59 0', 'room-name: 38 115 inside',
    'note: 38 146 nobody', 'room-name: 336 38 at the monitor', 'note: 336 68 nobody'],
});
// Seven readers have room beside each other in a room of 272 units.
const READERS = [0, 1, 2, 3, 4, 5, 6, 7].flatMap((thread) => (
  [`${thread} rlock`, `${thread} section`]));
check('simple, two rows', 'lock rw-simple threads 8', READERS, wide(700), {
  height: 212, rect: ['word changed: 24 40 108 28', 'word: 152 40 108 28', 'room: 24 92 272 108'],
  circle: [48, 80, 112, 144, 176, 208, 240].map((x) => `: ${x} 142 13`).concat(': 48 174 13'),
});
// With less room the readers between are folded, but for the one that moved.
const [CALLS, TIGHT] = [Array.from({ length: 20 }, (_, thread) => `${thread} rlock`), '9 runlock'];
const folds = drawn('lock rw-simple threads 20',
  [...CALLS.flatMap((call) => [call, call.replace('rlock', 'section')]), TIGHT],
  { width: 700, height: 300, tight: true });
assert.deepEqual(folds.text.filter((one) => one.includes('+')),
  ['note middle: 144 146.5 +3', 'note middle: 144 178.5 +5']);
assert.ok(folds.rect.includes('room: 24 92 272 108'));

// The counts of readers on a wheel; the writer is announced, and a reader polls in vain.
const ANNOUNCED = ['0 rlock', '0 section', '1 wlock', '1 section', '2 rlock', '2 section'];
const COUNTS = ['hand inner: M104 160L104 131', 'hand outer: M135.3 160L150.4 160'];
const FIFO = 'lock rw-fifo threads 3 bits';
check('fifo, wide', `${FIFO} 2`, ANNOUNCED, wide(768), {
  height: 246,
  rect: ['word: 24 40 108 28', 'word: 144 40 108 28', 'word: 264 40 70 28', 'room: 214 92 250 76'],
  path: [...COUNTS, 'hand outer: M366 46h26', 'hand inner: M366 66h26'],
  circle: ['rim: 104 160 58', ': 104 102 15', ': 162 160 15', ': 104 218 15', ': 46 160 15',
    ': 238 142 13', ': 501 64 13', ': 501 98 13'],
});
// Where the monitor is and how tall the picture is, by the bits and the width: beside the words,
// beside the room, below it, or below the wheel. Without a wheel the room is further left.
const monitor = (bits, width) => {
  const { text, height } = drawn(`${FIFO} ${bits}`, ANNOUNCED, wide(width));
  return [text.find((one) => one.endsWith('at the monitor')).split(' ').slice(1, 3).join(' '),
    height].join(', ');
};
const MONITORS = [[2, 768, '488 38, 246'], [2, 767, '218 194, 276'], [2, 464, '218 194, 276'],
  [2, 463, '24 286, 368'], [8, 638, '358 38, 180'], [8, 637, '298 106, 188'],
  [8, 578, '298 106, 188'], [8, 577, '28 194, 276'], [8, 274, '28 194, 276'],
  [8, 273, '24 194, 276']];
for (const [bits, width, due] of MONITORS) {
  assert.equal(monitor(bits, width), due, `${bits} ${width}`);
}
// What the hands are is below the wheel in a narrow picture.
assert.deepEqual([504, 503].map((width) => drawn(`${FIFO} 2`, [], wide(width)).path.slice(2)),
  [['hand outer: M366 46h26', 'hand inner: M366 66h26'],
    ['hand outer: M36 244h26', 'hand inner: M36 264h26']]);
check('fifo, without a wheel', `${FIFO} 8`, ANNOUNCED, wide(700), {
  rect: ['word: 24 40 108 28', 'word: 144 40 108 28', 'word: 264 40 70 28', 'room: 24 92 250 76'],
  circle: [': 48 142 13', ': 371 64 13', ': 371 98 13'], path: [],
});

// A wheel has up to 32 places, whose discs then have 0.8 of the room between two.
const rims = (bits) => drawn(`lock ticket threads 1 bits ${bits}`, [], wide(700)).circle ?? [];
assert.deepEqual([rims(5).length, rims(6).length], [33, 0]);
assert.equal(Number(rims(5)[1].split(' ').pop()).toFixed(3), (Math.PI * 76 / 40).toFixed(3));

// A wish that is too long for the picture is cut. In a picture of 200 units four callers have room,
// of which one is a fold.
const cut = drawn(`${FIFO} 8`, ANNOUNCED.slice(0, 4), wide(274)).text;
assert.ok(cut.includes('wants: 64 225 announced, awaits the re…'), cut.join('; '));
const low = drawn('lock rw-simple threads 12', CALLS.slice(0, 12),
  { width: 700, height: 200, tight: true });
assert.deepEqual(low.text.filter((one) => one.startsWith('wants')),
  ['wants: 372 69 wants to read', 'wants: 372 103 9 more', 'wants: 372 137 wants to read',
    'wants: 372 171 wants to read']);

// A question that asks for values covers those of words, variables and cells, and the hands.
const ASKS = ['#! ask 5 hide values : Which ticket?', '#! answer 5 Ticket 1.', ...TICKETS];
const covered = (lock) => drawn(lock, ASKS, wide(700, { answered: false }));
assert.deepEqual(covered(TWO_BITS).text.filter((one) => one.startsWith('mono value')),
  ['mono value middle: 366 59 ?', 'mono value middle: 494 59 ?',
    'mono value middle: 402 135 ticket = ?', 'mono value middle: 402 169 ticket = ?']);
assert.deepEqual(covered(TWO_BITS).path.length, 2, 'what the hands are is said');
assert.deepEqual(covered(ALL_BITS).text.filter((one) => one.endsWith('?')).length, 5);

// One for standings covers who has a ticket, who is inside and whether it reads, and the standing
// and the order of records.
const standings = (lock, moves) => drawn(lock, [`#! ask ${moves.length} hide standing : Who?`,
  `#! answer ${moves.length} See.`, ...moves], wide(700, { answered: false }));
assert.deepEqual(standings(ALL_BITS, TICKETS).text.slice(-2),
  ['note: 24 104 Tickets in the order of the queue', 'note: 24 138 hidden until the answer']);
assert.deepEqual(standings(TWO_BITS, TICKETS).rect.length, 2, 'no variable');
assert.deepEqual(standings('lock rw-simple threads 3', INSIDE.slice(0, 2)).text.slice(-4),
  ['room-name: 38 115 inside', 'note: 38 146 ?', 'room-name: 336 38 at the monitor',
    'note: 336 68 nobody']);
const unsaid = standings('lock mcs threads 3', SWAPPED);
assert.deepEqual([unsaid.text.filter((one) => one.startsWith('standing')), unsaid.path.slice(4)],
  [[162, 406, 650].map((x) => `standing end: ${x} 107 ?`), []]);

// How wide a picture has to be to be drawn at its full size: four records at most, each as wide as
// its head needs, or names.
const least = (lock, moves = []) => {
  const view = viewOf(lock, moves);
  return lockOf(view.run).leastWidth(view, view.run.state(view.move));
};
assert.deepEqual([TWO_BITS, ALL_BITS, 'lock rw-simple threads 2', `${FIFO} 2`, `${FIFO} 8`]
  .map((lock) => least(lock)), [466, 446, 420, 494, 358]);
assert.deepEqual([2, 4, 12].map((threads) => least(`lock mcs threads ${threads}`)),
  [336, 686, 710]);
assert.equal(least('lock mcs threads 2', ['#! name 0 Ann']), 402);
