// Tests in Node the quiz: how far one may go, what is hidden, the points, and what a reload brings
// back. The questions are those of moves 4 and 10, who holds then: both readers, and later the
// three that stay.
//
//     node tests/page/quiz_rules.mjs MODULE.wasm

import assert from 'node:assert/strict';
import { learnWords } from '../../page/src/machine/word_names.js';
import { Quiz } from '../../page/src/model/quiz.js';
import { Session } from '../../page/src/model/session.js';
import { lines, machineOf, textOf, words } from './node.mjs';

learnWords(words);
const READERS = [0, 1, 2, 3].flatMap((thread) => [`${thread} rlock`, `${thread} section`]);
const ALL = ['lock rw-simple threads 4', ...READERS, '0 runlock', '0 section', '1 runlock'];

const session = new Session(machineOf(), lines);
session.open(textOf(...ALL));
const quiz = new Quiz();
const now = (place) => {
  session.go(place);
  quiz.meet(session);
  return [quiz.limit(), quiz.hides(session), quiz.asks(session)];
};

assert.deepEqual([now(0), quiz.saved], [[Infinity, false, false], null]);
quiz.toggle(session);
assert.deepEqual([0, 2, 3].map(now), [[3, true, false], [3, true, false], [3, true, true]]);
assert.equal(JSON.parse(quiz.saved).on, true);
quiz.check(session, ' R0, 2');
const { kind, move, truth, right, said } = quiz.result;
assert.deepEqual([kind, move, truth, right, said], ['holders', 4, 'r0,1', false, '1 section']);
// Nothing is asked while it says what came of an answer, and a move is asked once.
assert.deepEqual([now(3), now(4)], [[9, true, false], [9, true, false]]);
quiz.clear();
assert.deepEqual([now(3), now(9)], [[9, true, false], [9, true, true]]);
quiz.check(session, 'R1,2, 3');
quiz.clear();
assert.deepEqual([quiz.score(), quiz.wrong.map((one) => one.move)],
  [{ right: 1, wrong: 1, points: 0 }, [4]]);
// Nothing is hidden once no question is left.
assert.deepEqual([9, 10, 11].map(now), Array(3).fill([Infinity, false, false]));

// The file for the teacher, and what a reload brings back.
quiz.name = 'Ann';
const [head, , when, ...rest] = quiz.report('page.html').split('\n');
assert.equal(head, '# lockreplay: answers of a quiz. A wrong answer takes a point away.');
assert.match(when, /^# \d{4}-\d\d-\d\dT\d\d:\d\d page\.html$/);
assert.deepEqual(rest, ['# Points: 0 (1 right, 1 wrong)', '', '# Your own schedule',
  '# Points: 0 (1 right, 1 wrong)', '- 4 1 section holders:  R0, 2 (r0,1)',
  '+ 10 0 section holders: R1,2, 3', '']);
const again = new Quiz();
again.bringBack(null);
assert.equal(again.saved, null);
again.bringBack(quiz.saved);
assert.deepEqual([again.on, again.name, again.score(), again.saved],
  [true, 'Ann', quiz.score(), quiz.saved]);
// Moves up to the one at which the quiz begins were seen, and a closed quiz asks for none.
again.toggle(session);
assert.deepEqual([again.on, again.limit(), again.hides(session), JSON.parse(again.saved).on],
  [false, Infinity, false, false]);
const late = new Quiz();
session.go(5);
late.meet(session);
late.toggle(session);
assert.deepEqual([late.limit(), late.hides(session)], [9, true]);
