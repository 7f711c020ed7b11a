// Tests in Node the facts that the page reads off a lock's code, names and records: the names of
// threads, the first difference of two runs, the activities of threads, the write that ended each
// wait, the captions of memory, the wraps of counts, the answers of the quiz, and what is said of
// refused moves and of signs that cannot be seen. The values were made by hand, from docs/LOCKS.md
// and reports.
//
//     node tests/page/facts_of_locks.mjs MODULE.wasm

import assert from 'node:assert/strict';
import { LOCK_NAMES } from '../../page/src/machine/codes.js';
import { awaitedLines } from '../../page/src/machine/locks_code.js';
import { learnWords } from '../../page/src/machine/word_names.js';
import { arrowsBetween, arrowsOf } from '../../page/src/model/arrows.js';
import { firstDifference } from '../../page/src/model/compare_runs.js';
import { Names } from '../../page/src/model/names.js';
import { KINDS, questionsOf } from '../../page/src/model/questions.js';
import { Run } from '../../page/src/model/run.js';
import { Session } from '../../page/src/model/session.js';
import { spansOf, unlinkedSpans } from '../../page/src/model/spans.js';
import { learnKinds } from '../../page/src/model/kinds.js';
import { faultAdvice } from '../../page/src/model/fault_advice.js';
import { unseenAdvice } from '../../page/src/model/unseen_signs.js';
import { lockOf } from '../../page/src/locks/locks.js';
import { refusalFacts } from '../../page/src/locks/refusal_facts.js';
import { sentence } from '../../page/src/locks/sentences.js';
import { texts } from '../../page/src/texts/texts.js';
import { sheetPlan } from '../../page/src/view/sheet_plan.js';
import { kindsOf } from '../../page/build/kinds.mjs';
import { bytesOf, examples, lines, machineOf, module, textOf, words } from './node.mjs';

// From the write to the move that found what it waited for.
const ARROWS = {
  // A failed poll waits for the write of the next number.
  'ticket-hand-over': ['9 10'],
  // The link that came late, and the grant.
  'mcs-late-link': ['13 14', '15 16'],
  // The last reader leaves, for which the announced writer waits; then the writer leaves, for which
  // a reader waits. If a thread compares two counts, the one that changed last ends its wait.
  'fifo-reader-waits-behind-writer': ['9 11', '14 15'],
};

// A mark is a name's first letter, or the number if other names begin with it.
const names = new Names(new Map([[0, 'Ann'], [1, 'bert'], [2, 'Bob'], [9, 'Tom']]));
assert.deepEqual([0, 1, 2, 3, 9].map((thread) => names.mark(thread)), ['A', '1', '2', '3', 'T']);
assert.deepEqual([0, 3].map((thread) => names.of(thread)), ['Ann', 'thread 3']);
assert.deepEqual([1, 12].map((thread) => names.short(thread)), ['bert', 'T12']);
assert.equal(names.few([2, 3, 0, 1, 4]), 'Bob, thread 3, Ann, bert, thread 4');
assert.equal(names.few([2, 3, 0, 1, 4, 5]), 'Bob, thread 3, Ann, bert, 2 more');

const machine = machineOf();
for (const { name, text } of examples().filter((one) => ARROWS[one.name])) {
  const run = new Run(machine, text);
  const arrows = arrowsOf(run, awaitedLines(lines[run.kind]), words[LOCK_NAMES[run.kind]]);
  assert.deepEqual(arrows.map(({ from, to }) => `${from} ${to}`), ARROWS[name], name);
  // An arrow is in view if it ends there.
  const [{ to }] = arrows;
  const ends = arrows.map((arrow) => arrow.to);
  assert.equal(arrowsBetween(arrows, ends, to, to).length, 1);
  assert.equal(arrowsBetween(arrows, ends, 1, to - 1).length, 0);
}

// The activities of each thread, with the moves from and to which each lasts. The second write
// after the swap links an MCS record. An activity that has not ended lasts beyond the last move.
const SPANS = {
  'mcs-late-link': [['call 1 3', 'holds 3 15'], ['call 4 8', 'queue 8 16', 'holds 16 17']],
  'ticket-hand-over': [['call 1 2', 'queue 2 3', 'holds 3 9'],
    ['call 4 5', 'queue 5 10', 'holds 10 11']],
  'fifo-reader-waits-behind-writer': [['call 1 2', 'reads 2 9'],
    ['call 3 4', 'queue 4 11', 'writes 11 14'], ['call 5 15', 'reads 15 16']],
};
const UNLINKED = { 'mcs-late-link': [[], ['8 13']] };
for (const { name, text } of examples().filter((one) => SPANS[one.name])) {
  const run = new Run(machine, text);
  SPANS[name].forEach((due, thread) => {
    const found = spansOf(run, thread, 1, run.count);
    assert.deepEqual(found.map(({ kind, from, to }) => `${kind} ${from} ${to}`), due, name);
    const unlinked = unlinkedSpans(run, thread, 1, run.count);
    assert.deepEqual(unlinked.map(({ from, to }) => `${from} ${to}`),
      UNLINKED[name]?.[thread] ?? [], name);
  });
}

// The first move at which two runs differ, which may be a move of only one run; 0 if none differs.
const runOf = (...moves) => new Run(machine, textOf('lock ticket threads 2', ...moves));
const differs = (one, other) => firstDifference(one, other, (move) => Math.min(move, other.last));
const BEGUN = ['0 acquire', '0 add'];
assert.equal(differs(runOf(...BEGUN), runOf(...BEGUN)), 0);
assert.equal(differs(runOf(...BEGUN, '0 read'), runOf(...BEGUN, '1 acquire')), 3);
assert.equal(differs(runOf(...BEGUN), runOf(...BEGUN, '0 read')), 3);
assert.equal(differs(runOf(...BEGUN, '0 read'), runOf(...BEGUN)), 3);
// Of refused moves after the last one the thread, the word and the reason count.
assert.equal(differs(runOf('0 read'), runOf('0 read')), 0);
assert.deepEqual(['1 read', '0 add', '0 release'].map((move) => (
  differs(runOf('0 read'), runOf(move)))), [1, 1, 1]);

const CAPTIONS = {
  'ticket-hand-over': { 0: 'No ticket is in use.', 6: 'It is the turn of ticket 0.',
    10: 'It is the turn of ticket 1.' },
  'mcs-late-link': {
    0: 'The queue is empty.', 3: 'Ann is alone in the queue.',
    12: 'Ann is followed by Bob, and only Bob knows.', 14: 'Every link of the queue is written.',
  },
  'simple-reader-passes-writer': { 0: 'Nobody is inside, readers 0, flag 0.' },
  'fifo-writer-enters-at-once': { 2: 'Ann writes, readAcquires 0, readReleases 0, flag 1.' },
};
learnWords(words);
for (const { name, text } of examples().filter((one) => CAPTIONS[one.name])) {
  const session = new Session(machine, lines);
  session.open(text);
  for (const [move, said] of Object.entries(CAPTIONS[name])) {
    const view = session.view({}, Number(move));
    const caption = lockOf(view.run).caption(view, view.run.state(view.move));
    assert.equal(caption.text, said, `${name} ${move}`);
  }
}

// The fourth ticket is the last in words of two bits, so both counters wrap to 0 in that round.
learnKinds(kindsOf(module));
const ROUND = ['acquire', 'add', 'read', 'release', 'read', 'write'].map((word) => `0 ${word}`);
const four = new Run(machine, textOf('lock ticket threads 1 bits 2', ...ROUND, ...ROUND, ...ROUND,
  ...ROUND));
const WRAPS = 'After 3 comes 0: the numbers wrap around.';
const wraps = Array.from({ length: four.count }, (_, at) => at + 1)
  .filter((move) => sentence({ run: four, names: new Names() }, move).endsWith(WRAPS));
assert.deepEqual(wraps, [20, 24]);

// A sentence has the whole names of threads that have none of their own.
const joins = new Run(machine, textOf('lock mcs threads 2', '0 acquire', '0 write', '0 swap',
  '1 acquire', '1 write', '1 swap', '1 write', '1 write'));
assert.deepEqual([6, 8].map((move) => sentence({ run: joins, names: new Names() }, move)), [
  'Thread 1 swaps the tail and finds thread 0; it is in the queue from here on, though no word of '
    + "thread 0's record says so.",
  "Thread 1 writes the link: thread 0's next now points to thread 1."]);

// Of the questions of a kind no answer is right for more than half, and "as before" neither.
let asked = 0;
for (const { name, text } of examples()) {
  const questions = [...questionsOf(new Run(machine, text)).values()];
  asked += questions.length;
  for (const kind of KINDS) {
    const those = questions.filter((one) => one.kind === kind);
    const most = (is) => assert.ok(those.filter(is).length <= those.length / 2, `${name} ${kind}`);
    those.forEach(({ truth }) => most((one) => one.truth === truth));
    most(({ same }) => same);
  }
}
assert.ok(asked > 60, String(asked));
// Of three rounds of one thread each step has a question, the kinds in turn, if possible on what
// changes. The queue is 0 four times, so the last three of these are left out, and so is the last
// of three questions who holds, of which two are answered with 0.
const THREE = new Run(machine, textOf('lock ticket threads 1', ...ROUND, ...ROUND, ...ROUND));
assert.deepEqual([...questionsOf(THREE).values()].map(({ move, kind, truth, same }) => (
  [move, kind, truth, same])), [
  [6, 'outcome', 'left', false], [9, 'outcome', 'entered', false], [11, 'outcome', 'moved', true],
  [15, 'outcome', 'entered', false], [3, 'holders', '0', false], [12, 'holders', '-', false],
  [2, 'queue', '0', false], [18, 'queue', '-', false]]);
// Questions come from the first 400 moves.
const eighty = new Run(machine, textOf('lock ticket threads 1', ...Array(80).fill(ROUND).flat()));
const lastAsked = Math.max(...questionsOf(eighty).keys());
assert.ok(lastAsked > 300 && lastAsked <= 400, String(lastAsked));

// By the number of threads: how many columns a strip has, and how many strips a sheet has. Of more
// threads than five, strips are wider and drawn smaller.
const SHEETS = {
  2: [16, 3], 3: [16, 2], 4: [16, 1], 5: [16, 1], 6: [41, 2], 7: [41, 1], 8: [41, 1], 16: [41, 1],
};
const planOf = (threads, count, move, blank = false) => {
  const calls = Array.from({ length: threads }, (_, thread) => [`${thread} acquire`,
    `${thread} add`]).flat();
  const polls = Array.from({ length: Math.max(0, count - calls.length) }, () => '1 read');
  const played = new Run(machine, bytesOf([`lock ticket threads ${threads}`, ...calls, ...polls, '']
    .slice(0, count + 1).join('\n')));
  const session = new Session(machine, lines);
  session.open(played.text, null, move, played);
  return sheetPlan(session.view({ blank }));
};
for (const [threads, [inStrip, perSheet]] of Object.entries(SHEETS)) {
  const { strip } = planOf(Number(threads), 40, 20);
  assert.deepEqual([strip.inStrip, strip.perSheet], [inStrip, perSheet], threads);
}
// 133 moves take three sheets of strips, seven of the table, and two others. The shown move is in
// their middle, but for the first and the last moves.
const PARTS = [[0, 1, 133], [66, 1, 133], [67, 1, 133], [68, 2, 134], [750, 684, 816],
  [1450, 1368, 1500], [1500, 1368, 1500]];
for (const [move, from, to] of PARTS) {
  const plan = planOf(2, 1500, move);
  assert.deepEqual([plan.from, plan.to], [from, to], String(move));
}
// On an exercise sheet columns are as wide as the moves need, within bounds.
assert.deepEqual([10, 25, 60].map((count) => planOf(2, count, 0, true).strip)
  .map(({ column, inStrip }) => [column, inStrip]), [[70, 15], [43, 25], [34, 32]]);
assert.deepEqual([planOf(2, 0, 0).from, planOf(2, 0, 0).to], [1, 0]);

// Of signs that cannot be seen the first that is wrong with a line, and the line without it, or
// null if that is not plain.
/** @type {[string, string, string | null][]} */
const UNSEEN = [
  ['l\0o\0', 'utf16', null], ['\0l\0o', 'utf16', null], ['\xff\xfel', 'utf16', null],
  ['\xfe\xffl', 'utf16', null], ['0 a\rdd', 'returnsAlone', '0 a\ndd'],
  ['0 add\r\r1 add\r', 'returnsAlone', '0 add\n1 add\n'],
  ['\ufefflock mcs', 'mark', 'lock mcs'], ['0 add\r\r', 'returns', '0 add'],
  ['0\t\tadd\t1', 'tab', '0 add 1'], ['0 add  ', 'blankEnd', '0 add'],
  ['  0 add', 'blankStart', '0 add'], ['0   add  1', 'twoBlanks', '0 add 1'],
  ['0\u00a0add\u00a01', 'noBreak', '0 add 1'],
];
for (const [line, says, mended] of UNSEEN) {
  const returns = says === 'returns' || undefined;
  assert.deepEqual(unseenAdvice(line), { say: [texts.faults[says]], mended, returns }, line);
}
const CODES = { '\x01': '0001', '\x08': '0008', '\x0b': '000B', '\x0c': '000C', '\x0e': '000E',
  '\x1f': '001F', '\x7f': '007F', '\u200b': '200B', '\u200f': '200F', '\u2060': '2060',
  '\ufeff': 'FEFF' };
for (const [sign, code] of Object.entries(CODES)) {
  assert.deepEqual(unseenAdvice(`0 a${sign}dd${sign}`), { mended: '0 add', returns: undefined,
    say: [`There is a character that cannot be seen, U+${code}.`] });
}
assert.deepEqual(unseenAdvice('0 \u00e4dd'), { mended: null, returns: undefined,
  say: ['\u201c\u00e4\u201d is not an ASCII character, but U+00E4.'] });
assert.equal(unseenAdvice('0 add'), null);

// All that is said of a refused move: why, what is due or who holds, and what the thread could do.
const [NO_HOLDER, NO_STEP] = ['Thread 0 does not hold what it would release.',
  'The next step is “add”, in line 2 of the code: “ticket := add(next_ticket, 1)”.'];
const ACQUIRE = 'Here thread 0 could call “acquire”.';
const ADD = 'Here thread 0 could make the step “add”.';
const HELD = 'Thread 0 holds the lock already. These locks are not reentrant.';
/** @type {[string[], string[], object | null][]} */
const REFUSED = [
  [['lock ticket threads 1', '1 acquire'],
    ['There is no thread 1: the lock has 1 thread, numbered from 0 to 0.'],
    { line: 1, words: ['lock', 'ticket', 'threads', '1'], at: 3 }],
  [['lock ticket threads 1', '0 rlock'], ['“rlock” is not a move of this lock.', ACQUIRE],
    { line: 1, words: ['lock', 'ticket', 'threads', '1'], at: 1 }],
  [['lock ticket threads 1', '0 acquire', '0 rlock'],
    ['“rlock” is not a move of this lock.', ADD],
    { line: 1, words: ['lock', 'ticket', 'threads', '1'], at: 1 }],
  [['lock ticket threads 1', '0 acquire', '0 acquire'],
    ['Thread 0 has a pending call, so it cannot begin another.', NO_STEP, ADD],
    { move: 1, text: '0 acquire', found: '' }],
  [['lock ticket threads 1', '0 acquire', '0 read'],
    ['This is not the next step of thread 0.', NO_STEP, ADD],
    { move: 1, text: '0 acquire', found: '' }],
  [['lock ticket threads 1', '0 release'], [NO_HOLDER, 'Nobody holds the lock.', ACQUIRE],
    { move: 0, text: 0, found: 0 }],
  [['lock ticket threads 1', '0 read'], ['Thread 0 has no pending call, so it has no step to make.',
    'Nobody holds the lock.', ACQUIRE], { move: 0, text: 0, found: 0 }],
  [['lock ticket threads 1', '0 acquire', '0 add', '0 read', '0 acquire'],
    [HELD, 'Thread 0 holds the lock.', 'Here thread 0 could call “release”.'],
    { move: 3, text: '0 read', found: 'now_serving = 0' }],
  [['lock rw-simple threads 1', '0 rlock', '0 section', '0 rlock'],
    [HELD, 'Thread 0 holds the lock and reads.', 'Here thread 0 could call “runlock”.'],
    { move: 2, text: '0 section', found: 'readers = 0' }],
  [['lock rw-simple threads 1', '0 wlock', '0 section', '0 wlock'],
    [HELD, 'Thread 0 holds the lock and writes.',
      'Here thread 0 could call “wunlock” or call “downgrade”.'],
    { move: 2, text: '0 section', found: 'flag = 0' }],
  [['#! name 2 Ann', 'lock rw-simple threads 3', '1 rlock', '1 section', '2 rlock', '2 section',
    '0 runlock'], [NO_HOLDER, 'Thread 1, Ann hold the lock and read.',
    'Here thread 0 could call “rlock” or call “wlock”.'], { move: 0, text: 0, found: 0 }],
  [['lock ticket threads 1', '0 acquire', '0 add next_ticket left 2'], [
    'The recorded run: add next_ticket left 2. The lock here: left 1.',
    'The step is line 2 of the code: “ticket := add(next_ticket, 1)”.'], null],
  [['lock rw-simple threads 2', '0 rlock', '0 section 3 entered', '1 wlock', '1 section waits',
    '1 section 3 waits'], [
    'The recorded run: section 3, after section 3. The counts of sections grow.',
    'The count may be taken outside the monitor, or two lines are in the wrong order.'], null],
];
for (const [refused, said, decided] of REFUSED) {
  const asked = new Session(machine, lines);
  asked.open(textOf(...refused));
  const facts = refusalFacts(asked);
  assert.deepEqual([facts.said, facts.decided], [said, decided], refused.join('; '));
}

// The line of a fault: 0 for the whole text, and the line after the last if a header is missing.
const fault = (...all) => {
  const run = new Run(machine, bytesOf(all.join('\n')));
  const { line, mended, say } = faultAdvice(run, ['acquire', 'add']);
  return [line, mended, say[0]];
};
const { TooLong, NoHeader } = texts.faults;
assert.deepEqual(fault('lock ticket threads 1', '#'.repeat(1048576)), [0, null, TooLong]);
assert.deepEqual(fault('# a', '', '# b'), [4, null, NoHeader]);
