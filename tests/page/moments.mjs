// Looks for moments by the page's module, in Node and without the page:
//
//     node tests/page/moments.mjs MODULE.wasm
//
// For each row of tests/rows/sketches.txt the search has to find a run of the row's length, or no
// run after as many states; `play` accepts the run, which has the lines. Each kind of transition
// has its name in tests/rows/kinds.txt, and the run of its sketch and the run from a new lock take
// it after as many moves as kinds.txt says. The same holds for a run from a state, for each row of
// tests/rows/soon.txt. Then come the answers if memory, moves or a line are at fault.

import assert from 'node:assert/strict';
import { ANSWER, MOVES, OUTCOMES, PHASES } from '../../page/src/machine/codes.js';
import { Records } from '../../page/src/machine/machine.js';
import { FOUND } from '../../page/src/machine/search.js';
import { bytesOf, machineOf, rowsOf } from './node.mjs';

const LOCKS = ['ticket', 'mcs', 'rw-simple', 'rw-fifo'];
const CELLS = 200000;
const SLOTS = 1 << 15;
const MOST_FOUND = 64;

// The move that a code names.
function moveOf(code) {
  const word = MOVES[Math.floor(code / 512)];
  return { thread: code % 256, word, meets: Math.floor(code / 256) % 2 === 1 };
}

// Searches with room for so many cells. `call` passes a text and the memory to the module.
function search(machine, text, { cells = CELLS, moves = MOST_FOUND, numbers = 1 }, call) {
  const sizes = [8, 8 * moves, 8 * cells, 4 * SLOTS, text.length];
  const places = sizes.map((_, i) => machine.base
    + sizes.slice(0, i).reduce((sum, size) => sum + size, 0));
  machine.lend(sizes.reduce((sum, size) => sum + size, 0));
  machine.text = null;
  const { buffer } = machine.exports.memory;
  new Uint8Array(buffer, places[4], text.length).set(text);
  const slice = (at, length) => [BigInt(at), BigInt(length)];
  const answer = Number(call(slice(places[4], text.length), [...slice(places[2], cells),
    ...slice(places[3], SLOTS), ...slice(places[1], moves), ...slice(places[0], numbers)]));
  const number = Number(new BigUint64Array(buffer, places[0], 1)[0]);
  const codes = [...new BigUint64Array(buffer, places[1], moves)].map(Number);
  const run = answer === FOUND.run ? codes.slice(moves - number).map(moveOf) : null;
  return { answer, number, run };
}

// Searches for a run that has these lines.
function find(machine, { lock, threads, bits, rounds }, lines, room = {}) {
  const asked = [LOCKS.indexOf(lock), threads, bits, rounds, room.most ?? 1e6].map(BigInt);
  return search(machine, bytesOf(lines.join('\n')), room, (text, memory) => (
    machine.exports.find_moment(...text, ...asked, ...memory)));
}

const headerOf = ({ lock, threads, bits }) => (
  `lock ${lock} threads ${threads}${bits < 64 ? ` bits ${bits}` : ''}\n`);

// Searches from the state after these lines of a schedule.
function findSoon(machine, asked, lines, kind, room = {}) {
  const numbers = [lines.length, kind, asked.rounds, 1e6].map(BigInt);
  const schedule = bytesOf(headerOf(asked) + lines.map((line) => `${line}\n`).join(''));
  return search(machine, schedule, room, (text, memory) => (
    machine.exports.soon(...text, ...numbers, ...memory)));
}

// The transitions of an accepted run, as the rows write them.
function transitionsOf(machine, asked, run) {
  const header = headerOf(asked);
  const text = bytesOf(header + run.map(({ thread, word }) => `${thread} ${word}\n`).join(''));
  const { state, records } = machine.play(text, run.length, true);
  assert.equal(state.answer, ANSWER.accepted, `${header}${JSON.stringify(run)}`);
  const read = new Records(records);
  const phases = new Array(asked.threads).fill('Idle');
  return run.map(({ thread }, at) => {
    const [move, from] = [at + 1, phases[thread]];
    phases[thread] = PHASES[read.phase(move)];
    const word = MOVES[read.action(move)];
    return `${from} ${word} ${OUTCOMES[read.outcome(move)]} ${phases[thread]}`;
  });
}

// The moves that meet the lines have the threads and the words of the lines.
function checkMet(run, lines) {
  const met = run.filter((move) => move.meets);
  assert.equal(met.length, lines.length);
  lines.forEach((line, i) => {
    const [thread, word] = line.split(' ');
    assert.ok(thread === '*' || Number(thread) === met[i].thread, line);
    assert.equal(word, met[i].word);
  });
}

// The found run, with as many moves as a row says; or null, after as many states.
function foundAs(expected, { answer, number, run }, what) {
  const [word, states] = expected.split(' ');
  const due = word === 'nowhere' ? [FOUND.nowhere, Number(states)] : [FOUND.run, Number(word)];
  assert.deepEqual([answer, number], due, what);
  return run;
}

function checkSketch(machine, [space, sketch, expected]) {
  const [lock, ...numbers] = space.split(' ');
  const [threads, rounds, bits] = numbers.map(Number);
  const lines = sketch.split(';').map((line) => line.trim());
  const asked = { lock, threads, bits, rounds };
  const run = foundAs(expected, find(machine, asked, lines), sketch);
  if (!run) return;
  assert.equal(transitionsOf(machine, asked, run).length, run.length);
  checkMet(run, lines.filter((line) => !line.startsWith('not ')));
}

// The name of a kind, its sentence, and the lines of its sketch.
function kindText(machine, lock, kind) {
  machine.lend(1024);
  machine.text = null;
  const length = Number(machine.exports.kind_text(BigInt(lock), BigInt(kind),
    BigInt(machine.base), 1024n));
  const bytes = new Uint8Array(machine.exports.memory.buffer, machine.base, length);
  return new TextDecoder().decode(bytes).split('\n');
}

function checkKinds(machine, lock, names, lengths) {
  const count = Number(machine.exports.kinds(BigInt(LOCKS.indexOf(lock))));
  assert.equal(count, names.length, lock);
  const asked = { lock, threads: 2, bits: 64, rounds: 1 };
  names.forEach(([, kind, expected], i) => {
    const [name, , ...lines] = kindText(machine, LOCKS.indexOf(lock), i);
    assert.equal(name, expected);
    const run = transitionsOf(machine, asked, find(machine, asked, lines).run);
    const [, , length] = lengths.find((row) => row[1] === kind);
    assert.equal(run.indexOf(kind) + 1, Number(length), `${lock}: ${name}`);
    const near = findSoon(machine, asked, [], i);
    assert.deepEqual([near.answer, near.number], [FOUND.run, Number(length)], `${lock}: ${name}`);
  });
}

// Only the last move of the run is of this kind, and only that move is marked as such.
function checkSoon(machine, names, [space, moves, rounds, kind, expected]) {
  const [lock, threads] = space.split(' ');
  const asked = { lock, threads: Number(threads), bits: 64, rounds: Number(rounds) };
  const lines = moves.split(';').map((line) => line.trim());
  const place = names.filter((row) => row[0] === lock).findIndex((row) => row[1] === kind);
  const run = foundAs(expected, findSoon(machine, asked, lines, place), `${moves}: ${kind}`);
  if (!run) return;
  assert.deepEqual(run.map(({ meets }) => meets), run.map((_, at) => at === run.length - 1));
  const { records } = machine.play(bytesOf(headerOf(asked) + lines.join('\n')), lines.length, true);
  const made = lines.slice(0, new Records(records).count)
    .map((line) => ({ thread: Number(line.split(' ')[0]), word: line.split(' ')[1] }));
  const taken = transitionsOf(machine, asked, [...made, ...run]).slice(made.length);
  assert.equal(taken.indexOf(kind), run.length - 1, `${moves}: ${kind}`);
}

function checkSoonFaults(machine) {
  const asked = { lock: 'ticket', threads: 2, bits: 64, rounds: 0 };
  // thread 0 leaves the lock by its fourth move
  const answerTo = (room, other, lines = ['0 acquire', '0 add']) => {
    const { answer, number } = findSoon(machine, { ...asked, ...other }, lines, 6, room);
    return [answer, number];
  };
  assert.deepEqual(answerTo({}), [FOUND.run, 4]);
  assert.deepEqual(answerTo({ moves: 3 }), [FOUND.longRun, 0]);
  // a row has 15 cells
  assert.deepEqual(answerTo({ cells: 15 * 4 - 1 }), [FOUND.tooLarge, 4]);
  assert.equal(answerTo({}, { rounds: 256 })[0], FOUND.notAsked);
  assert.equal(answerTo({}, {}, ['0 acquire', '0 lost'])[0], FOUND.notAsked);
  assert.equal(answerTo({ numbers: 0 })[0], 8);
}

function checkFaults(machine) {
  const asked = { lock: 'mcs', threads: 2, bits: 64, rounds: 1 };
  const answerTo = (lines, room, other) => {
    const { answer, number } = find(machine, { ...asked, ...other }, lines, room);
    return [answer, number];
  };
  assert.deepEqual(answerTo(['# a comment', '', '* cas failed']), [FOUND.run, 9]);
  assert.deepEqual(answerTo(['* cas failed'], { moves: 8 }), [FOUND.longRun, 0]);
  // a row has 18 cells
  assert.deepEqual(answerTo(['* cas failed'], { cells: 18 * 20 }), [FOUND.tooLarge, 21]);
  assert.deepEqual(answerTo(['* cas', '', '* cas lost']), [FOUND.badLine, 3]);
  assert.deepEqual(answerTo(new Array(256).fill('0 cas')), [FOUND.manyLines, 256]);
  for (const other of [{ threads: 65 }, { threads: 0 }, { threads: 4, bits: 2 }, { rounds: 256 }]) {
    assert.equal(answerTo(['* cas'], {}, other)[0], FOUND.notAsked);
  }
}

const machine = machineOf();
// The module takes rounds with a bound, and sketches with moves alone.
const sketches = rowsOf('sketches.txt')
  .filter(([space, lines]) => !space.includes(' any ') && !/(^|; )is /.test(lines));
for (const row of sketches) checkSketch(machine, row);
const names = rowsOf('kinds.txt');
const lengths = names.map(([lock, kind, , length]) => [lock, kind, length]);
for (const lock of LOCKS) {
  const ofLock = (rows) => rows.filter(([name]) => name === lock);
  checkKinds(machine, lock, ofLock(names), ofLock(lengths));
}
checkFaults(machine);
for (const row of rowsOf('soon.txt')) checkSoon(machine, names, row);
checkSoonFaults(machine);
