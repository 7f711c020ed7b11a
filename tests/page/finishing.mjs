// Lets threads finish by the page's module, in Node and without the page:
//
//     node tests/page/finishing.mjs MODULE.wasm
//
// After each move of each example a thread goes on by its due step, unless that is a failed poll,
// or, if it has no pending call, by a call that an idle thread may not make. The moves to rest are
// accepted, are none of the others, leave all threads idle, and are at most as many for each thread
// as docs/PROOF.md says. Then come the answers if room, text or thread are at fault.

import assert from 'node:assert/strict';
import { ANSWER, CALLS, isStep, LOCK_NAMES, MOVES, OUTCOME, PHASE }
  from '../../page/src/machine/codes.js';
import { goesOnBy, movesToRest } from '../../page/src/machine/finishing.js';
import { Run } from '../../page/src/model/run.js';
import { bytesOf, examples, machineOf, OLD, textOf } from './node.mjs';

const MOST = { ticket: 5, mcs: 10, 'rw-simple': 5, 'rw-fifo': 6 };

// The run up to a move, with these moves after it.
function runWith(machine, run, move, moves) {
  const lines = new TextDecoder().decode(run.played).split('\n');
  const header = lines.findIndex((line) => line.startsWith('lock ')) + 1;
  const kept = lines.slice(0, move ? run.records.line(move) : header);
  return new Run(machine, textOf(...kept, ...moves));
}

// The words of the moves by which a thread may go on, found by playing them.
function expectedWords(machine, run, move, thread) {
  const state = run.replayed(move);
  const due = state.dueStep(thread);
  if (!due) {
    return CALLS.filter((call) => state.allows(thread, call) && !run.begun.allows(thread, call))
      .map((call) => MOVES[call]);
  }
  const next = runWith(machine, run, move, [`${thread} ${MOVES[due]}`]);
  return next.records.outcome(move + 1) === OUTCOME.waits ? [] : [MOVES[due]];
}

function checkThread(machine, run, move, thread, where) {
  const due = expectedWords(machine, run, move, thread);
  const word = goesOnBy(machine, run, move, thread);
  assert.ok(due.length ? due.includes(word) : word === null, `${where}: ${thread} ${word}, ${due}`);
}

function checkRest(machine, run, move, where) {
  const moves = movesToRest(machine, run, move);
  assert.ok(moves.length <= run.threads * MOST[LOCK_NAMES[run.kind]], where);
  const whole = runWith(machine, run, move, moves);
  assert.deepEqual([whole.end.answer, whole.count], [ANSWER.accepted, move + moves.length], where);
  for (let at = move + 1; at <= whole.count; at += 1) {
    const { records } = whole;
    assert.notEqual(records.outcome(at), OUTCOME.waits, `${where}: ${moves}`);
    assert.ok(isStep(records.action(at)) || !run.begun.allows(0, records.action(at)), `${moves}`);
  }
  const phases = Array.from({ length: run.threads }, (_, thread) => whole.end.phase(thread));
  assert.ok(phases.every((phase) => phase === PHASE.Idle), `${where}: ${phases}`);
}

function checkExample(machine, { name, text }) {
  const run = new Run(machine, text);
  if (!run.hasLock) return;
  for (let move = 0; move <= run.count; move += 1) {
    const where = `${name}, move ${move}`;
    for (let thread = 0; thread < run.threads; thread += 1) {
      checkThread(machine, run, move, thread, where);
    }
    checkRest(machine, run, move, where);
  }
}

// The answer of `finish` with room for so many codes and numbers, and the places that it wrote.
function finish(machine, text, codes, numbers) {
  const at = machine.hold(text, 8 * 8);
  const { memory } = machine.exports;
  new Uint8Array(memory.buffer, at, 8 * 8).fill(OLD);
  const answer = Number(machine.exports.finish(...[machine.textAt, text.length, 9, at + 8, codes,
    at, numbers].map(BigInt)));
  const places = [...new BigUint64Array(memory.buffer, at, 8)];
  const old = new BigUint64Array(new Uint8Array(8).fill(OLD).buffer)[0];
  return [answer, ...places.map((one) => (one === old ? '-' : Number(one)))];
}

// Thread 0 has the lock and releases it: 0 release, 0 read, 0 write.
function checkAnswers(machine) {
  const text = textOf('lock ticket threads 2', '0 acquire', '0 add', '0 read');
  const [release, read, write] = [512 * 1, 512 * 16, 512 * 17];
  assert.deepEqual(finish(machine, text, 5, 1), [0, 3, release, read, write, '-', '-', '-', '-']);
  assert.deepEqual(finish(machine, text, 3, 1), [0, 3, release, read, write, '-', '-', '-', '-']);
  assert.deepEqual(finish(machine, text, 2, 1), [1, 2, release, read, '-', '-', '-', '-', '-']);
  assert.deepEqual(finish(machine, text, 5, 0), [8, ...new Array(8).fill('-')]);
  const faulty = bytesOf('lock ticket threads 2\n0 lost\n');
  assert.deepEqual(finish(machine, faulty, 5, 1), [7, ...new Array(8).fill('-')]);
  const asked = (of, thread) => {
    machine.hold(of, 0);
    return Number(machine.exports.finishing_move(...[machine.textAt, of.length, 9, thread]
      .map(BigInt)));
  };
  assert.deepEqual([asked(text, 0), asked(text, 1), asked(text, 2), asked(text, 256),
    asked(faulty, 0)], [1, 0, 0, 0, 0]);
}

const machine = machineOf();
for (const example of examples()) checkExample(machine, example);
checkAnswers(machine);
