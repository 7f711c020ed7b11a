// The same calls on the other read-write lock. In each of its turns a thread makes there the step
// that is due, or the next of its calls. The machine alone says what is due after a move. So the
// moves are guessed and played, and the next guesses follow the records as far as they were right.
// A guess that was wrong costs a replay, and all others together cost one.

import { beginsWith } from '../lib/bytes.js';
import { MOVES } from '../machine/codes.js';
import { otherLock } from './compare_runs.js';
import { moveText } from './report.js';
import { Run, runOf } from './run.js';

// The moves that a thread may make after a move, and before its first one.
const after = ({ records }, move) => ({
  due: records.due(move), phase: records.phase(move), allows: (call) => records.allows(move, call),
});
const atFirst = ({ begun }, thread) => ({
  due: begun.dueStep(thread), allows: (call) => begun.allows(thread, call),
});

// A guess at a move's outcome there: the same as here, unless the last move of this kind ended
// differently there.
/** @param {Run} run */
function guess(run, move, kind, there) {
  const here = after(run, move);
  const word = moveText(run, move).split(' ')[1];
  const same = kind === (run.records.isCall(move) ? word : run.phaseBefore(move));
  return !there || (same && here.phase === there.phase) ? here : there;
}

// The schedule there: `known` up to the first move that differs, and guesses from there on.
class OtherSchedule {
  constructor(run, known) {
    this.run = run;
    this.known = known;
    this.threads = Array.from({ length: run.threads }, (_, thread) => atFirst(known, thread));
    this.lines = [];
    // The outcome of the last move of each kind there: of a call, or of a step from a phase.
    this.seen = new Map();
    this.follows = true;
  }

  // The thread makes there the move of the turn that it has here.
  takeTurn(thread, calls, move) {
    const { known, lines, seen, threads } = this;
    const { due, phase, allows } = threads[thread];
    if (!due && !(calls.length && allows(calls[0]))) return;
    const word = MOVES[due || calls.shift()];
    const kind = due ? phase : word;
    const made = lines.push(`${thread} ${word}`);
    this.follows &&= made <= known.count && moveText(known, made) === lines[made - 1];
    if (this.follows) seen.set(kind, after(known, made));
    threads[thread] = this.follows ? seen.get(kind) : guess(this.run, move, kind, seen.get(kind));
  }
}

const bytesOf = (lines) => new TextEncoder().encode([...lines, ''].join('\n'));
/** @param {Run} run */
const headerOf = (run) => `lock ${otherLock(run)} threads ${run.threads} bits ${run.bits}`;

// {run, at}: the run of the same turns on the other lock, and for each move here the number of
// moves made there by then.
/** @param {Run} run */
function attempt(machine, run, known) {
  const there = new OtherSchedule(run, known);
  const at = [0];
  const calls = there.threads.map(() => []);
  for (let move = 1; move <= run.count; move += 1) {
    const thread = run.records.thread(move);
    if (run.records.isCall(move)) calls[thread].push(run.records.action(move));
    there.takeTurn(thread, calls[thread], move);
    at.push(there.lines.length);
  }
  return { run: runOf(machine, bytesOf([headerOf(run), ...there.lines]), [known]), at };
}

// `before` is a run that was compared before, which may begin in the same way.
/** @param {Run} run */
export function onOtherLock(machine, run, before) {
  const header = bytesOf([headerOf(run)]);
  let known = before && beginsWith(before.text, header) ? before
    : new Run(machine, header, () => machine.play(header, 0, true));
  let made = attempt(machine, run, known);
  while (made.run !== known) {
    known = made.run;
    made = attempt(machine, run, known);
  }
  return made;
}
