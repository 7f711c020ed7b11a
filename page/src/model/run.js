// One schedule text as the machine plays it: its records, its states, and where it ends.

import { lastUpTo, placeAfter } from '../lib/ascending.js';
import {
  beforeLine, beginsWith, lettersOf, lineFrom, lineOf, linesIn, lineStarts, sameBytes, throughLine,
  withoutLines,
} from '../lib/bytes.js';
import {
  ANSWER, CALLS, FAULTS, MOST_BYTES, MOST_MOVES, MOVES, REFUSALS,
} from '../machine/codes.js';
import { answerInLines, Records } from '../machine/machine.js';
import { saidIn } from '../machine/traces.js';
import { joinedByMove, movesByThread, movesByWord } from './move_lists.js';
import { OwnedWords } from './owned_words.js';
import { StateAfter } from './state_after.js';
import { refusalBy } from './trace_advice.js';
import { lineWithout, traceOf, traceWithout } from './trace_text.js';

/**
 * @typedef {import('../machine/machine.js').State} State
 * @typedef {import('./trace_text.js').Trace} Trace
 */

const RLOCK = CALLS.find((call) => MOVES[call] === 'rlock');
// Faults that moves may come before.
const LATE_FAULTS = ['BadLine', 'TooManyMoves'];

// The machine's answer on a text, read off a known run that begins with it, or played.
function answerOf(machine, text, runs) {
  const known = runs.reduce((found, run) => found ?? run.answerTo(text), null);
  return known ?? machine.play(text, MOST_MOVES, true);
}

// Faults of a text that may be a trace.
const VALUED = ['BadLine', 'TooLong'];

// The run of a text. What a known run already says of it is not played again.
export function runOf(machine, text, known) {
  const answerTo = (part) => answerOf(machine, part, known);
  return known.find((run) => sameBytes(run.text, text))
    ?? runOfTrace(new Run(machine, text, answerTo), answerTo);
}

// The run of a trace up to the step at which it differs from its lock; of any other text the whole
// run. Moves beyond those that the page plays are not shown, nor what differs there.
/** @param {Run} run */
function runOfTrace(run, answerTo) {
  const { machine, text, fault } = run;
  const trace = VALUED.includes(fault?.name) && !machine.stored ? traceOf(machine, text) : null;
  if (!trace) return run;
  const whole = new Run(machine, text, answerTo, trace);
  const { difference } = trace;
  return difference?.move <= whole.count
    ? whole.refusedAt(difference.move, refusalBy(whole, difference)) : whole;
}

export class Run {
  /**
   * `text` is never changed afterwards; an edit makes another run. `answerTo` gives what the
   * machine says of a text.
   * @param {Trace | null} trace what the text says beyond a schedule
   */
  constructor(machine, text, answerTo = (part) => answerOf(machine, part, []), trace = null) {
    this.machine = machine;
    this.text = text;
    this.trace = trace;
    this.played = trace?.schedule ?? text;
    let answer = answerTo(this.played);
    this.known = answer.state !== null;
    this.fault = faultIn(answer);
    // The first bytes of a text that is too long may have a fault of their own.
    for (let { fault } = this; fault; fault = this.played.length ? faultIn(answer) : null) {
      this.played = playablePart(this.played, fault);
      if (this.played.length) answer = answerTo(this.played);
    }
    // Without a header there is no lock to show.
    this.hasLock = answer.state !== null && answer.state.answer !== ANSWER.fault;
    // The state at the end, or at the beginning if the run was read off another run's records.
    this.end = this.hasLock ? answer.state : null;
    this.records = new Records(this.hasLock ? answer.records : new Uint8Array());
    this.count = this.records.count;
    this.refusal = this.hasLock && this.end.answer === ANSWER.refused
      ? refusalOf(this.end, text) : null;
    this.movesOf = movesByThread(this.records);
    // Found when they are asked for.
    this.first = null;
    this.starts = null;
    this.owners = null;
    this.touches = null;
    this.joins = null;
  }

  get kind() { return this.end.kind; }
  get threads() { return this.end.threads; }
  get bits() { return this.end.bits; }
  // The state in the beginning, as the machine has it.
  get begun() { return (this.first ??= this.replayed(0)); }
  // Whether one can hold the lock as a reader: at the beginning the machine accepts the call.
  get hasReaders() { return this.begun.allows(0, RLOCK); }
  // Whose the words of an MCS lock are.
  get owned() { return (this.owners ??= new OwnedWords(this.begun)); }
  get movesOfWord() { return (this.touches ??= movesByWord(this.records)); }
  get joined() { return (this.joins ??= joinedByMove(this.records)); }
  // The last place to step to: the last move, or the refused one after it.
  get last() { return this.count + (this.refusal ? 1 : 0); }

  // The state after a number of moves.
  state(moves) { return new StateAfter(this, moves); }

  // The same state from the machine. For fewer than all moves it plays them again, from the text up
  // to the line of the last of them, or up to the first move's line, so that it has the header.
  replayed(moves) {
    if (moves === this.end.played) return this.end;
    const { length } = throughLine(this.played, this.records.line(Math.max(1, moves)));
    return this.machine.play(this.played, moves, false, length).state;
  }

  // The machine's answer on a text with which this one begins, read off the records; its state is
  // the one at the beginning. Null if they do not have it: for a text without a move, or with a
  // refused one.
  answerTo(text) {
    if (!this.hasLock || !beginsWith(this.played, text)) return null;
    const lines = linesIn(text);
    const moves = this.movesThrough(lines);
    if (!moves || this.refusal?.line <= lines) return null;
    return { state: this.begun, records: this.records.first(moves) };
  }

  // The same run in the text without some lines of comment, which ascend.
  without(lines) {
    const lineNow = lineWithout(lines);
    const answer = answerInLines(this.end, this.records, lineNow);
    const trace = this.trace && {
      ...this.trace, schedule: withoutLines(this.played, lines),
      places: new Map([...this.trace.places].map(([line, place]) => [lineNow(line), place])),
    };
    return new Run(this.machine, this.textWithout(lines), () => answer, trace);
  }

  // The text without some lines of comment, which ascend.
  textWithout(lines) {
    return this.trace && lines.length
      ? traceWithout(this.text, lines) : withoutLines(this.text, lines);
  }

  // The same run up to a move that is refused for what the trace says of it.
  refusedAt(move, refusal) {
    const schedule = beforeLine(this.played, refusal.line);
    const answer = { state: this.replayed(move - 1), records: this.records.first(move - 1) };
    const run = new Run(this.machine, this.text, () => answer, { ...this.trace, schedule });
    run.refusal = refusal;
    return run;
  }

  // The line of a move, or of the refused one after the last.
  lineAt(move) { return move > this.count ? this.refusal.line : this.records.line(move); }

  // The bytes of the move's line.
  lineBytes(move) {
    this.starts ??= lineStarts(this.text);
    return lineFrom(this.text, this.starts[this.lineAt(move) - 1]);
  }

  // What a trace's line says besides its move, and the place in the source where it was noted.
  said(move) { return this.trace && saidIn(this.machine, this.lineBytes(move)); }
  sourceOf(move) { return this.trace?.places.get(this.lineAt(move)) ?? ''; }
  // The line of the trace, if it has one of these parts.
  recorded(move) {
    return this.said(move) || this.sourceOf(move) ? lettersOf(this.lineBytes(move)).letters : '';
  }

  // How many moves the lines up to this one have.
  movesThrough(line) {
    return placeAfter(Array.from({ length: this.count }, (_, i) => this.records.line(i + 1)), line);
  }

  // The last move of the thread up to `move`, or 0.
  lastMoveOf(thread, move) { return lastUpTo(this.movesOf.get(thread), move); }

  // The phase of the thread before the move.
  phaseBefore(move) {
    const thread = this.records.thread(move);
    const before = this.lastMoveOf(thread, move - 1);
    return before ? this.records.phase(before) : this.begun.phase(thread);
  }

  phaseNumberBefore(move) {
    const thread = this.records.thread(move);
    const before = this.lastMoveOf(thread, move - 1);
    return before ? this.records.phaseNumber(before) : this.begun.phaseNumber(thread);
  }
}

// The fault of the text that the machine answered on, or null.
/** @param {{state: State | null}} answer */
const faultIn = ({ state }) => (state?.answer === ANSWER.fault
  ? { name: FAULTS[state.reason], line: state.line } : null);

// The refused move: what the machine said of it, and its line's two words.
/** @param {State} state */
function refusalOf(state, text) {
  const [thread, word] = lineOf(text, state.line).split(' ');
  const name = REFUSALS[state.reason];
  return { name, line: state.line, wanted: state.wantedStep, thread: Number(thread), word };
}

// The part of a text with a fault that can be stepped through: the lines before it.
function playablePart(text, fault) {
  if (fault.name === 'TooLong') {
    const most = text.subarray(0, MOST_BYTES);
    return most.subarray(0, most.lastIndexOf(10) + 1);
  }
  return LATE_FAULTS.includes(fault.name) ? beforeLine(text, fault.line) : new Uint8Array();
}
