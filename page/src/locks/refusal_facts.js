// A refused move: what it was, and why the machine refuses it, or in what its trace differs. That
// it is refused, with which name and which step is due, the machine said; who moved and which line
// of code is due is read off its state and the text.

import { lineOf } from '../lib/bytes.js';
import { CALLS, MOVES, NO_WORD } from '../machine/codes.js';
import { fill, say, texts } from '../texts/texts.js';
import { moveText } from '../model/report.js';
import { lockOf } from './locks.js';
import { traceSentences } from './trace_sentences.js';

/** @typedef {import('../model/session.js').Session} Session */
/** @typedef {import('../machine/machine.js').AnyState} State */

const T = texts.refused;
// The refusals that the header decides, each with the place of the word in it.
const BY_HEADER = { NoSuchThread: 3, WrongLock: 1 };

// The line of code whose step the thread has to make next; null between calls.
/** @param {State} state */
function dueLine(lines, state, thread) {
  const due = state.dueStep(thread);
  if (!due) return null;
  const step = MOVES[due];
  const at = lines.findIndex(({ phase, kind }) => phase === state.phase(thread) && kind === step);
  return { step, number: at + 1, code: lines[at].code.trim() };
}

// The moves that the thread could make instead.
/** @param {State} state */
function possibleMoves(state, thread) {
  const due = state.dueStep(thread);
  if (due) return [fill(T.step, { word: MOVES[due] })];
  return CALLS.filter((call) => state.allows(thread, call))
    .map((call) => fill(T.call, { word: MOVES[call] }));
}

// One sentence on who holds the lock.
/** @param {State} state */
function holdsText(state, names) {
  if (!state.holders.length) return T.nobodyHolds;
  const list = names.few(state.holders);
  return fill(state.holders.length > 1 ? T.holdTogether : T.holds, {
    list, mode: T.modes[state.holderKind],
  });
}

const WITH_DUE = ['Busy', 'WrongStep'];
const WITH_HOLDERS = ['NotHolder', 'NoCall', 'AlreadyHolds'];

/** @param {Session} session */
function sentences(session) {
  const { run, names } = session;
  const { name, thread, word } = run.refusal;
  const exists = thread < run.threads;
  const who = exists ? names.of(thread) : texts.thread(thread);
  const due = exists && dueLine(session.lines[run.kind], run.end, thread);
  if (!T[name]) return { who, due, said: traceSentences(session, due) };
  const said = [say(T[name], {
    word, thread: who, Thread: say(who, {}), threads: texts.threads(run.threads),
    last: run.threads - 1,
  })];
  if (due && WITH_DUE.includes(name)) said.push(say(T.due, due));
  if (WITH_HOLDERS.includes(name)) said.push(say(holdsText(run.end, names), {}));
  const moves = exists ? possibleMoves(run.end, thread).join(T.or) : '';
  if (moves) said.push(say(T.could, { thread: who, moves }));
  return { who, due, said };
}

// The word of memory that the thread's last move found, and from which its due step follows.
/** @param {Session} session */
function foundWord(session, move) {
  const { run } = session;
  const { records } = run;
  const word = records.touched(move);
  if (word === NO_WORD) return '';
  const lock = lockOf(run);
  return texts.wordBecomes(lock.wordName(word, session),
    lock.valueText(word, records.found(move), session));
}

// What decided it: a word of the header, or the thread's last move and the word that it found.
/** @param {Session} session */
function decided(session) {
  const { run } = session;
  const { name, thread } = run.refusal;
  if (BY_HEADER[name]) {
    const line = session.headerLine();
    return { line, words: lineOf(run.text, line).split(' '), at: BY_HEADER[name] };
  }
  // Of a difference the last write of its word; nothing if there is none.
  const move = run.refusal.lastWrite ?? run.lastMoveOf(thread, run.count);
  if (!T[name]) return move ? { move, text: moveText(run, move) } : null;
  return { move, text: move && moveText(run, move), found: move && foundWord(session, move) };
}

// All of it: {name, line, thread, word, who, due, said: sentences, decided, recorded: the line of a
// trace, source: where it was noted}
/** @param {Session} session */
export function refusalFacts(session) {
  const { run } = session;
  return {
    ...run.refusal, ...sentences(session), decided: decided(session),
    recorded: run.recorded(run.last), source: run.sourceOf(run.last),
  };
}
