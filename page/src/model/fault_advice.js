// What is wrong with a text, in words: what was found, what could be there, and if it is plain a
// line to write instead. The machine says whether there is a fault, in which line, and at which
// column the line stops. The build asked it which numbers it takes.

import { bytesOf, lineOf } from '../lib/bytes.js';
import { nearestWord } from '../lib/nearest_word.js';
import { ANSWER, LOCK_NAMES } from '../machine/codes.js';
import { fill, say, texts } from '../texts/texts.js';
import { unseenAdvice } from './unseen_signs.js';

/** @typedef {import('./run.js').Run} Run */

const T = texts.faults;

const could = (what) => say(T.could, { could: what });
const meantOr = (meant, what) => (meant ? say(T.meant, { meant }) : could(what));
const headerFault = (says, mended = null) => ({ say: [says, could(T.header)], mended });

// A line that cannot be read, with the word at which it stops.
class Stopped {
  constructor(machine, line, isMove) {
    this.machine = machine;
    this.isMove = isMove;
    const { column, expected } = machine.stop(line, isMove);
    this.column = column;
    this.expected = expected;
    this.words = line.split(' ');
    // A word that is missing would be after one blank more.
    this.at = `${line} `.slice(0, this.column - 1).split(' ').length - 1;
    this.found = this.words[this.at];
  }

  // The words before it, as a line.
  get before() { return this.words.slice(0, this.at).join(' '); }

  // The line with another word in its place. Null for no word.
  instead(word) {
    return word && this.words.map((one, at) => (at === this.at ? word : one)).join(' ');
  }

  // Whether the line would not stop here with that word.
  takes(word) {
    const stop = this.machine.stop(this.instead(word), this.isMove);
    return !stop || stop.column > this.column;
  }
}

function numberFault(stopped, says, [least, most]) {
  const { found } = stopped;
  const plain = found.replace(/^0+(?=\d)/, '');
  const zero = plain !== found && stopped.takes(plain);
  const due = zero ? T.zero : could(fill(T.range, { least, most }));
  return { say: [say(says, { found }), due], mended: zero ? stopped.instead(plain) : null };
}

// The advice on a word of the header, by the part that is expected in its place.
const IN_HEADER = {
  lock: (stopped) => (stopped.found.toLowerCase() === 'lock'
    ? headerFault(T.noLockWord, stopped.instead('lock')) : headerFault(T.headerShape)),
  name: (stopped) => {
    const meant = nearestWord(stopped.found, LOCK_NAMES);
    const unknown = say(T.unknownLock, { found: stopped.found });
    return {
      say: [unknown, meantOr(meant, LOCK_NAMES.join(', '))], mended: stopped.instead(meant),
    };
  },
  threads: (stopped) => headerFault(T.noThreadsWord,
    stopped.instead(nearestWord(stopped.found, ['threads']))),
  count: (stopped) => numberFault(stopped, T.badThreads, stopped.machine.ranges.threads),
  bits: (stopped) => {
    const isLast = stopped.words.length === stopped.at + 2;
    const meant = isLast && nearestWord(stopped.found, ['bits']);
    return headerFault(T.noBitsWord, meant ? stopped.instead(meant) : stopped.before);
  },
  width: (stopped) => numberFault(stopped, T.badBits, stopped.machine.ranges.bits),
  end: (stopped) => headerFault(T.headerShape, stopped.before),
};

function headerAdvice(machine, line) {
  const stopped = new Stopped(machine, line, false);
  if (stopped.found !== undefined) return IN_HEADER[stopped.expected](stopped);
  return headerFault(stopped.expected === 'threads' ? T.noThreadsWord : T.headerShape);
}

// The fewest bits of a word with which the machine takes the header.
function enoughBits(machine, words, headerWith) {
  const isFault = (bits) => machine.play(bytesOf(headerWith(bits)), 0, false)
    .state.answer === ANSWER.fault;
  let bits = Number(words[5]) + 1;
  while (isFault(bits)) bits += 1;
  return bits;
}

function tooNarrow(machine, line) {
  const words = line.split(' ');
  const [threads, bits] = [Number(words[3]), Number(words[5])];
  const headerWith = (more) => [...words.slice(0, 5), more].join(' ');
  const enough = enoughBits(machine, words, headerWith);
  return {
    say: [say(T.tooNarrow, { threads, bits, places: 2 ** bits }),
      could(fill(T.atLeastBits, { bits: enough }))],
    mended: headerWith(enough),
  };
}

// The move that a line probably means, if it has a thread's number, one word and some signs:
// `acquire 0`, `0: acquire`, `thread 0 acquire()`. Null if that is not clear.
const SIGNS = /^[a-z0-9 .,:;()]+$/i;
const THREAD_WORD = /^(t|thread)$/i;

function moveMeant(machine, line, ownWords) {
  if (!SIGNS.test(line)) return null;
  const numbers = line.match(/[0-9]+/g) ?? [];
  const names = (line.match(/[a-z]+/gi) ?? []).filter((name) => !THREAD_WORD.test(name));
  if (numbers.length !== 1 || names.length !== 1) return null;
  const [number, name] = [numbers[0].replace(/^0+(?=.)/, ''), names[0].toLowerCase()];
  const moves = [name, nearestWord(name, ownWords)].filter(Boolean)
    .map((word) => `${number} ${word}`);
  return moves.find((move) => !machine.stop(move, true)) ?? null;
}

function actionFault(stopped, ownWords) {
  const meant = nearestWord(stopped.found, ownWords);
  const own = say(T.ownMoves, { moves: ownWords.join(', ') });
  const unknown = say(T.unknownMove, { found: stopped.found });
  return { say: [unknown, meant ? say(T.meant, { meant }) : own], mended: stopped.instead(meant) };
}

function moveFault(stopped, ownWords) {
  const { expected, words, machine } = stopped;
  if (expected === 'end') return { say: [T.moveShape], mended: stopped.before };
  if (words.length !== 2) return { say: [T.moveShape], mended: null };
  return expected === 'thread' ? numberFault(stopped, T.badThread, machine.ranges.thread)
    : actionFault(stopped, ownWords);
}

function moveAdvice(machine, line, ownWords) {
  const fault = moveFault(new Stopped(machine, line, true), ownWords);
  const meant = fault.mended ? null : moveMeant(machine, line, ownWords);
  return meant ? { say: [T.moveShape, say(T.meant, { meant })], mended: meant } : fault;
}

const OF_LINE = { BadLine: moveAdvice, WordsTooNarrow: tooNarrow };

const OF_TEXT = {
  TooLong: () => ({ line: 0, say: [T.TooLong], mended: null }),
  NoHeader: ({ line }) => ({ line, ...headerFault(T.NoHeader) }),
  TooManyMoves: ({ line }) => ({ line, say: [T.TooManyMoves], mended: null }),
};

// {line, say: sentences, mended: the line that could be there, returns: whether carriage returns
// are what is wrong}
/** @param {Run} run */
export function faultAdvice(run, ownWords) {
  const { fault, text, machine } = run;
  if (OF_TEXT[fault.name]) return OF_TEXT[fault.name](fault);
  const found = lineOf(text, fault.line);
  const ofLine = OF_LINE[fault.name] ?? headerAdvice;
  const advice = unseenAdvice(found) ?? ofLine(machine, found, ownWords);
  return { say: [], mended: null, ...advice, line: fault.line, found };
}
