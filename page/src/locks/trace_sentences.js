// A step that a trace has otherwise than its lock: both in words, who wrote its word last, and what
// could be missing or in the wrong place.

import { LOCK_NAMES, NO_WORD } from '../machine/codes.js';
import { wordNamed } from '../machine/word_names.js';
import { fill, say, texts } from '../texts/texts.js';
import { lastWrite, wordText } from '../model/trace_advice.js';

/** @typedef {import('../model/session.js').Session} Session */

const T = texts.traces;
// Steps that are one atomic operation, of which an implementer may have made two.
const READ_AND_WRITE = ['swap', 'add'];
// Differences that depend on what is in memory.
const BY_MEMORY = ['FoundOther', 'WroteOther', 'OtherOutcome'];

// Who wrote a word last, and which value it has.
/** @param {Session} session */
function wordSentence({ run, names }, word) {
  const values = { word: wordText(run, word), value: run.state(run.count).word(word) };
  const move = lastWrite(run, word);
  if (!move) return fill(T.unwritten, values);
  const Thread = say(names.of(run.records.thread(move)), {});
  const source = run.sourceOf(move);
  const line = `${run.records.line(move)}${source && ` (${source})`}`;
  return fill(T.wrote, { ...values, Thread, line });
}

// The words that a section looks at, or the one that the step is on.
/** @param {Session} session */
function wordsOf({ run, lines }, due) {
  const { name, touched } = run.refusal;
  if (!BY_MEMORY.includes(name)) return [];
  const looked = lines[run.kind][due.number - 1].words;
  if (looked.length) return looked.map((word) => wordNamed(LOCK_NAMES[run.kind], word));
  return touched === NO_WORD ? [] : [touched];
}

// Where a value that was found would be right.
function valueGuess({ word: step, given, from, until }) {
  if (from) return fill(T.from, { line: from, given });
  if (!until) return fill(T.never, { given });
  return fill(READ_AND_WRITE.includes(step) ? T.halves : T.until, { line: until, given, step });
}

const wordGuess = ({ own, swapped }) => (swapped
  ? fill(T.swapped, { line: swapped, own }) : fill(T.missing, { own }));

const GUESSES = {
  FoundOther: valueGuess, OtherWord: wordGuess, CountNotAbove: () => T.counts,
  OtherOutcome: ({ word: step }) => (step === 'section' ? T.sections : ''),
};

// What could be wrong, or else which line of code it is.
const guess = (refusal, due) => GUESSES[refusal.name]?.(refusal) || fill(T.code, due);

/** @param {Session} session */
export function traceSentences(session, due) {
  const { run } = session;
  const { refusal } = run;
  const { name, given, own, word: step, touched } = refusal;
  const word = touched === NO_WORD ? '' : wordText(run, touched);
  return [
    fill(T[name], { step, word, given, own }),
    ...wordsOf(session, due).map((one) => wordSentence(session, one)), guess(refusal, due),
  ];
}
