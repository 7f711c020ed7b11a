// One sentence on what a move did: that of its kind of transition, with the move's values.

import { NO_WORD } from '../machine/codes.js';
import { wordNames } from '../machine/word_names.js';
import { say, texts } from '../texts/texts.js';
import { kindOf } from '../model/kinds.js';
import { lockOf } from './locks.js';

/** @typedef {import('../model/session.js').View} View */

// The values for the places of a sentence. A word's place has its value after the move.
/** @param {import('./locks.js').Named} view */
function valuesOf(view, move) {
  const { run, names } = view;
  const { records } = run;
  const lock = lockOf(run);
  const state = run.state(move);
  const words = Object.fromEntries((wordNames(lock.name) ?? [])
    .map((name, word) => [name, state.word(word)]));
  return {
    ...words, who: names.of(records.thread(move)), found: records.found(move),
    left: records.left(move), number: run.phaseNumberBefore(move),
    ...lock.values?.(view, move, run.phaseBefore(move)),
  };
}

/** @param {import('./locks.js').Named} view */
export function sentence(view, move) {
  const { run } = view;
  const { records } = run;
  const [kind, values] = [kindOf(run, move), valuesOf(view, move)];
  const text = `${say(kind.says, values)}.`;
  const { wraps, name } = lockOf(run);
  const isWrap = wraps?.words.includes(wordNames(name)[records.touched(move)])
    && records.left(move) < records.found(move);
  return isWrap ? `${text} ${say(wraps.text, values)}` : text;
}

// What the move wrote, as `word = value`, and what was there; a section may write two.
/** @param {View} view */
export function writtenWords(view, move, useOf) {
  const { run } = view;
  const { records } = run;
  const lock = lockOf(run);
  /** @type {[number, bigint, bigint][]} */
  const words = [
    [records.touched(move), records.left(move), records.found(move)],
    [records.alsoChanged(move), records.alsoLeft(move), records.alsoFound(move)],
  ];
  return words.filter(([word]) => word !== NO_WORD && useOf(run, move, word) === 'changed')
    .map(([word, ...values]) => texts.wrote(lock.wordName(word, view),
      ...values.map((value) => lock.valueText(word, value, view))));
}
