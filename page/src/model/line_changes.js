// What becomes of a lock if one of its steps is changed, as `locktrace why` found it: by the lines
// of its code, and as a schedule in which the lock as it is takes the same turns.

import { bytesOf } from '../lib/bytes.js';
import { LOCK_NAMES, PHASES } from '../machine/codes.js';
import { translated } from '../texts/language.js';
import { fill, texts } from '../texts/texts.js';

/**
 * @typedef {object} Change
 * @property {string} step the phase whose step is changed
 * @property {string} how
 * @property {string} verdict
 * @property {boolean} harms whether its run does what the sequential object does not allow
 * @property {string[]} run of the changed lock; none if the change is harmless
 * @property {Object<number, [number, string][]>} wrote by the place of a move the words that it
 *   wrote, by their numbers, and their values
 * @property {Object<number, string>} objects what the sequential object has from a move on, by its
 *   place in the run
 * @property {string[]} turns of the lock as it is in this run, as lines of a schedule
 * @property {number[]} differs the places of the run at which a thread is elsewhere in its code
 * @property {string} [refused] the turn that the lock as it is refuses
 *
 * @typedef {object} Changes
 * @property {string} threads
 * @property {string} rounds
 * @property {string} asItIs the verdict on the lock as it is
 * @property {string} note why a change of it is harmless
 * @property {string[]} words their names
 * @property {Change[]} changes
 */

/** @type {Changes[]} */
const found = [];

const NUMBERS = /\d+(?:,\d+)*/g;
const ANNOUNCED = /^(?<held>.+?)(?:, (?<announced>thread \d+ is announced))?$/;

// A sentence with places, and their values.
export function placed(text) {
  const values = [];
  return { says: text.replace(NUMBERS, (value) => `{${values.push(value) - 1}}`), values };
}

// The sentences on what the object has: who is inside or in the queue, and who is announced.
function objectParts(object) {
  const { held, announced } = object.match(ANNOUNCED).groups;
  return [held, announced].filter(Boolean).map(placed);
}

// All sentences in English, by themselves.
function sentencesIn(why) {
  const objects = (change) => Object.values(change.objects).flatMap(objectParts);
  const all = Object.values(why).flatMap(({ says, note, changes }) => (
    [says, note, ...changes.flatMap((change) => [
      change.how, change.says, ...objects(change).map((part) => part.says)])]));
  return Object.fromEntries(all.filter(Boolean).map((text) => [text, text]));
}

// What page/build/why.mjs gives, before anything is drawn.
export function learnWhy(why) {
  const own = translated('why', sentencesIn(why));
  const textOf = ({ says, values }) => fill(own[says], values);
  const objectsOf = ({ objects }) => Object.fromEntries(Object.entries(objects)
    .map(([at, object]) => [at, objectParts(object).map(textOf).join(', ')]));
  for (const lock of LOCK_NAMES) {
    const { threads, rounds, note, words, changes, ...asItIs } = why[lock];
    found.push({
      threads, rounds, words, asItIs: textOf(asItIs), note: own[note] ?? '',
      changes: changes.map((change) => ({
        ...change, how: own[change.how], verdict: textOf(change), objects: objectsOf(change),
      })),
    });
  }
}

// By the lock's number.
export const changesOf = (lock) => found[lock];

// Of a line of its code.
export const changesAt = (lock, { phase }) => found[lock].changes
  .filter(({ step }) => step === PHASES[phase]);

// The way through a lock's code: the places of each step's lines together, and of each other line.
export function stopsOf(lines) {
  const stops = [];
  for (const [at, { phase }] of lines.entries()) {
    const goesOn = phase !== undefined && phase === lines[at - 1]?.phase;
    if (goesOn) stops[stops.length - 1].push(at);
    else stops.push([at]);
  }
  return stops;
}

/** Whether a move is the step that is changed, or a half of it. @param {Change} change */
export const isChanged = ({ step }, move) => move.match(/\w+/g)[1] === step;

/** Whether a move does what the object does not allow. @param {Change} change */
export const harmsAt = ({ harms, run }, at) => harms && at === run.length - 1;

/** {name, value, wrote} of each word after so many moves. @param {Change} change */
export function memoryAfter(lock, { wrote }, count) {
  const made = Array.from({ length: count }, (_, at) => wrote[at] ?? []);
  const values = new Map(made.flat());
  const last = new Map(wrote[count - 1]);
  return found[lock].words.map((name, number) => (
    { name, value: values.get(number) ?? '0', wrote: last.has(number) }));
}

/** What the object has after so many moves. The first is a call. @param {Change} change */
export function objectAfter({ objects }, count) {
  const since = Object.keys(objects).map(Number).filter((at) => at < Math.max(1, count));
  return objects[Math.max(...since)];
}

/** In a run without the step the lock as it is does the same. @param {Change} change */
export const canBeFollowed = (change) => change.turns.some((_, at) => (
  isChanged(change, change.run[at])));

// The remarks on the moves of the schedule: where the changed lock differs, and at the last move
// that it has gone wrong, or how it goes on.
/** @param {Change} change */
function sayings(change) {
  const { run, turns, differs, step, how, verdict } = change;
  const T = texts.why;
  const moves = [...turns.keys()].filter((at) => turns[at]);
  const end = turns.length < run.length ? T.goesOn(run[turns.length]) : T.wrong(verdict);
  const saidAt = (at) => [
    isChanged(change, run[at]) && T.changed(T.change(step, how)),
    differs.includes(at) && T.elsewhere(run[at]),
    at === moves[moves.length - 1] && end,
  ].filter(Boolean);
  return moves.flatMap((at, i) => saidAt(at).map((said) => `#! say ${i + 1} ${said}`));
}

// The schedule in which the unchanged lock takes the turns of a change's run.
/** @param {Change} change */
export function scheduleOf(lock, change) {
  const { step, how, turns, refused } = change;
  const T = texts.why;
  const lines = [
    `#! title ${T.asItIs(T.change(step, how))}`, `#! learn ${T.learn}`,
    ...sayings(change), `lock ${LOCK_NAMES[lock]} threads ${found[lock].threads}`,
    ...turns, refused,
  ];
  return bytesOf(`${lines.filter(Boolean).join('\n')}\n`);
}
