// The FIFO read-write lock's memory: both counts of readers, on a wheel if words are narrow, the
// flag, who is inside, and who is at the monitor.

import { html } from '../lib/markup.js';
import { heldIn, wordNamed, wordNames } from '../machine/word_names.js';
import { translated } from '../texts/language.js';
import { say } from '../texts/texts.js';
import {
  callers, monitor, monitorEnd, readersCaption, readWrite, room, roomHeight, sectionMark,
} from './read_write.js';
import { picture, wordBox } from './shapes.js';
import { handLegend, HANDS, hasWheel, wheelOf, wheelPlaced } from './wheel.js';

/** @typedef {import('../machine/machine.js').AnyState} State */
/** @typedef {import('../model/session.js').View} View */

const T = translated('rwFifo', {
  title: 'FIFO read-write lock',
  announced: '{writer} is announced: no reader may pass.',
  wraps: 'After {found} comes {left}: the count wraps around.',
});

const NAME = 'rw-fifo';
const ACQUIRES = 'readAcquires';
const RELEASES = 'readReleases';
const FLAG = 'flag';
const held = heldIn(NAME);

// What the hands are: beside the words, so that a picture on a phone is low, or below the wheel if
// the picture is narrow.
const LEGEND_BESIDE = 504;
/** @param {View} view */
const legendAt = ({ width }) => (width >= LEGEND_BESIDE ? [366, 46] : [36, 244]);

/** @param {View} view */
const wheelHeight = ({ width }) => (width >= LEGEND_BESIDE ? 246 : 272);

/** @param {View} view @param {State} state */
function counts(view, state) {
  const [x, y] = legendAt(view);
  const wheel = wheelPlaced(view.run.bits, 104, 160, 58);
  const hands = [{ value: held(state, RELEASES), style: HANDS.inner },
    { value: held(state, ACQUIRES), style: HANDS.outer }];
  return html`${wheelOf(view, wheel, hands, [])}
    ${handLegend(x, y, 'outer', ACQUIRES)}
    ${handLegend(x, y + 20, 'inner', RELEASES)}`;
}

// The widths of the words, of the room, and of the callers, which are beside both, beside the room
// or below it.
const WORDS = 358;
const ROOM = 250;
const CALLERS = 266;
const GAP = 24;

/** @param {View} view */
function callersAt({ width }, left, below, wheelEnd, isEmpty) {
  if (width < left + ROOM && !isEmpty) return [24, Math.max(below, wheelEnd)];
  if (width >= Math.max(WORDS, left + ROOM + GAP) + CALLERS) {
    return [Math.max(WORDS, left + ROOM + GAP), 24];
  }
  return width >= left + ROOM + GAP + CALLERS ? [left + ROOM + GAP, 92] : [left + 4, below];
}

/** @param {View} view @param {State} state */
function draw(view, state) {
  const box = (name, x, width) => wordBox(view, wordNamed(NAME, name), [x, 40, width],
    String(held(state, name)), name);
  const wheel = hasWheel(view.run.bits);
  const left = wheel ? 214 : 24;
  const roomWidth = Math.min(ROOM, view.width - left - 12);
  const below = 104 + roomHeight(view, state, roomWidth);
  const wheelEnd = wheel ? wheelHeight(view) : 0;
  const isEmpty = !callers(view, state).length;
  const [x, y] = callersAt(view, left, below, wheelEnd, isEmpty);
  const height = Math.max(wheelEnd || 180, below, monitorEnd(view, state, y));
  return picture(view, height, caption(view, state).text,
    html`${box(ACQUIRES, 24, 108)}${box(RELEASES, 144, 108)}${box(FLAG, 264, 70)}
      ${wheel && counts(view, state)}${room(view, state, left, 92, roomWidth)}
      ${monitor(view, state, x, y)}`);
}

const plain = readersCaption(NAME);

/** @param {View} view @param {State} state */
function caption(view, state) {
  const { text } = plain(view, state);
  if (!state.queue.length) return { text };
  const announced = say(T.announced, { writer: view.names.of(state.queue[0]) });
  return { text: `${text} ${announced}` };
}

/** @param {View} view */
const leastWidth = (view) => (hasWheel(view.run.bits) ? 494 : WORDS);

export const rwFifo = {
  ...readWrite, name: NAME, title: T.title, lesson: 'fifo',
  signs: ['inCall', 'queue', 'reads', 'writes', 'ended'],
  wraps: { text: T.wraps, words: [ACQUIRES, RELEASES] },
  mark: sectionMark(NAME, { [ACQUIRES]: 'acq.', [RELEASES]: 'rel.' }),
  wordName: (word) => wordNames(NAME)[word], draw, caption, leastWidth,
};
