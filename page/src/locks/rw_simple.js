// The simple read-write lock's memory: the count of readers, the writer's flag, who is inside, and
// who is at the monitor.

import { html } from '../lib/markup.js';
import { heldIn, wordNamed, wordNames } from '../machine/word_names.js';
import { translated } from '../texts/language.js';
import {
  monitor, monitorEnd, readersCaption, readWrite, room, roomHeight, sectionMark,
} from './read_write.js';
import { picture, wordBox } from './shapes.js';

/** @typedef {import('../machine/machine.js').AnyState} State */
/** @typedef {import('../model/session.js').View} View */

const T = translated('rwSimple', {
  title: 'Simple read-write lock',
});

const NAME = 'rw-simple';
const READERS = 'readers';
const FLAG = 'flag';
const held = heldIn(NAME);

const BESIDE = 600;

// The monitor is beside the room, or below it if the picture is narrow.
/** @param {View} view @param {State} state */
function draw(view, state) {
  const box = (name, x) => wordBox(view, wordNamed(NAME, name), [x, 40, 108],
    String(held(state, name)), name);
  const beside = view.width >= BESIDE;
  const roomWidth = Math.min(272, beside ? view.width * 0.44 : view.width - 48);
  const inside = 92 + roomHeight(view, state, roomWidth);
  const [x, y] = beside ? [roomWidth + 64, 24] : [24, inside + 12];
  const height = Math.max(inside + 12, monitorEnd(view, state, y));
  return picture(view, height, caption(view, state).text, html`${box(READERS, 24)}${box(FLAG, 152)}
    ${room(view, state, 24, 92, roomWidth)}${monitor(view, state, x, y)}`);
}

const caption = readersCaption(NAME);

const leastWidth = () => 420;

export const rwSimple = {
  ...readWrite, name: NAME, title: T.title, lesson: 'simple',
  signs: ['inCall', 'reads', 'writes', 'ended'],
  mark: sectionMark(NAME, { [READERS]: 'read.' }),
  wordName: (word) => wordNames(NAME)[word], draw, caption, leastWidth,
};
