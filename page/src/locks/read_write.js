// What the read-write locks share: the picture of the room inside and of who is at the monitor, and
// what is said below it.

import { folding } from '../lib/folding.js';
import { html } from '../lib/markup.js';
import { OUTCOME, PHASES } from '../machine/codes.js';
import { wordNames } from '../machine/word_names.js';
import { translated } from '../texts/language.js';
import { say, texts } from '../texts/texts.js';
import { isCovered } from '../model/remarks.js';
import { fitted } from './fitting.js';
import { foldedToken, movingThread, standingIn, token, tokensAt } from './shapes.js';

/** @typedef {import('../machine/machine.js').AnyState} State */
/** @typedef {import('../model/session.js').View} View */

const T = translated('readWrite', {
  memory: 'Memory, and the threads beside it', inside: 'inside', nobody: 'nobody',
  atMonitor: 'at the monitor', pollFailed: 'failed poll',
  wants: {
    TryRead: 'wants to read', LeaveRead: 'wants to stop reading', TryWrite: 'wants to write',
    AwaitReaders: 'announced, awaits the readers', LeaveWrite: 'wants to stop writing',
    TryDowngrade: 'wants to become a reader',
  },
  captions: {
    readers: '{readers} inside, {words}.', writer: '{writer} writes, {words}.',
    nobody: 'Nobody is inside, {words}.',
  },
});
const { wants, captions } = T;
const WRITER = 3;
const MONITOR_ROW = 34;

const SPACE = 32;
const inRoomRow = (width) => Math.max(1, Math.floor((width - 20) / SPACE));
const ROOM_ROWS = 2;

// How tall a room of this width is; of many readers some are folded if space is short.
/** @param {View} view @param {State} state */
export function roomHeight(view, state, width) {
  const rows = Math.max(1, Math.ceil(state.holders.length / inRoomRow(width)));
  return 44 + SPACE * (view.tight ? Math.min(ROOM_ROWS, rows) : rows);
}

// The threads inside, in a room of its own.
/** @param {View} view @param {State} state */
export function room(view, state, x, y, width) {
  const inRow = inRoomRow(width);
  const most = view.tight ? ROOM_ROWS * inRow : Infinity;
  const tokens = tokensAt(view, state.holders, most, (i) => (
    { x: x + 24 + SPACE * (i % inRow), y: y + 50 + SPACE * Math.floor(i / inRow) }));
  const asked = isCovered(view, 'standing');
  const standing = state.holders.length && !asked ? standingIn(view, state.holders[0]) : '';
  const label = standing ? `${T.inside}: ${texts.standing[standing]}` : T.inside;
  const nobody = html`<text class="note" x="${x + 14}" y="${y + 54}">${
    asked ? '?' : T.nobody}</text>`;
  return html`<rect class="room" x="${x}" y="${y}" width="${width}"
      height="${roomHeight(view, state, width)}" rx="12"/>
    <text class="room-name" x="${x + 14}" y="${y + 23}">${label}</text>
    ${tokens.length && !asked ? tokens : nobody}`;
}

// The threads that have a section due.
/** @param {View} view @param {State} state */
export function callers(view, state) {
  return Array.from({ length: view.run.threads }, (_, thread) => thread)
    .filter((thread) => state.dueStep(thread) !== 0);
}

/** @param {View} view */
function pollFailed(view, thread) {
  const last = view.run.lastMoveOf(thread, view.move);
  return last > 0 && view.run.records.outcome(last) === OUTCOME.waits;
}

// What a caller wants. That it is announced is not said if a question asks for that.
/** @param {View} view @param {State} state */
function wantedBy(view, state, thread) {
  const phase = PHASES[state.phase(thread)];
  return wants[phase === 'AwaitReaders' && isCovered(view, 'standing') ? 'TryWrite' : phase];
}

// A caller's row: what it wants, and below it whether its poll failed.
/** @param {View} view @param {State} state */
function callerRow(view, state, thread, x, at) {
  const wanted = wantedBy(view, state, thread);
  const failed = pollFailed(view, thread);
  return html`${token(x + 13, at, view, thread)}
    <text class="wants" x="${x + 36}" y="${at + (failed ? -1 : 5)}"><title>${wanted}</title>${
  fitted(wanted, view.width - x - 44, 'wants')}</text>
    ${failed && html`<text class="note" x="${x + 36}" y="${at + 14}">${T.pollFailed}</text>`}`;
}

// As many callers as have room from `y` on, if space is short.
/** @param {View} view @param {State} state */
function callersShown(view, state, y) {
  const most = Math.max(2, Math.floor((view.height - y - 22) / MONITOR_ROW));
  const moving = movingThread(view);
  return folding(callers(view, state), (one) => one === moving, view.tight ? most : Infinity);
}

// Beside another run's memory there is no room for it, and the lanes say who waits.
/** @param {View} view @param {State} state */
export function monitor(view, state, x, y) {
  if (view.compares) return null;
  const rows = callersShown(view, state, y).map(({ one, folded }, i) => {
    const at = y + 40 + MONITOR_ROW * i;
    if (!folded) return callerRow(view, state, one, x, at);
    return html`${foldedToken(x + 13, at, view, folded)}
      <text class="wants" x="${x + 36}" y="${at + 5}">${texts.folded(folded.length)}</text>`;
  });
  const nobody = html`<text class="note" x="${x}" y="${y + 44}">${T.nobody}</text>`;
  return html`<text class="room-name" x="${x}" y="${y + 14}">${T.atMonitor}</text>
    ${rows.length ? rows : nobody}`;
}

// How far down a monitor goes that begins at `y`.
/** @param {View} view @param {State} state */
export function monitorEnd(view, state, y) {
  if (view.compares) return 0;
  return y + 28 + MONITOR_ROW * Math.max(1, callersShown(view, state, y).length);
}

/** @param {State} state */
const wordsText = (lock, state) => wordNames(lock)
  .map((name, word) => `${name} ${state.word(word)}`).join(', ');

// Below the picture: who is inside, and the words.
export function readersCaption(lock) {
  return (view, state) => {
    const words = wordsText(lock, state);
    if (!state.holders.length) return { text: say(captions.nobody, { words }) };
    const inside = view.names.few(state.holders);
    const text = state.holderKind === WRITER ? captions.writer : captions.readers;
    return { text: say(text, { readers: inside, writer: inside, words }) };
  };
}

// Below a lane's mark: the word that the section changed, by its short name if it has one, and its
// new value.
export function sectionMark(lock, shortNames) {
  return ({ run: { records } }, move) => {
    const name = wordNames(lock)[records.touched(move)];
    return name ? `${shortNames[name] ?? name} ${records.left(move)}` : '';
  };
}

// What the entries of `locks.js` share. The calls have long words, so the columns are wide.
export const readWrite = {
  memory: T.memory, leastColumn: 56, valueText: (_, value) => String(value),
};
