// Memory on paper, blank or with a state filled in: a box for each word, the records of an MCS lock
// apart so that arrows can be drawn between them, and places for who holds and who is in the queue.

import { html } from '../lib/markup.js';
import { texts } from '../texts/texts.js';
import { fitted, widthOf } from '../locks/fitting.js';
import { lockOf } from '../locks/locks.js';
import { BOX_EDGES } from '../locks/shapes.js';

/** @typedef {import('../machine/machine.js').AnyState} State */
/** @typedef {import('../model/session.js').View} View */

const T = texts.print;
const BOX = { height: 34, least: 74, gap: 22 };
const RECORD = { width: 150, height: 104, gap: 62 };
const TOP = 34;
const PLACE = { size: 34, gap: 26, most: 5 };
// More records have no room on a sheet.
const MOST_RECORDS = 4;

/** @param {View} view @param {State | null} state */
function box(view, state, word, [x, y, width]) {
  const value = state && lockOf(view.run).valueText(word, state.word(word), view);
  return html`<rect class="word" x="${x}" y="${y}" width="${width}" height="${BOX.height}" rx="6"/>
    ${state && html`<text class="mono value" x="${x + width / 2}" y="${y + 22}"
    text-anchor="middle">${fitted(value, width - BOX_EDGES, 'word')}</text>`}`;
}

// The words that are no thread's, in a row.
/** @param {View} view @param {State | null} state */
function words(view, state) {
  const { run } = view;
  const lock = lockOf(run);
  let x = 2;
  const drawn = [];
  for (let word = 0; word < run.end.wordCount; word += 1) {
    if (lock.hasRecords && run.owned.at(word)) continue;
    const name = lock.wordName(word, view);
    const width = Math.max(BOX.least, widthOf(name, 'word') + 12);
    drawn.push(html`<text class="mono word-name" x="${x}" y="${TOP - 10}">${name}</text>
      ${box(view, state, word, [x, TOP, width])}`);
    x += width + BOX.gap;
  }
  return drawn;
}

/** @param {View} view @param {State | null} state */
function record(view, state, thread, at) {
  const x = 2 + at * (RECORD.width + RECORD.gap);
  const word = (name) => view.run.owned.wordOf(thread, name);
  const field = (name, y) => html`<text class="mono field" x="${x + 8}" y="${y + 22}">${name}</text>
    ${box(view, state, word(name), [x + 68, y, RECORD.width - 76])}`;
  return html`<rect class="frame" x="${x}" y="96" width="${RECORD.width}"
      height="${RECORD.height}" rx="8" fill="none" stroke="#555"/>
    <text class="name" x="${x + 8}" y="114">${view.names.of(thread)}</text>
    ${field('next', 122)}${field('locked', 160)}`;
}

// The mark of the thread in each place that is taken. In the last one is how many more there are.
function marksIn(names, threads, count) {
  const more = threads.length - count;
  const marks = threads.slice(0, count).map((thread) => names.mark(thread));
  return more > 0 ? [...marks.slice(0, -1), `+${more + 1}`] : marks;
}

// A row of places with the marks of threads, of which the first is the oldest.
function places(label, count, y, { between, marks }) {
  const x = 76;
  const all = Array.from({ length: count }, (_, at) => x + at * (PLACE.size + PLACE.gap));
  return html`<text class="note" x="2" y="${y + 22}">${label}</text>${all.map((left, at) => html`
    <rect class="cell" x="${left}" y="${y}" width="${PLACE.size}" height="${PLACE.size}" rx="17"/>
    ${marks[at] && html`<text class="value" x="${left + PLACE.size / 2}" y="${y + 22}"
    text-anchor="middle">${marks[at]}</text>`}
    ${between && at > 0 && html`<text class="note" x="${left - 19}" y="${y + 22}">→</text>`}`)}`;
}

// Who holds, in one place or in as many as readers need, and who is in the queue.
/** @param {View} view @param {State | null} state */
function whoPlaces({ run, names }, state, y) {
  const { holders, queue } = state ?? { holders: [], queue: [] };
  const room = (least, threads) => Math.min(PLACE.most, Math.max(least, threads.length));
  const [holding, waiting] = [room(1, holders), room(run.threads, queue)];
  const held = { between: false, marks: marksIn(names, holders, holding) };
  const queued = { between: true, marks: marksIn(names, queue, waiting) };
  return html`${places(texts.facts.holds, holding, y, held)}
    ${places(texts.facts.queue, waiting, y + 44, queued)}`;
}

// Null if the lock has more records than a sheet.
/** @param {View} view @param {State | null} state what is filled in */
export function memoryOnPaper(view, room, state) {
  const { run } = view;
  const count = lockOf(run).hasRecords ? run.threads : 0;
  const owned = Array.from({ length: count }, (_, thread) => thread);
  if (owned.length > MOST_RECORDS) return null;
  const below = owned.length ? 96 + RECORD.height + 18 : TOP + BOX.height + 22;
  const width = Math.max(room, owned.length * (RECORD.width + RECORD.gap));
  const label = state ? lockOf(run).memory : T.blankMemory;
  return html`<svg viewBox="0 0 ${width} ${below + 84}" role="img" aria-label="${label}">
    ${words(view, state)}${owned.map((thread, at) => record(view, state, thread, at))}
    ${whoPlaces(view, state, below)}</svg>`;
}
