// What repeats for ever, in the lanes and in words.

import { html } from '../lib/markup.js';
import { texts } from '../texts/texts.js';
import { columnX } from './layout.js';

/** @typedef {import('../model/session.js').View} View */
/** @typedef {import('./layout.js').Layout} Layout */

const T = texts.loops;
// How far the sign below the numbers reaches beyond the middle of a column, as a share of it.
const REACH = 0.36;

// The sentences on it from the position before the first time on; before that none.
/** @param {View} view */
export function loopSaid({ loop, move }) {
  if (!loop || move < loop.first - 1) return '';
  if (move < loop.first) return T.begins(loop);
  return [T.within(loop), move === loop.last && T.goesOn(loop)].filter(Boolean).join(' ');
}

/** @param {View} view */
export function loopView(view) {
  const said = loopSaid(view);
  return said && html`<p class="loop-said">${said}</p>`;
}

// A line before the column of the first move that repeats.
/** @param {View} view @param {Layout} layout */
export function loopColumn({ loop }, layout) {
  if (!loop || loop.first < layout.first || loop.first > layout.last) return null;
  const x = Math.round(columnX(layout, loop.first) - layout.column / 2);
  return html`<path class="loop-begins" data-loop="${loop.first}" d="M${x} 4V${
    layout.height}"><title>${texts.signs.loop}</title></path>`;
}

// Below the numbers an arrow from the last move back to the first that repeats, as far as both are
// in view.
/** @param {View} view @param {Layout} layout */
export function loopArrow({ loop }, layout) {
  if (!loop || loop.first > layout.last) return null;
  const [begins, ends] = [loop.first >= layout.first, loop.last <= layout.last];
  const reach = layout.column * REACH;
  const from = Math.round(columnX(layout, begins ? loop.first : layout.first) - reach);
  const to = Math.round(columnX(layout, ends ? loop.last : layout.last) + reach);
  return html`<path class="loop" d="M${to} ${ends ? '24V28' : '28'}H${from}"/>${begins
    && html`<path class="loop-tip" d="M${from - 4} 28.5l4-7l4 7z"/>`}`;
}
