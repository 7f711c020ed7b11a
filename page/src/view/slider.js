// The slider, and over it where questions are and where threads enter or a compare-and-swap
// fails.

import { html } from '../lib/markup.js';
import { OUTCOME } from '../machine/codes.js';
import { casFails } from './lanes.js';

/** @typedef {import('../machine/machine.js').Records} Records */
/** @typedef {import('../model/run.js').Run} Run */
/** @typedef {import('../model/session.js').View} View */

const EDGE = 12;
// Closer together the ticks of a kind are a bar, which says nothing.
const CLOSEST = 10;

const TICKS = {
  ask: (x) => html`<path class="tick ask" d="M${x - 4.5} 2h9l-4.5 8z"/>`,
  fails: (x) => html`<path class="tick fails" d="M${x - 3} 31l6 7m0 -7l-6 7"/>`,
  enters: (x) => html`<rect class="tick enters" x="${x - 2}" y="30" width="4" height="9"/>`,
};

/** @param {Records} records */
function kindOf(records, move) {
  if (casFails(records, move)) return 'fails';
  return records.outcome(move) === OUTCOME.entered ? 'enters' : null;
}

/** @param {Run} run */
const placeOf = (run, width, move) => EDGE + (width - 2 * EDGE) * move / Math.max(1, run.last);

// A tick for each place where something is, at most one of a kind in two dots of the screen.
/** @param {View} view */
function ticks(view, width) {
  const { run, remarks } = view;
  const seen = new Map();
  const put = (kind, move) => {
    const x = Math.round(placeOf(run, width, move) / 2) * 2;
    if (!seen.has(kind + x)) seen.set(kind + x, { move, kind, drawn: TICKS[kind](x) });
  };
  for (const move of remarks.ask.keys()) if (move <= run.count) put('ask', move);
  for (let move = 1; !view.hidden && move <= run.count; move += 1) {
    const kind = kindOf(run.records, move);
    if (kind) put(kind, move);
  }
  if (run.refusal && !view.hidden) put('fails', run.last);
  return Object.keys(TICKS).map((kind) => [...seen.values()].filter((one) => one.kind === kind))
    .filter((ofKind) => ofKind.length <= width / CLOSEST).flat();
}

// The ticks of each run that were found last.
const known = new WeakMap();

/** @param {View} view */
function ticksOf(view, width) {
  const { run, hidden } = view;
  const found = known.get(run);
  if (found?.width === width && found.hidden === hidden) return found.ticks;
  const made = ticks(view, width);
  known.set(run, { width, hidden, ticks: made });
  return made;
}

/** @param {View} view */
export function sliderPicture(view, width) {
  const x = placeOf(view.run, width, view.place);
  const isShown = ({ kind, move }) => view.future || kind === 'ask' || move <= view.place;
  const ticksShown = ticksOf(view, width).filter(isShown).map((one) => one.drawn);
  return html`<svg width="${width}" height="42" viewBox="0 0 ${width} 42" aria-hidden="true">
    <path class="track" d="M${EDGE} 21H${width - EDGE}"/>
    <path class="track done" d="M${EDGE} 21H${x}"/>
    ${ticksShown}<circle class="knob" cx="${x}" cy="21" r="10"/></svg>`;
}
