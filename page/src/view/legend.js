// The meanings of the signs of the lanes. Each lock names those that it has beside the common ones.

import { html } from '../lib/markup.js';
import { texts } from '../texts/texts.js';
import { lockOf } from '../locks/locks.js';
import { withTerms } from './terms.js';

/** @typedef {import('../model/run.js').Run} Run */

const T = texts.legend;

const sign = (width, drawn, label) => html`<span><svg width="${width}" height="18"
  aria-hidden="true">${drawn}</svg>${withTerms(label)}</span>`;
const bar = (kind, fill) => html`<rect class="span ${kind}" x=".5" y="1" width="29" height="16"
  rx="3" ${fill && html`style="fill:url(#${fill})"`}/>`;

const SHAPES = {
  call: html`<rect class="call-mark" x="8" y="1" width="5" height="16" rx="2"/>`,
  moves: html`<circle class="step" cx="10" cy="9" r="7"/>`,
  vain: html`<circle class="step waits" cx="10" cy="9" r="7"/>`,
  enters: html`<path class="step" d="M4 1.5L18 9L4 16.5z"/>`,
  leaves: html`<rect class="step" x="3" y="2" width="14" height="14" rx="2"/>`,
  fails: html`<circle class="step fails" cx="10" cy="9" r="7"/>
    <path class="cross" d="M7 6l6 6m0 -6l-6 6"/>`,
};
const STRETCHES = {
  inCall: html`<rect class="span call" y="7.5" width="30" height="3"/>`,
  queue: bar('queue', 'hatch'),
  holds: bar('holds'),
  reads: bar('reads', 'ruled'),
  writes: bar('writes'),
  unlinked: html`<path class="unlinked" d="M0 9h30"/>`,
  ended: html`<path class="arrow" d="M1 3h9q6 0 6 6t6 5h2"/>`,
};

const BLANK = html`<rect class="step blank" x="2" y="1" width="18" height="16" rx="3"/>`;

const COMMON = ['call', 'moves', 'vain', 'enters', 'leaves'];

// Of a sheet that is to be filled in: what there is, and each mark that is to be drawn.
/** @param {Run} run */
export const blankLegend = (run) => html`${sign(24, BLANK, T.blank)}${
  [...COMMON, ...lockOf(run).signs].filter((name) => SHAPES[name])
    .map((name) => sign(20, SHAPES[name], T[name]))}`;

// {drawn, label, width} of each sign.
/** @param {Run} run */
export const legendEntries = (run) => [...COMMON, ...lockOf(run).signs].map((name) => ({
  drawn: SHAPES[name] ?? STRETCHES[name], label: T[name], width: SHAPES[name] ? 20 : 32,
}));

/** @param {Run} run */
export const legend = (run) => html`${legendEntries(run)
  .map(({ drawn, label, width }) => sign(width, drawn, label))}`;

// The signs of memory, of questions and of the slider.
const OTHERS = {
  read: html`<rect class="word read" x="1" y="2" width="28" height="14" rx="4"/>`,
  changed: html`<rect class="word changed" x="1.5" y="2" width="27" height="14" rx="4"/>`,
  own: html`<rect class="own" x="1" y="2" width="28" height="14" rx="4"/>`,
  link: html`<path class="link" d="M1 9h26"/>`,
  missing: html`<path class="link missing" d="M1 9h26"/>`,
  fold: html`<rect class="own" x="1" y="1" width="28" height="16" rx="4"/>
    <text x="15" y="13" text-anchor="middle">+9</text>`,
  found: html`<text x="15" y="13" text-anchor="middle">Bob</text>`,
  ask: html`<path class="tick ask" d="M8 3h12l-6 10z"/>`,
  enters: html`<rect class="tick enters" x="12" y="3" width="5" height="12"/>`,
  fails: html`<path class="tick fails" d="M10 5l8 8m0 -8l-8 8"/>`,
  loop: html`<path class="loop" d="M27 8v6H5"/><path class="loop-tip" d="M1 14.5l4-7l4 7z"/>`,
};

export const signList = () => html`${
  Object.entries({ ...SHAPES, ...STRETCHES }).map(([name, drawn]) => sign(32, drawn, T[name]))}${
  Object.entries(OTHERS).map(([name, drawn]) => sign(32, drawn, texts.signs[name]))}`;
