// Why each line of a lock is there: its code, and for the lines of one stop each change of their
// step, with a shortest run of the changed lock that goes wrong.

import { html } from '../lib/markup.js';
import { capital, texts } from '../texts/texts.js';
import {
  canBeFollowed, changesAt, changesOf, harmsAt, isChanged,
} from '../model/line_changes.js';
import { codeOfMove } from './why_code.js';
import { stepsFrame } from './why_steps.js';

/** @typedef {import('../model/line_changes.js').Change} Change */

const T = texts.why;
// More moves than these are in two columns, where there is room.
const LONG = 9;

/** Each line of the code can be chosen. @param {number[]} stop the places of the lines shown */
export const codeOfLock = (lines, stop) => html`${lines.map(({ code, kind }, at) => html`<div
  class="code-line ${kind || 'plain'} ${stop.includes(at) && 'here'}" data-line="${at}"
  data-number="${at + 1}" ${stop.includes(at) && html`aria-current="true"`}><code
  translate="no">${code}</code></div>`)}`;

// A move of the changed lock, and whether it is the changed step, or does the harm.
/** @param {Change} change */
function moveView(lines, change, number, at) {
  const move = change.run[at];
  const isHarm = harmsAt(change, at);
  return html`<li class="${isHarm && 'harm'}" data-of="${number}" data-count="${at + 1}"><b
    translate="no">${move}</b>${
    codeOfMove(lines, move)}${isChanged(change, move) && html` <mark>${T.mark}</mark>`}${
    isHarm && html` <mark class="wrong">✕ ${T.harm}</mark>`}</li>`;
}

/** @param {Change} change */
function runView(lines, change, number, canPlay) {
  if (!change.run.length) return null;
  const follows = canBeFollowed(change);
  const moves = change.run.map((_, at) => moveView(lines, change, number, at));
  return html`${stepsFrame(number)}<ol class="${moves.length > LONG && 'long'}">${moves}</ol>
    ${!change.harms && html`<p class="harm">✕ ${T.stuck} ${!follows && T.later}</p>`}
    ${follows && html`<button type="button" data-play="${number}" ${!canPlay && 'disabled'}>${
  T.play}</button>`}`;
}

/** @param {Change} change */
function changeView(lines, change, number, { note, canPlay }) {
  return html`<section><h3>${T.if(change.how)}</h3><p class="verdict">${
  capital(change.verdict)}.</p>
    ${!change.run.length && html`<p>${note}</p>`}${
  runView(lines, change, number, canPlay)}</section>`;
}

// `canPlay` says that the machine can play a schedule.
/** @param {number[]} stop */
export function changesView(lock, lines, stop, canPlay) {
  const { threads, rounds, asItIs, note } = changesOf(lock);
  const changes = changesAt(lock, lines[stop[0]]);
  return html`${changes.map((change, number) => (
    changeView(lines, change, number, { note, canPlay })))}
    ${!changes.length && html`<p class="verdict">${T.nothing}</p>`}
    <p class="hint">${T.hint} ${T.asTold(threads, rounds, asItIs)} ${T.keys}</p>`;
}

/** @param {number[]} stop */
export function placeText(stop, count) {
  const [from, to] = [stop[0] + 1, stop[stop.length - 1] + 1];
  return from === to ? T.place(from, count) : T.places(from, to, count);
}
