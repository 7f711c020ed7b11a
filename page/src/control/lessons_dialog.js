// The start: what the page is, the lessons of each lock in their order, what was kept, and what one
// can do oneself. It is also where a lesson is chosen later.

import { byId, closesBeside, dataOf, dialogOf, focusIn } from '../lib/elements.js';
import { html, show } from '../lib/markup.js';
import { texts } from '../texts/texts.js';
import { LOCK_NAMES } from '../machine/codes.js';
import { doneLessons, PROLOGUE } from '../model/done_lessons.js';
import { MOST_KEPT } from '../model/kept_schedules.js';
import { remarksOf } from '../model/remarks.js';
import { LOCKS } from '../locks/locks.js';
import { withTerms } from '../view/terms.js';
import { languageButtons } from './about_dialog.js';
import { LiveCards } from './live_cards.js';

/** @typedef {import('../model/run.js').Run} Run */
/** @typedef {import('../model/session.js').Session} Session */

export const FIRST_LESSON = 'ticket-hand-over';
const PROLOGUE_BUTTON = '[data-prologue]';
const T = texts.lessons;
// Seconds for a move and for a question.
const PACE = { move: 10, question: 30 };
// How many of the kept schedules are not folded.
const KEPT_AT_ONCE = 12;

// Lessons with what one learns in them, how many moves one steps through, and how long that takes.
/** @param {Run} run */
function described(lesson, run) {
  const { learn, ask, begin } = remarksOf(lesson.text);
  const moves = run.last - begin;
  const seconds = PACE.move * moves + PACE.question * ask.size;
  const minutes = Math.max(1, Math.round(seconds / 60));
  return { ...lesson, learn, moves, minutes };
}

// The number of a lesson, or that it is done.
const numberOf = (name, number) => (doneLessons().has(name)
  ? html`<span role="img" title="${T.done}" aria-label="${T.done}">✓</span>` : number);

function lessonButton({ name, title, learn, moves, minutes }, number, current) {
  return html`<li><button type="button" data-lesson="${name}"
    ${name === current && html`aria-current="true"`}><span class="number">${
  numberOf(name, number)}</span>
    <span><b>${title}</b>${learn && html`<span class="learn">${learn}</span>`}
    <span class="soft">${learn ? T.size(moves, minutes) : name}</span></span></button></li>`;
}

const listOf = (lessons, current, first = null, last = null) => html`<ol>${first}${
  lessons.map((one, at) => lessonButton(one, at + 1, current))}${last}</ol>`;

// Before the first lesson, why there are locks.
const prologueButton = () => html`<li><button type="button" data-prologue="begin"><span
  class="number">${numberOf(PROLOGUE, 0)}</span><span><b>${texts.prologue.title}</b><span
  class="learn">${texts.prologue.teaser}</span></span></button></li>`;

// After the lessons of a lock, why its lines are there.
const whyButton = (lock) => html`<li><button type="button" data-why="${lock}"><span
  class="number">Y</span><span><b>${texts.why.title}</b><span class="learn">${
  texts.why.lesson}</span></span></button></li>`;

function cardView({ name, title }, lessons, current) {
  return html`<section class="lock-card" data-lock="${name}"><div class="live"
    data-live="${name}" aria-hidden="true"></div><h3>${title}</h3>
    <p>${withTerms(T.teaches[name])}</p>${listOf(lessons, current,
    lessons[0].name === FIRST_LESSON && prologueButton(), whyButton(name))}</section>`;
}

function keptView(kept) {
  if (!kept.length) return null;
  const one = ({ name, title, place }) => html`<button type="button" data-kept="${name}">
    ${title || texts.untitled} <span class="soft">${T.keptMove(place)}</span></button>`;
  const rest = kept.slice(KEPT_AT_ONCE);
  return html`<section class="kept"><h3>${T.kept(MOST_KEPT)}</h3>${
    kept.slice(0, KEPT_AT_ONCE).map(one)}${rest.length > 0 && html`<details><summary>${
    texts.folded(rest.length)}</summary><div>${rest.map(one)}</div></details>`}</section>`;
}

const WAYS = ['own', 'play', 'find', 'plans'];

const waysView = (isStored) => html`<section class="ways">${WAYS.map((way) => html`<button
  type="button" data-way="${way}" ${isStored && way !== 'plans' && 'disabled'}><b>${
  T.ways[way][0]}</b><span>${T.ways[way][1]}</span></button>`)}</section>`;

// Refusals, which a reader looks up, and does not begin with.
function refusedView(lessons, current) {
  const groups = ['refused', 'fault'].map((group) => html`<div><h4>${T.groups[group]}</h4>
    ${listOf(lessons.filter((one) => one.group === group), current)}</div>`);
  const isOpen = lessons.some(({ name, group }) => name === current && T.groups[group]);
  return html`<details class="refusals" ${isOpen && 'open'}><summary>${T.refusals}</summary>
    <div>${groups}</div></details>`;
}

function startView(lessons, current, kept, isStored) {
  const cards = LOCKS.map((lock) => (
    cardView(lock, lessons.filter(({ group }) => group === lock.name), current)));
  return html`<p class="what">${T.what.map((one) => html`${withTerms(one)} `)}</p>
    <p class="languages">${languageButtons()}</p>${keptView(kept)}<div class="cards">${cards}</div>
    ${waysView(isStored)}${refusedView(lessons, current)}`;
}

// What to begin with: the prologue before all, then the lesson that is shown, and after it the
// first of those that are not done.
function toBegin(lessons, current) {
  const done = doneLessons();
  if (!done.size && current === FIRST_LESSON) return PROLOGUE_BUTTON;
  const next = lessons.find(({ name, group }) => LOCK_NAMES.includes(group) && !done.has(name));
  return done.has(current) && next ? `[data-lesson="${next.name}"]` : '[aria-current]';
}

// At once, so that its pictures are none of the page's.
export function closeLessons() {
  dialogOf('lessons').close();
  show(byId('lesson-list'), html``);
}

// `choose` has what each choice does; `session` plays the lessons that are pictured.
/** @param {Session} session */
export function lessonsDialog(lessons, session, choose) {
  const dialog = dialogOf('lessons');
  const live = new LiveCards(lessons, session);
  let all = null;
  closesBeside(dialog);
  dialog.addEventListener('click', (event) => {
    const chosen = dataOf(event, 
      '[data-lesson], [data-kept], [data-prologue], [data-why], [data-way], [data-lang]');
    const [what, value] = Object.entries(chosen)[0] ?? [];
    if (!what) return;
    dialog.close();
    choose[what](value);
  });
  dialog.addEventListener('close', () => {
    live.stop();
    closeLessons();
  });
  return (current, kept) => {
    all ??= lessons.map((lesson) => described(lesson, session.runOf(lesson.text)));
    show(byId('lesson-list'), startView(all, current, kept, session.machine.stored));
    dialog.showModal();
    live.draw(dialog);
    const first = toBegin(lessons, current);
    focusIn(dialog, first);
    // In a small window the focus alone would scroll the title away.
    if (first === PROLOGUE_BUTTON) dialog.scrollTop = 0;
  };
}
