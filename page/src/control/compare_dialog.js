// The dialog that says what a comparison needs, and offers it: another schedule of the same lock,
// or a way to make one from this.

import { byId, closesBeside, dataOf, dialogOf, focusIn } from '../lib/elements.js';
import { html, show } from '../lib/markup.js';
import { texts } from '../texts/texts.js';
import { keptSchedule } from '../model/kept_schedules.js';
import { lockOf } from '../locks/locks.js';

const T = texts.compare;

// {title, text} of the other schedules of the lock that is shown, the reader's own first.
export function othersOf({ session, lessons, address }) {
  const { run, lesson, machine } = session;
  const hasLock = (text) => {
    const other = session.runOf(text);
    return other.hasLock && other.kind === run.kind;
  };
  const kept = machine.stored ? [] : address.keptAll()
    .filter(({ name }) => name !== address.keptName)
    .map(({ name, title }) => ({ title: title || texts.untitled, text: keptSchedule(name)?.text }))
    .filter(({ text }) => text && hasLock(text));
  const listed = lessons
    .filter(({ name, group }) => name !== lesson && group === lockOf(run).name);
  return [...kept, ...listed];
}

const wayView = ([name, [title, what]]) => html`<button type="button" data-way="${name}">
  <b>${title}</b>: ${what}</button>`;
const otherView = ({ title }, at) => html`<button type="button" data-other="${at}">${title}
  </button>`;

// `way(name)` goes to where another schedule is made, `other({title, text})` takes one.
export function compareDialog({ way, other }) {
  const dialog = dialogOf('choose-other');
  let others = [];
  closesBeside(dialog);
  dialog.addEventListener('click', (event) => {
    const chosen = dataOf(event, '[data-way], [data-other]');
    if (chosen.way || chosen.other) dialog.close();
    if (chosen.way) way(chosen.way);
    if (chosen.other) other(others[Number(chosen.other)]);
  });
  return (offered, isStored) => {
    others = offered;
    show(byId('other-list'), html`${!isStored && Object.entries(T.ways).map(wayView)}${
      others.map(otherView)}`);
    dialog.showModal();
    focusIn(dialog, '#other-list button');
  };
}
