// The dialog before the first lesson: why there are locks, in six moves.

import { buttonOf, byId, closesBeside, dialogOf } from '../lib/elements.js';
import { show } from '../lib/markup.js';
import { PROLOGUE, tickOff } from '../model/done_lessons.js';
import { LAST } from '../model/prologue.js';
import { prologueView } from '../view/prologue_view.js';

const KEYS = { ArrowRight: 1, PageDown: 1, ArrowLeft: -1, PageUp: -1 };

// `begin` opens the first lesson, to which the last move leads.
export function prologueDialog(begin) {
  const dialog = dialogOf('prologue');
  const [back, forward, lesson] = ['back', 'forward', 'begin']
    .map((name) => buttonOf(`prologue-${name}`));
  let count = 0;
  const go = (to) => {
    count = Math.min(LAST, Math.max(0, to));
    show(byId('prologue-text'), prologueView(count));
    back.disabled = count === 0;
    forward.disabled = count === LAST;
    lesson.classList.toggle('strong', count === LAST);
    (count === LAST ? lesson : forward).focus();
    if (count === LAST) tickOff(PROLOGUE);
  };
  closesBeside(dialog);
  back.addEventListener('click', () => go(count - 1));
  forward.addEventListener('click', () => go(count + 1));
  lesson.addEventListener('click', () => {
    dialog.close();
    begin();
  });
  dialog.addEventListener('keydown', (event) => {
    const { key, ctrlKey, metaKey, altKey } = event;
    if (!(key in KEYS) || ctrlKey || metaKey || altKey) return;
    event.preventDefault();
    go(count + KEYS[key]);
  });
  return () => {
    dialog.showModal();
    go(0);
  };
}
