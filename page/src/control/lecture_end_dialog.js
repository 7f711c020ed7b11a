// What comes after a lesson plan: the next plan, its exercise sheet, or the end of the lecture. The
// keys of a clicker lead through it too.

import { byId, closesBeside, dataOf, dialogOf, focusIn } from '../lib/elements.js';
import { show } from '../lib/markup.js';
import { lectureEndView } from '../view/lecture_view.js';

const KEYS = { ArrowRight: 'goOn', PageDown: 'goOn', ArrowLeft: 'goBack', PageUp: 'goBack' };

// `does` has what each choice does, and `back` for none.
export function lectureEndDialog(does) {
  const dialog = dialogOf('lecture-end');
  const choose = (way) => {
    dialog.close();
    does[way]();
  };
  const ending = {
    get isOpen() { return dialog.open; },
    show(lecture) {
      show(byId('lecture-end-text'), lectureEndView(lecture));
      dialog.showModal();
      focusIn(dialog, '[data-end-way]');
    },
    // The first choice: the next plan, and after the last one the end.
    goOn: () => choose(/** @type {HTMLElement} */ (
      dialog.querySelector('[data-end-way]')).dataset.endWay),
    goBack: () => choose('back'),
  };
  closesBeside(dialog);
  dialog.addEventListener('click', (event) => {
    const { endWay } = dataOf(event, '[data-end-way]');
    if (endWay) choose(endWay);
  });
  dialog.addEventListener('keydown', (event) => {
    if (!(event.key in KEYS)) return;
    event.preventDefault();
    // Else the page, in which no dialog is open then, would go on once more.
    event.stopPropagation();
    ending[KEYS[event.key]]();
  });
  return ending;
}
