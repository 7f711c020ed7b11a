// The dialogs that say which parts are shown, and what is printed.

import { byId, closesBeside, dialogOf, focusIn, targetOf } from '../lib/elements.js';
import { html, showAnew } from '../lib/markup.js';
import { texts } from '../texts/texts.js';
import { looks, PARTS, partsShown, toggleHall, togglePart } from '../model/looks.js';

const T = texts.view;

const box = (name, checked, label) => html`<label class="check"><input type="checkbox"
  name="${name}" ${checked && 'checked'}><span>${label}</span></label>`;

function drawView() {
  const shown = partsShown();
  showAnew(byId('view-list'), html`${PARTS.map((part) => box(part, shown.includes(part),
    T.parts[part]))}<hr>${box('future', looks.future, T.future)}
    ${box('hall', looks.hall, T.hall)}`);
}

function toggle(name) {
  if (name === 'hall') toggleHall();
  else if (name === 'future') looks.future = !looks.future;
  else togglePart(name);
}

export function viewDialog(page) {
  const dialog = dialogOf('view');
  closesBeside(dialog);
  dialog.addEventListener('change', ({ target }) => {
    if (!(target instanceof HTMLInputElement)) return;
    const { name } = target;
    toggle(name);
    page.show();
    drawView();
    focusIn(dialog, `[name=${name}]`);
  });
  return () => {
    drawView();
    dialog.showModal();
    focusIn(dialog, 'input');
  };
}

// Which sheet is printed: `print(sheet)` prints it.
export function sheetsDialog(print) {
  const dialog = dialogOf('sheets');
  closesBeside(dialog);
  dialog.addEventListener('click', (event) => {
    const { sheet } = targetOf(event).dataset;
    if (!sheet) return;
    dialog.close();
    print(sheet);
  });
  return (sheet = 'worked') => {
    dialog.showModal();
    focusIn(dialog, `[data-sheet=${sheet}]`);
  };
}
