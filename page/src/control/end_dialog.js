// The dialog after the last lesson: what was learned in all of them, and where to go on.

import { byId, closesBeside, dataOf, dialogOf, focusIn } from '../lib/elements.js';
import { html, show } from '../lib/markup.js';
import { texts } from '../texts/texts.js';

function endView() {
  const { lines, ways } = texts.lessons.allDone;
  const buttons = Object.entries(ways).map(([way, name]) => html`<button type="button"
    data-further="${way}">${name}</button> `);
  return html`<ul>${lines.map((line) => html`<li>${line}</li>`)}</ul><div class="row">${
    buttons}</div>`;
}

// `goOn` does what is chosen: `why`, `play` or `quiz`.
export function endDialog(goOn) {
  const dialog = dialogOf('all-done');
  closesBeside(dialog);
  dialog.addEventListener('click', (event) => {
    const { further } = dataOf(event, '[data-further]');
    if (!further) return;
    dialog.close();
    goOn(further);
  });
  return () => {
    show(byId('all-done-text'), endView());
    dialog.showModal();
    focusIn(dialog, '[data-further]');
  };
}
