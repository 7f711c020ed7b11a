// Who the page is: its name, what is proved, the locks' code, its licence, and the browsers that
// run the machine. All of it is in the page, which may be one file by itself.

import { byId, closesBeside, dialogOf, targetOf } from '../lib/elements.js';
import { html, show } from '../lib/markup.js';
import { language, LANGUAGE_NAMES } from '../texts/language.js';
import { texts } from '../texts/texts.js';
import { LOCKS } from '../locks/locks.js';

const codeView = (lines) => html`${LOCKS.map(({ title }, lock) => html`<h3>${title}</h3>
  <pre class="mono">${lines[lock].map(({ code }) => `${code}\n`)}</pre>`)}`;

export const languageButtons = () => html`${Object.entries(LANGUAGE_NAMES)
  .map(([name, own]) => html`<button type="button" data-lang="${name}" lang="${name}"
    aria-pressed="${name === language}">${own}</button> `)}`;

export function aboutDialog(page) {
  const dialog = dialogOf('about');
  closesBeside(dialog);
  dialog.addEventListener('click', (event) => {
    const { lang, plans } = targetOf(event).dataset;
    if (lang) page.address.inLanguage(lang);
    if (!plans) return;
    dialog.close();
    page.lecture.choose();
  });
  return () => {
    const { proved, documents, source, licence, browsers, language: label } = texts.about;
    show(byId('about-text'), html`<p>${proved}</p>
      <details><summary>${documents.LOCKS}</summary>${codeView(page.session.lines)}</details>
      <p><button type="button" data-plans="true">${documents.GUIDE}</button></p>
      <p>${source}</p><p>${licence}</p><p>${browsers}</p><p>${label} ${languageButtons()}</p>`);
    dialog.showModal();
  };
}
