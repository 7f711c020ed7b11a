// Terms of art, each explained where one points at it, in the words of docs/GLOSSARY.md.

import { byId, targetOf } from '../lib/elements.js';
import { html, write } from '../lib/markup.js';
import { translatedTerms } from '../texts/language.js';

// Other forms of a term, in English.
const FORMS = {
  holder: 'holds', word: 'words', step: 'steps', move: 'moves', poll: 'polls', link: 'linked',
  lock: 'locks', thread: 'threads', add: 'adds', swap: 'swaps', section: 'sections',
  announce: 'announced, announces', record: 'records',
};
let meanings = {};
// By each form of a term, in small letters, the term.
let terms = {};
let pattern = null;

// {term: meaning} in English, before anything is drawn.
export function learnTerms(english) {
  const { meanings: given, forms } = translatedTerms({ meanings: english, forms: FORMS });
  meanings = given;
  const formsOf = (term) => [term, ...(forms[term]?.split(', ') ?? [])];
  terms = Object.fromEntries(Object.keys(given)
    .flatMap((term) => formsOf(term).map((form) => [form.toLowerCase(), term])));
  const longestFirst = Object.keys(terms).sort((one, other) => other.length - one.length);
  pattern = new RegExp(`(?<![\\p{L}-])(${longestFirst.join('|')})(?![\\p{L}-])`, 'iu');
}

const termOf = (text) => terms[text.toLowerCase()];

const termView = (text) => html`<span class="term" role="button" tabindex="0" data-term="${
  termOf(text)}">${text}</span>`;

// The text with its terms marked, each where it is first.
export function withTerms(text) {
  if (!pattern) return html`${text}`;
  const parts = text.split(pattern);
  const found = parts.map((part, at) => (at % 2 ? termOf(part) : null));
  return html`${parts.map((part, at) => (
    found[at] && found.indexOf(found[at]) === at ? termView(part) : part))}`;
}

function showMeaning(target) {
  const tip = byId('tip-box');
  const term = target.closest?.('.term');
  tip.hidden = !term;
  document.querySelector(`[aria-describedby="${tip.id}"]`)?.removeAttribute('aria-describedby');
  if (!term) return;
  term.setAttribute('aria-describedby', tip.id);
  // A dialog is above everything but what is in it.
  (term.closest('dialog') ?? document.body).append(tip);
  write(tip, meanings[term.dataset.term]);
  const body = /** @type {HTMLElement & {currentCSSZoom?: number}} */ (document.body);
  const zoom = body.currentCSSZoom ?? 1;
  const { left, bottom, top } = term.getBoundingClientRect();
  const { offsetWidth: width, offsetHeight: height } = tip;
  const below = bottom / zoom + 6;
  tip.style.left = `${Math.max(8, Math.min(left / zoom, innerWidth / zoom - width - 8))}px`;
  tip.style.top = `${below + height < innerHeight / zoom ? below : top / zoom - height - 6}px`;
}

export function listenForTerms() {
  for (const event of ['pointerover', 'focusin', 'click']) {
    addEventListener(event, ({ target }) => showMeaning(target));
  }
  addEventListener('keydown', (event) => {
    const tip = byId('tip-box');
    const target = targetOf(event);
    if (/^(Enter| )$/.test(event.key) && target.matches('.term')) showMeaning(target);
    // It is all that Escape closes, but in a dialog, which closes with it.
    if (event.key !== 'Escape' || !tip.getClientRects().length || tip.closest('dialog')) return;
    event.stopImmediatePropagation();
    tip.hidden = true;
  });
}
