// The language of the page: what the address asks for with `&lang=`, else what the browser wants,
// else English. The English sentences are beside what says them, or the module gives them; another
// language is a file of them, and one of the glossary's terms.

import { german } from './german.js';
import { germanForms, germanTerms } from './german_terms.js';

export const LANGUAGES = { de: german };
const TERMS = { de: { meanings: germanTerms, forms: germanForms } };
export const LANGUAGE_NAMES = { en: 'English', de: 'Deutsch' };

// What an address asks for, or null.
export const askedLanguage = (fragment) => {
  const asked = new URLSearchParams(fragment.replace(/^#/, '')).get('lang');
  return asked && Object.hasOwn(LANGUAGE_NAMES, asked) ? asked : null;
};

function chosen() {
  if (typeof document === 'undefined') return 'en';
  const wanted = navigator.languages.map((one) => one.split('-')[0]);
  return askedLanguage(location.hash)
    ?? wanted.find((one) => Object.hasOwn(LANGUAGE_NAMES, one)) ?? 'en';
}

export const language = chosen();

// The English with what the other language has of it.
function merged(english, other) {
  if (other === undefined) return english;
  if (Array.isArray(english) || typeof english !== 'object') return other;
  return Object.fromEntries(Object.entries(english)
    .map(([name, text]) => [name, merged(text, other[name])]));
}

// For tests: the English, by the name that it has in a language's file.
export const sources = {};

export function translated(name, english) {
  sources[name] = english;
  return merged(english, LANGUAGES[language]?.[name]);
}

const lessons = {};

// {English: text} of lessons and plans in the language that is shown, before anything is drawn.
export function learnLessons(inLanguages) { Object.assign(lessons, inLanguages[language]); }

// A lesson's text, a plan and the glossary in the language, as far as it has them. The glossary has
// the meaning of each term, and its other forms.
export const translatedText = (text) => lessons[text] ?? text;
export const translatedTerms = (terms) => TERMS[language] ?? terms;

export function translatedPlan(plan) {
  const textsOf = (given) => Object.fromEntries(Object.entries(given)
    .map(([name, text]) => [name, typeof text === 'string' ? translatedText(text) : text]));
  return {
    ...textsOf(plan), steps: plan.steps.map(textsOf), homework: textsOf(plan.homework),
  };
}

// For tests: the names that one of the two has and the other has not, or of another kind.
export function differences(english, other, path = '') {
  if (typeof english !== typeof other) return [path];
  if (typeof english === 'function') return english.length === other.length ? [] : [path];
  if (typeof english === 'string') return [];
  return [...new Set([...Object.keys(english), ...Object.keys(other)])]
    .flatMap((name) => differences(english[name], other[name], `${path}.${name}`));
}
