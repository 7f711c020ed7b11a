// Starts the page: the machine, or what was stored of it, the lessons, and the controls.

import { fromBase64, lettersOf, unpacked } from '../lib/bytes.js';
import { buttonOf, byId } from '../lib/elements.js';
import { write } from '../lib/markup.js';
import { linesOf } from '../machine/locks_code.js';
import { Machine } from '../machine/machine.js';
import { StoredMachine } from '../machine/stored_machine.js';
import { learnWords } from '../machine/word_names.js';
import { language, learnLessons, translatedText } from '../texts/language.js';
import { capital, texts } from '../texts/texts.js';
import { learnKinds } from '../model/kinds.js';
import { learnWhy } from '../model/line_changes.js';
import { looks } from '../model/looks.js';
import { Session } from '../model/session.js';
import { learnTerms } from '../view/terms.js';
import { listen } from './controls.js';
import { Page } from './page.js';
import { testPort } from './test_port.js';

const unpackedPart = async (part) => new Uint8Array(await unpacked(fromBase64(part)));
const unpackedJson = async (part) => JSON.parse(lettersOf(await unpackedPart(part)).letters);

// The machine if the browser can run it, else what it answered when the page was built.
async function runOrStored(data) {
  try {
    return new Machine(await unpackedPart(data.module));
  } catch {
    return new StoredMachine(await unpackedJson(data.stored));
  }
}

// The machine, and which numbers it takes in a schedule.
const machineOf = async (data) => Object.assign(await runOrStored(data), { ranges: data.ranges });

// The texts of the page that never change.
function writeTexts() {
  document.documentElement.lang = language;
  const named = (path) => path.split('.').reduce((at, name) => at[name], texts);
  const all = (selector) => document.querySelectorAll(selector);
  // A blank before the key, so that a name is not read as one word with it.
  for (const node of all('[data-text]')) node.prepend(`${named(node.dataset.text)} `);
  for (const node of all('[data-label]')) {
    node.setAttribute('aria-label', named(node.dataset.label));
    if (node.matches('button, select')) node.title = named(node.dataset.label);
  }
  for (const node of all('[data-title]')) node.title = named(node.dataset.title);
  tellTools(all('.tools button'));
}

// A tool says what it does where one points at it, as the list of keys does.
function tellTools(tools) {
  const does = new Map(texts.keys.list);
  for (const node of tools) {
    const key = node.querySelector('kbd')?.textContent;
    if (does.has(key)) node.title = capital(does.get(key));
  }
}

// Pictures are laid out by the widths of letters, so fonts come first. A browser that blocks the
// page's own fonts shows it in the system's.
export async function start(data) {
  const parts = ['why', 'lessons', 'translations'].map((name) => unpackedJson(data[name]));
  const unpacking = Promise.all([machineOf(data), ...parts]).catch(() => []);
  await Promise.allSettled([...document.fonts].map((face) => face.load()));
  const [machine, why, lessons, translations] = await unpacking;
  if (machine) begin({ ...data, why, lessons, translations }, machine);
  else refuse();
}

// A browser that cannot unpack the parts of the page says so. Controls that do nothing are taken
// away.
function refuse() {
  const said = byId('damaged');
  write(said, texts.tooOld);
  said.hidden = false;
  document.documentElement.lang = language;
  document.body.replaceChildren(said);
}

function begin(data, machine) {
  learnWords(data.words);
  learnKinds(data.kinds);
  learnWhy(data.why);
  learnLessons(data.translations);
  learnTerms(data.terms);
  const lessons = data.lessons.map(({ title, text, ...lesson }) => (
    { ...lesson, title: translatedText(title), text: fromBase64(text) }));
  writeTexts();
  const page = new Page(new Session(machine, linesOf(data.code)), lessons, data.plans);
  listen(page);
  page.stepping.draw();
  byId('banner').hidden = !machine.stored;
  for (const id of ['mode-own', 'mode-play', 'show-find']) {
    buttonOf(id).disabled = Boolean(machine.stored);
  }
  page.address.begin();
  page.lecture.resume();
  if (looks.sheet) page.showSheets(looks.sheet);
  Object.assign(window, { lockreplay: { test: testPort(page) } });
}
