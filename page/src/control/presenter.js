// A second window for the lecturer: it shows what the hall does not see yet. It is drawn by this
// window, since a page from disk may not open itself twice and talk to itself.

import { closeDialogs } from '../lib/elements.js';
import { html, show } from '../lib/markup.js';
import { texts } from '../texts/texts.js';
import { lockOf } from '../locks/locks.js';
import { sentence } from '../locks/sentences.js';
import { whoRows } from '../view/move_view.js';
import { tell } from '../view/notice.js';

const T = texts.presenter;
const NAME = 'lockreplay-presenter';
const SHAPE = 'width=820,height=640';
const PICTURE = { width: 760, height: 250, scale: 1, tight: true };
// The keys of a clicker and those like them, with what they do at the end of a plan.
const STEPS = {
  ArrowRight: 'forward', PageDown: 'forward', ArrowLeft: 'backward', PageUp: 'backward',
};
// The other keys that open no dialog.
const PASSED = [...' []jadfh.,+=-', 'Home', 'End', 'Escape'];

// The window of before, if it is this page's. That of a page from disk is not after a reload.
function openWindow() {
  const found = window.open('', NAME, SHAPE);
  try {
    return found?.document ? found : null;
  } catch {
    found.close();
    return window.open('', `${NAME}-${Date.now()}`, SHAPE);
  }
}

export class Presenter {
  constructor(page) {
    this.page = page;
    this.window = null;
  }

  get isOpen() { return this.window !== null && !this.window.closed; }

  open() {
    this.window = openWindow();
    if (!this.window) {
      tell(T.blocked);
      return;
    }
    const { document: there } = this.window;
    there.head.replaceChildren(document.querySelector('style').cloneNode(true));
    there.title = T.title;
    there.body.className = 'presenter';
    there.documentElement.lang = document.documentElement.lang;
    // A key that the page takes gives false, so it does nothing else there.
    this.window.onkeydown = (event) => this.press(event);
    this.draw();
  }

  // Passes a key to the page, if it opens no dialog there, which the hall would see. A dialog that
  // is open there takes no key from here, so what it would do is done.
  press({ key, ctrlKey, metaKey, altKey }) {
    const { lecture } = this.page;
    if (ctrlKey || metaKey || altKey) return true;
    if (lecture.ending.isOpen && key in STEPS) return lecture[STEPS[key]]() ?? false;
    if (key === 'Escape' && document.querySelector('dialog[open]')) closeDialogs();
    else if (this.passes(key)) {
      const given = { key, bubbles: true, cancelable: true };
      return document.body.dispatchEvent(new KeyboardEvent('keydown', given));
    } else return true;
    return false;
  }

  passes(key) {
    const { lecture, comparing } = this.page;
    const small = key.toLowerCase();
    if (small === 'n') return lecture.isOn;
    if (small === 'c') return comparing.kinds().length > 0;
    return key in STEPS || PASSED.includes(key.length === 1 ? small : key);
  }

  draw() {
    if (!this.isOpen || !this.page.session.run.hasLock) return;
    const { document: there } = this.window;
    there.documentElement.dataset.theme = document.documentElement.dataset.theme ?? '';
    show(there.body, this.view());
    there.body.append(document.querySelector('svg.defs').cloneNode(true));
  }

  view() {
    const { session, lecture } = this.page;
    const view = session.view({ answered: true });
    const { run, move, remarks } = view;
    const state = run.state(move);
    const next = move < run.count ? move + 1 : view.loop?.first;
    return html`<h1>${remarks.title}</h1>
      <p class="clock">${texts.position(move, run.count)}${lecture.isOn && html`
        <b>${lecture.clock}</b>`}</p>
      ${lecture.isOn && lectureRows(lecture)}
      ${move > 0 && html`<h2>${T.now}</h2><p class="say">${sentence(view, move)}</p>`}
      <dl class="facts">${whoRows(view, state)}</dl>
      <div class="picture">${lockOf(run).draw({ ...view, ...PICTURE }, state)}</div>
      ${remarks.ask.has(move) && html`<h2>${texts.question}</h2><p>${remarks.ask.get(move)}</p>
        <p class="say">${remarks.answer.get(move)}</p>
        ${this.page.isAsked && html`<div class="waits">${T.waits}</div>`}`}
      ${next && html`<h2>${T.next}</h2><p>${
  sentence({ ...view, move: next }, next)}</p>`}<footer class="soft">${T.keys}</footer>`;
  }
}

function lectureRows({ step, following }) {
  return html`<p>${texts.plans.minutes(step.from, step.to)}</p><p>${step.say}</p>
    ${following && html`<p class="soft">${T.following(following.title, following.move)}</p>`}`;
}
