// The dialog that says why each line of a lock is there: it goes from line to line of the code, and
// opens the schedule in which the lock as it is takes the turns of a changed one.

import { buttonOf, byId, closesBeside, dataOf, dialogOf, focusIn } from '../lib/elements.js';
import { show, write } from '../lib/markup.js';
import { texts } from '../texts/texts.js';
import { changesAt, scheduleOf, stopsOf } from '../model/line_changes.js';
import { looks } from '../model/looks.js';
import { LOCKS } from '../locks/locks.js';
import { drawSteps, revealMove } from '../view/why_steps.js';
import { changesView, codeOfLock, placeText } from '../view/why_view.js';

// The line under the pointer, the line of the shown move, or the first.
function lineShown(pointed = document.querySelector('#code-lines .code-line:hover')) {
  const code = byId('code-lines');
  const line = pointed ?? code.querySelector('.here');
  return line ? [...code.children].indexOf(line) : 0;
}

class Why {
  constructor(page) {
    this.page = page;
    this.dialog = dialogOf('why');
    this.lock = 0;
    this.at = 0;
    // The change whose run is shown move by move, and how many moves of it.
    this.stepped = { number: 0, count: 0 };
    // The schedule that was opened here last, and where its change is.
    this.played = { text: null, lock: 0, at: 0, number: 0 };
  }

  get lines() { return this.page.session.lines[this.lock]; }
  get stops() { return stopsOf(this.lines); }
  get stop() { return this.stops[this.at]; }
  get changes() { return changesAt(this.lock, this.lines[this.stop[0]]); }

  // Of the lock that is shown, at a line that was clicked, or where the reader is; with a schedule
  // that was opened here, at its change.
  openHere(line) {
    const { run } = this.page.session;
    if (!line && run.text === this.played.text) this.showPlayed();
    else if (run.hasLock) this.open(run.kind, lineShown(line));
    else this.open(0);
  }

  open(lock, line = 0) {
    this.lock = lock;
    this.at = this.stops.findIndex((stop) => stop.includes(line));
    this.show();
    buttonOf('why-next').focus();
  }

  show() {
    this.page.stepping.pause();
    this.draw();
    this.dialog.showModal();
  }

  showPlayed() {
    const { lock, at, number } = this.played;
    Object.assign(this, { lock, at });
    this.show();
    this.stepTo(number, 0);
    const button = this.dialog.querySelector(`[data-play="${number}"]`);
    button.closest('section').scrollIntoView();
    focusIn(button.parentElement, '[data-play]');
  }

  go(at) {
    this.at = Math.min(this.stops.length - 1, Math.max(0, at));
    this.draw();
    this.dialog.scrollTop = 0;
  }

  draw() {
    const { lock, lines, stop } = this;
    const canPlay = !this.page.session.machine.stored;
    write(byId('why-title'), texts.why.titleOf(LOCKS[lock].title));
    write(byId('why-place'), placeText(stop, lines.length));
    show(byId('why-code'), codeOfLock(lines, stop));
    show(byId('why-changes'), changesView(lock, lines, stop, canPlay));
    this.stepTo(this.changes.findIndex(({ run }) => run.length), 0);
  }

  // To a move of a change's run, or before the first.
  stepTo(number, count) {
    const { lock, lines, changes } = this;
    const most = changes[number]?.run.length ?? 0;
    this.stepped = { number, count: Math.min(most, Math.max(0, count)) };
    drawSteps(byId('why-changes'), { lock, lines, changes, ...this.stepped });
  }

  // On by so many moves in the run that is shown, or into the run of another change.
  step(by, number = this.stepped.number) {
    this.stepTo(number, number === this.stepped.number ? this.stepped.count + by : by);
    revealMove(byId('why-changes'));
  }

  play(number) {
    const { lock, at } = this;
    this.dialog.close();
    this.played = { text: scheduleOf(lock, this.changes[number]), lock, at, number };
    // The sentences on a move are then beside memory.
    if (looks.hall) looks.parts = ['memory', 'now'];
    this.page.open(this.played.text, null, 0);
    this.page.modes.set('lessons');
  }

  /** @param {DOMStringMap} chosen */
  choose({ play, line, of, step, count }) {
    if (play) this.play(Number(play));
    if (step) this.step(Number(step), Number(of));
    if (count) this.stepTo(Number(of), Number(count));
    if (line) this.go(this.stops.findIndex((stop) => stop.includes(Number(line))));
  }

  // A clicker steps with the keys of pages.
  press(key) {
    const { at, stops: { length } } = this;
    const does = {
      ArrowRight: at + 1, ArrowLeft: at - 1, Home: 0, End: length,
      ...(looks.hall && { PageDown: at + 1, PageUp: at - 1 }),
    };
    const acts = { y: () => this.dialog.close(), n: () => this.step(1), p: () => this.step(-1) };
    const act = key in does ? () => this.go(does[key]) : acts[key.toLowerCase()];
    act?.();
    return Boolean(act);
  }
}

// `open(lock)` begins at the lock's first line, `openHere()` where the reader is.
export function whyDialog(page) {
  const why = new Why(page);
  const { dialog } = why;
  closesBeside(dialog);
  byId('why-back').addEventListener('click', () => why.go(why.at - 1));
  byId('why-next').addEventListener('click', () => why.go(why.at + 1));
  dialog.addEventListener('click', (event) => {
    why.choose(dataOf(event, '[data-play], [data-line], [data-of]'));
  });
  dialog.addEventListener('keydown', (event) => {
    const { key, ctrlKey, metaKey, altKey } = event;
    if (ctrlKey || metaKey || altKey) return;
    if (!why.press(key)) return;
    event.preventDefault();
    // Else the page would open the dialog again.
    event.stopPropagation();
  });
  return why;
}
