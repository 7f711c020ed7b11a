// The address of the page, its history and the browser's storage: they follow what is shown, and
// bring it back.

import { fromBase64 } from '../lib/bytes.js';
import { byId } from '../lib/elements.js';
import { write } from '../lib/markup.js';
import { askedLanguage, language } from '../texts/language.js';
import { texts } from '../texts/texts.js';
import {
  keepPlace, keepSchedule, keptSchedule, keptSchedules, newName,
} from '../model/kept_schedules.js';
import { endOf, fragmentOf, readFragment } from '../model/link.js';
import { looksText, readLooks } from '../model/looks.js';
import { tell, toClipboard } from '../view/notice.js';
import { FIRST_LESSON } from './lessons_dialog.js';
import { showTheme } from './theme.js';

const T = texts.links;
const WAIT = 250;

// The trace that `locktrace check --page` put into the page; of any other page, no byte.
const givenTrace = () => fromBase64(
  document.querySelector('meta[name=trace]').getAttribute('content'));

export class Address {
  constructor(page) {
    this.page = page;
    // The name under which what is shown is kept; null for a lesson.
    this.keptName = null;
    this.unkept = new Map();
    this.returning = false;
    // Whether the page began with the start, and nothing was opened since.
    this.isAtStart = false;
  }

  begin() {
    this.page.quiz.bringBack(history.state);
    if (this.open()) return;
    const given = givenTrace();
    if (given.length) {
      this.page.editing.openText(given);
      return;
    }
    this.page.openLesson(FIRST_LESSON);
    this.isAtStart = true;
    this.page.chooseLesson();
  }

  // Whether nothing was opened or stepped through since the start.
  get isUnused() {
    return this.isAtStart && !this.damaged && this.page.session.place === 0;
  }

  // In another language, which is chosen when the page is loaded. The start comes again if nothing
  // else was shown.
  inLanguage(name) {
    this.flush();
    const shown = location.hash.replace(/&?lang=[^&]*/, '');
    const parts = this.isUnused ? `#${looksText().slice(1)}` : shown;
    const fragment = `${parts || '#'}${parts.length > 1 ? '&' : ''}lang=${name}`;
    history.replaceState(this.page.quiz.saved, '', fragment);
    location.reload();
  }

  // Opens what the address names. False if it names nothing.
  open() {
    if ((askedLanguage(location.hash) ?? language) !== language) location.reload();
    readLooks(location.hash);
    showTheme();
    const asked = readFragment(location.hash);
    if (!asked) return false;
    const wrong = asked.wrong ?? this.openAsked(asked);
    this.warn(wrong);
    return !wrong || Boolean(this.page.session.run);
  }

  /**
   * What is wrong with what was asked for, if anything is.
   * @param {import('../model/link.js').Asked} asked
   */
  openAsked({ lesson, kept: name, text, move, cut, play, compare }) {
    const { page } = this;
    if (name && page.session.run) this.keep();
    const found = name && keptSchedule(name);
    if (name && !found) return T.notKept;
    if (lesson && !page.lessons.some((one) => one.name === lesson)) return T.noLesson(lesson);
    this.returning = true;
    if (lesson) page.openLesson(lesson, move);
    else page.openOwn(text ?? found.text, move);
    this.keptName = name ?? this.keptName;
    if (play || compare) page.goOnWith(play, compare);
    this.returning = false;
    return cut ? T.cut : '';
  }

  // A link that is damaged stays in the address until another schedule is opened.
  warn(wrong) {
    this.damaged = wrong;
    const box = byId('damaged');
    box.hidden = !wrong;
    write(box, wrong || '');
  }

  // Keeps this schedule in the history, before another one takes its place.
  leave(lesson) {
    this.isAtStart = false;
    if (this.page.session.run && !this.returning) {
      this.note();
      this.write(this.fragment());
      this.warn('');
      this.push();
    }
    this.keptName = lesson ? null : newName();
  }

  push() {
    try {
      history.pushState(this.page.quiz.saved, '', location.href);
    } catch {
      // Too many entries in a short time.
    }
  }

  // Makes the address a link. If there is none, the schedule is saved. Whether there is one.
  link() {
    const { page } = this;
    const fragment = fragmentOf(page.session);
    if (fragment) {
      this.warn('');
      this.write(fragment);
    } else {
      page.editing.save();
      tell(T.tooLong);
    }
    return Boolean(fragment);
  }

  copy() {
    const mine = location.protocol === 'file:' ? T.fromDisk : '';
    if (this.link()) toClipboard(location.href, `${T.copied} ${mine}`, `${T.inBar} ${mine}`);
  }

  // Waits before it changes the address, since browsers allow few changes a second.
  writeSoon() {
    clearTimeout(this.writing);
    this.writing = setTimeout(() => this.flush(), WAIT);
  }

  flush() {
    clearTimeout(this.writing);
    this.keep();
    this.write(this.fragment());
  }

  fragment() {
    const { session } = this.page;
    return fragmentOf(session) ?? `#kept=${this.keptName}${endOf(session.place)}`;
  }

  // Notes a schedule of the reader's own, to be kept when there is time. If it is kept already,
  // only its place is noted.
  note() {
    const { held, place, lesson, remarks } = this.page.session;
    if (lesson) return;
    if (held === this.noted && !this.unkept.has(this.keptName)) {
      keepPlace(this.keptName, place);
      return;
    }
    this.noted = held;
    this.unkept.set(this.keptName, [held, place, remarks.title]);
  }

  keep() {
    this.note();
    for (const [name, what] of this.unkept) keepSchedule(name, ...what);
    this.unkept.clear();
  }

  keptAll() {
    this.keep();
    return keptSchedules();
  }

  // The text of a listed one may be gone: there was no room for it, or another tab took it.
  openKept(name) {
    const found = keptSchedule(name);
    if (!found) return tell(T.gone);
    this.page.openOwn(found.text, found.place);
    this.keptName = name;
    return undefined;
  }

  write(fragment) {
    const { saved: answers } = this.page.quiz;
    if (this.damaged || (fragment === location.hash && answers === history.state)) return;
    try {
      history.replaceState(answers, '', fragment);
    } catch {
      // Too many changes in a short time: the next one writes it.
    }
  }
}
