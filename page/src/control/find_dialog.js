// The dialog in which a moment is looked for: a kind of transition, or lines of the reader's own.
// The schedule that the module finds is opened at the move that was looked for: of lines the last.

import { bytesOf } from '../lib/bytes.js';
import {
  buttonOf, byId, closesBeside, dialogOf, elementOf, formOf, inputOf, selectOf,
} from '../lib/elements.js';
import { html, show, write } from '../lib/markup.js';
import { ANSWER, LOCK_NAMES } from '../machine/codes.js';
import { findRun, FOUND } from '../machine/search.js';
import { language } from '../texts/language.js';
import { texts } from '../texts/texts.js';
import { firstOf, kindsOf } from '../model/kinds.js';
import { lockOptions, newHeader } from '../view/choices_view.js';

const T = texts.find;

const linesOf = (sketch) => sketch.split('\n').filter((line) => line.trim());

const withCommas = (number) => number.toLocaleString(language);

// Why there is no run to show.
function refusal({ answer, count }, { threads, rounds }) {
  const states = withCommas(count);
  return {
    [FOUND.nowhere]: () => T.nowhere(texts.threads(threads), T.rounds(rounds), states),
    [FOUND.tooLarge]: () => T.tooLarge(states),
    [FOUND.longRun]: () => T.longRun,
    [FOUND.badLine]: () => T.badLine(count),
    [FOUND.manyLines]: () => T.manyLines(count),
    [FOUND.noRoom]: () => T.noRoom(count),
    [FOUND.notAsked]: () => T.notAsked,
  }[answer]();
}

// Whether the last line of a sketch bars moves before a next one.
const endsInNot = (sketch) => linesOf(sketch).pop()?.startsWith('not ');

// The schedule with what was looked for, as comments.
function scheduleOf(header, moves, { title, sketch, threads, rounds }) {
  const comments = [
    `#! title ${title}`, `# ${T.comment(texts.threads(threads), T.rounds(rounds))}`,
    ...linesOf(sketch).map((line) => `#   ${line}`),
  ];
  return bytesOf(`${comments.join('\n')}\n${header}${moves.map((move) => `${move}\n`).join('')}`);
}

class Finding {
  constructor(page) {
    this.page = page;
    this.form = formOf('find-form');
    this.dialog = dialogOf('find');
    this.kinds = [];
    this.fields = {
      lock: selectOf('find-lock'), kind: selectOf('find-kind'), rounds: inputOf('find-rounds'),
      sketch: elementOf('find-sketch', HTMLTextAreaElement),
    };
  }

  get machine() { return this.page.session.machine; }

  open() {
    const { stored } = this.machine;
    buttonOf('find-search').disabled = Boolean(stored);
    write(byId('find-answer'), stored ? texts.play.noMachine : '');
    if (!stored) this.chooseLock(this.page.session.run);
    this.dialog.showModal();
    this.fields.kind.focus();
  }

  // The lock that is shown, unless it was shown already when the dialog was last opened.
  chooseLock(run) {
    if (run.hasLock && run.kind !== this.shown) {
      this.shown = run.kind;
      this.fields.lock.value = LOCK_NAMES[run.kind];
      this.listKinds();
    } else if (!this.kinds.length) {
      this.listKinds();
    }
  }

  // The kinds of the chosen lock. The lines of another lock's are not kept.
  listKinds() {
    this.kinds = kindsOf(this.fields.lock.value);
    const options = this.kinds.map(({ name }, at) => html`<option value="${at}">${name}</option>`);
    show(this.fields.kind, html`<option value="">${T.own}</option>${options}`);
    this.fields.kind.value = '';
    this.fields.sketch.value = '';
    // An example, which an empty field stands for.
    this.fields.sketch.placeholder = this.kinds[this.kinds.length >> 1].sketch;
  }

  get chosen() { return this.kinds[Number(this.fields.kind.value || NaN)]; }

  chooseKind() {
    const { chosen } = this;
    if (chosen) this.fields.sketch.value = chosen.sketch;
  }

  // What is asked for, and the lock in the beginning; null if the machine knows no such lock.
  asked() {
    const header = newHeader(this.form);
    const { state } = this.machine.play(bytesOf(header), 0, false);
    if (state.answer === ANSWER.fault) return null;
    const sketch = this.fields.sketch.value || this.fields.sketch.placeholder;
    const { chosen } = this;
    const kind = chosen?.sketch === sketch ? chosen : null;
    const title = kind?.name ?? sketch.trim().split(/\s*\n\s*/).join('; ');
    const rounds = Number(this.fields.rounds.value);
    return { header, state, rounds, sketch, title, kind, threads: state.threads };
  }

  search() {
    const asked = this.asked();
    if (asked && endsInNot(asked.sketch)) {
      write(byId('find-answer'), T.lastNot);
      return;
    }
    const found = asked && findRun(this.machine, asked.state, asked.rounds, asked.sketch);
    if (found?.answer === FOUND.run) this.show(asked, found.moves);
    else write(byId('find-answer'), asked ? refusal(found, asked) : T.notAsked);
  }

  // The schedule, at the move that was looked for.
  show(asked, moves) {
    this.dialog.close();
    const text = scheduleOf(asked.header, moves, asked);
    const run = this.page.session.runOf(text);
    this.page.open(text, null, (asked.kind && firstOf(run, asked.kind)) || run.count, run);
    this.page.modes.set('lessons');
  }
}

export function findDialog(page) {
  const finding = new Finding(page);
  closesBeside(finding.dialog);
  show(byId('find-lock'), lockOptions());
  const { lock, kind } = finding.fields;
  lock.addEventListener('change', () => finding.listKinds());
  kind.addEventListener('change', () => finding.chooseKind());
  finding.form.addEventListener('submit', (event) => {
    event.preventDefault();
    write(byId('find-answer'), T.searching);
    // After the browser has shown that it searches.
    setTimeout(() => finding.search(), 30);
  });
  return () => finding.open();
}
