// Comparing: another schedule above the one that is shown, in the same columns, stepping with it:
// the one that it was branched off from, the same calls on the other read-write lock, or one that
// was chosen. Both memories are beside each other.

import { texts } from '../texts/texts.js';
import { commonMoves, firstDifference, otherLock } from '../model/compare_runs.js';
import { looks } from '../model/looks.js';
import { onOtherLock } from '../model/other_lock.js';
import { lockTitle } from '../locks/locks.js';
import { tell } from '../view/notice.js';
import { compareDialog, othersOf } from './compare_dialog.js';

/** @typedef {import('../model/run.js').Run} Run */

const T = texts.compare;

// The column of each move of the other run, from move 0 on: the move here after which it is made.
/** @param {Run} run */
function columnsOf(run, at) {
  const columns = [0];
  for (let move = 1; move <= run.count; move += 1) {
    if (at(move) > at(move - 1)) columns[at(move)] = move;
  }
  return columns;
}

export class Comparing {
  constructor(page) {
    this.page = page;
    this.kind = null;
    this.made = {};
    // {title, text, lock} of what was chosen.
    this.chosen = null;
    this.choose = compareDialog({
      way: (mode) => page.modes.set(mode), other: (other) => this.compareWith(other),
    });
  }

  get isOn() { return this.kind !== null; }

  // The run that there is to compare with.
  kinds() {
    const { session: { run, origin, machine } } = this.page;
    const branched = run.hasLock && origin.run.hasLock
      && (commonMoves(run, origin.run) < origin.run.count || run.refusal);
    const known = otherLock(run) && !machine.stored;
    const chosen = run.hasLock && this.chosen?.lock === run.kind;
    return [branched && run !== origin.run && 'origin', known && 'lock', chosen && 'chosen']
      .filter(Boolean);
  }

  // Goes from one comparison to the next, and then to none. Without any, the page says what a
  // comparison needs.
  toggle() {
    const kinds = this.kinds();
    if (!kinds.length) return this.offer();
    this.kind = kinds[kinds.indexOf(this.kind) + 1] ?? null;
    if (!this.kind) this.end();
    return this.page.fit();
  }

  offer() {
    const { session: { run, machine } } = this.page;
    if (run.hasLock) this.choose(othersOf(this.page), machine.stored);
    else tell(T.nothing);
  }

  compareWith({ title, text }) {
    this.chosen = { title, text, lock: this.page.session.run.kind };
    this.kind = 'chosen';
    this.made = {};
    this.page.fit();
  }

  begin() { [this.kind = null] = this.kinds(); }

  // The next time another schedule can be chosen.
  end() { this.kind = this.chosen = null; }

  // Ends if there is nothing to compare with any more.
  settle() { if (this.isOn && !this.kinds().includes(this.kind)) this.end(); }

  // {session, at, columns, first, title} of what is compared, made once for a run.
  compared() {
    const { run, origin } = this.page.session;
    const { chosen } = this;
    if (this.made.run === run && this.made.kind === this.kind) return this.made;
    const session = this.page.session.twin();
    let at = (move) => Math.min(move, session.run.last);
    let { title } = origin;
    if (this.kind === 'origin') session.open(origin.run.text, null, 0, origin.run);
    else if (this.kind === 'chosen') {
      session.open(chosen.text);
      title = chosen.title;
    } else {
      const there = onOtherLock(session.machine, run, this.made.session?.run);
      session.open(there.run.text, null, 0, there.run);
      at = (move) => there.at[Math.min(move, run.count)];
      title = lockTitle(otherLock(run));
    }
    const first = firstDifference(run, session.run, at, this.kind === 'lock');
    const columns = columnsOf(run, at);
    title ||= texts.untitled;
    this.made = { run, kind: this.kind, session, at, columns, first, title };
    return this.made;
  }

  // The first difference in the schedule that is shown; 0 for none.
  get first() { return this.isOn ? this.compared().first : 0; }

  // How many columns both need.
  get columns() {
    if (!this.isOn || this.kind === 'lock') return 0;
    return Math.max(this.page.session.run.last, this.compared().session.run.last);
  }

  // The other run beside the move that is shown: {view, state}. It hides what the question of this
  // run hides until its answer, and asks nothing itself.
  comparedView() {
    const { page } = this;
    const { session, at, first } = this.compared();
    const view = session.view({
      answered: !page.isAsked, hidden: page.hides, future: looks.future, different: first,
      compares: true,
    }, at(page.session.place));
    return { view, state: session.run.state(view.move) };
  }

  // The move here beside which a move of the other run is.
  moveBeside(move) { return this.compared().columns[move] ?? move; }
}
