// Playing: a chosen move goes on from the one that is shown, and undo takes it back.

import { bytesOf } from '../lib/bytes.js';
import { byId, focusIn } from '../lib/elements.js';
import { movesToRest } from '../machine/finishing.js';
import { choicesOf, hasRoom } from '../model/choices.js';
import { NextKinds } from '../model/next_kinds.js';
import { newHeader } from '../view/choices_view.js';

const MOST_UNDONE_BYTES = 16000000;

export class Playing {
  constructor(page) {
    this.page = page;
    this.undone = [];
    // Whether moves are offered that would be refused.
    this.every = false;
    this.nextKinds = new NextKinds();
  }

  get possible() {
    const { mode, session } = this.page;
    return mode === 'play' && session.run.hasLock && !session.machine.stored;
  }

  choose(thread, word) { this.goOn([`${thread} ${word}`]); }

  // Goes on with the moves to a transition that can happen next.
  chooseKind(at) { this.goOn(this.nextKinds.after(this.page.session).ways[at][1]); }

  // Goes on until all threads are idle.
  finish() {
    if (!this.possible) return;
    const { machine, run, move } = this.page.session;
    const moves = movesToRest(machine, run, move);
    if (moves.length) this.branch(moves);
  }

  goOn(moves) { if (this.possible) this.branch(moves); }

  branch(moves) {
    const { session } = this.page;
    if (!hasRoom(session, moves.length)) return;
    this.remember('play');
    const { letters, plain } = session.textWith(moves.join('\n'));
    this.page.derive(bytesOf(letters, plain), session.move + moves.length);
    if (!session.stale.length) return;
    session.leaveOutStale();
    this.page.show();
  }

  // The thread's one choice is made; of several the first is focused.
  chooseFor(thread) {
    if (!this.possible) return;
    const choices = choicesOf(this.page.session, thread, this.every);
    if (choices.length === 1) this.choose(thread, choices[0].word);
    else focusIn(byId('choices'), `[data-thread="${thread}"]`);
  }

  toggleEvery() {
    this.every = !this.every;
    this.page.draw();
  }

  // What is shown, before something else is. Edits one after another are one change.
  remember(why) {
    const { session, address } = this.page;
    const last = this.undone[this.undone.length - 1];
    if (!session.run || (why === 'edit' && last?.why === 'edit')) return;
    this.undone.push({ ...session.shown, keptName: address.keptName, why });
    let bytes = this.undone.reduce((sum, { text }) => sum + text.length, 0);
    while (bytes > MOST_UNDONE_BYTES) bytes -= this.undone.shift().text.length;
  }

  undo() {
    const before = this.undone.pop();
    if (!before) return;
    this.page.stepping.pause();
    this.page.quiz.clear();
    this.page.restore(before);
  }

  beginNew(form) { this.page.open(new TextEncoder().encode(newHeader(form)), null, 0); }
}
