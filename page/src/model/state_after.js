// The state after a move, read off the records. A thread is as its last move left it, and a word
// as the last move that touched it left it; before such a move both are as in the beginning. That
// holds since only a thread itself changes its phase, and its holding, joining and leaving.

import { lastUpTo } from '../lib/ascending.js';
import { AS_WRITER, HOLDS, IN_QUEUE } from '../machine/codes.js';

// Who holds, as the machine counts it.
const HELD = { nobody: 0, one: 1, readers: 2, writer: 3 };

export class StateAfter {
  constructor(run, move) {
    this.run = run;
    this.move = move;
    // By thread its last move; found when asked for, who holds and who is in the queue.
    this.inside = null;
    this.waiting = null;
    this.last = Array.from({ length: run.threads }, (_, thread) => run.lastMoveOf(thread, move));
  }

  phase(thread) {
    const { run: { records, begun }, last } = this;
    return last[thread] ? records.phase(last[thread]) : begun.phase(thread);
  }

  dueStep(thread) {
    const { run: { records, begun }, last } = this;
    return last[thread] ? records.due(last[thread]) : begun.dueStep(thread);
  }

  phaseNumber(thread) {
    const { run: { records, begun }, last } = this;
    return last[thread] ? records.phaseNumber(last[thread]) : begun.phaseNumber(thread);
  }

  word(index) {
    const { run: { records, begun, movesOfWord }, move } = this;
    const touched = lastUpTo(movesOfWord.touched.get(index), move);
    const also = lastUpTo(movesOfWord.alsoChanged.get(index), move);
    if (!touched && !also) return begun.word(index);
    return touched > also ? records.left(touched) : records.alsoLeft(also);
  }

  allows(thread, call) {
    const { run: { records, begun }, last } = this;
    return last[thread] ? records.allows(last[thread], call) : begun.allows(thread, call);
  }

  is(thread, standing) {
    const move = this.last[thread];
    return move > 0 && (this.run.records.standing(move) & standing) !== 0;
  }

  threadsThat(standing) {
    return [...this.last.keys()].filter((thread) => this.is(thread, standing));
  }

  get holders() { return (this.inside ??= this.threadsThat(HOLDS)); }

  // The oldest first.
  get queue() {
    const since = (thread) => this.run.joined[this.last[thread]];
    return (this.waiting ??= this.threadsThat(IN_QUEUE)
      .sort((one, other) => since(one) - since(other)));
  }

  get holderKind() {
    if (!this.holders.length) return HELD.nobody;
    if (this.is(this.holders[0], AS_WRITER)) return HELD.writer;
    return this.run.hasReaders ? HELD.readers : HELD.one;
  }
}
