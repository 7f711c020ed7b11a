// The pictures of the start: of each lock the memory of one of its lessons, at a move with a
// question. While one points at a card, or has chosen something in it, its lesson is played.

import { show } from '../lib/markup.js';
import { lockOf } from '../locks/locks.js';

/** @typedef {import('../model/session.js').Session} Session */

const PACE = 800;
const ROOM = { height: 108, least: 560 };
const SHARES = [1, 0.9, 0.8, 0.7, 0.6];

// The lesson with the most questions says the most of its lock.
/** @param {Session} session */
function picturedOf(lessons, session, lock) {
  const all = lessons.filter(({ group }) => group === lock).map(({ name, text }) => {
    const one = session.twin();
    one.open(text, name);
    return one;
  });
  const asked = ({ remarks: { ask } }) => ask.size;
  return all.reduce((best, one) => (asked(one) > asked(best) ? one : best));
}

function posterOf({ remarks: { ask } }) {
  const moves = [...ask.keys()].sort((one, other) => one - other);
  return moves[Math.floor(moves.length / 2)] ?? 1;
}

/** @param {Session} session */
function pictureOf(session, wide, scale) {
  const view = session.view({ answered: true });
  const room = { width: wide / scale, height: ROOM.height / scale, scale };
  return lockOf(view.run).draw({ ...view, ...room, tight: true }, view.run.state(view.move));
}

// The largest scale at which the whole picture of the poster is seen, else the smallest.
/** @param {Session} session */
function scaleOf(session, wide) {
  const scales = SHARES.map((share) => share * Math.min(1, wide / ROOM.least));
  return scales.find((scale) => pictureOf(session, wide, scale).height <= ROOM.height)
    ?? scales[scales.length - 1];
}

export class LiveCards {
  constructor(lessons, session) {
    this.lessons = lessons;
    this.session = session;
    this.timer = 0;
    this.pictured = new Map();
  }

  draw(dialog) {
    for (const node of dialog.querySelectorAll('[data-live]')) {
      const lock = node.dataset.live;
      if (!this.pictured.has(lock)) {
        this.pictured.set(lock, picturedOf(this.lessons, this.session, lock));
      }
      const session = this.pictured.get(lock);
      session.go(posterOf(session));
      const wide = node.clientWidth;
      const scale = scaleOf(session, wide);
      const draw = () => show(node, pictureOf(session, wide, scale));
      draw();
      const card = node.parentElement;
      for (const event of ['pointerenter', 'focusin']) {
        card.addEventListener(event, () => this.play(session, draw));
      }
      for (const event of ['pointerleave', 'focusout']) {
        card.addEventListener(event, () => this.stop());
      }
    }
  }

  play(session, draw) {
    this.stop();
    if (matchMedia('(prefers-reduced-motion: reduce)').matches) return;
    this.timer = setInterval(() => {
      session.go(session.place < session.run.last ? session.place + 1 : 0);
      draw();
    }, PACE);
  }

  stop() { clearInterval(this.timer); }
}
