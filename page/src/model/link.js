// A link that carries the schedule and the move in its fragment: a lesson by its name, a schedule
// of one's own by its bytes, or by the name under which this browser keeps it.

import { fromLink, toLink } from '../lib/bytes.js';
import { askedLanguage } from '../texts/language.js';
import { texts } from '../texts/texts.js';
import { isLooksAlone, looksText } from './looks.js';

/** @typedef {import('./session.js').Session} Session */

const MOST_IN_LINK = 24000;

// What comes after the schedule: the move, the language if the address asked for one, and what the
// reader wants to see.
export function endOf(place) {
  const asked = askedLanguage(location.hash);
  return `&move=${place}${asked ? `&lang=${asked}` : ''}${looksText()}`;
}

// Null for a schedule that is too long.
/** @param {Session} session */
export function fragmentOf(session) {
  const { lesson, held, place } = session;
  if (lesson) return `#lesson=${lesson}${endOf(place)}`;
  return held.length > MOST_IN_LINK ? null : `#schedule=${toLink(held)}${endOf(place)}`;
}

/**
 * What a link asks for: one of a lesson, the name of a kept schedule and a text, and a move,
 * without which a lesson opens where it begins; or what is wrong with it. `play` has moves to go
 * on with, `compare` says whether the run is compared then, and `cut` whether the link has no end.
 * @typedef {object} Asked
 * @property {string} [lesson]
 * @property {string} [kept]
 * @property {Uint8Array} [text]
 * @property {number} [move]
 * @property {boolean} [cut]
 * @property {string} [play]
 * @property {boolean} [compare]
 * @property {string} [wrong]
 */

/**
 * Null for no fragment.
 * @param {string} fragment
 * @returns {Asked | null}
 */
export function readFragment(fragment) {
  const parts = new URLSearchParams(fragment.replace(/^#/, ''));
  const move = parts.has('move') ? Number(parts.get('move')) : undefined;
  // A language or a look alone names no schedule, and needs none.
  if (fragment.length < 2 || isLooksAlone([...parts.keys()])) return null;
  for (const what of ['lesson', 'kept']) {
    if (!parts.has(what)) continue;
    const further = { play: parts.get('play'), compare: parts.has('compare') };
    return { [what]: parts.get(what), move, ...further };
  }
  if (!parts.has('schedule')) return { wrong: texts.links.nothing };
  try {
    // In a fragment a plus sign, which base64 may have, stands for a blank. The move is the link's
    // end.
    const coded = parts.get('schedule').replaceAll(' ', '+');
    return { text: fromLink(coded), move, cut: !parts.has('move') };
  } catch {
    return { wrong: texts.links.damaged };
  }
}
