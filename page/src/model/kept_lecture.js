// The step and the clock of a lecture, which a reload of the page keeps, and nothing else does.

const KEY = 'lockreplay.lecture';

/**
 * @typedef {object} Kept
 * @property {string} lock
 * @property {number} at
 * @property {number} ends
 */

/** @param {Kept | null} lecture */
export function keepLecture(lecture) {
  try {
    if (lecture) sessionStorage.setItem(KEY, JSON.stringify(lecture));
    else sessionStorage.removeItem(KEY);
  } catch {
    // No storage: a reload ends the lecture.
  }
}

/** @returns {Kept | null} */
export function keptLecture() {
  const [load] = performance.getEntriesByType('navigation');
  if (load?.toJSON().type !== 'reload') return null;
  try {
    return JSON.parse(sessionStorage.getItem(KEY));
  } catch {
    return null;
  }
}
