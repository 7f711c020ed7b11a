// Which lessons were stepped through to their end, as this browser remembers it.

const KEY = 'lockreplay.done';
// It counts as a lesson before all.
export const PROLOGUE = 'prologue';

export function doneLessons() {
  try {
    return new Set(JSON.parse(localStorage.getItem(KEY)) ?? []);
  } catch {
    return new Set();
  }
}

// The lesson is done once its last move is shown.
export function noteDone({ lesson, place, run }) {
  if (lesson && run.last && place === run.last) tickOff(lesson);
}

export function tickOff(lesson) {
  if (doneLessons().has(lesson)) return;
  try {
    localStorage.setItem(KEY, JSON.stringify([...doneLessons(), lesson]));
  } catch {
    // No storage: nothing is ticked off.
  }
}
