// The address and the history: when they are written, and a browser that refuses.

// Before the page's script: a browser that takes no more entries, as after many in a short time.
function withoutEntries() {
  for (const name of ['pushState', 'replaceState']) {
    History.prototype[name] = () => { throw new DOMException('', 'SecurityError'); };
  }
}

const waiting = (time) => clocks().filter((one) => one === time).length;

// Steps so many times, one step right after the other: how many clocks of this time are running.
function stepping(times, time) {
  for (let step = 0; step < times; step += 1) key('ArrowRight');
  return waiting(time);
}

// Leaves a schedule of one's own, comes back at once, steps, and leaves it again.
function leaveTwice(letters, lessonAfter) {
  show(letters, 1);
  lesson(lessonAfter);
  undo();
  go(2);
  lesson(lessonAfter);
}
