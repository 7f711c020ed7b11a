// Schedules that choices in Play make.

const choices = () => all('#choices [data-word]');

// The offered choices, as lines of a schedule.
const offered = () => choices().map(({ dataset: { thread, word } }) => `${thread} ${word}`);

// Opens the form of a new lock, and chooses this lock.
function openNew(lock) {
  pick('#play details:has(#new)').open = true;
  byId('new-lock').value = lock;
}

// Makes choices among the offered ones, and returns the place and the numbers of moves and places.
function chooseMany(times) {
  for (let k = 0; k < times; k += 1) {
    const all = choices();
    all[(k * 7919 + 13 * (k >> 3)) % all.length].click();
  }
  const { place, moves, last } = port.state();
  return [place, moves, last];
}

// Of each thread its disc, its name, and its choices.
const rows = () => all('#choices li').map((row) => [
  ...all('.disc', row).map((one) => `${one.className} ${one.textContent}`),
  ...all('.who', row).map((one) => one.textContent),
  ...all('[data-word]', row).map((one) => (
    `${one.getAttribute('aria-label')} ${one.classList[1]}`)),
]);
