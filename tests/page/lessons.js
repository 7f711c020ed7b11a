// A lesson at each of its moves, and a browser that cannot run the machine.

function atMove() {
  const threads = (name) => all(`#now [${name}] [data-thread]`)
    .map((one) => Number(one.dataset.thread));
  return {
    position: text('#position'),
    outcome: pick('#now [data-outcome]')?.dataset.outcome,
    holders: threads('data-holders').sort((one, other) => one - other),
    queue: threads('data-queue'), mode: text('#now [data-holders]'),
    report: pick('#now .report-line code')?.textContent,
    here: texts('#lanes .word-label.here'), spoken: text('#spoken'),
  };
}

// The texts in the picture of memory, and the marks of each line of code.
const memoryAt = (moves) => atEach(moves, () => [
  texts('#memory-picture text'), texts('#code-lines .code-line')]);

const banner = () => byId('banner').checkVisibility();
const answerIsOpen = () => pick('#now .question details')?.open ?? null;

const wrote = (moves) => atEach(moves, () => pick('dd.wrote').textContent);

// What the machine says of each of these moves, after its answer is shown.
const said = (moves) => atEach(moves, () => {
  key('a');
  return text('#now .say:not(.own-say), #now details.aside > p.aside');
});

// The record at which, or just before which, each pointer ends.
const pointedAt = () => all('#memory-picture .link:not(.missing)').map((path) => {
  const { x, y } = endOf(path);
  const near = ({ left, right, top, bottom }) => x > left - 9 && x < right && y > top - 9
    && y < bottom;
  return all('.record .frame').find((one) => near(rect(one)))?.closest('.record').dataset.record;
});

// For each arrow in the lanes, the moves from which and to which it leads.
function waitsEnded() {
  const middles = all('#lanes .move').map((one) => (
    [Number(one.dataset.move), middleX(one.querySelector('.target'))]));
  const nearest = (x) => middles.reduce((one, other) => (
    Math.abs(one[1] - x) < Math.abs(other[1] - x) ? one : other))[0];
  return all('#lanes .arrow:not(.halo)').map((path) => (
    [nearest(beginOf(path).x), nearest(endOf(path).x)]));
}
