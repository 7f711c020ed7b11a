// Many threads: the drawn ones, the folded ones, and the texts that are cut.

function open([letters, mode, move]) {
  show(letters);
  inMode(mode);
  go(move);
}

// The number of threads that the texts of some folds count together.
const folded = (selector) => all(selector)
  .reduce((sum, one) => sum + Number(/\d+/.exec(one.textContent)[0]), 0);

function drawn() {
  const [memory, now] = ['memory-picture', 'now'].map(byId);
  const isInside = (one) => inside(rect(one), rect(memory));
  return {
    cut: all('#memory-picture text').filter((one) => !isInside(one)).map((one) => one.textContent),
    moving: all('#memory-picture [data-moving]').some(isInside),
    threads: count('#memory-picture .record, #memory-picture .token')
      + folded('#memory-picture .fold > text'),
    pills: count('#now [data-queue] .pill'), listed: folded('#now [data-queue] .folded'),
    laneInView: inside(rect('#lanes .word-label.here'), rect('#lanes')),
    lanes: count('#lanes .lane-name'), note: text('#resting'),
    overflows: now.scrollHeight > now.clientHeight + 1,
  };
}

const choiceInView = (thread) => inside(
  rect(`#choices [data-thread="${thread}"]`), rect('#choices'));

// How many lanes have room in their part.
function lanesInView() {
  const [first, second] = all('#lanes .lane-line').map((one) => rect(one).top);
  return Math.floor(byId('lanes').clientHeight / (second - first) + 0.05);
}

const isInLanes = (selector) => all(`#lanes ${selector}`)
  .some((one) => inside(rect(one), rect('#lanes')));
const markInView = (move) => isInLanes(`[data-move="${move}"] .word-label`);
const lanesSeen = (threads) => threads.map((thread) => isInLanes(`#lane-${thread} .lane-name`));
const isChosenInView = (thread) => isInLanes(`#lane-${thread} .chosen`);

// The moves with a number above the lanes, and the moves in the lanes.
const movesInView = () => ['numbers', 'lanes'].map((id) => all(`#${id} [data-move]`)
  .map((one) => Number(one.dataset.move)).sort((one, other) => one - other));

// The numbers of moves that touch the number before them.
function numbersOnNumbers() {
  const boxes = all('#numbers .number').map((one) => ({ ...boxOf(one), text: one.textContent }))
    .sort((one, other) => one.left - other.left);
  return boxes.filter(({ left }, at) => at > 0 && left < boxes[at - 1].right)
    .map(({ text }) => text);
}

const cut = () => all('#lanes .found, #memory-picture text')
  .map((one) => one.lastChild?.textContent ?? '').filter((one) => one.endsWith('…'));

// How far each line of a thread that is not linked is below the line of its lane, as a share of the
// distance of two lanes.
function belowLines() {
  const top = (one) => rect(one).top;
  const [first, second] = all('#lanes .lane-line').map(top);
  return all('#lanes .unlinked').map((one) => (
    (top(one) - top(one.closest('g').querySelector('.lane-line'))) / (second - first)));
}

// How much higher the picture of memory is than its room, which then scrolls.
function memoryBeyond() {
  const { scrollHeight, clientHeight } = byId('memory-picture');
  return scrollHeight - clientHeight;
}

// How far each fold at the monitor is beside the column of the threads there.
function besideColumn() {
  const [first] = all('#memory-picture .token:has(+ .wants) circle');
  return all('#memory-picture .fold:has(+ .wants) rect')
    .map((one) => Math.round(middleX(one) - middleX(first)));
}

// How far each text of a fold is within its frame, at its left and at its right.
const folds = () => all('#memory-picture .fold > text').map((one) => {
  const [text, frame] = [one, one.parentNode.querySelector('rect')].map(rect);
  return [text.left - frame.left, frame.right - text.right];
});

// Opens a schedule at its end, with a comment after so many moves that makes it so many bytes long.
function openLarge(header, move, after, size) {
  const comment = `${'#'.repeat(size - header.length - move.length - 1)}\n`;
  show(header + (after ? move + comment : comment + move), 1);
}

// Chooses the first transition that can be reached in this time, if the list is drawn: a browser
// tells the page some time after a click that the list was opened.
function chooseIn(time) {
  const found = all('[data-next-kind]').find((one) => one.textContent === time);
  found?.click();
  return found !== undefined;
}
