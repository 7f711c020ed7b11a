// What is drawn of each state: words, marks and bars of the lanes, and threads in the code and in
// memory.

const PICTURE = '#memory-picture';
const kindOf = (node) => node.classList[1] ?? '';
const kindsOf = (node) => [...node.classList].slice(1).join(' ');
const titleIn = (node) => node.querySelector('title').textContent;

// By the name of a word, which in a record has its thread: the value, and how the move used it.
function wordsDrawn() {
  const boxAfter = ({ nextElementSibling: box }) => (
    [titleIn(box), kindOf(box.querySelector('.word'))]);
  const plain = all(`${PICTURE} .word-name`).map((label) => [label.textContent, boxAfter(label)]);
  const fields = all(`${PICTURE} .record`).flatMap((record) => all('.field', record)
    .map((label) => [`${label.textContent} of ${record.dataset.record}`, boxAfter(label)]));
  return Object.fromEntries([...plain, ...fields]);
}

const SHAPES = {
  '.call-mark': 'called', 'circle.fails': 'fails', 'circle.waits': 'waits',
  'circle.step': 'moved', 'path.step': 'entered', 'rect.step': 'left',
};

// The lane at a height.
const laneAt = (lanes, y) => lanes.findIndex((lane) => Math.abs(middleY(lane) - y) < 2);

// For each mark: its move, its lane, its shape, the word above it and the value below it.
function marksDrawn(lanes, box = byId('lanes')) {
  const laneOf = (node) => laneAt(lanes, middleY(node));
  return all('.move:not([data-refused])', box).map((one) => {
    const shape = Object.keys(SHAPES).find((selector) => one.querySelector(selector));
    return [Number(one.dataset.move), laneOf(one.querySelector('.target')), SHAPES[shape],
      one.querySelector('.word-label')?.textContent ?? null,
      one.querySelector('.found title')?.textContent ?? null];
  }).sort(([one], [other]) => one - other);
}

// For each move in view, the kind of the bar in each lane just after it, and a sign where a line
// says that the thread is not linked.
function barsDrawn(lanes, box = byId('lanes')) {
  const half = lanes.length > 1 ? (middleY(lanes[1]) - middleY(lanes[0])) / 2 : 50;
  const bars = all('.span', box).map((one) => ({ ...rect(one).toJSON(), kind: kindOf(one) }));
  const lines = all('.unlinked', box).map((one) => {
    const { left, right, top } = rect(one);
    return { left, right, top: top - half, bottom: top, kind: '⇢' };
  });
  return all('.move:not([data-refused])', box).map((one) => {
    const target = one.querySelector('.target');
    const x = middleX(target) + 0.2 * rect(target).width;
    const isThere = (lane, { left, right, top, bottom }) => x > left && x < right
      && middleY(lane) > top - 1 && middleY(lane) < bottom + 1;
    return [Number(one.dataset.move), lanes.map((lane) => [...bars, ...lines]
      .filter((bar) => isThere(lane, bar)).map(({ kind }) => kind).join(''))];
  });
}

// The lines of the move, and for each thread the phase of the line at which it is, and how its disc
// looks.
const linesDrawn = () => ({
  here: all('#code-lines .here').map((one) => one.dataset.phase ?? one.textContent.trim()),
  discs: Object.fromEntries(all('#code-lines .disc').map((one) => [
    one.title, [one.closest('.code-line').dataset.phase, kindsOf(one), one.textContent]])),
});

// The number of the wheel nearest to a point.
function placeNear(x, y) {
  const far = (one) => Math.hypot(middleX(one) - x, middleY(one) - y);
  const places = all(`${PICTURE} .place`).sort((one, other) => far(one) - far(other));
  return Number(places[0].textContent);
}

// Whether the middle of a token is outside the rim of a wheel and its numbers.
function isOutside(token) {
  const [rim, dot] = [`${PICTURE} .rim`, `${PICTURE} .place circle`].map(pick);
  const far = Math.hypot(middleX(token) - middleX(rim), middleY(token) - middleY(rim));
  return 2 * far > rect(rim).width + rect(dot).width;
}

// The hands of a wheel, and for each token outside its rim the thread and the place.
function wheelDrawn() {
  if (!count(`${PICTURE} .place`)) return null;
  const hand = (name) => {
    const { x, y } = endOf(pick(`${PICTURE} .rim ~ .hand.${name}`));
    return placeNear(x, y);
  };
  const tokens = all(`${PICTURE} .rim ~ .token`).slice(0, count(`${PICTURE} .rim ~ .own`))
    .map((one) => one.querySelector('circle')).filter(isOutside)
    .map((one) => [titleIn(one.parentNode), placeNear(middleX(one), middleY(one))]);
  return { inner: hand('inner'), outer: hand('outer'), tokens };
}

// The threads whose tokens have their middle in the room of a read-write lock.
const threadsInRoom = () => all(`${PICTURE} .room`).flatMap((room) => {
  const { left, right, top, bottom } = rect(room);
  return all(`${PICTURE} .token`).filter((one) => middleX(one) > left && middleX(one) < right
    && middleY(one) > top && middleY(one) < bottom).map(titleIn);
});

// For each thread at the monitor what it wants, and whether its poll failed.
const wantsDrawn = () => all(`${PICTURE} .wants`).map((one) => {
  const [token, note] = [one.previousElementSibling, one.nextElementSibling];
  return [isIn(token, one, 999, 12) && titleIn(token), titleIn(one),
    note?.matches('.note') ? note.textContent : null];
});

// Threads in memory: tokens with their looks and marks, cells of tickets, own variables, and the
// records of an MCS lock with their standing and looks.
const threadsDrawn = () => ({
  tokens: all(`${PICTURE} .token`).map((one) => [
    titleIn(one), kindsOf(one), one.querySelector('text').textContent]),
  moving: [...new Set(all(`${PICTURE} [data-moving]`).map(titleIn))],
  room: threadsInRoom(), rooms: texts(`${PICTURE} .room + .room-name`), wants: wantsDrawn(),
  cells: all(`${PICTURE} .cell + .value`).map((one) => Number(one.textContent)),
  own: all(`${PICTURE} .own + .value`).map((one) => one.textContent),
  records: all(`${PICTURE} .record`).map((one) => [Number(one.dataset.record),
    one.querySelector('.standing').textContent, kindsOf(one),
    one.querySelector('.name').textContent]),
});

// The move in whose column a point is, or null.
function moveAt(x) {
  const mark = all('#lanes .move .target').find((one) => rect(one).left < x && x < rect(one).right);
  return mark ? Number(mark.parentNode.dataset.move) : null;
}

// Each arrow: the lanes and the columns from which and to which it leads.
const arrowsDrawn = (lanes) => all('#lanes .arrow:not(.halo)').map((path) => (
  [beginOf(path), endOf(path)].map(({ x, y }) => [laneAt(lanes, y), moveAt(x)])));

// The numbers above the lanes, and those that are below a sign of a question.
function numbersDrawn() {
  const numbers = all('#numbers .number');
  const below = (mark) => numbers.find((one) => isIn(one, mark, 2, 999));
  return {
    numbers: numbers.map((one) => [one.textContent, kindOf(one)]),
    asks: all('#numbers .ask-mark').map((mark) => Number(below(mark)?.dataset.move)),
  };
}

// How far from the mark of the shown move the bands of the lanes and of the numbers are, and its
// number.
function farFromMark(move) {
  const mark = pick(`#lanes [data-move="${move}"] .target`);
  return mark && ['#lanes .here-column', '#numbers .here-column', '#numbers .here']
    .map((one) => Math.round(middleX(pick(one)) - middleX(mark)));
}

const pillsIn = (list) => all(`${list} .pill`).map((one) => [one.textContent, kindOf(one)]);

// What is said of the move beside its sentence.
const factsDrawn = () => ({
  head: text('#now .head'), outcome: pick('#now .outcome')?.classList[1] ?? null,
  holds: pillsIn('#now [data-holders]'), does: text('#now [data-holders] > .soft'),
  queue: pillsIn('#now [data-queue]'),
  means: attribute('#now .outcome', 'title') === text('#now .plain'),
  gaps: texts('#now [data-queue] .gap'), spoken: text('#spoken'), position: text('#position'),
});

// The moves at which the slider has these signs.
function placesOnSlider(selector, xOf = middleX) {
  const svg = pick('#slider-picture svg');
  const [{ left, width }, edge] = [rect(svg), 12 * rect(svg).width / svg.viewBox.baseVal.width];
  return all(`#slider-picture ${selector}`).map((one) => (
    Math.round((xOf(one) - left - edge) / (width - 2 * edge) * port.state().last)));
}

// The empty room below the picture of memory, in its own units; and which texts, discs and marks
// lie on another one.
function roomDrawn() {
  const svg = pick(`${PICTURE} svg`);
  const box = svg.getBBox();
  const beside = (one, other) => one.parentNode === other.parentNode;
  return { below: svg.viewBox.baseVal.height - box.y - box.height, overlaps: [
    ...overlapsOf(all('text, .token circle', svg), beside),
    ...overlapsOf(all('#lanes :is(text, .step, .call-mark)')),
  ] };
}

// Texts of memory that are not in the middle of their box or disc, and fields and heads of records
// that are not in their frame.
function askewInMemory() {
  const boxes = all(`${PICTURE} :is(rect, circle) + text[text-anchor=middle]`)
    .filter((one) => !isIn(one, one.previousElementSibling));
  const labels = all(`${PICTURE} .field`).filter((one) => {
    const [box, frame] = [one.nextElementSibling.querySelector('rect'),
      one.closest('.record').querySelector('.frame')];
    return !isIn(one, box, 999) || rect(one).right > rect(box).left
      || !inside(rect(box), rect(frame));
  });
  const beside = all(`${PICTURE} .token + .own`).filter((one) => (
    !isIn(one, one.previousElementSibling, 999, 3)
      || rect(one).left < rect(one.previousElementSibling).right));
  const below = all(`${PICTURE} .cell + .value + .token`).filter((one) => {
    const cell = one.previousElementSibling.previousElementSibling;
    return !isIn(one, cell, 2, 999) || rect(one).top < rect(cell).bottom;
  });
  const missing = all(`${PICTURE} .missing-text`)
    .filter((one) => !isIn(one, one.previousElementSibling, 8, 30));
  const heads = all(`${PICTURE} .record`).filter((one) => {
    const [name, standing, frame, own] = ['.name', '.standing', '.frame', '.own']
      .map((part) => one.querySelector(part));
    return !isIn(name, standing, 999, 3) || !inside(rect(standing), rect(frame))
      || (own && (rect(own).top < rect(frame).bottom || !isIn(own, frame, 2, 999)));
  });
  return [...boxes, ...labels, ...beside, ...below, ...missing, ...heads]
    .map(({ textContent }) => textContent);
}

// Whether a word is above a mark, or below it where there is no room above.
const isOff = (word, mark) => boxOf(word).bottom <= rect(mark).top + 4
  || (boxOf(word).top >= rect(mark).bottom - 4 && middleY(mark) - rect(byId('lanes')).top < 30);

// Marks and words of the lanes, and numbers above them, that are not in their column.
function askewInLanes() {
  const marks = all('#lanes .move:not([data-refused])').flatMap((one) => {
    const [target, mark] = ['.target', '.step, .call-mark'].map((part) => one.querySelector(part));
    const number = pick(`#numbers .number[data-move="${one.dataset.move}"]`);
    const [word, found] = [one.querySelector('.word-label'), one.querySelector('.found')];
    return [isIn(mark, target, 4, 2) || 'mark',
      !number || isIn(number, target, 2, 999) || 'number',
      !word || (isIn(word, target, 2, 999) && isOff(word, mark)) || 'word',
      !found?.textContent || (isIn(found, target, 2, 999)
        && rect(found).top > middleY(target) + 5) || 'found',
    ].filter((is) => is !== true).map((what) => [one.dataset.move, what]);
  });
  const names = all('#lanes g[role=option]').filter((one) => (
    !isIn(one.querySelector('.lane-name'), one.querySelector('.lane-line'), 9999, 12)));
  const arrows = all('#lanes .arrow:not(.halo)').filter((path) => {
    const { x } = endOf(path);
    return x > rect(`#lanes [data-move="${moveAt(x)}"] :is(.step, .call-mark)`).left + 2;
  }).map(() => 'arrow');
  const words = all('#lanes .span-text').filter((one) => kindOf(one) !== one.textContent
    || !all(`#lanes .span.${kindOf(one)}`).some((bar) => inside(rect(one), rect(bar))));
  return [...marks, ...arrows, ...[...names, ...words].map(({ textContent }) => textContent)];
}

// Each link: the tail, or the record, from whose next it leads, the record at which it ends, and
// how it looks.
const linksDrawn = () => all(`${PICTURE} .link`).map((path) => {
  const isNear = ({ x, y }, { left, right, top, bottom }) => x > left - 9 && x < right + 9
    && y > top - 9 && y < bottom + 9;
  const [records, begin] = [all(`${PICTURE} .record`), beginOf(path)];
  const from = records.find((one) => Math.abs(middleY(one.querySelector('.word')) - begin.y) < 4
    && begin.x > rect(one.querySelector('.word')).right - 9
    && begin.x < rect(one.querySelector('.frame')).right + 9);
  const tail = pick(`${PICTURE} .word-name + g .word`);
  const to = records.find((one) => one !== from && isNear(endOf(path), rect(
    one.querySelector('.frame'))));
  return [from ? Number(from.dataset.record) : isNear(begin, rect(tail)) && 'tail',
    Number(to?.dataset.record), kindsOf(path)];
});

function stateDrawn() {
  const lanes = all('#lanes .lane-line');
  return {
    words: wordsDrawn(), marks: marksDrawn(lanes), bars: barsDrawn(lanes), ...linesDrawn(),
    ...threadsDrawn(), wheel: wheelDrawn(), caption: text('#memory-says'),
    wrote: pick('dd.wrote')?.textContent ?? null,
    names: texts('#lanes .lane-name title'), notes: texts('#lanes .lane-name + .note'),
    label: attribute(`${PICTURE} svg`, 'aria-label'),
    enters: placesOnSlider('.tick.enters'), fails: placesOnSlider('.tick.fails'),
    slider: [...placesOnSlider('.knob'), ...placesOnSlider('.done', (one) => endOf(one).x)],
    arrows: arrowsDrawn(lanes), ...numbersDrawn(),
    far: farFromMark(place()), ...factsDrawn(), ...roomDrawn(),
    askew: [...askewInMemory(), ...askewInLanes()], links: linksDrawn(),
  };
}

// Each state up to a move, with the answers to questions.
const eachState = (last) => atEach(movesTo(last), () => {
  if (pick('#now .question details:not([open])')) key('a');
  return stateDrawn();
});

// In Play: for each thread its name, how its disc looks, whether it moved last, and its choices.
const choicesAt = (moves) => atEach(moves, () => all('#choices .threads li').map((row) => {
  const [who, buttons] = [row.querySelector('.who').textContent, all('[data-word]', row)];
  return [who, kindOf(row.firstChild), 'here' in row.dataset,
    buttons.map((one) => one.dataset.word), [...new Set(buttons.map(kindOf))].join()];
}));

// On paper: the marks and the bars of all strips, and the rows of the table.
function paperDrawn() {
  drawPaper();
  byId('paper').style.display = 'block';
  const strips = all('#paper .strip').map((one) => [one, all('.lane-line', one)]);
  const marks = strips.flatMap(([box, lanes]) => marksDrawn(lanes, box));
  const bars = strips.flatMap(([box, lanes]) => barsDrawn(lanes, box));
  const rows = all('#paper tbody tr').map((row) => [...row.cells].map(saidBy));
  byId('paper').style.display = '';
  return { marks, bars, rows };
}
