// Parts that are out of view in a window.

const foot = () => rect('footer');

function isSeen(node, part) {
  const [{ top, bottom, left, right }, box] = [node, part].map(rect);
  return top >= Math.max(-1, box.top - 1.5) && bottom <= Math.min(foot().top + 1, box.bottom + 1.5)
    && left >= -1 && right <= innerWidth + 1;
}

// The line of code, the question and the move's sentence, if out of view, at each of these links.
const outOfView = (fragments) => fragments.flatMap((fragment) => {
  follow(fragment);
  const seen = visible('.code-line.here, #now .say, #now .question > p, #now .question summary');
  const out = seen.filter((one) => !isSeen(one, one.closest('#code-lines, #now')));
  return [...out.map(saidBy), ...seen.length > 2 ? [] : [`${fragment}: too little is there`]];
});

// The variables of threads beside their records that are out of view, at each of these links.
const variables = (fragments) => fragments.flatMap((fragment) => {
  follow(fragment);
  const { left, right } = rect(byId('memory-picture'));
  const found = all('.record .own ~ text');
  const isOut = (one) => !isSeen(one, byId('memory-picture'))
    || rect(one).left < left - 1 || rect(one).right > right + 1;
  return [...found.filter(isOut).map((one) => `${fragment}: ${one.textContent}`),
    ...found.length ? [] : [`${fragment}: no variable`]];
});

// Whether the current line is above the foot, and whether the page can be scrolled.
function lowest() {
  const { top, bottom } = rect(all('#code-lines .here').at(-1));
  const { scrollHeight } = document.documentElement;
  return [top >= 0 && bottom <= foot().top, scrollHeight > innerHeight + 1];
}

// The moves of a lesson at which something is so.
function movesOf(name, moves, isSo) {
  lesson(name);
  return moves.filter((move) => {
    go(move);
    return isSo();
  });
}

// The moves of a lesson at which "Answer" is out of view.
function hidden(name, moves) {
  return movesOf(name, moves, () => {
    const [answer, now] = ['#now summary', '#now'].map(rect);
    return answer.top < now.top || answer.bottom > now.bottom;
  });
}

// The moves of a lesson at which the first line of the answer is out of view once it is shown.
function answersOutOfView(name, moves) {
  return movesOf(name, moves, () => {
    key('a');
    const [{ top, height }, now] = ['#now .question [open] > p', '#now'].map(rect);
    return height === 0 || top < now.top - 1.5 || top + 12 > now.bottom;
  });
}

// The moves of a lesson at which the part with the move is scrolled once the answer is shown.
function scrolledWithAnswer(name, moves) {
  return movesOf(name, moves, () => {
    key('a');
    const { scrollHeight, clientHeight } = byId('now');
    return !count('#now details[open]') || scrollHeight > clientHeight + 1;
  });
}

// The moves of a lesson at which a line of the step is out of view, though there is room for all.
function linesOutOfView(name, last) {
  return movesOf(name, movesTo(last).slice(1).reverse(), () => {
    const [lines, box] = [all('.code-line.here'), byId('code-lines')];
    const height = rect(lines.at(-1)).bottom - rect(lines[0]).top;
    return height <= box.clientHeight + 1 && !lines.every((one) => isSeen(one, box));
  });
}

const arranged = () => [document.body.dataset.layout, document.body.dataset.tools,
  Math.round(Number(document.body.style.getPropertyValue('--zoom')) * 100) / 100];

// How many letters each line of code is from the edge.
const indents = () => all('#code-lines code').map((line) => {
  const text = line.firstChild;
  const boxOfLetters = (from, to) => {
    const range = document.createRange();
    range.setStart(text, from);
    range.setEnd(text, to);
    return range.getBoundingClientRect();
  };
  const first = text.data.search(/\S/);
  const letter = boxOfLetters(first, first + 1);
  return Math.round((letter.left - rect(line).left) / letter.width);
});

const areAllLinesSeen = () => all('.code-line').every((one) => isSeen(one, byId('code-lines')));
const lineHeight = () => pick('.code-line').offsetHeight;

// How many dots a unit of memory's picture has, and whether the picture is in view.
function scaleOfMemory() {
  const svg = pick('#memory-picture svg');
  return [Number(svg.getAttribute('width')) / svg.viewBox.baseVal.width,
    inside(rect(svg), rect(byId('memory-picture')))];
}

// How many lines in view are before and after the line of the move.
function linesAround() {
  const seen = all('.code-line').filter((one) => isSeen(one, byId('code-lines')));
  const [first] = all('.code-line.here');
  return [seen.indexOf(first), seen.length - 1 - seen.indexOf(all('.code-line.here').at(-1))];
}

// How the sentences on each of these moves fit, and how far lines of code are apart there.
const sizesAt = (moves) => atEach(moves, () => [byId('now').dataset.fit ?? '', lineHeight()]);
const heightsOfMemory = (last) => atEach(movesTo(last), () => byId('memory-picture').clientHeight);
const heightOfLanes = () => byId('lanes').offsetHeight;
