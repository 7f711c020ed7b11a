// Colours, patterns and names as they are drawn.

const isDark = () => matchMedia('(prefers-color-scheme: dark)').matches;

// Before the page's script: what the browser keeps of an earlier choice.
function keepTheme(name) {
  if (location.protocol === 'file:') localStorage.setItem('lockreplay.theme', name);
}

const weights = (selector) => [...new Set(all(selector).map((one) => (
  getComputedStyle(one).fontWeight)))];

const ground = () => styleOf('body').backgroundColor;
const fills = (kinds) => kinds.map((kind) => styleOf(`#lanes .span.${kind}`).fill);

const COLOURS = ['card', 'ink', 'faint', 'hold', 'read', 'wait', 'wait-under', 'wait-ink', 'bad',
  'here'];

// The name of a pattern, or of a colour of the style.
function nameOf(paint) {
  const pattern = paint.match(/url\("?#(\w+)/)?.[1];
  const probe = document.createElement('i');
  document.body.append(probe);
  const found = COLOURS.find((name) => {
    probe.style.color = `var(--${name})`;
    return getComputedStyle(probe).color === paint;
  });
  probe.remove();
  return pattern ?? found ?? paint;
}

const groundOf = (one) => nameOf(one instanceof SVGElement ? getComputedStyle(one).fill
  : getComputedStyle(one).backgroundColor);

// The grounds of those of these that are drawn; several of a kind have the same.
const groundsOf = (selectors) => Object.fromEntries(selectors.map((one) => (
  [one, [...new Set(all(`main ${one}`).map(groundOf))].join()])).filter(([, ground]) => ground));

// The colour of a line, or of letters.
function inkOf(one) {
  const { fill, stroke, color } = getComputedStyle(one);
  if (!(one instanceof SVGElement)) return nameOf(color);
  return nameOf(one instanceof SVGTextElement ? fill : stroke);
}
const inksOf = (selectors) => Object.fromEntries(selectors.map((one) => (
  [one, [...new Set(all(`main ${one}:not(.halo)`).map(inkOf))].join(' ')]))
  .filter(([, ink]) => ink));

const heightsOfBars = () => Object.fromEntries(['call', 'queue', 'holds'].map((kind) => [kind,
  [...new Set(all(`#lanes .span.${kind}`).map((one) => one.getAttribute('height')))]]));

// For each move whether its mark is faint.
const faintMoves = () => all('#lanes .move').map((one) => [Number(one.dataset.move),
  Number(getComputedStyle(one.querySelector('.step, .call-mark')).opacity) < 0.6])
  .sort(([one], [other]) => one - other);

// The lines of the patterns of who waits and of who reads.
const linesOfPatterns = () => ['hatch', 'ruled']
  .map((id) => nameOf(styleOf(`#${id} rect:last-child`).fill));

const markedLessons = () => all('#lesson-list [data-lesson]').filter((one) => (
  nameOf(getComputedStyle(one).borderTopColor) === 'ink')).map((one) => one.dataset.lesson);

const showEnd = (letters) => show(letters, Infinity);

// Whether each head of a record has a gap between the thread's name and its standing.
function heads(letters) {
  showEnd(letters);
  return all('.record').map((one) => {
    const [name, standing] = ['.name', '.standing'].map((part) => one.querySelector(part))
      .map((part) => part.getBBox());
    return standing.x - name.x - name.width >= 4;
  });
}

// Each word in a bar of the lanes, and whether it is in the middle of the bar up to the shown move.
const wordsInBars = () => all('#lanes .span-text').map((word) => [word.textContent,
  all(`#lanes .span.${word.classList[1]}:not(.future)`).some((bar) => isIn(word, bar, 2, 4))]);

// The names of threads as they are drawn, and whole, as in their titles.
function namesDrawn(letters) {
  showEnd(letters);
  inMode('lessons');
  const drawn = (one) => one.lastChild.textContent;
  const pointed = (one) => one.closest('g').querySelector('title').textContent;
  const isInside = (one) => {
    const [text, frame] = [one, one.parentNode.querySelector('.word, .own')].map(rect);
    return text.left >= frame.left && text.right <= frame.right;
  };
  const [heads, line] = [all('.record > .name'), rect('.lane-line').left];
  const next = pick('.record .value');
  return {
    lanes: all('.lane-name').map(drawn), lanesWhole: all('.lane-name title').map(drawn),
    heads: heads.map(drawn), headsWhole: heads.map(pointed),
    next: drawn(next), nextWhole: pointed(next),
    inside: all('#memory-picture .value').every(isInside)
      && all('.lane-name').every((one) => rect(one).right <= line),
  };
}

// Later moves are drawn faintly: `over` mixes a colour with its ground by a share.

const numbers = (colour) => colour.match(/[\d.]+/g).slice(0, 3).map(Number);

function over(colour, ground, share) {
  const parts = numbers(colour).map((part, i) => (
    Math.round(part * share + numbers(ground)[i] * (1 - share))));
  return `rgb(${parts.join(', ')})`;
}

function shareOf(node) {
  let share = Number(getComputedStyle(node).fillOpacity);
  for (let one = node; one.id !== 'lanes'; one = one.parentNode) {
    share *= Number(getComputedStyle(one).opacity);
  }
  return share;
}

// The colour below a text: the card, or the bar that the text is in.
function groundBelow(node, card) {
  const [at, middle] = [rect(node), middleY(node)];
  const isBelow = (one) => {
    const { left, right, top, bottom } = rect(one);
    return left <= at.left && at.right <= right && top <= middle && middle <= bottom;
  };
  const bar = !node.closest('.move')
    && all('#lanes .span.holds, #lanes .span.writes').find(isBelow);
  if (!bar) return card;
  const { fill, opacity } = getComputedStyle(bar);
  return over(fill, card, Number(opacity));
}

// Each text of later moves, its drawn colour, and the colour below it.
function coming() {
  const card = styleOf('#time').backgroundColor;
  const shown = all('#lanes .future text, #lanes text.future').filter((one) => one.textContent);
  return shown.map((one) => {
    const ground = groundBelow(one, card);
    const colour = over(getComputedStyle(one).fill, ground, shareOf(one));
    return [one.lastChild.textContent, colour, ground];
  });
}

// The label on the dashes of a thread that is not linked.
function label() {
  const [node, line] = ['.unlinked-text.future', '.unlinked.future'].map(pick);
  const { stroke, strokeOpacity, strokeWidth, paintOrder, opacity } = getComputedStyle(node);
  return {
    stroke, paintOrder, text: node.textContent, card: styleOf('#time').backgroundColor,
    opaque: Number(strokeOpacity) * Number(opacity), wide: parseFloat(strokeWidth),
    line: parseFloat(getComputedStyle(line).strokeWidth),
    above: Boolean(line.compareDocumentPosition(node) & Node.DOCUMENT_POSITION_FOLLOWING),
  };
}

// The number of ticks for failed moves on the slider, at each of these moves.
const ticks = (moves) => atEach(moves, () => count('#slider-picture .tick.fails'));

// The middle of each number on a wheel, in numeric order.
const places = () => all('#memory-picture .place circle').map((it) => [middleX(it), middleY(it)]);

// The threads that are beside each number of a wheel, in the order of the numbers.
const threadsAtPlaces = () => places().map(([x, y]) => all('#memory-picture .token circle')
  .filter((one) => Math.hypot(middleX(one) - x, middleY(one) - y) < 60)
  .map((one) => one.parentNode.querySelector('text').textContent));

// The directions of the hands of a wheel. Right and down count as 1.
const hands = () => Object.fromEntries(['inner', 'outer'].map((name) => {
  const path = all(`#memory-picture .hand.${name}`).map((one) => one.getAttribute('d'))
    .find((one) => one.includes('L'));
  const [fromX, fromY, x, y] = path.match(/[-\d.]+/g).map(Number);
  return [name, [x - fromX, y - fromY].map((way) => (Math.abs(way) < 3 ? 0 : Math.sign(way)))];
}));

// The name beside the sign of each hand.
const wordsOfHands = () => Object.fromEntries(all('#memory-picture .hand + text')
  .map((one) => [one.previousElementSibling.classList[1], one.textContent]));

const isDashed = (selector) => styleOf(selector).strokeDasharray !== 'none';
const shapeOf = (selector) => pick(selector).tagName;
// The signs of the legend that are higher than their pictures.
const cutSigns = () => all('#legend svg > *').filter((one) => {
  const { y, height } = one.getBBox();
  return y < 0 || y + height > one.parentElement.height.baseVal.value;
}).map((one) => saidBy(one.closest('span')));

const signShape = (label) => (
  all('#legend > span').find((one) => saidBy(one) === label).querySelector('.step').tagName);

// By its meaning, the elements and classes of each sign, and its pattern.
const signs = (list) => Object.fromEntries(all(`${list} > span`).map((one) => {
  const parts = all('svg > *', one).map((part) => [part.tagName, ...part.classList].join('.'));
  const pattern = one.innerHTML.match(/url\(#(\w+)\)/)?.[1];
  const label = saidBy(one).replace(/^\+9|^Bob/, '');
  return [label, [...parts, pattern].filter(Boolean).join(' ')];
}));
