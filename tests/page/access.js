// Checks for readers without a mouse, a large screen or sight: focus, speech, and room.

const tag = (node) => node.id || node.tagName.toLowerCase();

const stops = () => all('*').filter((one) => one.tabIndex >= 0 && one.checkVisibility()
  && !one.disabled).map(tag);

// The element that has the focus, and whether it shows an outline.
function ring() {
  const one = document.activeElement;
  const { outlineStyle, outlineWidth } = getComputedStyle(
    one.id === 'slider' ? one.nextElementSibling : one);
  return [tag(one), outlineStyle !== 'none' && parseFloat(outlineWidth) >= 2];
}

// The chosen lane, the shown move, and the element with the focus.
function lane() {
  const chosen = byId(byId('lanes').getAttribute('aria-activedescendant'));
  return [chosen?.getAttribute('aria-label'), chosen?.getAttribute('aria-selected'),
    place(), focused()];
}

// Controls and parts without a name, and pictures without a text.
function nameless() {
  const isNamed = (one) => one.getAttribute('aria-label') || one.textContent.trim()
    || one.labels?.length || one.hidden;
  const parts = [...all('button, select, input, textarea, summary'), ...visible('section, [role]')];
  const pictures = all('svg').filter((one) => !one.closest('[aria-hidden]')
    && !one.getAttribute('aria-label'));
  return [...parts.filter((one) => !isNamed(one)), ...pictures].map((one) => one.outerHTML);
}

// Elements with a name and without a role, whose name a screen reader need not read.
const plainWithName = () => all(':is(div, span, p, ul, ol, li, dl)[aria-label]:not([role])')
  .map((one) => one.outerHTML);

// Scrolls down to a part, and tells where it is.
function reached(id) {
  byId(id).scrollIntoView();
  const { left, right, top, height } = rect(byId(id));
  return {
    height, inside: left >= -1 && right <= innerWidth + 1 && top > -1 && top < innerHeight,
    across: document.documentElement.scrollWidth > innerWidth,
  };
}

function onPhone() {
  click('#show-keys');
  const keys = all('#key-list kbd').every((one) => one.checkVisibility());
  const signs = count('#sign-list > span');
  closeDialog('keys');
  click('#menu');
  const isFree = (one) => document.elementFromPoint(rect(one).left + 9, middleY(one)) === one;
  const tools = all('.tools button').every((one) => one.checkVisibility()
    && rect(one).left >= 0 && rect(one).right <= innerWidth && isFree(one));
  click('#menu');
  return { slider: rect(byId('slider')).width, keys, signs, tools };
}

// Whether all choices and the part with the move are on the screen.
function choicesFit() {
  const choices = all('#choices button');
  return choices.length > 0 && choices.every((one) => rect(one).bottom <= innerHeight)
    && rect(byId('now')).bottom <= innerHeight && rect(byId('now')).height > 60;
}

const LETTERS = ['#now .say', '#now .plain', '.facts dt', '.report-line', '.code-line.plain',
  '#subtitle', 'kbd', '#memory-caption', '.legend', '#position', '.card h2', '.hint'];

// The letters and the ground of heads, discs and pills of a thread that holds the lock, and of one
// in the queue.
function standings() {
  const drawn = ['.record.holds', '.record.queue'].flatMap((one) => ['.name', '.standing']
    .map((part) => [styleOf(`${one} ${part}`).fill, styleOf(one === '.record.holds'
      ? `${one} .head` : `${one} .plate`).fill]));
  const written = ['.disc.holds', '.disc.queue', '.pill.holds', '.pill.queue', '.outcome']
    .map((one) => [styleOf(one).color, styleOf(one).backgroundColor]);
  return [...drawn, ...written.map(([letters, ground]) => [letters,
    ground.endsWith(' 0)') ? styleOf('#now').backgroundColor : ground])];
}

// What the style has for the dark theme, and for a dark system.
const darkColours = () => [...document.styleSheets].flatMap(({ cssRules }) => [...cssRules])
  .flatMap((rule) => [...rule.conditionText?.includes('scheme: dark') ? rule.cssRules : [rule]])
  .filter(({ selectorText }) => /^:root(\[data-theme="dark"\]|:not\()/.test(selectorText))
  .map(({ style }) => style.cssText);

function colours() {
  return {
    standings: standings(),
    texts: LETTERS.map((one) => styleOf(one).color), page: styleOf('body').backgroundColor,
    gutter: styleOf('#gutter').color, back: styleOf('#gutter').backgroundColor,
    word: styleOf('#memory-picture .word:not(.read)').stroke,
    card: styleOf('#now').backgroundColor,
  };
}

// What a screen reader says without being asked: the role of each part, or how it interrupts.
const liveRegions = () => Object.fromEntries(all('[role=status], [role=alert], [aria-live]')
  .map((one) => [one.id, one.getAttribute('role') ?? one.getAttribute('aria-live')]));

// The grounds of the lines of the move, and of the others.
const groundsOfLines = () => [':is(.here)', ':not(.here)'].map((which) => (
  all(`#code-lines .code-line${which}`).map((one) => getComputedStyle(one).backgroundColor)));

// Whether the browser reports this media feature.
const isAsked = (name, wanted) => matchMedia(`(${name}: ${wanted})`).matches;

// What shows under forced colours: the bars of lines of code, buttons, and the ground of pictures.
function inForcedColours() {
  const { backgroundColor } = styleOf('#code');
  const bars = all('.code-line').map((one) => [one.classList.contains('here'),
    getComputedStyle(one).borderLeftColor !== backgroundColor]);
  const border = (pressed) => styleOf(`.tools [aria-pressed="${pressed}"]`).borderTopWidth;
  return {
    here: bars.filter(([is]) => is).map(([, seen]) => seen),
    others: bars.filter(([is, seen]) => !is && seen).length,
    pressed: border(true), free: border(false),
    ground: styleOf('#lanes').backgroundColor, letters: styleOf('.lane-name').fill,
  };
}

// How long a shape is in motion when the page draws it; null if it is still.
function motionOf(selector) {
  const { animationName, animationDuration, animationIterationCount } = styleOf(selector);
  return animationName === 'none' || animationIterationCount !== '1' ? null : animationDuration;
}
