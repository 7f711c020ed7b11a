// The frame of the page: its names, its first values, its tools and its signs.

const ofEach = (selector, take) => Object.fromEntries(all(selector).map((one) => (
  [one.id, take(one)])));
const labels = () => ofEach('[data-label]', (one) => one.getAttribute('aria-label'));
const tips = () => ofEach(':is([data-label], [data-title])[title]', (one) => one.title);

// The headings and the hints that never change, each with what it belongs to.
const headings = () => all(':is(h2, h3, .hint, legend)[data-text]')
  .map((one) => [one.closest('[id]').id, plain(one.textContent)]);

// The ticked boxes, and the choices that are chosen.
const ticked = () => all('input:checked').map(({ id }) => id);
const chosen = () => ofEach('select', ({ value: one }) => one);

// How a field helps one who types: not at all.
const helps = (id) => ['spellcheck', 'autocapitalize', 'autocomplete', 'wrap'].map((name) => (
  byId(id).getAttribute(name)));
const attributesOf = (selector, names) => names.map((name) => attribute(selector, name));

// The tools that are shown, and how far they are from the right edge.
const tools = () => [visible('.tools button').map(({ id }) => id),
  innerWidth - rect('.tools').right < 30];

// Where a control is: the edges at which it begins and ends.
const across = (selectors) => selectors.map(rect)
  .map(({ left, right }) => [left, right].map(Math.round));

// What the style gives each of these for these properties.
const looksOf = (selectors, names) => selectors.map((one) => (
  names.map((name) => styleOf(one)[name])));

// Where the sign of each button of the foot is in its box of 16 by 16.
const signsOfTheFoot = () => Object.fromEntries(visible('footer svg.icon path').map((one) => {
  const { x, y, width, height } = one.getBBox();
  return [one.closest('button').id, [x, y, width, height]];
}));

const groundsOf = (selectors) => selectors.map((one) => styleOf(one).backgroundColor);
const numbersOf = (selector) => all(selector).map((one) => [...one.attributes]
  .filter(({ name }) => name !== 'class' && name !== 'id').map(({ value: said }) => said));
