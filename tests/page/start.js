// The start: its cards, and where it leads.

const lessonNow = () => port.state().lesson;
// The last lesson of each lock, on the cards of the start.
const lastLessons = () => all('.lock-card')
  .map((one) => all('[data-lesson]', one).at(-1).dataset.lesson);

const cards = () => all('#lessons .lock-card').map((card) => ({
  lock: card.dataset.lock, live: all('.live svg text', card).length,
  says: saidBy(card.querySelector('p')),
  lessons: all('[data-lesson]', card).map((one) => [one.dataset.lesson, saidBy(one)]),
}));

// The lessons with a frame, but for one below the pointer.
const framed = () => all('#lessons [data-lesson]:not(:hover)')
  .filter((one) => getComputedStyle(one).borderTopColor !== 'rgba(0, 0, 0, 0)')
  .map((one) => one.dataset.lesson);

const stored = (name) => localStorage.getItem(name);

// Whether each picture of a card is as wide as the card.
const pictures = () => all('#lessons .live')
  .map((one) => Math.abs(rect(one.querySelector('svg')).width - rect(one).width) < 2);
const cutPictures = () => all('#lessons .live').filter((one) => (
  rect(one.firstElementChild).bottom > rect(one).bottom)).map((one) => one.dataset.live);
const unitsOfPictures = () => all('#lessons .live svg').map((one) => one.viewBox.baseVal.width);
const partsOfStart = () => [...byId('lesson-list').children].map((one) => one.classList[0]);
const topsOf = (selector) => all(`#lessons ${selector}`).map((one) => rect(one).top);
const refusals = () => [count('.refusals [data-lesson]'), pick('.refusals').open];
const ways = () => all('[data-way]').map((one) => one.dataset.way);
const chosen = () => document.activeElement.dataset.lesson ?? null;
const ticked = () => all('#lessons [data-lesson]').filter((one) => one.textContent.includes('✓'))
  .map((one) => one.dataset.lesson);
const inHall = () => document.body.classList.contains('hall');
const topOf = (selector) => rect(selector).top;

// The words of the prologue, its moves so far, and what is said.
const prologue = () => ({
  words: texts('#prologue dd'), moves: texts('#prologue td').filter((one) => one),
  said: text('#prologue [role=status]'),
});

// The explanation of a term in a part, and whether all of it is on the screen with nothing over it.
// It begins where the term does, unless it would go beyond the edge.
function explained(part, term) {
  const node = visible(`${part} .term`).find((one) => one.dataset.term === term);
  node.focus();
  const box = byId('tip-box');
  const { left, right, top, bottom } = rect(box);
  const isBeside = Math.abs(left - rect(node).left) < 2 || right > innerWidth - 10;
  // elementFromPoint skips a box without pointer events.
  box.style.pointerEvents = 'auto';
  const above = document.elementFromPoint((left + right) / 2, (top + bottom) / 2);
  box.style.pointerEvents = '';
  const isSeen = isBeside && inside(rect(box), screenBox()) && above === box;
  return [!box.hidden && box.textContent, isSeen];
}

// The term that the explanation describes, with its role; null without one.
function describedTerm() {
  const [one, ...others] = all('[aria-describedby=tip-box]');
  if (others.length || !one || byId('tip-box').hidden) return null;
  return [one.textContent, one.getAttribute('role')];
}

// In a window that ends just below a term: whether its explanation is above it.
function isExplainedAbove(term) {
  const node = visible('main .term').find((one) => one.dataset.term === term);
  const { top, bottom } = rect(node);
  window.innerHeight = bottom + 5;
  node.focus();
  return !byId('tip-box').hidden && rect(byId('tip-box')).bottom <= top;
}

const atCard = (lock, event) => (
  pick(`#lessons [data-lock=${lock}]`).dispatchEvent(new Event(event)));

// Before the page's script: makes its clocks run ten times as fast.
function hasten() {
  const { setInterval } = window;
  window.setInterval = (act, wait) => setInterval(act, wait / 10);
}

// Before the page's script: keeps the act of the last clock, which is then done by hand.
function stopClock() {
  window.setInterval = (act) => { window.turn = act; };
}

// What the picture of a card says after each of some turns of its clock.
const turns = (lock, times) => Array.from({ length: times }, () => {
  window.turn();
  return attribute(`[data-live=${lock}] svg`, 'aria-label');
});

// Each marked word in a part, with the term that explains it.
const terms = (part) => all(`${part} .term`).map((one) => [one.textContent, one.dataset.term]);
