// Keys for everything. A key that a field or a button needs for itself is left to it.

import { byId, closesBeside, dialogOf, targetOf, TYPED_IN } from '../lib/elements.js';
import { html, show } from '../lib/markup.js';
import { texts } from '../texts/texts.js';
import { looks } from '../model/looks.js';
import { signList } from '../view/legend.js';

const IN_FIELDS = `${TYPED_IN}, select`;
const FAR = 10;
const WIDER = 1.25;

function actions(page) {
  const { address, comparing, hall, lecture, modes, playing, presenter, stepping } = page;
  return {
    ArrowRight: () => stepping.step(1), ArrowLeft: () => stepping.step(-1),
    PageDown: () => (looks.hall ? stepping.press(1) : stepping.step(FAR)),
    PageUp: () => (looks.hall ? stepping.press(-1) : stepping.step(-FAR)),
    Home: () => page.go(0), End: () => stepping.end(), ' ': () => stepping.toggleRunning(),
    ']': () => stepping.sameThread(1), '[': () => stepping.sameThread(-1),
    n: () => lecture.next(), j: () => stepping.nextQuestion(), a: () => stepping.toggleAnswer(),
    o: () => page.chooseLesson(), e: () => modes.toggle('own'), g: () => modes.toggle('play'),
    q: () => modes.toggleQuiz(),
    w: () => page.mode === 'play' && playing.toggleEvery(), r: () => playing.finish(),
    Enter: () => stepping.openNext(),
    c: () => comparing.toggle(), u: () => playing.undo(), l: () => address.copy(),
    t: () => page.showExports(), m: () => page.showFind(),
    h: () => page.toggleHall(), s: () => hall.fillScreen(), Escape: () => hall.leave(),
    v: () => page.showView(), y: () => page.why.openHere(), f: () => page.toggleFuture(),
    p: () => page.showSheets(), d: () => page.toggleTheme(), '?': () => page.showKeys(),
    '.': () => (looks.hall ? hall.blank(true) : stepping.faster(1)), ',': () => stepping.faster(-1),
    2: () => presenter.open(),
    '+': () => page.zoom(WIDER), '=': () => page.zoom(WIDER), '-': () => page.zoom(1 / WIDER),
  };
}

// Keys on the lanes.
const onLanes = ({ stepping }) => ({
  ArrowDown: () => stepping.chooseLane(1), ArrowUp: () => stepping.chooseLane(-1),
  Enter: () => stepping.laneMove(),
});

// Keys that a focused control uses itself.
function isTheirs(key, target) {
  if (target.closest(IN_FIELDS)) return true;
  if (key === 'Enter') return target !== document.body && target.id !== 'lanes';
  if (target.matches('input[type=radio]')) return /^Arrow| $/.test(key);
  if (target.matches('input[type=checkbox]')) return key === ' ';
  return key === ' ' && target.closest('button, summary, [role=button]') !== null;
}

export function listenForKeys(page) {
  const does = actions(page);
  const lanes = onLanes(page);
  addEventListener('keydown', (event) => {
    if (page.hall.isBlank) {
      event.preventDefault();
      page.hall.blank(false);
      return;
    }
    const target = targetOf(event);
    const isBehind = document.querySelector('dialog[open]') !== null;
    const undoes = (event.ctrlKey || event.metaKey) && event.key === 'z'
      && !isBehind && !target.closest(IN_FIELDS);
    if (undoes) page.playing.undo();
    if (event.ctrlKey || event.metaKey || event.altKey) return;
    if (event.key === 'Escape' && target.closest(IN_FIELDS)) target.blur();
    if (isBehind || isTheirs(event.key, target)) return;
    const key = event.key.length === 1 ? event.key.toLowerCase() : event.key;
    const onLane = target.id === 'lanes' && lanes[key];
    const thread = page.mode === 'play' && /^[0-9]$/.test(key);
    const digit = thread && (() => page.playing.chooseFor(Number(key)));
    const act = onLane || digit || does[key];
    if (!act) return;
    event.preventDefault();
    act();
  });
}

export function keysDialog() {
  const dialog = dialogOf('keys');
  closesBeside(dialog);
  return () => {
    const rows = texts.keys.list
      .map(([key, does]) => html`<dt><kbd>${key}</kbd></dt><dd>${does}</dd>`);
    show(byId('key-list'), html`${rows}`);
    show(byId('sign-list'), signList());
    dialog.showModal();
  };
}
