// The view, and its copies in the address, in the history and in the browser.

// Whether the page shows this text, at this place unless it is null.
function shows(letters, place) {
  const { text: bytes, place: now } = port.state();
  return lettersOf(bytes) === letters && (place === null || place === now);
}

function goAndLeave(move, name) {
  go(move);
  lesson(name);
}

function showAndLeave(letters, move, name) {
  show(letters, move);
  lesson(name);
}

// Shows a text of so many bytes after its title, which is no schedule.
const showLarge = (size, title = '') => show(title + '#'.repeat(size));

const keptNames = () => all('[data-kept]').map((one) => one.dataset.kept);
const keptAt = (move) => location.hash.match(`^#kept=(\\w+)&move=${move}$`)?.[1];
const keysOfTexts = () => Object.keys(localStorage)
  .filter((key) => key.startsWith('lockreplay.kept.'));
const keptTexts = () => keysOfTexts().length;
const forgetTexts = () => keysOfTexts().forEach((key) => localStorage.removeItem(key));
const damaged = () => (byId('damaged').hidden ? '' : text('#damaged'));
const goTo = (fragment) => { location.hash = fragment; };
const href = () => location.href;

// Before the page's script: what a damaged browser has stored, and one that stores nothing.
function storeAndLoad(key, text) {
  if (location.protocol !== 'file:') return;
  localStorage.clear();
  localStorage.setItem(key, text);
}

function withoutStorage() {
  for (const name of ['getItem', 'setItem', 'removeItem']) {
    Storage.prototype[name] = () => { throw new DOMException('', 'SecurityError'); };
  }
}
