// The daily work of a reader: menu, files, phones and low windows.

// Before the page's script: lets the browser keep at most `room` schedules.
function leaveRoom(room) {
  const { setItem } = Storage.prototype;
  Storage.prototype.setItem = function set(key, text) {
    const isFull = Object.keys(this).filter((one) => one.startsWith('lockreplay.kept.')).length
      >= room;
    if (isFull && key.startsWith('lockreplay.kept.')) throw new DOMException('', 'QuotaError');
    setItem.call(this, key, text);
  };
}

const fitsAcross = () => [document.documentElement, byId('lessons')]
  .every((one) => one.scrollWidth <= one.clientWidth + 1);
const instead = () => [byId('text').placeholder, byId('text').wrap];
const openNew = () => { byId('new').parentElement.open = true; };

// Whether nothing covers a control, at its top and at its bottom.
function isFree(selector) {
  const { left, top, bottom, width } = rect(selector);
  return [top + 3, bottom - 3].every((y) => (
    document.elementFromPoint(left + width / 2, y)?.closest(selector)));
}

// A line of the code, the number before it, and whether all lines up to it count one.
function numbered(number) {
  const line = all('#code-lines .code-line')[number - 1];
  const counted = all('#code-lines .code-line').slice(0, number)
    .every((one) => getComputedStyle(one).counterIncrement === 'line 1');
  return [plain(line.querySelector('code').textContent),
    getComputedStyle(line, '::before').content, counted];
}

// Which of these parts of the move are wholly in view.
function seenOfMove(parts) {
  const box = rect(byId('now'));
  return parts.filter((part) => {
    const node = pick(`#now ${part}`);
    return node.checkVisibility() && inside(rect(node), box);
  });
}

const tops = (selectors) => selectors.map((one) => rect(one).top);
const scrolled = () => [scrollX, scrollY];
const disabled = (ids) => ids.map((id) => byId(id).disabled);

// Before the page's script: the browser reports a touch screen.
function withFingers() {
  const { matchMedia } = window;
  window.matchMedia = (asked) => matchMedia(asked.replace('(pointer: coarse)', 'all'));
}

// Controls on the screen that a finger may miss.
const small = () => visible('button, select, summary').filter((one) => rect(one).width
  && Math.min(rect(one).height, rect(one).width) < 43.5).map((one) => one.id || saidBy(one));
