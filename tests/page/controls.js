// Dialogs and buttons: which are open or pressed, and what has the focus.

const opened = () => all('dialog[open]').map(({ id }) => id);
const hasFocus = (selector) => document.activeElement.matches(selector);
const pressed = () => all('.tools [aria-pressed=true]').map(({ id }) => id);

// The parts that are ticked in the list, and those that are shown.
const viewed = () => [(name) => pick(`#view [name=${name}]`).checked,
  (name) => byId(name).checkVisibility()]
  .map((isSo) => ['time', 'memory', 'code', 'now'].filter(isSo));

// What is wrong with the open dialog: what is cut, off the screen, or on another control.
function wrongInDialog() {
  const dialog = pick('dialog[open]');
  const box = rect(dialog);
  const seen = visible('*', dialog)
    .filter((one) => rect(one).width > 0 && !one.closest('svg, option'));
  const named = (what, those) => those.map((one) => (
    `${what}: ${one.tagName} ${saidBy(one).slice(0, 40)}`));
  const isCut = (one) => one.clientWidth > 0 && one.scrollWidth > one.clientWidth + 1
    && !one.matches('textarea, input, select, .live');
  const isOff = (one) => rect(one).left < box.left - 1 || rect(one).right > box.right + 1;
  const controls = seen.filter((it) => it.matches('button, input, select, textarea, summary, h2'));
  const [head, close] = ['h2', 'form button'].map((one) => dialog.querySelector(one)).map(rect);
  return [...named('cut', seen.filter(isCut)), ...named('off', seen.filter(isOff)),
    ...overlapsOf(controls), ...(inside(box, screenBox()) ? [] : ['off the screen']),
    ...(close.left >= head.right && close.top < head.bottom ? [] : ['the button that closes']),
  ];
}

// The keys that the page takes for itself on a control.
function actsOf(selector, names, held) {
  const node = pick(selector);
  return names.filter((name) => !node.dispatchEvent(new KeyboardEvent('keydown', {
    key: name, [held]: true, bubbles: true, cancelable: true,
  })));
}

// Selects a line of code, and clicks it.
function clickSelected() {
  const line = pick('#code-lines .code-line code');
  getSelection().selectAllChildren(line);
  line.click();
  getSelection().removeAllRanges();
}

// Replaces the full screen: allowed, refused, or there already.
function stubScreen(way) {
  window.screenCalls = [];
  document.documentElement.requestFullscreen = async () => {
    window.screenCalls.push('enter');
    if (way === 'refused') throw new TypeError('not allowed');
  };
  document.exitFullscreen = async () => { window.screenCalls.push('leave'); };
  Object.defineProperty(document, 'fullscreenElement', {
    get: () => (way === 'full' ? document.documentElement : null),
  });
}

const screenCalls = () => window.screenCalls;

// Before the page's script: a browser that opens no window.
function withoutWindows() { window.open = () => null; }

// Presses a key or clicks a tool, and closes the dialog that it opened.
function tryOne(name) {
  if (name.startsWith('#')) click(name);
  else key(name);
  for (const dialog of all('dialog[open]')) dialog.close();
}
