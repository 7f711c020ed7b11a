// A monkey at all controls: it clicks, types, chooses and presses keys at random, from a seed.

// Numbers from 0 up to 1, always the same after a seed (mulberry32).
function randomOf(seed) {
  let at = seed;
  return () => {
    at = (at + 0x6D2B79F5) | 0;
    let mixed = Math.imul(at ^ (at >>> 15), 1 | at);
    mixed = (mixed + Math.imul(mixed ^ (mixed >>> 7), 61 | mixed)) ^ mixed;
    return ((mixed ^ (mixed >>> 14)) >>> 0) / 4294967296;
  };
}

// Before the page's own script: no second window, no file and no printer.
function tame() {
  const { click } = HTMLElement.prototype;
  window.print = () => {};
  window.open = () => null;
  HTMLElement.prototype.click = function clickTamely() {
    if (this.tagName !== 'A' && this.type !== 'file') click.call(this);
  };
}

// Another language would load the page anew.
const CONTROLS = 'button:not([disabled], [data-lang]), summary, select, textarea, '
  + 'input:not([type=file]), [data-move], .code-line, li[data-count], .term';
const PRESSED = [...'abcdefghjklmnopqtuvwy?.,+-[]0123', 'ArrowRight', 'ArrowRight', 'ArrowLeft',
  'PageDown', 'PageUp', 'Home', 'End', 'Escape', 'Enter', ' '];
const TYPED = ['', 'lock', 'no lock', '7', 'Ann', 'lock ticket threads 2\n0 acquire\n0 add\n',
  'lock mcs threads 3\n0 acquire\n0 write\n0 swap\n1 acquire\n1 write\n',
  'lock rw-simple threads 2 bits 2\n0 rlock\n0 section\n5 rlock\n',
  '#! name 0 <b>\n#! name 1 <b>\n#! ask 1 Who?\nlock rw-fifo threads 2\n0 wlock\n0 section\n'];
const LINKS = ['#lesson=mcs-late-link&move=8&hall', '#lesson=refused-busy&move=2',
  '#lesson=fault-bad-line&move=1', '#lesson=fifo-second-writer', '#lesson=none', '#schedule=x'];

const chosenOf = (random, list) => list[Math.floor(random() * list.length)];

function use(random, control) {
  if (control.matches('select')) {
    control.value = chosenOf(random, [...control.options]).value;
  } else if (control.matches('textarea, input:not([type=radio], [type=checkbox])')) {
    control.value = control.type === 'range' ? String(Math.floor(random() * 20))
      : chosenOf(random, TYPED);
    control.dispatchEvent(new Event('input', { bubbles: true }));
  } else {
    control.dispatchEvent(new MouseEvent('click', { bubbles: true, cancelable: true }));
  }
  control.dispatchEvent(new Event('change', { bubbles: true }));
}

function actOnce(random) {
  const kind = random();
  if (kind < 0.02) location.hash = chosenOf(random, LINKS);
  else if (kind < 0.4) {
    (document.activeElement ?? document.body).dispatchEvent(new KeyboardEvent('keydown', {
      key: chosenOf(random, PRESSED), bubbles: true, cancelable: true }));
  } else {
    const within = pick('dialog[open]') ?? document.body;
    const all = [...within.querySelectorAll(CONTROLS)].filter((one) => one.checkVisibility());
    if (all.length) use(random, chosenOf(random, all));
  }
}

// What is drawn of the shown move beside the module's report of it; null if they agree. While the
// quiz asks for the next move, its question takes the place of this one.
function drawnBeside() {
  const { text: bytes, threads, place: shown, refused } = port.state();
  const due = threads && shown && !refused && port.report(bytes).split('\n')[shown - 1];
  if (!due || /^(?:fault|refused)/.test(due) || byId('quiz-form')) return null;
  const drawn = pick('#now .report-line code')?.textContent;
  const [, hold] = due.match(/hold [rw]?(\S+) /);
  const held = all('#now [data-holders] .pill').map((one) => one.dataset.thread);
  const isSame = drawn === due && (held.length > 8 || (held.sort().join() || '-')
    === hold.split(',').sort().join());
  return isSame ? null : [due, drawn, held, text('#now').slice(0, 200)];
}

// Acts so often, and gives the differences that it saw at every tenth action.
async function act(seed, times) {
  const random = randomOf(seed);
  const differences = [];
  for (let at = 1; at <= times; at += 1) {
    actOnce(random);
    if (at % 10 === 0) {
      await new Promise((go) => { setTimeout(go); });
      differences.push(drawnBeside());
    }
  }
  return differences.filter(Boolean);
}
