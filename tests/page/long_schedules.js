// The longest schedules: how many milliseconds a load, a step or an edit takes until the layout of
// the page is done.

const BEGUN = 'lock ticket threads 2\n0 acquire\n0 add\n1 acquire\n1 add\n';
const layOut = () => document.body.offsetHeight;

function timed(act) {
  const from = performance.now();
  act();
  layOut();
  return performance.now() - from;
}

const mean = (act, times) => timed(() => {
  for (let i = 0; i < times; i += 1) {
    act(i);
    layOut();
  }
}) / times;

const least = (rounds, act) => Math.min(...Array.from({ length: rounds }, act));

// Loads a text from its bytes, after a lesson, since the page does not replay a text that it shows.
function loads(letters, rounds) {
  const text = bytesOf(letters);
  return least(rounds, () => {
    lesson('mcs-late-link');
    const copy = text.slice();
    return timed(() => port.open({ text: copy }));
  });
}

// The mean time of some steps from each of these places, and the mean time of a jump.
function steps(places, times, rounds) {
  const stretches = places.map((from) => least(rounds, () => {
    timed(() => go(from));
    return mean(() => click('#forward'), times);
  }));
  const jumps = least(rounds, () => mean((i) => go((i * 40503 + 65535) % 65537), times));
  return [...stretches, jumps];
}

// Types a letter at the end of a text of 354,000 bytes. The time leaves out the browser's own work
// to set the field.
function edits(rounds) {
  show(`${BEGUN}${'1 read\n'.repeat(50560)}`);
  return least(rounds, (_, round) => {
    const settle = typed(`${value('#text')}${round % 2 ? ' ' : '#'}`);
    layOut();
    return timed(settle);
  });
}

// Types a letter at the caret, and returns the function that plays the text after a pause.
const typedAtCaret = (letter) => (
  delayedBy(() => document.execCommand('insertText', false, letter)));

// Types a line several times at the end of 10,004 moves: the least time of each key, and of the
// pause after it, in which the page plays the text.
function typing(line, times) {
  show(`${BEGUN}${'1 read\n'.repeat(10000)}`);
  inMode('own');
  byId('text').focus();
  byId('text').setSelectionRange(size(), size());
  const typeOne = (letter) => {
    let settle;
    const key = timed(() => { settle = typedAtCaret(letter); });
    return [key, timed(settle)];
  };
  const rounds = Array.from({ length: times }, () => [...line].flatMap(typeOne));
  return rounds[0].map((_, at) => Math.min(...rounds.map((one) => one[at])));
}

// Makes choices at the end of a long schedule: the place after them, how many of them Undo takes
// back, and the bytes of all texts that it brings back.
function undone(times) {
  show(`${BEGUN}${'1 read\n'.repeat(60000)}`);
  inMode('play');
  go(60000);
  for (let i = 0; i < times; i += 1) choose(1, 'read');
  const { place } = port.state();
  const sizes = [];
  const isUndone = () => {
    undo();
    return port.state().place === place - sizes.length - 1;
  };
  while (isUndone()) sizes.push(port.state().text.length);
  return [place, sizes.length, sizes.reduce((sum, size) => sum + size, 0)];
}

const size = () => value('#text').length;
