// How often the page asks the machine for what a reader does.

const playsNow = () => port.state().plays;
const isLesson = (name) => port.state().lesson === name;

const acts = { choose, click, key, lesson, paste, undo, write };

// The number of replays that some acts took. An act has a name and its values.
function playsOf(rows) {
  const before = playsNow();
  for (const [name, ...values] of rows) acts[name](...values);
  return playsNow() - before;
}

// Goes to a place, steps around it, and changes its views.
function seePlace(place, last) {
  go(place);
  slide(last - place);
  click('#forward');
  key('[');
  key('a');
  click('#every');
}

// Opens a lesson, and sees each of its places in every way: the replays of both.
function playsOfLesson(name) {
  const opened = playsOf([['lesson', name]]);
  const [before, { last }] = [playsNow(), port.state()];
  for (let place = 0; place <= last; place += 1) seePlace(place, last);
  for (const mode of ['play', 'own', 'lessons']) inMode(mode);
  for (const one of ['h', 'h', 'f', 'f', 'q', 'q', 'End']) key(one);
  caught(() => click('[data-take=svg]'));
  drawPaper();
  return [opened, playsNow() - before];
}
