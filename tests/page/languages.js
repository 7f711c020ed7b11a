// A lesson at each of its places: its texts, and the texts of its picture that are cut.

function atEachPlace(name, take) {
  lesson(name);
  return atEach(movesTo(port.state().last), take);
}

const untranslated = () => port.untranslated();
const language = () => document.documentElement?.lang;
// Before it begins, a page has the language of its frame, English.
const hasBegunIn = (name) => isThere() && language() === name;
const said = (name) => atEachPlace(name, () => pick('main').textContent);

function cutNow() {
  const { left, right } = rect(byId('memory-picture'));
  return all('#memory-picture text').filter((one) => one.lastChild.textContent.endsWith('…')
    || rect(one).left < left - 1.5 || rect(one).right > right + 1.5)
    .map((one) => one.lastChild.textContent);
}

const cut = (name) => atEachPlace(name, cutNow);

// A map from the kind of a stretch of a lane to its meaning in the legend.
const signs = () => Object.fromEntries(all('#legend > span:has(.span)').map((one) => [
  one.querySelector('.span').classList[1], saidBy(one)]));

// The plain words on each of these moves.
const plainAt = (moves) => atEach(moves, () => text('#now .plain'));

// Each marked term, with what is said of it while it has the focus.
const meanings = (terms) => all(terms).map((one) => {
  one.focus();
  return [one.dataset.term, text('#tip-box:not([hidden])')];
});

// Before the page's script: the browser wants these languages.
const want = (languages) => Object.defineProperty(navigator, 'languages', { value: languages });
