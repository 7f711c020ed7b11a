// Exports, as the page passes them to the browser or to the clipboard.

// Saves an export: the name of the file, its bytes as letters, and its type.
async function take(what) {
  const { name, type, bytes } = await caught(() => click(`[data-take=${what}]`));
  return [name, lettersOf(bytes), type];
}

const tips = () => all('footer button, footer select').map((one) => one.title);

// The buttons of steps have open angles, and the button that plays has a full triangle.
const fills = () => [styleOf('#back path').fill, styleOf('#forward path').fill,
  styleOf('#run .go').fill !== 'none'];

// Where the buttons of steps point: their sign has its tip, or its bar, on that side.
const waysOfArrows = () => Object.fromEntries(['first', 'back', 'forward', 'last'].map((id) => {
  const path = pick(`#${id} path`);
  const isChevron = path.matches('.chevron');
  const at = path.getPointAtLength(isChevron ? path.getTotalLength() / 2 : 0);
  const { x, width } = path.getBBox();
  return [id, at.x < x + width / 2 ? 'left' : 'right'];
}));

// What a control is called by: its id, or what it belongs to.
function keyOf(one) {
  if (one.control) return one.control.id || `${one.control.form.id} ${one.control.name}`;
  if (one.matches('option')) return `${one.parentNode.id} ${one.value}`;
  const { take, sheet } = one.dataset;
  return take ?? sheet ?? (one.id || one.closest('details[id], form[id], dialog')?.id);
}

// The names of all buttons, fields, boxes, choices and folds of the page's frame.
const namesOfControls = () => Object.fromEntries(all('button, label, option, summary')
  .filter((one) => !one.closest('main, #lesson-list, #choices')).map((one) => {
    const said = one.control ? one.querySelector('span') : one;
    return [keyOf(one) ?? 'new schedule',
      one.getAttribute('aria-label') ?? plain(said.textContent)];
  }));

// From now on the browser cannot draw a picture into points.
function refusePictures() {
  Image.prototype.decode = () => Promise.reject(new DOMException('', 'EncodingError'));
}

const forgetNotice = () => { byId('notice').textContent = ''; };
