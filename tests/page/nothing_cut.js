// A list of all that is wrong with the drawing of the page.

const nameOf = (node) => `${node.closest('[id]').id}: ${node.textContent.trim().slice(0, 40)}`;
const drawn = (selector) => visible(selector).filter((one) => rect(one).width > 0);
const isApart = (one, other) => one.bottom <= other.top + 1 || one.top >= other.bottom - 1;

// The rectangle of a text includes its halo, and takes less time than its box, so it comes first.
function outOfView(selector, id) {
  const [part, whole] = [rect(byId(id)), screenBox()];
  const isInside = (box) => inside(box, part) && inside(box, whole);
  return drawn(selector).filter((one) => !isInside(rect(one)) && !isInside(boxOf(one)))
    .map((one) => `out of view: ${selector} ${nameOf(one)}`);
}

// A line may be in view or out of view, but not cut.
function cutLines() {
  const lines = drawn('.code-line, #now p, #now .head, #now dt, #now dd, #now summary');
  const isCut = (one) => {
    const box = rect(one.closest('#code-lines, #now'));
    return !inside(rect(one), box) && !isApart(rect(one), box);
  };
  return lines.filter(isCut).map((one) => `cut: ${nameOf(one)}`);
}

const isWider = (node) => node.scrollWidth > node.clientWidth + 1;

// The names that go beyond the head of their lane.
function namesOutOfLanes() {
  const lineOf = (one) => one.parentNode.querySelector('.lane-line');
  const isOut = (one) => rect(one).right > rect(lineOf(one)).left + 1;
  return drawn('#lanes .lane-name').filter(isOut).map((one) => `beside its lane: ${nameOf(one)}`);
}

function wrongInParts({ place, refused }, isHidden) {
  const wrong = [
    ...outOfView('.code-line.here', 'code-lines'),
    ...outOfView('#memory-picture [data-moving]', 'memory-picture'),
    ...outOfView('#now .say', 'now'), ...outOfView('#memory-picture text', 'memory-picture'),
    ...outOfView('#numbers text', 'time'), ...outOfView('#lanes text', 'lanes'),
    ...outOfView('#memory-caption', 'memory'), ...cutLines(), ...namesOutOfLanes(),
    ...drawn('#memory-picture text').filter((one) => one.textContent.endsWith('…')).map(nameOf),
    ...['code-lines', 'now', 'memory-picture'].filter((id) => isWider(byId(id)))
      .map((id) => `wider than its part: ${id}`),
  ];
  const isMade = place > 0 && !refused;
  if (isMade && !count('.code-line.here')) wrong.push('no line');
  const hasRecord = isMade && count('.record') > 0;
  if (hasRecord && !drawn('#memory-picture [data-moving]').length) wrong.push('no record');
  const isSaid = drawn('#now .say').length > 0;
  if (isSaid === isHidden) wrong.push(isSaid ? 'the sentence is not hidden' : 'no sentence');
  const now = byId('now');
  if (now.scrollHeight > now.clientHeight + 1) wrong.push('now is scrolled');
  return wrong;
}

function wrongNow(isHidden) {
  const shown = port.state();
  const wrong = shown.threads ? wrongInParts(shown, isHidden) : [];
  const controls = drawn('h1, #subtitle, button, #position');
  const isOff = (one) => !inside(rect(one), screenBox()) && !one.closest('aside');
  wrong.push(...controls.filter(isWider).map((one) => `cut: ${nameOf(one)}`));
  wrong.push(...controls.filter(isOff).map((one) => `off: ${nameOf(one)}`));
  if (document.documentElement.scrollWidth > innerWidth) wrong.push('wider than the screen');
  return wrong;
}

// The answer shows the sentence. Both may be longer than their part, which is then scrolled.
function wrongWithAnswer() {
  key('a');
  const wrong = outOfView('#now .say', 'now');
  return drawn('#now .say').length ? wrong : ['no sentence with the answer'];
}

// The browser loaded the page with the first of these links, and follows the others.
const wrongAt = (links) => links.map(([fragment, isHidden], i) => {
  if (i) follow(fragment);
  return [...wrongNow(isHidden), ...(isHidden ? wrongWithAnswer() : [])];
});

// Whether the browser draws the page in this font family of the system.
function drawnIn(family) {
  const pen = document.createElement('canvas').getContext('2d');
  const widthIn = (font) => {
    pen.font = `100px ${font}`;
    return pen.measureText('The quick brown fox, MWil 0123').width;
  };
  const own = styleOf('body').fontFamily;
  return own.includes(family) && !document.fonts.size
    && widthIn(own) === widthIn(`"${family}"`) && widthIn(own) !== widthIn('serif');
}
