// Exported pictures, with the chosen parts.

function tick(parts) {
  for (const box of all('#take [type=checkbox]')) box.checked = parts.includes(box.name);
}

// The bytes of what the dialog exports, and their text.
const bytesTaken = async (what) => (await caught(() => click(`[data-take=${what}]`))).bytes;
const textTaken = async (what) => new TextDecoder().decode(await bytesTaken(what));

function taken(what, parts, moves) {
  click('#show-take');
  tick(parts);
  if (moves) askMoves(...moves);
  return textTaken(what);
}

// Chooses only the part with this label.
function chooseOnly(label) {
  click('#show-take');
  tick([]);
  all('#take label').find((one) => saidBy(one) === label).click();
  closeDialog('take');
}

// Where the corners of a picture are drawn. The style of the page may make its frame larger.
function areaOf(svg) {
  const { a, d, e, f } = svg.getScreenCTM();
  const { width, height } = svg.viewBox.baseVal;
  return { left: e, top: f, right: e + a * width, bottom: f + d * height };
}

// Draws a picture in a frame of its own.
function framed(picture) {
  const frame = document.createElement('iframe');
  document.body.append(frame);
  frame.contentDocument.body.innerHTML = picture;
  return [frame, (selector) => all(selector, frame.contentDocument)];
}

// Of a picture in a frame of its own: the font families of its texts, the bands under the move,
// and the texts that are inside the picture and those that are not.
async function alone(parts, what = 'svg', moves = null) {
  const [frame, inFrame] = framed(await taken(what, parts, moves));
  const families = inFrame('text')
    .map((one) => frame.contentWindow.getComputedStyle(one).fontFamily.split(',')[0]);
  const bandColour = frame.contentWindow.getComputedStyle(inFrame('.here-column')[0]
    ?? frame.contentDocument.body).fill;
  const endsOf = (selector) => inFrame(selector).map((one) => [rect(one).top, rect(one).bottom]);
  const [bands, lanes] = ['.here-column', '.lane-line'].map(endsOf);
  const whole = areaOf(inFrame('svg')[0]);
  const words = inFrame('text').filter((one) => one.textContent.trim());
  const [within, outside] = [true, false].map((is) => words
    .filter((one) => inside(rect(one), whole) === is).map((one) => one.textContent));
  // A text and a sign of the legend may lie beside each other, as one.
  const overlaps = overlapsOf([...new Set([...words, ...inFrame('body > svg > g > g > *')])],
    (one, other) => one.parentNode === other.parentNode);
  frame.remove();
  return {
    families: [...new Set(families)].sort(), bands, lanes, inside: within, outside,
    band: bandColour, overlaps,
  };
}

function around(areas) {
  const [left, top, right, bottom] = ['left', 'top', 'right', 'bottom']
    .map((side) => areas.map((one) => one[side]));
  return { left: Math.min(...left), top: Math.min(...top),
    right: Math.max(...right), bottom: Math.max(...bottom) };
}

// Where a picture in a picture is, by its size and the place of its group.
function placeOf(svg) {
  const [left, top] = svg.parentNode.getAttribute('transform').match(/[\d.]+/g).map(Number);
  const [width, height] = ['width', 'height'].map((name) => Number(svg.getAttribute(name)));
  return { left, top, right: left + width, bottom: top + height, scale: scaleOf(svg) };
}

// How large a picture is drawn.
const scaleOf = (svg) => (
  Math.round(100 * Number(svg.getAttribute('width')) / svg.viewBox.baseVal.width) / 100);
const scaleOfMemory = () => scaleOf(pick('#memory-picture svg'));

// Where the title, the numbers, the lanes, the signs, memory, the code and the whole picture are.
async function partsOf(parts) {
  const [frame, inFrame] = framed(await taken('svg', parts));
  const [svg] = inFrame('body > svg');
  const { a, e, f } = svg.getScreenCTM();
  const whole = svg.viewBox.baseVal;
  const [numbers, lanes, memory] = inFrame('body > svg > g > svg').map(placeOf);
  const [title, signs, code] = ['.picture-title', 'body > svg > g > g > .note', '.code-text']
    .map((selector) => around(inFrame(selector).map(rect).map(({ left, top, right, bottom }) => ({
      left: (left - e) / a, top: (top - f) / a, right: (right - e) / a, bottom: (bottom - f) / a,
    }))));
  frame.remove();
  return [title, numbers, lanes, signs, memory, code, { right: whole.width, bottom: whole.height }];
}

// The background colour of a picture, as the browser draws it.
async function groundOf(parts) {
  const image = new Image();
  image.src = `data:image/svg+xml;charset=utf-8,${encodeURIComponent(await taken('svg', parts))}`;
  await image.decode();
  const pen = document.createElement('canvas').getContext('2d');
  pen.drawImage(image, 0, 0);
  return `rgb(${pen.getImageData(3, 3, 1, 1).data.join()})`;
}

// The chunks of an animated picture, and its width in the browser.
async function animation(from, to) {
  click('#show-take');
  askMoves(from, to);
  const bytes = await bytesTaken('animated');
  const image = new Image();
  image.src = `data:image/png;base64,${btoa(lettersOf(bytes))}`;
  await image.decode();
  return {
    ...chunksOf(bytes), width: image.naturalWidth, sizes: await sizesOf(bytes),
    corner: cornerOf(image), data: await Promise.all(framesOf(bytes).map(markOf)),
  };
}

// The colour of a picture's lower right corner, in red, green, blue and how dense it is.
function cornerOf(image) {
  const pen = document.createElement('canvas').getContext('2d');
  pen.drawImage(image, 1 - image.naturalWidth, 1 - image.naturalHeight);
  return [...pen.getImageData(0, 0, 1, 1).data];
}

// How much ink the page's letters of a family have, normal and bold.
function inks(family) {
  const canvas = document.createElement('canvas');
  [canvas.width, canvas.height] = [600, 100];
  return ['400', '700'].map((weight) => {
    const pen = canvas.getContext('2d');
    pen.clearRect(0, 0, 600, 100);
    pen.font = `${weight} 60px ${family}`;
    pen.fillText('Ann, Bob: tail', 5, 70);
    return pen.getImageData(0, 0, 600, 100).data.filter((one, at) => at % 4 === 3 && one > 128)
      .length;
  });
}

// The packed data of each frame of a picture.
function framesOf(bytes) {
  const view = new DataView(bytes.buffer);
  const frames = [];
  for (let at = 8; at < bytes.length; at += view.getUint32(at) + 12) {
    const [kind, length] = [lettersOf(bytes.subarray(at + 4, at + 8)), view.getUint32(at)];
    if (kind === 'fcTL' || (kind === 'IDAT' && !frames.length)) frames.push([]);
    const from = at + 8 + (kind === 'fdAT' ? 4 : 0);
    if (/^(IDAT|fdAT)$/.test(kind)) frames.at(-1).push(...bytes.subarray(from, at + 8 + length));
  }
  return frames.map((frame) => Uint8Array.from(frame));
}

// How many bytes a frame of the picture has, and how many each of its frames has.
async function sizesOf(bytes) {
  const view = new DataView(bytes.buffer);
  const [width, height, channels] = [view.getUint32(16), view.getUint32(20),
    { 2: 3, 6: 4 }[bytes[25]]];
  const sizes = framesOf(bytes).map(async (frame) => (await new Response(new Blob([frame]).stream()
    .pipeThrough(new DecompressionStream('deflate'))).arrayBuffer()).byteLength);
  return [height * (1 + width * channels), ...await Promise.all(sizes)];
}

// A frame as a text that is short.
async function markOf(frame) {
  const hash = new Uint8Array(await crypto.subtle.digest('SHA-256', frame));
  return btoa(lettersOf(hash));
}

// The picture of the shown state as points.
async function pointsOf() {
  click('#show-take');
  return markOf(framesOf(await bytesTaken('png'))[0]);
}

// The kind of each chunk, and for how many seconds each frame is shown.
function chunksOf(bytes) {
  const view = new DataView(bytes.buffer);
  const [kinds, seconds] = [[], []];
  for (let at = 8; at < bytes.length; at += view.getUint32(at) + 12) {
    const kind = String.fromCharCode(...bytes.subarray(at + 4, at + 8));
    kinds.push(kind);
    if (kind === 'fcTL') seconds.push(view.getUint16(at + 28) / view.getUint16(at + 30));
  }
  return { kinds, seconds };
}

// The failed polls of the lanes, as TikZ draws them.
const failedPolls = () => all('#lanes circle.waits').map((one) => [one.cx, one.cy]
  .map((side) => Math.round(side.baseVal.value * 100) / 100))
  .map(([x, y]) => `(${x},${y}) circle[radius=7.5pt];`);

const asks = () => byId('take-answer').checkVisibility();

// Fills in the wanted moves, and returns the answer of the dialog.
function askMoves(from, to) {
  input('take-from', from);
  input('take-to', to);
  return askedCut();
}

// What the dialog says of moves that are not drawn.
const askedCut = () => seen('#take-cut');

// Saves these moves, and returns the notice.
async function noticed(what, from, to) {
  byId('take').close();
  byId('notice').textContent = '';
  click('#show-take');
  askMoves(from, to);
  await bytesTaken(what);
  return text('#notice');
}

// The strip of these moves.
function stripOf(from, to) {
  click('#show-take');
  askMoves(from, to);
  return textTaken('strip');
}
