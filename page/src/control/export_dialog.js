// To export: the state as a picture, the report, the schedule, and a frame for a slide.

import { animated } from '../lib/animated_png.js';
import { byId, closesBeside, dataOf, dialogOf, focusIn, inputOf } from '../lib/elements.js';
import { saveAs } from '../lib/files.js';
import { texts } from '../texts/texts.js';
import { withoutLooks } from '../model/looks.js';
import { isAsked } from '../model/remarks.js';
import { reportOf } from '../model/report.js';
import { tell, toClipboard } from '../view/notice.js';
import { statePicture, stripPicture } from '../view/state_picture.js';
import { tikzOf } from '../view/tikz.js';

/** @typedef {import('../model/session.js').Session} Session */

const T = texts.take;
const SHARPER = 2;
// The most moves of an animation, and the milliseconds for which each move and the last one are
// shown.
const MOST = 40;
const SHOWN = { each: 1200, last: 3000 };
const FRAME = { width: 960, height: 480 };
// What there is of a text without a lock, of which there is no picture.
const OF_ANY_TEXT = ['report', 'schedule', 'frame'];

/** @param {Session} session */
const nameOf = (session, ending) => `${session.lesson ?? 'schedule'}-${session.place}.${ending}`;

const encoded = (text) => new TextEncoder().encode(text);

// A picture with room below, so that all of an animation have one size.
async function png({ width, height, text }, size = { width, height }) {
  const image = new Image();
  image.src = `data:image/svg+xml;charset=utf-8,${encodeURIComponent(text)}`;
  await image.decode();
  const canvas = document.createElement('canvas');
  canvas.width = size.width * SHARPER;
  canvas.height = size.height * SHARPER;
  const context = canvas.getContext('2d');
  context.scale(SHARPER, SHARPER);
  context.fillStyle = getComputedStyle(document.documentElement).getPropertyValue('--card');
  context.fillRect(0, 0, size.width, size.height);
  context.drawImage(image, 0, 0);
  const blob = await new Promise((done) => { canvas.toBlob(done, 'image/png'); });
  return new Uint8Array(await blob.arrayBuffer());
}

// The parts of the picture, as the dialog says it.
const wantedNow = () => Object.fromEntries(
  ['take-title', 'take-legend', 'take-code', 'take-answered'].map((id) => inputOf(id))
    .map(({ name, checked }) => [name, checked]));

// From which move to which one, as the dialog says it.
function askedNow({ session: { run: { count } } }) {
  const [one, other] = ['take-from', 'take-to'].map((id) => (
    Math.min(count, Math.max(0, Math.trunc(Number(inputOf(id).value)) || 0))));
  return [Math.min(one, other), Math.max(one, other)];
}

function stretchNow(page) {
  const [from, to] = askedNow(page);
  return [from, Math.min(to, from + MOST - 1)];
}

// Says so if not all of these moves are drawn.
function cutNow(page) {
  const [from, to] = askedNow(page);
  const count = to - from + 1;
  return count > MOST ? T.cut(MOST, count, from + MOST - 1) : '';
}

function sayCut(page) {
  const box = byId('take-cut');
  box.textContent = cutNow(page);
  box.hidden = !box.textContent;
}

// The state for a paper: drawn for a moment where it is not seen.
function tikzPicture(page) {
  const box = document.createElement('div');
  box.className = 'unseen';
  box.innerHTML = pictureOf(page).text;
  document.body.append(box);
  const text = tikzOf(box.querySelector('svg'));
  box.remove();
  return text;
}

const stripOf = (page) => stripPicture(page, ...stretchNow(page));

async function animatedOf(page) {
  const [from, to] = stretchNow(page);
  const pictures = Array.from({ length: to - from + 1 }, (_, at) => (
    statePicture(page, wantedNow(), from + at)));
  const size = {
    width: Math.max(...pictures.map(({ width }) => width)),
    height: Math.max(...pictures.map(({ height }) => height)),
  };
  const frames = [];
  for (const picture of pictures) frames.push(await png(picture, size));
  return animated(frames, SHOWN.each, SHOWN.last);
}

const pictureOf = (page) => statePicture(page, wantedNow());
// The state as the bytes of a picture.
const pngOf = (page) => png(pictureOf(page));

function frameOf(address) {
  const source = withoutLooks(address).replaceAll('&', '&amp;').replaceAll('"', '&quot;');
  return `<iframe src="${source}&amp;embed&amp;show=memory,code" width="${FRAME.width}" `
    + `height="${FRAME.height}"></iframe>`;
}

function saveMoves(page, ending, bytes, type) {
  saveAs(nameOf(page.session, ending), bytes, type);
  if (cutNow(page)) tell(cutNow(page));
}

// The action of each export.
function exportsOf(page) {
  const { session, address } = page;
  return {
    svg: () => saveAs(nameOf(session, 'svg'), encoded(pictureOf(page).text), 'image/svg+xml'),
    png: () => pngOf(page).then((bytes) => saveAs(nameOf(session, 'png'), bytes, 'image/png'))
      .catch(() => tell(T.noPicture)),
    tikz: () => saveAs(nameOf(session, 'tex'), encoded(tikzPicture(page))),
    strip: () => saveMoves(page, 'strip.svg', encoded(stripOf(page).text), 'image/svg+xml'),
    animated: () => animatedOf(page)
      .then((bytes) => saveMoves(page, 'moves.png', bytes, 'image/png'))
      .catch(() => tell(T.noPicture)),
    report: () => saveAs(nameOf(session, 'report'), encoded(reportOf(session.run))),
    schedule: () => page.editing.save(),
    frame: () => {
      if (address.link()) toClipboard(frameOf(location.href), T.frameCopied, texts.own.notCopied);
    },
  };
}

// The dialog in which it is chosen.
export function exportDialog(page) {
  const dialog = dialogOf('take');
  const does = exportsOf(page);
  closesBeside(dialog);
  dialog.addEventListener('click', (event) => {
    const { take } = dataOf(event, '[data-take]');
    if (!take) return;
    dialog.close();
    does[take]();
  });
  dialog.addEventListener('input', () => sayCut(page));
  return () => {
    const { move, run: { count, hasLock } } = page.session;
    /** @type {NodeListOf<HTMLButtonElement>} */
    const takes = dialog.querySelectorAll('button[data-take]');
    takes.forEach((one) => { one.disabled = !hasLock && !OF_ANY_TEXT.includes(one.dataset.take); });
    inputOf('take-from').value = String(Math.max(0, move - 3));
    inputOf('take-to').value = String(Math.min(count, Math.max(3, move)));
    sayCut(page);
    byId('take-answer').hidden = !isAsked(page.session.view({ answered: page.answered }));
    dialog.showModal();
    focusIn(dialog, '[data-take]:enabled');
  };
}
