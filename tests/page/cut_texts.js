// Texts that are cut, and how long they and one letter more of them are in their room.

// The whole text, and its room in the units of the picture, which is what the edges leave.
const ROOMS = {
  '#memory-picture .value': (one) => [one.parentNode.querySelector('title').textContent,
    one.previousElementSibling.width.baseVal.value - 12],
  '#memory-picture .record .name': (one) => {
    const record = one.parentNode;
    const [frame, standing] = ['.frame', '.standing'].map((part) => record.querySelector(part));
    // Its room is that of bold letters.
    standing.style.fontWeight = 600;
    return [record.querySelector('title').textContent,
      frame.width.baseVal.value - 14 - 6 - standing.getComputedTextLength() - 13];
  },
  '#lanes .lane-name': (one) => [one.querySelector('title').textContent,
    one.parentNode.querySelector('.lane-line').getPointAtLength(0).x + 4 - 20 - 10],
};

// Whether a text that is cut fits its room, and whether one letter more would fit it.
function fitsOf(one, roomOf) {
  const [whole, room] = roomOf(one);
  const kept = one.lastChild.data;
  const fits = () => one.getComputedTextLength() <= room + 0.5;
  const [isIn, count] = [fits(), [...kept].length];
  one.lastChild.data = `${[...whole].slice(0, count).join('')}…`;
  const isMore = fits();
  one.lastChild.data = kept;
  return [kept.endsWith('…') && whole.startsWith(kept.slice(0, -1)), isIn, isMore];
}

// For each text of a kind that is cut: whether it is the beginning of the whole one, fits, and
// would fit with one letter more.
const cutOf = (kind) => all(kind)
  .filter((one) => one.lastChild.data.endsWith('…')).map((one) => fitsOf(one, ROOMS[kind]));
