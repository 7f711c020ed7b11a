// The tip of each tool that has a key.

const tools = () => Object.fromEntries(all('.tools button:has(kbd)')
  .map((one) => [text(`#${one.id} kbd`), one.title]));

// The meanings of signs that are drawn into the words beside them.
const wideSigns = () => all('#sign-list svg')
  .filter((one) => one.getBBox().x + one.getBBox().width > one.clientWidth)
  .map((one) => one.nextSibling.textContent);

const columnWidth = () => rect('#numbers .here-column').width;

// The ends of a part of the slider, without the ends of its pen.
function endsOf(selector) {
  const { x, width } = pick(`#slider-picture ${selector}`).getBBox();
  return [x, x + width].map(Math.round);
}

// The ends of the slider's track, with the middle of its knob between them.
function track() {
  const [[left, right], knob] = [endsOf('.track'), endsOf('.knob')];
  return [left, (knob[0] + knob[1]) / 2, right].map(Math.round);
}

const passed = () => endsOf('.track.done');
