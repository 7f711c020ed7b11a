// The scene of a refused move, on the screen and on paper.

// The text on paper, and whether its picture has the refused move.
function onPaper() {
  drawPaper();
  return [text('#paper'), count('#paper .strip [data-refused]') > 0];
}

// How far the column of the shown place is from the cross of the refused move.
const farFromColumn = () => Math.round(middleX(pick('#lanes [data-refused] .target'))
  - middleX(pick('#numbers .here-column')));

// How far the last sign of a failure on the slider is from its knob.
function lastFailure() {
  const ticks = all('#slider-picture .tick.fails');
  return ticks.length && Math.round(middleX(ticks.at(-1)) - middleX(pick('#slider-picture .knob')));
}

const focusedChoice = () => ({ ...document.activeElement.dataset });

// The marked words of memory, each with its mark.
const markedWords = () => all('#memory-picture .word:is(.read, .changed)').map((box) => (
  `${box.closest('g').previousElementSibling.textContent} ${box.classList[1]}`));
