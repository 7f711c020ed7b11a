// Two compared runs: where their moves are, and what is visible of them.

const PICTURES = ['#other svg', '#time svg', '#there-picture svg', '#memory-picture svg'];
const columnsIn = (box) => all(`#${box} .move .target`).map(middleX).map(Math.round);

function compared() {
  const pictures = PICTURES.map(pick);
  const { scrollHeight } = document.documentElement;
  return {
    here: columnsIn('lanes'), there: columnsIn('other'), first: text('#other h2'),
    words: [count('#there-picture .word'), count('#memory-picture .word')],
    whole: pictures.every((one) => one && rect(one).width > 200 && inside(rect(one), screenBox())),
    now: byId('now').checkVisibility(), scrolled: scrollHeight > innerHeight + 1 || scrollY > 0,
    different: [...new Set(all('.different').map((one) => Math.round(rect(one).left)))],
  };
}

// The distance from the ink of each sign of a difference down to its dashed line, in the picture.
const belowSigns = () => all('.different-sign').map((sign) => {
  const pen = document.createElement('canvas').getContext('2d');
  pen.font = getComputedStyle(sign).font;
  const ink = sign.y.baseVal[0].value + pen.measureText(sign.textContent).actualBoundingBoxDescent;
  return sign.parentNode.querySelector('.different').getBBox().y - ink;
});

// The words of both runs on which a sign of a difference lies. Boxes are taller than their ink.
const wordsUnderSigns = () => all('.different-sign').flatMap((sign) => {
  const [box, run] = [rect(sign), sign.closest('svg')];
  return [...run.querySelectorAll('text:not(.different-sign)')].filter((word) => {
    const other = rect(word);
    return other.left < box.right - 5 && box.left < other.right - 5 && other.top < box.bottom - 5
      && box.top < other.bottom - 5;
  }).map((word) => word.textContent);
});

const offered = () => (byId('choose-other').open ? texts('#other-list button') : null);
