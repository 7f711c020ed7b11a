// The sheets that are printed, with answers or to be filled in.

function print(sheet) {
  window.print = drawPaper;
  click('#print');
  click(`[data-sheet=${sheet}]`);
}

const boxIn = (one) => ['x', 'y', 'width', 'height'].map((name) => Number(one.getAttribute(name)));
const xOf = (one) => Number(one.getAttribute('x'));

// The marks in the places beside a label, from the left.
function marksBeside(svg, label) {
  const [note] = all('.note', svg).filter((one) => saidBy(one) === label);
  return all('.value:not(.mono)', svg)
    .filter((one) => one.getAttribute('y') === note.getAttribute('y'))
    .sort((one, other) => xOf(one) - xOf(other)).map(saidBy);
}

// Each memory on a sheet: its title, its size, its boxes and places, and what is in them.
function memories(sheet) {
  print(sheet);
  return all('#paper :is(.figure.blanks > div:not(.code), .solved > div)').map((one) => {
    const svg = one.querySelector('svg');
    return {
      title: saidBy(one.querySelector('h3')), size: svg.getAttribute('viewBox'),
      boxes: all(':is(.word, .frame)', svg).map(boxIn), places: all('.cell', svg).map(boxIn),
      values: all('.value.mono', svg).map(saidBy),
      holds: marksBeside(svg, 'Holds'), queue: marksBeside(svg, 'Queue'),
    };
  });
}

// The marks of moves in a part of a sheet, each once.
function marksOf(sheet, part) {
  print(sheet);
  const marks = all(`#paper ${part} :is(.step:not(.blank), .call-mark)`);
  return [...new Set(marks.map((one) => `${one.tagName} ${one.getAttribute('class')}`))];
}

function rowsOf(sheet) {
  print(sheet);
  return all('#paper tbody tr').map(({ cells }) => [...cells].map(saidBy));
}
