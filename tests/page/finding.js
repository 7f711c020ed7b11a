// The dialog that finds a moment, and the list of what can happen next.

// Fills in fields as a reader does, and returns the lines of the sketch.
function fill(fields) {
  const { elements } = byId('find-form');
  for (const [name, text] of fields) {
    elements[name].value = text;
    elements[name].dispatchEvent(new Event('change', { bubbles: true }));
  }
  return elements.sketch.value;
}

const kinds = () => [...byId('find-form').elements.kind.options].slice(1).map((one) => one.label);

// Each kind that can come next, and after how many moves.
const next = () => all('#next-kinds-list li').map((row) => [
  row.textContent.replace(row.firstChild.textContent, '').trim(), row.firstChild.textContent]);
const nextOf = (least) => next().length >= least && next();

// What is said while the page searches.
function saidAtOnce() {
  click('#find-search');
  return text('#find-answer');
}

const answerEnds = (end) => text('#find-answer').endsWith(end);
const answerBegins = (begun) => text('#find-answer').startsWith(begun);
