// Markup that cannot be broken by what it shows: every value is escaped unless it is markup
// itself.

export class Markup {
  /** @param {string} text */
  constructor(text) { this.text = text; }
}

const ESCAPES = { '&': '&amp;', '<': '&lt;', '>': '&gt;', '"': '&quot;', "'": '&#39;' };
const escaped = (text) => text.replace(/[&<>"']/g, (letter) => ESCAPES[letter]);

function part(value) {
  if (value instanceof Markup) return value.text;
  if (Array.isArray(value)) return value.map(part).join('');
  if (value === null || value === undefined || value === false) return '';
  return escaped(String(value));
}

// html`<b>${name}</b>`: for HTML and SVG alike.
/** @param {TemplateStringsArray} pieces */
export function html(pieces, ...values) {
  let text = pieces[0];
  values.forEach((value, i) => { text += part(value) + pieces[i + 1]; });
  return new Markup(text);
}

/** @type {WeakMap<Element, string>} */
const shownIn = new WeakMap();

/**
 * Shows markup in a node, or does nothing if it is what the node shows already.
 * @param {Element} node
 * @param {Markup} markup
 */
export function show(node, markup) {
  if (shownIn.get(node) !== markup.text) showAnew(node, markup);
}

/**
 * The same for a node whose fields a reader may have changed.
 * @param {Element} node
 * @param {Markup} markup
 */
export function showAnew(node, markup) {
  shownIn.set(node, markup.text);
  node.innerHTML = markup.text;
}

/**
 * Writing the same text again would lay the page out again.
 * @param {Element} node
 * @param {string} text
 */
export function write(node, text) {
  if (node.textContent !== text) node.textContent = text;
}
