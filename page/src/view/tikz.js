// A picture as TikZ for a paper: each shape of the SVG with the colours that the browser computed.
// It needs pgf with its libraries svg.path and arrows.meta, and inputenc with utf8.

const HEAD = `\\documentclass{article}
\\usepackage[T1]{fontenc}
\\usepackage[utf8]{inputenc}
\\usepackage{amssymb,graphicx,tikz}
\\usetikzlibrary{svg.path,arrows.meta}
\\pagestyle{empty}
\\begin{document}
\\noindent\\resizebox{\\textwidth}{!}{%
\\begin{tikzpicture}[x=1pt,y=1pt]
`;
const FOOT = `\\end{tikzpicture}}
\\end{document}
`;
const SPECIAL = /[\\{}$&#^_~%]/g;
const ESCAPES = {
  '\\': '\\textbackslash{}', '{': '\\{', '}': '\\}', $: '\\$', '&': '\\&', '#': '\\#',
  '^': '\\^{}', _: '\\_', '~': '\\~{}', '%': '\\%',
};
// Signs that the fonts of LaTeX have as mathematics.
const SIGNS = {
  '→': '$\\rightarrow$', '←': '$\\leftarrow$', '⇢': '$\\dashrightarrow$', '≠': '$\\neq$',
  '✕': '$\\times$', '×': '$\\times$', '✓': '$\\checkmark$', '−': '$-$', '½': '$\\frac12$',
};
const ANCHORS = { start: 'base west', middle: 'base', end: 'base east' };
const BOLD = 550;

const rounded = (number) => Math.round(number * 100) / 100;

// A letter that LaTeX does not have is a question mark.
const texOf = (text) => [...text.replace(SPECIAL, (one) => ESCAPES[one])]
  .map((letter) => SIGNS[letter] ?? (/[\u0000-\u024f\u2013-\u2026]/.test(letter) ? letter : '?'))
  .join('');

// The ground of a pattern, which TikZ does not have.
const GROUNDS = { hatch: '--wait-under', ruled: '--read' };

function groundOf(paint) {
  const name = Object.keys(GROUNDS).find((one) => paint.includes(one));
  const value = getComputedStyle(document.documentElement).getPropertyValue(GROUNDS[name]).trim();
  return value.match(/[\da-f]{2}/gi).map((two) => String(Number.parseInt(two, 16)));
}

// A colour as xcolor takes it, or null for none.
function colourOf(paint) {
  const found = paint.startsWith('url') ? groundOf(paint) : paint.match(/\d+(\.\d+)?/g);
  if (paint === 'none' || !found || found[3] === '0') return null;
  const [red, green, blue] = found;
  return `{rgb,255:red,${red};green,${green};blue,${blue}}`;
}

function optionsOf(style) {
  const fill = colourOf(style.fill);
  const stroke = colourOf(style.stroke);
  const dashes = style.strokeDasharray.match(/[\d.]+/g);
  const opacity = Number(style.opacity);
  return [
    fill && `fill=${fill}`, stroke && `draw=${stroke}`,
    stroke && `line width=${rounded(parseFloat(style.strokeWidth))}pt`,
    stroke && dashes?.length === 2 && `dash pattern=on ${dashes[0]}pt off ${dashes[1]}pt`,
    style.markerEnd !== 'none' && '-{Latex[length=6pt]}', opacity < 1 && `opacity=${opacity}`,
  ].filter(Boolean).join(',');
}

function shapeOf(node) {
  const number = (name) => Number(node.getAttribute(name) ?? 0);
  if (node.tagName === 'path') return `svg {${node.getAttribute('d').replace(/\s+/g, ' ')}}`;
  if (node.tagName === 'circle') {
    return `(${number('cx')},${number('cy')}) circle[radius=${number('r')}pt]`;
  }
  const [x, y, rx] = [number('x'), number('y'), number('rx')];
  const to = `(${rounded(x + number('width'))},${rounded(y + number('height'))})`;
  return `${rx ? `[rounded corners=${rx}pt] ` : ''}(${x},${y}) rectangle ${to}`;
}

function nodeOf(node, style) {
  const size = rounded(parseFloat(style.fontSize));
  const family = style.fontFamily.includes('Mono') ? '\\ttfamily' : '\\sffamily';
  const weight = Number(style.fontWeight) > BOLD ? '\\bfseries' : '';
  const slant = style.fontStyle === 'italic' ? '\\itshape' : '';
  const text = [...node.childNodes].filter((one) => one.nodeName !== 'title')
    .map((one) => one.textContent).join('');
  // LaTeX leaves out blanks at the beginning, which code has as its indentation.
  const [indent] = node.hasAttribute('xml:space') ? text.match(/^ */) : [''];
  const colour = colourOf(style.fill) ?? 'black';
  return `\\node[anchor=${ANCHORS[style.textAnchor]},inner sep=0pt,text=${colour},font=${family}`
    + `${weight}${slant}\\fontsize{${size}}{${size}}\\selectfont] at (${
      node.getAttribute('x')},${node.getAttribute('y')}) {${'~'.repeat(indent.length)}${
      texOf(text.slice(indent.length).replace(/\s+/g, ' '))}};`;
}

// The lines of one shape or text, in the place that its groups give it.
function drawn(node, root) {
  const style = getComputedStyle(node);
  const { a, b, c, d, e, f } = root.getScreenCTM().inverse().multiply(node.getScreenCTM());
  const place = `cm={${[a, -b, -c, d].map(rounded)},(${rounded(e)}pt,${rounded(-f)}pt)}`;
  const options = node.tagName === 'text' ? '' : optionsOf(style);
  if (node.tagName !== 'text' && !options) return '';
  const what = node.tagName === 'text' ? nodeOf(node, style)
    : `\\path[${options}] ${shapeOf(node)};`;
  return `\\begin{scope}[${place},yscale=-1]\n${what}\n\\end{scope}\n`;
}

// `svg` is in the document, so that its styles hold.
export function tikzOf(svg) {
  const nodes = [...svg.querySelectorAll('path, circle, rect, text')]
    .filter((node) => !node.closest('defs') && !node.getAttribute('width')?.endsWith('%')
      && node.checkVisibility());
  return `${HEAD}${nodes.map((node) => drawn(node, svg)).join('')}${FOOT}`;
}
