// The view that the reader wants: which parts, how large, and whether with later moves. A link
// carries it beside the schedule, so that the page opens as it was shown.

export const PARTS = ['time', 'memory', 'code', 'now'];
const IN_A_HALL = ['memory', 'code'];
const IN_A_FRAME = ['memory', 'code'];
const MOST_IN_A_HALL = 2;
export const THEMES = ['dark', 'light'];
const SHEETS = ['worked', 'exercise'];
const NAMES = ['hall', 'embed', 'show', 'future', 'theme', 'sheet'];

export const looks = {
  hall: false, embed: false, parts: null, future: false, theme: null, sheet: null,
};

// One of these, or null.
export const oneOf = (all, asked) => (all.includes(asked) ? asked : null);

// Parts in the order of the page; null if none is named.
export function partsOf(text) {
  const asked = text?.split(',') ?? [];
  const known = PARTS.filter((part) => asked.includes(part));
  return known.length ? known : null;
}

export function readLooks(fragment) {
  const parts = new URLSearchParams(fragment.replace(/^#/, ''));
  Object.assign(looks, {
    hall: parts.has('hall'), embed: parts.has('embed'), parts: partsOf(parts.get('show')),
    future: parts.has('future'), theme: oneOf(THEMES, parts.get('theme')),
    sheet: oneOf(SHEETS, parts.get('sheet')),
  });
  if (looks.hall) looks.parts = looks.parts?.slice(0, MOST_IN_A_HALL) ?? null;
}

// The end of a link; empty if nothing is asked for.
export function looksText() {
  const { hall, embed, parts, future, theme } = looks;
  const flags = Object.entries({ hall, embed, future }).filter(([, is]) => is);
  return [...flags.map(([name]) => `&${name}`), parts && `&show=${parts.join(',')}`,
    theme && `&theme=${theme}`].filter(Boolean).join('');
}

// An address without what is asked for here.
export const withoutLooks = (address) => NAMES.reduce(
  (left, name) => left.replace(new RegExp(`&${name}(=[^&]*)?(?=&|$)`), ''), address);

// Whether a fragment says how it is shown, and nothing else.
export const isLooksAlone = (names) => names.every((name) => NAMES.includes(name)
  || name === 'lang');

export function partsShown() {
  if (looks.parts) return looks.parts;
  if (looks.hall) return IN_A_HALL;
  return looks.embed ? IN_A_FRAME : PARTS;
}

// In hall mode the part that was chosen first goes when a third is chosen.
export function togglePart(part) {
  const shown = partsShown();
  const others = shown.filter((one) => one !== part);
  const next = shown.includes(part) ? others : [...others, part];
  if (!next.length) return;
  const kept = looks.hall ? next.slice(-MOST_IN_A_HALL) : next;
  looks.parts = PARTS.every((one) => kept.includes(one)) ? null : kept;
}

export function toggleHall() {
  looks.hall = !looks.hall;
  looks.parts = null;
}
