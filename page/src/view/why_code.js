// The code of a step of a changed lock, which has the name of its phase.

import { html } from '../lib/markup.js';
import { PHASES } from '../machine/codes.js';

// The code of the step that a move takes; of a call none.
export function codeOfMove(lines, move) {
  const phase = PHASES.indexOf(move.match(/\w+/g)[1]);
  const own = lines.filter((line) => line.phase === phase).map(({ code }) => code.trim());
  return own.length > 0 && html` <code translate="no">${own.join('; ')}</code>`;
}
