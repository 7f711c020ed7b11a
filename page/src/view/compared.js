// The run that is compared, above the one that is shown and in its columns, and the lines of both.

import { byId } from '../lib/elements.js';
import { html, show } from '../lib/markup.js';
import { texts } from '../texts/texts.js';
import { isCovered } from '../model/remarks.js';
import { lastLine, reportLine } from '../model/report.js';
import { lanesPicture } from './lanes.js';
import { layOutBeside } from './layout.js';

/** @typedef {import('../model/session.js').View} View */

const T = texts.compare;

// As tall as the layout of the shown run.
export function drawCompared({ comparing, session, answered }, layout, room) {
  const { columns, first, title } = comparing.compared();
  const { view } = comparing.comparedView();
  // None of its lanes can be chosen.
  const beside = layOutBeside({ ...layout, chosen: undefined }, view, columns, room);
  const differs = first && session.place >= first;
  show(byId('other'), html`<h2>${T.title(title)} ${first ? html`<button type="button"
      data-first="${first}">${T.first(first)}</button>` : html`<span>${T.same}</span>`}</h2>
    <div class="other-lanes">${lanesPicture(view, beside, 0, beside.lanes.length - 1)}</div>
    <p class="compared ${differs && 'differs'}"><code>${T.there} ${lineAt(view)}</code>
    <code>${T.here} ${lineAt(session.view({ answered }))}</code></p>`);
}

/** @param {View} view */
function lineAt(view) {
  const { run, move, refused } = view;
  if (isCovered(view, 'facts')) return '?';
  if (refused) return lastLine(run);
  return move ? reportLine(run, move) : texts.before;
}
