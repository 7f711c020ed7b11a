// What is said of a text: whether it is accepted, what is wrong with it, and what could be there.

import { html } from '../lib/markup.js';
import { LOCK_NAMES } from '../machine/codes.js';
import { ownWords } from '../machine/locks_code.js';
import { texts } from '../texts/texts.js';
import { faultAdvice } from '../model/fault_advice.js';
import { lastLine } from '../model/report.js';
import { refusalFacts } from '../locks/refusal_facts.js';
import { refusedLine } from './refused_view.js';

/** @typedef {import('../model/session.js').Session} Session */

const T = texts.own;

/** @param {Session} session */
export function adviceOf(session) {
  const { run } = session;
  if (run.fault) return faultAdvice(run, run.hasLock ? ownWords(session.lines[run.kind]) : []);
  if (!run.refusal) return null;
  const facts = refusalFacts(session);
  return { line: facts.line, say: facts.said, refused: facts };
}

// The verdict on the text: the report's last line, and in words what is wrong and what could be
// there.
/** @param {Session} session */
export function verdictView(session, advice) {
  const { run } = session;
  if (!run.known) return html`<p class="verdict bad"><b>${texts.notStored}</b></p>`;
  const report = html`<p class="report-line"><code>${lastLine(run)}</code></p>`;
  const accepted = run.count ? T.ends(run.count) : T.noMoves;
  const stale = staleView(session);
  if (!advice) return html`${acceptedView(run, accepted)}${report}${stale}`;
  return html`<div class="verdict bad">
    ${advice.line > 0 && html`<strong>${T.line(advice.line)}</strong>`}
    ${advice.refused && refusedLine(advice.refused)}
    ${advice.found !== undefined && html`<code class="found-line">${advice.found || ' '}</code>`}
    ${advice.say.map((line) => html`<p>${line}</p>`)}
    ${advice.mended && html`<button type="button"
      data-mend="${advice.mended}">${T.fix(advice.mended)}</button>`}
    ${advice.returns && html`<button type="button"
      data-returns="true">${T.removeReturns}</button>`}
    ${run.count > 0 && html`<p class="soft">${T.stepThrough(run.count)}</p>`}</div>
    ${report}${stale}`;
}

// A run that its recorder complains of gets no tick, even if each move is the lock's.
function acceptedView({ trace }, accepted) {
  if (!trace?.ending) {
    return html`<p class="verdict good">${accepted} ${trace && texts.traces.agrees}</p>`;
  }
  return html`<div class="verdict"><p>${accepted} ${texts.traces.agrees}</p>
    <p>${texts.traces.ending(trace.ending)}</p></div>`;
}

// The remarks that are left out, since they belong to other moves.
function staleView({ stale }) {
  if (!stale.length) return null;
  return html`<p class="stale">${T.stale(stale.length)}
    <button type="button" data-keep="true">${T.keep}</button></p>`;
}

// If there is no lock to show: what a schedule looks like.
export const nothingView = (verdict, { threads }) => html`${verdict}<p>${T.begins}</p>
  <pre class="mono">${T.template}</pre>
  <p class="hint">${T.forms(LOCK_NAMES.join(', '), threads)}</p>`;
