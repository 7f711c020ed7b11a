// On paper: what is wrong with a text, or which of its moves is refused, and why.

import { lettersOf } from '../lib/bytes.js';
import { html } from '../lib/markup.js';
import { texts } from '../texts/texts.js';
import { lastLine } from '../model/report.js';
import { refusalFacts } from '../locks/refusal_facts.js';
import { refusedFacts, refusedLine } from './refused_view.js';
import { adviceOf, verdictView } from './verdict_view.js';

/** @typedef {import('../model/session.js').Session} Session */

// The lines around one that is wrong.
const AROUND = 6;

function textAround(text, line) {
  const { letters } = lettersOf(text);
  const first = Math.max(0, line - 1 - AROUND);
  const lines = letters.split('\n').slice(first, line + AROUND);
  const row = (one, i) => {
    const number = first + i + 1;
    const wrong = number === line;
    return html`<tr class="${wrong && 'wrong'}"><td>${wrong ? '✕' : ''} ${number}</td>
      <td><code>${one}</code></td></tr>`;
  };
  return html`<table class="text-around"><tbody>${lines.map(row)}</tbody></table>`;
}

/** @param {Session} session */
function refusedOnPaper(session) {
  const facts = refusalFacts(session);
  return html`<section class="wrong-part" data-refused><h3>${texts.own.line(facts.line)}:
      ${refusedLine(facts)} ${texts.refused.refused}</h3>
    ${facts.said.map((line) => html`<p>${line}</p>`)}
    <dl>${refusedFacts(facts)}</dl><p><code>${lastLine(session.run)}</code></p></section>`;
}

/** @param {Session} session */
export function faultsOnPaper(session) {
  const { run } = session;
  if (run.refusal) return refusedOnPaper(session);
  if (!run.fault) return null;
  const advice = adviceOf(session);
  return html`<section class="wrong-part" data-fault>${verdictView(session, advice)}
    ${advice.line > 0 && textAround(run.text, advice.line)}</section>`;
}
