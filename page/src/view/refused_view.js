// A refused move as a scene: the line with the word that is refused, why, and what decided it.

import { html } from '../lib/markup.js';
import { texts } from '../texts/texts.js';
import { lastLine } from '../model/report.js';
import { sourceView } from './recorded_view.js';

/** @typedef {import('../model/session.js').Session} Session */

const T = texts.refused;
// What is wrong of a line: its thread's number, what it was to do, or what a trace has otherwise.
const STEP = /(?<=^\d+ )[a-z]+/;
const WRONG = {
  NoSuchThread: /^\d+/, OtherWord: /(?<=^\d+ [a-z]+ )[a-z_]+(?: of \d+)?/,
  FoundOther: /(?<= found )\d+/, LeftOther: /(?<= left )\d+/, WroteOther: /[a-z]+$/,
  CountNotAbove: /(?<= section )\d+/, OtherOutcome: /[a-z]+$/,
};

// The line's two words, or all of it in a trace, with what is refused struck through.
export function refusedLine({ name, thread, word, recorded, source }) {
  const line = recorded || `${thread} ${word}`;
  const { 0: bad, index } = line.match(WRONG[name] ?? STEP);
  return html`<code class="refused-text">${line.slice(0, index)}<mark class="bad">${bad}</mark>${
    line.slice(index + bad.length)}</code> ${sourceView(source)}`;
}

function decidedView({ decided, who }) {
  if (decided.words) {
    const words = decided.words.map((word, i) => html`${i > 0 && ' '}${
      i === decided.at ? html`<mark>${word}</mark>` : word}`);
    return html`${texts.own.line(decided.line)}: <code>${words}</code>`;
  }
  if (!decided.move) return T.noMove(who);
  const found = decided.found && html`<span>${T.found}
    <code><mark>${decided.found}</mark></code></span>`;
  return html`<span>${T.move(decided.move)} <code>${decided.text}</code></span>${found}`;
}

export function refusedFacts(facts) {
  return facts.decided && html`<dt>${T.decided}</dt><dd data-decided>${decidedView(facts)}</dd>`;
}

// The scene beside memory and code; `rows` has who holds and who is in the queue.
/** @param {Session} session */
export function refusedView(session, facts, rows) {
  return html`<div class="head"><b>✕</b><span>${texts.own.line(facts.line)}:
      ${refusedLine(facts)}</span><span class="outcome fails"
      data-outcome="refused">${T.refused}</span></div>
    ${facts.said.map((line) => html`<p class="say refusal">${line}</p>`)}
    <dl class="facts">${refusedFacts(facts)}${rows}</dl>
    <p class="report-line"><code>${lastLine(session.run)}</code></p>`;
}
