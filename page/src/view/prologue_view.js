// Why a lock, as words and moves: the counter and what each thread has, and below them a lane for
// each thread with its moves so far.

import { html } from '../lib/markup.js';
import { texts } from '../texts/texts.js';
import { doesIn, LAST, stateAfter, THREADS } from '../model/prologue.js';
import { withTerms } from './terms.js';

const T = texts.prologue;
const NUMBERS = Array.from({ length: LAST }, (_, at) => at + 1);

const wordView = (name, value, isWritten) => html`<div class="${isWritten && 'written'}"><dt>${
  name}</dt><dd class="mono">${value ?? html`<span class="soft">${T.nothing}</span>`}</dd></div>`;

function wordsView(count) {
  const { counter, own } = stateAfter(count);
  const before = stateAfter(count - 1);
  return html`<dl class="prologue-words">${wordView(T.counter, counter, counter !== before.counter)}
    ${THREADS.map((thread) => wordView(T.own(T.names[thread]), own[thread],
    own[thread] !== before.own[thread]))}</dl>`;
}

const cellView = (thread, move, count) => {
  const does = move <= count && doesIn(move, thread);
  return html`<td ${move === count && 'aria-current="step"'}>${does && T.does[does]}</td>`;
};

const laneView = (thread, count) => html`<tr><th scope="row">${T.names[thread]}</th>${
  NUMBERS.map((move) => cellView(thread, move, count))}</tr>`;

const movesView = (count) => html`<table class="prologue-moves"><tr>
  <th scope="col">${T.number}</th>${
  NUMBERS.map((move) => html`<th scope="col">${move}</th>`)}</tr>${
  THREADS.map((thread) => laneView(thread, count))}</table>`;

// After so many moves.
export const prologueView = (count) => html`<p>${T.intro}</p>${wordsView(count)}
  ${movesView(count)}<div role="status"><p class="say">${count > 0 && T.says[count - 1]}</p>
  ${count === LAST && T.end.map((one) => html`<p>${withTerms(one)}</p>`)}</div>`;
