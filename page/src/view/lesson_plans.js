// The lesson plans: what their steps show, and a list of them.

import { html } from '../lib/markup.js';
import { translatedPlan } from '../texts/language.js';
import { texts } from '../texts/texts.js';
import { remarksOf } from '../model/remarks.js';
import { lockTitle } from '../locks/locks.js';

const T = texts.plans;

export const minutesOf = ({ steps }) => steps[steps.length - 1].to;

const MINUTE = 60;

// Minutes and seconds; after the end with a minus.
export function clockText(seconds) {
  const all = Math.abs(seconds);
  const rest = String(all % MINUTE).padStart(2, '0');
  return `${seconds < 0 ? '−' : ''}${Math.floor(all / MINUTE)}:${rest}`;
}

// Each step with the minute in which it begins, its lesson's title, and what it asks: that of its
// lesson at its move, if it has no question of its own.
function stepsOf(plan, lessons) {
  return plan.steps.map((step, at) => {
    const { title, text } = lessons.find(({ name }) => name === step.lesson);
    const { ask, answer } = remarksOf(text);
    return {
      ask: ask.get(step.move), answer: answer.get(step.move), title, ...step,
      from: at ? plan.steps[at - 1].to : 0,
    };
  });
}

export const plansWith = (plans, lessons) => plans.map(translatedPlan)
  .map((plan) => ({ ...plan, steps: stepsOf(plan, lessons) }));

const stepView = (plan, { from, to, title, move, say, ask }, at) => html`<li><button type="button"
  data-plan="${plan.lock}" data-step="${at}"><span class="minutes">${T.minutes(from, to)}</span>
  <b>${T.place(title, move)}</b> <span>${say} ${ask}</span></button></li>`;

const planView = (plan) => html`<section><h3>${lockTitle(plan.lock)}</h3><p>${plan.aim}</p>
  <ol>${plan.steps.map((step, at) => stepView(plan, step, at))}</ol>
  <p>${T.homework} ${plan.homework.ask}
  <button type="button" data-sheet="${plan.homework.lesson}">${T.sheet}</button></p></section>`;

export const plansView = (plans) => html`${plans.map(planView)}`;
