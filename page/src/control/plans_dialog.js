// The dialog in which a lesson plan is begun.

import { byId, closesBeside, dataOf, dialogOf, focusIn } from '../lib/elements.js';
import { show } from '../lib/markup.js';
import { plansView } from '../view/lesson_plans.js';

// `begin(lock, step)` begins a plan, `print(lesson)` asks for its exercise sheet.
export function plansDialog(plans, { begin, print }) {
  const dialog = dialogOf('plans');
  closesBeside(dialog);
  dialog.addEventListener('click', (event) => {
    const { plan, step, sheet } = dataOf(event, '[data-plan], [data-sheet]');
    if (plan || sheet) dialog.close();
    if (plan) begin(plan, Number(step));
    if (sheet) print(sheet);
  });
  return () => {
    show(byId('plan-list'), plansView(plans));
    dialog.showModal();
    focusIn(dialog, '[data-plan]');
  };
}
