// A lecture after the plans: its steps in hall mode, each at its place, and a clock with the
// minutes that are left, which the presenter's window has. After a plan comes the next one, or the
// end.

import { looks, partsOf } from '../model/looks.js';
import { keepLecture, keptLecture } from '../model/kept_lecture.js';
import { clockText, minutesOf } from '../view/lesson_plans.js';
import { lectureEndDialog } from './lecture_end_dialog.js';
import { plansDialog } from './plans_dialog.js';

const SECOND = 1000;
const MINUTE = 60;

export class Lecture {
  constructor(page, plans) {
    this.page = page;
    this.plans = plans;
    this.plan = null;
    this.at = 0;
    // When the clock comes to 0, and what draws it.
    this.ends = 0;
    this.ticking = 0;
    const print = (lesson) => { page.openLesson(lesson); page.showSheets('exercise'); };
    this.choose = plansDialog(plans, { begin: (lock, step) => this.begin(lock, step), print });
    this.ending = lectureEndDialog({
      next: () => this.goOn(), sheet: () => print(this.plan.homework.lesson),
      end: () => page.hall.leave(), back: () => this.page.draw(),
    });
  }

  get isOn() { return this.plan !== null; }
  get step() { return this.plan?.steps[this.at]; }
  get following() { return this.plan?.steps[this.at + 1]; }
  get number() { return this.plans.indexOf(this.plan); }
  get nextPlan() { return this.plans[this.number + 1]; }

  // The clock begins with the minute of the step.
  begin(lock, at) {
    const plan = this.plans.find((one) => one.lock === lock);
    const left = minutesOf(plan) - plan.steps[at].from;
    this.run(plan, at, Date.now() + left * MINUTE * SECOND);
  }

  // With a clock that ends then.
  run(plan, at, ends) {
    Object.assign(this, { plan, ends });
    clearInterval(this.ticking);
    this.ticking = setInterval(() => this.page.presenter.draw(), SECOND);
    this.go(at);
  }

  // The next plan, for whose minutes the clock goes on.
  goOn() {
    const { nextPlan: plan, ends } = this;
    this.run(plan, 0, ends + minutesOf(plan) * MINUTE * SECOND);
  }

  end() {
    clearInterval(this.ticking);
    this.plan = null;
    keepLecture(null);
    this.page.draw();
  }

  // After a reload, with the place that the address has.
  resume() {
    const kept = looks.hall ? keptLecture() : null;
    const plan = this.plans.find(({ lock }) => lock === kept?.lock);
    if (!plan?.steps[kept.at]) return;
    const { move, lesson } = this.page.session;
    this.run(plan, kept.at, kept.ends);
    if (lesson === this.step.lesson) this.page.go(move);
  }

  // The plans, or the next step of the one that is given.
  next() {
    if (!this.isOn) this.choose();
    else if (this.following) this.go(this.at + 1);
    else this.ending.show(this);
  }

  back() { if (this.isOn && this.at) this.go(this.at - 1); }

  // On by one press: the answer, the next move up to the next step of the same lesson, the next
  // step, and after the last one what there is then.
  forward() {
    const { page, following, isHere } = this;
    const { move } = page.session;
    if (this.ending.isOpen) this.ending.goOn();
    else if (page.isAsked) page.stepping.toggleAnswer();
    else if (isHere && move < this.step.move) this.goTo(this.at, move + 1);
    else if (this.isOnTheWay(following, move + 1)) this.goTo(this.at, move + 1);
    else this.next();
  }

  // The reverse. Where a press comes back to a question its answer is shown, as it was.
  backward() {
    const { page, step, at, isHere } = this;
    const { move } = page.session;
    if (this.ending.isOpen) this.ending.goBack();
    else if (page.answered) page.stepping.toggleAnswer();
    else if (isHere && move !== step.move && move > 0) this.comeBackTo(at, move - 1);
    else if (at) this.comeBackTo(at - 1, this.lastMoveOf(at - 1));
    else if (this.number) this.backToPlan();
    else if (isHere && move > 0) page.go(move - 1);
    else this.choose();
  }

  // Whether the lesson of this step is shown, and nothing that the step plays.
  get isHere() { return this.page.session.lesson === this.step.lesson; }

  // Whether a move is before the place of a step of the lesson that is shown.
  isOnTheWay(step, move) {
    return this.isHere && step?.lesson === this.step.lesson && move < step.move;
  }

  // The move that comes last in a step: the one before the next step of the same lesson.
  lastMoveOf(at) {
    const [step, following] = this.plan.steps.slice(at, at + 2);
    const goesOn = !step.play && following?.lesson === step.lesson && following.move > step.move;
    return goesOn ? following.move - 1 : step.move;
  }

  goTo(at, move) {
    if (at !== this.at || move === this.step.move) this.go(at);
    if (move !== this.step.move) this.page.go(move);
  }

  comeBackTo(at, move) {
    this.goTo(at, move);
    if (this.page.isAsked) this.page.stepping.toggleAnswer();
  }

  // The end of the plan before this one.
  backToPlan() {
    const { plan, plans, number, ends } = this;
    const before = plans[number - 1];
    this.run(before, before.steps.length - 1, ends - minutesOf(plan) * MINUTE * SECOND);
    this.comeBackTo(this.at, this.lastMoveOf(this.at));
    this.ending.show(this);
  }

  go(at) {
    this.at = at;
    this.isPlayed = false;
    const { page, step: { lesson, move, show: parts } } = this;
    keepLecture({ lock: this.plan.lock, at, ends: this.ends });
    Object.assign(looks, { hall: true, parts: partsOf(parts) });
    page.modes.set('lessons');
    page.comparing.end();
    page.openLesson(lesson, move);
    this.ask();
  }

  // The step's own question takes the place of its lesson's.
  ask() {
    const { page: { session: { move, remarks } }, step } = this;
    if (!step.play) return;
    remarks.ask.set(move, step.ask);
    remarks.answer.set(move, step.answer);
    remarks.hide.set(move, []);
    this.page.draw();
  }

  // What a step plays or compares says the answer, so it comes and goes with that. Elsewhere than
  // at the step's place an answer is its move's own.
  answer(isShown) {
    const { play, compare } = this.step ?? {};
    if (!(play || compare) || !this.isAtPlace) return;
    if (!isShown) {
      this.go(this.at);
      return;
    }
    this.isPlayed = true;
    this.page.goOnWith(play, compare);
    this.ask();
    this.page.answered = true;
  }

  get isAtPlace() {
    const { step: { lesson, move, play }, page: { session } } = this;
    return this.isPlayed && play ? session.move === move + play.split(',').length
      : session.move === move && session.lesson === lesson;
  }

  get left() { return Math.round((this.ends - Date.now()) / SECOND); }
  get clock() { return clockText(this.left); }
}
