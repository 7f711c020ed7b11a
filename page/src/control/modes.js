// The modes: which panel is beside the schedule, and whether moves are asked for first.

import { byId, focusIn, inputOf } from '../lib/elements.js';
import { saveAs } from '../lib/files.js';
import { texts } from '../texts/texts.js';
import { tell } from '../view/notice.js';
import { givenOf } from '../view/quiz_view.js';

export class Modes {
  constructor(page) {
    this.page = page;
    this.mode = 'lessons';
  }

  toggle(mode) {
    if (this.page.session.machine.stored) tell(texts.play.noMachine);
    else this.set(this.mode === mode ? 'lessons' : mode);
  }

  set(mode) {
    this.mode = mode;
    this.page.fit();
  }

  // A lesson with a fault is shown as a text, and any other has no use for the text's panel.
  fitLesson() {
    const { fault } = this.page.session.run;
    if (this.mode === 'own' && !fault) this.set('lessons');
    else if (fault) this.set('own');
  }

  toggleQuiz() {
    const { quiz, session, stepping } = this.page;
    quiz.toggle(session);
    stepping.pause();
    this.page.go(session.place);
    if (quiz.asks(session)) this.askFocus();
  }

  askFocus() { focusIn(document, '#quiz-form input'); }

  // Whose answers these are, which is asked for once.
  nameQuiz() {
    this.page.quiz.name = inputOf('quiz-name').value.trim();
    this.page.address.writeSoon();
  }

  saveQuiz() {
    const { quiz } = this.page;
    this.nameQuiz();
    saveAs(texts.quiz.fileName, new TextEncoder().encode(quiz.report(location.href)));
  }

  checkQuiz(form) {
    const { quiz, session } = this.page;
    const given = givenOf(form);
    if (!given) return;
    quiz.check(session, given);
    session.go(session.place + 1);
    this.page.show();
    byId('forward').focus();
  }
}
