// The test port, `lockreplay.test`: all that a test may ask of the page besides what a reader sees
// and does. page/README.md lists it.

import { differences, LANGUAGES, sources } from '../texts/language.js';
import { reportOf } from '../model/report.js';
import { Run } from '../model/run.js';

// Counts how often the machine plays a move or more.
function counted(machine) {
  const { play } = machine;
  const count = { plays: 0 };
  machine.play = (text, most, ...rest) => {
    if (most > 0) count.plays += 1;
    return play.call(machine, text, most, ...rest);
  };
  return count;
}

function stateOf({ session, sheet }, { plays }) {
  const { run, lesson, place, refused, held } = session;
  const { text, hasLock, count, last } = run;
  const threads = hasLock ? run.threads : 0;
  return { lesson, text, held, threads, moves: count, last, place, refused, sheet, plays };
}

export function testPort(page) {
  const { machine } = page.session;
  const count = counted(machine);
  return {
    open({ lesson, text, move }) {
      if (lesson) page.openLesson(lesson, move);
      else page.openOwn(text, move);
    },
    go: (move) => page.go(move),
    undo: () => page.playing.undo(),
    state: () => stateOf(page, count),
    report: (text) => reportOf(new Run(machine, text)),
    untranslated: () => differences(sources, LANGUAGES.de),
  };
}
