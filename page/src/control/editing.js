// The schedule as a text: typed, mended, opened from a file, saved and copied.

import { bytesOf, lettersOf } from '../lib/bytes.js';
import { bytesOfFile, saveAs } from '../lib/files.js';
import { texts } from '../texts/texts.js';
import { isKept } from '../model/kept_schedules.js';
import { Editor } from '../view/editor.js';
import { tell, toClipboard } from '../view/notice.js';

// A trace of as many moves as a schedule may have is shorter, but for its comments. A part of a
// longer one would look like the whole.
const MOST_TRACE_BYTES = 4194304;

export class Editing {
  constructor(page) {
    this.page = page;
    this.editor = new Editor((text, line) => this.edited(text, line), (line) => this.caretAt(line));
  }

  // The first of several files is shown. As many others as have room are kept, and listed with the
  // lessons.
  async openFiles(files) {
    const [first, ...others] = files;
    const { address, session } = this.page;
    const opened = [];
    if ([...files].some(({ size }) => size > MOST_TRACE_BYTES)) {
      tell(texts.tooLarge(MOST_TRACE_BYTES));
      return;
    }
    try {
      for (const file of [...others.reverse(), first]) {
        this.openText(await bytesOfFile(file));
        opened.push(session.held);
      }
      address.keep();
      const kept = opened.slice(0, -1).filter(isKept).length;
      if (others.length) tell(texts.own.several(first.name, others.length, kept));
    } catch {
      tell(texts.couldNotRead);
    }
  }

  // A trace is shown where it is refused.
  openText(text, run = this.page.session.runOf(text)) {
    const refusal = run.trace && run.refusal;
    this.page.openOwn(text, refusal ? run.last : 0, run);
    if (run.trace) tell(refusal ? texts.traces.differs(refusal.line) : texts.traces.opened);
  }

  isTrace(letters) {
    const run = this.page.session.runOf(new TextEncoder().encode(letters));
    return Boolean(run.trace) && run.hasLock;
  }

  // A text that is no schedule does not take the place of what is shown.
  paste(letters) {
    const text = new TextEncoder().encode(letters);
    const { page } = this;
    const run = page.session.runOf(text);
    if (run.hasLock || (letters && page.mode === 'own')) this.openText(text, run);
    else tell(texts.noSchedule);
  }

  edited(text, line) {
    const { page } = this;
    page.stepping.pause();
    page.playing.remember('edit');
    page.derive(text, (session) => session.moveAtLine(line));
  }

  caretAt(line) { this.page.go(this.page.session.moveAtLine(line)); }

  mend(line) {
    const at = this.page.session.run.fault.line;
    const { letters, plain } = lettersOf(this.page.session.run.text);
    const lines = letters.split('\n');
    lines[at - 1] = line;
    this.edited(bytesOf(lines.join('\n'), plain), at);
  }

  removeReturns() {
    const { letters, plain } = lettersOf(this.page.session.run.text);
    this.edited(bytesOf(letters.replace(/\r+(?=\n|$)/g, ''), plain), 1);
  }

  save() {
    const { lesson, held } = this.page.session;
    saveAs(lesson ? `${lesson}.schedule` : texts.own.fileName, held);
  }

  copy() {
    const { letters } = lettersOf(this.page.session.held);
    toClipboard(letters, texts.own.copied, texts.own.notCopied);
  }

  keepRemarks() {
    this.page.session.keepRemarks();
    this.page.show();
  }
}
