// The text of the schedule, to be edited in place. The bytes of a file stay as they are until
// they are edited; a carriage return, which a text field would swallow, is shown as a sign of its
// own.

import { bytesOf, lettersOf, sameBytes } from '../lib/bytes.js';
import { byId, elementOf } from '../lib/elements.js';
import { html, show } from '../lib/markup.js';
import { texts } from '../texts/texts.js';

const MOST_EDITED = 400000;
const LINE_HEIGHT = 22;
const RETURN_SIGN = '\u240d';
const WAIT = 120;

// How many lines a text has, the last one perhaps empty.
function linesOf(letters) {
  let lines = 1;
  for (let at = letters.indexOf('\n'); at >= 0; at = letters.indexOf('\n', at + 1)) lines += 1;
  return lines;
}

export class Editor {
  // `changed(bytes, line)` is called after an edit, `moved(line)` when the caret goes to another
  // line.
  constructor(changed, moved) {
    this.area = elementOf('text', HTMLTextAreaElement);
    this.gutter = byId('gutter');
    this.changed = changed;
    this.moved = moved;
    this.text = null;
    this.marks = { here: 0, fault: 0 };
    this.area.addEventListener('input', () => this.edited());
    this.area.addEventListener('scroll', () => this.drawGutter());
    this.area.addEventListener('click', () => this.caretMoved());
    this.area.addEventListener('keyup', () => this.caretMoved());
  }

  // Shows a text that did not come from this field.
  fill(text) {
    const same = this.text !== null && sameBytes(this.text, text);
    this.text = text;
    if (same) return;
    // An edit of the text before this one is none of this one.
    clearTimeout(this.timer);
    const large = text.length > MOST_EDITED;
    const { letters, plain } = large ? { letters: '', plain: false } : lettersOf(text);
    this.plain = plain;
    this.returns = letters.includes('\r');
    this.area.value = this.returns ? letters.replaceAll('\r', RETURN_SIGN) : letters;
    this.area.disabled = large;
    this.area.placeholder = large ? texts.own.large(text.length) : '';
    // A long line of text is scrolled to; what is said in its place is seen whole.
    this.area.wrap = large ? 'soft' : 'off';
    this.caretAt = 0;
  }

  edited() {
    clearTimeout(this.timer);
    this.timer = setTimeout(() => this.handOn(), WAIT);
    this.drawGutter();
  }

  handOn() {
    const letters = this.returns ? this.area.value.replaceAll(RETURN_SIGN, '\r') : this.area.value;
    this.text = bytesOf(letters, this.plain);
    this.caretAt = this.caretLine();
    this.changed(this.text, this.caretAt);
  }

  caretLine() {
    return linesOf(this.area.value.slice(0, this.area.selectionStart));
  }

  caretMoved() {
    const line = this.caretLine();
    if (line === this.caretAt) return;
    this.caretAt = line;
    this.moved(line);
  }

  // Marks lines: `here` for the current move, `fault` for what is wrong.
  mark(marks) {
    this.marks = marks;
    if (document.activeElement !== this.area) this.reveal(marks.here);
    this.drawGutter();
  }

  reveal(line) {
    const top = (line - 1) * LINE_HEIGHT;
    const { scrollTop, clientHeight } = this.area;
    if (top < scrollTop + LINE_HEIGHT || top > scrollTop + clientHeight - 2 * LINE_HEIGHT) {
      this.area.scrollTop = Math.max(0, top - clientHeight / 2);
    }
  }

  // The numbers of the lines in view, with their marks.
  drawGutter() {
    const lines = linesOf(this.area.value);
    const first = Math.floor(this.area.scrollTop / LINE_HEIGHT);
    const last = Math.min(lines, first + Math.ceil(this.area.clientHeight / LINE_HEIGHT) + 1);
    const shift = first * LINE_HEIGHT - this.area.scrollTop;
    const rows = [];
    for (let line = first + 1; line <= last; line += 1) {
      rows.push(this.gutterRow(line));
    }
    show(this.gutter, html`<div style="transform:translateY(${shift}px)">${rows}</div>`);
    this.band(shift, first);
  }

  gutterRow(line) {
    if (line === this.marks.fault) return html`<div class="fault">✕ ${line}</div>`;
    if (line === this.marks.here) return html`<div class="here">▸ ${line}</div>`;
    return html`<div>${line}</div>`;
  }

  // A band behind the line that is wrong.
  band(shift, first) {
    const { fault } = this.marks;
    const top = (fault - 1 - first) * LINE_HEIGHT + shift;
    const style = html`style="transform:translateY(${top}px)"`;
    show(byId('band'), html`${fault > 0 && html`<div class="fault" ${style}></div>`}`);
  }
}
