// A trace: a schedule whose steps may also say on which word they were and which values it had, or
// what came of them. The module reads these lines; the comments of the recorders are read here.

import { placeAfter } from '../lib/ascending.js';
import { bytesOf, lettersOf, withoutLines } from '../lib/bytes.js';
import { readTrace } from '../machine/traces.js';

// A comment of the recorders: where in the source the move of a line was noted.
const PLACE = /^# line (?<line>[0-9]+) is (?<place>.+)$/;
const LINE_OF_PLACE = /(?<=^# line )[0-9]+(?= is .)/gm;
// Comments of the recorders after the last move, on the end of a thread or of the run.
const ENDING = /^# (?<said>(?:thread|the) (?![0-9]+ has ended$).+)$/;
const OPEN = /^thread [0-9]+ (?:has not ended|was stopped)$/;

/**
 * @typedef {object} Trace
 * @property {Uint8Array} schedule the text without what its lines say, line by line
 * @property {import('../machine/traces.js').Difference | null} difference its first
 * @property {Map<number, string>} places in the source, by line, from 1
 * @property {string} ending what the recorder says of an end that is not as usual
 */

function placesIn(lines) {
  const found = lines.map((line) => line.match(PLACE)?.groups).filter(Boolean);
  return new Map(found.map(({ line, place }) => [Number(line), place]));
}

// The recorder's verdict on the run, or else which threads have not ended.
function endingIn(lines) {
  const after = lines.slice(lines.findLastIndex((line) => /^[0-9]/.test(line)) + 1);
  const said = after.map((line) => line.match(ENDING)?.groups.said).filter(Boolean);
  const verdict = said.filter((one) => !OPEN.test(one));
  return (verdict.length ? verdict : said).join('; ');
}

/**
 * Null for a text none of whose lines says more than its move.
 * @param {import('../machine/machine.js').Machine} machine
 * @returns {Trace | null}
 */
export function traceOf(machine, text) {
  const read = readTrace(machine, text);
  if (!read) return null;
  const lines = lettersOf(text).letters.split('\n');
  return { ...read, places: placesIn(lines), ending: endingIn(lines) };
}

// The number of a line after some lines, which ascend, were left out.
export const lineWithout = (lines) => (line) => line - placeAfter(lines, line);

// The text of a trace without some lines, whose comments name the lines by their new numbers.
export function traceWithout(text, lines) {
  const { letters, plain } = lettersOf(withoutLines(text, lines));
  const lineNow = lineWithout(lines);
  return bytesOf(letters.replace(LINE_OF_PLACE, (line) => String(lineNow(Number(line)))), plain);
}
