// What becomes of each lock if one of its steps is changed. built/why has what `locktrace why LOCK
// --runs` writes; docs/LOCKS.md says why a change is harmless.
// No changed lock is played here: what comes of its moves is in the listing, and in the turns of a
// run the module plays the lock as it is.

import { readFileSync } from 'node:fs';
import { join } from 'node:path';
import { bytesOf } from '../src/lib/bytes.js';
import { LOCK_NAMES, MOVES, PHASES } from '../src/machine/codes.js';
import { Machine } from '../src/machine/machine.js';
import { placed } from '../src/model/line_changes.js';
import { Run } from '../src/model/run.js';

const SIZE = /^(?<threads>\d+) threads with (?<rounds>\d+) rounds each$/;
const VERDICT = /^(?:as it is|(?<step>\w+), if (?<how>[^:]+)): (?<verdict>.+)$/;
const HEADER = /^changed lock (?<lock>[\w-]+) threads \d+$/;
// What comes of a move: the words that it wrote, and what the sequential object has.
const AFTER = /^# (?:(?<wrote>[^;]+); )?(?<object>.+)$/;
const WROTE = /^(?<name>.+) = (?<value>\d+)$/;
const WORD = /^\| (?<at>\d+)(?<each> \+ 2i)? \| `(?<name>\w+)`/gm;
const STUCK = 'to where no run can come to rest within the rounds: ';
const MOVE = /^(?<thread>\d) (?<name>\w+)(?:\((?<number>\d+)\))?(?:, its (?<half>\w+) half)?$/;
// The one change with a half in which the lock as it is has no turn.
const SPLIT = 'it is a load and then a store';

// A verdict as a sentence with places, and their values. At its end may be where the threads are.
function sentenceOf(verdict) {
  const [told, places] = verdict.split(STUCK);
  const { says, values } = placed(told);
  if (!places) return { says, values, harms: true };
  return { says: `${says}${STUCK}{${values.length}}`, values: [...values, places], harms: false };
}

// The line of a schedule that takes the turn of a move; none if its thread has nothing to do.
function turnOf(run, { thread, name }) {
  if (!PHASES.includes(name)) return `${thread} ${name}`;
  const due = run.state(run.count).dueStep(Number(thread));
  return due ? `${thread} ${MOVES[due]}` : null;
}

// Whether the thread is elsewhere in its code than in the changed lock.
function isElsewhere(run, { thread, name, number, half }) {
  const [state, at] = [run.state(run.count), Number(thread)];
  if (!PHASES.includes(name)) return false;
  const other = number !== undefined && String(state.phaseNumber(at)) !== number;
  return half !== 'second' && (PHASES[state.phase(at)] !== name || other);
}

// The turns of a run, played by the lock as it is up to the first that it does not have or refuses,
// and the places of those before which a thread is elsewhere. A second half may have no turn.
function followed(machine, header, { how, run }) {
  const [turns, differs] = [[], []];
  let played = new Run(machine, bytesOf(header));
  for (const [at, move] of run.map((line) => line.match(MOVE).groups).entries()) {
    const isWhole = how !== SPLIT || move.half !== 'second';
    const turn = isWhole ? turnOf(played, move) : '';
    const lines = [header.trim(), ...turns, turn].filter(Boolean);
    const next = new Run(machine, bytesOf(`${lines.join('\n')}\n`));
    if (turn === null || next.refusal) return { turns, differs, refused: turn ?? undefined };
    if (turn && isElsewhere(played, move)) differs.push(at);
    turns.push(turn);
    played = next;
  }
  return { turns, differs };
}

// The names of a lock's words by their numbers, as the tables of docs/LOCKS.md have them. A record
// has its words for each thread.
function wordsOfLock(document, lock, threads) {
  const above = document.split(`\n\`\`\`${lock}\n`)[0].split('\n## ').pop();
  const names = [];
  for (const { groups: { at, each, name } } of above.matchAll(WORD)) {
    const places = each ? [...Array(Number(threads)).keys()] : [0];
    places.forEach((thread) => {
      names[Number(at) + 2 * thread] = each ? `${name} of ${thread}` : name;
    });
  }
  return names;
}

// The words that a move wrote, by their numbers, and their values.
function writtenOf(wrote, words) {
  const all = wrote ? wrote.split(', ').map((one) => one.match(WROTE).groups) : [];
  return all.map(({ name, value }) => {
    if (!words.includes(name)) throw new Error(`built/why: no word ${name}`);
    return [words.indexOf(name), value];
  });
}

// The moves of a run, and by the place of a move which words it wrote, and what the object has from
// then on.
function runOf(lines, lock, words) {
  const [, header, ...rest] = lines;
  if (lines.length && header?.match(HEADER)?.groups.lock !== lock) {
    throw new Error(`built/why/${lock}.txt: no run of a changed lock: ${lines[0]}`);
  }
  const run = rest.filter((_, at) => at % 2 === 0);
  const [wrote, objects] = [{}, {}];
  let before = '';
  run.forEach((_, at) => {
    const after = rest[2 * at + 1].match(AFTER).groups;
    const written = writtenOf(after.wrote, words);
    if (written.length) wrote[at] = written;
    if (after.object !== before) objects[at] = after.object;
    before = after.object;
  });
  return { run, wrote, objects };
}

function changeOf(part, lock, words) {
  const [line, ...lines] = part.split('\n');
  const { step, how, verdict } = line.match(VERDICT).groups;
  const run = runOf(lines.map((one) => one.trim()), lock, words);
  return { step, how, ...sentenceOf(verdict), ...run };
}

// The paragraph of docs/LOCKS.md after the block of a lock, if a change of it is harmless.
function noteOf(document, lock) {
  const [, after] = document.split(new RegExp(`^\\$ locktrace why ${lock} \\|.*$`, 'm'));
  const note = after.split('\n```\n')[1].trim().split('\n\n')[0];
  return note.replaceAll('\n', ' ').replaceAll('`', '');
}

function lockOf(machine, lock, text, document) {
  const [heading, ...parts] = text.trimEnd().split(/\n(?! )/);
  const { threads, rounds } = heading.replace(`${lock}, `, '').match(SIZE).groups;
  const words = wordsOfLock(document, lock, threads);
  const [asItIs, ...changes] = parts.map((part) => changeOf(part, lock, words));
  const header = `lock ${lock} threads ${threads}\n`;
  const note = changes.some(({ run }) => !run.length) ? noteOf(document, lock) : '';
  return {
    threads, rounds, says: asItIs.says, values: asItIs.values, note, words,
    changes: changes.map((change) => ({ ...change, ...followed(machine, header, change) })),
  };
}

// {lock: {threads, rounds, says, values, note, words, changes}}: the verdict of the lock as it is,
// why a change is harmless, and {step, how, says, values, run, wrote, objects, turns, differs,
// refused} of each change.
export function whyOf(module, folder, document) {
  const machine = new Machine(module);
  const texts = LOCK_NAMES.map((lock) => readFileSync(join(folder, `${lock}.txt`), 'utf8'));
  return Object.fromEntries(LOCK_NAMES.map((lock, at) => (
    [lock, lockOf(machine, lock, texts[at], document)])));
}
