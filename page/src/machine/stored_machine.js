// What the machine answered when the page was built, for a browser that cannot run it: the
// lessons' texts with their records; for the states in the beginning and at the end the difference
// from the one before; and for the lines with a fault where they stop.

import { fromBase64, sameBytes, toBase64 } from '../lib/bytes.js';
import { ANSWER } from './codes.js';
import { State, STATE_BYTES } from './machine.js';

// Written by the build: passes each question on, and keeps what came of it.
export class Recorder {
  constructor(machine) {
    this.machine = machine;
    this.texts = [];
    this.stops = [];
  }

  play(text, most, withRecords, length) {
    const answer = this.machine.play(text, most, withRecords, length);
    let kept = this.texts.find((one) => sameBytes(one.bytes, text));
    if (!kept) {
      kept = { bytes: text, records: answer.records, states: new Map() };
      this.texts.push(kept);
    }
    if (withRecords) kept.records = answer.records;
    kept.states.set(Math.min(most, answer.state.played + 1), answer.state.bytes);
    return answer;
  }

  stop(line, isMove) {
    const stop = this.machine.stop(line, isMove);
    this.stops.push({ line, isMove, stop });
    return stop;
  }

  kept() {
    const texts = this.texts.map(({ bytes, records, states }) => ({
      text: toBase64(bytes), records: toBase64(records), states: differences(states),
    }));
    return { texts, stops: this.stops };
  }
}

// Pairs of a number of moves and the bytes, place and value in turn, that differ from the pair
// before.
function differences(states) {
  let before = new Uint8Array(STATE_BYTES);
  return [...states].sort(([a], [b]) => a - b).map(([most, bytes]) => {
    const changes = [];
    bytes.forEach((value, at) => { if (value !== before[at]) changes.push(at, value); });
    before = bytes;
    return [most, changes];
  });
}

function restored(pairs) {
  const bytes = new Uint8Array(STATE_BYTES);
  return new Map(pairs.map(([most, changes]) => {
    for (let i = 0; i < changes.length; i += 2) bytes[changes[i]] = changes[i + 1];
    return [most, bytes.slice()];
  }));
}

export class StoredMachine {
  constructor({ texts, stops }) {
    this.stored = true;
    this.stops = stops;
    this.texts = texts.map(({ text, records, states }) => ({
      bytes: fromBase64(text), records: fromBase64(records), states: restored(states),
    }));
  }

  // A text that is not stored has no state: its `answer` says that nothing was played.
  play(text, most) {
    const kept = this.texts.find((one) => sameBytes(one.bytes, text));
    if (!kept) return { state: null, records: new Uint8Array() };
    const last = Math.max(...kept.states.keys());
    const bytes = kept.states.get(Math.min(most, last));
    const records = new State(bytes).answer === ANSWER.fault ? new Uint8Array() : kept.records;
    return { state: new State(bytes), records };
  }
  // Where a line stops, if the build asked for it.
  stop(line, isMove) {
    return this.stops.find((one) => one.line === line && one.isMove === isMove).stop;
  }
}
