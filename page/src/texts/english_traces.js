// What is said of a trace, in English: at each move, and where it differs from its lock.

export const traces = {
  opened: 'This is a trace. Each move has what the recorded run found beside what the lock has.',
  differs: (line) => `This is a trace. It differs from the lock in line ${line}.`,
  agrees: 'Each word, value and outcome that the trace names is the lock’s.',
  ending: (said) => `But the recorder says: ${said}.`,
  recorded: 'Recorded', here: 'Lock here',
  spokenSame: 'The recorded run has the same.',
  FoundOther: 'The recorded run: {step} {word} found {given}. The lock here: found {own}.',
  LeftOther: 'The recorded run: {step} {word} left {given}. The lock here: left {own}.',
  OtherWord: 'The recorded run: {step} on {given}. The lock here: {step} on {own}.',
  WroteOther: 'The recorded run: {step} {word} {given}. The lock here: {own}.',
  CountNotAbove: 'The recorded run: section {given}, after section {own}. The counts of sections '
    + 'grow.',
  OtherOutcome: 'The recorded run: {step} {given}. The lock here: {own}.',
  wrote: '{Thread} wrote {word} last, in line {line}: it left {value}.',
  unwritten: 'Nobody has written {word} yet: it has its first value, {value}.',
  code: 'The step is line {number} of the code: “{code}”.',
  from: 'Line {line} writes {given} there: perhaps that write is noted too late.',
  until: 'The word had {given} until line {line}: perhaps this {step} is noted too late.',
  halves: 'The word had {given} until line {line}: perhaps this {step} was a load and a store, or '
    + 'is noted too late.',
  never: 'No other line writes {given} there: perhaps a write is missing in the trace.',
  swapped: 'Line {line} is on {own}: perhaps the two steps are in the wrong order.',
  missing: 'A step on {own} may be missing before it, or this one is on the wrong word.',
  sections: 'A section may be missing before it, or two are in the wrong order.',
  counts: 'The count may be taken outside the monitor, or two lines are in the wrong order.',
};
