// The page's words on why each line of a lock is there, in English. The sentences on the changes
// are those of `locktrace why`.

export const why = {
  title: 'Why each line is there', titleOf: (lock) => `Why each line is there: ${lock}`,
  learn: 'In these turns the changed lock goes wrong; the lock as it is does not.',
  lesson: 'Each step is changed in turn, and a shortest run shows what goes wrong.',
  hint: 'Each step was changed in turn, and a shortest run that goes wrong was looked for.',
  asTold: (threads, rounds, verdict) => `The lock as it is, with ${threads} threads and ${rounds} `
    + `rounds each, is ${verdict}.`,
  place: (line, count) => `Line ${line} of ${count}`,
  places: (from, to, count) => `Lines ${from} and ${to} of ${count}`,
  point: 'A click on a line, or key Y, says why it is there',
  back: 'The line before', next: 'The next line',
  nothing: 'Nothing was changed here: this line has no step.',
  if: (how) => `If ${how}`, change: (step, how) => `${step}, if ${how}`,
  changed: (change) => `Changed here: ${change}.`,
  elsewhere: (move) => `The changed lock makes “${move}” here.`,
  goesOn: (move) => `The changed lock goes on with “${move}”.`,
  wrong: (verdict) => `The changed lock has gone wrong: ${verdict}.`,
  harm: 'goes wrong here', mark: 'changed',
  stuck: 'From here on a thread is always in a call or inside, whatever moves follow.',
  play: 'Play the lock as it is in these turns',
  later: 'The changed step comes later.',
  step: (count, of) => `Move ${count} of ${of}:`, memory: 'Memory:',
  object: (has) => `The sequential object: ${has}.`,
  forbidden: (verdict) => `The sequential object does not allow this: ${
    verdict.replace(/^.*? moves?, and /, '')}.`,
  keys: 'Keys N and P go from move to move of a run.',
  asItIs: (change) => `The lock as it is, in the turns of: ${change}`,
};
