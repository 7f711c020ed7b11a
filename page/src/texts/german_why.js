// The words on why each line of a lock is there, in German: those of the page, and the sentences
// of `locktrace why` and docs/LOCKS.md by the English ones, with the same places.

export const germanWhy = {
  title: 'Warum jede Zeile da ist', titleOf: (lock) => `Warum jede Zeile da ist: ${lock}`,
  learn: 'In dieser Zugfolge geht die geänderte Sperre schief; die Sperre, wie sie ist, nicht.',
  lesson: 'Jeder Schritt wird einmal geändert, und ein kürzester Lauf zeigt, was schiefgeht.',
  hint: 'Jeder Schritt wurde einmal geändert und ein kürzester Lauf gesucht, der schiefgeht.',
  asTold: (threads, rounds, verdict) => `Die Sperre, wie sie ist, ist mit ${threads} Threads und `
    + `je ${rounds} Runden ${verdict}.`,
  place: (line, count) => `Zeile ${line} von ${count}`,
  places: (from, to, count) => `Zeilen ${from} und ${to} von ${count}`,
  point: 'Ein Klick auf eine Zeile, oder Taste Y, sagt, warum sie da ist',
  back: 'Die Zeile davor', next: 'Die nächste Zeile',
  nothing: 'Hier wurde nichts geändert: Diese Zeile hat keinen Schritt.',
  if: (how) => `Wenn ${how}`, change: (step, how) => `${step}, wenn ${how}`,
  changed: (change) => `Hier geändert: ${change}.`,
  elsewhere: (move) => `Die geänderte Sperre macht hier „${move}“.`,
  goesOn: (move) => `Die geänderte Sperre geht weiter mit „${move}“.`,
  wrong: (verdict) => `Die geänderte Sperre ist schiefgegangen: ${verdict}.`,
  harm: 'geht hier schief', mark: 'geändert',
  stuck: 'Von hier an ist immer ein Thread in einem Aufruf oder drinnen, was immer folgt.',
  play: 'Die Sperre, wie sie ist, in dieser Zugfolge spielen',
  later: 'Der geänderte Schritt kommt später.',
  step: (count, of) => `Zug ${count} von ${of}:`, memory: 'Speicher:',
  object: (has) => `Das sequentielle Objekt: ${has}.`,
  forbidden: (verdict) => `Das sequentielle Objekt erlaubt das nicht: ${
    verdict.replace(/^.*? Züge?, und /, '')}.`,
  keys: 'Die Tasten N und P gehen von Zug zu Zug eines Laufs.',
  asItIs: (change) => `Die Sperre, wie sie ist, in der Zugfolge von: ${change}`,
};

export const germanChanges = {
  'its write is left out': 'sein Schreiben entfällt',
  'the flag is not written': 'das flag nicht geschrieben wird',
  'the counts are not written': 'die Zähler nicht geschrieben werden',
  'it finds 0, whatever is there': 'er 0 findet, was auch immer da steht',
  "it finds the thread's own, whatever is there": 'er das Eigene des Threads findet, was auch '
    + 'immer da steht',
  'it does not look at the flag': 'er nicht auf das flag sieht',
  'it does not look at the readers': 'er nicht auf die Leser sieht',
  'it writes nothing before it enters': 'er vor dem Eintritt nichts schreibt',
  'it is a load and then a store': 'er ein Lesen und danach ein Schreiben ist',
  'the step after it comes first': 'der Schritt nach ihm zuerst kommt',
  'the release returns in its place': 'das release an seiner Stelle endet',
  'harmless: all {0} states were searched': 'harmlos: Alle {0} Zustände wurden durchsucht',
  '{0} moves to where no run can come to rest within the rounds: {1}': '{0} Züge bis dahin, wo '
    + 'innerhalb der Runden kein Lauf zur Ruhe kommen kann: {1}',
  '{0} move to where no run can come to rest within the rounds: {1}': '{0} Zug bis dahin, wo '
    + 'innerhalb der Runden kein Lauf zur Ruhe kommen kann: {1}',
  '{0} moves, and thread {1} enters while the queue is {2}': '{0} Züge, und Thread {1} tritt ein, '
    + 'während die Schlange {2} ist',
  '{0} moves, and thread {1} enters as a reader while thread {2} writes': '{0} Züge, und Thread '
    + '{1} tritt als Leser ein, während Thread {2} schreibt',
  '{0} moves, and thread {1} enters as a writer while thread {2} writes': '{0} Züge, und Thread '
    + '{1} tritt als Schreiber ein, während Thread {2} schreibt',
  '{0} moves, and thread {1} enters as a writer while inside are the readers {2}': '{0} Züge, und '
    + 'Thread {1} tritt als Schreiber ein, während die Leser {2} drinnen sind',
  ['{0} moves, and thread {1} enters as a writer while inside are the readers {2}, '
    + 'thread {3} is announced']: '{0} Züge, und Thread {1} tritt als Schreiber ein, während die '
    + 'Leser {2} drinnen sind und Thread {3} angekündigt ist',
  'the queue is empty': 'die Schlange ist leer', 'the queue is {0}': 'die Schlange ist {0}',
  'nobody is inside': 'niemand ist drinnen', 'thread {0} writes': 'Thread {0} schreibt',
  'inside are the readers {0}': 'drinnen sind die Leser {0}',
  'thread {0} is announced': 'Thread {0} ist angekündigt',
  "The release could do without its read of now_serving: the holder's own ticket is there.": 'Das '
    + 'release käme ohne sein Lesen von now_serving aus: Dort steht das eigene Ticket des Threads.',
  ['The release could do without its first read, too: if there is a successor, the '
    + 'compare-and-swap fails, and the release awaits the link.']: 'Auch hier käme das release '
    + 'ohne sein erstes Lesen aus: Gibt es einen Nachfolger, so scheitert das compare-and-swap, '
    + 'und das release wartet auf den Link.',
  ['A FIFO writer that set its flag only as it entered would break no promise, but would wait for '
    + 'readers that come after it.']: 'Ein FIFO-Schreiber, der sein flag erst beim Eintritt '
    + 'setzte, bräche kein Versprechen, würde aber auf Leser warten, die nach ihm kommen.',
};
