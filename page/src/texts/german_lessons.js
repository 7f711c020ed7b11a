// The page's words on lessons, in German.

export const germanLessons = {
  title: 'Lektionen',
  what: [
    'Diese Seite spielt vier Sperren aus Lehrbüchern durch, einen atomaren Schritt nach dem '
      + 'anderen: wer die Sperre hält, wer wartet, was im Speicher steht.',
    'Wähle eine Lektion (Enter) und drücke → für jeden Zug.',
  ],
  teaches: {
    ticket: 'Wer zuerst kommt, tritt zuerst ein. Fang hier an.',
    mcs: 'Jeder Thread wartet an einem eigenen Wort.',
    'rw-simple': 'Leser teilen sich die Sperre. Ein Schreiber kann verhungern.',
    'rw-fifo': 'Ein Schreiber kündigt sich an. Spätere Leser warten auf ihn.',
  },
  ways: {
    own: ['Eigenes', 'Einen Ablauf schreiben, öffnen oder hierher ziehen.'],
    play: ['Spielen', 'Wählen, wer den nächsten Zug macht.'],
    find: ['Eine Situation suchen', 'Einen kürzesten Lauf mit einem Zug suchen.'],
    plans: ['Unterricht', 'Vier Unterrichtspläne von zehn Minuten.'],
  },
  size: (moves, minutes) => `${moves} Züge, etwa ${minutes} min`,
  done: 'fertig',
  refusals: 'Was abgelehnt wird: falsche Züge, und Texte, die keine Abläufe sind',
  ended: 'Ende. Zum Merken:', next: (title) => `Weiter: ${title}`,
  noMore: 'Das war der letzte Zug.',
  allDone: {
    title: 'Das waren alle Lektionen', open: 'Was von allen zu merken ist',
    lines: [
      'Eine Sperre lässt nur herein, wer darf; die anderen fragen ab, bis sie dürfen.',
      'Ein Platz in der Schlange wird in einem atomaren Schritt genommen: mit einem add oder swap.',
      'Von da an gilt die Reihenfolge, auch wenn ein Link noch fehlt.',
      'Leser teilen sich eine Sperre; ohne Ankündigung kann ein Schreiber verhungern.',
      'Zahlen beginnen wieder bei 0, also zählt nur, ob sie gleich sind.',
    ],
    ways: { why: 'Warum jede Zeile da ist', play: 'Spielen', quiz: 'Quiz' },
  },
  groups: { refused: 'Abgelehnte Züge', fault: 'Texte, die keine Abläufe sind' },
  kept: (most) => `In diesem Browser aufgehoben, höchstens die letzten ${most}`,
  keptMove: (place) => `bei Zug ${place}`,
};
