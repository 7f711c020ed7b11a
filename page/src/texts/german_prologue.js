// The page's words on why there are locks, in German.

export const germanPrologue = {
  title: 'Wozu eine Sperre?', number: 'Zug',
  teaser: 'Zwei Threads zählen an einem Zähler, und einmal Zählen geht verloren. Sechs Züge, eine '
    + 'Minute.',
  intro: 'Ein Thread ist ein Teil eines Programms, der neben anderen läuft. Ann und Bob sind zwei '
    + 'Threads, und jeder addiert 1 zum selben Zähler. Das braucht drei Züge: den Zähler lesen, 1 '
    + 'addieren, ihn zurückschreiben. Drücke → für jeden Zug.',
  names: ['Ann', 'Bob'], counter: 'Zähler', own: (who) => `${who} hat`, nothing: 'nichts',
  does: { reads: 'liest', adds: 'addiert 1', writes: 'schreibt' },
  says: [
    'Ann liest den Zähler: 0.', 'Bob liest ihn auch: 0.', 'Sie addiert 1. Sie hat jetzt 1.',
    'Er addiert 1 zu seiner 0. Auch er hat 1.', 'Sie schreibt 1 in den Zähler.',
    'Er schreibt seine 1 darüber.',
  ],
  end: [
    'Beide haben 1 addiert, und der Zähler ist 1. Einmal Zählen ist verloren.',
    'Eine Sperre lässt nur einen Thread zugleich alle drei Züge tun, und die anderen warten. Aber '
      + 'wieso verliert die Sperre selbst nichts? Sie besteht aus atomaren Schritten: Zwischen die '
      + 'Teile eines Schritts kommt niemand.',
  ],
  back: 'Zurück', forward: 'Nächster Zug', begin: 'Die erste Lektion',
};
