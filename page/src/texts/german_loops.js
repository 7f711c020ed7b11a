// The page's words on runs that go on for ever, in German.

const moves = ({ first, last }) => (first === last ? `Zug ${last}` : `Züge ${first} bis ${last}`);

export const germanLoops = {
  begins: (loop) => `Von hier an wiederholt sich der Lauf für immer: ${moves(loop)}, immer wieder.`,
  within: (loop) => `Das wiederholt sich für immer: ${moves(loop)}, jetzt zum ${loop.lap}. Mal.`,
  goesOn: ({ first }) => `Als Nächstes kommt wieder Zug ${first}.`,
  asked: (some) => `Von hier an wiederholen sich die Züge.${some ? ' Falsch waren:' : ''}`,
};
