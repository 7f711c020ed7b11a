// The page's words on runs that go on for ever, in English.

const moves = ({ first, last }) => (first === last ? `move ${last}` : `moves ${first} to ${last}`);

export const loops = {
  begins: (loop) => `From here on the run repeats for ever: ${moves(loop)}, again and again.`,
  within: (loop) => `This repeats for ever: ${moves(loop)}. This is time ${loop.lap}.`,
  goesOn: ({ first }) => `Move ${first} is next again.`,
  asked: (some) => `From here on the moves repeat.${some ? ' Wrong were:' : ''}`,
};
