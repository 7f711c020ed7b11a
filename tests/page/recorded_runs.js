// Traces: the values of the recorded run beside those of the lock.

const RECORDED = '#now dd.recorded';
const recorded = () => texts(RECORDED);

// The same after each of the first moves. A line with nothing but its move has no values.
const recordedAt = (moves) => atEach(movesTo(moves).slice(1), recorded);

// How many nodes of each of these parts are wholly in view.
const wholeOf = (...parts) => parts.map((part) => visible(`#now ${part}`)
  .filter((one) => inside(rect(one), rect('#now'))).length);

// The parts that the notice covers.
const underNotice = () => all('.card').filter((one) => rect(one).bottom > rect('#notice').top)
  .map(({ id }) => id);
