// A step at which a trace differs from its lock.

// Where the refused move is: in the lanes, on the slider, and in the text.
const crosses = () => [attribute('#lanes [data-refused]', 'data-move'),
  count('#slider-picture .tick.fails'), plain(text('#gutter .fault'))];

const marked = () => [text('#now .refused-text'), text('#now mark.bad')];
