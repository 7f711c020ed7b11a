// A branch of a lesson, an edit of its text, and two schedules compared.

const isLinked = (letters) => {
  const coded = btoa(letters).replaceAll('+', '-').replaceAll('/', '_').replaceAll('=', '');
  return location.hash.startsWith(`#schedule=${coded}&`);
};

const edit = (old, other) => write(value('#text').replace(old, other));

function compared() {
  const mark = (id) => pick(`#${id} [data-different]`)?.dataset.different;
  return {
    shown: !byId('other').hidden, there: mark('other'), here: mark('time'),
    lines: texts('#other .compared code'), differs: count('#other .differs'),
    title: text('#other h2'), titles: ['#there-title', '#memory-title'].map(text),
    labels: ['#there-picture svg', '#memory-picture svg'].map((one) => (
      attribute(one, 'aria-label'))),
    found: texts('#other .found.here title'), links: count('#there-picture .link'),
  };
}
