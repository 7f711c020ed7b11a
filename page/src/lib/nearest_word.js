// The nearest of some words to one that is none of them, or null if none is near.

function distance(one, other) {
  let row = Array.from({ length: other.length + 1 }, (_, i) => i);
  for (let i = 1; i <= one.length; i += 1) {
    const next = [i];
    for (let j = 1; j <= other.length; j += 1) {
      const same = one[i - 1] === other[j - 1] ? 0 : 1;
      next[j] = Math.min(row[j] + 1, next[j - 1] + 1, row[j - 1] + same);
    }
    row = next;
  }
  return row[other.length];
}

const LONGEST = 20;

// Near means at most one change in three letters. Upper case and `_` for `-` are no change.
export function nearestWord(found, words) {
  if (!found || found.length > LONGEST || !words.length) return null;
  const plain = found.toLowerCase().replaceAll('_', '-');
  const ranked = words.map((word) => ({ word, far: distance(plain, word) }))
    .sort((one, other) => one.far - other.far);
  const [{ word, far }] = ranked;
  return far <= Math.max(1, Math.floor(word.length / 3)) ? word : null;
}
