// A long list is shown as far as it has room: what is kept, its neighbours, and both ends. The rest
// is folded, and counted.

// Places in the order in which they are wanted: by the distance to a kept one or to an end.
function wantedOrder(count, kept) {
  const near = [0, count - 1];
  const distance = (at) => Math.min(...kept.map((one) => Math.abs(one - at)),
    ...near.map((one) => Math.abs(one - at) + 0.5));
  return Array.from({ length: count }, (_, at) => at)
    .sort((one, other) => distance(one) - distance(other) || one - other);
}

// How many stretches of places are left out.
function gaps(shown, count) {
  let found = 0;
  for (let at = 0; at < count; at += 1) {
    if (!shown.has(at) && (at === 0 || shown.has(at - 1))) found += 1;
  }
  return found;
}

// {one} for what is shown and {folded: [...]} for what is between, together at most `most` places,
// but always what is kept.
export function folding(list, isKept, most) {
  const { length } = list;
  if (length <= most) return list.map((one) => ({ one }));
  const kept = list.flatMap((one, at) => (isKept(one) ? [at] : []));
  const shown = new Set(kept);
  for (const at of wantedOrder(length, kept)) {
    shown.add(at);
    if (shown.size + gaps(shown, length) > most && !kept.includes(at)) shown.delete(at);
  }
  const found = [];
  list.forEach((one, at) => {
    const last = found[found.length - 1];
    if (shown.has(at)) found.push({ one });
    else if (last?.folded) last.folded.push(one);
    else found.push({ folded: [one] });
  });
  return found;
}
