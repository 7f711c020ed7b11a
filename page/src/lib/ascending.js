// Ascending numbers, searched by bisection: moves, lines, places.

// How many of them are at most `most`.
export function placeAfter(numbers, most) {
  let low = 0;
  let high = numbers.length;
  while (low < high) {
    const middle = (low + high) >> 1;
    if (numbers[middle] <= most) low = middle + 1;
    else high = middle;
  }
  return low;
}

// The last of them that is at most `most`; 0 for none.
export const lastUpTo = (numbers, most) => numbers?.[placeAfter(numbers, most) - 1] ?? 0;
