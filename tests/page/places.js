// Where parts of the page are.

// The boxes of those of these nodes that are shown, by their selectors.
const places = (selectors) => Object.fromEntries(selectors.map((one) => [one, all(one)
  .filter((node) => node.checkVisibility() && rect(node).width > 0).map((node) => {
    const { left, right, top, bottom } = rect(node);
    return { left, right, top, bottom, middle: (top + bottom) / 2 };
  })]));
