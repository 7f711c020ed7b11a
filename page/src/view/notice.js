// A short notice to the reader, which goes by itself.

import { byId } from '../lib/elements.js';

const SHOWN = 4000;

let hiding = 0;

export function tell(text) {
  const box = byId('notice');
  box.textContent = text;
  box.hidden = false;
  clearTimeout(hiding);
  hiding = setTimeout(() => { box.hidden = true; }, SHOWN);
}

// Takes away what was told before the reader went on.
export const untellAll = () => { byId('notice').hidden = true; };

// Takes away a notice that no longer holds.
export function untell(text) {
  const box = byId('notice');
  if (box.textContent === text) box.hidden = true;
}

export async function toClipboard(text, done, otherwise) {
  try {
    await navigator.clipboard.writeText(text);
    tell(done);
  } catch {
    tell(otherwise);
  }
}
