// Stepping by a finger: to the left is a move forward, to the right one back. In a part that can be
// scrolled sideways a finger scrolls.

import { byId, targetOf } from '../lib/elements.js';

const FAR = 48;
const FLAT = 2;

function isScrolled(node) {
  if (node.id === 'work') return false;
  const isWide = node.scrollWidth > node.clientWidth
    && /auto|scroll/.test(getComputedStyle(node).overflowX);
  return isWide || isScrolled(node.parentElement);
}

export function listenForSwipes({ stepping }) {
  const box = byId('work');
  let begun = null;
  box.addEventListener('touchstart', (event) => {
    const [{ clientX: x, clientY: y }] = event.touches;
    const target = targetOf(event);
    const steps = event.touches.length === 1 && !target.closest('textarea') && !isScrolled(target);
    begun = steps ? { x, y } : null;
  }, { passive: true });
  box.addEventListener('touchend', (event) => {
    if (!begun) return;
    const [{ clientX, clientY }] = event.changedTouches;
    const [x, y] = [clientX - begun.x, clientY - begun.y];
    if (Math.abs(x) > FAR && Math.abs(x) > FLAT * Math.abs(y)) stepping.step(x < 0 ? 1 : -1);
  });
}
