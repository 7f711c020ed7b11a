// Whether the page is there. A test asks repeatedly while the page loads.

const isThere = () => document.readyState === 'complete' && Boolean(window.lockreplay);

// A document is complete before the page begins, since the page waits for the fonts.
function isAt(url) {
  const hasBegun = url.startsWith('about:') ? document.readyState === 'complete' : isThere();
  return hasBegun && location.href.split('#')[0] === url;
}

// A page that is about to be loaded again gets a mark, which the new page does not have.
const markAsOld = () => { window.isOldPage = true; };
const isOld = () => Boolean(window.isOldPage);
