// Pages with a trace in them.

// Before the page's script: a browser that stores nothing.
function keepNothing() {
  Storage.prototype.setItem = () => { throw new DOMException('full', 'QuotaExceededError'); };
}
