// Elements of the page by their ids, and those that an event is of, each as what it is.

// Fields in which one types.
export const TYPED_IN = 'textarea, '
  + 'input:not([type=range]):not([type=radio]):not([type=checkbox])';

/**
 * The element of this id, if it is of this kind; else null.
 * @template {Element} Kind
 * @param {string} id
 * @param {new () => Kind} kind
 * @returns {Kind}
 */
export function elementOf(id, kind) {
  const found = document.getElementById(id);
  return found instanceof kind ? found : null;
}

/** @param {string} id */
export const byId = (id) => elementOf(id, HTMLElement);
/** @param {string} id */
export const inputOf = (id) => elementOf(id, HTMLInputElement);
/** @param {string} id */
export const selectOf = (id) => elementOf(id, HTMLSelectElement);
/** @param {string} id */
export const buttonOf = (id) => elementOf(id, HTMLButtonElement);
/** @param {string} id */
export const dialogOf = (id) => elementOf(id, HTMLDialogElement);
/** @param {string} id */
export const formOf = (id) => elementOf(id, HTMLFormElement);

/** @param {unknown} node @returns {node is HTMLElement | SVGElement} */
const hasData = (node) => node instanceof HTMLElement || node instanceof SVGElement;

/**
 * The element that an event is of; of one of the whole document its root.
 * @param {Event} event
 * @returns {HTMLElement | SVGElement}
 */
export const targetOf = ({ target }) => (hasData(target) ? target : document.documentElement);

/**
 * The data of the nearest element with this selector around what an event is of.
 * @param {Event} event
 * @param {string} selector
 * @returns {DOMStringMap}
 */
export function dataOf(event, selector) {
  const found = targetOf(event).closest(selector);
  return hasData(found) ? found.dataset : {};
}

/**
 * Focuses the first element in a node with this selector, if there is one.
 * @param {Element | Document} node
 * @param {string} selector
 */
export function focusIn(node, selector) {
  const found = node.querySelector(selector);
  if (hasData(found)) found.focus();
}

// Closes each dialog that is open.
export function closeDialogs() {
  /** @type {NodeListOf<HTMLDialogElement>} */
  const open = document.querySelectorAll('dialog[open]');
  open.forEach((dialog) => { dialog.close(); });
}

/**
 * A click beside a dialog closes it. In Firefox the button that closes it would keep the focus, and
 * so the keys.
 * @param {HTMLDialogElement} dialog
 */
export function closesBeside(dialog) {
  dialog.addEventListener('click', (event) => {
    if (event.target === dialog) dialog.close();
  });
  dialog.addEventListener('close', () => {
    const { activeElement: focused } = document;
    if (!dialog.open && hasData(focused) && dialog.contains(focused)) focused.blur();
  });
}
