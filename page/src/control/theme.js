// Dark or light: as the link says, else as the reader chose last, else as the system has it.

import { byId } from '../lib/elements.js';
import { texts } from '../texts/texts.js';
import { looks, oneOf, THEMES } from '../model/looks.js';

const KEY = 'lockreplay.theme';
const root = document.documentElement;

// Another page at this address may have stored it.
function remembered() {
  try {
    return oneOf(THEMES, localStorage.getItem(KEY));
  } catch {
    return null;
  }
}

function remember(theme) {
  try {
    localStorage.setItem(KEY, theme);
  } catch {
    // No storage: the choice is gone with the page.
  }
}

function isDark() {
  const chosen = root.dataset.theme;
  return chosen ? chosen === 'dark' : matchMedia('(prefers-color-scheme: dark)').matches;
}

export function showTheme() {
  const theme = looks.theme ?? remembered();
  if (theme) root.dataset.theme = theme;
  else delete root.dataset.theme;
  drawTheme();
}

export function switchTheme() {
  looks.theme = isDark() ? 'light' : 'dark';
  remember(looks.theme);
  showTheme();
}

// Before its key the button says what it would choose.
function drawTheme() {
  const label = `${isDark() ? texts.tools.light : texts.tools.dark} `;
  byId('theme').firstChild.nodeValue = label;
}
