// Schedules of one's own, kept in the browser's storage: the last ones, each under a name of
// its own, and a list of them. Without storage, or without room there, nothing is kept.

import { fromBase64, toBase64 } from '../lib/bytes.js';

const LIST = 'lockreplay.kept';
export const MOST_KEPT = 100;
// Browsers give a site some five million letters.
const MOST_LETTERS = 3000000;

export const newName = () => Date.now().toString(36)
  + Math.floor(Math.random() * 46656).toString(36);

const keyOf = (name) => `${LIST}.${name}`;

function stored(key) {
  try {
    return localStorage.getItem(key);
  } catch {
    return null;
  }
}

// False if there is no storage, or no room.
function store(key, text) {
  try {
    if (text === null) localStorage.removeItem(key);
    else localStorage.setItem(key, text);
    return true;
  } catch {
    return false;
  }
}

// {name, place, title, size} of each, the newest first.
export function keptSchedules() {
  try {
    const list = JSON.parse(stored(LIST));
    return Array.isArray(list) ? list.filter((one) => one?.name) : [];
  } catch {
    return [];
  }
}

// {text, place}, or null.
export function keptSchedule(name) {
  const coded = stored(keyOf(name));
  const found = coded !== null && keptSchedules().find((one) => one.name === name);
  return found ? { text: fromBase64(coded), place: found.place } : null;
}

// Where the reader is in a schedule that is kept.
export function keepPlace(name, place) {
  const list = keptSchedules();
  const found = list.find((one) => one.name === name);
  if (!found || found.place === place) return;
  found.place = place;
  store(LIST, JSON.stringify(list));
}

const has = ({ name, size }, coded) => size === coded.length && stored(keyOf(name)) === coded;

export function isKept(text) {
  const coded = toBase64(text);
  return keptSchedules().some((one) => has(one, coded));
}

// A text that has no room is not kept, and takes no room from others.
export function keepSchedule(name, text, place, title) {
  const coded = toBase64(text);
  const size = coded.length;
  if (size >= MOST_LETTERS) return;
  const same = (one) => one.name === name || has(one, coded);
  let room = MOST_LETTERS;
  const before = keptSchedules();
  const list = [{ name, place, title, size }, ...before.filter((one) => !same(one))]
    .slice(0, MOST_KEPT).filter((one) => { room -= one.size; return room > 0; });
  const names = list.map((one) => one.name);
  before.filter((one) => !names.includes(one.name)).forEach((one) => store(keyOf(one.name), null));
  // The oldest makes room.
  while (list.length && !store(keyOf(name), coded)) store(keyOf(list.pop().name), null);
  store(LIST, JSON.stringify(list));
}
