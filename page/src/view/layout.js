// Which moves and which threads are in view, and where they are. Only these are drawn, so a
// step costs the same in a schedule of 65,536 moves as in one of ten.

import { placeAfter } from '../lib/ascending.js';
import { looks } from '../model/looks.js';
import { standingAfter } from '../model/spans.js';
import { widthOf } from '../locks/fitting.js';
import { lockOf } from '../locks/locks.js';

/** @typedef {import('../model/run.js').Run} Run */
/** @typedef {import('../model/session.js').View} View */

// Where the names of threads are: how wide, which share of the lanes at most, and what is
// beside a name there.
const GUTTER = { least: 122, share: 0.16 };
export const NAME_EDGES = { left: 20, right: 10 };
const COLUMN = { compared: 19, narrowest: 16, least: 44, most: 66, widest: 120 };
export const LANE = { tallest: 85, lowest: 38, compared: 26, foot: 6 };
// With more threads than these only those that move are drawn.
const MANY_THREADS = 8;
// How far along the view the current move is in a long schedule.
const HERE = 0.6;

/** @param {Run} run */
export function lanesOf(run, all) {
  const threads = Array.from({ length: run.threads }, (_, thread) => thread);
  const refused = run.refusal?.thread;
  // A refused move has its lane, even if there is no such thread.
  if (refused >= run.threads) threads.push(refused);
  if (all || run.threads <= MANY_THREADS) return threads;
  const moving = threads.filter((thread) => run.movesOf.has(thread) || thread === refused);
  return moving.length ? moving : threads.slice(0, MANY_THREADS);
}

/** @param {Run} run */
const leastColumn = (run) => lockOf(run).leastColumn ?? COLUMN.least;

// Beside its memory in a hall only the move that is shown has its word, so columns may be narrow.
/** @param {View} view */
function columnWidth({ run, compares }, moves, room, zoom) {
  const fitting = room / Math.max(1, moves + 0.4);
  const least = compares && looks.hall ? COLUMN.compared : leastColumn(run);
  const wanted = Math.min(Math.max(COLUMN.most, least), Math.max(least, fitting)) * zoom;
  return Math.min(COLUMN.widest, Math.max(COLUMN.narrowest, wanted));
}

function firstMove(moves, move, visible) {
  if (moves <= visible) return 1;
  const wanted = Math.round(move - HERE * visible) + 1;
  return Math.min(Math.max(1, wanted), moves - visible + 1);
}

// As wide as the longest name that a thread was given, if there is room for it.
export function gutterOf(names, width) {
  const longest = Math.max(0, ...[...names.given.values()].map((name) => widthOf(name, 'lane')));
  const wanted = Math.ceil(longest) + NAME_EDGES.left + NAME_EDGES.right;
  return Math.max(GUTTER.least, Math.min(wanted, Math.floor(GUTTER.share * width)));
}

// If there are many threads, those that move in view, or that are in a call or hold the lock.
function busyLanes({ run, move }, lanes, first, last) {
  if (lanes.length <= MANY_THREADS) return lanes;
  const busy = lanes.filter((thread) => thread >= run.threads
    || run.lastMoveOf(thread, last) >= first
    || standingAfter(run, run.lastMoveOf(thread, move)) !== 'rest');
  return busy.length ? busy : lanes.slice(0, MANY_THREADS);
}

/**
 * Where the lanes and the columns of moves are, in the units of their picture.
 * @typedef {object} Layout
 * @property {number} gutter how wide the names of threads are
 * @property {number} column how wide a column is
 * @property {number} first the first move in view
 * @property {number} last the last one in view
 * @property {number} origin the first column in view
 * @property {number} end the last one
 * @property {number} now the place that is shown
 * @property {number} [here] its column, if it is another one
 * @property {number} width
 * @property {number} height
 * @property {number} laneHeight
 * @property {number[]} lanes the threads that have one
 * @property {number | null} [chosen] the one that is chosen; undefined where none can be
 * @property {number} [at] where the lanes are scrolled to
 * @property {boolean} [asked] whether a question asks where the threads stand
 * @property {(move: number) => number} [placeOf] the column of a move that is not in its number's
 */

// `room` has the width and the height that the lanes may take; `all` asks for every thread. A run
// that is compared with this one may have more columns.
/** @param {View} view */
export function layOutLanes(view, all, room, zoom) {
  const { run, place, names } = view;
  const moves = Math.max(run.last, view.columns ?? 0);
  const gutter = gutterOf(names, room.width);
  const column = columnWidth(view, moves, room.width - gutter - 12, zoom);
  const visible = Math.max(1, Math.floor((room.width - gutter - 8) / column));
  const first = firstMove(moves, place, visible);
  const end = Math.min(moves, first + visible - 1);
  const last = Math.min(run.last, end);
  const asked = lanesOf(run, all);
  const lanes = all ? asked : busyLanes(view, asked, first, last);
  const lowest = view.compares ? LANE.compared : LANE.lowest;
  const laneHeight = Math.min(LANE.tallest, Math.max(lowest,
    (room.height - LANE.foot) / lanes.length));
  return {
    gutter, column, first, last, end, origin: first, laneHeight,
    width: room.width, now: place, lanes, height: laneHeight * lanes.length + LANE.foot,
  };
}

// The lanes of another run in the columns of this layout. `columns` has the column of each of its
// moves, from move 0 on; further moves are in the columns after the last of these. A span that
// lasts at the shown move is drawn up to the shown column.
/** @param {Layout} layout @param {View} view */
export function layOutBeside(layout, view, columns, room) {
  const { run, place, future } = view;
  const { origin, end, now: here } = layout;
  const most = columns.length - 1;
  const placeOf = (move) => {
    if (move > place && !future) return here + move - place;
    const whole = Math.min(Math.floor(move), most);
    return columns[whole] + move - whole;
  };
  const beyond = Math.max(0, end - columns[most]);
  const last = Math.min(run.last, placeAfter(columns, end) - 1 + beyond);
  const lanes = lanesOf(run, false);
  const laneHeight = Math.max(LANE.compared, Math.min(layout.laneHeight,
    (room.height - LANE.foot) / lanes.length));
  return {
    ...layout, first: Math.max(1, placeAfter(columns, origin - 1)), last, placeOf, here,
    now: place, lanes, laneHeight, height: laneHeight * lanes.length + LANE.foot,
  };
}

const LOW_LANE = 62;
// On an exercise sheet nothing is below a mark, so a lane needs less.
const LOW_BLANK = 44;

// Whether a lane has room for words above its marks and below its name.
/** @param {View} view @param {Layout} layout */
export const isTall = (view, layout) => (
  layout.laneHeight >= (view.blank ? LOW_BLANK : LOW_LANE));

// Where a column is; a move is in the column of its number, or in that of the move beside it.
/** @param {Layout} layout */
export function placeX(layout, place) {
  return layout.gutter + (place - layout.origin + 0.6) * layout.column;
}

/** @param {Layout} layout */
export const placeOf = (layout, move) => (layout.placeOf ? layout.placeOf(move) : move);
/** @param {Layout} layout */
export const columnX = (layout, move) => placeX(layout, placeOf(layout, move));

/** @param {Layout} layout */
export function laneMiddle(layout, index) {
  const middle = layout.laneHeight < LOW_LANE ? 0.5 : 0.54;
  return layout.laneHeight * (index + middle);
}
