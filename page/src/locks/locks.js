// The locks, in the order in which the machine numbers them. What the page knows of a lock is in
// the lock's own file: its name in schedules and lessons, its title, the signs of its lanes, and
// the picture of its memory. Its code is in docs/LOCKS.md; the module gives its sentences.

import { mcs } from './mcs.js';
import { rwFifo } from './rw_fifo.js';
import { rwSimple } from './rw_simple.js';
import { ticket } from './ticket.js';

/** @typedef {import('../model/run.js').Run} Run */

/**
 * What the page knows of a lock.
 * @typedef {import('../model/session.js').View} View
 * @typedef {import('../machine/machine.js').AnyState} State
 * @typedef {import('./shapes.js').Picture} Picture
 * @typedef {Pick<View, 'run' | 'names'>} Named
 * @typedef {object} Lock
 * @property {string} name in schedules
 * @property {string} title
 * @property {string} lesson the first word of its lessons' names
 * @property {string} memory what the picture of its memory is of
 * @property {boolean} [hasRecords] whether each thread has words of its own
 * @property {number} [leastColumn] how wide its calls are
 * @property {string[]} signs of its lanes, by their names in the legend
 * @property {{text: string, words: string[]}} [wraps] what is said when one of these wraps around
 * @property {(view: View, move: number) => string} mark what is below a move's mark
 * @property {(named: Named, move: number, phase: number) => Object<string, string>} [values]
 *   further values of its sentences
 * @property {(word: number, named: Named) => string} wordName
 * @property {(word: number, value: bigint, named: Named) => string} valueText
 * @property {(name: string, value: string) => string} [listedValue] of a word of a changed lock, if
 *   it is not a number
 * @property {(view: View, state: State) => Picture} draw its memory
 * @property {(view: View, state: State) => {text: string, missing?: boolean}} caption below it
 * @property {(view: View, state: State) => number} leastWidth of the picture at its full size
 */

/** @type {Lock[]} */
// generated: modules by number
export const LOCKS = [ticket, mcs, rwSimple, rwFifo];
// end

export const lockTitle = (wanted) => LOCKS.find(({ name }) => name === wanted).title;

/** @param {Run} run */
export const lockOf = (run) => LOCKS[run.kind];
