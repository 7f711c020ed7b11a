/* The parts that all models for SPIN share. A model is translated as in
 *
 *     spin -a -o3 -DTHREADS=3 -DROUNDS=1 mcs.pml
 *
 * Each statement of a model, and each `d_step`, is one transition, as a move of a schedule is. A
 * label is the phase of a thread whose next step is the one below it; docs/LOCKS.md has the same
 * names. All that a thread does from getting a monitor to leaving it, or to waiting in it, is one
 * statement. A local variable is 0 again as soon as it is not needed, so that two states are one if
 * only it differs. A label `end` lets a thread stay there for ever.
 */
#ifdef ROUNDS
#define BEGIN begun < ROUNDS -> begun++
#else                   /* any number of rounds, of which none is counted */
#define BEGIN true
#endif
#ifndef BITS
#define BITS 8
#endif
#define WRAP(value) ((value) & ((1 << BITS) - 1))
