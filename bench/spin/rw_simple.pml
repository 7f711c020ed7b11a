/* The SimpleReadWriteLock of Herlihy and Shavit, chapter 8, as a model for SPIN.
 *
 * Different from the source: a waiting thread may look again at any time, as after a spurious wake;
 * the count has BITS bits; a writer may downgrade.
 */
#include "rounds.pml"

byte readers;
bool flag;

active [THREADS] proctype thread()
{
    byte begun;            /* how often this thread has called rlock or wlock */

end_Idle:
    do
    :: d_step { BEGIN };                           /* the call: rlock */
TryRead:
       do
       :: flag                                     /* it waits */
       :: d_step { !flag -> readers = WRAP(readers + 1) };
          break
       od;
Reading:
       true;                                       /* the call: runlock */
LeaveRead:
       readers = WRAP(readers - 1)
    :: d_step { BEGIN };                           /* the call: wlock */
TryWrite:
       do
       :: readers != 0 || flag                     /* it waits */
       :: d_step { readers == 0 && !flag -> flag = true };
          break
       od;
Writing:
       if
       :: true;                                    /* the call: wunlock */
LeaveWrite:
          flag = false
       :: true;                                    /* the call: downgrade */
TryDowngrade:
          d_step { readers = WRAP(readers + 1); flag = false };
          goto Reading
       fi
    od
}
