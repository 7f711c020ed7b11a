/* The FifoReadWriteLock of Herlihy and Shavit, chapter 8, as a model for SPIN.
 *
 * Different from the source: a reader and a writer wait while the flag is set before they count
 * themselves or set it; a waiting thread may look again at any time, as after a spurious wake; the
 * counts have BITS bits; a writer may downgrade.
 */
#include "rounds.pml"

byte readAcquires, readReleases;
bool flag;

active [THREADS] proctype thread()
{
    byte begun;            /* how often this thread has called rlock or wlock */

end_Idle:
    do
    :: d_step { BEGIN };                           /* the call: rlock */
TryRead:
       do
       :: flag                                     /* it waits */
       :: d_step { !flag -> readAcquires = WRAP(readAcquires + 1) };
          break
       od;
Reading:
       true;                                       /* the call: runlock */
LeaveRead:
       readReleases = WRAP(readReleases + 1)
    :: d_step { BEGIN };                           /* the call: wlock */
TryWrite:
       do
       :: flag                                     /* it waits */
       :: d_step { !flag && readAcquires == readReleases -> flag = true };
          break                                    /* it enters at once */
       :: d_step { !flag && readAcquires != readReleases -> flag = true };
AwaitReaders:                                      /* it has announced itself */
          do
          :: readAcquires != readReleases          /* it waits */
          :: readAcquires == readReleases -> break
          od;
          break
       od;
Writing:
       if
       :: true;                                    /* the call: wunlock */
LeaveWrite:
          flag = false
       :: true;                                    /* the call: downgrade */
TryDowngrade:
          d_step { readAcquires = WRAP(readAcquires + 1); flag = false };
          goto Reading
       fi
    od
}
