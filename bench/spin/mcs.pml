/* The MCS lock of Mellor-Crummey and Scott 1991, section 2.4, as a model for SPIN.
 *
 * Different from the source: each thread has one record, which it uses again. NIL is 0, and RECORD
 * is one more than the number of the thread.
 */
#include "rounds.pml"
#define NIL 0
#define RECORD (_pid + 1)
#define OWNER(record) (record - 1)

byte tail;
byte next[THREADS];
bool locked[THREADS];

active [THREADS] proctype thread()
{
    byte begun;            /* how often this thread has called acquire */
    byte pred, succ;

end_Idle:
    do
    :: d_step { BEGIN };                           /* the call: acquire */
ClearNext:
       next[_pid] = NIL;
SwapTail:
       if
       :: d_step { tail == NIL -> tail = RECORD }
       :: d_step { tail != NIL -> pred = tail; tail = RECORD };
SetLocked:
          locked[_pid] = true;
LinkTo:
          d_step { next[OWNER(pred)] = RECORD; pred = NIL };
AwaitGrant:
          do
          :: locked[_pid]                          /* a failed poll */
          :: !locked[_pid] -> break
          od
       fi;
McsInside:
       true;                                       /* the call: release */
ReadNext:
       if
       :: d_step { next[_pid] != NIL -> succ = next[_pid] }
       :: next[_pid] == NIL;
CasTail:
          if
          :: d_step { tail == RECORD -> tail = NIL };
             goto end_Idle
          :: tail != RECORD;
AwaitLink:
             do
             :: next[_pid] == NIL                  /* a failed poll */
             :: d_step { next[_pid] != NIL -> succ = next[_pid] };
                break
             od
          fi
       fi;
Grant:
       if                                          /* SPIN lets no `break` lead into a `d_step` */
       :: d_step { true -> locked[OWNER(succ)] = false; succ = NIL }
       fi
    od
}
