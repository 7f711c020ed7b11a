/* The ticket lock of Mellor-Crummey and Scott 1991, section 2.2, as a model for SPIN.
 *
 * Different from the source: a release is a read and a write, and words have BITS bits.
 */
#include "rounds.pml"

byte next_ticket, now_serving;

active [THREADS] proctype thread()
{
    byte begun;            /* how often this thread has called acquire */
    byte ticket, served;

end_Idle:
    do
    :: d_step { BEGIN };                           /* the call: acquire */
TakeTicket:
       d_step { ticket = next_ticket; next_ticket = WRAP(next_ticket + 1) };
AwaitTurn:
       do
       :: now_serving != ticket                    /* a failed poll */
       :: d_step { now_serving == ticket -> ticket = 0 };
          break
       od;
TicketInside:
       true;                                       /* the call: release */
ReadServing:
       served = now_serving;
PassOn:
       d_step { now_serving = WRAP(served + 1); served = 0 }
    od
}
