/* A ticket lock whose holder sets a flag for a moment, without a note: SET(1) and SET(0). A thread
   that finds the flag set notes a release without an acquire. */
#include "ticket.h"
#include "main.h"

static _Atomic int flag;
static int plain;

static int is_set(void) { return atomic_load(&flag) || __atomic_load_n(&plain, __ATOMIC_SEQ_CST); }

static void reset(void)
{
    next_ticket = now_serving = 0;
    flag = plain = 0;
}

static void one_round(unsigned thread, unsigned round)
{
    (void)round;
    if (thread == 1 && is_set()) LR_CALL(release);
    acquire();
    if (thread == 0) {
        SET(1);
        SET(0);
    }
    release();
}

MAIN("ticket", 8, reset)
