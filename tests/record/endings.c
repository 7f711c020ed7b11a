/* A ticket lock of atomics that note themselves. In its fourth round, thread 1 runs BODY inside. */
#include <assert.h>
#include <signal.h>

#include "ticket.h"
#include "main.h"

static void reset(void) { next_ticket = now_serving = 0; }

static void one_round(unsigned thread, unsigned round)
{
    acquire();
    if (thread == 1 && round == 3) { BODY; }
    LR_SWITCH();
    release();
}

MAIN("ticket", 8, reset)
