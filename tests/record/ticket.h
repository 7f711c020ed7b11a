/* A right ticket lock of atomics that note themselves, for more than one program. */
#include <pthread.h>
#include <sched.h>
#include <stdatomic.h>

#include "../../built/lockreplay_record.h"

static _Atomic unsigned char next_ticket, now_serving;

static void acquire(void)
{
    LR_CALL(acquire);
    unsigned char ticket = lr_fetch_add(&next_ticket, 1, LR_NEXT_TICKET);
    while (lr_load(&now_serving, LR_NOW_SERVING) != ticket) sched_yield();
}

static void release(void)
{
    LR_CALL(release);
    unsigned char next = (unsigned char)(lr_load(&now_serving, LR_NOW_SERVING) + 1);
    lr_store(&now_serving, next, LR_NOW_SERVING);
}
