/* A ticket lock with counters of 4 bits, so that they wrap around every 16 tickets.

   After Mellor-Crummey and Scott (ACM TOCS 9(1), 1991).

   SPDX-License-Identifier: Apache-2.0 OR MIT */
#define LOCK "ticket"
enum { BITS = 4, MASK = (1 << BITS) - 1 };

#include <stdatomic.h>

#include "driver.h"

typedef struct {
    _Atomic unsigned next_ticket, now_serving;
} ticket_lock;

static int must_wait(unsigned served, unsigned ticket) { return served != ticket; }

static void ticket_acquire(ticket_lock *lock)
{
    LR_CALL(acquire);
    unsigned ticket = atomic_fetch_add(&lock->next_ticket, 1) & MASK;
    LR_ADD(next_ticket, ticket);
    for (;;) {
        unsigned served = atomic_load(&lock->now_serving);
        LR_READ(now_serving, served);
        if (!must_wait(served, ticket)) return;
        sched_yield();
    }
}

static void ticket_release(ticket_lock *lock)
{
    LR_CALL(release);
    unsigned served = atomic_load(&lock->now_serving);
    LR_READ(now_serving, served);
    unsigned next = (served + 1) & MASK;
    atomic_store(&lock->now_serving, next);
    LR_WRITE(now_serving, next);
}

static ticket_lock the_lock;

static void open_lock(void) { the_lock.next_ticket = the_lock.now_serving = LR_START; }

static void one_round(unsigned thread, unsigned round)
{
    ticket_acquire(&the_lock);
    inside(thread, round);
    ticket_release(&the_lock);
}

static void one_call(unsigned thread, int call)
{
    (void)thread;
    if (call == LR_CALL_acquire)
        ticket_acquire(&the_lock);
    else
        ticket_release(&the_lock);
}
