/* Concurrency Kit's ticket lock (ck_spinlock_ticket of Debian's libck-dev), as its header has it.

   If something is recorded, the operations that the header calls are taken over by macros: they
   do the same, and note it. On x86 both counters are halves of one word of 32 bits, 16 bits each.
   So two operations are two steps of the machine each, and LR_JOIN keeps their notes together:
     the fetch-and-add    finds both counters: the add, and the first look at now_serving
     the increment        of the half that is now_serving: the release's look and its write

   SPDX-License-Identifier: Apache-2.0 OR MIT */
#define LOCK "ticket"
enum { BITS = 16 };

#include <ck_pr.h>

#include "driver.h"

#if LR_RECORDS

enum { SHIFT = 16, MASK = 0xFFFF };

static uint32_t noted_add(uint32_t *word, uint32_t addend)
{
    uint32_t found = __atomic_fetch_add(word, addend, __ATOMIC_SEQ_CST);
    LR_JOIN();
    LR_ADD(next_ticket, found >> SHIFT);
    LR_READ(now_serving, found & MASK);
    return found;
}

static uint32_t noted_load(const uint32_t *word)
{
    uint32_t found = __atomic_load_n(word, __ATOMIC_SEQ_CST);
    LR_READ(now_serving, found & MASK);
    return found;
}

static void noted_increment(uint16_t *half)
{
    uint16_t found = __atomic_fetch_add(half, 1, __ATOMIC_SEQ_CST);
    LR_JOIN();
    LR_READ(now_serving, found);
    LR_WRITE(now_serving, (found + 1u) & MASK);
}

#undef ck_pr_load_32
#define ck_pr_load_32(word) noted_load(word)
#define ck_pr_faa_32(word, addend) noted_add(word, addend)
#define ck_pr_inc_16(half) noted_increment(half)
#define ck_pr_stall() sched_yield()

#endif /* recorded */

#include <spinlock/ticket.h>

#ifndef CK_F_SPINLOCK_TICKET_TRYLOCK
#error "these notes are for the packed ticket lock, which Concurrency Kit has on x86"
#endif

static ck_spinlock_ticket_t the_lock = CK_SPINLOCK_TICKET_INITIALIZER;

static void open_lock(void) { ck_spinlock_ticket_init(&the_lock); }

static void one_round(unsigned thread, unsigned round)
{
    LR_CALL(acquire);
    ck_spinlock_ticket_lock(&the_lock);
    inside(thread, round);
    LR_CALL(release);
    ck_spinlock_ticket_unlock(&the_lock);
}

static void one_call(unsigned thread, int call)
{
    (void)thread;
    if (call == LR_CALL_acquire) {
        LR_CALL(acquire);
        ck_spinlock_ticket_lock(&the_lock);
    } else {
        LR_CALL(release);
        ck_spinlock_ticket_unlock(&the_lock);
    }
}
