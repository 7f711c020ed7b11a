/* An MCS lock, its records reached by pointers.

   After Mellor-Crummey and Scott (ACM TOCS 9(1), 1991).

   SPDX-License-Identifier: Apache-2.0 OR MIT */
#define LOCK "mcs"
enum { BITS = 64 };

#include <stdatomic.h>
#include <stddef.h>

#include "driver.h"

typedef struct record {
    _Atomic(struct record *) next;
    _Atomic unsigned locked;
    char apart[112]; /* two records are never on one cache line */
} record;

typedef struct {
    _Atomic(record *) tail;
    record records[MOST_THREADS];
} mcs_lock;

static void link_behind(mcs_lock *lock, record *before, record *own)
{
    (void)lock;
    atomic_store(&before->next, own);
    LR_WRITE_OF(next, before - lock->records, LR_RECORD(lock->records, own));
}

static void await_grant(record *own)
{
    for (;;) {
        unsigned locked = atomic_load(&own->locked);
        LR_READ(locked, locked);
        if (!locked) return;
        sched_yield();
    }
}

static void mcs_acquire(mcs_lock *lock, record *own)
{
    LR_CALL(acquire);
    atomic_store(&own->next, NULL);
    LR_WRITE(next, 0);
    record *before = atomic_exchange(&lock->tail, own);
    LR_SWAP(tail, LR_RECORD(lock->records, before));
    if (!before) return;
    atomic_store(&own->locked, 1);
    LR_WRITE(locked, 1);
    link_behind(lock, before, own);
    await_grant(own);
}

static record *await_link(mcs_lock *lock, record *own)
{
    (void)lock;
    for (;;) {
        record *next = atomic_load(&own->next);
        LR_READ(next, LR_RECORD(lock->records, next));
        if (next) return next;
        sched_yield();
    }
}

static void mcs_release(mcs_lock *lock, record *own)
{
    LR_CALL(release);
    record *next = atomic_load(&own->next);
    LR_READ(next, LR_RECORD(lock->records, next));
    if (!next) {
        record *last = own;
        int alone = atomic_compare_exchange_strong(&lock->tail, &last, NULL);
        LR_CAS(tail, alone);
        if (alone) return;
        next = await_link(lock, own);
    }
    atomic_store(&next->locked, 0);
    LR_WRITE_OF(locked, next - lock->records, 0);
}

static mcs_lock the_lock;

static void open_lock(void) { memset(&the_lock, 0, sizeof the_lock); }

static void one_round(unsigned thread, unsigned round)
{
    record *own = &the_lock.records[thread];
    mcs_acquire(&the_lock, own);
    inside(thread, round);
    mcs_release(&the_lock, own);
}

static void one_call(unsigned thread, int call)
{
    record *own = &the_lock.records[thread];
    if (call == LR_CALL_acquire)
        mcs_acquire(&the_lock, own);
    else
        mcs_release(&the_lock, own);
}
