/* An MCS lock of atomics that note themselves. Each thread has its record on its stack; with
   SIDE_BY_SIDE it has one in an array, and another one in each second round; with POOL it takes one
   from a pool for each round. With SWAP_OF_TWO the swap of the tail is a load and a store; with
   NOBODYS no thread tells the recorder which record is its own. C11; noted.cc is the same in C++.
*/
#include <sched.h>
#include <stdatomic.h>
#include <stddef.h>

#include "main.h"

typedef struct record {
    _Atomic(struct record *) next;
    _Atomic unsigned locked;
} record;

static _Atomic(record *) tail;

static record *swap_tail(record *own)
{
#ifdef SWAP_OF_TWO
    record *found = lr_load(&tail, LR_TAIL);
    lr_store(&tail, own, LR_TAIL);
    return found;
#else
    return lr_exchange_explicit(&tail, own, memory_order_acq_rel, LR_TAIL);
#endif
}

static void acquire(record *own)
{
    LR_CALL(acquire);
#ifndef NOBODYS
    lr_own_record(own);
#endif
    lr_store_explicit(&own->next, NULL, memory_order_relaxed, LR_NEXT);
    record *before = swap_tail(own);
    if (!before) return;
    lr_store(&own->locked, 1, LR_LOCKED);
    lr_store(&before->next, own, LR_NEXT);
    while (lr_load_explicit(&own->locked, memory_order_acquire, LR_LOCKED)) sched_yield();
}

static void release(record *own)
{
    LR_CALL(release);
    record *next = lr_load(&own->next, LR_NEXT), *last = own;
    if (!next && lr_compare_exchange(&tail, &last, NULL, LR_TAIL)) return;
    while (!next) next = lr_load(&own->next, LR_NEXT);
    lr_store(&next->locked, 0, LR_LOCKED);
}

#include "rounds.h"

MAIN("mcs", 64, reset)
