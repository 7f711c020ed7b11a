/* Concurrency Kit's MCS lock (ck_spinlock_mcs of Debian's libck-dev), as its header has it.

   If something is recorded, the operations that the header calls are taken over by macros: they
   do the same, and note it. In three places its steps are not the machine's:
     `next`     is set by a plain store: noted at the fence after it
     `locked`   is set before the swap: noted after it, if there is a predecessor. Nobody looks
                at it before the link. Both notes say what the word holds, and not what it should:
                else they would stand for a store that is missing
     the tail   is loaded before the compare-and-swap. If that finds another record, there is no
                compare-and-swap: the load is noted as one that failed. Else it is not noted

   SPDX-License-Identifier: Apache-2.0 OR MIT */
#define LOCK "mcs"
enum { BITS = 64 };

#include <ck_pr.h>

#include "driver.h"

#if LR_RECORDS

static void noted_fence(void);
static void *noted_swap(void *word, void *record);
static bool noted_cas(void *word, void *old, void *record);
static void *noted_load(void *word);
static void noted_link(void *next, void *record);
static unsigned noted_look(unsigned *locked);
static void noted_grant(unsigned *locked, unsigned value);

#undef ck_pr_load_ptr
#undef ck_pr_load_uint
#undef ck_pr_store_ptr
#undef ck_pr_store_uint
#define ck_pr_fence_store_atomic() noted_fence()
#define ck_pr_fas_ptr(word, record) noted_swap(word, record)
#define ck_pr_cas_ptr(word, old, record) noted_cas(word, old, record)
#define ck_pr_load_ptr(word) noted_load(word)
#define ck_pr_store_ptr(next, record) noted_link(next, record)
#define ck_pr_load_uint(locked) noted_look(locked)
#define ck_pr_store_uint(locked, value) noted_grant(locked, value)
#define ck_pr_stall() sched_yield()

#endif /* recorded */

#include <spinlock/mcs.h>

typedef struct {
    ck_spinlock_mcs_context_t node;
    char apart[112]; /* two records are never on one cache line */
} record;

static record records[MOST_THREADS];
static ck_spinlock_mcs_t tail = CK_SPINLOCK_MCS_INITIALIZER;

#if LR_RECORDS

/* The thread of the record that this is a field of. */
static unsigned thread_of(const void *field)
{
    return (unsigned)(((const char *)field - (const char *)records) / (long)sizeof(record));
}

static uint64_t value_of(const void *node) { return LR_RECORD(records, (const record *)node); }

/* The swap that follows orders the stores before it, as the fence would. */
static void noted_fence(void) { LR_WRITE(next, value_of(records[lr_thread()].node.next)); }

static void *noted_swap(void *word, void *node)
{
    void *found = __atomic_exchange_n((void **)word, node, __ATOMIC_SEQ_CST);
    LR_SWAP(tail, value_of(found));
    if (found) LR_WRITE(locked, ((const ck_spinlock_mcs_context_t *)node)->locked);
    return found;
}

static bool noted_cas(void *word, void *old, void *node)
{
    bool wrote = __atomic_compare_exchange_n((void **)word, &old, node, false, __ATOMIC_SEQ_CST,
                                             __ATOMIC_SEQ_CST);
    LR_CAS(tail, wrote);
    return wrote;
}

static void *noted_load(void *word)
{
    void *found = __atomic_load_n((void **)word, __ATOMIC_SEQ_CST);
    if (word != &tail)
        LR_READ(next, value_of(found));
    else if (found != &records[lr_thread()].node)
        LR_CAS(tail, false);
    else
        LR_SWITCH();
    return found;
}

static void noted_link(void *next, void *node)
{
    __atomic_store_n((void **)next, node, __ATOMIC_SEQ_CST);
    LR_WRITE_OF(next, thread_of(next), value_of(node));
}

static unsigned noted_look(unsigned *locked)
{
    unsigned found = __atomic_load_n(locked, __ATOMIC_SEQ_CST);
    LR_READ(locked, found);
    return found;
}

static void noted_grant(unsigned *locked, unsigned value)
{
    __atomic_store_n(locked, value, __ATOMIC_SEQ_CST);
    LR_WRITE_OF(locked, thread_of(locked), value);
}

#endif /* recorded */

static void open_lock(void)
{
    memset(records, 0, sizeof records);
    ck_spinlock_mcs_init(&tail);
}

static void one_round(unsigned thread, unsigned round)
{
    LR_CALL(acquire);
    ck_spinlock_mcs_lock(&tail, &records[thread].node);
    inside(thread, round);
    LR_CALL(release);
    ck_spinlock_mcs_unlock(&tail, &records[thread].node);
}

static void one_call(unsigned thread, int call)
{
    if (call == LR_CALL_acquire) {
        LR_CALL(acquire);
        ck_spinlock_mcs_lock(&tail, &records[thread].node);
    } else {
        LR_CALL(release);
        ck_spinlock_mcs_unlock(&tail, &records[thread].node);
    }
}
