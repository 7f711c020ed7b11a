/* What recording costs one thread: nanoseconds for an acquire and a release, and for a bare note.

       recording ROUNDS [FOLDER]

   Prints three figures: a ticket lock with its 6 notes, an MCS lock with its 7, and a note by
   itself. Without a mode it has the locks alone, and with a folder the notes are in a file. */
#include <stdatomic.h>
#include <stddef.h>
#include <stdio.h>
#include <stdlib.h>
#include <time.h>

#include <lockreplay_record.h>

typedef struct record {
    _Atomic(struct record *) next;
    _Atomic unsigned locked;
} record;

static _Atomic unsigned next_ticket, now_serving;
static _Atomic(record *) tail;
static record own;

static void ticket_round(void)
{
    LR_CALL(acquire);
    unsigned ticket = atomic_fetch_add(&next_ticket, 1), served;
    LR_ADD(next_ticket, ticket);
    do {
        served = atomic_load(&now_serving);
        LR_READ(now_serving, served);
    } while (served != ticket);
    LR_CALL(release);
    served = atomic_load(&now_serving);
    LR_READ(now_serving, served);
    atomic_store(&now_serving, served + 1);
    LR_WRITE(now_serving, served + 1);
}

static void mcs_round(void)
{
    LR_CALL(acquire);
    atomic_store(&own.next, NULL);
    LR_WRITE(next, 0);
    record *before = atomic_exchange(&tail, &own);
    LR_SWAP(tail, before != NULL);
    (void)before;
    LR_CALL(release);
    record *next = atomic_load(&own.next), *last = &own;
    LR_READ(next, next != NULL);
    (void)next;
    int wrote = atomic_compare_exchange_strong(&tail, &last, NULL);
    LR_CAS(tail, wrote);
    (void)wrote;
}

static void bare_round(void) { LR_CALL(acquire); }

typedef void (*one_round)(void);

static double nanoseconds(one_round work, long rounds, const char *folder)
{
    struct timespec from, to;
    lr_run *run = lr_open("mcs", 1, 64, (size_t)rounds * 8, 1, folder);
    lr_log *log = lr_log_of(run, 0);
    lr_begin(log);
    timespec_get(&from, TIME_UTC);
    for (long round = 0; round < rounds; round++) work();
    timespec_get(&to, TIME_UTC);
    lr_end(log);
    lr_close(run);
    double passed = (double)(to.tv_sec - from.tv_sec) * 1e9 + (double)(to.tv_nsec - from.tv_nsec);
    return passed / (double)rounds;
}

int main(int count, char **words)
{
    long rounds = count == 2 || count == 3 ? atol(words[1]) : 0;
    const char *folder = count == 3 ? words[2] : NULL;
    if (rounds < 1) return 2;
    printf("%.2f", nanoseconds(ticket_round, rounds, folder));
    printf(" %.2f", nanoseconds(mcs_round, rounds, folder));
    printf(" %.2f\n", nanoseconds(bare_round, rounds, folder));
    return 0;
}
