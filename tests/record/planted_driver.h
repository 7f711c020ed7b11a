/* Takes the place of examples/recording/driver.h for planted mistakes.

       LOCK THREADS ROUNDS SEEDS             SEED: prints how many of the runs by the seeds from 1
                                             on are refused or hang
       LOCK THREADS ROUNDS SEED DIRECTORY    VALUES: status 1 if threads are left and all of
                                             them are stuck (stuck.h)

   The other modes are those of the header's own main function.

   SPDX-License-Identifier: Apache-2.0 OR MIT */
#include <pthread.h>
#include <sched.h>
#include <stdint.h>
#include <stdio.h>
#include <stdlib.h>
#include <string.h>

#include "../../built/lockreplay_record.h"

enum { MOST_THREADS = 64 };

static void open_lock(void);
static void one_round(unsigned thread, unsigned round);
static void one_call(unsigned thread, int call);

static void inside(unsigned thread, unsigned round)
{
    if (!LR_TURNS && (round * 7 + thread) % 3 == 0) sched_yield();
    LR_SWITCH();
}

#if LR_SEEDED
static int try_runs(const lr_driver *driver, int count, char **words)
{
    unsigned refused = 0, rounds = (unsigned)atoi(words[2]), seeds = (unsigned)atoi(words[3]);
    (void)count;
    for (unsigned seed = 1; seed <= seeds; seed++) {
        lr_run *run =
            lr_open(LOCK, (unsigned)atoi(words[1]), BITS, (size_t)rounds * LR_ROUND, seed, NULL);
        if (!run) _Exit(3);
        unsigned missing = lr_go(run, driver, rounds, 10);
        refused += lr_check(run) || run->said[0];
        if (!missing) lr_close(run);
    }
    printf("%u\n", refused);
    fflush(stdout);
    return 0;
}
#elif LR_FREE
#include "stuck.h"

static size_t noted(lr_run *run)
{
    size_t count = 0;
    for (unsigned t = 0; t < run->threads; t++) count += lr_length_of(&run->logs[t]);
    return count;
}

/* Waits until all threads end or all threads left are stuck: whether all ended. */
static int all_end(lr_run *run)
{
    static struct tasks tasks;
    size_t before = 0;
    for (int is_stuck = 0; lr_missing(run) && !is_stuck; pause_of_a_tick()) {
        size_t now = noted(run);
        is_stuck = are_stuck(&tasks, now != before);
        before = now;
    }
    return !lr_missing(run);
}

/* A full log is no fault here, since a lock with some mistakes runs without end. */
static int try_runs(const lr_driver *driver, int count, char **words)
{
    unsigned rounds = (unsigned)atoi(words[2]);
    lr_run *run = count == 5
                      ? lr_open(LOCK, (unsigned)atoi(words[1]), BITS, (size_t)rounds * LR_ROUND,
                                strtoul(words[3], NULL, 10), words[4])
                      : NULL;
    if (!run) return 3;
    run->driver = driver;
    run->rounds = rounds;
    open_lock();
    for (unsigned t = 0; t < run->threads; t++)
        if (pthread_create(&run->logs[t].id, NULL, lr_work, &run->logs[t])) return 3;
    int is_well = all_end(run), fault = lr_save(run);
    return fault && fault != ENOBUFS ? 3 : !is_well;
}
#else
#define try_runs lr_main
#endif

int main(int count, char **words)
{
    const lr_driver driver = {LOCK, BITS, open_lock, one_round, one_call};
    _Exit(try_runs(&driver, count, words));
}
