/* What runs each example of this folder: threads that take its lock and give it back. `lr_main` of
   the header has the arguments and the status.

   An example defines LOCK, the lock's name in a trace, and BITS, the width of its counters, and
   includes this file; then it defines `open_lock`, which makes its lock new, `one_round`: a call
   that takes the lock, `inside`, and a call that gives it back, and `one_call`, which makes the
   call that a schedule says.

   SPDX-License-Identifier: Apache-2.0 OR MIT */
#include <pthread.h>
#include <sched.h>
#include <stdint.h>
#include <stdio.h>
#include <stdlib.h>
#include <string.h>

#include "../../built/lockreplay_record.h"

enum { MOST_THREADS = 64 };

static void open_lock(void);
static void one_round(unsigned thread, unsigned round);
static void one_call(unsigned thread, int call);

/* What a thread does while it has the lock: nothing, but that others get their turns meanwhile.
   Free threads stay long in their first round, since the others may not have been woken yet. */
static void inside(unsigned thread, unsigned round)
{
    for (int yields = 0; LR_FREE && round == 0 && yields < 5000; yields++) sched_yield();
    if ((round * 7 + thread) % 3 == 0) sched_yield();
    LR_SWITCH();
}

int main(int count, char **words)
{
    const lr_driver driver = {LOCK, BITS, open_lock, one_round, one_call};
    return lr_main(&driver, count, words);
}
