/* What a thread of the read-write examples does in a round: it writes in one of three, and makes a
   reading of every fourth writing before it gives that back; else it reads.

   SPDX-License-Identifier: Apache-2.0 OR MIT */

static rw_lock the_lock;

static void open_lock(void)
{
    memset(&the_lock, 0, sizeof the_lock);
    monitor_open(&the_lock.monitor);
}

static void read_round(unsigned thread, unsigned round)
{
    read_lock(&the_lock);
    inside(thread, round);
    read_unlock(&the_lock);
}

static void write_round(unsigned thread, unsigned round)
{
    write_lock(&the_lock);
    inside(thread, round);
    if (round / 3 % 4 != 3) {
        write_unlock(&the_lock);
        return;
    }
    downgrade(&the_lock);
    inside(thread, round);
    read_unlock(&the_lock);
}

static void one_round(unsigned thread, unsigned round)
{
    if ((round + thread) % 3 == 2)
        write_round(thread, round);
    else
        read_round(thread, round);
}

static void one_call(unsigned thread, int call)
{
    (void)thread;
    switch (call) {
    case LR_CALL_rlock: read_lock(&the_lock); break;
    case LR_CALL_wlock: write_lock(&the_lock); break;
    case LR_CALL_runlock: read_unlock(&the_lock); break;
    case LR_CALL_wunlock: write_unlock(&the_lock); break;
    default: downgrade(&the_lock); break;
    }
}
