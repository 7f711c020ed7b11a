/* The FIFO read-write lock, as a monitor, with counts of 8 bits. C11, and C++17 as well.

   After Herlihy and Shavit, "The Art of Multiprocessor Programming", chapter 8, with a downgrade. A
   writer sets the flag first, and then waits for the readers that are inside.

   SPDX-License-Identifier: Apache-2.0 OR MIT */
#define LOCK "rw-fifo"
enum { BITS = 8 };

#include "driver.h"
#include "monitor.h"

typedef struct {
    rw_monitor monitor;
    unsigned char read_acquires, read_releases;
    int writer;
} rw_lock;

static int has_readers(const rw_lock *lock) { return lock->read_acquires != lock->read_releases; }

static int reader_must_wait(const rw_lock *lock) { return lock->writer; }

static void read_lock(rw_lock *lock)
{
    LR_CALL(rlock);
    monitor_enter(&lock->monitor);
    while (reader_must_wait(lock)) {
        LR_SECTION(++lock->monitor.sections, waits);
        monitor_wait(&lock->monitor);
    }
    lock->read_acquires++;
    LR_SECTION(++lock->monitor.sections, entered);
    monitor_leave(&lock->monitor);
}

static void read_unlock(rw_lock *lock)
{
    LR_CALL(runlock);
    monitor_enter(&lock->monitor);
    lock->read_releases++;
    LR_SECTION(++lock->monitor.sections, left);
    monitor_leave(&lock->monitor);
}

/* The writer's flag is set: no more readers come in, and those inside go. */
static void wait_for_readers(rw_lock *lock)
{
    LR_SECTION(++lock->monitor.sections, moved);
    monitor_wait(&lock->monitor);
    while (has_readers(lock)) {
        LR_SECTION(++lock->monitor.sections, waits);
        monitor_wait(&lock->monitor);
    }
}

static void write_lock(rw_lock *lock)
{
    LR_CALL(wlock);
    monitor_enter(&lock->monitor);
    while (lock->writer) {
        LR_SECTION(++lock->monitor.sections, waits);
        monitor_wait(&lock->monitor);
    }
    lock->writer = 1;
    if (has_readers(lock)) wait_for_readers(lock);
    LR_SECTION(++lock->monitor.sections, entered);
    monitor_leave(&lock->monitor);
}

static void write_unlock(rw_lock *lock)
{
    LR_CALL(wunlock);
    monitor_enter(&lock->monitor);
    lock->writer = 0;
    LR_SECTION(++lock->monitor.sections, left);
    monitor_leave(&lock->monitor);
}

static void downgrade(rw_lock *lock)
{
    LR_CALL(downgrade);
    monitor_enter(&lock->monitor);
    lock->writer = 0;
    lock->read_acquires++;
    LR_SECTION(++lock->monitor.sections, entered);
    monitor_leave(&lock->monitor);
}

#include "read_write_rounds.h"
