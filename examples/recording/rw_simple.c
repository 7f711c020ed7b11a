/* The simple read-write lock, as a monitor. C11, and C++17 as well.

   After Herlihy and Shavit, "The Art of Multiprocessor Programming", chapter 8, with a downgrade.

   SPDX-License-Identifier: Apache-2.0 OR MIT */
#define LOCK "rw-simple"
enum { BITS = 64 };

#include "driver.h"
#include "monitor.h"

typedef struct {
    rw_monitor monitor;
    uint64_t readers;
    int writer;
} rw_lock;

static void read_lock(rw_lock *lock)
{
    LR_CALL(rlock);
    monitor_enter(&lock->monitor);
    while (lock->writer) {
        LR_SECTION(++lock->monitor.sections, waits);
        monitor_wait(&lock->monitor);
    }
    lock->readers++;
    LR_SECTION(++lock->monitor.sections, entered);
    monitor_leave(&lock->monitor);
}

static void read_unlock(rw_lock *lock)
{
    LR_CALL(runlock);
    monitor_enter(&lock->monitor);
    lock->readers--;
    LR_SECTION(++lock->monitor.sections, left);
    monitor_leave(&lock->monitor);
}

static int writer_must_wait(const rw_lock *lock) { return lock->readers > 0 || lock->writer; }

static void write_lock(rw_lock *lock)
{
    LR_CALL(wlock);
    monitor_enter(&lock->monitor);
    while (writer_must_wait(lock)) {
        LR_SECTION(++lock->monitor.sections, waits);
        monitor_wait(&lock->monitor);
    }
    lock->writer = 1;
    LR_SECTION(++lock->monitor.sections, entered);
    monitor_leave(&lock->monitor);
}

static void write_unlock(rw_lock *lock)
{
    LR_CALL(wunlock);
    monitor_enter(&lock->monitor);
    lock->writer = 0;
    LR_SECTION(++lock->monitor.sections, left);
    monitor_leave(&lock->monitor);
}

static void downgrade(rw_lock *lock)
{
    LR_CALL(downgrade);
    monitor_enter(&lock->monitor);
    lock->writer = 0;
    lock->readers++;
    LR_SECTION(++lock->monitor.sections, entered);
    monitor_leave(&lock->monitor);
}

#include "read_write_rounds.h"
