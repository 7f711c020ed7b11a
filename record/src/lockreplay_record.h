/* lockreplay_record.h: notes what each step of your lock found, and checks the run.
   SPDX-License-Identifier: Apache-2.0 OR MIT

   One file for C11 and for C++14 and later, with GCC or Clang and POSIX threads. Include it after
   all other headers. docs/RECORDING.md says which steps to note, docs/FORMATS.md what is written.

   IN SHORT: a ticket lock, noted, and its test.
       void acquire(void) {
           LR_CALL(acquire);
           unsigned char ticket = lr_fetch_add(&next_ticket, 1, LR_NEXT_TICKET);
           while (lr_load(&now_serving, LR_NOW_SERVING) != ticket) {}
       }
       void release(void) {
           LR_CALL(release);
           unsigned char next = lr_load(&now_serving, LR_NOW_SERVING) + 1;
           lr_store(&now_serving, next, LR_NOW_SERVING);
       }
       void reset(void) { next_ticket = now_serving = 0; }
       void one_round(unsigned thread, unsigned round) { acquire(); release(); }
       int main(int count, char **words) {
           lr_driver driver = {"ticket", 8, reset, one_round, NULL};
           return lr_main(&driver, count, words);
       }
       cc -DLR_MODE=EXPLORE -pthread ticket.c locktrace.c -o ticket && ./ticket 2 1 2 logs

   MODES: -DLR_MODE=.., the same in all files of a program. Begin with EXPLORE.
     EXPLORE  one thread runs at a time: all runs of a driver with at most P preemptions are made,
              and each is checked. Link with locktrace.c
     SEED     the same, but a number drawn by the seed says who is next: a seed is one run
     VALUES   the threads run as they like. A note is a few stores into the thread's own memory.
              `locktrace order` puts the threads' logs into an order
     FOLLOW   one thread runs at a time: a schedule says which one is next, and what it has to do
     OFF      (or no LR_MODE, of which `lr_main` warns) nothing is recorded. Macros of calls and
              steps are empty, and their arguments are not even compiled; a monitor's macros do
              what the code does without this header, and the functions of a run do nothing

   OPTIONS: what is defined beside a mode.
     LR_ATOMICS=0    a turn changes only after a note, not before an atomic operation. Else
                     SEED, EXPLORE, and VALUES with LR_NOISE have a point before each operation of
                     <stdatomic.h>, __atomic_, __sync_ and lr::atomic<T>. `count++` of an _Atomic
                     variable, volatile accesses and assembler have none
     LR_CHECK        with SEED and FOLLOW: each run is checked as with EXPLORE
     LR_MAPPED=0     with VALUES: a run's notes are in memory alone. Else, on Linux, they are in the
                     file run.notes of its folder while it goes on
     LR_NOISE        with VALUES: threads are held up at one note in eight, or in LR_NOISE
     LR_PCT=d        with SEED: few changes of the turn, at drawn places; LR_STEPS=k
                     (1,000) is how many turns a run has
     LR_SPURIOUS=n   with SEED: one turn in n wakes a thread of LR_WAIT that nobody signalled; else
                     one in 8 does with an even seed. EXPLORE wakes such a thread in place of a
                     preemption. 0: none is woken
     LR_START=n      the lock's counters begin at n, near where they wrap around: `reset` sets them
                     so. A trace has what was counted since then
     LR_PATIENCE=n   a run hangs after n turns (SEED: 20,000, EXPLORE: 1,000) in which nothing was
                     noted but polls that found the same. Operations without notes have turns too
     LR_MOVES=n      with EXPLORE: room for n moves of each thread (4,096)
     LR_REDUCE=0     with EXPLORE: runs are made that differ only in the order of steps on different
                     words, or in how often a thread looks at a word that nobody changes. A lock
                     that counts its looks needs it if the line of a search says `repeated polls
                     left out`. An operation without a point or a note is not seen as a step

   CALLS AND STEPS, each right after what it notes. A step on a word that no lock has it on is not
   compiled, and a counter's value takes the width of the counter.
     LR_CALL(call)              acquire, release, rlock, runlock, wlock, wunlock or downgrade
     LR_READ(word, found)       next_ticket, now_serving, tail; the own record's next, locked
     LR_WRITE(word, left), LR_SWAP(tail, found), LR_ADD(next_ticket, found)
     LR_CAS(tail, wrote)        wrote: not 0 if the compare-and-swap wrote
     LR_READ_OF(word, j, found), LR_WRITE_OF(word, j, left)
                                next and locked of thread j's record
     LR_SECTION(count, outcome) a section of a monitor: entered, left, waits or moved. `count` is a
                                number that the monitor keeps: `++monitor->sections`
     LR_RECORD(first, pointer)  the value of a pointer to a record in an array: 0 or j + 1
     LR_JOIN()                  the next note and the one after it are one operation
     LR_SWITCH()                another thread may have its turn, though no step was taken

   ATOMICS that note themselves: lr_load, lr_store, lr_exchange, lr_fetch_add, lr_compare_exchange,
   lr_own_record, and lr::noted<T, WORD> in C++. Their part below has them all.

   A MONITOR: `lock`, `wait` and so on are what the code does without this header. With one thread
   at a time LR_WAIT does `unlock` and `lock` in place of `wait`. `condition` is a pointer by which
   waits and signals are matched.
     LR_LOCK(lock), LR_UNLOCK(unlock)
     LR_WAIT(condition, unlock, wait, lock)
     LR_SIGNAL(condition, signal), LR_BROADCAST(condition, broadcast)

   A DRIVER: {lock, bits, reset, round, call}. `reset()` makes the lock new, `round(thread, number)`
   takes it and gives it back, and `call(thread, LR_CALL_acquire)`, which only FOLLOW needs, makes
   that call, or another one by its name.

   A RUN: `lr_main` does all of this, and says its own arguments.
       lr_run *run = lr_open("mcs", threads, bits, moves, seed, "folder");
       lr_log *log = lr_log_of(run, thread);        for thread 0 to threads - 1
       lr_begin(log);  ... the thread's work ...  lr_end(log);      on each thread
       unsigned missing = lr_await(run, seconds);   threads that have not ended
       int fault = lr_save(run);                    0, or an errno
       lr_close(run);                               after all threads were joined

   The lock is ticket, mcs, rw-simple or rw-fifo.
   `threads` is 1 to 64, and `bits` 2 to 64: the width of the lock's counters (64 if nothing
   wraps), with fewer threads than such a counter has values. Each log has room for `moves` moves.
   `lr_open` makes the folder, without what an earlier run left there; NULL as the folder saves
   nothing. If the program crashes or is killed, another process saves what was noted until then.
   If that is killed as well, the notes are in run.notes: `lr_recover("folder")` waits for the end
   of the run, and then makes its logs unless they are there. `lr_await` waits for all threads, or
   until no move has come for `seconds`; `lr_said(run)` has why it gave up. Each fault is said on
   standard error: `lr_open` then gives NULL, `lr_save` and `lr_recover` give an errno (ENOBUFS if
   a log was full), and a call that is not allowed there ends the program with status 2. */
#ifndef LOCKREPLAY_RECORD_H
#define LOCKREPLAY_RECORD_H

/* generated: version */
/* clang-format off */
#define LR_VERSION "2.0.0"
/* clang-format on */
/* end */

#include "modes.h"
#include "moves.h"
#include "words.h"

#if LR_RECORDS
#include "run.h"
#include "texts.h"
#include "noise.h"
#include "steps.h"
#if LR_TURNS
#include "turns.h"
#endif
#if LR_SEEDED
#include "draw.h"
#endif
#include "follow.h"
#else
#include "off.h"
#endif
#include "monitor.h"
#include "notes.h"
#if LR_RECORDS
#include "locktrace.h"
#include "folder.h"
#include "mapped.h"
#include "watch.h"
#include "open.h"
#include "await.h"
#include "save.h"
#include "recover.h"
#include "published.h"
#include "check.h"
#endif
#include "pin.h"
#include "driver.h"
#if LR_RECORDS
#include "ways.h"
#include "reduce.h"
#include "explore.h"
#include "schedule.h"
#include "records.h"
#endif
#include "main.h"
#include "atomics.h"
#include "noted.h"

#endif /* LOCKREPLAY_RECORD_H */
