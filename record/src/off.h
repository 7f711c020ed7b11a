/* OFF: the functions of a run do nothing, so that a driver is the same in each mode. */

#include <errno.h>
#include <limits.h>
#include <stddef.h>
#include <stdint.h>
#include <stdio.h>
#include <stdlib.h>
#include <string.h>
#include <pthread.h>

typedef struct lr_run {
    unsigned threads;
} lr_run;
typedef struct lr_log {
    unsigned thread;
} lr_log;

static inline lr_run *lr_open(const char *lock, unsigned threads, unsigned bits, size_t moves,
                              uint64_t seed, const char *folder)
{
    static lr_run run;
    (void)lock, (void)bits, (void)moves, (void)seed, (void)folder;
    run.threads = threads;
    return &run;
}

static inline lr_log *lr_log_of(lr_run *run, unsigned thread)
{
    static lr_log logs[64];
    (void)run;
    logs[thread % 64].thread = thread;
    return &logs[thread % 64];
}

/* Nothing is noted of a record, so it does not matter whose it is. */
static inline unsigned lr_thread(void) { return 0; }
static inline void lr_begin(lr_log *log) { (void)log; }
static inline void lr_end(lr_log *log) { (void)log; }
static inline unsigned lr_await(lr_run *run, unsigned seconds)
{
    (void)run, (void)seconds;
    return 0;
}

static inline const char *lr_said(const lr_run *run) { return (void)run, ""; }
static inline int lr_recover(const char *folder) { return (void)folder, 0; }
static inline int lr_save(lr_run *run) { return (void)run, 0; }
static inline void lr_close(lr_run *run) { (void)run; }
