/* The engine of the Rust crate: the recorder in C, in one of its modes, by functions for Rust.
   SPDX-License-Identifier: Apache-2.0 OR MIT

   build.rs compiles it once for each mode. A function that returns "over" returns 1 if the run was
   stopped: then the thread has to unwind, which no frame of C may see. */
#define LR_HOSTED 1
#include "lockreplay_record.h"

enum { LR_TAKES_STEP = 1, LR_TAKES_IN_MONITOR = 2 };
enum { LR_WRITTEN = 1, LR_OVER = 2 };

/* The options of a run. */
typedef struct lr_setup {
    const char *lock;
    uint32_t threads, bits;
    size_t room;
    uint64_t seed, number; /* the number is taken if it is not 0 */
    size_t depth, steps;   /* of priorities, or 0 */
    int64_t spurious;      /* -1: as the mode has it */
    uint64_t start;
    const lr_line *lines;
    size_t lines_count;
    const unsigned char *way;
    size_t way_length;
    int is_ordered;
    void (*tell_place)(char *text, size_t room, const void *place);
} lr_setup;

/* A note. */
typedef struct lr_noted {
    uint64_t found, left;
    const void *place;
    uint32_t word, on, owner, part;
} lr_noted;

/* What is known of a run at one moment. */
typedef struct lr_state {
    uint64_t number, missing, absent; /* threads that have not ended, or are at work now */
    uint64_t turns, ordered;
    uint64_t woke;         /* by the last notification */
    const void *signalled; /* where that was, or NULL */
    uint32_t holder, gone, has_hung, is_cut, has_strayed, leaves_out;
    uint32_t did, by, word, due; /* the departure from a schedule: LR_DID_.. and its line */
} lr_state;

static int host_is_over(const lr_run *run) { return lr_count_of(run->is_over); }

static int host_take_lines(lr_run *run, const lr_setup *setup)
{
    if (!setup->lines_count) return 1;
    run->lines = (lr_line *)malloc(setup->lines_count * sizeof(lr_line));
    if (!run->lines) return 0;
    memcpy(run->lines, setup->lines, setup->lines_count * sizeof(lr_line));
    run->lines_count = setup->lines_count;
    return 1;
}

static lr_run *host_open(const lr_setup *setup)
{
    lr_run *run = lr_open(setup->lock, setup->threads, setup->bits, setup->room, setup->seed, NULL);
    if (!run) return NULL;
    if (setup->number) run->number = setup->number;
    if (setup->spurious >= 0) run->spurious = (unsigned)setup->spurious;
    run->way = setup->way;
    run->way_length = setup->way_length;
    run->is_ordered = setup->is_ordered;
    run->tell_place = setup->tell_place;
    run->start = setup->start;
    pthread_cond_init(&run->vacant, NULL);
    int has_room = host_take_lines(run, setup);
#if LR_SEEDED
    if (setup->depth) has_room &= lr_draw_priorities(run, setup->depth, setup->steps);
#endif
    if (has_room) return run;
    lr_close(run);
    return NULL;
}

/* Ends the run: threads that wait for anything of it go on, and find that. */
static void host_stop(lr_run *run)
{
    pthread_mutex_lock(&run->mutex);
    lr_set_count(run->is_over, 1);
    pthread_cond_broadcast(&run->changed);
    pthread_cond_broadcast(&run->vacant);
    pthread_mutex_unlock(&run->mutex);
    for (unsigned t = 0; t < run->threads; t++) sem_post(&run->logs[t].turn.comes);
}

/* A thread has come: 0, or 1 if it had come before. */
static int host_come(lr_run *run, unsigned thread)
{
    lr_log *log = &run->logs[thread];
    pthread_mutex_lock(&run->mutex);
    int is_taken = log->begun, is_last = 0;
    if (!is_taken) {
        log->begun = 1;
        run->inside |= lr_bit(thread);
        is_last = ++run->begun == run->threads;
    }
    if (is_last) pthread_cond_broadcast(&run->changed);
    pthread_mutex_unlock(&run->mutex);
#if LR_TURNS
    if (is_last && !host_is_over(run)) lr_give(run, lr_next(run, LR_NOBODY));
#endif
    return is_taken;
}

/* Waits until all threads have come, and for the first turn. Returns "over". */
static int host_start(lr_log *log)
{
    lr_run *run = log->run;
    pthread_mutex_lock(&run->mutex);
    while (run->begun < run->threads && !run->is_over)
        pthread_cond_wait(&run->changed, &run->mutex);
    pthread_mutex_unlock(&run->mutex);
#if LR_TURNS
    lr_await_turn(log);
#endif
    lr_self = log;
    return host_is_over(run);
}

#if LR_TURNS
enum { LR_STEP_MADE, LR_LOOK_MADE, LR_AGAIN_MADE };

/* A thread forgets its last look, and without footprints each does. */
static void host_forget_looks(lr_log *log)
{
    log->turn.look = 0;
    for (unsigned t = 0; !LR_REDUCES && t < log->run->threads; t++) log->run->logs[t].turn.look = 0;
}

/* Something was done: a step or a change, a look, or a look that found what the last one did. */
static void host_take_effect(lr_log *log, int effect)
{
    lr_run *run = log->run;
    run->has_moved = 1;
    if (effect == LR_AGAIN_MADE) {
        run->stuck |= lr_bit(log->thread);
        run->footprint.is_vain = 1;
    }
    if (effect != LR_STEP_MADE) return;
    run->stuck = lr_still_stuck(run, log->thread);
    host_forget_looks(log);
}
#endif

/* A thread goes. One that did not come to its end stops the run. */
static void host_leave(lr_log *log, int has_ended)
{
    lr_run *run = log->run;
    lr_self = &lr_outside;
#if LR_TURNS
    if (has_ended && !host_is_over(run)) {
        host_take_effect(log, LR_STEP_MADE);
        run->in_vain = 0;
    }
#endif
    pthread_mutex_lock(&run->mutex);
    run->inside &= ~lr_bit(log->thread);
    lr_set_count(log->ended, has_ended);
    log->turn.is_gone = 1;
    run->gone++;
    pthread_cond_broadcast(&run->changed);
    pthread_mutex_unlock(&run->mutex);
#if LR_TURNS
    if (has_ended && !host_is_over(run)) lr_give(run, lr_next(run, log->thread));
#endif
    if (!has_ended) host_stop(run);
}

#if LR_FOLLOWS
/* A turn ends after the line's move, outside of its monitor. After the last line a thread comes to
   its end, unless its call has a step left: then it stops there. */
static void host_take_line(lr_log *log, int where)
{
    lr_run *run = log->run;
    int is_out = !(where & LR_TAKES_IN_MONITOR);
    if (is_out) lr_pass_if_due(log);
    if (++run->in_vain >= LR_PATIENCE && !host_is_over(run)) {
        if (run->at < run->lines_count) lr_depart(run, LR_DID_nothing, log->thread, 0);
        host_stop(run);
    } else if (is_out && where & LR_TAKES_STEP && run->at == run->lines_count &&
               !host_is_over(run)) {
        run->parked |= lr_bit(log->thread);
        run->inside &= ~lr_bit(log->thread);
        lr_pass(log);
    }
}
#elif !LR_TURNS
static void host_take_alone(lr_log *log)
{
    lr_run *run = log->run;
    pthread_mutex_lock(&run->mutex);
    while (run->holder != LR_NOBODY && !run->is_over) pthread_cond_wait(&run->vacant, &run->mutex);
    if (!run->is_over) run->holder = log->thread;
    pthread_mutex_unlock(&run->mutex);
}
#endif

/* Before an operation: another thread may have its turn. Returns "over". */
static int host_take(lr_log *log, int where)
{
    lr_run *run = log->run;
    if (host_is_over(run)) return 1;
#if LR_FOLLOWS
    host_take_line(log, where);
#elif LR_TURNS
    if (LR_EXPLORES && !run->has_moved)
        lr_set_count(run->turns, run->turns + 1);
    else
        lr_pass(log);
    if (where & LR_TAKES_IN_MONITOR) lr_touch_all(run); /* its data may be anywhere */
#else
    (void)where;
    if (run->is_ordered) host_take_alone(log);
#endif
    return host_is_over(run);
}

/* After an operation and its notes. */
static void host_give(lr_log *log)
{
    lr_run *run = log->run;
    if (!run->is_ordered) return;
    pthread_mutex_lock(&run->mutex);
    run->holder = LR_NOBODY;
    pthread_cond_signal(&run->vacant);
    pthread_mutex_unlock(&run->mutex);
}

static uint64_t host_value(const lr_log *log, const lr_noted *noted, uint64_t value)
{
    int is_counter = noted->on == LR_PLACE_next_ticket || noted->on == LR_PLACE_now_serving;
    return is_counter ? (value - log->run->start) & log->mask : value;
}

/* Writes a move, unless it is left out or dropped. Returns whether it is written. */
static unsigned host_write(lr_log *log, lr_move move)
{
    const lr_move *before = log->end;
    lr_append(log, move);
    log->turn.seen = log->run->ordered;
    return log->end != before ? LR_WRITTEN : 0;
}

#if LR_TURNS
/* A poll that was noted often enough is in vain; the second one is written still. */
static void host_count_poll(lr_log *log, const lr_move *move)
{
    int is_poll = lr_is_same(*move, &log->noted);
    log->turn.polls = !is_poll ? 1 : log->turn.polls < 3 ? log->turn.polls + 1 : 3;
    log->run->in_vain = log->turn.polls > 2 && !LR_FOLLOWS ? log->run->in_vain + 1 : 0;
    log->noted = *move;
    host_take_effect(log, is_poll ? LR_AGAIN_MADE : LR_STEP_MADE);
    host_forget_looks(log);
}
#endif

/* Notes a step. Returns LR_WRITTEN and LR_OVER. */
static unsigned host_note(lr_log *log, const lr_noted *noted)
{
    lr_run *run = log->run;
    lr_move move = {host_value(log, noted, noted->found),
                    (uint64_t)noted->owner << LR_AT_OWNER | noted->part << LR_AT_PART |
                        noted->on << LR_AT_PLACE | noted->word,
                    host_value(log, noted, noted->left), noted->place};
#if LR_TURNS
    if (host_is_over(run)) return LR_OVER;
    lr_touch_noted(log, &move);
    unsigned fate = host_write(log, move);
    host_count_poll(log, &move);
#if LR_FOLLOWS
    lr_made(log, noted->word);
    log->turn.is_due = 1;
#endif
    return fate | (host_is_over(run) ? LR_OVER : 0);
#else
    if (!run->is_ordered) {
        const lr_move *before = log->end;
        lr_append(log, move);
        return log->end != before ? LR_WRITTEN : 0;
    }
    pthread_mutex_lock(&run->mutex);
    unsigned fate = host_write(log, move);
    pthread_mutex_unlock(&run->mutex);
    return fate;
#endif
}

/* An operation without a note was made. One that changed nothing may be a poll. */
static void host_unnoted(lr_log *log, uintptr_t address, int has_changed)
{
#if LR_TURNS && !LR_FOLLOWS
    uintptr_t last = log->turn.look;
    if (host_is_over(log->run)) return;
    log->turn.look = address;
    log->run->in_vain = has_changed ? 0 : log->run->in_vain + 1;
    host_take_effect(log, has_changed       ? LR_STEP_MADE
                          : last == address ? LR_AGAIN_MADE
                                            : LR_LOOK_MADE);
#else
    (void)log, (void)address, (void)has_changed;
#endif
}

/* The step that is made touches what is at an address. */
static void host_touch(lr_log *log, uintptr_t address, int writes)
{
    if (LR_REDUCES && !host_is_over(log->run)) lr_touch(log, address, 1, writes);
}

/* Another thread could have had its turn, though nothing was done: that counts as progress. */
static void host_switched(lr_log *log)
{
    if (LR_SEEDED && !host_is_over(log->run)) log->run->in_vain = 0;
}

/* Waits until the thread is woken for a condition, and for its turn. Returns "over". With FOLLOW it
   looks again when the schedule says so. */
static int host_park(lr_log *log, const void *condition)
{
    lr_run *run = log->run;
#if LR_TURNS && !LR_FOLLOWS
    if (host_is_over(run)) return 1;
    log->turn.awaits = condition;
    run->parked |= lr_bit(log->thread);
    lr_pass(log);
    if (!host_is_over(run)) run->parked &= ~lr_bit(log->thread);
#else
    (void)condition;
#endif
    return host_is_over(run);
}

/* Wakes the threads that wait for a condition, or one of them. */
static void host_wake(lr_log *log, const void *condition, int all, const void *place)
{
#if LR_TURNS
    lr_run *run = log->run;
    uint64_t waiters = 0;
    if (host_is_over(run)) return;
    for (unsigned t = 0; t < run->threads; t++)
        if (run->parked >> t & 1 && run->logs[t].turn.awaits == condition) waiters |= lr_bit(t);
    if (waiters && !all) waiters = lr_bit(lr_choose_waiter(run, waiters));
    run->parked &= ~waiters;
    run->signalled = place;
    run->last_signal.woke = waiters;
#else
    (void)log, (void)condition, (void)all, (void)place;
#endif
}

struct lr_search;
struct lr_way;

typedef struct lr_engine {
    lr_run *(*open)(const lr_setup *);
    int (*come)(lr_run *, unsigned);
    int (*start)(lr_log *);
    void (*leave)(lr_log *, int);
    int (*take)(lr_log *, int);
    void (*give)(lr_log *);
    unsigned (*note)(lr_log *, const lr_noted *);
    void (*unnoted)(lr_log *, uintptr_t, int);
    void (*touch)(lr_log *, uintptr_t, int);
    void (*switched)(lr_log *);
    int (*park)(lr_log *, const void *);
    void (*wake)(lr_log *, const void *, int, const void *);
    void (*add_others)(struct lr_search *, lr_run *, const struct lr_way *);
} lr_engine;

#if !LR_EXPLORES
#define lr_add_others NULL
#endif

extern const lr_engine LR_ENGINE;
const lr_engine LR_ENGINE = {host_open, host_come, host_start,   host_leave, host_take,
                             host_give, host_note, host_unnoted, host_touch, host_switched,
                             host_park, host_wake, lr_add_others};

#ifdef LR_COMMON
#include "engine_common.h"
#endif
