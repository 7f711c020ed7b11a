/* One thread runs at a time: these functions pass the turn from thread to thread.

   A thread keeps its turn until a hook of this header passes it. `lr_choose` says who is next; each
   mode has its own. A thread that goes on itself costs a call; another one costs a semaphore's post
   and wait, a futex each. Only the thread whose turn it is touches anything here. */

#ifndef LR_PATIENCE
#if LR_EXPLORES
#define LR_PATIENCE 1000
#else
#define LR_PATIENCE 20000
#endif
#endif

static inline unsigned lr_choose(lr_run *run, uint64_t ready, unsigned current);
static inline unsigned lr_choose_waiter(lr_run *run, uint64_t waiters);
static inline void lr_wake_for_nothing(lr_run *run);

/* The first thread of a set after another one, or after nobody; after the last comes the first. */
static inline unsigned lr_after(uint64_t threads, unsigned current)
{
    unsigned next = current < LR_THREADS ? current : LR_THREADS - 1;
    do next = (next + 1) % LR_THREADS;
    while (!(threads >> next & 1));
    return next;
}

/* The activity of a thread that makes no progress. If its last note is no poll, it polls without a
   note. */
static inline const char *lr_what_it_does(const lr_run *run, unsigned thread)
{
    const lr_move *last = lr_last_of(&run->logs[thread]);
    if (run->parked >> thread & 1) return "waits for a signal";
    int is_poll =
        last && (lr_move_word(last) == LR_STEP_read || lr_move_part(last) == LR_OUTCOME_waits);
    return is_poll ? "polls" : last ? "has noted nothing since" : "has noted nothing";
}

/* Says whom the last signal woke: perhaps it is another one who still waits. */
static inline void lr_tell_signal(lr_run *run)
{
    char at[LR_LINE];
    const lr_signal *last = &run->last_signal;
    if (!last->place.line) {
        lr_tell(run->said, "; nobody has signalled");
        return;
    }
    lr_at(at, last->place.file, last->place.line);
    lr_tell(run->said, "; the last signal, at %s, woke%s", at, last->woke ? "" : " nobody");
    for (unsigned t = 0; t < run->threads; t++)
        if (last->woke >> t & 1)
            lr_tell(run->said, " thread %u%s", t, last->woke >> t >> 1 ? "," : "");
}

/* Says what each thread that has not ended does, since none of them makes progress any more. */
static inline void lr_hang(lr_run *run)
{
    run->hangs = 1;
    if (LR_HOSTED) return;
    lr_tell(run->said, "the run hangs:");
    for (unsigned t = 0; t < run->threads; t++) {
        if (!(run->inside >> t & 1)) continue;
        lr_tell(run->said, " thread %u %s", t, lr_what_it_does(run, t));
        lr_tell_last(run->said, &run->logs[t]);
        lr_tell(run->said, "%s", run->inside >> t >> 1 ? "," : "");
    }
    if (run->parked) lr_tell_signal(run);
}

/* Counts the turns in a row that were in vain, and returns whether there were too many. A layer in
   another language knows which operations are, and counts these. */
static inline int lr_is_weary(lr_run *run)
{
#if LR_HOSTED
    return run->in_vain >= LR_PATIENCE;
#else
    return run->in_vain++ >= LR_PATIENCE;
#endif
}

/* Who is next, or LR_NOBODY. A thread that comes late finds that its run was given up. */
static inline unsigned lr_next(lr_run *run, unsigned current)
{
    if (lr_count_of(run->is_over)) return LR_NOBODY;
    lr_end_step(run);
    lr_wake_for_nothing(run);
    uint64_t ready = run->inside & ~run->parked;
    lr_set_count(run->turns, run->turns + 1);
#if LR_HOSTED
    run->has_moved = 0;
#endif
#if !LR_FOLLOWS
    int is_weary = lr_is_weary(run);
    if (run->inside && (!ready || is_weary)) lr_hang(run);
    if (!ready || run->hangs) return LR_NOBODY;
#endif
    return lr_choose(run, ready, current);
}

/* Nobody gets a turn any more. A hosted thread that waits for its own goes on, and finds that. */
static inline void lr_end_run(lr_run *run)
{
    pthread_mutex_lock(&run->mutex);
    lr_set_count(run->is_over, 1);
    pthread_cond_broadcast(&run->changed);
    pthread_mutex_unlock(&run->mutex);
    for (unsigned t = 0; LR_HOSTED && t < run->threads; t++) sem_post(&run->logs[t].turn.comes);
}

static inline void lr_give(lr_run *run, unsigned next)
{
    run->holder = next;
    if (next == LR_NOBODY)
        lr_end_run(run);
    else
        sem_post(&run->logs[next].turn.comes);
}

/* A signal of the system may interrupt the wait. */
static inline void lr_await_turn(lr_log *log)
{
    while (sem_wait(&log->turn.comes)) {}
}

/* Ends the run: the thread stays where it is, unless it is hosted. */
static inline void lr_stop(lr_log *log)
{
    lr_give(log->run, LR_NOBODY);
    while (!LR_HOSTED) lr_await_turn(log);
}

static inline void lr_pass(lr_log *log)
{
    unsigned next = lr_next(log->run, log->thread);
    log->turn.is_due = 0;
    log->turn.has_passed = 1;
    if (next == log->thread) return;
    lr_give(log->run, next);
    lr_await_turn(log);
}

/* Ends the turn of a section, once its thread has left the monitor. */
static inline void lr_pass_if_due(lr_log *log)
{
    if (log->turn.is_due) lr_pass(log);
}

/* Passes the turn before an atomic operation, unless the thread is in a monitor or has done nothing
   since it last passed. */
static inline void lr_point_of(lr_log *log)
{
    if (!log->turn.in_monitor && !log->turn.has_passed) lr_pass(log);
    log->turn.has_passed = 0;
}
