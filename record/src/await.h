/* Waits for a run's end. A slow run is not stopped as long as it makes moves. */

enum { LR_TICKS = 10, LR_TICK = 1000000000 / LR_TICKS }; /* of a second, in nanoseconds */

/* How many moves and turns were made until now. A full log counts no further moves. */
typedef struct lr_progress {
    size_t moves, turns;
} lr_progress;

static inline lr_progress lr_progress_of(const lr_run *run)
{
    lr_progress progress = {0, lr_count_of(run->turns)};
    for (unsigned t = 0; t < run->threads; t++)
        progress.moves += lr_length_of(&run->logs[t]) + (size_t)lr_count_of(run->logs[t].ended);
    return progress;
}

/* Appends the last note of each thread that has not ended to what is said. */
static inline void lr_tell_lasts(lr_run *run)
{
    const char *between = ": ";
    for (unsigned t = 0; t < run->threads; t++) {
        if (lr_count_of(run->logs[t].ended)) continue;
        lr_tell(run->said, "%sthread %u", between, t);
        lr_tell_last(run->said, &run->logs[t]);
        between = ", ";
    }
}

/* Says what a run waits for, after `seconds` without a move. */
static inline void lr_say_late(lr_run *run, unsigned seconds, int has_turns)
{
    if (run->begun < run->threads) {
        lr_tell(run->said, "%u of %u threads have called lr_begin", run->begun, run->threads);
    } else if (LR_TURNS && !has_turns) {
        lr_tell(run->said, "thread %u", run->holder);
        lr_tell_last(run->said, &run->logs[run->holder % LR_THREADS]);
        lr_tell(run->said,
                " has its turn and does not give it back: it blocks%s, or it has ended without "
                "lr_end, or it polls without a note",
                lt_lock_of(run->lock)->own ? ""
                                           : " (a monitor's operations go into LR_LOCK and "
                                             "LR_WAIT)");
    } else {
        lr_tell(run->said, "%u of %u threads have not ended, and made no move for %u s",
                lr_missing(run), run->threads, seconds);
        lr_tell_lasts(run);
    }
}

/* Waits for at most a tick. Returns 1 if all threads have ended or the run is over, else 0. */
static inline int lr_wait_a_tick(lr_run *run)
{
    struct timespec until;
    int late = 0;
    timespec_get(&until, TIME_UTC);
    until.tv_nsec += LR_TICK;
    until.tv_sec += until.tv_nsec / 1000000000;
    until.tv_nsec %= 1000000000;
    while ((LR_TURNS || lr_missing(run)) && !run->is_over && !late)
        late = pthread_cond_timedwait(&run->changed, &run->mutex, &until);
    return !late;
}

/* Waits until all threads have ended, the run is over, or no move came for `seconds`. Returns the
   number of threads that have not ended. */
static inline unsigned lr_wait_for(lr_run *run, unsigned seconds)
{
    unsigned long idle = 0;
    unsigned missing;
    lr_progress before = lr_progress_of(run), now;
    int has_turns = 0;
    pthread_mutex_lock(&run->mutex);
    while (idle < (unsigned long)seconds * LR_TICKS && !lr_wait_a_tick(run)) {
        now = lr_progress_of(run);
        has_turns = now.turns != before.turns;
        idle = now.moves != before.moves ? 0 : idle + 1;
        before = now;
    }
    missing = lr_missing(run);
    if (missing && !run->is_over) lr_say_late(run, seconds, has_turns);
    pthread_mutex_unlock(&run->mutex);
    return missing;
}

/* Stops the threads of a run that nobody waits for any more, where their turns end. Threads that run
   as they like go on. */
static inline void lr_give_up(lr_run *run)
{
#if LR_TURNS
    lr_end_run(run);
#else
    (void)run;
#endif
}

/* The reason why a run ended before its threads did, or an empty text. */
static inline const char *lr_said(const lr_run *run) { return run->said; }

static inline unsigned lr_await(lr_run *run, unsigned seconds)
{
    unsigned missing = lr_wait_for(run, seconds);
    if (run->said[0]) lr_say("%s", run->said);
    return missing;
}
