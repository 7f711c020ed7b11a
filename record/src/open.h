/* Opening a run, the threads in it, and closing it. */

/* Says which argument of `lr_open` is wrong, and returns whether one is. */
static inline int lr_is_wrong(const char *lock, unsigned threads, unsigned bits, size_t moves)
{
    /* generated: locks */
    /* clang-format off */
    static const char locks[] = "ticket, mcs, rw-simple or rw-fifo";
    /* clang-format on */
    /* end */
    if (!lt_lock_of(lock))
        lr_say("there is no lock '%s': %s", lock ? lock : "", locks);
    else if (threads < 1 || threads > LR_THREADS)
        lr_say("%u threads: a run has 1 to %d", threads, LR_THREADS);
    else if (bits < 2 || bits > 64)
        lr_say("%u bits: a counter has 2 to 64", bits);
    else if (bits < 8 && threads >> bits)
        lr_say("%u threads and counters of %u bits: there have to be fewer threads than values",
               threads, bits);
    else if (moves >= SIZE_MAX / LR_MOVE_SIZE / threads - sizeof(lr_run))
        lr_say("%zu moves for each thread are more than memory can have", moves);
    else
        return 0;
    return 1;
}

static inline void lr_close(lr_run *run)
{
    if (!run) return;
    lr_leave_unwatched(run);
    lr_remove_notes(run);
    lr_close_notes(run);
    for (unsigned t = 0; t < run->threads; t++) sem_destroy(&run->logs[t].turn.comes);
    pthread_cond_destroy(&run->changed);
    pthread_mutex_destroy(&run->mutex);
    free(run->lines);
    free(run->changes);
    free(run->choices);
    free(run->steps);
    munmap(run, run->size);
}

/* A number that identifies the logs of one run: from the seed or the schedule if that decides the
   run, else from the time. */
static inline uint64_t lr_number_of(const lr_run *run)
{
    struct timespec now;
    uint64_t state = run->seed;
    if (!LR_TURNS && !timespec_get(&now, TIME_UTC)) return 0;
    if (!LR_TURNS) state ^= (uint64_t)now.tv_sec * 1000000000u + (uint64_t)now.tv_nsec;
    if (!LR_TURNS) state ^= (uint64_t)(uintptr_t)run << 20;
    return lr_draw(&state);
}

static inline void lr_open_log(lr_run *run, unsigned thread, size_t moves)
{
    lr_log *log = &run->logs[thread];
    log->run = run;
    log->thread = thread;
    log->mask = ~UINT64_C(0) >> (64 - run->bits);
    log->noise = run->seed ^ (uint64_t)(thread + 1) << 48;
    log->moves = log->end = &run->moves[thread * (moves + 2) + 2];
    log->limit = log->moves + moves;
    sem_init(&log->turn.comes, 0, 0);
}

static inline lr_run *lr_open(const char *lock, unsigned threads, unsigned bits, size_t moves,
                              uint64_t seed, const char *folder)
{
    if (lr_is_wrong(lock, threads, bits, moves) || lr_folder_fault(folder)) return NULL;
    /* Logs of an earlier run must not pass for this one's until it is saved. */
    if (lr_remove_earlier(folder, 0) || lr_remove_earlier_notes(folder)) return NULL;
    lr_run *run = lr_memory_of(threads, moves, folder);
    if (!run) return NULL;
    run->mode = LR_CHOSEN;
    snprintf(run->name, sizeof run->name, "%s", lock);
    run->lock = run->name;
    if (folder) run->folder = strcpy(run->own_folder, folder);
    run->threads = threads;
    run->bits = bits;
    run->seed = run->drawn = seed;
    run->number = lr_number_of(run);
    run->holder = LR_NOBODY;
    run->watch = -1;
    pthread_mutex_init(&run->mutex, NULL);
    pthread_cond_init(&run->changed, NULL);
    for (unsigned t = 0; t < threads; t++) lr_open_log(run, t, moves);
#if LR_SEEDED
    run->spurious = lr_spurious_of(seed);
    if (!LR_HOSTED && !lr_draw_priorities(run, LR_DEPTH, LR_STEPS)) {
        lr_say("no memory for the turns at which priorities change");
        lr_close(run);
        return NULL;
    }
#elif LR_EXPLORES
    run->spurious = LR_WAKES;
#endif
    lr_make_stamp(run->stamp);
    lr_watch(run);
    return run;
}

static inline lr_log *lr_log_of(lr_run *run, unsigned thread)
{
    if (thread < run->threads) return &run->logs[thread];
    lr_say("there is no thread %u: the run has the threads 0 to %u", thread, run->threads - 1);
    _Exit(2);
}

/* Ends the program if a thread may not begin now. */
static inline void lr_may_begin(const lr_log *log)
{
    if (log->run->mode != LR_CHOSEN)
        lr_say("LR_MODE is not the same in all files of the program");
    else if (log->begun)
        lr_say("thread %u begins twice: each thread has a log of its own", log->thread);
    else
        return;
    _Exit(2);
}

/* A thread waits here until all threads have come, and with one thread at a time until it is its
   turn. */
static inline void lr_begin(lr_log *log)
{
    lr_run *run = log->run;
    pthread_mutex_lock(&run->mutex);
    lr_may_begin(log);
    lr_self = log;
    log->begun = 1;
    run->inside |= lr_bit(log->thread);
    int is_last = ++run->begun == run->threads;
    if (is_last) pthread_cond_broadcast(&run->changed);
    while (!LR_TURNS && run->begun < run->threads) pthread_cond_wait(&run->changed, &run->mutex);
    pthread_mutex_unlock(&run->mutex);
#if LR_TURNS
    if (is_last) lr_give(run, lr_next(run, LR_NOBODY));
    lr_await_turn(log);
#endif
}

static inline void lr_end(lr_log *log)
{
    lr_run *run = log->run;
    if (!log->begun || log->ended) {
        lr_say("thread %u ends, and has not begun or has ended before", log->thread);
        _Exit(2);
    }
#if LR_TURNS
    lr_pass_if_due(log);
    run->in_vain = 0;
    run->stuck = lr_still_stuck(run, log->thread);
#endif
    lr_self = &lr_outside;
    pthread_mutex_lock(&run->mutex);
    run->inside &= ~lr_bit(log->thread);
    lr_set_count(log->ended, 1);
    pthread_cond_broadcast(&run->changed);
    pthread_mutex_unlock(&run->mutex);
#if LR_TURNS
    lr_give(run, lr_next(run, LR_NOBODY));
#endif
}

static inline unsigned lr_missing(const lr_run *run)
{
    unsigned missing = 0;
    for (unsigned t = 0; t < run->threads; t++) missing += !lr_count_of(run->logs[t].ended);
    return missing;
}
