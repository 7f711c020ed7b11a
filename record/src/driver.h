/* A driver: what the threads of a run do, for runs that this header starts itself.

   EXPLORE and a folder of schedules need many runs in one process. Each run has new threads, and
   begins with a new lock. A run that is cut short keeps its memory, since its threads stay where
   they are, without a turn. */

typedef struct lr_driver {
    const char *lock;
    unsigned bits;
    void (*reset)(void);                            /* makes the lock new */
    void (*round)(unsigned thread, unsigned round); /* takes the lock, and gives it back */
    void (*call)(unsigned thread, int call); /* FOLLOW: one call, LR_CALL_acquire or another one */
} lr_driver;

#if LR_RECORDS

static inline void *lr_work(void *of)
{
    lr_log *log = (lr_log *)of;
    const lr_run *run = log->run;
    lr_begin(log);
#if LR_FOLLOWS
    for (int call; (call = lr_next_call(log)) != LR_NO_CALL;) run->driver->call(log->thread, call);
#else
    for (unsigned round = 0; round < run->rounds; round++) run->driver->round(log->thread, round);
#endif
    lr_end(log);
    return NULL;
}

/* Makes one run, and returns how many threads have not ended; those are left behind. */
static inline unsigned lr_go(lr_run *run, const lr_driver *driver, unsigned rounds,
                             unsigned seconds)
{
    unsigned started = 0;
    lr_pin pin;
    run->driver = driver;
    run->rounds = rounds;
    if (driver->reset) driver->reset();
    lr_take_processor(&pin);
    while (started < run->threads &&
           !pthread_create(&run->logs[started].id, NULL, lr_work, &run->logs[started]))
        started++;
    if (started < run->threads) {
        lr_leave_processor(&pin);
        lr_tell(run->said, "no memory for thread %u", started);
        run->lacks = EAGAIN;
        run->is_left = 1;
        return run->threads;
    }
    unsigned missing = lr_wait_for(run, seconds);
    run->is_left = missing != 0;
    if (missing) lr_give_up(run);
    for (unsigned t = 0; t < started; t++)
        if (lr_count_of(run->logs[t].ended))
            pthread_join(run->logs[t].id, NULL);
        else
            pthread_detach(run->logs[t].id);
    lr_leave_processor(&pin);
    return missing;
}

#endif
