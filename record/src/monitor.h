/* A monitor: its mutex, and its conditions, as far as they decide who may run.

   If one thread runs at a time, the real wait is left out: a thread that waits for a condition
   gets no turn until another one signals that condition or broadcasts it. So a signal that is
   missing makes the run hang. A turn may change before the mutex is taken, after it is given back,
   and in LR_WAIT, which gives it back too: nobody ever finds the mutex taken. */

#if LR_TURNS
#define LR_LOCK(lock) (lr_before_lock(), (void)(lock), lr_set_inside(1))
#define LR_UNLOCK(unlock) ((void)(unlock), lr_set_inside(0), lr_after_unlock())
#define LR_WAIT(condition, unlock, wait, lock) ((void)(unlock), lr_park(condition), (void)(lock))
#define LR_SIGNAL(condition, signal) lr_wake(condition, 0, __FILE__, __LINE__)
#define LR_BROADCAST(condition, broadcast) lr_wake(condition, 1, __FILE__, __LINE__)
#define LR_SWITCH() lr_switch()

/* The log of the thread that runs, which has to be in a run. */
static inline lr_log *lr_here(void)
{
    if (lr_self != &lr_outside) return lr_self;
    lr_say("a hook is called before lr_begin, or after lr_end");
    _Exit(2);
}

static inline void lr_set_inside(int inside)
{
    lr_touch_all(lr_here()->run);
    lr_here()->turn.in_monitor = inside;
}

#if LR_FOLLOWS
static inline void lr_before_lock(void)
{
    lr_pass_if_due(lr_here());
    lr_stop_at_end(lr_here());
}

static inline void lr_after_unlock(void) { lr_pass_if_due(lr_here()); }

static inline void lr_switch(void)
{
    if (!lr_here()->turn.in_monitor) lr_pass_if_due(lr_here());
}
#else
static inline void lr_before_lock(void) { lr_pass(lr_here()); }

static inline void lr_after_unlock(void) { lr_pass(lr_here()); }

static inline void lr_switch(void)
{
    lr_log *log = lr_here();
    if (log->turn.in_monitor) return;
    if (!LR_EXPLORES) log->run->in_vain = 0;
    lr_pass(log);
}
#endif

static inline void lr_park(const void *condition)
{
    lr_log *log = lr_here();
    int inside = log->turn.in_monitor;
    log->turn.in_monitor = 0;
    log->turn.awaits = condition;
    log->run->parked |= lr_bit(log->thread);
    lr_touch_all(log->run);
    lr_pass(log);
    lr_touch_all(log->run);
    log->run->parked &= ~lr_bit(log->thread);
    log->turn.has_passed = 0;
    log->turn.in_monitor = inside;
}

static inline void lr_wake(const void *condition, int all, const char *file, unsigned line)
{
    lr_run *run = lr_here()->run;
    uint64_t waiters = 0;
    lr_touch_all(run);
    for (unsigned t = 0; t < run->threads; t++)
        if (run->parked >> t & 1 && run->logs[t].turn.awaits == condition) waiters |= lr_bit(t);
    if (waiters && !all) waiters = lr_bit(lr_choose_waiter(run, waiters));
    run->parked &= ~waiters;
    run->last_signal.place.file = file;
    run->last_signal.place.line = line;
    run->last_signal.woke = waiters;
}
#else
/* The threads run as they like, so the monitor's own operations do all of this. */
#define LR_LOCK(lock) ((void)(lock))
#define LR_UNLOCK(unlock) ((void)(unlock))
#define LR_WAIT(condition, unlock, wait, lock) ((void)(wait))
#define LR_SIGNAL(condition, signal) ((void)(signal))
#define LR_BROADCAST(condition, broadcast) ((void)(broadcast))
#define LR_SWITCH() ((void)0)
#endif
