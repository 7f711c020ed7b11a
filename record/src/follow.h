/* FOLLOW: a schedule says who is next, and which move that thread has to make.

   Each line of the schedule is a turn, which ends at the note of its move; the turn of a section
   ends when the thread has left the monitor. LR_SWITCH, points and signals decide nothing here: a
   thread that waits in a monitor looks again when the schedule says so. A move that is not the
   line's ends the run, and it is the last one that is saved.

       lr_run *run = lr_follow("mcs", 64, "tour/0017.schedule");
       ... on each thread, between lr_begin and lr_end:
       for (int call; (call = lr_next_call(log)) != LR_NO_CALL;) ... make this call, LR_CALL_acquire
           or another one of them, in which the lock notes its steps

   After the last line each thread whose calls are over comes to its end. One that is in the middle
   of a call stops there. */

#if LR_FOLLOWS

enum { LR_NO_CALL = -1 };

/* With FOLLOW the waiters of a condition are given their turns by the schedule. */
static inline unsigned lr_choose_waiter(lr_run *run, uint64_t waiters)
{
    (void)run;
    return lr_after(waiters, LR_NOBODY);
}

static inline void lr_wake_for_nothing(lr_run *run) { (void)run; }

/* Keeps for a layer in another language where a lock first left its schedule. */
static inline void lr_depart(lr_run *run, unsigned did, unsigned thread, unsigned word)
{
#if LR_HOSTED
    if (run->did) return;
    run->did = did;
    run->by = thread;
    run->made_word = word;
#else
    (void)run, (void)did, (void)thread, (void)word;
#endif
}

static inline unsigned lr_choose(lr_run *run, uint64_t ready, unsigned current)
{
    (void)current;
    run->is_at_end = run->at == run->lines_count;
    if (run->is_at_end) return ready ? lr_after(ready, LR_NOBODY) : (unsigned)LR_NOBODY;
    const lr_line *line = &run->lines[run->at];
    if (run->inside >> line->thread & 1) return line->thread;
    lr_depart(run, LR_DID_end, line->thread, 0);
    lr_tell(run->said, "line %u is '%u %s', and thread %u has ended", line->number,
            (unsigned)line->thread, lr_word(line->word), (unsigned)line->thread);
    return LR_NOBODY;
}

/* A thread that goes on with a call after the schedule's end stops, and the others end. */
static inline void lr_stop_at_end(lr_log *log)
{
    if (!log->run->is_at_end) return;
    log->run->parked |= lr_bit(log->thread);
    lr_pass(log);
}

/* Compares a move that was noted with the line that is due. */
static inline void lr_made(lr_log *log, unsigned word)
{
    lr_run *run = log->run;
    const lr_line *line = &run->lines[run->at];
    char at[LR_LINE];
    if (run->at < run->lines_count && line->thread == log->thread && line->word == word) {
        run->at++;
        return;
    }
    lr_depart(run, LR_DID_make, log->thread, word);
    if (run->at == run->lines_count) {
        lr_tell(run->said, "thread %u made '%s' after the last line, at %s", log->thread,
                lr_word(word), lr_where(at, log, &log->noted));
    } else {
        lr_tell(run->said, "line %u is '%u %s', and thread %u made '%s' at %s", line->number,
                (unsigned)line->thread, lr_word(line->word), log->thread, lr_word(word),
                lr_where(at, log, &log->noted));
    }
    lr_stop(log);
}

/* The thread's next call in the schedule, from LR_CALL_acquire to LR_CALL_downgrade. */
static inline int lr_next_call(lr_log *log)
{
    lr_run *run = log->run;
    lr_pass_if_due(log);
    while (log->turn.next_call < run->lines_count) {
        const lr_line *line = &run->lines[log->turn.next_call++];
        if (line->thread == log->thread && line->word < LR_STEP_read) return line->word;
    }
    return LR_NO_CALL;
}

#endif /* LR_FOLLOWS */
