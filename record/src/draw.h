/* SEED: a number drawn by the seed says who is next.

   Without LR_PCT each thread that can go on is as likely as another. With LR_PCT=d the turns are
   those of Burckhardt, Kothari, Musuvathi and Nagarakatte, "A randomized scheduler with
   probabilistic guarantees of finding bugs" (ASPLOS 2010): each thread has a priority, the one with
   the greatest goes on, and at d - 1 drawn turns the one that runs gets one below all that were
   drawn. Unlike there, a thread that polled in vain is skipped until another thread has made a move,
   as if it were blocked. LR_STEPS is their k, about how many turns a run has; its trace says how many it had. */

#ifndef LR_STEPS
#define LR_STEPS 1000
#endif
#ifdef LR_PCT
#define LR_DEPTH LR_PCT
#else
#define LR_DEPTH 0
#endif

static inline unsigned lr_draw_of(lr_run *run, uint64_t threads)
{
    unsigned found[LR_THREADS], count = 0;
    for (unsigned t = 0; t < run->threads; t++)
        if (threads >> t & 1) found[count++] = t;
    return found[lr_draw(&run->drawn) % count];
}

static inline unsigned lr_choose_waiter(lr_run *run, uint64_t waiters)
{
    return lr_draw_of(run, waiters);
}

/* One turn in this many wakes a thread that nobody signalled. POSIX allows such spurious wakeups,
   and few machines have them. By default, runs with an even seed have them. */
static inline unsigned lr_spurious_of(uint64_t seed)
{
#ifdef LR_SPURIOUS
    (void)seed;
    return LR_SPURIOUS;
#else
    return seed % 2 ? 0 : 8;
#endif
}

static inline void lr_wake_for_nothing(lr_run *run)
{
    if (run->parked && run->spurious && lr_draw(&run->drawn) % run->spurious == 0)
        run->parked &= ~lr_bit(lr_draw_of(run, run->parked));
}

/* Draws the priorities of a run of about `turns` turns, which change at `depth` - 1 of them. Returns
   0 if memory is refused. The order is that of an inside-out shuffle of Fisher and Yates. */
static inline int lr_draw_priorities(lr_run *run, size_t depth, size_t turns)
{
    run->depth = depth;
    run->changes = depth ? (size_t *)calloc(depth, sizeof(size_t)) : NULL;
    if (depth && !run->changes) return 0;
    for (unsigned t = 0; depth && t < run->threads; t++) {
        unsigned other = (unsigned)(lr_draw(&run->drawn) % (t + 1));
        run->logs[t].turn.priority = run->logs[other].turn.priority;
        run->logs[other].turn.priority = depth + t;
    }
    for (size_t i = 0; i + 1 < depth; i++)
        run->changes[i] = (size_t)(lr_draw(&run->drawn) % turns) + 1;
    return 1;
}

/* At a drawn turn the thread that runs gets a priority below all drawn ones, and below those that
   earlier changes of the list give. */
static inline void lr_lower(lr_run *run, unsigned current)
{
    for (size_t i = 0; i + 1 < run->depth; i++)
        if (run->changes[i] == run->turns && current != LR_NOBODY)
            run->logs[current].turn.priority = run->depth - 1 - i;
}

static inline unsigned lr_choose(lr_run *run, uint64_t ready, unsigned current)
{
    uint64_t moving = ready & ~run->stuck;
    if (!run->depth) return lr_draw_of(run, ready);
    lr_lower(run, current);
    if (!moving) return lr_after(ready, current);
    unsigned best = lr_after(moving, LR_NOBODY);
    for (unsigned t = 0; t < run->threads; t++)
        if (moving >> t & 1 && run->logs[t].turn.priority > run->logs[best].turn.priority) best = t;
    return best;
}
