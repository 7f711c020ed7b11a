/* The main function of a program that tests a lock: `return lr_main(&driver, count, words);`

       PROGRAM THREADS ROUNDS PREEMPTIONS FOLDER [RUNS]    EXPLORE, at most so many runs
       PROGRAM THREADS ROUNDS again TRACE                  EXPLORE: makes a saved run again, also
                                                           one that crashed
       PROGRAM THREADS ROUNDS SEED FOLDER [SECONDS]        SEED, VALUES, OFF
       PROGRAM recover FOLDER                              VALUES: `lr_recover(FOLDER)`
       PROGRAM SCHEDULES FOLDER                            FOLLOW: the schedules of a folder

   THREADS, ROUNDS, RUNS (1,000,000) and SECONDS are at least 1. With one thread at a time a run is
   checked if the program can do it. SECONDS (60) is the longest time without a move. Status: 0 all
   is well; 1 a run is refused or hangs, nothing was noted in the runs that were checked, or a
   schedule was not followed; 2 usage; 3 the system refused memory, a thread or a file, a log was
   full, there is no schedule or a file is none of this lock, or it is no trace of a run that can be
   made again. */

/* The room of a log, in moves a round. */
enum { LR_ROUND = 128 };

#if !LR_FOLLOWS
typedef struct lr_words {
    uint64_t threads, rounds, number, last; /* SEED or PREEMPTIONS; SECONDS or RUNS */
    int is_again;
} lr_words;

/* Reads a number from `least` to `most`: 0 if the word is none. */
static inline int lr_read_number(const char *word, uint64_t least, uint64_t most, uint64_t *number)
{
    char *end;
    errno = 0;
    *number = strtoull(word, &end, 10);
    if (word[0] < '0' || word[0] > '9' || *end || errno) return 0;
    return *number >= least && *number <= most;
}

/* Reads the words of the program: 0 if they are not those of its usage. */
static inline int lr_read_words(int count, char **words, lr_words *read)
{
    const uint64_t most_number = LR_EXPLORES ? UINT32_MAX : UINT64_MAX;
    const uint64_t most_last = LR_EXPLORES ? ULONG_MAX : UINT32_MAX;
    if (count < 5 || count > 6) return 0;
    read->number = 0;
    read->last = LR_EXPLORES ? 1000000 : 60;
    read->is_again = LR_EXPLORES && count == 5 && !strcmp(words[3], "again");
    return lr_read_number(words[1], 1, 64, &read->threads) &&
           lr_read_number(words[2], 1, UINT32_MAX, &read->rounds) &&
           (read->is_again || lr_read_number(words[3], 0, most_number, &read->number)) &&
           (count < 6 || lr_read_number(words[5], 1, most_last, &read->last));
}
#endif

#if LR_EXPLORES
/* Warns that accepted runs had an operation that was not seen, so no other thread had its turn
   right before it or within it. */
static inline void lr_say_unseen(const lr_explored *explored)
{
    char at[LR_LINE];
    if (explored->is_refused || !explored->unseen.line) return;
    lr_say("%s: no atomic operation was seen before this note: EXPLORE sees atomic_load and its "
           "kin, and no operator on an _Atomic variable",
           lr_at(at, explored->unseen.file, explored->unseen.line));
}

/* Warns that a read-write lock was explored with two threads, which show few of its mistakes. */
static inline void lr_say_few(const lr_driver *driver, unsigned threads,
                              const lr_explored *explored)
{
    if (explored->is_refused || threads > 2 || strncmp(driver->lock, "rw", 2)) return;
    lr_say("most mistakes of a read-write lock need three threads");
}

static inline const char *lr_verdict(const lr_explored *explored)
{
    if (explored->is_refused) return "the last one is refused";
    if (!explored->has_noted) return "and nothing was noted in them";
    if (!explored->is_complete) return "all of them accepted, and there are more";
    return explored->leaves_out ? "repeated polls left out, all of them accepted"
                                : "all of them accepted";
}

/* Whether runs were made, and accepted since nothing was noted in them. */
static inline int lr_is_empty(const lr_explored *explored)
{
    return explored->runs && !explored->is_refused && !explored->has_noted;
}

static inline int lr_main(const lr_driver *driver, int count, char **words)
{
    lr_explored explored;
    lr_words read;
    if (!lr_read_words(count, words, &read)) {
        fprintf(stderr,
                "usage: %s THREADS ROUNDS PREEMPTIONS FOLDER [RUNS]\n"
                "       %s THREADS ROUNDS again TRACE\n",
                words[0], words[0]);
        return 2;
    }
    unsigned threads = (unsigned)read.threads, rounds = (unsigned)read.rounds;
    int fault = read.is_again ? lr_explore_again(driver, threads, rounds, words[4], &explored)
                              : lr_explore(driver, threads, rounds, (unsigned)read.number,
                                           (unsigned long)read.last, words[4], &explored);
    if (!read.is_again && explored.runs)
        printf("%lu run%s with up to %u preemption%s, %s\n", explored.runs,
               explored.runs == 1 ? "" : "s", explored.preemptions,
               explored.preemptions == 1 ? "" : "s", lr_verdict(&explored));
    if (explored.is_refused) printf("%s\n", explored.said);
    if (explored.is_refused && !read.is_again)
        printf("again: %s %u %u again %s/run.trace\n", words[0], threads, rounds, words[4]);
    lr_say_unseen(&explored);
    if (explored.runs && !read.is_again) lr_say_few(driver, threads, &explored);
    if (lr_is_empty(&explored)) lr_say_empty();
    fflush(stdout);
    _Exit(fault ? 3 : explored.is_refused || lr_is_empty(&explored));
}
#elif LR_FOLLOWS
static inline int lr_main(const lr_driver *driver, int count, char **words)
{
    lr_called called;
    if (count != 3) {
        fprintf(stderr, "usage: %s SCHEDULES FOLDER\n", words[0]);
        return 2;
    }
    int fault = lr_calls(driver, words[1], words[2], &called);
    printf("%u schedules of %zu moves, %u not followed\n", called.schedules, called.moves,
           called.refused);
    fflush(stdout);
    _Exit(fault ? 3 : called.refused > 0);
}
#else
#if LR_RECORDS
/* One run: the status. Threads that have not ended are left behind. */
static inline int lr_main_run(const lr_driver *driver, unsigned threads, unsigned rounds,
                              uint64_t seed, const char *folder, unsigned seconds)
{
    lr_run *run =
        lr_open(driver->lock, threads, driver->bits, (size_t)rounds * LR_ROUND, seed, folder);
    if (!run) return 3;
    unsigned missing = lr_go(run, driver, rounds, seconds);
    int is_refused = missing != 0;
#if LR_CHECKS
    is_refused = lr_check(run) || is_refused;
    if (!is_refused && !run->ordered) {
        lr_say_empty();
        is_refused = 1;
    }
#endif
    if (run->said[0]) lr_say("%s", run->said);
    if (lr_save(run) || run->lacks) return 3;
    if (!missing) lr_close(run);
    return is_refused;
}
#else
typedef struct lr_task {
    pthread_t id;
    const lr_driver *driver;
    unsigned thread, rounds;
} lr_task;

static inline void *lr_do_task(void *of)
{
    const lr_task *task = (const lr_task *)of;
    for (unsigned round = 0; round < task->rounds; round++)
        task->driver->round(task->thread, round);
    return NULL;
}

/* Without LR_MODE a user may believe that the lock was checked. */
static inline void lr_say_mode(void)
{
    if (!LR_HAS_MODE)
        fputs("lockreplay_record: built without LR_MODE, so nothing is recorded. Begin with "
              "-DLR_MODE=EXPLORE; -DLR_MODE=OFF is silent\n",
              stderr);
}

/* The threads do their rounds. */
static inline int lr_main_run(const lr_driver *driver, unsigned threads, unsigned rounds,
                              uint64_t seed, const char *folder, unsigned seconds)
{
    static lr_task tasks[64];
    (void)seed, (void)folder, (void)seconds;
    lr_say_mode();
    if (driver->reset) driver->reset();
    for (unsigned t = 0; t < threads; t++) {
        tasks[t].driver = driver;
        tasks[t].thread = t;
        tasks[t].rounds = rounds;
        if (!pthread_create(&tasks[t].id, NULL, lr_do_task, &tasks[t])) continue;
        fprintf(stderr, "lockreplay_record: no memory for thread %u\n", t);
        return 3;
    }
    for (unsigned t = 0; t < threads; t++) pthread_join(tasks[t].id, NULL);
    return 0;
}
#endif

static inline int lr_main(const lr_driver *driver, int count, char **words)
{
#if LR_MAPPED
    if (count == 3 && !strcmp(words[1], "recover")) return lr_recover(words[2]) ? 3 : 0;
#endif
    lr_words read;
    if (!lr_read_words(count, words, &read)) {
        fprintf(stderr, "usage: %s THREADS ROUNDS SEED FOLDER [SECONDS]\n", words[0]);
        return 2;
    }
    int status = lr_main_run(driver, (unsigned)read.threads, (unsigned)read.rounds, read.number,
                             words[4], (unsigned)read.last);
    fflush(stdout);
    if (status) _Exit(status);
    return 0;
}
#endif
