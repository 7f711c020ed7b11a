/* What is known of a run in any mode, its texts, its check, and a search.
   SPDX-License-Identifier: Apache-2.0 OR MIT

   Each run has the same fields, so these functions are there once. */

void lr_close_run(lr_run *run) { lr_close(run); }
void lr_stop_run(lr_run *run) { host_stop(run); }
int lr_is_stopped(const lr_run *run) { return host_is_over(run); }
lr_log *lr_log_at(lr_run *run, unsigned thread) { return &run->logs[thread]; }

/* The thread, and those that it starts, keep to one processor; see pin.h. */
void lr_keep_processor(lr_pin *pin) { lr_take_processor(pin); }
void lr_free_processor(const lr_pin *pin) { lr_leave_processor(pin); }

/* Waits until all threads have gone or the run is over. Returns whether it came to that in time. */
int lr_wait_until_gone(lr_run *run, uint64_t milliseconds)
{
    struct timespec until;
    int late = 0;
    timespec_get(&until, TIME_UTC);
    until.tv_nsec += (long)(milliseconds % 1000) * 1000000;
    until.tv_sec += (time_t)(milliseconds / 1000) + until.tv_nsec / 1000000000;
    until.tv_nsec %= 1000000000;
    pthread_mutex_lock(&run->mutex);
    while (run->gone < run->threads && !run->is_over && !late)
        late = pthread_cond_timedwait(&run->changed, &run->mutex, &until) == ETIMEDOUT;
    int is_well = run->gone == run->threads || run->is_over;
    pthread_mutex_unlock(&run->mutex);
    return is_well;
}

/* The thread that has its turn makes no move: with FOLLOW that is where the schedule is left. */
void lr_say_late_line(lr_run *run)
{
    if (run->did || run->at >= run->lines_count || run->holder == LR_NOBODY) return;
    run->did = LR_DID_nothing;
    run->by = run->holder;
}

void lr_state_of(lr_run *run, lr_state *state)
{
    memset(state, 0, sizeof *state);
    pthread_mutex_lock(&run->mutex);
    for (unsigned t = 0; t < run->threads; t++) {
        const lr_log *log = &run->logs[t];
        if (!log->ended) state->missing |= lr_bit(t);
        if (log->begun && !log->turn.is_gone) state->absent |= lr_bit(t);
    }
    pthread_mutex_unlock(&run->mutex);
    state->number = run->number;
    state->turns = lr_count_of(run->turns);
    state->ordered = lr_count_of(run->ordered);
    state->woke = run->last_signal.woke;
    state->signalled = run->signalled;
    state->holder = run->holder;
    state->gone = run->gone;
    state->has_hung = (uint32_t)run->hangs;
    state->is_cut = (uint32_t)run->is_cut;
    state->has_strayed = run->has_strayed || run->chosen < run->way_length;
    state->leaves_out = (uint32_t)run->leaves_out;
    state->did = run->did;
    state->by = run->by;
    state->word = run->made_word;
    state->due = (uint32_t)run->at;
}

/* How many moves a thread's log has, and how many it dropped. */
void lr_counts_of(const lr_run *run, unsigned thread, uint64_t *moves, uint64_t *dropped)
{
    *moves = lr_length_of(&run->logs[thread]);
    *dropped = lr_count_of(run->logs[thread].dropped);
}

/* Writes a move into LR_LINE bytes, and returns where it was noted. */
const void *lr_move_of(const lr_run *run, unsigned thread, uint64_t at, char *line)
{
    const lr_log *log = &run->logs[thread];
    lr_text_of(line, log, &log->moves[at]);
    return log->moves[at].place;
}

/* The last move of a thread that was written. */
void lr_last_move(const lr_run *run, unsigned thread, char *line)
{
    const lr_log *log = &run->logs[thread];
    lr_text_of(line, log, log->end - 1);
}

/* The thread of each move, in their order. */
const unsigned char *lr_order_of(const lr_run *run) { return run->order; }

/* The moves after a head, up to the first of a thread in `absent`. The text is to be freed. */
char *lr_trace_of(const lr_run *run, const char *head, size_t length, uint64_t absent, size_t *size)
{
    lr_text text = {NULL, NULL, 0, 0, 0};
    size_t ordered = lr_count_of(run->ordered), next[LR_THREADS] = {0};
    char line[LR_LINE + 8];
    lr_put_bytes(&text, head, length);
    for (size_t turn = 0; turn < ordered && !(absent >> run->order[turn] & 1); turn++) {
        unsigned t = run->order[turn];
        char *at = lr_put_text(lr_put_number(line, t), " ");
        lr_text_of(at, &run->logs[t], &run->logs[t].moves[next[t]++]);
        lr_put_bytes(&text, line, (size_t)(lr_put_text(at + strlen(at), "\n") - line));
    }
    *size = text.length;
    if (!text.no_memory) return text.bytes;
    free(text.bytes);
    return NULL;
}

void lr_free_text(char *text) { free(text); }

/* Makes a record the calling thread's own. */
void lr_own(const void *record, size_t length) { lr_set_record(record, length); }

unsigned lr_owner_of(const lr_log *log, uintptr_t address) { return lr_thread_at(log, address); }

lr_search *lr_new_search(unsigned most)
{
    lr_search *search = (lr_search *)calloc(1, sizeof(lr_search));
    if (search) search->most = most;
    return search;
}

void lr_free_search(lr_search *search)
{
    lr_free_ways(search->now);
    lr_free_ways(search->later);
    free(search->clocks);
    free(search);
}

/* Takes the next way, or returns NULL. Those with one more preemption come after the others. */
lr_way *lr_next_way(lr_search *search)
{
    if (!search->now && search->later) {
        search->now = search->later;
        search->later = NULL;
        search->level++;
    }
    return lr_take(&search->now);
}

unsigned lr_level_of(const lr_search *search) { return search->level; }
int lr_lacks_memory(const lr_search *search) { return search->no_memory; }

/* The choices of a way. */
const unsigned char *lr_choices_of(lr_way *way, size_t *length)
{
    *length = way->length;
    return lr_steps_of(way);
}

void lr_drop_way(lr_way *way) { lr_free_way(way); }

#ifdef LR_HOST_CHECKS
/* The fault of a run: the line of its trace, the number of the move, and what is said of it. */
typedef struct lr_fault {
    uint64_t line, move;
    uint32_t fault, is_empty;
    uint32_t last[LR_THREADS]; /* of each thread the outcome of its last step */
    char why[LR_SAID];
} lr_fault;

/* Checks the trace of a run: 1 if it was checked, 0 if memory is refused. */
int lr_check_run(lr_run *run, const uint8_t *text, size_t length, lr_fault *found)
{
    struct lt_answer answer;
    size_t ordered = lr_count_of(run->ordered);
    struct lt_step *steps = (struct lt_step *)calloc(ordered + 1, sizeof(struct lt_step));
    if (!steps) return 0;
    found->fault = lt_check(text, length, steps, ordered + 1, &answer);
    found->line = answer.line;
    found->move = answer.moves;
    size_t size = lt_fault_text(found->fault, (uint8_t *)found->why, LR_SAID / 2);
    found->why[size < LR_SAID / 2 ? size : LR_SAID / 2] = '\0';
    run->said[0] = '\0';
    if (found->fault && answer.moves < ordered)
        lr_tell_published(run, steps, (size_t)answer.moves, found->fault);
    lr_tell(found->why, "%s", run->said);
    if (!found->fault) lr_last_outcomes(ordered, steps, found->last);
    free(steps);
    return 1;
}
#endif
