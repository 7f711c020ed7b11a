/* Checks a run in the process, without a file, by locktrace.c, which is compiled with the program. */

#if LR_CHECKS

/* Checks a text: the fault, and what it is. Without locktrace.c the linker names this
   function. */
static __attribute__((noinline, unused)) uint32_t
lr_compile_built_locktrace_c_too(const lr_text *text, struct lt_step *steps, size_t room,
                                 struct lt_answer *answer, char *why)
{
    uint32_t fault = lt_check((const uint8_t *)text->bytes, text->length, steps, room, answer);
    size_t size = lt_fault_text(fault, (uint8_t *)why, LR_SAID - 1);
    why[size < LR_SAID ? size : LR_SAID - 1] = '\0';
    return fault;
}

/* Says why a trace is refused: the line, where its move was noted, the move, the fault, and the
   published lock's step there. `ordered`: how many moves are checked. */
static inline void lr_tell_fault(lr_run *run, size_t ordered, const struct lt_answer *answer,
                                 const struct lt_step *steps, const char *why)
{
    char line[LR_LINE], where[LR_LINE];
    size_t at = (size_t)answer->moves;
    lr_tell(run->said, "refused at line %" PRIu64 " of the trace", answer->line);
    if (at < ordered) {
        const lr_move *move = lr_move_at(run, at);
        unsigned by = run->order[at];
        const lr_log *log = &run->logs[by];
        lr_tell(run->said, ", %s: '%u %s'", lr_where(where, log, move), by,
                lr_text_of(line, log, move));
    }
    lr_tell(run->said, ": %s", why);
    if (at >= ordered) return;
    lr_tell_published(run, steps, at, answer->fault);
    lr_tell_record(run, lr_move_at(run, at));
}

/* The outcome of the last step of each thread, by the lock's machine. */
static inline void lr_last_outcomes(size_t ordered, const struct lt_step *steps, uint32_t *last)
{
    for (unsigned t = 0; t < LR_THREADS; t++) last[t] = LT_LEFT;
    for (size_t i = 0; i < ordered; i++) last[steps[i].thread] = steps[i].outcome;
}

/* Whether a thread has ended inside a call. In a run that was not stopped, also whether a thread
   has not ended though the lock's machine has completed its last call. */
static inline int lr_is_beside(lr_run *run, size_t ordered, const struct lt_step *steps,
                               int was_stopped)
{
    uint32_t last[LR_THREADS];
    lr_last_outcomes(ordered, steps, last);
    for (unsigned t = 0; t < run->threads; t++) {
        int is_over = last[t] == LT_ENTERED || last[t] == LT_LEFT;
        int has_ended = lr_count_of(run->logs[t].ended);
        if (is_over == has_ended || (is_over && was_stopped)) continue;
        lr_tell(run->said, "thread %u %s", t,
                is_over ? "goes on with a call that is over" : "has ended inside a call");
        lr_tell_last(run->said, &run->logs[t]);
        return 1;
    }
    return 0;
}

/* Appends to what is said why a run is refused. Returns 1 if it is, else 0. */
static inline int lr_check_steps(lr_run *run, size_t ordered, const lr_text *text,
                                 struct lt_step *steps, int was_stopped)
{
    struct lt_answer answer;
    char why[LR_SAID];
    uint32_t fault = lr_compile_built_locktrace_c_too(text, steps, ordered + 1, &answer, why);
    if (!fault) return lr_is_beside(run, ordered, steps, was_stopped);
    lr_tell_fault(run, ordered, &answer, steps, why);
    return 1;
}

/* Checks a run: 0 if it is accepted; else 1, and `lr_said` has the reason. A refused step is said
   before the reason why the run ended, which may be only an effect of that step. A thread that was
   not waited for may make moves meanwhile: they are not checked. */
static inline int lr_check(lr_run *run)
{
    lr_text text = {NULL, NULL, 0, 0, 0};
    size_t ordered = lr_count_of(run->ordered);
    struct lt_step *steps = (struct lt_step *)calloc(ordered + 1, sizeof(struct lt_step));
    char ended_by[LR_SAID];
    int is_wrong = 1;
    memcpy(ended_by, run->said, LR_SAID);
    lr_print_head(&text, run);
    lr_print_moves(&text, run, ordered);
    run->said[0] = '\0';
    if (text.no_memory || !steps) {
        run->lacks = ENOMEM;
        lr_tell(run->said, "no memory for the check");
    } else {
        is_wrong = lr_check_steps(run, ordered, &text, steps, ended_by[0] != 0);
    }
    free(steps);
    free(text.bytes);
    if (ended_by[0]) lr_tell(run->said, "%s%s", is_wrong ? "; " : "", ended_by);
    return is_wrong;
}

/* Says that nothing was noted in a run, or in all runs of a search: then the check says nothing of
   the lock. */
static inline void lr_say_empty(void)
{
    lr_say("nothing was noted, so nothing was checked: build each file of the lock with the "
           "LR_MODE of its driver, and note the lock's calls and steps");
}
#endif
