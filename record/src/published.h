/* Says what the published lock does in place of a step that is refused. */

#if LR_CHECKS

/* The move at a place in the order. */
static inline const lr_move *lr_move_at(const lr_run *run, size_t at)
{
    size_t before = 0;
    for (size_t i = 0; i < at; i++) before += run->order[i] == run->order[at];
    return &run->logs[run->order[at]].moves[before];
}

/* Says the count of the last section before a place in the order, if there is one. */
static inline void lr_tell_count(lr_run *run, size_t at)
{
    while (at--) {
        const lr_move *move = lr_move_at(run, at);
        if (lr_move_word(move) != LR_STEP_section) continue;
        lr_tell(run->said, ": a section before it has %" PRIu64, move->value);
        return;
    }
}

enum { LR_WORD_TEXT = 24 };

/* Writes the name of a word (docs/LOCKS.md) into at most LR_WORD_TEXT bytes; without its owner if
   that is the thread. */
static inline const char *lr_name_of(char *name, const lr_run *run, uint32_t word, uint32_t thread)
{
    uint32_t owner;
    const char *text = lt_word_text(lt_lock_of(run->lock), word, &owner);
    if (owner == thread || owner == LT_NO_WORD) return text;
    snprintf(name, LR_WORD_TEXT, "%s of %" PRIu32, text, owner);
    return name;
}

/* Writes the published lock's step, as a trace has it, into at most LR_LINE bytes. */
static inline const char *lr_text_of_step(char *line, const lr_run *run, const struct lt_step *step)
{
    const char *kind = lt_move_text(step->action);
    char owned[LR_WORD_TEXT];
    if (step->action == LT_SECTION) {
        snprintf(line, LR_LINE, "%s %s", kind, lt_outcome_text(step->outcome));
        return line;
    }
    const char *name = lr_name_of(owned, run, step->word, step->thread);
    int is_write = step->action == LT_WRITE;
    if (step->action == LT_CAS)
        snprintf(line, LR_LINE, "%s %s %s", kind, name,
                 step->found != step->left ? "done" : "failed");
    else
        snprintf(line, LR_LINE, "%s %s %s %" PRIu64, kind, name, is_write ? "left" : "found",
                 is_write ? step->left : step->found);
    return line;
}

/* Says how the published lock's step differs from the thread's. */
static inline void lr_tell_step(lr_run *run, uint32_t fault, const struct lt_step *step)
{
    char *said = run->said, text[LR_LINE];
    lr_tell(said, ": the published lock");
    if (fault == LT_OTHER_WORD)
        lr_tell(said, "'s step is on '%s'", lr_name_of(text, run, step->word, LR_OWN));
    else if (fault == LT_FOUND_OTHER)
        lr_tell(said, " has %" PRIu64, step->found);
    else if (fault == LT_LEFT_OTHER)
        lr_tell(said, " leaves %" PRIu64, step->left);
    else if (fault == LT_WROTE_OTHER)
        lr_tell(said, "'s compare-and-swap %s, it finds %" PRIu64,
                step->found != step->left ? "is done" : "fails", step->found);
    else if (fault == LT_OTHER_OUTCOME)
        lr_tell(said, " answers '%s' here", lt_outcome_text(step->outcome));
    else
        lr_tell(said, "'s next step is '%s'", lr_text_of_step(text, run, step));
}

/* The place of the last move before `at` by the same thread; `at` if there is none. */
static inline size_t lr_last_before(const lr_run *run, size_t at)
{
    for (size_t i = at; i--;)
        if (run->order[i] == run->order[at]) return i;
    return at;
}

/* Says at which move a thread left the published lock's call: at a poll after which it went on,
   though the lock still waits, or at the step that ended the call, after which it made another one.
   Returns 0 if it did neither. */
static inline int lr_tell_call(lr_run *run, const struct lt_step *steps, size_t at, uint32_t fault)
{
    size_t last = lr_last_before(run, at);
    const lr_log *log = &run->logs[run->order[at]];
    const lr_move *before = lr_move_at(run, last);
    unsigned call = lr_move_word(lr_move_at(run, at));
    int is_taken = call == LR_CALL_acquire || call == LR_CALL_rlock || call == LR_CALL_wlock;
    char where[LR_LINE];
    lr_where(where, log, before);
    if (last == at) return 0;
    if (fault == LT_BUSY && steps[last].outcome == LT_WAITS)
        lr_tell(run->said, ": the thread %s while the published lock still waits: see its %s at %s",
                is_taken ? "went on" : "entered", lr_word(lr_move_word(before)), where);
    else if (fault == LT_NO_CALL)
        lr_tell(run->said, ": the published lock's call ended with its %s at %s",
                lr_word(lr_move_word(before)), where);
    else
        return 0;
    return 1;
}

/* Says how to note a record of a thread, if a move names a record that no thread has. */
static inline void lr_tell_record(lr_run *run, const lr_move *move)
{
    unsigned place = lr_move_place(move);
    int is_pointer = place == LR_PLACE_tail || place == LR_PLACE_next;
    if (!lt_lock_of(run->lock)->of_record) return;
    if (lr_move_owner(move) == LR_UNKNOWN || (is_pointer && move->value == LR_UNKNOWN + 1))
        lr_tell(run->said, ": no thread has this record (lr_own_record says whose it is)");
    else if (is_pointer && move->value > LR_THREADS)
        lr_tell(run->said, ": a pointer is noted as LR_RECORD gives it");
}

/* Says what the published lock does at the move at a place in the order, if that is known. */
static inline void lr_tell_published(lr_run *run, const struct lt_step *steps, size_t at,
                                     uint32_t fault)
{
    if (lr_tell_call(run, steps, at, fault)) return;
    if (fault == LT_COUNT_NOT_ABOVE)
        lr_tell_count(run, at);
    else if (steps[at].line)
        lr_tell_step(run, fault, &steps[at]);
}
#endif
