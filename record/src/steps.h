/* EXPLORE: the words that a step touches, by which it is dependent on other threads' steps.

   A step is all that a thread does in one turn: an atomic operation that has a point, its note, and
   what is between. Two steps are dependent if they touch the same word and do not both load it, by
   their operations or by their notes. A section of a monitor, and a step whose note comes without
   such an operation, may touch anything: each step is dependent on them.

   Adjacent steps that are independent may be swapped: the run reaches the same state, and so does
   the lock's machine, whose step depends only on its word and on what its thread did before. So the
   machine accepts both traces or neither. After Godefroid, "Partial-Order Methods for the
   Verification of Concurrent Systems" (1996). */

#if LR_REDUCES
static inline void lr_touch_all(lr_run *run) { run->footprint.is_all = 1; }

/* A step that touches more words than a footprint has room for may touch anything. */
static inline void lr_touch(lr_log *log, uintptr_t word, size_t size, int writes)
{
    lr_footprint *own = &log->run->footprint;
    lr_extent touched = {word, size};
    own->writes |= writes;
    if (own->touched == LR_TOUCHED || log->turn.in_monitor)
        own->is_all = 1;
    else
        own->words[own->touched++] = touched;
}

static inline void lr_name(lr_footprint *own, unsigned name)
{
    for (unsigned i = 0; i < own->named; i++)
        if (own->names[i] == name) return;
    if (own->named == LR_TOUCHED)
        own->is_all = 1;
    else
        own->names[own->named++] = name;
}

/* The note of a step names a word, which the trace has whatever the step touched. The note of a
   call names none. */
static inline void lr_touch_noted(lr_log *log, const lr_move *move)
{
    lr_footprint *own = &log->run->footprint;
    unsigned place = lr_move_place(move), owner = lr_move_owner(move);
    int is_of_a_record = place == LR_PLACE_next || place == LR_PLACE_locked;
    if (owner == LR_OWN) owner = is_of_a_record ? log->thread : 0;
    if (lr_move_word(move) < LR_STEP_read) return;
    if (LR_POINTS && !own->touched && place && !log->run->unseen.line) {
        log->run->unseen.file = log->file;
        log->run->unseen.line = lr_move_line(move);
    }
    own->is_all |= !own->touched;
    lr_name(own, place | owner << LR_AT_PLACE);
    own->writes |= lr_move_word(move) != LR_STEP_read;
}

static inline int lr_meets(const lr_extent *one, const lr_extent *other)
{
    return one->first < other->first + other->length && other->first < one->first + one->length;
}

/* Whether a step touches these bytes. */
static inline int lr_touches(const lr_footprint *step, const lr_extent *word)
{
    for (unsigned i = 0; i < step->touched; i++)
        if (lr_meets(&step->words[i], word)) return 1;
    return 0;
}

static inline int lr_names(const lr_footprint *step, unsigned name)
{
    for (unsigned i = 0; i < step->named; i++)
        if (step->names[i] == name) return 1;
    return 0;
}

/* Whether steps of two threads are dependent. */
static inline int lr_depends(const lr_footprint *one, const lr_footprint *other)
{
    if (one->is_all || other->is_all) return 1;
    if (!one->writes && !other->writes) return 0;
    for (unsigned i = 0; i < one->named; i++)
        if (lr_names(other, one->names[i])) return 1;
    for (unsigned i = 0; i < one->touched; i++)
        if (lr_touches(other, &one->words[i])) return 1;
    return 0;
}

/* A poll in vain finds the same until a step comes on which it is dependent. */
static inline uint64_t lr_still_stuck(const lr_run *run, unsigned moving)
{
    return run->stuck & ~lr_bit(moving);
}

static inline void lr_loosen(lr_run *run)
{
    for (unsigned t = 0; t < run->threads; t++)
        if (run->stuck >> t & 1 && t != run->holder &&
            lr_depends(&run->footprint, &run->logs[t].turn.poll))
            run->stuck &= ~lr_bit(t);
}

#if LR_HOSTED
/* Forgets the looks at what the step may have changed: the next one is not in vain. */
static inline void lr_forget_changed(lr_run *run)
{
    const lr_footprint *step = &run->footprint;
    for (unsigned t = 0; t < run->threads; t++) {
        const lr_extent look = {run->logs[t].turn.look, 1};
        if (step->is_all || (step->writes && lr_touches(step, &look))) run->logs[t].turn.look = 0;
    }
}
#endif

/* Keeps the step of the thread whose turn ends. */
static inline void lr_end_step(lr_run *run)
{
    if (run->holder == LR_NOBODY) return;
    if (run->stepped == run->steps_room) {
        size_t room = run->steps_room * 2 + 256;
        void *steps = realloc(run->steps, room * sizeof(lr_step));
        if (!steps) {
            lr_tell_no_memory(run, "steps");
            return;
        }
        run->steps = (lr_step *)steps;
        run->steps_room = room;
    }
    lr_step step = {run->footprint, run->holder, 0};
    run->steps[run->stepped++] = step;
    if (run->footprint.is_vain)
        run->logs[run->holder].turn.poll = run->footprint;
    else
        lr_loosen(run);
#if LR_HOSTED
    lr_forget_changed(run);
#endif
    memset(&run->footprint, 0, sizeof run->footprint);
}
#else
static inline void lr_touch_all(lr_run *run) { (void)run; }
static inline void lr_touch(lr_log *log, uintptr_t word, size_t size, int writes)
{
    (void)log, (void)word, (void)size, (void)writes;
}
static inline void lr_touch_noted(lr_log *log, const lr_move *move) { (void)log, (void)move; }
/* Any step may end the others' waits. */
static inline uint64_t lr_still_stuck(const lr_run *run, unsigned moving)
{
    (void)run, (void)moving;
    return 0;
}
static inline void lr_end_step(lr_run *run) { (void)run; }
#endif
