/* The notes: what a step of a lock found or left, written down for its thread. */

#define LR_CALL(call)                                                                              \
    LR_NOTE(LR_NAMED(LR_IS_CALL_##call, LR_NO_CALL_OF, LR_CALL_##call), LR_PLACE_none, LR_OWN,     \
            LR_PART_none, 0)
#define LR_READ(word, found)                                                                       \
    LR_NOTE(LR_STEP_read, LR_NAMED(LR_IS_WORD_##word, LR_NO_WORD_OF, LR_PLACE_##word), LR_OWN,     \
            LR_PART_found, found)
#define LR_WRITE(word, left)                                                                       \
    LR_NOTE(LR_STEP_write, LR_NAMED(LR_IS_WORD_##word, LR_NO_WORD_OF, LR_PLACE_##word), LR_OWN,    \
            LR_PART_left, left)
#define LR_SWAP(word, found)                                                                       \
    LR_NOTE(LR_STEP_swap, LR_NAMED(LR_IS_SWAPPED_##word, LR_NOT_SWAPPED, LR_PLACE_##word), LR_OWN, \
            LR_PART_found, found)
#define LR_ADD(word, found)                                                                        \
    LR_NOTE(LR_STEP_add, LR_NAMED(LR_IS_ADDED_##word, LR_NOT_ADDED, LR_PLACE_##word), LR_OWN,      \
            LR_PART_found, found)
#define LR_CAS(word, wrote)                                                                        \
    LR_NOTE(LR_STEP_cas, LR_NAMED(LR_IS_SWAPPED_##word, LR_NOT_COMPARED, LR_PLACE_##word), LR_OWN, \
            (wrote) ? LR_PART_done : LR_PART_failed, 0)
#define LR_READ_OF(word, j, found)                                                                 \
    LR_NOTE(LR_STEP_read, LR_NAMED(LR_IS_OF_A_RECORD_##word, LR_NOT_OF_A_RECORD, LR_PLACE_##word), \
            lr_owner(j), LR_PART_found, found)
#define LR_WRITE_OF(word, j, left)                                                                 \
    LR_NOTE(LR_STEP_write,                                                                         \
            LR_NAMED(LR_IS_OF_A_RECORD_##word, LR_NOT_OF_A_RECORD, LR_PLACE_##word), lr_owner(j),  \
            LR_PART_left, left)
#define LR_SECTION(count, outcome)                                                                 \
    LR_NOTE(LR_STEP_section, LR_PLACE_none, LR_OWN,                                                \
            LR_NAMED(LR_IS_OUTCOME_##outcome, LR_NO_OUTCOME_OF, LR_OUTCOME_##outcome), count)
#define LR_NOTE(word, place, owner, part, value)                                                   \
    LR_DO(lr_note(lr_self, word, place, owner, part, (uint64_t)(value), __FILE__, __LINE__))
#define LR_RECORD(first, pointer) ((pointer) ? (uint64_t)((pointer) - (first)) + 1 : (uint64_t)0)
#define LR_JOIN() LR_DO((void)(lr_self->turn.joined = 1))

#if LR_RECORDS

/* A record that is no thread's, as a wrong lock may reach, is named 255. */
static inline unsigned lr_owner(int64_t thread)
{
    return thread >= 0 && thread < LR_THREADS ? (unsigned)thread : (unsigned)LR_UNKNOWN;
}

/* The kind of a note is a constant when it is compiled, so the compiler evaluates all tests of it.
   For this a move is passed by value, and stored field by field: building it in memory first costs
   as much as all the rest. */
#define LR_AT_ONCE static inline __attribute__((always_inline))

LR_AT_ONCE int lr_waits(lr_move move) { return lr_move_part(&move) == LR_OUTCOME_waits; }

/* Whether a move is a poll that found the same as another move, wherever the two were noted. A
   section that waits has no value. */
LR_AT_ONCE int lr_is_same(lr_move move, const lr_move *other)
{
    if (lr_move_word(&move) != LR_STEP_read && !lr_waits(move)) return 0;
    return !((move.kind ^ other->kind) << (64 - LR_AT_FILE)) &&
           (lr_waits(move) || move.value == other->value);
}

/* Whether a move is left out: it is the third or a later one of a thread's polls in a row that
   found the same. The second is written: if the first found what the thread waited for, it shows
   that the thread did not see it. With one thread at a time a section is left out only if nobody
   moved in between, since it has no value. A schedule that is followed has every poll. `end` is
   where the thread's moves end. */
LR_AT_ONCE int lr_is_left_out(const lr_log *log, const lr_move *end, lr_move move)
{
    if (LR_FOLLOWS) return 0;
    if (lr_has_order(log->run) && lr_waits(move) && log->turn.seen != log->run->ordered) return 0;
    return lr_is_same(move, &end[-1]) && lr_is_same(move, &end[-2]);
}

/* Says that a thread notes a step though it is in no run, and ends the program. */
__attribute__((cold)) static inline void lr_end_outside(const char *file, unsigned line)
{
    char at[LR_LINE];
    lr_say("a step is noted before lr_begin, or after lr_end, at %s", lr_at(at, file, line));
    _Exit(2);
}

/* Looks up the file of a note, if the thread's last note was in another one. A thread outside a run
   has none. Files from LR_FILES on share the last number. */
__attribute__((cold)) static inline void lr_turn_to(lr_log *log, const char *file, unsigned line)
{
    unsigned number = 1;
    if (log == &lr_outside) lr_end_outside(file, line);
    while (number < LR_FILES - 1 && log->files[number] && log->files[number] != file) number++;
    log->files[number] = log->file = file;
    log->file_bits = (uint64_t)number << LR_AT_FILE;
}

/* A move as it is written. Until then its kind is known when it is compiled. */
LR_AT_ONCE lr_move lr_filed(const lr_log *log, lr_move move)
{
    move.kind |= log->file_bits;
    return move;
}

/* Counts a move for which there is no room. */
__attribute__((cold)) static inline void lr_drop(lr_log *log, lr_move move)
{
    size_t dropped = lr_count_of(log->dropped);
    if (!dropped) memcpy(log->last, log->limit - 2, sizeof log->last);
    if (lr_is_left_out(log, &log->last[2], move)) return;
    log->last[0] = log->last[1];
    log->last[1] = lr_filed(log, move);
    lr_set_count(log->dropped, dropped + 1);
    if (lr_has_order(log->run)) log->run->is_cut = 1;
}

/* Writes a move, unless it is left out or dropped. */
LR_AT_ONCE void lr_append(lr_log *log, lr_move move)
{
    lr_move *end = log->end;
    if (end == log->limit) {
        lr_drop(log, move);
        return;
    }
    if (lr_is_left_out(log, end, move)) return;
    *end = lr_filed(log, move);
    lr_set_count(log->end, end + 1);
    lr_run *run = log->run;
    if (!lr_has_order(run) || run->is_cut) return;
    run->order[run->ordered] = (unsigned char)log->thread;
    lr_set_count(run->ordered, run->ordered + 1);
}

/* The same if the note is in another file than the last one, or the log is full. Other notes call
   no function, so they need not save registers. */
__attribute__((cold)) static inline void lr_append_elsewhere(lr_log *log, lr_move move,
                                                             const char *file, unsigned line)
{
    if (log->file != file) lr_turn_to(log, file, line);
    lr_append(log, move);
}

#if LR_TURNS
static inline void lr_before_note(lr_log *log, unsigned word)
{
#if LR_FOLLOWS
    lr_stop_at_end(log);
#endif
    if (word != LR_STEP_section && !log->turn.in_monitor) lr_pass_if_due(log);
}

/* A run that went on without one of its moves could not be checked. */
static inline void lr_stop_if_full(lr_log *log)
{
    if (!log->run->is_cut) return;
    lr_tell(log->run->said, "the log of thread %u is full: it has room for %zu moves", log->thread,
            lr_room_of(log));
    lr_stop(log);
}

/* If a step found another value than the one before it, other threads may too. */
static inline void lr_after_note(lr_log *log, unsigned word, int polls)
{
    lr_run *run = log->run;
    int joined = log->turn.joined;
    lr_stop_if_full(log);
    log->turn.joined = 0;
    log->turn.seen = run->ordered;
    run->footprint.is_vain |= polls;
    run->stuck = polls ? run->stuck | lr_bit(log->thread) : lr_still_stuck(run, log->thread);
    if (!polls) run->in_vain = 0;
#if LR_FOLLOWS
    lr_made(log, word);
#endif
    if (word == LR_STEP_section || log->turn.in_monitor)
        log->turn.is_due = 1;
    else if (!joined)
        lr_pass(log);
}
#endif

/* A counter's value is cut to the width of its counter, however wide the computation is. */
LR_AT_ONCE void lr_note(lr_log *log, unsigned word, unsigned place, unsigned owner, unsigned part,
                        uint64_t value, const char *file, unsigned line)
{
    if (place == LR_PLACE_next_ticket || place == LR_PLACE_now_serving) value &= log->mask;
    lr_move move = {value, (uint64_t)line << LR_AT_LINE | (uint64_t)owner << LR_AT_OWNER |
                               part << LR_AT_PART | place << LR_AT_PLACE | word};
#if LR_TURNS
    if (log->file != file) lr_turn_to(log, file, line);
    lr_before_note(log, word);
    lr_touch_noted(log, &move);
    int polls = lr_is_same(move, &log->noted);
    log->noted = lr_filed(log, move);
    lr_append(log, move);
    lr_after_note(log, word, polls);
#else
    if (log->file == file && log->end != log->limit)
        lr_append(log, move);
    else
        lr_append_elsewhere(log, move, file, line);
    lr_noise(log);
#endif
}

#endif /* LR_RECORDS */
