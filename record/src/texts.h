/* The text of a move, as a trace has it. */

enum { LR_LINE = 128 };

/* The value of a move in a trace, where counters begin at 0. */
static inline uint64_t lr_value_of(const lr_log *log, const lr_move *move)
{
    unsigned place = lr_move_place(move);
    int is_counter = place == LR_PLACE_next_ticket || place == LR_PLACE_now_serving;
    return is_counter ? (move->value - (uint64_t)(LR_START)) & log->mask : move->value;
}

/* Appends a text, and a number, at a place in a line. They return its end. */
static inline char *lr_put_text(char *at, const char *text)
{
    size_t length = strlen(text);
    memcpy(at, text, length + 1);
    return at + length;
}

static inline char *lr_put_number(char *at, uint64_t number)
{
    char digits[24], *first = digits + sizeof digits;
    *--first = '\0';
    do *--first = (char)('0' + number % 10);
    while (number /= 10);
    return lr_put_text(at, first);
}

/* Appends the values of a step. */
static inline char *lr_put_values(char *at, const lr_log *log, const lr_move *move)
{
    unsigned part = lr_move_part(move);
#if LR_HOSTED
    (void)log;
    if (part & LR_FOUND_TOO) at = lr_put_number(lr_put_text(at, " found "), move->value);
    if (part & LR_LEFT_TOO) at = lr_put_number(lr_put_text(at, " left "), move->left);
#else
    if (part == LR_PART_found || part == LR_PART_left)
        at = lr_put_number(lr_put_text(at, " "), lr_value_of(log, move));
#endif
    return at;
}

/* Writes a move without its thread into at most LR_LINE bytes. A trace costs most of what a run of
   EXPLORE does beside its turns, so this uses no format. */
static inline const char *lr_text_of(char *line, const lr_log *log, const lr_move *move)
{
    static const char *const places[] = {
        "",
        /* generated: places */
        /* clang-format off */
        " next_ticket", " now_serving", " tail", " next", " locked",
        /* clang-format on */
        /* end */
    };
    static const char *const parts[] = {
        "",
        /* generated: parts, outcomes */
        /* clang-format off */
        " found", " left", " done", " failed", " moved", " waits", " entered", " left",
        /* clang-format on */
        /* end */
    };
    unsigned of = lr_move_owner(move), part = lr_move_part(move) & LR_PART_BITS;
    char *at =
        lr_put_text(lr_put_text(line, lr_word(lr_move_word(move))), places[lr_move_place(move)]);
    if (of != LR_OWN) at = lr_put_number(lr_put_text(at, " of "), of);
    if (lr_move_word(move) == LR_STEP_section)
        at = lr_put_number(lr_put_text(at, " "), move->value);
    if (LR_HOSTED) at = lr_put_values(at, log, move);
    at = lr_put_text(at, parts[part]);
    if (!LR_HOSTED) lr_put_values(at, log, move);
    return line;
}

/* Writes a place in a source, without folders, into at most LR_LINE bytes. What has no place has a
   text in place of the file, and no line. */
static inline const char *lr_at(char *text, const char *file, unsigned line)
{
    const char *slash = strrchr(file, '/');
    snprintf(text, LR_LINE, line ? "%.99s:%u" : "%.99s", slash ? slash + 1 : file, line);
    return text;
}

/* Writes where a move of a log was noted. */
static inline const char *lr_where(char *text, const lr_log *log, const lr_move *move)
{
#if LR_HOSTED
    log->run->tell_place(text, LR_LINE, move->place);
    return text;
#else
    return lr_at(text, log->files[lr_move_file(move)], lr_move_line(move));
#endif
}

/* The last note of a thread, also one that was left out or dropped; NULL if it made none. */
static inline const lr_move *lr_last_of(const lr_log *log)
{
    size_t count = lr_length_of(log);
    if (LR_TURNS) return log->noted.kind ? &log->noted : NULL;
    if (lr_count_of(log->dropped)) return &log->last[1];
    return count ? &log->moves[count - 1] : NULL;
}

/* Appends to a text what a thread noted last, and where. */
static inline void lr_tell_last(char *text, const lr_log *log)
{
    char line[LR_LINE], at[LR_LINE];
    const lr_move *last = lr_last_of(log);
    if (last) lr_tell(text, " ('%s' at %s)", lr_text_of(line, log, last), lr_where(at, log, last));
}
