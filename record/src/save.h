/* Writing what was recorded: the log of each thread, and of one thread at a time the trace. */

enum { LR_SHORT = 1000 }; /* moves */

/* A text, which goes to a file or into memory. */
typedef struct lr_text {
    FILE *file;
    char *bytes;
    size_t length, room;
    int no_memory;
} lr_text;

static inline void lr_put_bytes(lr_text *text, const char *bytes, size_t length)
{
    if (text->file) {
        fwrite(bytes, 1, length, text->file);
        return;
    }
    if (text->length + length > text->room) {
        size_t room = 2 * text->room + length + 4096;
        char *larger = (char *)realloc(text->bytes, room);
        text->no_memory = text->no_memory || !larger;
        if (!larger) return;
        text->bytes = larger;
        text->room = room;
    }
    memcpy(text->bytes + text->length, bytes, length);
    text->length += length;
}

/* Puts at most 511 bytes, which is more than any line has. */
__attribute__((format(printf, 2, 3))) static inline void lr_put(lr_text *text, const char *format,
                                                                ...)
{
    char line[512];
    va_list values;
    va_start(values, format);
    int length = vsnprintf(line, sizeof line, format, values);
    va_end(values);
    if (length > 0) lr_put_bytes(text, line, (size_t)length);
}

static inline void lr_print_move(lr_text *text, const lr_log *log, const lr_move *move)
{
    char line[LR_LINE];
    lr_put(text, "%s\n", lr_text_of(line, log, move));
}

/* Comments, by which runs are told apart and made again, and the header up to a log's thread. */
static inline void lr_print_head(lr_text *text, const lr_run *run)
{
    lr_put(text, "# run %016" PRIx64 "\n", run->number);
    if (LR_SEEDED) lr_put(text, "# seed %" PRIu64 "\n", run->seed);
    if (LR_START)
        lr_put(text, "# counters began at %" PRIu64 ", here at 0\n", (uint64_t)(LR_START));
    lr_put(text, "lock %s threads %u bits %u", run->lock, run->threads, run->bits);
}

/* The words on a thread's end. If a run was stopped, as by the end of a schedule or for lack of
   room, nobody knows whether the thread would have gone on. */
static inline const char *lr_end_of(const lr_run *run, const lr_log *log)
{
    if (lr_count_of(log->ended)) return "has ended";
    int was_stopped =
        run->is_cut || run->is_crashed || (LR_TURNS && !run->hangs) || lr_count_of(log->dropped);
    return was_stopped ? "was stopped" : "has not ended";
}

/* A log whose thread has not ended has a comment in place of its last line. */
static inline void lr_print_log(lr_text *text, const lr_log *log)
{
    int ended = lr_count_of(log->ended);
    size_t count = lr_length_of(log);
    lr_put(text, " thread %u\n", log->thread);
    for (size_t i = 0; i < count; i++) lr_print_move(text, log, &log->moves[i]);
    if (ended)
        lr_put(text, "dropped %zu\n", lr_count_of(log->dropped));
    else
        lr_put(text, "# thread %u %s\n", log->thread, lr_end_of(log->run, log));
}

/* The first moves of a run, which may still go on. */
static inline void lr_print_moves(lr_text *text, const lr_run *run, size_t ordered)
{
    size_t next[LR_THREADS] = {0};
    lr_put(text, "\n");
    for (size_t turn = 0; turn < ordered; turn++) {
        unsigned t = run->order[turn];
        lr_put(text, "%u ", t);
        lr_print_move(text, &run->logs[t], &run->logs[t].moves[next[t]++]);
    }
}

/* With EXPLORE: what was chosen, by which `lr_main` makes the same run again. A program that has
   crashed took its choices along, and left them as bytes. */
static inline void lr_print_way(lr_text *text, const lr_run *run)
{
    size_t count = run->chosen;
    if (!LR_EXPLORES || (run->is_crashed && count > run->made_room)) return;
    if (!count) lr_put(text, "%s", "# way\n");
    for (size_t i = 0; i < count; i++)
        lr_put(text, "%s %u%s", i % 24 ? "" : "# way",
               (unsigned)(run->is_crashed ? run->made[i] : run->choices[i].chosen),
               i % 24 == 23 || i + 1 == count ? "\n" : "");
}

/* Where each move of a short run was noted, by its line in the trace. */
static inline void lr_print_places(lr_text *text, const lr_run *run, size_t ordered)
{
    size_t next[LR_THREADS] = {0};
    unsigned line = 2 + LR_SEEDED + (LR_START != 0);
    char at[LR_LINE];
    for (size_t turn = 0; turn < ordered && ordered <= LR_SHORT; turn++) {
        const lr_log *log = &run->logs[run->order[turn]];
        const lr_move *move = &log->moves[next[log->thread]++];
        lr_put(text, "# line %u is %s\n", ++line, lr_where(at, log, move));
    }
}

/* The trace: its moves, and in comments how the run ended, what makes it again, and where its moves
   were noted. A program that has crashed took the last along. */
static inline void lr_print_trace(lr_text *text, const lr_run *run)
{
    size_t ordered = lr_count_of(run->ordered);
    lr_print_head(text, run);
    lr_print_moves(text, run, ordered);
    lr_put(text, "# turns %zu\n", run->turns);
    for (unsigned t = 0; t < run->threads; t++)
        lr_put(text, "# thread %u %s\n", t, lr_end_of(run, &run->logs[t]));
    if (run->is_cut) lr_put(text, "%s", "# cut where a log was full\n");
    lr_print_way(text, run);
    if (run->is_crashed) lr_put(text, "%s", "# the program ended before its run was saved\n");
    if (run->said[0]) {
        lr_put(text, "# ");
        lr_put_bytes(text, run->said, strlen(run->said));
        lr_put(text, "\n");
    }
    if (!run->is_crashed) lr_print_places(text, run, ordered);
}

/* Writes a file of a directory by a function. It gets its name when it is whole: nothing is left of
   one that could not be written. Says why: 0, or an errno. */
static inline int lr_save_file(const lr_run *run, const char *path, unsigned thread,
                               void (*print)(lr_text *, const lr_run *, unsigned))
{
    char part[LR_PATH + 8];
    snprintf(part, sizeof part, "%s.part", path);
    lr_text text = {fopen(part, "w"), NULL, 0, 0, 0};
    int fault = text.file ? 0 : errno;
    errno = 0;
    if (text.file) print(&text, run, thread);
    if (text.file && (fflush(text.file) || ferror(text.file))) fault = errno ? errno : EIO;
    if (text.file && fclose(text.file) && !fault) fault = errno;
    if (!fault && rename(part, path)) fault = errno;
    if (!fault) return 0;
    remove(part);
    lr_say("%s: %s", path, strerror(fault));
    return fault;
}

static inline void lr_print_whole_log(lr_text *text, const lr_run *run, unsigned thread)
{
    lr_print_head(text, run);
    lr_print_log(text, &run->logs[thread]);
}

static inline void lr_print_whole_trace(lr_text *text, const lr_run *run, unsigned thread)
{
    (void)thread;
    lr_print_trace(text, run);
}

static inline int lr_save_trace(const lr_run *run, const char *path)
{
    return lr_save_file(run, path, 0, lr_print_whole_trace);
}

static inline int lr_save_files(lr_run *run)
{
    char path[LR_PATH];
    int fault = lr_remove_earlier(run->folder, run->threads);
    for (unsigned t = 0; t < run->threads && !fault; t++) {
        fault = lr_path_of(path, run->folder, t);
        if (!fault) fault = lr_save_file(run, path, t, lr_print_whole_log);
    }
    if (!LR_TURNS || fault) return fault;
    fault = lr_path_of(path, run->folder, LR_NOBODY);
    return fault ? fault : lr_save_trace(run, path);
}

/* Names the threads whose logs were full. The moves that were written are right, but they are not
   the whole run. */
static inline int lr_full_fault(const lr_run *run)
{
    int fault = 0;
    for (unsigned t = 0; t < run->threads; t++) {
        size_t dropped = lr_count_of(run->logs[t].dropped);
        if (!dropped) continue;
        fault = ENOBUFS;
        if (!run->said[0])
            lr_say("the log of thread %u was full: it has room for %zu moves, and dropped %zu", t,
                   lr_room_of(&run->logs[t]), dropped);
    }
    return fault;
}

static inline int lr_save(lr_run *run)
{
    if (!run->folder) return 0;
    int fault = lr_save_files(run);
    if (!fault) lr_remove_notes(run);
    lr_close_notes(run);
    lr_leave_unwatched(run);
    return fault ? fault : lr_full_fault(run);
}
