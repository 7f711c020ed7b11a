/* FOLLOW: schedules in files, one of them or a whole folder.

       lr_called called;
       int fault = lr_calls(&driver, "tour", "traces", &called);

   follows each `*.schedule` of the first folder, in one process. The trace of each is saved in the
   second folder, which is made; with LR_CHECK each is checked in the process, and only those are
   saved that are refused. `called` counts schedules and moves. A line on standard error says why a
   schedule was not followed. The answer is an errno, EINVAL for a file that is no schedule of this
   lock, ENOENT if there is no schedule, or 0. */

#if LR_FOLLOWS

#include <dirent.h>

/* The number of a word of a schedule, or LR_WORDS. */
static inline unsigned lr_word_of(const char *text)
{
    unsigned word = 0;
    while (word < LR_WORDS && strcmp(text, lr_word(word))) word++;
    return word;
}

/* Reads `lock NAME threads N` or that with `bits B`. */
static inline int lr_read_header(const char *text, char *lock, unsigned *threads, unsigned *bits)
{
    char end;
    return sscanf(text, "lock %15s threads %u bits %u %c", lock, threads, bits, &end) == 3 ||
           sscanf(text, "lock %15s threads %u %c", lock, threads, &end) == 2;
}

/* Reads `T WORD` from a line, and ignores the further parts of a trace's. */
static inline int lr_read_line(const char *text, unsigned threads, unsigned number, lr_line *line)
{
    char name[16];
    unsigned thread, word;
    if (sscanf(text, "%u %15s", &thread, name) != 2 || thread >= threads) return 0;
    if ((word = lr_word_of(name)) == LR_WORDS) return 0;
    line->thread = (unsigned char)thread;
    line->word = (unsigned char)word;
    line->number = number;
    return 1;
}

/* Appends a line to those of a run: 0, or an errno. */
static inline int lr_add_line(lr_run *run, const lr_line *line)
{
    if (run->lines_count % 1024 == 0) {
        size_t room = (run->lines_count + 1024) * sizeof(lr_line);
        lr_line *lines = (lr_line *)realloc(run->lines, room);
        if (!lines) return ENOMEM;
        run->lines = lines;
    }
    run->lines[run->lines_count++] = *line;
    run->seed = run->seed * 1000003 + line->thread * 16u + line->word;
    return 0;
}

/* Reads a schedule into a run that has only its lock and its bits. Returns 0, or an errno. */
static inline int lr_read_schedule(lr_run *run, FILE *file, const char *path)
{
    char text[256], lock[16] = "";
    unsigned number = 0, bits = run->bits;
    int is_wrong = 0;
    lr_line line;
    while (!is_wrong && lr_read_text(text, sizeof text, file)) {
        number++;
        if (text[0] == '#' || !text[0]) continue;
        if (lock[0]) {
            is_wrong = !lr_read_line(text, run->threads, number, &line);
            if (is_wrong || !lr_add_line(run, &line)) continue;
            lr_say("%s: %s", path, strerror(ENOMEM));
            return ENOMEM;
        }
        is_wrong = !lr_read_header(text, lock, &run->threads, &bits) || run->threads < 1 ||
                   run->threads > LR_THREADS;
        if (is_wrong || (!strcmp(lock, run->lock) && bits == run->bits)) continue;
        lr_say("%s: it is of the lock %s with %u bits, and not of %s with %u", path, lock, bits,
               run->lock, run->bits);
        return EINVAL;
    }
    if (!is_wrong && feof(file) && lock[0]) return 0;
    lr_say("%s:%u: this is no line of a schedule of %u threads", path, number, run->threads);
    return EINVAL;
}

static inline lr_run *lr_follow(const char *lock, unsigned bits, const char *path)
{
    lr_run read, *run = NULL;
    FILE *file = fopen(path, "r");
    memset(&read, 0, sizeof read);
    if (!file) {
        lr_say("%s: %s", path, strerror(errno));
        return NULL;
    }
    read.lock = lock;
    read.bits = bits;
    if (!lr_read_schedule(&read, file, path))
        run = lr_open(lock, read.threads, bits, read.lines_count + 1, read.seed, NULL);
    fclose(file);
    if (!run) {
        free(read.lines);
        return NULL;
    }
    run->lines = read.lines;
    run->lines_count = read.lines_count;
    return run;
}

typedef struct lr_called {
    unsigned schedules, refused;
    size_t moves;
} lr_called;

static inline int lr_is_schedule(const char *name)
{
    size_t length = strlen(name), end = strlen(".schedule");
    return length > end && !strcmp(name + length - end, ".schedule");
}

static inline int lr_compare_names(const void *one, const void *other)
{
    return strcmp(*(char *const *)one, *(char *const *)other);
}

/* Appends a name: 0, or an errno. */
static inline int lr_add_name(char ***names, int count, const char *name)
{
    size_t length = strlen(name) + 1;
    char **more = (char **)realloc(*names, ((size_t)count + 1) * sizeof(char *));
    if (!more) return ENOMEM;
    *names = more;
    more[count] = (char *)malloc(length);
    if (!more[count]) return ENOMEM;
    memcpy(more[count], name, length);
    return 0;
}

/* The names of a folder's schedules, sorted, and how many they are: 0, or an errno. */
static inline int lr_names_in(const char *folder, char ***names, int *count)
{
    DIR *open = opendir(folder);
    int fault = open ? 0 : errno;
    *names = NULL;
    *count = 0;
    for (struct dirent *entry; !fault && (entry = readdir(open));) {
        if (!lr_is_schedule(entry->d_name)) continue;
        fault = lr_add_name(names, *count, entry->d_name);
        *count += !fault;
    }
    if (open) closedir(open);
    if (*count > 1) qsort(*names, (size_t)*count, sizeof(char *), lr_compare_names);
    return fault;
}

/* Follows one schedule: 0, an errno, or EINVAL for a file that is no schedule of this lock. */
static inline int lr_call_one(const lr_driver *driver, const char *path, const char *trace,
                              lr_called *called)
{
    lr_run *run = lr_follow(driver->lock, driver->bits, path);
    if (!run) return EINVAL;
    if (!driver->call && run->lines_count) {
        lr_say("FOLLOW makes calls by the driver's last function, `call`, which is NULL");
        _Exit(2);
    }
    unsigned missing = lr_go(run, driver, 0, 10);
    int is_wrong = run->said[0] != 0, fault = 0;
#if LR_CHECKS
    is_wrong = lr_check(run) || is_wrong;
#endif
    called->schedules++;
    called->refused += (unsigned)is_wrong;
    called->moves += run->ordered;
    if (is_wrong) lr_say("%s: %s", path, run->said);
    if (is_wrong || !LR_CHECKS) fault = lr_save_trace(run, trace);
    if (run->lacks) fault = run->lacks;
    if (!missing) lr_close(run);
    return fault;
}

/* Follows a schedule of a folder. */
static inline int lr_call_in(const lr_driver *driver, const char *folder, const char *name,
                             const char *directory, lr_called *called)
{
    char path[LR_PATH], own[LR_PATH], trace[LR_PATH];
    snprintf(own, sizeof own, "%.*s.trace", (int)(strlen(name) - strlen(".schedule")), name);
    int fault = lr_path_in(path, folder, name);
    if (!fault) fault = lr_path_in(trace, directory, own);
    if (!fault) fault = lr_call_one(driver, path, trace, called);
    if (fault) lr_say("%s: %s", folder, strerror(fault));
    return fault;
}

static inline int lr_calls(const lr_driver *driver, const char *folder, const char *directory,
                           lr_called *called)
{
    char **names;
    int count, fault = lr_names_in(folder, &names, &count);
    memset(called, 0, sizeof *called);
    if (fault) {
        lr_say("%s: %s", folder, strerror(fault));
    } else if (!count) {
        lr_say("%s: no file there is named *.schedule", folder);
        fault = ENOENT;
    } else {
        fault = lr_folder_fault(directory);
    }
    for (int i = 0; i < count; i++) {
        if (!fault) fault = lr_call_in(driver, folder, names[i], directory, called);
        free(names[i]);
    }
    free(names);
    return fault;
}

#endif /* LR_FOLLOWS */
