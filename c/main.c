/* The command line of lockreplay. It has no part in what a report says. */

enum { MOST_BYTES = 1048577, MOST_FILES = 65536, MOST_WORKERS = 8, WAITING = 65536 };
enum { ACCEPTED, REFUSED, MISUSED, FAILED }; /* the statuses */

static const char usage[] = "Usage: lockreplay <COMMAND>\n\n"
                            "  lockreplay replay                         reads standard input\n"
                            "  lockreplay batch --workers <N> <FILE>...  N from 1 to 8\n";
static const char wrong[] = "error: the words have to be those of one command\n\n";

static lt_text *texts, *reports;
static size_t count;        /* of both */
static atomic_size_t drawn; /* the number of the next text of a worker */
static atomic_int lacks_memory;
static char waiting[WAITING]; /* to be written, as many as waits */
static size_t waits;

static _Noreturn void end(int status, const char *message, const char *more)
{
    fprintf(stderr, "%s%s\n", message, more);
    exit(status);
}

/* Writes bytes to standard output. A write that takes none fails too. */
static void write_all(const void *bytes, size_t size)
{
    const char *at = bytes;
    for (ssize_t taken; size; at += taken, size -= (size_t)taken)
        if ((taken = write(1, at, size)) <= 0) end(FAILED, "lockreplay: cannot write", "");
}

/* Appends bytes to those that wait, and writes these before if there is no room. */
static void pass(const void *bytes, size_t size)
{
    if (size > WAITING - waits) write_all(waiting, waits), waits = 0;
    if (size > WAITING) write_all(bytes, size), size = 0;
    memcpy(waiting + waits, bytes, size);
    waits += size;
}

/* Reads a file, or standard input if it has no name, up to a byte more than a text may have. */
static void read_text(lt_text *text, uint8_t *input, const char *name)
{
    int device = name ? open(name, O_RDONLY) : 0;
    ssize_t got = device < 0 ? -1 : 1;
    size_t size = 0;
    char file[32];
    snprintf(file, sizeof file, "file %td", text - texts + 1);
    while (got > 0 && size < MOST_BYTES) {
        got = read(device, input + size, MOST_BYTES - size);
        size += got > 0 ? (size_t)got : 0;
    }
    if (got < 0) end(FAILED, "lockreplay: cannot read ", name ? file : "standard input");
    if (name) close(device);
    *text = (lt_text){malloc(size + 1), size};
    if (!text->bytes) end(FAILED, "lockreplay: out of memory", "");
    memcpy(text->bytes, input, size);
}

static void *work(void *unused)
{
    for (size_t k; (k = atomic_fetch_add(&drawn, 1)) < count;)
        if (!lt_report(&texts[k], &reports[k])) atomic_store(&lacks_memory, 1);
    return unused;
}

/* Makes all reports. The caller is a worker too; there are fewer if no thread can be started. */
static void make_reports(int workers)
{
    pthread_t ids[MOST_WORKERS];
    int started = 0;
#ifdef M_ARENA_MAX
    mallopt(M_ARENA_MAX, 1); /* those of all workers could take what a limit leaves for reports */
#endif
    while (started + 1 < workers && !pthread_create(&ids[started], NULL, work, NULL)) started++;
    work(NULL);
    while (started) pthread_join(ids[--started], NULL);
    if (lacks_memory) end(FAILED, "lockreplay: out of memory", "");
}

/* Replays the schedules of files, or the one on standard input. Returns the status. */
static int replay(int workers, char **files)
{
    int status = ACCEPTED;
    uint8_t *input = malloc(MOST_BYTES);
    texts = malloc(count * sizeof *texts), reports = malloc(count * sizeof *reports);
    if (!input || !texts || !reports) end(FAILED, "lockreplay: out of memory", "");
    for (size_t k = 0; k < count; k++) read_text(&texts[k], input, files ? files[k] : NULL);
    make_reports(workers);
    for (size_t k = 0; k < count; k++) {
        char head[32];
        if (files) pass(head, (size_t)snprintf(head, sizeof head, "file %zu\n", k + 1));
        pass(reports[k].bytes, reports[k].size);
        if (!lt_is_accepted(&reports[k])) status = REFUSED;
    }
    write_all(waiting, waits);
    return status;
}

static int is_utf8(const char *word)
{
    static const unsigned long least[] = {0, 0x80, 0x800, 0x10000};
    for (const unsigned char *at = (const unsigned char *)word; *at;) {
        int more = (*at >= 0xC0) + (*at >= 0xE0) + (*at >= 0xF0) + (*at >= 0xF8);
        unsigned long code = more ? *at & 0x3F >> more : *at < 0x80 ? *at : ~0UL;
        at++;
        for (int i = 0; i < more; i++) code = *at >> 6 == 2 ? code << 6 | (*at++ & 0x3F) : ~0UL;
        if (more > 3 || code < least[more] || code > 0x10FFFF || code >> 11 == 0x1B) return 0;
    }
    return 1;
}

/* Moves names to the front. Returns how many workers are asked for, or 0; ends for help. */
static int read_words(char **words)
{
    int workers = 0;
    char **at = words;
    for (; *at && strcmp(*at, "--"); at++) {
        if ((*at)[0] != '-' || !(*at)[1]) {
            words[count++] = *at;
            continue;
        }
        if (!strcmp(*at, "--help") || !strcmp(*at, "-h"))
            write_all(usage, sizeof usage - 1), exit(ACCEPTED);
        const char *number = strncmp(*at, "--workers=", 10) ? "" : *at + 10;
        if (!strcmp(*at, "--workers") && at[1]) number = *++at;
        number += *number == '+';
        number += strspn(number, "0");
        if (workers || *number < '1' || *number > '0' + MOST_WORKERS || number[1])
            end(MISUSED, wrong, usage);
        workers = *number - '0';
    }
    while (*at && *++at) words[count++] = *at;
    return workers;
}

int main(int size, char **words)
{
    const char *command = size > 1 ? words[1] : "";
    int is_batch = !strcmp(command, "batch");
    char **names = words + 1 + is_batch;
    signal(SIGPIPE, SIG_IGN); /* a write says that its reader left */
    for (int i = 1; i < size; i++)
        if (!is_utf8(words[i])) end(MISUSED, "lockreplay: the words are not UTF-8 text", "");
    int workers = size > 1 ? read_words(names) : 0;
    if (is_batch ? !workers || !count : workers || count != 1 || strcmp(command, "replay"))
        end(MISUSED, wrong, usage);
    if (count > MOST_FILES) end(MISUSED, "lockreplay: too many files", "");
    return replay(is_batch ? workers : 1, is_batch ? names : NULL);
}
