/* One thread makes notes, and compares every line that the recording header writes. C11, C++14.

       recording_header DIRECTORY

   Prints each check that fails, and ends with 1 if one did. */
#define LR_MODE VALUES
#include "../../built/lockreplay_record.h"

static const char *directory;
static int failed;

static void check(const char *name, int holds)
{
    if (holds) return;
    failed = 1;
    printf("failed: %s\n", name);
}

/* Saves the log of thread 0, and compares it with the lines due. */
static void check_log(const char *name, lr_run *run, const char *due)
{
    char path[4096], text[4096];
    check(name, lr_save(run) == (run->logs[0].dropped ? ENOBUFS : 0));
    snprintf(path, sizeof path, "%s/thread-0.log", directory);
    FILE *file = fopen(path, "r");
    if (!file) {
        check(name, 0);
        return;
    }
    text[fread(text, 1, sizeof text - 1, file)] = '\0';
    fclose(file);
    const char *end = strchr(text, '\n');
    check("the first line has the run's number", strncmp(text, "# run ", 6) == 0 && end);
    check(name, end && strcmp(end + 1, due) == 0);
    lr_close(run);
}

/* Opens a run of one thread, and begins the thread. */
static lr_run *one_thread(const char *lock, unsigned bits, size_t moves)
{
    lr_run *run = lr_open(lock, 1, bits, moves, 0, directory);
    if (!run) exit(3);
    lr_begin(lr_log_of(run, 0));
    return run;
}

/* Makes notes in a run of one thread, and compares the lines of its log after the header. */
#define HAS_LINES(name, lock, bits, moves, due, ...)                                               \
    do {                                                                                           \
        lr_run *run = one_thread(lock, bits, moves);                                               \
        __VA_ARGS__;                                                                               \
        lr_end(lr_log_of(run, 0));                                                                 \
        check_log(name, run, "lock " lock " threads 1 bits " #bits " thread 0\n" due);             \
    } while (0)

static void every_note(void)
{
    int records[3] = {0, 0, 0}, *none = NULL;
    HAS_LINES("every note", "mcs", 64, 100,
              "acquire\nwrite next left 0\nswap tail found 0\nrelease\nread next found 3\n"
              "cas tail done\ncas tail failed\nadd next_ticket found 65535\n"
              "read now_serving found 18446744073709551615\nread locked of 2 found 1\n"
              "write next of 63 left 1\nwrite next of 255 left 1\nwrite next of 255 left 1\n"
              "dropped 0\n",
              LR_CALL(acquire), LR_WRITE(next, 0), LR_SWAP(tail, LR_RECORD(records, none)),
              LR_CALL(release), LR_READ(next, LR_RECORD(records, &records[2])), LR_CAS(tail, 2),
              LR_CAS(tail, 0), LR_JOIN(), LR_ADD(next_ticket, 65535),
              LR_READ(now_serving, UINT64_MAX), LR_READ_OF(locked, 2, 1), LR_WRITE_OF(next, 63, 1),
              LR_WRITE_OF(next, 64, 1), LR_WRITE_OF(next, -1, 1), LR_SWITCH());
}

static void every_section(void)
{
    uint64_t sections = 0;
    int waited = 0;
    HAS_LINES("every section", "rw-fifo", 8, 100,
              "wlock\nsection 1 moved\nsection 2 waits\nsection 3 waits\nsection 4 entered\n"
              "wunlock\nsection 5 left\nrlock\nrunlock\ndowngrade\ndropped 0\n",
              LR_CALL(wlock), LR_SECTION(++sections, moved), LR_SECTION(++sections, waits),
              LR_LOCK(waited = 4), check("the mutex is taken", waited == 4),
              LR_WAIT(&waited, waited = 2, waited = 1, waited = 3),
              check("what waits is done", waited == 1), LR_SIGNAL(&waited, waited = 5),
              check("what signals is done", waited == 5), LR_BROADCAST(&waited, waited = 6),
              check("what broadcasts is done", waited == 6), LR_UNLOCK(waited = 7),
              check("the mutex is given back", waited == 7), LR_SECTION(++sections, waits),
              LR_SECTION(++sections, entered), LR_CALL(wunlock), LR_SECTION(++sections, left),
              LR_CALL(rlock), LR_CALL(runlock), LR_CALL(downgrade));
}

static void lines_of_some_notes(void)
{
    unsigned char served = 255;
    HAS_LINES("a counter of 8 bits has its width", "ticket", 8, 100,
              "release\nread now_serving found 255\nwrite now_serving left 0\n"
              "read now_serving found 255\nread next found 256\ndropped 0\n",
              LR_CALL(release), LR_READ(now_serving, served), LR_WRITE(now_serving, served + 1),
              LR_READ(now_serving, -1), LR_READ(next, 256));
    HAS_LINES("the third equal look is left out", "ticket", 4, 100,
              "read now_serving found 1\nread now_serving found 1\n"
              "read now_serving found 2\nread now_serving found 1\n"
              "write now_serving left 2\nwrite now_serving left 2\nwrite now_serving left 2\n"
              "dropped 0\n",
              LR_READ(now_serving, 1), LR_READ(now_serving, 1), LR_READ(now_serving, 1),
              LR_READ(now_serving, 1), LR_READ(now_serving, 2), LR_READ(now_serving, 1),
              LR_WRITE(now_serving, 2), LR_WRITE(now_serving, 2), LR_WRITE(now_serving, 2));
    HAS_LINES("a third wait is left out", "rw-simple", 64, 100,
              "rlock\nsection 1 waits\nsection 2 waits\nsection 4 entered\ndropped 0\n",
              LR_CALL(rlock), LR_SECTION(1, waits), LR_SECTION(2, waits), LR_SECTION(3, waits),
              LR_SECTION(4, entered));
    HAS_LINES("a full log counts what it drops", "ticket", 64, 2,
              "acquire\nadd next_ticket found 0\ndropped 3\n", LR_CALL(acquire),
              LR_ADD(next_ticket, 0), LR_READ(now_serving, 7), LR_READ(now_serving, 7),
              LR_READ(now_serving, 7), LR_READ(now_serving, 0));
    HAS_LINES("a full log leaves out what any log does", "ticket", 64, 2,
              "read now_serving found 7\nread now_serving found 7\ndropped 1\n",
              LR_READ(now_serving, 7), LR_READ(now_serving, 7), LR_READ(now_serving, 7),
              LR_READ(now_serving, 7), LR_READ(now_serving, 0));
}

/* Writes a text into a file of the directory, or tells whether the file is there. */
static int file_of(const char *name, const char *text)
{
    char path[4096];
    snprintf(path, sizeof path, "%s/%s", directory, name);
    FILE *file = fopen(path, text ? "w" : "r");
    if (!file) return 0;
    if (text) fputs(text, file);
    return fclose(file) == 0;
}

static void what_an_earlier_run_left_is_taken_away(void)
{
    lr_run *run = one_thread("mcs", 64, 1);
    lr_end(lr_log_of(run, 0));
    check("files of a run", file_of("thread-1.log", "x") && file_of("thread-63.log", "x"));
    check("files beside them", file_of("run.trace", "x") && file_of("other.log", "x"));
    check_log("an earlier run", run, "lock mcs threads 1 bits 64 thread 0\ndropped 0\n");
    check("thread 1 is gone", !file_of("thread-1.log", NULL));
    check("thread 63 is gone", !file_of("thread-63.log", NULL));
    check("the trace is gone", !file_of("run.trace", NULL));
    check("another file is there", file_of("other.log", NULL));
}

/* A run takes its own notes away, and none of a later run in its folder. */
static void notes_go_with_their_run(void)
{
    lr_run *one = lr_open("mcs", 1, 64, 1, 0, directory);
    lr_run *other = lr_open("mcs", 1, 64, 1, 0, directory);
    lr_close(one);
    check("the later run has its notes", file_of("run.notes", NULL));
    lr_close(other);
    check("no notes are left", !file_of("run.notes", NULL));
}

static void two_runs_have_two_numbers(void)
{
    lr_run *one = lr_open("mcs", 1, 64, 1, 0, NULL);
    lr_run *other = lr_open("mcs", 1, 64, 1, 0, NULL);
    check("numbers of runs", one && other && one->number != other->number);
    lr_close(one);
    lr_close(other);
}

/* Notes that thread 0 polls `locked` of record 1, at a line of a file. */
static void poll_at(const char *file, unsigned line)
{
    lr_note(lr_self, LR_STEP_read, LR_PLACE_locked, 1, LR_PART_found, 1, file, line);
}

/* Each move in a log has the place of its note. A poll from another file is the same poll. */
static void a_move_has_its_place(void)
{
    enum { FILES = 300 };
    static char names[FILES][16];
    char at[LR_LINE], due[LR_LINE];
    lr_run *run = lr_open("mcs", 2, 64, 3 * FILES, 0, NULL);
    lr_log *log = lr_log_of(run, 0);
    lr_self = log;
    for (unsigned i = 0; i < FILES; i++) {
        snprintf(names[i], sizeof names[i], "a/%u.h", i);
        poll_at(names[i], 65535);
        poll_at(names[0], 7);
        poll_at(names[i], 9);
        LR_CALL(acquire);
        check("a third poll is left out", log->end - log->moves == 3 * (long)i + 3);
        snprintf(due, sizeof due, "%u.h:65535", i);
        if (i < 250) check("a first poll's place", !strcmp(lr_where(at, log, &log->end[-3]), due));
        check("a second poll's place", !strcmp(lr_where(at, log, &log->end[-2]), "0.h:7"));
    }
    check("the kind of a move",
          !strcmp(lr_text_of(at, log, &log->moves[1]), "read locked of 1 found 1"));
    lr_self = &lr_outside;
    lr_close(run);
}

/* Two threads have had one record, one after the other. All threads find the second one's. */
static void a_record_is_of_the_last_thread_that_took_it(void)
{
    lr_run *run = lr_open("mcs", 3, 64, 1, 0, NULL);
    int record = 0;
    lr_set_record(&run, sizeof run);
    check("no record outside of a run", lr_pointer_at(lr_self, (uintptr_t)&run) == 256);
    for (unsigned t = 0; t < 2; t++) {
        lr_self = lr_log_of(run, t);
        lr_set_record(&record, 1);
        lr_set_record(&record, sizeof record);
        check("a record that grows", lr_pointer_at(lr_self, (uintptr_t)&record + 1) == t + 1);
    }
    for (unsigned t = 0; t < 3; t++) {
        unsigned owner = t == 1 ? (unsigned)LR_OWN : 1;
        lr_self = lr_log_of(run, t);
        check("a pointer", lr_pointer_at(lr_self, (uintptr_t)&record) == 2);
        check("a record's word", lr_owner_at(LR_PLACE_next, (uintptr_t)&record) == owner);
        check("another word", lr_owner_at(LR_PLACE_tail, (uintptr_t)&record) == LR_OWN);
    }
    lr_self = &lr_outside;
    lr_close(run);
}

static void a_log_that_has_not_ended_says_so(void)
{
    lr_run *run = one_thread("ticket", 64, 2);
    LR_CALL(acquire);
    check("one thread is missing", lr_await(run, 0) == 1);
    check_log("a log without its end", run,
              "lock ticket threads 1 bits 64 thread 0\nacquire\n# thread 0 has not ended\n");
}

/* A caller may use the memory of a folder's name again before it saves the run. */
static void a_run_knows_its_folder_by_itself(void)
{
    char name[4096];
    snprintf(name, sizeof name, "%s", directory);
    lr_run *run = lr_open("mcs", 1, 64, 1, 0, name);
    if (!run) exit(3);
    memset(name, 0, sizeof name);
    lr_begin(lr_log_of(run, 0));
    lr_end(lr_log_of(run, 0));
    check_log("a run of a name that is gone", run,
              "lock mcs threads 1 bits 64 thread 0\ndropped 0\n");
}

static void what_cannot_be_opened_or_saved(void)
{
    check("no thread", !lr_open("mcs", 0, 64, 1, 0, NULL));
    check("65 threads", !lr_open("mcs", 65, 64, 1, 0, NULL));
    check("1 bit", !lr_open("mcs", 1, 1, 1, 0, NULL));
    check("65 bits", !lr_open("mcs", 1, 65, 1, 0, NULL));
    check("as many threads as values", !lr_open("mcs", 4, 2, 1, 0, NULL));
    check("64 threads of 6 bits", !lr_open("mcs", 64, 6, 1, 0, NULL));
    lr_run *most = lr_open("mcs", 63, 6, 1, 0, NULL);
    check("63 threads of 6 bits", most != NULL);
    lr_close(most);
    check("no such lock", !lr_open("clh", 1, 64, 1, 0, NULL));
    check("more moves than bytes", !lr_open("mcs", 1, 64, SIZE_MAX, 0, NULL));
    lr_run *run = one_thread("mcs", 64, 0);
    lr_end(lr_log_of(run, 0));
    check("nobody is missing", lr_await(run, 0) == 0);
    check("no such directory", !lr_open("mcs", 1, 64, 1, 0, "/no/such/directory"));
    check("a file as the directory", !lr_open("mcs", 1, 64, 1, 0, "/dev/null"));
    check_log("no room", run, "lock mcs threads 1 bits 64 thread 0\ndropped 0\n");
}

int main(int count, char **words)
{
    if (count != 2) return 2;
    directory = words[1];
    every_note();
    every_section();
    lines_of_some_notes();
    what_an_earlier_run_left_is_taken_away();
    notes_go_with_their_run();
    two_runs_have_two_numbers();
    a_move_has_its_place();
    a_record_is_of_the_last_thread_that_took_it();
    a_log_that_has_not_ended_says_so();
    a_run_knows_its_folder_by_itself();
    what_cannot_be_opened_or_saved();
    return failed;
}
