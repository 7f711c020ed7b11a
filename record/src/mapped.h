/* The memory of a run. With LR_MAPPED it is a file in the run's folder, `run.notes`.

   If the program alone is killed, the process that saves its logs survives (watch.h). But the end
   of a container, a job or a service kills that process too, and so may a lack of memory. A store
   into a shared mapping of a file reaches the file whichever process is killed, so a note costs the
   same few stores as without the file. Notes are not text: to write text at each would cost as much
   as a hundred notes. `lr_recover` makes the logs from the file, by the functions that save every
   run. A note counts once `end` is past it, and `end` is stored after the note, so half a note is
   never read.

   A process that writes or saves a run holds the file's lock, so `lr_recover` waits for it. The
   blocks of the file are allocated before the first note: else a full disk would raise SIGBUS in
   the middle of a run. */

/* The size of a run's memory: `lr_run`, then the moves of each thread after two that nobody makes,
   then a byte for each of them, which names a move's thread, and with EXPLORE one for a choice. */
static inline size_t lr_size_of(unsigned threads, size_t moves)
{
    return sizeof(lr_run) + threads * (moves + 2) * LR_MOVE_SIZE;
}

#if LR_MAPPED
#include <sys/file.h>

/* Strict C11 leaves it out of the system's header. */
#if defined __STRICT_ANSI__ && !defined __cplusplus
int posix_fallocate(int file, off_t from, off_t length);
#endif

/* The beginning of a file that this program can read: the layout of the rest. */
static inline void lr_make_stamp(char *stamp)
{
    memset(stamp, 0, LR_STAMP);
    snprintf(stamp, LR_STAMP, "lockreplay_record %s %zu %" PRIu64 "\n", LR_VERSION, sizeof(lr_run),
             (uint64_t)(LR_START));
}

/* A file without a name would be lost too, so it has one from the beginning. */
static inline int lr_new_notes(const char *folder, size_t size)
{
    char path[LR_PATH];
    if (lr_path_in(path, folder, LR_NOTES)) return -1;
    int fault = 0, file = open(path, O_RDWR | O_CREAT | O_EXCL, 0666);
    if (file < 0) {
        lr_say("%s: %s", path, strerror(errno));
        return -1;
    }
    fcntl(file, F_SETFD, FD_CLOEXEC);
    flock(file, LOCK_EX);
    do fault = posix_fallocate(file, 0, (off_t)size);
    while (fault == EINTR);
    if (!fault) return file;
    lr_say("%s: %s: the notes of this run take %zu bytes there, and none with LR_MAPPED=0", path,
           strerror(fault), size);
    close(file);
    remove(path);
    return -1;
}

/* Removes the notes once nothing is left to be recovered, unless another run has its own file there
   by now. */
static inline void lr_remove_notes(const lr_run *run)
{
    char path[LR_PATH];
    struct stat own, there;
    if (run->notes < 0 || lr_path_in(path, run->folder, LR_NOTES)) return;
    if (fstat(run->notes, &own) || stat(path, &there)) return;
    if (own.st_dev == there.st_dev && own.st_ino == there.st_ino) remove(path);
}
#else
static inline void lr_make_stamp(char *stamp) { (void)stamp; }
static inline int lr_new_notes(const char *folder, size_t size)
{
    (void)folder, (void)size;
    return -1;
}
static inline void lr_remove_notes(const lr_run *run) { (void)run; }
#endif

/* Removes the notes of a run that could not be opened. */
static inline void lr_drop_notes(const char *folder)
{
    char path[LR_PATH];
    if (!lr_path_in(path, folder, LR_NOTES)) remove(path);
}

/* Closes the file, whose contents stay. */
static inline void lr_close_notes(lr_run *run)
{
    if (run->notes >= 0) close(run->notes);
    run->notes = -1;
}

#if LR_HOSTED
/* Memory of this process alone. With one thread at a time no note has to be fast, so its pages are
   touched as they are needed. */
static inline lr_run *lr_memory_of(unsigned threads, size_t moves, const char *folder)
{
    size_t all = threads * (moves + 2), size = lr_size_of(threads, moves);
    int zero = open("/dev/zero", O_RDWR);
    void *memory = mmap(NULL, size, PROT_READ | PROT_WRITE, MAP_PRIVATE, zero, 0);
    (void)folder;
    close(zero);
    if (memory == MAP_FAILED) return NULL;
    lr_run *run = (lr_run *)memory;
    run->notes = -1;
    run->size = size;
    run->moves = (lr_move *)(run + 1);
    run->order = (unsigned char *)(run->moves + all);
    if (LR_FREE) memset(run->moves, 0xFF, all * sizeof(lr_move));
    return run;
}
#else
/* Memory that another process shares: each page of the logs is touched before the run. A note that
   was never made is not taken for one (recover.h). */
static inline lr_run *lr_memory_of(unsigned threads, size_t moves, const char *folder)
{
    size_t all = threads * (moves + 2), size = lr_size_of(threads, moves);
    int is_mapped = LR_MAPPED && folder;
    int file = is_mapped ? lr_new_notes(folder, size) : open("/dev/zero", O_RDWR);
    if (file < 0 && is_mapped) return NULL;
    void *memory = mmap(NULL, size, PROT_READ | PROT_WRITE, MAP_SHARED, file, 0);
    if (memory == MAP_FAILED) {
        lr_say("no memory for %zu moves of each of %u threads: %s", moves, threads,
               strerror(errno));
        if (is_mapped) lr_drop_notes(folder);
        if (file >= 0) close(file);
        return NULL;
    }
    lr_run *run = (lr_run *)memory;
    if (!is_mapped && file >= 0) close(file);
    run->notes = is_mapped ? file : -1;
    run->size = size;
    run->moves = (lr_move *)(run + 1);
    run->order = (unsigned char *)(run->moves + all);
    run->made = run->order + all;
    run->made_room = LR_EXPLORES ? all : 0;
    memset(run->moves, 0xFF, all * sizeof(lr_move));
    return run;
}
#endif
