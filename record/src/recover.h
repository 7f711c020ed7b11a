/* Makes the logs of a run from its notes (mapped.h) after every process of it was killed. */

#if LR_MAPPED

/* Whether these bytes are a note, and not part of a page that never reached the disk. */
static inline int lr_is_note(const lr_move *move)
{
    return lr_move_word(move) < LR_WORDS && lr_move_place(move) < LR_PLACES &&
           lr_move_part(move) < LR_PARTS && lr_move_file(move);
}

/* Whether this is the memory of a run of a program with this one's layout. `room` gets the room of
   a log. */
static inline int lr_is_run(const lr_run *run, size_t size, size_t *room)
{
    char stamp[LR_STAMP];
    lr_make_stamp(stamp);
    if (size < sizeof(lr_run) || memcmp(run->stamp, stamp, LR_STAMP)) return 0;
    if (run->size != size || run->threads < 1 || run->threads > LR_THREADS) return 0;
    size_t places = (size - sizeof(lr_run)) / LR_MOVE_SIZE / run->threads;
    *room = places - 2;
    return places >= 2 && lr_size_of(run->threads, *room) == size;
}

/* Sets a log's pointers to its moves in this process. The log ends before the first move that was
   lost. */
static inline void lr_find_moves(lr_run *run, unsigned thread, size_t room)
{
    lr_log *log = &run->logs[thread];
    size_t count = lr_length_of(log), whole = 0;
    log->run = run;
    log->moves = &run->moves[thread * (room + 2) + 2];
    while (whole < count && whole < room && lr_is_note(&log->moves[whole])) whole++;
    log->end = log->moves + whole;
    log->limit = log->moves + room;
    if (whole < count) log->ended = 0;
}

/* Makes the logs of a file whose processes have all ended. */
static inline int lr_recover_of(int file, const char *folder)
{
    struct stat found;
    size_t room;
    if (fstat(file, &found)) return errno;
    if (!found.st_nlink) return 0; /* another process made them just now */
    size_t size = (size_t)found.st_size;
    void *memory = mmap(NULL, size, PROT_READ | PROT_WRITE, MAP_PRIVATE, file, 0);
    if (memory == MAP_FAILED) return errno;
    lr_run *run = (lr_run *)memory;
    int fault = lr_is_run(run, size, &room) ? 0 : EINVAL;
    if (!fault) {
        run->folder = folder;
        run->lock = run->name;
        run->notes = file;
        run->is_crashed = 1;
        run->moves = (lr_move *)(run + 1);
        for (unsigned t = 0; t < run->threads; t++) lr_find_moves(run, t, room);
        fault = lr_save_files(run);
        if (!fault) lr_remove_notes(run);
        if (!fault) lr_say_kept(folder, "");
    }
    munmap(memory, size);
    return fault;
}

/* Does nothing if the run was saved. */
static inline int lr_recover(const char *folder)
{
    char path[LR_PATH], log[LR_PATH];
    if (lr_path_in(path, folder, LR_NOTES)) return ENAMETOOLONG;
    int file = open(path, O_RDWR), fault = file < 0 ? errno : 0;
    while (!fault && flock(file, LOCK_EX) && errno == EINTR) {}
    if (!fault) fault = lr_recover_of(file, folder);
    if (file >= 0) close(file);
    if (fault == ENOENT && !lr_path_of(log, folder, 0) && !access(log, R_OK)) return 0;
    if (fault) lr_say("%s: %s", path, strerror(fault));
    return fault;
}

#else
static inline int lr_recover(const char *folder) { return (void)folder, 0; }
#endif
