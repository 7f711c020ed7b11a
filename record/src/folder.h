/* The files of a run in its folder: its logs, its trace, and its notes while it runs. */

/* Makes the folder, if it is not there. Says what is wrong with it. */
static inline int lr_folder_fault(const char *folder)
{
    if (!folder || !mkdir(folder, 0777)) return 0;
    int fault = errno;
    struct stat found;
    if (!stat(folder, &found)) fault = S_ISDIR(found.st_mode) ? 0 : ENOTDIR;
    if (fault) lr_say("%s: %s", folder, strerror(fault));
    return fault;
}

/* The path of a file of a folder. */
static inline int lr_path_in(char *path, const char *folder, const char *name)
{
    int length = snprintf(path, LR_PATH, "%s/%s", folder, name);
    if (length > 0 && length < LR_PATH) return 0;
    lr_say("%s: %s", folder, strerror(ENAMETOOLONG));
    return ENAMETOOLONG;
}

/* The path of a thread's log, or of the trace if the thread is LR_NOBODY. */
static inline int lr_path_of(char *path, const char *folder, unsigned thread)
{
    char name[32] = "run.trace";
    if (thread != LR_NOBODY) snprintf(name, sizeof name, "thread-%u.log", thread);
    return lr_path_in(path, folder, name);
}

/* Takes away a file that may be there. */
static inline int lr_remove_file(const char *path)
{
    int fault = remove(path) && errno != ENOENT ? errno : 0;
    if (fault) lr_say("%s: %s", path, strerror(fault));
    return fault;
}

/* Takes away what an earlier run left, its trace and its logs from a thread on. */
static inline int lr_remove_earlier(const char *folder, unsigned from)
{
    char path[LR_PATH];
    int fault = 0;
    for (unsigned t = from; folder && t <= LR_THREADS && !fault; t++) {
        fault = lr_path_of(path, folder, t < LR_THREADS ? t : (unsigned)LR_NOBODY);
        if (!fault) fault = lr_remove_file(path);
    }
    return fault;
}

/* Takes away the notes of an earlier run, of which logs could be made in place of later ones. */
static inline int lr_remove_earlier_notes(const char *folder)
{
    char path[LR_PATH];
    if (!folder) return 0;
    int fault = lr_path_in(path, folder, LR_NOTES);
    return fault ? fault : lr_remove_file(path);
}

/* Reads a line as far as there is room for it: a comment may be longer. Returns 0 at the end. */
static inline int lr_read_text(char *text, size_t room, FILE *file)
{
    size_t length = 0;
    int byte;
    while ((byte = getc(file)) != EOF && byte != '\n')
        if (length + 1 < room) text[length++] = (char)byte;
    text[length] = '\0';
    return byte != EOF || length;
}

/* `more` is what is known of the end. */
static inline void lr_say_kept(const char *folder, const char *more)
{
    lr_say("the program ended before its run was saved: its moves until then are in the folder "
           "%s%s",
           folder, more);
}
