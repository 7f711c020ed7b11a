/* A run that is to be saved is also saved if its program crashes, is killed, or ends too early.

   The memory of a run is shared with a process of its own, which waits at a socket. Whatever ends
   the program, even `kill -9`, closes the socket; that process then writes what was noted. It has
   no part in the run, so a note costs nothing more. It is a grandchild, which the program need not
   wait for, in a session of its own, which no interrupt of a terminal ends. The child makes that
   session, since the program waits for it, and the grandchild may begin late. */

static inline int lr_save_files(lr_run *run);

/* Which thread ran when the program ended, and its last move. */
static inline void lr_tell_end(char *text, const lr_run *run)
{
#if LR_TURNS
    if (run->holder >= run->threads) return;
    lr_tell(text, "; thread %u ran", run->holder);
    lr_tell_last(text, &run->logs[run->holder]);
#else
    (void)text, (void)run;
#endif
}

/* The other process saves the run when the socket is closed, and only ends if a byte comes. */
static inline void lr_keep_watch(lr_run *run, int from)
{
    char byte, more[LR_SAID] = "";
    ssize_t got;
    close(0);
    close(1);
    do got = read(from, &byte, 1);
    while (got < 0 && errno == EINTR);
    if (got > 0) _Exit(0);
    run->is_crashed = 1;
    if (!lr_save_files(run)) {
        lr_remove_notes(run);
        lr_tell_end(more, run);
        lr_say_kept(run->folder, more);
    }
    _Exit(0);
}

/* Without the other process the program saves the run itself, unless it crashes or is killed. */
static inline void lr_watch(lr_run *run)
{
    int ends[2];
    if (!run->folder || socketpair(AF_UNIX, SOCK_STREAM, 0, ends)) return;
    fflush(NULL);
    pid_t child = fork();
    if (child == 0) {
        close(ends[1]);
        setsid();
        if (fork() == 0) lr_keep_watch(run, ends[0]);
        _Exit(0);
    }
    close(ends[0]);
    if (child > 0) waitpid(child, NULL, 0);
    fcntl(ends[1], F_SETFD, FD_CLOEXEC);
    run->watch = ends[1];
}

/* Ends the other process: the run was saved, or is not wanted. */
static inline void lr_leave_unwatched(lr_run *run)
{
    if (run->watch < 0) return;
    send(run->watch, "", 1, MSG_NOSIGNAL);
    close(run->watch);
    run->watch = -1;
}
