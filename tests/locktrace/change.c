/* A library, preloaded before a program, that ends it at a change of files, or fills the disk there.
 *
 *     cc -O2 -shared -fPIC -o change.so change.c
 *     CHANGE_NTH=N CHANGE_FULL=WHETHER LD_PRELOAD=./change.so PROGRAM
 *
 * A change is a call that makes, writes, renames or removes a file that has a name, or that makes a
 * folder. Before the Nth one, from 1, the program is killed. If the disk is to be full, half of the
 * bytes of that write are written, and then each write, each new file and each new folder fails; to
 * rename and to remove goes on.
 */
#define _GNU_SOURCE
#include <errno.h>
#include <fcntl.h>
#include <signal.h>
#include <stdarg.h>
#include <stdlib.h>
#include <sys/stat.h>
#include <sys/syscall.h>
#include <unistd.h>

static long left;
static int is_full;

__attribute__((constructor)) static void begin(void)
{
    const char *nth = getenv("CHANGE_NTH"), *full = getenv("CHANGE_FULL");
    left = nth ? atol(nth) : 0;
    is_full = full && *full == '1';
}

/* Counts a change. Returns whether it is the Nth or a later one and has to fail. */
static int fails(int takes_room)
{
    if (left > 1) {
        left--;
        return 0;
    }
    if (left == 0) return 0;
    if (!is_full) kill(getpid(), SIGKILL);
    if (takes_room) errno = ENOSPC;
    return takes_room;
}

static int is_named(int fd) { return fd > 2; }

ssize_t write(int fd, const void *bytes, size_t size)
{
    static int was_halved;
    if (is_named(fd) && fails(1)) {
        if (was_halved || size < 2) return -1;
        was_halved = 1;
        size /= 2;
    }
    return syscall(SYS_write, fd, bytes, size);
}

static int opened(int at, const char *path, int flags, mode_t mode)
{
    if ((flags & O_CREAT) && fails(1)) return -1;
    return syscall(SYS_openat, at, path, flags, mode);
}

#define MODE(flags, last)                                                                          \
    mode_t mode = 0;                                                                               \
    va_list more;                                                                                  \
    va_start(more, last);                                                                          \
    if ((flags) & (O_CREAT | __O_TMPFILE)) mode = va_arg(more, mode_t);                            \
    va_end(more)

int open(const char *path, int flags, ...)
{
    MODE(flags, flags);
    return opened(AT_FDCWD, path, flags, mode);
}

int open64(const char *path, int flags, ...)
{
    MODE(flags, flags);
    return opened(AT_FDCWD, path, flags, mode);
}

int openat(int at, const char *path, int flags, ...)
{
    MODE(flags, flags);
    return opened(at, path, flags, mode);
}

int rename(const char *from, const char *to)
{
    return fails(0) ? -1 : syscall(SYS_rename, from, to);
}

int unlink(const char *path) { return fails(0) ? -1 : syscall(SYS_unlink, path); }

int mkdir(const char *path, mode_t mode) { return fails(1) ? -1 : syscall(SYS_mkdir, path, mode); }
