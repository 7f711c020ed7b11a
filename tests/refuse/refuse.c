/* A library, preloaded before a test, that refuses one request for memory: the Nth from a
 * given one.
 *
 *     cc -O2 -shared -fPIC -o refuse.so refuse.c
 *     REFUSE_LOG=FILE LD_PRELOAD=./refuse.so TESTS NAME
 *
 * A test speaks to it by requests of telling sizes, which need no call that a test cannot make.
 * Each is answered with one byte or refused; the test gives a granted block back without using it.
 *
 *     HERE        is refused. Without the library it is granted, so a test knows whether the
 *                 library is there.
 *     ARM + N     arms the library, N from 1 to 999,999: it refuses the Nth of the requests that
 *                 follow, counted over all threads, and no other.
 *     ASK         disarms the library. It is refused exactly if a request was refused since ARM.
 *                 Without the library it is granted: no request was refused.
 *
 * A request is a call of malloc, realloc, aligned_alloc, memalign or posix_memalign with any other
 * size. The programs use only malloc and realloc (`nm -D`), and alignments above 16 are refused
 * before they get here. The library neither counts nor refuses calloc, which the C library
 * calls when it starts a thread. Freeing a block, also by realloc(p, 0), is no request.
 *
 * A test of a call that may want memory is repeated for N = 1, 2, 3 and so on:
 *
 *     request ARM + N; make the call; request ASK
 *     ASK refused:  the answer is out of memory, or the answer with ample memory; go on with N + 1
 *     ASK granted:  the answer is the one with ample memory; end
 *
 * If HERE is refused and the call takes memory, N = 1 has to be refused: a test whose round ends
 * with N = 1 met no refusal, and fails. For a call that takes no memory the round is N = 1 alone,
 * with ASK granted. Only the call itself may ask for memory between ARM and ASK.
 *
 * Each ASK appends a line `request N refused` or `request N not reached` to the file that
 * REFUSE_LOG names. If the loader cannot preload the library, it only warns, and no line appears.
 * So the tests look for the lines.
 *
 * REFUSE_NTH=N arms the library for a program that does not speak to it: the Nth request since the
 * start is refused. When the program ends, the library appends the line of that round, and a line
 * `requests K` with the number of requests. `Refusing` of devices.py runs a built program so.
 *
 * The library would misread a program that itself asks for exactly one of these sizes. No test here
 * leads to such a request.
 */
#define _GNU_SOURCE
#include <errno.h>
#include <fcntl.h>
#include <stddef.h>
#include <stdio.h>
#include <stdlib.h>
#include <string.h>
#include <sys/syscall.h>
#include <unistd.h>

enum { HERE = 99999998, ASK = 99999999, ARM = 100000000, MOST = 999999 };

void *__libc_malloc(size_t);
void *__libc_realloc(void *, size_t);
void *__libc_memalign(size_t, size_t);

static long left;   /* requests up to the one to refuse; 0 if disarmed or past it */
static long armed;  /* the N of the last arming */
static int refused; /* whether a request was refused since then */
static long count;  /* of requests since the start, if REFUSE_NTH is set */
static int is_armed_at_start;
static const char *log_name;

static _Noreturn void leave(int status)
{
    for (;;) syscall(SYS_exit_group, status);
}

/* Appends to the log without asking for memory. */
static void note(void)
{
    char line[64];
    int size =
        snprintf(line, sizeof line, "request %ld %s\n", armed, refused ? "refused" : "not reached");
    if (count > 0) size += snprintf(line + size, sizeof line - size, "requests %ld\n", count);
    int log = log_name ? open(log_name, O_WRONLY | O_CREAT | O_APPEND | O_CLOEXEC, 0600) : -1;
    if (log < 0) return;
    if (write(log, line, size) != size) leave(99);
    close(log);
}

static int is_telling(size_t size)
{
    return size == HERE || size == ASK || (size > ARM && size <= (size_t)ARM + MOST);
}

/* Whether a request of a telling size is granted. */
static int answer(size_t size)
{
    if (size == HERE) return 0;
    if (size == ASK) {
        __atomic_store_n(&left, 0, __ATOMIC_SEQ_CST);
        note();
        return !__atomic_load_n(&refused, __ATOMIC_SEQ_CST);
    }
    armed = size - ARM;
    __atomic_store_n(&refused, 0, __ATOMIC_SEQ_CST);
    __atomic_store_n(&left, armed, __ATOMIC_SEQ_CST);
    return 1;
}

/* Whether a request of any other size is granted. One atomic step takes it from those left. */
static int is_granted(void)
{
    if (is_armed_at_start) __atomic_add_fetch(&count, 1, __ATOMIC_SEQ_CST);
    long now = __atomic_load_n(&left, __ATOMIC_SEQ_CST);
    while (now > 0)
        if (__atomic_compare_exchange_n(&left, &now, now - 1, 0, __ATOMIC_SEQ_CST,
                                        __ATOMIC_SEQ_CST)) {
            if (now > 1) return 1;
            __atomic_store_n(&refused, 1, __ATOMIC_SEQ_CST);
            errno = ENOMEM;
            return 0;
        }
    return 1;
}

void *malloc(size_t size)
{
    if (is_telling(size)) return answer(size) ? __libc_malloc(1) : NULL;
    return is_granted() ? __libc_malloc(size) : NULL;
}

void *realloc(void *block, size_t size)
{
    if (!block) return malloc(size);
    return size == 0 || is_granted() ? __libc_realloc(block, size) : NULL;
}

void *memalign(size_t alignment, size_t size)
{
    return is_granted() ? __libc_memalign(alignment, size) : NULL;
}

void *aligned_alloc(size_t alignment, size_t size) { return memalign(alignment, size); }

int posix_memalign(void **block, size_t alignment, size_t size)
{
    void *got = memalign(alignment, size);
    if (!got) return ENOMEM;
    *block = got;
    return 0;
}

__attribute__((constructor)) static void start(void)
{
    const char *number = getenv("REFUSE_NTH");
    log_name = getenv("REFUSE_LOG");
    if (!number) return;
    is_armed_at_start = 1;
    armed = left = atol(number);
}

/* A program in C ends so. */
__attribute__((destructor)) static void end(void)
{
    if (!is_armed_at_start) return;
    is_armed_at_start = 0;
    __atomic_store_n(&left, 0, __ATOMIC_SEQ_CST);
    note();
}

/* A program in Rattle ends so. */
void _exit(int status)
{
    end();
    leave(status);
}
