/* A library, preloaded before a program, that counts the threads that it begins.
 *
 *     cc -O2 -shared -fPIC -o threads.so threads.c
 *     THREADS_LOG=FILE LD_PRELOAD=./threads.so PROGRAM
 *
 * The file has the count at each time, since a program may end without its destructors.
 */
#define _GNU_SOURCE
#include <dlfcn.h>
#include <pthread.h>
#include <stdio.h>
#include <stdlib.h>

static int count;

static void __attribute__((constructor)) tell(void)
{
    const char *name = getenv("THREADS_LOG");
    FILE *log = name ? fopen(name, "w") : NULL;
    if (!log) return;
    fprintf(log, "%d", count);
    fclose(log);
}

/* Threads begin threads: the lock is held until the count is in the file. */
int pthread_create(pthread_t *thread, const pthread_attr_t *how, void *(*begin)(void *), void *with)
{
    static pthread_mutex_t lock = PTHREAD_MUTEX_INITIALIZER;
    int (*create)(pthread_t *, const pthread_attr_t *, void *(*)(void *), void *);
    *(void **)&create = dlsym(RTLD_NEXT, "pthread_create");
    pthread_mutex_lock(&lock);
    count++;
    tell();
    pthread_mutex_unlock(&lock);
    return create(thread, how, begin, with);
}
