/* Runs a command once and prints what it took: nanoseconds from start to end, nanoseconds of a
 * processor, peak kilobytes, exit status.
 *
 *     measure INPUT OUTPUT PROGRAM [WORD...]
 *
 * Standard input is the file INPUT, standard output the file OUTPUT, made empty first. It is a
 * program of its own because a process that starts another hands on its own peak of memory: from a
 * large one, such as a Python, no command would be seen to take less than that. The processor's
 * time counts user and kernel, all threads, from the fork on.
 */
#define _GNU_SOURCE
#include <fcntl.h>
#include <spawn.h>
#include <stdio.h>
#include <stdlib.h>
#include <sys/resource.h>
#include <sys/wait.h>
#include <time.h>
#include <unistd.h>

extern char **environ;

static long long now(void)
{
    struct timespec t;
    clock_gettime(CLOCK_MONOTONIC, &t);
    return t.tv_sec * 1000000000ll + t.tv_nsec;
}

static long long nanoseconds(struct timeval t)
{
    return t.tv_sec * 1000000000ll + t.tv_usec * 1000ll;
}

static void fail(const char *what)
{
    perror(what);
    exit(2);
}

int main(int count, char **words)
{
    if (count < 4) {
        fprintf(stderr, "usage: measure INPUT OUTPUT PROGRAM [WORD...]\n");
        return 2;
    }
    int input = open(words[1], O_RDONLY | O_CLOEXEC);
    if (input < 0) fail(words[1]);
    int output = open(words[2], O_WRONLY | O_CREAT | O_TRUNC | O_CLOEXEC, 0600);
    if (output < 0) fail(words[2]);
    posix_spawn_file_actions_t actions;
    posix_spawn_file_actions_init(&actions);
    posix_spawn_file_actions_adddup2(&actions, input, 0);
    posix_spawn_file_actions_adddup2(&actions, output, 1);

    pid_t child;
    int status;
    struct rusage used;
    long long began = now();
    if (posix_spawnp(&child, words[3], &actions, NULL, words + 3, environ)) fail(words[3]);
    if (wait4(child, &status, 0, &used) < 0) fail("wait4");
    long long took = now() - began;
    int ended = WIFEXITED(status) ? WEXITSTATUS(status) : 128 + WTERMSIG(status);
    printf("%lld %lld %ld %d\n", took, nanoseconds(used.ru_utime) + nanoseconds(used.ru_stime),
           used.ru_maxrss, ended);
    return 0;
}
