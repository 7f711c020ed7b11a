/* Whether the threads of a run of real threads make progress.

   Time alone does not tell: on a loaded machine a thread that could go on may not run for seconds.
   A thread is stuck if nobody notes anything while it is asleep at LOOKS_ASLEEP looks in a row and
   does not run in between, or while it runs for TICKS of processor time. A thread that is ready to
   run never counts as asleep. In /proc/self/task Linux has a file for each thread, whose line has
   the state, and 11 fields later the ticks.

   SPDX-License-Identifier: Apache-2.0 OR MIT */
#include <dirent.h>
#include <stdio.h>
#include <stdlib.h>
#include <string.h>
#include <sys/select.h>
#include <unistd.h>

/* A tick is 10 ms, and so is the time between two looks. */
enum { MOST_TASKS = 256, LOOKS_ASLEEP = 10, TICKS = 5, TICK = 10000 };

struct task {
    long id;
    unsigned long noted_at, last; /* its ticks when something was noted, and at the last look */
    int asleep;                   /* how many looks in a row found it asleep */
    int is_seen;
};

struct tasks {
    struct task all[MOST_TASKS];
    int count;
};

/* Reads the state and the ticks of a thread: 0 if the thread has ended. */
static int read_task(const char *id, char *state, unsigned long *ticks)
{
    char path[64], line[512];
    unsigned long user, system;
    snprintf(path, sizeof path, "/proc/self/task/%.20s/stat", id);
    FILE *file = fopen(path, "r");
    if (!file) return 0;
    char *read = fgets(line, sizeof line, file);
    fclose(file);
    char *after_name = read ? strrchr(line, ')') : NULL;
    if (!after_name) return 0;
    const char *format = ") %c %*s %*s %*s %*s %*s %*s %*s %*s %*s %*s %lu %lu";
    if (sscanf(after_name, format, state, &user, &system) != 3) return 0;
    *ticks = user + system;
    return 1;
}

static struct task *task_of(struct tasks *tasks, long id)
{
    for (int i = 0; i < tasks->count; i++)
        if (tasks->all[i].id == id) return &tasks->all[i];
    if (tasks->count == MOST_TASKS) abort();
    tasks->all[tasks->count].id = id;
    return &tasks->all[tasks->count++];
}

/* Looks at a thread: whether it is stuck. The first look counts as if somebody had just noted. */
static int look_at(struct task *task, char state, unsigned long ticks, int is_noted)
{
    int runs = state != 'S' || ticks != task->last;
    if (is_noted || !task->is_seen) task->noted_at = ticks;
    task->asleep = is_noted || runs || !task->is_seen ? 0 : task->asleep + 1;
    task->last = ticks;
    task->is_seen = 1;
    return task->asleep >= LOOKS_ASLEEP || ticks - task->noted_at >= TICKS;
}

/* Looks at all threads but the first, which does the looking: whether all of them are stuck. */
static int are_stuck(struct tasks *tasks, int is_noted)
{
    struct dirent *entry;
    DIR *folder = opendir("/proc/self/task");
    int count = 0, stuck = 0;
    if (!folder) abort();
    while ((entry = readdir(folder))) {
        unsigned long ticks;
        char state;
        long id = atol(entry->d_name);
        if (id == 0 || id == (long)getpid()) continue;
        if (!read_task(entry->d_name, &state, &ticks)) continue;
        count++;
        stuck += look_at(task_of(tasks, id), state, ticks, is_noted);
    }
    closedir(folder);
    return stuck == count;
}

static void pause_of_a_tick(void)
{
    struct timeval pause = {0, TICK};
    select(0, NULL, NULL, NULL, &pause);
}
