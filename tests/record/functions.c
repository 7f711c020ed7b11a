/* A ticket lock whose threads are started without `lr_main`: PROGRAM FOLDER. Prints what the
   functions of a run return, and how many rounds each thread made. */
#include <stdio.h>

#include "ticket.h"

enum { THREADS = 2, ROUNDS = 3 };

static unsigned made[THREADS];

static void *work(void *of)
{
    lr_log *log = (lr_log *)of;
    lr_begin(log);
    for (int round = 0; round < ROUNDS; round++) {
        acquire();
        made[log->thread]++;
        release();
    }
    lr_end(log);
    return NULL;
}

int main(int count, char **words)
{
    pthread_t ids[THREADS];
    const char *folder = count == 2 ? words[1] : NULL;
    lr_run *run = lr_open("ticket", THREADS, 8, 64, 1, folder);
    if (!run) return 3;
    for (unsigned t = 0; t < THREADS; t++)
        if (pthread_create(&ids[t], NULL, work, lr_log_of(run, t))) return 3;
    printf("%u are missing\n", lr_await(run, 20));
    for (unsigned t = 0; t < THREADS; t++) pthread_join(ids[t], NULL);
    printf("%u and %u rounds\n", made[0], made[1]);
    printf("said '%s', saved %d\n", lr_said(run), lr_save(run));
    lr_close(run);
    printf("recovered %d\n", folder ? lr_recover(folder) : 0);
    return 0;
}
