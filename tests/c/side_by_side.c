/* Threads check texts at the same time, each its own: status 1 if an answer is not the expected one.
   The texts have different locks, faults and lengths. */
#include <pthread.h>
#include <stdio.h>
#include <string.h>

#include "../../built/locktrace.h"

enum { THREADS = 4, TIMES = 50, POLLS = 100, ROOM = 8 };

struct task {
    char text[16 * POLLS + 200];
    uint32_t fault, due; /* of the answer, and the action of the record after the moves, if any */
    uint64_t moves;
    int is_wrong;
};

static struct task tasks[THREADS] = {
    {"lock ticket threads 2\n0 acquire\n0 add next_ticket found 0\n", LT_ACCEPTED, 0, 2, 0},
    {"lock ticket threads 2\n0 acquire\n0 add\n1 acquire\n1 add\n", LT_FOUND_OTHER, 0, POLLS + 4,
     0},
    {"lock mcs threads 3\n2 acquire\n2 swap\n", LT_WRONG_STEP, LT_WRITE, 1, 0},
    {"lock rw-fifo threads 1\n0 rlock\n0 section 1 waits\n", LT_OTHER_OUTCOME, LT_SECTION, 1, 0},
};

static void *work(void *of)
{
    struct task *task = (struct task *)of;
    size_t length = strlen(task->text);
    for (int i = 0; i < TIMES; i++) {
        struct lt_step steps[ROOM];
        struct lt_answer answer;
        uint32_t fault = lt_check((const uint8_t *)task->text, length, steps, ROOM, &answer);
        if (fault != task->fault || answer.moves != task->moves) task->is_wrong = 1;
        if (task->due && steps[task->moves].action != task->due) task->is_wrong = 1;
    }
    return NULL;
}

int main(void)
{
    pthread_t ids[THREADS];
    int is_wrong = 0;
    char *polls = tasks[1].text;
    for (int i = 0; i < POLLS; i++) strcat(polls, "1 read\n");
    strcat(polls, "1 read now_serving found 9\n");
    for (int i = 0; i < THREADS; i++)
        if (pthread_create(&ids[i], NULL, work, &tasks[i])) return 3;
    for (int i = 0; i < THREADS; i++) {
        pthread_join(ids[i], NULL);
        is_wrong |= tasks[i].is_wrong;
    }
    return is_wrong;
}
