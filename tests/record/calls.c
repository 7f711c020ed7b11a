/* Threads that use the recording header wrongly, or wait for one another. BODY calls what a test
   tries; test_command_lines_and_turns.py has the bodies and the messages that are due. */
#include <signal.h>
#include <sys/select.h>

#include "../../built/lockreplay_record.h"

static lr_run *run;
static int condition, woken;
static unsigned waited;

/* The threads of a run do the work with which `start` began it. */
static void (*work)(lr_log *log);

static void *in_a_run(void *of)
{
    lr_log *log = (lr_log *)of;
    lr_begin(log);
    work(log);
    lr_end(log);
    return NULL;
}

static void start(void (*begun)(lr_log *log), unsigned threads)
{
    pthread_t id;
    work = begun;
    for (unsigned t = 0; t < threads; t++) pthread_create(&id, NULL, in_a_run, lr_log_of(run, t));
}

static void comes_and_goes(lr_log *log) { (void)log; }

static void twice(lr_log *log)
{
    pthread_t first, second;
    work = comes_and_goes;
    pthread_create(&first, NULL, in_a_run, log);
    pthread_create(&second, NULL, in_a_run, log);
    lr_await(run, 20);
}

static void comes(lr_log *log) { (void)log, woken = 1; }

static void keeps_its_turn(lr_log *log)
{
    for (;;) sem_wait(&log->turn.comes);
}

static void switches_for_ever(lr_log *log)
{
    for ((void)log;;) LR_SWITCH();
}

static void waits_for_ever(lr_log *log)
{
    (void)log;
    LR_WAIT(&condition, (void)0, (void)0, (void)0);
}

static void polls_for_ever(lr_log *log)
{
    for ((void)log;;) LR_READ(now_serving, 1);
}

/* Thread 0 polls until thread 1 has polled four times. */
static void opens_after_polls(lr_log *log)
{
    while (log->thread == 0 && !woken) LR_READ(now_serving, 1);
    for (int poll = 0; log->thread == 1 && poll < 4; poll++) LR_READ(now_serving, 2);
    woken |= log->thread == 1;
}

static void wakes_one(lr_log *log)
{
    if (log->thread == 0) {
        while (!run->parked) LR_SWITCH();
        LR_SIGNAL(&woken, (void)0); /* another condition: it wakes nobody */
        for (int turn = 0; turn < 20; turn++) LR_SWITCH();
        woken = 1;
        LR_SIGNAL(&condition, (void)0);
    } else {
        LR_WAIT(&condition, (void)0, (void)0, (void)0);
        if (!woken) _Exit(9);
    }
}

static void polls_without_a_note(lr_log *log)
{
    if (log->thread == 1) LR_CALL(acquire);
    for (;;) (void)__atomic_load_n(&woken, __ATOMIC_SEQ_CST);
}

/* Thread 1 waits. Thread 0 only lets it go first. */
static void signals_nothing(lr_log *log)
{
    for (int turn = 0; log->thread == 0 && turn < 1000; turn++) LR_SWITCH();
    if (log->thread == 1) LR_WAIT(&condition, (void)0, (void)0, (void)0);
}

/* Two threads wait. Then thread 2 wakes one of them or, if `woken` is set, both; with 2 it then
   waits itself. */
static void waits_or_wakes(lr_log *log)
{
    while (log->thread == 2 && run->parked != 3) LR_SWITCH();
    if (log->thread < 2)
        LR_WAIT(&condition, (void)0, (void)0, (void)0);
    else if (woken)
        LR_BROADCAST(&condition, (void)0);
    else
        LR_SIGNAL(&condition, (void)0);
    if (woken == 2 && log->thread == 2) LR_WAIT(&condition, (void)0, (void)0, (void)0);
}

/* In strict C11 a signal's handler is gone after its first signal, and not every header is whole. */
int pthread_kill(pthread_t id, int number);

static void reset_signal(int number) { signal(number, reset_signal); }

/* Who comes first has its turn while the other thread is interrupted. */
static void interrupts(unsigned thread, unsigned round)
{
    (void)round;
    if (woken++) return;
    for (int times = 0; times < 20; times++) {
        struct timeval pause = {0, 2000};
        pthread_kill(run->logs[!thread].id, SIGUSR1);
        select(0, NULL, NULL, NULL, &pause);
    }
    if (woken > 1) _Exit(9);
}

/* Takes two steps, before each of which another thread may have its turn. */
static void take_two_steps(unsigned thread, unsigned round)
{
    (void)thread, (void)round;
    LR_ADD(next_ticket, 0);
    LR_ADD(next_ticket, 0);
}

/* Prints the order in which two threads take their four steps, a line for each seed. */
static void orders(unsigned seeds)
{
    const lr_driver driver = {"ticket", 64, NULL, take_two_steps, NULL};
    for (unsigned seed = 1; seed <= seeds; seed++) {
        run = lr_open("ticket", 2, 64, 2, seed, NULL);
        if (lr_go(run, &driver, 1, 20) || run->ordered != 4) _Exit(9);
        printf("%d%d%d%d\n", run->order[0], run->order[1], run->order[2], run->order[3]);
        lr_close(run);
    }
}

/* Prints which of two threads that wait are woken, a line for each seed. */
static void wakes(unsigned seeds)
{
    for (unsigned seed = 1; seed <= seeds; seed++) {
        run = lr_open("rw-fifo", 3, 64, 9, seed, NULL);
        start(waits_or_wakes, 3);
        lr_wait_for(run, 20);
        for (unsigned t = 0; t < 2; t++)
            if (lr_count_of(run->logs[t].ended)) printf("%u", t);
        printf("\n");
    }
}

/* Thread 1 waits, and nobody signals. Thread 0 lets it go first until it is awake. */
static void counts_turns(lr_log *log)
{
    if (log->thread == 1) {
        LR_WAIT(&condition, (void)0, (void)0, (void)0);
        woken = 1;
    }
    for (; !woken; LR_SWITCH()) waited += run->parked != 0;
}

/* Prints how many turns thread 1 waits, the sum for so many even seeds. */
static void wakes_for_nothing(unsigned seeds)
{
    for (unsigned seed = 1; seed <= seeds; seed++) {
        run = lr_open("rw-fifo", 2, 64, 9, 2 * seed, NULL);
        woken = 0;
        start(counts_turns, 2);
        if (lr_wait_for(run, 20)) _Exit(9);
    }
    printf("%u\n", waited);
}

/* Two threads wait, and nobody signals. Thread 2 prints whether one of them still waits when it
   first sees that another one does not. */
static void sees_who_waits(lr_log *log)
{
    if (log->thread < 2) {
        do LR_WAIT(&condition, (void)0, (void)0, (void)0);
        while (!woken);
    } else {
        while (run->parked != 3) LR_SWITCH();
        woken = 1;
        while (run->parked == 3) LR_SWITCH();
        printf("%d\n", run->parked != 0);
    }
    LR_BROADCAST(&condition, (void)0);
}

static void wakes_one_for_nothing(unsigned seeds)
{
    for (unsigned seed = 1; seed <= seeds; seed++) {
        run = lr_open("rw-fifo", 3, 64, 9, seed, NULL);
        woken = 0;
        start(sees_who_waits, 3);
        if (lr_wait_for(run, 20)) _Exit(9);
    }
}

/* The number of the note or the point that is made. */
static unsigned number;

#ifdef LR_NOISE
/* These replace the system's. Each prints the thread, and the number of what it delays. */
int sched_yield(void) { return printf("%u %u yields\n", lr_thread(), number); }

int select(int count, fd_set *in, fd_set *out, fd_set *odd, struct timeval *time)
{
    (void)count, (void)in, (void)out, (void)odd;
    if (time->tv_sec || time->tv_usec < 0 || time->tv_usec > 100) _Exit(9);
    return printf("%u %u sleeps\n", lr_thread(), number);
}
#endif

static void make_notes(unsigned thread, unsigned count)
{
    lr_self = lr_log_of(run, thread);
    for (number = 0; number < count; number++) LR_CALL(acquire);
    lr_self = &lr_outside;
}

static void make_points(unsigned thread, unsigned count)
{
    lr_self = lr_log_of(run, thread);
    for (number = 0; number < count; number++) __atomic_store_n(&woken, 1, __ATOMIC_SEQ_CST);
    lr_self = &lr_outside;
}

int main(void)
{
    run = lr_open("mcs", 2, 64, 8000, 1, NULL);
    BODY;
    return 0;
}
