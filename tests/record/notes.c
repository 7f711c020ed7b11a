/* Two threads, one after the other, note what a test tries: NOTES of a lock, LOCK. RESET, if it is
   defined, makes the lock new before each of the `runs`. */
#include <stdio.h>

#include "main.h"

#ifdef RESET
static int runs;
static void reset(void)
{
    runs++;
    RESET;
}
#else
#define reset NULL
#endif

static void one_round(unsigned thread, unsigned round)
{
    (void)round;
    NOTES;
    (void)thread;
}

MAIN(LOCK, 64, reset)
