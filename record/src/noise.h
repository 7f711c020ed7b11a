/* LR_NOISE: threads that run as they like are held up now and then, at a note or at a point.

   At one note in eight, or in LR_NOISE, the run's seed draws a yield, a sleep of at most 0.1 ms or
   a spin of at most 5,000 rounds. A thread is then held up in places that otherwise last
   a few nanoseconds, which is all the time that a mistake there has to show. */

#ifdef LR_NOISE
#include <sched.h>
#include <sys/select.h>

enum { LR_ONE_IN = LR_NOISE + 0 > 1 ? LR_NOISE + 0 : 8, LR_SLEEP = 100, LR_SPIN = 5000 };

static inline void lr_spin(unsigned rounds)
{
    for (unsigned left = rounds; left; left--) __asm__ volatile("");
}

static inline void lr_noise(lr_log *log)
{
    uint64_t drawn = lr_draw(&log->noise), length = drawn >> 34;
    struct timeval sleep = {0, (long)(length % LR_SLEEP)};
    if (drawn % LR_ONE_IN) return;
    switch (drawn >> 32 & 3) {
    case 0: sched_yield(); break;
    case 1: select(0, NULL, NULL, NULL, &sleep); break;
    default: lr_spin((unsigned)(length % LR_SPIN)); break;
    }
}
#else
static inline void lr_noise(lr_log *log) { (void)log; }
#endif
