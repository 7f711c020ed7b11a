/* One thread at a time: the threads of a run share one processor.

   A turn that another processor takes costs a wakeup there, which is most of what a run costs: runs
   on one processor are 7 to 14 times as fast. Each run takes the processor that it begins on, so
   that programs side by side spread over all of them. */

#if LR_TURNS && defined __linux__
#include <sys/syscall.h>

/* Strict C11 leaves it out of the system's header. */
#if defined __STRICT_ANSI__ && !defined __cplusplus
long syscall(long number, ...);
#endif

enum { LR_MASK_WORDS = 16, LR_WORD_BITS = 8 * sizeof(unsigned long) };

typedef struct lr_pin {
    unsigned long before[LR_MASK_WORDS]; /* a bit for each processor on which the thread may run */
    long size;                           /* of these, or -1: nothing was changed */
} lr_pin;

/* Keeps the calling thread, and those that it starts, on the processor where it is. */
static inline void lr_take_processor(lr_pin *pin)
{
    unsigned long own[LR_MASK_WORDS] = {0};
    unsigned at = 0;
    pin->size = -1;
    if (syscall(SYS_getcpu, &at, NULL, NULL) || at / LR_WORD_BITS >= LR_MASK_WORDS) return;
    own[at / LR_WORD_BITS] = 1ul << at % LR_WORD_BITS;
    pin->size = syscall(SYS_sched_getaffinity, 0, sizeof pin->before, pin->before);
    if (pin->size > 0 && syscall(SYS_sched_setaffinity, 0, sizeof own, own)) pin->size = -1;
}

/* The thread may run where it could before. */
static inline void lr_leave_processor(const lr_pin *pin)
{
    if (pin->size > 0) syscall(SYS_sched_setaffinity, 0, (size_t)pin->size, pin->before);
}
#else
typedef struct lr_pin {
    long size;
} lr_pin;
static inline void lr_take_processor(lr_pin *pin) { pin->size = -1; }
static inline void lr_leave_processor(const lr_pin *pin) { (void)pin; }
#endif
