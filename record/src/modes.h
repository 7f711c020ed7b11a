/* The mode is the value of LR_MODE: what it, and what each option, asks for. */

#ifndef LR_MODE
#define LR_MODE OFF
#define LR_HAS_MODE 0
#else
#define LR_HAS_MODE 1
#endif
#define LR_JOINED_(one, other) one##other
#define LR_JOINED(one, other) LR_JOINED_(one, other)
#define LR_MODE_OFF 1
#define LR_MODE_VALUES 2
#define LR_MODE_SEED 3
#define LR_MODE_FOLLOW 4
#define LR_MODE_EXPLORE 5
#define LR_CHOSEN LR_JOINED(LR_MODE_, LR_MODE)

#if defined LR_OFF + defined LR_VALUES + defined LR_SEED + defined LR_FOLLOW + defined LR_EXPLORE
#error "a mode is a value of LR_MODE, as in -DLR_MODE=SEED"
#elif !(LR_CHOSEN)
#error "LR_MODE is not one of OFF, VALUES, SEED, FOLLOW and EXPLORE"
#endif

#define LR_FREE (LR_CHOSEN == LR_MODE_VALUES)
#define LR_SEEDED (LR_CHOSEN == LR_MODE_SEED)
#define LR_FOLLOWS (LR_CHOSEN == LR_MODE_FOLLOW)
#define LR_EXPLORES (LR_CHOSEN == LR_MODE_EXPLORE)
/* LR_TURNS: one thread runs at a time. LR_RECORDS: something is recorded. */
#define LR_TURNS (LR_SEEDED || LR_FOLLOWS || LR_EXPLORES)
#define LR_RECORDS (LR_FREE || LR_TURNS)

#if defined LR_NOISE && !LR_FREE
#error "LR_NOISE is for LR_MODE=VALUES: it holds up threads that run as they like"
#endif
#if defined LR_PCT && !LR_SEEDED
#error "LR_PCT is for LR_MODE=SEED: it is a way to draw the turns"
#endif
#if defined LR_PCT && LR_PCT + 0 < 1
#error "LR_PCT is the depth of a mistake: LR_PCT=1 and so on"
#endif
#if defined LR_STEPS && !defined LR_PCT
#error "LR_STEPS is for LR_PCT: about how many turns a run has"
#endif
#if defined LR_STEPS && LR_STEPS + 0 < 1
#error "LR_STEPS is about how many turns a run has: LR_STEPS=1 and so on"
#endif
#if defined LR_SPURIOUS && !(LR_SEEDED || LR_EXPLORES)
#error "LR_SPURIOUS is for SEED and EXPLORE: threads are woken for nothing, or with 0 are not"
#endif
#if defined LR_CHECK && !LR_TURNS
#error "LR_CHECK is for SEED, FOLLOW and EXPLORE: `locktrace order` checks what VALUES records"
#endif
#if defined LR_PATIENCE && !(LR_SEEDED || LR_EXPLORES)
#error "LR_PATIENCE is for SEED and EXPLORE: after so many turns in vain a run hangs"
#endif
#if defined LR_MOVES && !LR_EXPLORES
#error "LR_MOVES is for LR_MODE=EXPLORE: room for so many moves of a thread"
#endif
#if defined LR_REDUCE && !LR_EXPLORES
#error "LR_REDUCE is for LR_MODE=EXPLORE: with 0 independent steps are made in both orders"
#endif
#if defined LR_ATOMICS && !(LR_SEEDED || LR_EXPLORES || defined LR_NOISE)
#error "LR_ATOMICS is for SEED, EXPLORE, and VALUES with LR_NOISE: points before atomic operations"
#endif
#if defined LR_MAPPED && !LR_FREE
#error "LR_MAPPED is for LR_MODE=VALUES: with 0 a run's notes are in memory alone"
#endif
#if !defined LR_MAPPED && LR_FREE && defined __linux__
#define LR_MAPPED 1
#elif !defined LR_MAPPED
#define LR_MAPPED 0
#endif

/* The number at which the lock's counters begin. */
#ifndef LR_START
#define LR_START 0
#endif

/* LR_HOSTED: a layer in another language makes the runs (record/rust). A thread of a run that is over
   then goes back to it, where a thread of a driver in C stays; and a turn ends before operations
   alone. */
#ifndef LR_HOSTED
#define LR_HOSTED 0
#endif

/* LR_POINTS: each atomic operation has a point before it, at which another thread may be next. */
#if !LR_HOSTED && (LR_SEEDED || LR_EXPLORES || defined LR_NOISE) &&                                \
    (!defined LR_ATOMICS || LR_ATOMICS + 0)
#define LR_POINTS 1
#else
#define LR_POINTS 0
#endif
/* LR_REDUCES: one order of independent steps is enough. */
#if LR_EXPLORES && (!defined LR_REDUCE || LR_REDUCE + 0)
#define LR_REDUCES 1
#else
#define LR_REDUCES 0
#endif
/* LR_WAKES: with EXPLORE threads are also woken without a signal. */
#if !defined LR_SPURIOUS || LR_SPURIOUS + 0
#define LR_WAKES 1
#else
#define LR_WAKES 0
#endif
#if LR_EXPLORES || defined LR_CHECK
#define LR_CHECKS 1
#else
#define LR_CHECKS 0
#endif

#if LR_RECORDS
#define LR_DO(...) __VA_ARGS__
#else
#define LR_DO(...) ((void)0)
#endif
