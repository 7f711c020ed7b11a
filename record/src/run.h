/* What is kept of a run: its moves, the log of each thread, and whose turn it is. */

#include <errno.h>
#include <fcntl.h>
#include <inttypes.h>
#include <limits.h>
#include <pthread.h>
#include <semaphore.h>
#include <stdarg.h>
#include <stdint.h>
#include <stdio.h>
#include <stdlib.h>
#include <string.h>
#include <sys/mman.h>
#include <sys/socket.h>
#include <sys/stat.h>
#include <sys/wait.h>
#include <time.h>
#include <unistd.h>

enum { LR_THREADS = 64, LR_OWN = 256, LR_NOBODY = 256, LR_APART = 128, LR_SAID = 1024 };
enum { LR_UNKNOWN = 255 }; /* in place of the thread whose record it is, if none has it */
enum { LR_FILES = 256, LR_STAMP = 64, LR_NAME = 16, LR_PATH = 4096 };
#define LR_NOTES "run.notes"

/* A note costs what its bytes cost, so a move has two words. From the lowest bit on the second one
   has a word, its place and its part (8 bits each), the thread whose record it is or LR_OWN (16);
   and where it was noted: the file's number in the thread's log (8), and the line (16). */
typedef struct lr_move {
    uint64_t value; /* what was found or left; the count of a section */
    uint64_t kind;
#if LR_HOSTED
    uint64_t left; /* with LR_LEFT_TOO: what was left, and `value` is what was found */
    const void *place;
#endif
} lr_move;

/* A move takes its own bytes, one for its thread, and with EXPLORE one for a choice. */
#define LR_MOVE_SIZE (sizeof(lr_move) + 1 + LR_EXPLORES)

enum { LR_AT_PLACE = 8, LR_AT_PART = 16, LR_AT_OWNER = 24, LR_AT_FILE = 40, LR_AT_LINE = 48 };

/* In a part: the value is what was found, and what was left is there too. */
enum { LR_PART_BITS = 0x3F, LR_FOUND_TOO = 0x40, LR_LEFT_TOO = 0x80 };

static inline unsigned lr_move_word(const lr_move *m) { return m->kind & 0xFF; }
static inline unsigned lr_move_place(const lr_move *m) { return m->kind >> LR_AT_PLACE & 0xFF; }
static inline unsigned lr_move_part(const lr_move *m) { return m->kind >> LR_AT_PART & 0xFF; }
static inline unsigned lr_move_owner(const lr_move *m) { return m->kind >> LR_AT_OWNER & 0xFFFF; }
static inline unsigned lr_move_file(const lr_move *m) { return m->kind >> LR_AT_FILE & 0xFF; }
static inline unsigned lr_move_line(const lr_move *m) { return (unsigned)(m->kind >> LR_AT_LINE); }

/* The bytes of a word, or of a thread's record, of which its words are fields. */
typedef struct lr_extent {
    uintptr_t first;
    size_t length;
} lr_extent;

/* What a step touches, if EXPLORE leaves out orders of independent steps. A step is all that a
   thread does in one turn: in C one operation with its note, elsewhere also a section of a monitor
   with its mutex and its signals. */
enum { LR_TOUCHED = LR_HOSTED ? 4 : 1 };
typedef struct lr_footprint {
    lr_extent words[LR_TOUCHED];
    unsigned names[LR_TOUCHED]; /* the words that its notes name */
    unsigned touched, named;    /* how many of these it has */
    int writes;                 /* it may do more than load the words */
    int is_all;                 /* it may touch anything */
    int is_vain;                /* it is a poll that found what the one before it did */
} lr_footprint;

typedef struct lr_step {
    lr_footprint footprint;
    unsigned thread;
    size_t choice; /* 1 and the number of the choice by which the thread kept its turn, or 0 */
} lr_step;

/* Needed only by the modes in which one thread runs at a time. */
typedef struct lr_turn {
    sem_t comes;
    int joined;         /* the next note is followed by one of the same operation */
    int in_monitor;     /* between LR_LOCK and LR_UNLOCK */
    int is_due;         /* a section was noted: its turn ends when its monitor is left */
    int has_passed;     /* nothing was done since the turn came back */
    const void *awaits; /* the condition for which the thread waits */
    size_t seen;        /* how many moves of all threads were written at the last note */
    size_t next_call;   /* the line of its schedule at which its next call is looked for */
    size_t priority;    /* the greatest goes first */
    lr_footprint poll;  /* of a thread that is stuck */
#if LR_HOSTED
    int is_gone;    /* it has ended, or was cut */
    unsigned polls; /* how many of its last notes are polls that found the same */
    uintptr_t look; /* where it last looked without a note, until a step may have changed that */
#endif
} lr_turn;

typedef struct lr_log {
    char apart[LR_APART]; /* keeps two threads' logs on cache lines of their own */
    struct lr_run *run;
    lr_move *end, *limit; /* where the next move goes, and where there is no room any more */
    const char *file;     /* of the last note */
    uint64_t file_bits;   /* its number, as a move has it */
    uint64_t mask;        /* the bits of a counter */
    lr_move *moves;       /* before the first one are two that no thread makes */
    size_t dropped;
    lr_move last[2]; /* of those that were dropped */
    lr_move noted;   /* with one thread at a time: the last note, also if it was left out */
    unsigned thread;
    int begun, ended; /* ended: 1 after the thread's last move */
    pthread_t id;     /* of a thread that a driver's run started */
    uint64_t noise;   /* with LR_NOISE: the state of its draws */
    lr_extent record;
    lr_turn turn;
    const char *files[LR_FILES]; /* in which the thread noted, from 1 on */
} lr_log;

/* A place in the user's source; the line is 0 if there is none. */
typedef struct lr_place {
    const char *file;
    unsigned line;
} lr_place;

/* A signal or a broadcast, and the threads that it woke; its line is 0 if there was none. */
typedef struct lr_signal {
    lr_place place;
    uint64_t woke;
} lr_signal;

/* What a thread did in place of the move of a schedule's line. */
enum { LR_DID_nothing = 1, LR_DID_end, LR_DID_make };

/* A line of a schedule that is followed. */
typedef struct lr_line {
    unsigned char thread, word;
    unsigned number; /* in its file, from 1 */
} lr_line;

/* A choice in a run that is explored: the thread that goes on, of those that can, and of those that
   wait for a signal that was not given. */
typedef struct lr_choice {
    uint64_t options, asleep;
    uint16_t chosen, current; /* current: who would have gone on, or LR_NOBODY */
    size_t step;              /* how many steps were made before */
} lr_choice;

/* It has the same fields in each mode, and the mode with which it was opened. */
typedef struct lr_run {
    char stamp[LR_STAMP]; /* with LR_MAPPED: what this layout is, once the run is open */
    char name[LR_NAME];   /* of the lock */
    int notes;            /* the file that this is in, or -1 */
    int mode;
    const struct lr_driver *driver;
    const char *lock, *folder;
    size_t size; /* of this and of all that follows it in memory */
    unsigned threads, bits, rounds;
    uint64_t seed, drawn, number;
    pthread_mutex_t mutex; /* of `begun`, `ended` of each log and `is_over` */
    pthread_cond_t changed;
    unsigned begun;
    int is_over;    /* nobody gets a turn any more */
    int is_left;    /* threads were left behind, so its memory stays */
    int is_crashed; /* the program ended before the run was saved */
    int lacks;      /* the errno of what the system refused, a thread or memory, or 0 */
    int watch;      /* by which the process that saves it then is told that all is well */
    char own_folder[LR_PATH];
    char said[LR_SAID]; /* why it ended before its threads, or why it is refused */
    lr_log logs[LR_THREADS];
    lr_move *moves; /* of all logs */

    /* One thread at a time: only the thread whose turn it is touches these. */
    unsigned holder;
    uint64_t inside; /* the threads between lr_begin and lr_end, a bit for each */
    uint64_t parked; /* those that wait for a condition */
    lr_signal last_signal;
    uint64_t stuck;        /* those that polled in vain, and nobody moved since */
    size_t turns, in_vain; /* in_vain: how many of the last turns made no step but polls */
    int hangs;
    unsigned char *order; /* whose each move is, up to the first that was dropped */
    size_t ordered;
    int is_cut;        /* a move was dropped */
    unsigned spurious; /* one turn in this many has a spurious wakeup */
    size_t depth;      /* with priorities: one more than the turns at which they change */
    size_t *changes;   /* these turns */
    lr_line *lines;    /* of the schedule that is followed */
    size_t lines_count, at;
    int is_at_end;            /* every line was made: each thread may come to its end */
    const unsigned char *way; /* what to choose first */
    size_t way_length;
    lr_choice *choices;
    size_t chosen, choices_room;
    unsigned char *made; /* the choices again, as far as there is room, where a crash leaves them */
    size_t made_room;
    lr_footprint footprint; /* of the step that is made */
    lr_step *steps;
    size_t stepped, steps_room;
    uint64_t preempted; /* those that made no step since they lost their turn */
    int leaves_out;     /* a thread that had polled in vain could have polled again */
    lr_place unseen;    /* of the first note of a step whose operation had no point */
    int has_strayed;    /* a choice of its way was not possible, or did not come up */
#if LR_HOSTED
    int is_ordered;        /* of free threads: one operation at a time, so their order is known */
    pthread_cond_t vacant; /* nobody makes an operation */
    int has_moved;         /* something was done since the turn was given */
    unsigned gone;         /* how many threads have ended, or were cut */
    uint64_t start;        /* the number at which the lock's counters begin */
    const void *signalled; /* where the last signal was given */
    unsigned did, by, made_word; /* where the schedule was left: LR_DID_.., by whom, and its move */
    void (*tell_place)(char *text, size_t room, const void *place);
#endif
} lr_run;

/* The log of the thread that runs, one variable for all files of a program. A thread that has none
   has this one, which has no file: so only a note in another file needs to ask. In a shared library
   each look at it would be a call, if the library may have the variable anywhere. */
#if defined __PIC__ && !defined __PIE__
#define LR_ONE_FOR_ALL __attribute__((weak, tls_model("initial-exec")))
#else
#define LR_ONE_FOR_ALL __attribute__((weak))
#endif
#ifdef __cplusplus
extern "C" {
__attribute__((weak)) lr_log lr_outside;
LR_ONE_FOR_ALL thread_local lr_log *lr_self = &lr_outside;
}
#else
__attribute__((weak)) lr_log lr_outside;
LR_ONE_FOR_ALL _Thread_local lr_log *lr_self = &lr_outside;
#endif

/* The number of the thread that runs. */
static inline unsigned lr_thread(void) { return lr_self->thread; }

/* `lr_save` may read what is counted while threads still run. */
#define lr_count_of(count) __atomic_load_n(&(count), __ATOMIC_ACQUIRE)
#define lr_set_count(count, value) __atomic_store_n(&(count), value, __ATOMIC_RELEASE)

/* How many moves a log has, and how many it has room for. */
static inline size_t lr_length_of(const lr_log *log)
{
    return (size_t)(lr_count_of(log->end) - log->moves);
}
static inline size_t lr_room_of(const lr_log *log) { return (size_t)(log->limit - log->moves); }

/* Whether the moves of all threads are in one order. */
static inline int lr_has_order(const lr_run *run)
{
#if LR_HOSTED
    return LR_TURNS || run->is_ordered;
#else
    return (void)run, LR_TURNS;
#endif
}

static inline uint64_t lr_bit(unsigned thread) { return UINT64_C(1) << thread; }

/* The next number of splitmix64 (Steele, Lea and Flood, 2014). */
static inline uint64_t lr_draw(uint64_t *state)
{
    uint64_t z = (*state += UINT64_C(0x9E3779B97F4A7C15));
    z = (z ^ (z >> 30)) * UINT64_C(0xBF58476D1CE4E5B9);
    z = (z ^ (z >> 27)) * UINT64_C(0x94D049BB133111EB);
    return z ^ (z >> 31);
}

/* A sentence on what is wrong. */
__attribute__((format(printf, 1, 2))) static inline void lr_say(const char *format, ...)
{
    va_list values;
    va_start(values, format);
    fputs("lockreplay_record: ", stderr);
    vfprintf(stderr, format, values);
    fputc('\n', stderr);
    va_end(values);
}

/* Appends to a text of LR_SAID bytes, as far as there is room. */
__attribute__((format(printf, 2, 3))) static inline void lr_tell(char *text, const char *format,
                                                                 ...)
{
    size_t length = strlen(text);
    va_list values;
    va_start(values, format);
    vsnprintf(text + length, LR_SAID - length, format, values);
    va_end(values);
}

/* Says once that a run cannot keep all that happens in it. */
static inline void lr_tell_no_memory(lr_run *run, const char *things)
{
    run->lacks = ENOMEM;
    if (!run->said[0]) lr_tell(run->said, "no memory for the run's %s", things);
}

static inline const char *lr_word(unsigned word)
{
    static const char *const words[] = {
        /* generated: calls, steps */
        /* clang-format off */
        "acquire", "release", "rlock", "runlock", "wlock", "wunlock", "downgrade", "read", "write",
        "swap", "cas", "add", "section",
        /* clang-format on */
        /* end */
    };
    return words[word];
}
