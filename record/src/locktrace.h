/* locktrace.h: the check of a trace (docs/FORMATS.md) from C, C++ and whatever calls C.
   SPDX-License-Identifier: Apache-2.0 OR MIT

   Compile locktrace.c with your program. Its calls take no memory and keep nothing: text, records
   and answer are the caller's. So calls on different ones may run in different threads at once. A
   text may have any number of moves. `lt_open` checks all of it; then a call of `lt_next` for each
   move that was made steps through them:

       #include "../../examples/bindings/check.c"

   Moves for which there is no room are checked too, and are not stepped through. A run that hangs
   is accepted: only `locktrace check` reads which threads have ended. */
#ifndef LOCKTRACE_H
#define LOCKTRACE_H

#include <stddef.h>
#include <stdint.h>
#include <string.h>

#ifdef __cplusplus
extern "C" {
#endif

/* The version, as a text and as a number for #if: 10,000 MAJOR + 100 MINOR + PATCH. */
/* generated: version */
/* clang-format off */
#define LT_VERSION "2.0.0"
#define LT_VERSION_NUMBER 20000
/* clang-format on */
/* end */

/* In place of a word's number: on no word. */
#define LT_NO_WORD UINT32_MAX

/* The actions of a step: calls, and steps from 16 on. */
enum {
    /* generated: numbers of moves */
    /* clang-format off */
    LT_ACQUIRE = 0, LT_RELEASE = 1, LT_RLOCK = 2, LT_RUNLOCK = 3, LT_WLOCK = 4, LT_WUNLOCK = 5,
    LT_DOWNGRADE = 6, LT_READ = 16, LT_WRITE = 17, LT_SWAP = 18, LT_CAS = 19, LT_ADD = 20,
    LT_SECTION = 21,
    /* clang-format on */
    /* end */
};

/* The outcomes of a step. */
enum {
    /* generated: numbers of outcomes */
    /* clang-format off */
    LT_CALLED = 0, LT_MOVED = 1, LT_WAITS = 2, LT_ENTERED = 3, LT_LEFT = 4,
    /* clang-format on */
    /* end */
};

/* Faults: 0 none; from 1 a move that the lock refuses; from 8 a value that is not the lock's; from
   16 a text that is no trace. */
enum {
    LT_ACCEPTED = 0,
    /* generated: numbers of faults */
    /* clang-format off */
    LT_NO_SUCH_THREAD = 1, LT_WRONG_LOCK = 2, LT_BUSY = 3, LT_NOT_HOLDER = 4, LT_ALREADY_HOLDS = 5,
    LT_NO_CALL = 6, LT_WRONG_STEP = 7, LT_OTHER_WORD = 8, LT_FOUND_OTHER = 9, LT_LEFT_OTHER = 10,
    LT_WROTE_OTHER = 11, LT_COUNT_NOT_ABOVE = 12, LT_OTHER_OUTCOME = 13, LT_NO_HEADER = 16,
    LT_BAD_HEADER = 17, LT_BAD_THREADS = 18, LT_WORDS_TOO_NARROW = 19, LT_BAD_LINE = 20,
    /* clang-format on */
    /* end */
};

/* The check takes its numbers to be aligned to their size, which i386 does not do by itself. */
#if defined __GNUC__ && defined __i386__
#define LT_ALIGNED __attribute__((aligned(8)))
#else
#define LT_ALIGNED
#endif

/* A move that was made. */
struct LT_ALIGNED lt_step {
    uint64_t line;    /* its line in the text, from 1 */
    uint64_t found;   /* the word before the step; 0 for a call and a section */
    uint64_t left;    /* the word after it; 0 for a call and a section */
    uint32_t thread;  /* who made it, from 0 */
    uint32_t action;  /* LT_ACQUIRE to LT_SECTION */
    uint32_t outcome; /* LT_CALLED to LT_LEFT */
    uint32_t word;    /* its number in docs/LOCKS.md; LT_NO_WORD for a call and a section */
};

/* What a text comes to. */
struct LT_ALIGNED lt_answer {
    uint64_t line;    /* the line of the fault; how many lines there are if nothing is wrong */
    uint64_t moves;   /* how many moves were made */
    uint32_t fault;   /* LT_ACCEPTED, or what is wrong with the line */
    uint32_t threads; /* how many the header names; 0 if it is wrong */
};

/* Checks a text up to its first fault, which it returns. Writes a record for each move that was
   made, as far as there is room. At a fault from 1 to 15 it also writes to `steps[answer->moves]`,
   if there is room, the step that the published lock has in place of the line: the next one of the
   line's thread. If that thread has no pending call, it writes zeros, with LT_NO_WORD. */
uint32_t lt_check(const uint8_t *text, size_t length, struct lt_step *steps, size_t room,
                  struct lt_answer *answer);

/* Writes the text of a fault, without a NUL, as far as there is room. Returns its whole length. */
size_t lt_fault_text(uint32_t fault, uint8_t *text, size_t room);

/* Returns the word of an action, such as "acquire"; "" if no action has this number. */
static inline const char *lt_move_text(uint32_t action)
{
    static const char *const texts[] = {
        /* generated: moves by number */
        /* clang-format off */
        "acquire", "release", "rlock", "runlock", "wlock", "wunlock", "downgrade", "", "", "", "",
        "", "", "", "", "", "read", "write", "swap", "cas", "add", "section",
        /* clang-format on */
        /* end */
    };
    return action < sizeof texts / sizeof texts[0] ? texts[action] : "";
}

/* Returns the word of an outcome, such as "waits"; "" if no outcome has this number. */
static inline const char *lt_outcome_text(uint32_t outcome)
{
    static const char *const texts[] = {
        /* generated: outcomes by number */
        /* clang-format off */
        "called", "moved", "waits", "entered", "left",
        /* clang-format on */
        /* end */
    };
    return outcome < sizeof texts / sizeof texts[0] ? texts[outcome] : "";
}

/* A lock, and the names of its words in the order of their numbers: first its own, and then those
   of the record of each thread. No step of a lock under a monitor is on one word. */
struct lt_lock {
    const char *name;        /* as in a header */
    uint32_t own, of_record; /* how many words it has, and how many each record */
    const char *words[4];
};

/* Returns the lock with a name, or NULL. */
static inline const struct lt_lock *lt_lock_of(const char *name)
{
    static const struct lt_lock locks[] = {
        /* generated: locks */
        /* clang-format off */
        {"ticket", 2, 0, {"next_ticket", "now_serving"}},
        {"mcs", 1, 2, {"tail", "next", "locked"}},
        {"rw-simple", 0, 0, {NULL}},
        {"rw-fifo", 0, 0, {NULL}},
        /* clang-format on */
        /* end */
    };
    for (size_t i = 0; name && i < sizeof locks / sizeof locks[0]; i++)
        if (!strcmp(name, locks[i].name)) return &locks[i];
    return NULL;
}

/* Returns the name of a word of a lock, such as "tail", and writes to `owner` the thread in whose
   record the word is, or LT_NO_WORD if it is in none. Returns "" if the lock has no such word. */
static inline const char *lt_word_text(const struct lt_lock *lock, uint32_t word, uint32_t *owner)
{
    *owner = LT_NO_WORD;
    if (word == LT_NO_WORD) return "";
    if (word < lock->own) return lock->words[word];
    if (!lock->of_record) return "";
    *owner = (word - lock->own) / lock->of_record;
    return lock->words[lock->own + (word - lock->own) % lock->of_record];
}

/* A text that was checked, and how far it was stepped through. */
struct lt_run {
    struct lt_answer answer;     /* what the text comes to */
    const struct lt_step *steps; /* the records of the caller */
    uint64_t count, at;          /* how many of them there are, and how many were given */
};

/* Checks a text, which `lt_next` then steps through. Returns the fault. */
static inline uint32_t lt_open(struct lt_run *run, const char *text, size_t length,
                               struct lt_step *steps, size_t room)
{
    uint32_t fault = lt_check((const uint8_t *)text, length, steps, room, &run->answer);
    run->steps = steps;
    run->count = run->answer.moves < room ? run->answer.moves : room;
    run->at = 0;
    return fault;
}

/* Gives the next move that was made, and returns 1; returns 0 if there is none left. */
static inline int lt_next(struct lt_run *run, struct lt_step *step)
{
    if (run->at == run->count) return 0;
    *step = run->steps[run->at++];
    return 1;
}

#ifdef __cplusplus
}
#endif

#endif
