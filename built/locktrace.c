/* locktrace.c: the check of a trace (docs/FORMATS.md) that locktrace.h declares, for a C compiler.
   SPDX-License-Identifier: Apache-2.0 OR MIT

   Compile it with your program: nothing else is needed. It is made by `make c-files`, and not
   edited. Its functions are the proved ones of crates/lk_page, compiled to WebAssembly, and that to
   C by wasm2c of the WebAssembly Binary Toolkit. That they are proved says nothing of the two
   translations, nor of the lines before and after them, which are written by hand. */
#if defined __clang__
#pragma clang diagnostic ignored "-Wunused-function"
#endif
#include <stdint.h>
#include <stdlib.h>
#include <string.h>

/* Notices of others whose code is in this file, as THIRD-PARTY has them.

thiserror 2.0.21
--------------------------------------------------------------------------------

Permission is hereby granted, free of charge, to any
person obtaining a copy of this software and associated
documentation files (the "Software"), to deal in the
Software without restriction, including without
limitation the rights to use, copy, modify, merge,
publish, distribute, sublicense, and/or sell copies of
the Software, and to permit persons to whom the Software
is furnished to do so, subject to the following
conditions:

The above copyright notice and this permission notice
shall be included in all copies or substantial portions
of the Software.

THE SOFTWARE IS PROVIDED "AS IS", WITHOUT WARRANTY OF
ANY KIND, EXPRESS OR IMPLIED, INCLUDING BUT NOT LIMITED
TO THE WARRANTIES OF MERCHANTABILITY, FITNESS FOR A
PARTICULAR PURPOSE AND NONINFRINGEMENT. IN NO EVENT
SHALL THE AUTHORS OR COPYRIGHT HOLDERS BE LIABLE FOR ANY
CLAIM, DAMAGES OR OTHER LIABILITY, WHETHER IN AN ACTION
OF CONTRACT, TORT OR OTHERWISE, ARISING FROM, OUT OF OR
IN CONNECTION WITH THE SOFTWARE OR THE USE OR OTHER
DEALINGS IN THE SOFTWARE.

itoa 1.0.18
--------------------------------------------------------------------------------

Permission is hereby granted, free of charge, to any
person obtaining a copy of this software and associated
documentation files (the "Software"), to deal in the
Software without restriction, including without
limitation the rights to use, copy, modify, merge,
publish, distribute, sublicense, and/or sell copies of
the Software, and to permit persons to whom the Software
is furnished to do so, subject to the following
conditions:

The above copyright notice and this permission notice
shall be included in all copies or substantial portions
of the Software.

THE SOFTWARE IS PROVIDED "AS IS", WITHOUT WARRANTY OF
ANY KIND, EXPRESS OR IMPLIED, INCLUDING BUT NOT LIMITED
TO THE WARRANTIES OF MERCHANTABILITY, FITNESS FOR A
PARTICULAR PURPOSE AND NONINFRINGEMENT. IN NO EVENT
SHALL THE AUTHORS OR COPYRIGHT HOLDERS BE LIABLE FOR ANY
CLAIM, DAMAGES OR OTHER LIABILITY, WHETHER IN AN ACTION
OF CONTRACT, TORT OR OTHERWISE, ARISING FROM, OUT OF OR
IN CONNECTION WITH THE SOFTWARE OR THE USE OR OTHER
DEALINGS IN THE SOFTWARE.

arrayvec 0.7.8
--------------------------------------------------------------------------------

Copyright (c) Ulrik Sverdrup "bluss" 2015-2023

Permission is hereby granted, free of charge, to any
person obtaining a copy of this software and associated
documentation files (the "Software"), to deal in the
Software without restriction, including without
limitation the rights to use, copy, modify, merge,
publish, distribute, sublicense, and/or sell copies of
the Software, and to permit persons to whom the Software
is furnished to do so, subject to the following
conditions:

The above copyright notice and this permission notice
shall be included in all copies or substantial portions
of the Software.

THE SOFTWARE IS PROVIDED "AS IS", WITHOUT WARRANTY OF
ANY KIND, EXPRESS OR IMPLIED, INCLUDING BUT NOT LIMITED
TO THE WARRANTIES OF MERCHANTABILITY, FITNESS FOR A
PARTICULAR PURPOSE AND NONINFRINGEMENT. IN NO EVENT
SHALL THE AUTHORS OR COPYRIGHT HOLDERS BE LIABLE FOR ANY
CLAIM, DAMAGES OR OTHER LIABILITY, WHETHER IN AN ACTION
OF CONTRACT, TORT OR OTHERWISE, ARISING FROM, OUT OF OR
IN CONNECTION WITH THE SOFTWARE OR THE USE OR OTHER
DEALINGS IN THE SOFTWARE.

wasm2c 1.0.36, of WABT: The WebAssembly Binary Toolkit
--------------------------------------------------------------------------------

Copyright 2016-2023 WebAssembly Community Group participants

Licensed under the Apache License, Version 2.0 (the "License");
you may not use this file except in compliance with the License.
You may obtain a copy of the License at

    http://www.apache.org/licenses/LICENSE-2.0

Unless required by applicable law or agreed to in writing, software
distributed under the License is distributed on an "AS IS" BASIS,
WITHOUT WARRANTIES OR CONDITIONS OF ANY KIND, either express or implied.
See the License for the specific language governing permissions and
limitations under the License.
*/

/* locktrace.h: the check of a trace (docs/FORMATS.md) from C, C++ and whatever calls C.
   SPDX-License-Identifier: Apache-2.0 OR MIT

   Compile locktrace.c with your program. Its calls take no memory and keep nothing: text, records
   and answer are the caller's. So calls on different ones may run in different threads at once. A
   text may have any number of moves. `lt_open` checks all of it; then a call of `lt_next` for each
   move that was made steps through them:

       #include <inttypes.h>
       #include <stdio.h>

       #include <locktrace.h>

       static char text[1 << 20];
       static struct lt_step steps[1 << 16];

       int main(void)
       {
           struct lt_run run;
           struct lt_step step;
           size_t length = fread(text, 1, sizeof text, stdin);
           if (length == sizeof text) return 2; // there may be more of it
           lt_open(&run, text, length, steps, sizeof steps / sizeof steps[0]);
           while (lt_next(&run, &step))
               printf("%" PRIu32 " %s %s\n", step.thread, lt_move_text(step.action),
                      lt_outcome_text(step.outcome));
           if (!run.answer.fault) return 0;
           uint8_t why[128];
           int size = (int)lt_fault_text(run.answer.fault, why, sizeof why);
           printf("line %" PRIu64 ": %.*s\n", run.answer.line, size, (const char *)why);
           return 1;
       }

   Moves for which there is no room are checked too, and are not stepped through. A run that hangs
   is accepted: only `locktrace check` reads which threads have ended. */
#ifndef LOCKTRACE_H
#define LOCKTRACE_H

#include <stddef.h>
#include <stdint.h>
#include <string.h>

#ifdef __cplusplus
extern "C" {
#endif

/* The version, as a text and as a number for #if: 10,000 MAJOR + 100 MINOR + PATCH. */
/* generated: version */
/* clang-format off */
#define LT_VERSION "2.0.0"
#define LT_VERSION_NUMBER 20000
/* clang-format on */
/* end */

/* In place of a word's number: on no word. */
#define LT_NO_WORD UINT32_MAX

/* The actions of a step: calls, and steps from 16 on. */
enum {
    /* generated: numbers of moves */
    /* clang-format off */
    LT_ACQUIRE = 0, LT_RELEASE = 1, LT_RLOCK = 2, LT_RUNLOCK = 3, LT_WLOCK = 4, LT_WUNLOCK = 5,
    LT_DOWNGRADE = 6, LT_READ = 16, LT_WRITE = 17, LT_SWAP = 18, LT_CAS = 19, LT_ADD = 20,
    LT_SECTION = 21,
    /* clang-format on */
    /* end */
};

/* The outcomes of a step. */
enum {
    /* generated: numbers of outcomes */
    /* clang-format off */
    LT_CALLED = 0, LT_MOVED = 1, LT_WAITS = 2, LT_ENTERED = 3, LT_LEFT = 4,
    /* clang-format on */
    /* end */
};

/* Faults: 0 none; from 1 a move that the lock refuses; from 8 a value that is not the lock's; from
   16 a text that is no trace. */
enum {
    LT_ACCEPTED = 0,
    /* generated: numbers of faults */
    /* clang-format off */
    LT_NO_SUCH_THREAD = 1, LT_WRONG_LOCK = 2, LT_BUSY = 3, LT_NOT_HOLDER = 4, LT_ALREADY_HOLDS = 5,
    LT_NO_CALL = 6, LT_WRONG_STEP = 7, LT_OTHER_WORD = 8, LT_FOUND_OTHER = 9, LT_LEFT_OTHER = 10,
    LT_WROTE_OTHER = 11, LT_COUNT_NOT_ABOVE = 12, LT_OTHER_OUTCOME = 13, LT_NO_HEADER = 16,
    LT_BAD_HEADER = 17, LT_BAD_THREADS = 18, LT_WORDS_TOO_NARROW = 19, LT_BAD_LINE = 20,
    /* clang-format on */
    /* end */
};

/* The check takes its numbers to be aligned to their size, which i386 does not do by itself. */
#if defined __GNUC__ && defined __i386__
#define LT_ALIGNED __attribute__((aligned(8)))
#else
#define LT_ALIGNED
#endif

/* A move that was made. */
struct LT_ALIGNED lt_step {
    uint64_t line;    /* its line in the text, from 1 */
    uint64_t found;   /* the word before the step; 0 for a call and a section */
    uint64_t left;    /* the word after it; 0 for a call and a section */
    uint32_t thread;  /* who made it, from 0 */
    uint32_t action;  /* LT_ACQUIRE to LT_SECTION */
    uint32_t outcome; /* LT_CALLED to LT_LEFT */
    uint32_t word;    /* its number in docs/LOCKS.md; LT_NO_WORD for a call and a section */
};

/* What a text comes to. */
struct LT_ALIGNED lt_answer {
    uint64_t line;    /* the line of the fault; how many lines there are if nothing is wrong */
    uint64_t moves;   /* how many moves were made */
    uint32_t fault;   /* LT_ACCEPTED, or what is wrong with the line */
    uint32_t threads; /* how many the header names; 0 if it is wrong */
};

/* Checks a text up to its first fault, which it returns. Writes a record for each move that was
   made, as far as there is room. At a fault from 1 to 15 it also writes to `steps[answer->moves]`,
   if there is room, the step that the published lock has in place of the line: the next one of the
   line's thread. If that thread has no pending call, it writes zeros, with LT_NO_WORD. */
uint32_t lt_check(const uint8_t *text, size_t length, struct lt_step *steps, size_t room,
                  struct lt_answer *answer);

/* Writes the text of a fault, without a NUL, as far as there is room. Returns its whole length. */
size_t lt_fault_text(uint32_t fault, uint8_t *text, size_t room);

/* Returns the word of an action, such as "acquire"; "" if no action has this number. */
static inline const char *lt_move_text(uint32_t action)
{
    static const char *const texts[] = {
        /* generated: moves by number */
        /* clang-format off */
        "acquire", "release", "rlock", "runlock", "wlock", "wunlock", "downgrade", "", "", "", "",
        "", "", "", "", "", "read", "write", "swap", "cas", "add", "section",
        /* clang-format on */
        /* end */
    };
    return action < sizeof texts / sizeof texts[0] ? texts[action] : "";
}

/* Returns the word of an outcome, such as "waits"; "" if no outcome has this number. */
static inline const char *lt_outcome_text(uint32_t outcome)
{
    static const char *const texts[] = {
        /* generated: outcomes by number */
        /* clang-format off */
        "called", "moved", "waits", "entered", "left",
        /* clang-format on */
        /* end */
    };
    return outcome < sizeof texts / sizeof texts[0] ? texts[outcome] : "";
}

/* A lock, and the names of its words in the order of their numbers: first its own, and then those
   of the record of each thread. No step of a lock under a monitor is on one word. */
struct lt_lock {
    const char *name;        /* as in a header */
    uint32_t own, of_record; /* how many words it has, and how many each record */
    const char *words[4];
};

/* Returns the lock with a name, or NULL. */
static inline const struct lt_lock *lt_lock_of(const char *name)
{
    static const struct lt_lock locks[] = {
        /* generated: locks */
        /* clang-format off */
        {"ticket", 2, 0, {"next_ticket", "now_serving"}},
        {"mcs", 1, 2, {"tail", "next", "locked"}},
        {"rw-simple", 0, 0, {NULL}},
        {"rw-fifo", 0, 0, {NULL}},
        /* clang-format on */
        /* end */
    };
    for (size_t i = 0; name && i < sizeof locks / sizeof locks[0]; i++)
        if (!strcmp(name, locks[i].name)) return &locks[i];
    return NULL;
}

/* Returns the name of a word of a lock, such as "tail", and writes to `owner` the thread in whose
   record the word is, or LT_NO_WORD if it is in none. Returns "" if the lock has no such word. */
static inline const char *lt_word_text(const struct lt_lock *lock, uint32_t word, uint32_t *owner)
{
    *owner = LT_NO_WORD;
    if (word == LT_NO_WORD) return "";
    if (word < lock->own) return lock->words[word];
    if (!lock->of_record) return "";
    *owner = (word - lock->own) / lock->of_record;
    return lock->words[lock->own + (word - lock->own) % lock->of_record];
}

/* A text that was checked, and how far it was stepped through. */
struct lt_run {
    struct lt_answer answer;     /* what the text comes to */
    const struct lt_step *steps; /* the records of the caller */
    uint64_t count, at;          /* how many of them there are, and how many were given */
};

/* Checks a text, which `lt_next` then steps through. Returns the fault. */
static inline uint32_t lt_open(struct lt_run *run, const char *text, size_t length,
                               struct lt_step *steps, size_t room)
{
    uint32_t fault = lt_check((const uint8_t *)text, length, steps, room, &run->answer);
    run->steps = steps;
    run->count = run->answer.moves < room ? run->answer.moves : room;
    run->at = 0;
    return fault;
}

/* Gives the next move that was made, and returns 1; returns 0 if there is none left. */
static inline int lt_next(struct lt_run *run, struct lt_step *step)
{
    if (run->at == run->count) return 0;
    *step = run->steps[run->at++];
    return 1;
}

#ifdef __cplusplus
}
#endif

#endif

/* What wasm2c's C asks of its runtime: where an address is, loads and stores, and a trap, which
   ends the program. The module is proved not to come to one.

   An address of the module is a pointer minus `origin`, modulo 2^64. So the module uses what a
   caller lends where it is, and no bound is checked here: the proofs say that each access is inside
   of what was lent. */

#if defined __BYTE_ORDER__ && __BYTE_ORDER__ == __ORDER_BIG_ENDIAN__
#error "this file is for processors that have the lowest byte of a number first"
#endif

typedef uint8_t u8;
typedef uint16_t u16;
typedef uint32_t u32;
typedef uint64_t u64;
typedef int32_t s32;
typedef int64_t s64;

typedef struct wasm_rt_memory_t {
    u64 origin;
} wasm_rt_memory_t;

/* Each function reads `origin` once: as far as a compiler knows, a store might change it. */
#define FUNC_PROLOGUE                                                                              \
    const u64 origin = instance->w2c_memory.origin;                                                \
    (void)origin
#define FUNC_EPILOGUE
#define UNREACHABLE abort()

/* Hides from the compiler of which object a pointer is, that was made a number. So it expects the
   accesses in any object whose pointer was hidden. */
#if defined __GNUC__
#define LT_HIDE(number) __asm__ volatile("" : "+r"(number) : : "memory")
#else
#define LT_HIDE(number) ((void)0)
#endif

static inline u8 *lt_at(u64 origin, u64 address) { return (u8 *)(uintptr_t)(origin + address); }

#define LT_LOAD(name, stored, answer)                                                              \
    static inline answer name(u64 origin, u64 address)                                             \
    {                                                                                              \
        stored found;                                                                              \
        memcpy(&found, lt_at(origin, address), sizeof found);                                      \
        return found;                                                                              \
    }
#define LT_STORE(name, stored, given)                                                              \
    static inline void name(u64 origin, u64 address, given value)                                  \
    {                                                                                              \
        stored left = (stored)value;                                                               \
        memcpy(lt_at(origin, address), &left, sizeof left);                                        \
    }

LT_LOAD(i32_load, u32, u32)
LT_LOAD(i64_load, u64, u64)
LT_LOAD(i32_load8_u, u8, u32)
LT_LOAD(i32_load16_u, u16, u32)
LT_LOAD(i64_load8_u, u8, u64)
LT_LOAD(i64_load16_u, u16, u64)
LT_LOAD(i64_load32_u, u32, u64)
LT_STORE(i32_store, u32, u32)
LT_STORE(i64_store, u64, u64)
LT_STORE(i32_store8, u8, u32)
LT_STORE(i32_store16, u16, u32)
LT_STORE(i64_store8, u8, u64)
LT_STORE(i64_store16, u16, u64)
LT_STORE(i64_store32, u32, u64)

#define DIV_U(number, by) ((by) == 0 ? (abort(), (number)) : (number) / (by))

/* How many bits of a number are set */
static inline u64 I64_POPCNT(u64 number)
{
    number -= number >> 1 & 0x5555555555555555;
    number = (number & 0x3333333333333333) + (number >> 2 & 0x3333333333333333);
    number = (number + (number >> 4)) & 0x0F0F0F0F0F0F0F0F;
    return number * 0x0101010101010101 >> 56;
}

static inline void memory_fill(u64 origin, u64 address, u32 byte, u64 size)
{
    memset(lt_at(origin, address), (int)byte, (size_t)size);
}

static inline void memory_copy(u64 origin, u64 same, u64 address, u64 source, u64 size)
{
    (void)same;
    memmove(lt_at(origin, address), lt_at(origin, source), (size_t)size);
}

#if defined __GNUC__
#pragma GCC diagnostic push
#pragma GCC diagnostic ignored "-Wunused-parameter"
#pragma GCC diagnostic ignored "-Wunused-label"
#pragma GCC diagnostic ignored "-Wunused-variable"
#pragma GCC diagnostic ignored "-Wunused-but-set-variable"
#endif

/* The machine, made by wasm2c. */
typedef struct w2c_lockreplay {
  u64 w2c_0x5F_stack_pointer;
  u32 w2c_in_call;
  u64 w2c_0x5F_heap_base;
  wasm_rt_memory_t w2c_memory;
} w2c_lockreplay;

enum { LT_DATA_AT = 1048576, LT_DEEPEST = 3120 };

static const u8 lt_data[] = {
  0xb0, 0x01, 0x10, 0x00, 0x00, 0x00, 0x00, 0x00, 0x0f, 0x00, 0x00, 0x00,
  0x00, 0x00, 0x00, 0x00, 0xa0, 0x01, 0x10, 0x00, 0x00, 0x00, 0x00, 0x00,
  0x01, 0x00, 0x00, 0x00, 0x00, 0x00, 0x00, 0x00, 0xc8, 0x01, 0x10, 0x00,
  0x00, 0x00, 0x00, 0x00, 0x2b, 0x00, 0x00, 0x00, 0x00, 0x00, 0x00, 0x00,
  0xf3, 0x01, 0x10, 0x00, 0x00, 0x00, 0x00, 0x00, 0x16, 0x00, 0x00, 0x00,
  0x00, 0x00, 0x00, 0x00, 0x90, 0x01, 0x10, 0x00, 0x00, 0x00, 0x00, 0x00,
  0x01, 0x00, 0x00, 0x00, 0x00, 0x00, 0x00, 0x00, 0x0e, 0x02, 0x10, 0x00,
  0x00, 0x00, 0x00, 0x00, 0x57, 0x00, 0x00, 0x00, 0x00, 0x00, 0x00, 0x00,
  0x65, 0x02, 0x10, 0x00, 0x00, 0x00, 0x00, 0x00, 0x10, 0x00, 0x00, 0x00,
  0x00, 0x00, 0x00, 0x00, 0x80, 0x01, 0x10, 0x00, 0x00, 0x00, 0x00, 0x00,
  0x01, 0x00, 0x00, 0x00, 0x00, 0x00, 0x00, 0x00, 0x7e, 0x02, 0x10, 0x00,
  0x00, 0x00, 0x00, 0x00, 0x42, 0x00, 0x00, 0x00, 0x00, 0x00, 0x00, 0x00,
  0xc0, 0x02, 0x10, 0x00, 0x00, 0x00, 0x00, 0x00, 0x1d, 0x00, 0x00, 0x00,
  0x00, 0x00, 0x00, 0x00, 0x60, 0x01, 0x10, 0x00, 0x00, 0x00, 0x00, 0x00,
  0x02, 0x00, 0x00, 0x00, 0x00, 0x00, 0x00, 0x00, 0x10, 0x03, 0x10, 0x00,
  0x00, 0x00, 0x00, 0x00, 0x49, 0x00, 0x00, 0x00, 0x00, 0x00, 0x00, 0x00,
  0x59, 0x03, 0x10, 0x00, 0x00, 0x00, 0x00, 0x00, 0x0f, 0x00, 0x00, 0x00,
  0x00, 0x00, 0x00, 0x00, 0x80, 0x01, 0x10, 0x00, 0x00, 0x00, 0x00, 0x00,
  0x01, 0x00, 0x00, 0x00, 0x00, 0x00, 0x00, 0x00, 0x68, 0x03, 0x10, 0x00,
  0x00, 0x00, 0x00, 0x00, 0x2d, 0x00, 0x00, 0x00, 0x00, 0x00, 0x00, 0x00,
  0x95, 0x03, 0x10, 0x00, 0x00, 0x00, 0x00, 0x00, 0x1f, 0x00, 0x00, 0x00,
  0x00, 0x00, 0x00, 0x00, 0x50, 0x01, 0x10, 0x00, 0x00, 0x00, 0x00, 0x00,
  0x01, 0x00, 0x00, 0x00, 0x00, 0x00, 0x00, 0x00, 0xc7, 0x03, 0x10, 0x00,
  0x00, 0x00, 0x00, 0x00, 0x35, 0x00, 0x00, 0x00, 0x00, 0x00, 0x00, 0x00,
  0xfc, 0x03, 0x10, 0x00, 0x00, 0x00, 0x00, 0x00, 0x1f, 0x00, 0x00, 0x00,
  0x00, 0x00, 0x00, 0x00, 0x50, 0x01, 0x10, 0x00, 0x00, 0x00, 0x00, 0x00,
  0x01, 0x00, 0x00, 0x00, 0x00, 0x00, 0x00, 0x00, 0x1b, 0x04, 0x10, 0x00,
  0x00, 0x00, 0x00, 0x00, 0x32, 0x00, 0x00, 0x00, 0x00, 0x00, 0x00, 0x00,
  0xb4, 0x03, 0x10, 0x00, 0x00, 0x00, 0x00, 0x00, 0x13, 0x00, 0x00, 0x00,
  0x00, 0x00, 0x00, 0x00, 0xdd, 0x02, 0x10, 0x00, 0x00, 0x00, 0x00, 0x00,
  0x19, 0x00, 0x00, 0x00, 0x00, 0x00, 0x00, 0x00, 0xf6, 0x02, 0x10, 0x00,
  0x00, 0x00, 0x00, 0x00, 0x1a, 0x00, 0x00, 0x00, 0x00, 0x00, 0x00, 0x00,
  0x75, 0x02, 0x10, 0x00, 0x00, 0x00, 0x00, 0x00, 0x09, 0x00, 0x00, 0x00,
  0x00, 0x00, 0x00, 0x00, 0x09, 0x02, 0x10, 0x00, 0x00, 0x00, 0x00, 0x00,
  0x05, 0x00, 0x00, 0x00, 0x00, 0x00, 0x00, 0x00, 0xbf, 0x01, 0x10, 0x00,
  0x00, 0x00, 0x00, 0x00, 0x09, 0x00, 0x00, 0x00, 0x00, 0x00, 0x00, 0x00,
  0x61, 0x63, 0x71, 0x75, 0x69, 0x72, 0x65, 0x3a, 0x20, 0x63, 0x61, 0x6c,
  0x6c, 0x65, 0x64, 0x2a, 0x20, 0x61, 0x63, 0x71, 0x75, 0x69, 0x72, 0x65,
  0x7b, 0x77, 0x68, 0x6f, 0x7d, 0x20, 0x63, 0x61, 0x6c, 0x6c, 0x73, 0x20,
  0x61, 0x63, 0x71, 0x75, 0x69, 0x72, 0x65, 0x3b, 0x20, 0x61, 0x20, 0x63,
  0x61, 0x6c, 0x6c, 0x20, 0x63, 0x68, 0x61, 0x6e, 0x67, 0x65, 0x73, 0x20,
  0x6e, 0x6f, 0x20, 0x77, 0x6f, 0x72, 0x64, 0x61, 0x63, 0x71, 0x75, 0x69,
  0x72, 0x65, 0x3a, 0x20, 0x74, 0x6f, 0x6f, 0x6b, 0x20, 0x61, 0x20, 0x74,
  0x69, 0x63, 0x6b, 0x65, 0x74, 0x2a, 0x20, 0x61, 0x64, 0x64, 0x7b, 0x77,
  0x68, 0x6f, 0x7d, 0x20, 0x74, 0x61, 0x6b, 0x65, 0x73, 0x20, 0x74, 0x69,
  0x63, 0x6b, 0x65, 0x74, 0x20, 0x7b, 0x66, 0x6f, 0x75, 0x6e, 0x64, 0x7d,
  0x2c, 0x20, 0x61, 0x6e, 0x64, 0x20, 0x69, 0x73, 0x20, 0x69, 0x6e, 0x20,
  0x74, 0x68, 0x65, 0x20, 0x71, 0x75, 0x65, 0x75, 0x65, 0x20, 0x66, 0x72,
  0x6f, 0x6d, 0x20, 0x68, 0x65, 0x72, 0x65, 0x20, 0x6f, 0x6e, 0x3b, 0x20,
  0x6e, 0x65, 0x78, 0x74, 0x5f, 0x74, 0x69, 0x63, 0x6b, 0x65, 0x74, 0x20,
  0x69, 0x73, 0x20, 0x6e, 0x6f, 0x77, 0x20, 0x7b, 0x6c, 0x65, 0x66, 0x74,
  0x7d, 0x61, 0x63, 0x71, 0x75, 0x69, 0x72, 0x65, 0x3a, 0x20, 0x65, 0x6e,
  0x74, 0x65, 0x72, 0x65, 0x64, 0x2a, 0x20, 0x72, 0x65, 0x6c, 0x65, 0x61,
  0x73, 0x65, 0x7b, 0x77, 0x68, 0x6f, 0x7d, 0x20, 0x66, 0x69, 0x6e, 0x64,
  0x73, 0x20, 0x69, 0x74, 0x73, 0x20, 0x74, 0x69, 0x63, 0x6b, 0x65, 0x74,
  0x2c, 0x20, 0x7b, 0x66, 0x6f, 0x75, 0x6e, 0x64, 0x7d, 0x2c, 0x20, 0x69,
  0x6e, 0x20, 0x6e, 0x6f, 0x77, 0x5f, 0x73, 0x65, 0x72, 0x76, 0x69, 0x6e,
  0x67, 0x3a, 0x20, 0x69, 0x74, 0x20, 0x68, 0x6f, 0x6c, 0x64, 0x73, 0x20,
  0x74, 0x68, 0x65, 0x20, 0x6c, 0x6f, 0x63, 0x6b, 0x61, 0x63, 0x71, 0x75,
  0x69, 0x72, 0x65, 0x3a, 0x20, 0x70, 0x6f, 0x6c, 0x6c, 0x20, 0x62, 0x65,
  0x66, 0x6f, 0x72, 0x65, 0x20, 0x69, 0x74, 0x73, 0x20, 0x74, 0x75, 0x72,
  0x6e, 0x30, 0x20, 0x61, 0x64, 0x64, 0x20, 0x6e, 0x65, 0x78, 0x74, 0x5f,
  0x74, 0x69, 0x63, 0x6b, 0x65, 0x74, 0x20, 0x66, 0x6f, 0x75, 0x6e, 0x64,
  0x20, 0x31, 0x30, 0x20, 0x72, 0x65, 0x61, 0x64, 0x20, 0x6e, 0x6f, 0x77,
  0x5f, 0x73, 0x65, 0x72, 0x76, 0x69, 0x6e, 0x67, 0x20, 0x66, 0x6f, 0x75,
  0x6e, 0x64, 0x20, 0x30, 0x7b, 0x77, 0x68, 0x6f, 0x7d, 0x20, 0x70, 0x6f,
  0x6c, 0x6c, 0x73, 0x20, 0x61, 0x6e, 0x64, 0x20, 0x77, 0x61, 0x69, 0x74,
  0x73, 0x3a, 0x20, 0x6e, 0x6f, 0x77, 0x5f, 0x73, 0x65, 0x72, 0x76, 0x69,
  0x6e, 0x67, 0x20, 0x69, 0x73, 0x20, 0x7b, 0x66, 0x6f, 0x75, 0x6e, 0x64,
  0x7d, 0x2c, 0x20, 0x61, 0x6e, 0x64, 0x20, 0x69, 0x74, 0x73, 0x20, 0x74,
  0x69, 0x63, 0x6b, 0x65, 0x74, 0x20, 0x69, 0x73, 0x20, 0x7b, 0x6e, 0x75,
  0x6d, 0x62, 0x65, 0x72, 0x7d, 0x72, 0x65, 0x6c, 0x65, 0x61, 0x73, 0x65,
  0x3a, 0x20, 0x63, 0x61, 0x6c, 0x6c, 0x65, 0x64, 0x7b, 0x77, 0x68, 0x6f,
  0x7d, 0x20, 0x63, 0x61, 0x6c, 0x6c, 0x73, 0x20, 0x72, 0x65, 0x6c, 0x65,
  0x61, 0x73, 0x65, 0x2c, 0x20, 0x61, 0x6e, 0x64, 0x20, 0x73, 0x74, 0x69,
  0x6c, 0x6c, 0x20, 0x68, 0x6f, 0x6c, 0x64, 0x73, 0x20, 0x74, 0x68, 0x65,
  0x20, 0x6c, 0x6f, 0x63, 0x6b, 0x72, 0x65, 0x6c, 0x65, 0x61, 0x73, 0x65,
  0x3a, 0x20, 0x72, 0x65, 0x61, 0x64, 0x20, 0x74, 0x68, 0x65, 0x20, 0x74,
  0x69, 0x63, 0x6b, 0x65, 0x74, 0x20, 0x73, 0x65, 0x72, 0x76, 0x65, 0x64,
  0x2a, 0x20, 0x77, 0x72, 0x69, 0x74, 0x65, 0x20, 0x6e, 0x6f, 0x77, 0x5f,
  0x73, 0x65, 0x72, 0x76, 0x69, 0x6e, 0x67, 0x7b, 0x77, 0x68, 0x6f, 0x7d,
  0x20, 0x72, 0x65, 0x61, 0x64, 0x73, 0x20, 0x6e, 0x6f, 0x77, 0x5f, 0x73,
  0x65, 0x72, 0x76, 0x69, 0x6e, 0x67, 0x2c, 0x20, 0x74, 0x6f, 0x20, 0x70,
  0x61, 0x73, 0x73, 0x20, 0x69, 0x74, 0x20, 0x6f, 0x6e, 0x3a, 0x20, 0x69,
  0x74, 0x20, 0x69, 0x73, 0x20, 0x7b, 0x66, 0x6f, 0x75, 0x6e, 0x64, 0x7d,
  0x72, 0x65, 0x6c, 0x65, 0x61, 0x73, 0x65, 0x3a, 0x20, 0x73, 0x65, 0x72,
  0x76, 0x65, 0x64, 0x20, 0x74, 0x68, 0x65, 0x20, 0x6e, 0x65, 0x78, 0x74,
  0x20, 0x74, 0x69, 0x63, 0x6b, 0x65, 0x74, 0x7b, 0x77, 0x68, 0x6f, 0x7d,
  0x20, 0x77, 0x72, 0x69, 0x74, 0x65, 0x73, 0x20, 0x7b, 0x6c, 0x65, 0x66,
  0x74, 0x7d, 0x20, 0x69, 0x6e, 0x74, 0x6f, 0x20, 0x6e, 0x6f, 0x77, 0x5f,
  0x73, 0x65, 0x72, 0x76, 0x69, 0x6e, 0x67, 0x2c, 0x20, 0x61, 0x6e, 0x64,
  0x20, 0x68, 0x61, 0x73, 0x20, 0x6c, 0x65, 0x66, 0x74, 0x00, 0x00, 0x00,
  0x70, 0x08, 0x10, 0x00, 0x00, 0x00, 0x00, 0x00, 0x0f, 0x00, 0x00, 0x00,
  0x00, 0x00, 0x00, 0x00, 0x60, 0x08, 0x10, 0x00, 0x00, 0x00, 0x00, 0x00,
  0x01, 0x00, 0x00, 0x00, 0x00, 0x00, 0x00, 0x00, 0x88, 0x08, 0x10, 0x00,
  0x00, 0x00, 0x00, 0x00, 0x2b, 0x00, 0x00, 0x00, 0x00, 0x00, 0x00, 0x00,
  0xb3, 0x08, 0x10, 0x00, 0x00, 0x00, 0x00, 0x00, 0x19, 0x00, 0x00, 0x00,
  0x00, 0x00, 0x00, 0x00, 0x50, 0x08, 0x10, 0x00, 0x00, 0x00, 0x00, 0x00,
  0x01, 0x00, 0x00, 0x00, 0x00, 0x00, 0x00, 0x00, 0xdf, 0x08, 0x10, 0x00,
  0x00, 0x00, 0x00, 0x00, 0x22, 0x00, 0x00, 0x00, 0x00, 0x00, 0x00, 0x00,
  0x01, 0x09, 0x10, 0x00, 0x00, 0x00, 0x00, 0x00, 0x20, 0x00, 0x00, 0x00,
  0x00, 0x00, 0x00, 0x00, 0x40, 0x08, 0x10, 0x00, 0x00, 0x00, 0x00, 0x00,
  0x01, 0x00, 0x00, 0x00, 0x00, 0x00, 0x00, 0x00, 0x34, 0x09, 0x10, 0x00,
  0x00, 0x00, 0x00, 0x00, 0x48, 0x00, 0x00, 0x00, 0x00, 0x00, 0x00, 0x00,
  0x7c, 0x09, 0x10, 0x00, 0x00, 0x00, 0x00, 0x00, 0x19, 0x00, 0x00, 0x00,
  0x00, 0x00, 0x00, 0x00, 0x30, 0x08, 0x10, 0x00, 0x00, 0x00, 0x00, 0x00,
  0x01, 0x00, 0x00, 0x00, 0x00, 0x00, 0x00, 0x00, 0xaa, 0x09, 0x10, 0x00,
  0x00, 0x00, 0x00, 0x00, 0x73, 0x00, 0x00, 0x00, 0x00, 0x00, 0x00, 0x00,
  0x1d, 0x0a, 0x10, 0x00, 0x00, 0x00, 0x00, 0x00, 0x17, 0x00, 0x00, 0x00,
  0x00, 0x00, 0x00, 0x00, 0x30, 0x08, 0x10, 0x00, 0x00, 0x00, 0x00, 0x00,
  0x01, 0x00, 0x00, 0x00, 0x00, 0x00, 0x00, 0x00, 0x34, 0x0a, 0x10, 0x00,
  0x00, 0x00, 0x00, 0x00, 0x36, 0x00, 0x00, 0x00, 0x00, 0x00, 0x00, 0x00,
  0x6a, 0x0a, 0x10, 0x00, 0x00, 0x00, 0x00, 0x00, 0x16, 0x00, 0x00, 0x00,
  0x00, 0x00, 0x00, 0x00, 0x20, 0x08, 0x10, 0x00, 0x00, 0x00, 0x00, 0x00,
  0x01, 0x00, 0x00, 0x00, 0x00, 0x00, 0x00, 0x00, 0x91, 0x0a, 0x10, 0x00,
  0x00, 0x00, 0x00, 0x00, 0x39, 0x00, 0x00, 0x00, 0x00, 0x00, 0x00, 0x00,
  0xca, 0x0a, 0x10, 0x00, 0x00, 0x00, 0x00, 0x00, 0x20, 0x00, 0x00, 0x00,
  0x00, 0x00, 0x00, 0x00, 0x10, 0x08, 0x10, 0x00, 0x00, 0x00, 0x00, 0x00,
  0x01, 0x00, 0x00, 0x00, 0x00, 0x00, 0x00, 0x00, 0xff, 0x0a, 0x10, 0x00,
  0x00, 0x00, 0x00, 0x00, 0x39, 0x00, 0x00, 0x00, 0x00, 0x00, 0x00, 0x00,
  0x38, 0x0b, 0x10, 0x00, 0x00, 0x00, 0x00, 0x00, 0x1e, 0x00, 0x00, 0x00,
  0x00, 0x00, 0x00, 0x00, 0x00, 0x08, 0x10, 0x00, 0x00, 0x00, 0x00, 0x00,
  0x01, 0x00, 0x00, 0x00, 0x00, 0x00, 0x00, 0x00, 0x6b, 0x0b, 0x10, 0x00,
  0x00, 0x00, 0x00, 0x00, 0x38, 0x00, 0x00, 0x00, 0x00, 0x00, 0x00, 0x00,
  0xa3, 0x0b, 0x10, 0x00, 0x00, 0x00, 0x00, 0x00, 0x0f, 0x00, 0x00, 0x00,
  0x00, 0x00, 0x00, 0x00, 0xf0, 0x07, 0x10, 0x00, 0x00, 0x00, 0x00, 0x00,
  0x01, 0x00, 0x00, 0x00, 0x00, 0x00, 0x00, 0x00, 0xbb, 0x0b, 0x10, 0x00,
  0x00, 0x00, 0x00, 0x00, 0x2d, 0x00, 0x00, 0x00, 0x00, 0x00, 0x00, 0x00,
  0xe8, 0x0b, 0x10, 0x00, 0x00, 0x00, 0x00, 0x00, 0x16, 0x00, 0x00, 0x00,
  0x00, 0x00, 0x00, 0x00, 0xe0, 0x07, 0x10, 0x00, 0x00, 0x00, 0x00, 0x00,
  0x01, 0x00, 0x00, 0x00, 0x00, 0x00, 0x00, 0x00, 0x03, 0x0c, 0x10, 0x00,
  0x00, 0x00, 0x00, 0x00, 0x2c, 0x00, 0x00, 0x00, 0x00, 0x00, 0x00, 0x00,
  0x2f, 0x0c, 0x10, 0x00, 0x00, 0x00, 0x00, 0x00, 0x15, 0x00, 0x00, 0x00,
  0x00, 0x00, 0x00, 0x00, 0xc0, 0x07, 0x10, 0x00, 0x00, 0x00, 0x00, 0x00,
  0x02, 0x00, 0x00, 0x00, 0x00, 0x00, 0x00, 0x00, 0x60, 0x0c, 0x10, 0x00,
  0x00, 0x00, 0x00, 0x00, 0x2e, 0x00, 0x00, 0x00, 0x00, 0x00, 0x00, 0x00,
  0x8e, 0x0c, 0x10, 0x00, 0x00, 0x00, 0x00, 0x00, 0x24, 0x00, 0x00, 0x00,
  0x00, 0x00, 0x00, 0x00, 0xb0, 0x07, 0x10, 0x00, 0x00, 0x00, 0x00, 0x00,
  0x01, 0x00, 0x00, 0x00, 0x00, 0x00, 0x00, 0x00, 0xbc, 0x0c, 0x10, 0x00,
  0x00, 0x00, 0x00, 0x00, 0x50, 0x00, 0x00, 0x00, 0x00, 0x00, 0x00, 0x00,
  0x0c, 0x0d, 0x10, 0x00, 0x00, 0x00, 0x00, 0x00, 0x20, 0x00, 0x00, 0x00,
  0x00, 0x00, 0x00, 0x00, 0xa0, 0x07, 0x10, 0x00, 0x00, 0x00, 0x00, 0x00,
  0x01, 0x00, 0x00, 0x00, 0x00, 0x00, 0x00, 0x00, 0x38, 0x0d, 0x10, 0x00,
  0x00, 0x00, 0x00, 0x00, 0x66, 0x00, 0x00, 0x00, 0x00, 0x00, 0x00, 0x00,
  0x9e, 0x0d, 0x10, 0x00, 0x00, 0x00, 0x00, 0x00, 0x1f, 0x00, 0x00, 0x00,
  0x00, 0x00, 0x00, 0x00, 0x80, 0x07, 0x10, 0x00, 0x00, 0x00, 0x00, 0x00,
  0x02, 0x00, 0x00, 0x00, 0x00, 0x00, 0x00, 0x00, 0xdc, 0x0d, 0x10, 0x00,
  0x00, 0x00, 0x00, 0x00, 0x40, 0x00, 0x00, 0x00, 0x00, 0x00, 0x00, 0x00,
  0x1c, 0x0e, 0x10, 0x00, 0x00, 0x00, 0x00, 0x00, 0x1a, 0x00, 0x00, 0x00,
  0x00, 0x00, 0x00, 0x00, 0x60, 0x07, 0x10, 0x00, 0x00, 0x00, 0x00, 0x00,
  0x02, 0x00, 0x00, 0x00, 0x00, 0x00, 0x00, 0x00, 0x36, 0x0e, 0x10, 0x00,
  0x00, 0x00, 0x00, 0x00, 0x26, 0x00, 0x00, 0x00, 0x00, 0x00, 0x00, 0x00,
  0x5c, 0x0e, 0x10, 0x00, 0x00, 0x00, 0x00, 0x00, 0x19, 0x00, 0x00, 0x00,
  0x00, 0x00, 0x00, 0x00, 0x50, 0x07, 0x10, 0x00, 0x00, 0x00, 0x00, 0x00,
  0x01, 0x00, 0x00, 0x00, 0x00, 0x00, 0x00, 0x00, 0x88, 0x0e, 0x10, 0x00,
  0x00, 0x00, 0x00, 0x00, 0x5b, 0x00, 0x00, 0x00, 0x00, 0x00, 0x00, 0x00,
  0x75, 0x0e, 0x10, 0x00, 0x00, 0x00, 0x00, 0x00, 0x13, 0x00, 0x00, 0x00,
  0x00, 0x00, 0x00, 0x00, 0xbd, 0x0d, 0x10, 0x00, 0x00, 0x00, 0x00, 0x00,
  0x0c, 0x00, 0x00, 0x00, 0x00, 0x00, 0x00, 0x00, 0x4d, 0x0c, 0x10, 0x00,
  0x00, 0x00, 0x00, 0x00, 0x13, 0x00, 0x00, 0x00, 0x00, 0x00, 0x00, 0x00,
  0xbd, 0x0d, 0x10, 0x00, 0x00, 0x00, 0x00, 0x00, 0x0c, 0x00, 0x00, 0x00,
  0x00, 0x00, 0x00, 0x00, 0xc9, 0x0d, 0x10, 0x00, 0x00, 0x00, 0x00, 0x00,
  0x13, 0x00, 0x00, 0x00, 0x00, 0x00, 0x00, 0x00, 0x2c, 0x0d, 0x10, 0x00,
  0x00, 0x00, 0x00, 0x00, 0x0c, 0x00, 0x00, 0x00, 0x00, 0x00, 0x00, 0x00,
  0xb2, 0x0c, 0x10, 0x00, 0x00, 0x00, 0x00, 0x00, 0x0a, 0x00, 0x00, 0x00,
  0x00, 0x00, 0x00, 0x00, 0x44, 0x0c, 0x10, 0x00, 0x00, 0x00, 0x00, 0x00,
  0x09, 0x00, 0x00, 0x00, 0x00, 0x00, 0x00, 0x00, 0x4d, 0x0c, 0x10, 0x00,
  0x00, 0x00, 0x00, 0x00, 0x13, 0x00, 0x00, 0x00, 0x00, 0x00, 0x00, 0x00,
  0xfe, 0x0b, 0x10, 0x00, 0x00, 0x00, 0x00, 0x00, 0x05, 0x00, 0x00, 0x00,
  0x00, 0x00, 0x00, 0x00, 0xb2, 0x0b, 0x10, 0x00, 0x00, 0x00, 0x00, 0x00,
  0x09, 0x00, 0x00, 0x00, 0x00, 0x00, 0x00, 0x00, 0x56, 0x0b, 0x10, 0x00,
  0x00, 0x00, 0x00, 0x00, 0x15, 0x00, 0x00, 0x00, 0x00, 0x00, 0x00, 0x00,
  0xea, 0x0a, 0x10, 0x00, 0x00, 0x00, 0x00, 0x00, 0x15, 0x00, 0x00, 0x00,
  0x00, 0x00, 0x00, 0x00, 0x80, 0x0a, 0x10, 0x00, 0x00, 0x00, 0x00, 0x00,
  0x11, 0x00, 0x00, 0x00, 0x00, 0x00, 0x00, 0x00, 0x95, 0x09, 0x10, 0x00,
  0x00, 0x00, 0x00, 0x00, 0x15, 0x00, 0x00, 0x00, 0x00, 0x00, 0x00, 0x00,
  0x21, 0x09, 0x10, 0x00, 0x00, 0x00, 0x00, 0x00, 0x13, 0x00, 0x00, 0x00,
  0x00, 0x00, 0x00, 0x00, 0xcc, 0x08, 0x10, 0x00, 0x00, 0x00, 0x00, 0x00,
  0x13, 0x00, 0x00, 0x00, 0x00, 0x00, 0x00, 0x00, 0x7f, 0x08, 0x10, 0x00,
  0x00, 0x00, 0x00, 0x00, 0x09, 0x00, 0x00, 0x00, 0x00, 0x00, 0x00, 0x00,
  0x61, 0x63, 0x71, 0x75, 0x69, 0x72, 0x65, 0x3a, 0x20, 0x63, 0x61, 0x6c,
  0x6c, 0x65, 0x64, 0x2a, 0x20, 0x61, 0x63, 0x71, 0x75, 0x69, 0x72, 0x65,
  0x7b, 0x77, 0x68, 0x6f, 0x7d, 0x20, 0x63, 0x61, 0x6c, 0x6c, 0x73, 0x20,
  0x61, 0x63, 0x71, 0x75, 0x69, 0x72, 0x65, 0x3b, 0x20, 0x61, 0x20, 0x63,
  0x61, 0x6c, 0x6c, 0x20, 0x63, 0x68, 0x61, 0x6e, 0x67, 0x65, 0x73, 0x20,
  0x6e, 0x6f, 0x20, 0x77, 0x6f, 0x72, 0x64, 0x61, 0x63, 0x71, 0x75, 0x69,
  0x72, 0x65, 0x3a, 0x20, 0x63, 0x6c, 0x65, 0x61, 0x72, 0x65, 0x64, 0x20,
  0x69, 0x74, 0x73, 0x20, 0x6e, 0x65, 0x78, 0x74, 0x2a, 0x20, 0x77, 0x72,
  0x69, 0x74, 0x65, 0x20, 0x6e, 0x65, 0x78, 0x74, 0x20, 0x6c, 0x65, 0x66,
  0x74, 0x20, 0x30, 0x7b, 0x77, 0x68, 0x6f, 0x7d, 0x20, 0x77, 0x72, 0x69,
  0x74, 0x65, 0x73, 0x20, 0x6e, 0x69, 0x6c, 0x20, 0x69, 0x6e, 0x74, 0x6f,
  0x20, 0x69, 0x74, 0x73, 0x20, 0x6f, 0x77, 0x6e, 0x20, 0x6e, 0x65, 0x78,
  0x74, 0x61, 0x63, 0x71, 0x75, 0x69, 0x72, 0x65, 0x3a, 0x20, 0x65, 0x6e,
  0x74, 0x65, 0x72, 0x65, 0x64, 0x20, 0x77, 0x69, 0x74, 0x68, 0x6f, 0x75,
  0x74, 0x20, 0x77, 0x61, 0x69, 0x74, 0x69, 0x6e, 0x67, 0x2a, 0x20, 0x73,
  0x77, 0x61, 0x70, 0x20, 0x74, 0x61, 0x69, 0x6c, 0x20, 0x66, 0x6f, 0x75,
  0x6e, 0x64, 0x20, 0x30, 0x7b, 0x77, 0x68, 0x6f, 0x7d, 0x20, 0x73, 0x77,
  0x61, 0x70, 0x73, 0x20, 0x74, 0x68, 0x65, 0x20, 0x74, 0x61, 0x69, 0x6c,
  0x20, 0x66, 0x6f, 0x72, 0x20, 0x69, 0x74, 0x73, 0x20, 0x72, 0x65, 0x63,
  0x6f, 0x72, 0x64, 0x3b, 0x20, 0x74, 0x68, 0x65, 0x20, 0x74, 0x61, 0x69,
  0x6c, 0x20, 0x77, 0x61, 0x73, 0x20, 0x6e, 0x69, 0x6c, 0x3a, 0x20, 0x69,
  0x74, 0x20, 0x68, 0x6f, 0x6c, 0x64, 0x73, 0x20, 0x74, 0x68, 0x65, 0x20,
  0x6c, 0x6f, 0x63, 0x6b, 0x61, 0x63, 0x71, 0x75, 0x69, 0x72, 0x65, 0x3a,
  0x20, 0x6a, 0x6f, 0x69, 0x6e, 0x65, 0x64, 0x20, 0x74, 0x68, 0x65, 0x20,
  0x71, 0x75, 0x65, 0x75, 0x65, 0x2a, 0x20, 0x77, 0x72, 0x69, 0x74, 0x65,
  0x20, 0x6c, 0x6f, 0x63, 0x6b, 0x65, 0x64, 0x20, 0x6c, 0x65, 0x66, 0x74,
  0x20, 0x31, 0x7b, 0x77, 0x68, 0x6f, 0x7d, 0x20, 0x73, 0x77, 0x61, 0x70,
  0x73, 0x20, 0x74, 0x68, 0x65, 0x20, 0x74, 0x61, 0x69, 0x6c, 0x20, 0x61,
  0x6e, 0x64, 0x20, 0x66, 0x69, 0x6e, 0x64, 0x73, 0x20, 0x7b, 0x66, 0x69,
  0x6e, 0x64, 0x73, 0x7d, 0x3b, 0x20, 0x69, 0x74, 0x20, 0x69, 0x73, 0x20,
  0x69, 0x6e, 0x20, 0x74, 0x68, 0x65, 0x20, 0x71, 0x75, 0x65, 0x75, 0x65,
  0x20, 0x66, 0x72, 0x6f, 0x6d, 0x20, 0x68, 0x65, 0x72, 0x65, 0x20, 0x6f,
  0x6e, 0x2c, 0x20, 0x74, 0x68, 0x6f, 0x75, 0x67, 0x68, 0x20, 0x6e, 0x6f,
  0x20, 0x77, 0x6f, 0x72, 0x64, 0x20, 0x6f, 0x66, 0x20, 0x7b, 0x66, 0x69,
  0x6e, 0x64, 0x73, 0x7d, 0x27, 0x73, 0x20, 0x72, 0x65, 0x63, 0x6f, 0x72,
  0x64, 0x20, 0x73, 0x61, 0x79, 0x73, 0x20, 0x73, 0x6f, 0x61, 0x63, 0x71,
  0x75, 0x69, 0x72, 0x65, 0x3a, 0x20, 0x73, 0x65, 0x74, 0x20, 0x69, 0x74,
  0x73, 0x20, 0x6c, 0x6f, 0x63, 0x6b, 0x65, 0x64, 0x7b, 0x77, 0x68, 0x6f,
  0x7d, 0x20, 0x73, 0x65, 0x74, 0x73, 0x20, 0x69, 0x74, 0x73, 0x20, 0x6f,
  0x77, 0x6e, 0x20, 0x6c, 0x6f, 0x63, 0x6b, 0x65, 0x64, 0x20, 0x74, 0x6f,
  0x20, 0x31, 0x2c, 0x20, 0x62, 0x65, 0x66, 0x6f, 0x72, 0x65, 0x20, 0x69,
  0x74, 0x20, 0x6c, 0x69, 0x6e, 0x6b, 0x73, 0x20, 0x69, 0x74, 0x73, 0x65,
  0x6c, 0x66, 0x61, 0x63, 0x71, 0x75, 0x69, 0x72, 0x65, 0x3a, 0x20, 0x6c,
  0x69, 0x6e, 0x6b, 0x65, 0x64, 0x20, 0x69, 0x74, 0x73, 0x65, 0x6c, 0x66,
  0x30, 0x20, 0x77, 0x72, 0x69, 0x74, 0x65, 0x20, 0x6e, 0x65, 0x78, 0x74,
  0x20, 0x6f, 0x66, 0x20, 0x31, 0x7b, 0x77, 0x68, 0x6f, 0x7d, 0x20, 0x77,
  0x72, 0x69, 0x74, 0x65, 0x73, 0x20, 0x74, 0x68, 0x65, 0x20, 0x6c, 0x69,
  0x6e, 0x6b, 0x3a, 0x20, 0x7b, 0x6f, 0x74, 0x68, 0x65, 0x72, 0x7d, 0x27,
  0x73, 0x20, 0x6e, 0x65, 0x78, 0x74, 0x20, 0x6e, 0x6f, 0x77, 0x20, 0x70,
  0x6f, 0x69, 0x6e, 0x74, 0x73, 0x20, 0x74, 0x6f, 0x20, 0x7b, 0x77, 0x68,
  0x6f, 0x7d, 0x61, 0x63, 0x71, 0x75, 0x69, 0x72, 0x65, 0x3a, 0x20, 0x70,
  0x6f, 0x6c, 0x6c, 0x20, 0x6f, 0x66, 0x20, 0x61, 0x20, 0x6d, 0x69, 0x73,
  0x73, 0x69, 0x6e, 0x67, 0x20, 0x67, 0x72, 0x61, 0x6e, 0x74, 0x2a, 0x20,
  0x72, 0x65, 0x61, 0x64, 0x20, 0x6c, 0x6f, 0x63, 0x6b, 0x65, 0x64, 0x20,
  0x66, 0x6f, 0x75, 0x6e, 0x64, 0x20, 0x31, 0x7b, 0x77, 0x68, 0x6f, 0x7d,
  0x20, 0x70, 0x6f, 0x6c, 0x6c, 0x73, 0x20, 0x69, 0x74, 0x73, 0x20, 0x6f,
  0x77, 0x6e, 0x20, 0x6c, 0x6f, 0x63, 0x6b, 0x65, 0x64, 0x20, 0x61, 0x6e,
  0x64, 0x20, 0x77, 0x61, 0x69, 0x74, 0x73, 0x3a, 0x20, 0x69, 0x74, 0x20,
  0x69, 0x73, 0x20, 0x73, 0x74, 0x69, 0x6c, 0x6c, 0x20, 0x7b, 0x66, 0x6f,
  0x75, 0x6e, 0x64, 0x7d, 0x61, 0x63, 0x71, 0x75, 0x69, 0x72, 0x65, 0x3a,
  0x20, 0x65, 0x6e, 0x74, 0x65, 0x72, 0x65, 0x64, 0x20, 0x61, 0x66, 0x74,
  0x65, 0x72, 0x20, 0x77, 0x61, 0x69, 0x74, 0x69, 0x6e, 0x67, 0x2a, 0x20,
  0x72, 0x65, 0x61, 0x64, 0x20, 0x6c, 0x6f, 0x63, 0x6b, 0x65, 0x64, 0x20,
  0x66, 0x6f, 0x75, 0x6e, 0x64, 0x20, 0x30, 0x7b, 0x77, 0x68, 0x6f, 0x7d,
  0x20, 0x66, 0x69, 0x6e, 0x64, 0x73, 0x20, 0x69, 0x74, 0x73, 0x20, 0x6f,
  0x77, 0x6e, 0x20, 0x6c, 0x6f, 0x63, 0x6b, 0x65, 0x64, 0x20, 0x61, 0x74,
  0x20, 0x7b, 0x66, 0x6f, 0x75, 0x6e, 0x64, 0x7d, 0x3a, 0x20, 0x69, 0x74,
  0x20, 0x68, 0x6f, 0x6c, 0x64, 0x73, 0x20, 0x74, 0x68, 0x65, 0x20, 0x6c,
  0x6f, 0x63, 0x6b, 0x72, 0x65, 0x6c, 0x65, 0x61, 0x73, 0x65, 0x3a, 0x20,
  0x63, 0x61, 0x6c, 0x6c, 0x65, 0x64, 0x2a, 0x20, 0x72, 0x65, 0x6c, 0x65,
  0x61, 0x73, 0x65, 0x7b, 0x77, 0x68, 0x6f, 0x7d, 0x20, 0x63, 0x61, 0x6c,
  0x6c, 0x73, 0x20, 0x72, 0x65, 0x6c, 0x65, 0x61, 0x73, 0x65, 0x2c, 0x20,
  0x61, 0x6e, 0x64, 0x20, 0x73, 0x74, 0x69, 0x6c, 0x6c, 0x20, 0x68, 0x6f,
  0x6c, 0x64, 0x73, 0x20, 0x74, 0x68, 0x65, 0x20, 0x6c, 0x6f, 0x63, 0x6b,
  0x72, 0x65, 0x6c, 0x65, 0x61, 0x73, 0x65, 0x3a, 0x20, 0x66, 0x6f, 0x75,
  0x6e, 0x64, 0x20, 0x6e, 0x6f, 0x20, 0x6c, 0x69, 0x6e, 0x6b, 0x2a, 0x20,
  0x63, 0x61, 0x73, 0x7b, 0x77, 0x68, 0x6f, 0x7d, 0x20, 0x6c, 0x6f, 0x6f,
  0x6b, 0x73, 0x20, 0x66, 0x6f, 0x72, 0x20, 0x61, 0x20, 0x73, 0x75, 0x63,
  0x63, 0x65, 0x73, 0x73, 0x6f, 0x72, 0x3a, 0x20, 0x69, 0x74, 0x73, 0x20,
  0x6e, 0x65, 0x78, 0x74, 0x20, 0x69, 0x73, 0x20, 0x6e, 0x69, 0x6c, 0x72,
  0x65, 0x6c, 0x65, 0x61, 0x73, 0x65, 0x3a, 0x20, 0x66, 0x6f, 0x75, 0x6e,
  0x64, 0x20, 0x61, 0x20, 0x6c, 0x69, 0x6e, 0x6b, 0x30, 0x20, 0x72, 0x65,
  0x6c, 0x65, 0x61, 0x73, 0x65, 0x30, 0x20, 0x72, 0x65, 0x61, 0x64, 0x20,
  0x6e, 0x65, 0x78, 0x74, 0x20, 0x66, 0x6f, 0x75, 0x6e, 0x64, 0x20, 0x32,
  0x7b, 0x77, 0x68, 0x6f, 0x7d, 0x20, 0x6c, 0x6f, 0x6f, 0x6b, 0x73, 0x20,
  0x66, 0x6f, 0x72, 0x20, 0x61, 0x20, 0x73, 0x75, 0x63, 0x63, 0x65, 0x73,
  0x73, 0x6f, 0x72, 0x2c, 0x20, 0x61, 0x6e, 0x64, 0x20, 0x66, 0x69, 0x6e,
  0x64, 0x73, 0x20, 0x7b, 0x66, 0x69, 0x6e, 0x64, 0x73, 0x7d, 0x72, 0x65,
  0x6c, 0x65, 0x61, 0x73, 0x65, 0x3a, 0x20, 0x73, 0x75, 0x63, 0x63, 0x65,
  0x73, 0x73, 0x66, 0x75, 0x6c, 0x20, 0x63, 0x6f, 0x6d, 0x70, 0x61, 0x72,
  0x65, 0x2d, 0x61, 0x6e, 0x64, 0x2d, 0x73, 0x77, 0x61, 0x70, 0x2a, 0x20,
  0x63, 0x61, 0x73, 0x20, 0x64, 0x6f, 0x6e, 0x65, 0x74, 0x68, 0x65, 0x20,
  0x74, 0x61, 0x69, 0x6c, 0x20, 0x69, 0x73, 0x20, 0x73, 0x74, 0x69, 0x6c,
  0x6c, 0x20, 0x7b, 0x77, 0x68, 0x6f, 0x7d, 0x3a, 0x20, 0x74, 0x68, 0x65,
  0x20, 0x63, 0x6f, 0x6d, 0x70, 0x61, 0x72, 0x65, 0x2d, 0x61, 0x6e, 0x64,
  0x2d, 0x73, 0x77, 0x61, 0x70, 0x20, 0x73, 0x65, 0x74, 0x73, 0x20, 0x69,
  0x74, 0x20, 0x74, 0x6f, 0x20, 0x6e, 0x69, 0x6c, 0x2c, 0x20, 0x61, 0x6e,
  0x64, 0x20, 0x7b, 0x77, 0x68, 0x6f, 0x7d, 0x20, 0x68, 0x61, 0x73, 0x20,
  0x6c, 0x65, 0x66, 0x74, 0x72, 0x65, 0x6c, 0x65, 0x61, 0x73, 0x65, 0x3a,
  0x20, 0x66, 0x61, 0x69, 0x6c, 0x65, 0x64, 0x20, 0x63, 0x6f, 0x6d, 0x70,
  0x61, 0x72, 0x65, 0x2d, 0x61, 0x6e, 0x64, 0x2d, 0x73, 0x77, 0x61, 0x70,
  0x2a, 0x20, 0x63, 0x61, 0x73, 0x20, 0x66, 0x61, 0x69, 0x6c, 0x65, 0x64,
  0x74, 0x68, 0x65, 0x20, 0x63, 0x6f, 0x6d, 0x70, 0x61, 0x72, 0x65, 0x2d,
  0x61, 0x6e, 0x64, 0x2d, 0x73, 0x77, 0x61, 0x70, 0x20, 0x66, 0x61, 0x69,
  0x6c, 0x73, 0x3a, 0x20, 0x74, 0x68, 0x65, 0x20, 0x74, 0x61, 0x69, 0x6c,
  0x20, 0x69, 0x73, 0x20, 0x7b, 0x66, 0x69, 0x6e, 0x64, 0x73, 0x7d, 0x3b,
  0x20, 0x7b, 0x77, 0x68, 0x6f, 0x7d, 0x20, 0x68, 0x61, 0x73, 0x20, 0x61,
  0x20, 0x73, 0x75, 0x63, 0x63, 0x65, 0x73, 0x73, 0x6f, 0x72, 0x2c, 0x20,
  0x61, 0x6e, 0x64, 0x20, 0x68, 0x61, 0x73, 0x20, 0x6e, 0x6f, 0x74, 0x20,
  0x73, 0x65, 0x65, 0x6e, 0x20, 0x79, 0x65, 0x74, 0x20, 0x77, 0x68, 0x6f,
  0x20, 0x69, 0x74, 0x20, 0x69, 0x73, 0x72, 0x65, 0x6c, 0x65, 0x61, 0x73,
  0x65, 0x3a, 0x20, 0x70, 0x6f, 0x6c, 0x6c, 0x20, 0x6f, 0x66, 0x20, 0x61,
  0x20, 0x6d, 0x69, 0x73, 0x73, 0x69, 0x6e, 0x67, 0x20, 0x6c, 0x69, 0x6e,
  0x6b, 0x30, 0x20, 0x63, 0x61, 0x73, 0x20, 0x66, 0x61, 0x69, 0x6c, 0x65,
  0x64, 0x30, 0x20, 0x72, 0x65, 0x61, 0x64, 0x20, 0x6e, 0x65, 0x78, 0x74,
  0x20, 0x66, 0x6f, 0x75, 0x6e, 0x64, 0x20, 0x30, 0x7b, 0x77, 0x68, 0x6f,
  0x7d, 0x20, 0x70, 0x6f, 0x6c, 0x6c, 0x73, 0x20, 0x69, 0x74, 0x73, 0x20,
  0x6f, 0x77, 0x6e, 0x20, 0x6e, 0x65, 0x78, 0x74, 0x20, 0x61, 0x6e, 0x64,
  0x20, 0x77, 0x61, 0x69, 0x74, 0x73, 0x20, 0x66, 0x6f, 0x72, 0x20, 0x74,
  0x68, 0x65, 0x20, 0x6c, 0x69, 0x6e, 0x6b, 0x3a, 0x20, 0x69, 0x74, 0x20,
  0x69, 0x73, 0x20, 0x73, 0x74, 0x69, 0x6c, 0x6c, 0x20, 0x6e, 0x69, 0x6c,
  0x72, 0x65, 0x6c, 0x65, 0x61, 0x73, 0x65, 0x3a, 0x20, 0x66, 0x6f, 0x75,
  0x6e, 0x64, 0x20, 0x61, 0x20, 0x6c, 0x61, 0x74, 0x65, 0x20, 0x6c, 0x69,
  0x6e, 0x6b, 0x74, 0x68, 0x65, 0x20, 0x6c, 0x69, 0x6e, 0x6b, 0x20, 0x69,
  0x73, 0x20, 0x74, 0x68, 0x65, 0x72, 0x65, 0x3a, 0x20, 0x7b, 0x77, 0x68,
  0x6f, 0x7d, 0x20, 0x66, 0x69, 0x6e, 0x64, 0x73, 0x20, 0x7b, 0x66, 0x69,
  0x6e, 0x64, 0x73, 0x7d, 0x72, 0x65, 0x6c, 0x65, 0x61, 0x73, 0x65, 0x3a,
  0x20, 0x67, 0x72, 0x61, 0x6e, 0x74, 0x65, 0x64, 0x20, 0x74, 0x68, 0x65,
  0x20, 0x6c, 0x6f, 0x63, 0x6b, 0x30, 0x20, 0x77, 0x72, 0x69, 0x74, 0x65,
  0x20, 0x6c, 0x6f, 0x63, 0x6b, 0x65, 0x64, 0x20, 0x6f, 0x66, 0x20, 0x31,
  0x7b, 0x77, 0x68, 0x6f, 0x7d, 0x20, 0x63, 0x6c, 0x65, 0x61, 0x72, 0x73,
  0x20, 0x7b, 0x6f, 0x74, 0x68, 0x65, 0x72, 0x7d, 0x27, 0x73, 0x20, 0x6c,
  0x6f, 0x63, 0x6b, 0x65, 0x64, 0x2c, 0x20, 0x61, 0x6e, 0x64, 0x20, 0x68,
  0x61, 0x73, 0x20, 0x6c, 0x65, 0x66, 0x74, 0x3b, 0x20, 0x7b, 0x6f, 0x74,
  0x68, 0x65, 0x72, 0x7d, 0x20, 0x69, 0x73, 0x20, 0x6e, 0x65, 0x78, 0x74,
  0x2c, 0x20, 0x61, 0x6e, 0x64, 0x20, 0x65, 0x6e, 0x74, 0x65, 0x72, 0x73,
  0x20, 0x77, 0x69, 0x74, 0x68, 0x20, 0x69, 0x74, 0x73, 0x20, 0x6e, 0x65,
  0x78, 0x74, 0x20, 0x70, 0x6f, 0x6c, 0x6c, 0x00, 0x00, 0x00, 0x00, 0x00,
  0x58, 0x12, 0x10, 0x00, 0x00, 0x00, 0x00, 0x00, 0x0d, 0x00, 0x00, 0x00,
  0x00, 0x00, 0x00, 0x00, 0x48, 0x12, 0x10, 0x00, 0x00, 0x00, 0x00, 0x00,
  0x01, 0x00, 0x00, 0x00, 0x00, 0x00, 0x00, 0x00, 0x6c, 0x12, 0x10, 0x00,
  0x00, 0x00, 0x00, 0x00, 0x23, 0x00, 0x00, 0x00, 0x00, 0x00, 0x00, 0x00,
  0x8f, 0x12, 0x10, 0x00, 0x00, 0x00, 0x00, 0x00, 0x0e, 0x00, 0x00, 0x00,
  0x00, 0x00, 0x00, 0x00, 0x28, 0x12, 0x10, 0x00, 0x00, 0x00, 0x00, 0x00,
  0x02, 0x00, 0x00, 0x00, 0x00, 0x00, 0x00, 0x00, 0xb5, 0x12, 0x10, 0x00,
  0x00, 0x00, 0x00, 0x00, 0x45, 0x00, 0x00, 0x00, 0x00, 0x00, 0x00, 0x00,
  0xfa, 0x12, 0x10, 0x00, 0x00, 0x00, 0x00, 0x00, 0x19, 0x00, 0x00, 0x00,
  0x00, 0x00, 0x00, 0x00, 0x08, 0x12, 0x10, 0x00, 0x00, 0x00, 0x00, 0x00,
  0x02, 0x00, 0x00, 0x00, 0x00, 0x00, 0x00, 0x00, 0x22, 0x13, 0x10, 0x00,
  0x00, 0x00, 0x00, 0x00, 0x26, 0x00, 0x00, 0x00, 0x00, 0x00, 0x00, 0x00,
  0x48, 0x13, 0x10, 0x00, 0x00, 0x00, 0x00, 0x00, 0x0f, 0x00, 0x00, 0x00,
  0x00, 0x00, 0x00, 0x00, 0xf8, 0x11, 0x10, 0x00, 0x00, 0x00, 0x00, 0x00,
  0x01, 0x00, 0x00, 0x00, 0x00, 0x00, 0x00, 0x00, 0x60, 0x13, 0x10, 0x00,
  0x00, 0x00, 0x00, 0x00, 0x24, 0x00, 0x00, 0x00, 0x00, 0x00, 0x00, 0x00,
  0x84, 0x13, 0x10, 0x00, 0x00, 0x00, 0x00, 0x00, 0x0d, 0x00, 0x00, 0x00,
  0x00, 0x00, 0x00, 0x00, 0xd8, 0x11, 0x10, 0x00, 0x00, 0x00, 0x00, 0x00,
  0x02, 0x00, 0x00, 0x00, 0x00, 0x00, 0x00, 0x00, 0xa8, 0x13, 0x10, 0x00,
  0x00, 0x00, 0x00, 0x00, 0x3f, 0x00, 0x00, 0x00, 0x00, 0x00, 0x00, 0x00,
  0xe7, 0x13, 0x10, 0x00, 0x00, 0x00, 0x00, 0x00, 0x0d, 0x00, 0x00, 0x00,
  0x00, 0x00, 0x00, 0x00, 0xc8, 0x11, 0x10, 0x00, 0x00, 0x00, 0x00, 0x00,
  0x01, 0x00, 0x00, 0x00, 0x00, 0x00, 0x00, 0x00, 0xfb, 0x13, 0x10, 0x00,
  0x00, 0x00, 0x00, 0x00, 0x24, 0x00, 0x00, 0x00, 0x00, 0x00, 0x00, 0x00,
  0x1f, 0x14, 0x10, 0x00, 0x00, 0x00, 0x00, 0x00, 0x0e, 0x00, 0x00, 0x00,
  0x00, 0x00, 0x00, 0x00, 0xa8, 0x11, 0x10, 0x00, 0x00, 0x00, 0x00, 0x00,
  0x02, 0x00, 0x00, 0x00, 0x00, 0x00, 0x00, 0x00, 0x34, 0x14, 0x10, 0x00,
  0x00, 0x00, 0x00, 0x00, 0x43, 0x00, 0x00, 0x00, 0x00, 0x00, 0x00, 0x00,
  0x77, 0x14, 0x10, 0x00, 0x00, 0x00, 0x00, 0x00, 0x1b, 0x00, 0x00, 0x00,
  0x00, 0x00, 0x00, 0x00, 0x88, 0x11, 0x10, 0x00, 0x00, 0x00, 0x00, 0x00,
  0x02, 0x00, 0x00, 0x00, 0x00, 0x00, 0x00, 0x00, 0x92, 0x14, 0x10, 0x00,
  0x00, 0x00, 0x00, 0x00, 0x56, 0x00, 0x00, 0x00, 0x00, 0x00, 0x00, 0x00,
  0xe8, 0x14, 0x10, 0x00, 0x00, 0x00, 0x00, 0x00, 0x0f, 0x00, 0x00, 0x00,
  0x00, 0x00, 0x00, 0x00, 0x78, 0x11, 0x10, 0x00, 0x00, 0x00, 0x00, 0x00,
  0x01, 0x00, 0x00, 0x00, 0x00, 0x00, 0x00, 0x00, 0x00, 0x15, 0x10, 0x00,
  0x00, 0x00, 0x00, 0x00, 0x25, 0x00, 0x00, 0x00, 0x00, 0x00, 0x00, 0x00,
  0x25, 0x15, 0x10, 0x00, 0x00, 0x00, 0x00, 0x00, 0x0d, 0x00, 0x00, 0x00,
  0x00, 0x00, 0x00, 0x00, 0x58, 0x11, 0x10, 0x00, 0x00, 0x00, 0x00, 0x00,
  0x02, 0x00, 0x00, 0x00, 0x00, 0x00, 0x00, 0x00, 0x3b, 0x15, 0x10, 0x00,
  0x00, 0x00, 0x00, 0x00, 0x23, 0x00, 0x00, 0x00, 0x00, 0x00, 0x00, 0x00,
  0x5e, 0x15, 0x10, 0x00, 0x00, 0x00, 0x00, 0x00, 0x11, 0x00, 0x00, 0x00,
  0x00, 0x00, 0x00, 0x00, 0x48, 0x11, 0x10, 0x00, 0x00, 0x00, 0x00, 0x00,
  0x01, 0x00, 0x00, 0x00, 0x00, 0x00, 0x00, 0x00, 0x7a, 0x15, 0x10, 0x00,
  0x00, 0x00, 0x00, 0x00, 0x27, 0x00, 0x00, 0x00, 0x00, 0x00, 0x00, 0x00,
  0xa1, 0x15, 0x10, 0x00, 0x00, 0x00, 0x00, 0x00, 0x12, 0x00, 0x00, 0x00,
  0x00, 0x00, 0x00, 0x00, 0x28, 0x11, 0x10, 0x00, 0x00, 0x00, 0x00, 0x00,
  0x02, 0x00, 0x00, 0x00, 0x00, 0x00, 0x00, 0x00, 0xbe, 0x15, 0x10, 0x00,
  0x00, 0x00, 0x00, 0x00, 0x56, 0x00, 0x00, 0x00, 0x00, 0x00, 0x00, 0x00,
  0xb3, 0x15, 0x10, 0x00, 0x00, 0x00, 0x00, 0x00, 0x0b, 0x00, 0x00, 0x00,
  0x00, 0x00, 0x00, 0x00, 0xa4, 0x12, 0x10, 0x00, 0x00, 0x00, 0x00, 0x00,
  0x11, 0x00, 0x00, 0x00, 0x00, 0x00, 0x00, 0x00, 0x6f, 0x15, 0x10, 0x00,
  0x00, 0x00, 0x00, 0x00, 0x0b, 0x00, 0x00, 0x00, 0x00, 0x00, 0x00, 0x00,
  0x32, 0x15, 0x10, 0x00, 0x00, 0x00, 0x00, 0x00, 0x09, 0x00, 0x00, 0x00,
  0x00, 0x00, 0x00, 0x00, 0x9a, 0x13, 0x10, 0x00, 0x00, 0x00, 0x00, 0x00,
  0x0e, 0x00, 0x00, 0x00, 0x00, 0x00, 0x00, 0x00, 0xf7, 0x14, 0x10, 0x00,
  0x00, 0x00, 0x00, 0x00, 0x09, 0x00, 0x00, 0x00, 0x00, 0x00, 0x00, 0x00,
  0x2d, 0x14, 0x10, 0x00, 0x00, 0x00, 0x00, 0x00, 0x07, 0x00, 0x00, 0x00,
  0x00, 0x00, 0x00, 0x00, 0x13, 0x13, 0x10, 0x00, 0x00, 0x00, 0x00, 0x00,
  0x0f, 0x00, 0x00, 0x00, 0x00, 0x00, 0x00, 0x00, 0x2d, 0x14, 0x10, 0x00,
  0x00, 0x00, 0x00, 0x00, 0x07, 0x00, 0x00, 0x00, 0x00, 0x00, 0x00, 0x00,
  0xa4, 0x12, 0x10, 0x00, 0x00, 0x00, 0x00, 0x00, 0x11, 0x00, 0x00, 0x00,
  0x00, 0x00, 0x00, 0x00, 0xf4, 0x13, 0x10, 0x00, 0x00, 0x00, 0x00, 0x00,
  0x07, 0x00, 0x00, 0x00, 0x00, 0x00, 0x00, 0x00, 0x91, 0x13, 0x10, 0x00,
  0x00, 0x00, 0x00, 0x00, 0x09, 0x00, 0x00, 0x00, 0x00, 0x00, 0x00, 0x00,
  0x9a, 0x13, 0x10, 0x00, 0x00, 0x00, 0x00, 0x00, 0x0e, 0x00, 0x00, 0x00,
  0x00, 0x00, 0x00, 0x00, 0x57, 0x13, 0x10, 0x00, 0x00, 0x00, 0x00, 0x00,
  0x09, 0x00, 0x00, 0x00, 0x00, 0x00, 0x00, 0x00, 0x9d, 0x12, 0x10, 0x00,
  0x00, 0x00, 0x00, 0x00, 0x07, 0x00, 0x00, 0x00, 0x00, 0x00, 0x00, 0x00,
  0x13, 0x13, 0x10, 0x00, 0x00, 0x00, 0x00, 0x00, 0x0f, 0x00, 0x00, 0x00,
  0x00, 0x00, 0x00, 0x00, 0x9d, 0x12, 0x10, 0x00, 0x00, 0x00, 0x00, 0x00,
  0x07, 0x00, 0x00, 0x00, 0x00, 0x00, 0x00, 0x00, 0xa4, 0x12, 0x10, 0x00,
  0x00, 0x00, 0x00, 0x00, 0x11, 0x00, 0x00, 0x00, 0x00, 0x00, 0x00, 0x00,
  0x65, 0x12, 0x10, 0x00, 0x00, 0x00, 0x00, 0x00, 0x07, 0x00, 0x00, 0x00,
  0x00, 0x00, 0x00, 0x00, 0x72, 0x6c, 0x6f, 0x63, 0x6b, 0x3a, 0x20, 0x63,
  0x61, 0x6c, 0x6c, 0x65, 0x64, 0x2a, 0x20, 0x72, 0x6c, 0x6f, 0x63, 0x6b,
  0x7b, 0x77, 0x68, 0x6f, 0x7d, 0x20, 0x63, 0x61, 0x6c, 0x6c, 0x73, 0x20,
  0x72, 0x6c, 0x6f, 0x63, 0x6b, 0x3a, 0x20, 0x69, 0x74, 0x20, 0x77, 0x61,
  0x6e, 0x74, 0x73, 0x20, 0x74, 0x6f, 0x20, 0x72, 0x65, 0x61, 0x64, 0x72,
  0x6c, 0x6f, 0x63, 0x6b, 0x3a, 0x20, 0x65, 0x6e, 0x74, 0x65, 0x72, 0x65,
  0x64, 0x30, 0x20, 0x72, 0x6c, 0x6f, 0x63, 0x6b, 0x30, 0x20, 0x73, 0x65,
  0x63, 0x74, 0x69, 0x6f, 0x6e, 0x20, 0x65, 0x6e, 0x74, 0x65, 0x72, 0x65,
  0x64, 0x7b, 0x77, 0x68, 0x6f, 0x7d, 0x20, 0x66, 0x69, 0x6e, 0x64, 0x73,
  0x20, 0x6e, 0x6f, 0x20, 0x77, 0x72, 0x69, 0x74, 0x65, 0x72, 0x2c, 0x20,
  0x61, 0x6e, 0x64, 0x20, 0x63, 0x6f, 0x75, 0x6e, 0x74, 0x73, 0x20, 0x69,
  0x74, 0x73, 0x65, 0x6c, 0x66, 0x20, 0x69, 0x6e, 0x3a, 0x20, 0x72, 0x65,
  0x61, 0x64, 0x65, 0x72, 0x73, 0x20, 0x69, 0x73, 0x20, 0x6e, 0x6f, 0x77,
  0x20, 0x7b, 0x72, 0x65, 0x61, 0x64, 0x65, 0x72, 0x73, 0x7d, 0x72, 0x6c,
  0x6f, 0x63, 0x6b, 0x3a, 0x20, 0x70, 0x6f, 0x6c, 0x6c, 0x20, 0x77, 0x69,
  0x74, 0x68, 0x20, 0x61, 0x20, 0x77, 0x72, 0x69, 0x74, 0x65, 0x72, 0x30,
  0x20, 0x73, 0x65, 0x63, 0x74, 0x69, 0x6f, 0x6e, 0x20, 0x77, 0x61, 0x69,
  0x74, 0x73, 0x7b, 0x77, 0x68, 0x6f, 0x7d, 0x20, 0x70, 0x6f, 0x6c, 0x6c,
  0x73, 0x20, 0x61, 0x6e, 0x64, 0x20, 0x77, 0x61, 0x69, 0x74, 0x73, 0x3a,
  0x20, 0x74, 0x68, 0x65, 0x20, 0x66, 0x6c, 0x61, 0x67, 0x20, 0x69, 0x73,
  0x20, 0x73, 0x65, 0x74, 0x72, 0x75, 0x6e, 0x6c, 0x6f, 0x63, 0x6b, 0x3a,
  0x20, 0x63, 0x61, 0x6c, 0x6c, 0x65, 0x64, 0x2a, 0x20, 0x72, 0x75, 0x6e,
  0x6c, 0x6f, 0x63, 0x6b, 0x7b, 0x77, 0x68, 0x6f, 0x7d, 0x20, 0x63, 0x61,
  0x6c, 0x6c, 0x73, 0x20, 0x72, 0x75, 0x6e, 0x6c, 0x6f, 0x63, 0x6b, 0x2c,
  0x20, 0x61, 0x6e, 0x64, 0x20, 0x73, 0x74, 0x69, 0x6c, 0x6c, 0x20, 0x72,
  0x65, 0x61, 0x64, 0x73, 0x72, 0x75, 0x6e, 0x6c, 0x6f, 0x63, 0x6b, 0x3a,
  0x20, 0x6c, 0x65, 0x66, 0x74, 0x30, 0x20, 0x72, 0x75, 0x6e, 0x6c, 0x6f,
  0x63, 0x6b, 0x30, 0x20, 0x73, 0x65, 0x63, 0x74, 0x69, 0x6f, 0x6e, 0x20,
  0x6c, 0x65, 0x66, 0x74, 0x7b, 0x77, 0x68, 0x6f, 0x7d, 0x20, 0x63, 0x6f,
  0x75, 0x6e, 0x74, 0x73, 0x20, 0x69, 0x74, 0x73, 0x65, 0x6c, 0x66, 0x20,
  0x6f, 0x75, 0x74, 0x2c, 0x20, 0x61, 0x6e, 0x64, 0x20, 0x68, 0x61, 0x73,
  0x20, 0x6c, 0x65, 0x66, 0x74, 0x3a, 0x20, 0x72, 0x65, 0x61, 0x64, 0x65,
  0x72, 0x73, 0x20, 0x69, 0x73, 0x20, 0x6e, 0x6f, 0x77, 0x20, 0x7b, 0x72,
  0x65, 0x61, 0x64, 0x65, 0x72, 0x73, 0x7d, 0x77, 0x6c, 0x6f, 0x63, 0x6b,
  0x3a, 0x20, 0x63, 0x61, 0x6c, 0x6c, 0x65, 0x64, 0x2a, 0x20, 0x77, 0x6c,
  0x6f, 0x63, 0x6b, 0x7b, 0x77, 0x68, 0x6f, 0x7d, 0x20, 0x63, 0x61, 0x6c,
  0x6c, 0x73, 0x20, 0x77, 0x6c, 0x6f, 0x63, 0x6b, 0x3a, 0x20, 0x69, 0x74,
  0x20, 0x77, 0x61, 0x6e, 0x74, 0x73, 0x20, 0x74, 0x6f, 0x20, 0x77, 0x72,
  0x69, 0x74, 0x65, 0x77, 0x6c, 0x6f, 0x63, 0x6b, 0x3a, 0x20, 0x65, 0x6e,
  0x74, 0x65, 0x72, 0x65, 0x64, 0x30, 0x20, 0x77, 0x6c, 0x6f, 0x63, 0x6b,
  0x7b, 0x77, 0x68, 0x6f, 0x7d, 0x20, 0x66, 0x69, 0x6e, 0x64, 0x73, 0x20,
  0x6e, 0x6f, 0x20, 0x72, 0x65, 0x61, 0x64, 0x65, 0x72, 0x20, 0x61, 0x6e,
  0x64, 0x20, 0x74, 0x68, 0x65, 0x20, 0x66, 0x6c, 0x61, 0x67, 0x20, 0x63,
  0x6c, 0x65, 0x61, 0x72, 0x2c, 0x20, 0x73, 0x65, 0x74, 0x73, 0x20, 0x74,
  0x68, 0x65, 0x20, 0x66, 0x6c, 0x61, 0x67, 0x2c, 0x20, 0x61, 0x6e, 0x64,
  0x20, 0x77, 0x72, 0x69, 0x74, 0x65, 0x73, 0x77, 0x6c, 0x6f, 0x63, 0x6b,
  0x3a, 0x20, 0x70, 0x6f, 0x6c, 0x6c, 0x20, 0x6f, 0x66, 0x20, 0x61, 0x20,
  0x74, 0x61, 0x6b, 0x65, 0x6e, 0x20, 0x6c, 0x6f, 0x63, 0x6b, 0x7b, 0x77,
  0x68, 0x6f, 0x7d, 0x20, 0x70, 0x6f, 0x6c, 0x6c, 0x73, 0x20, 0x61, 0x6e,
  0x64, 0x20, 0x77, 0x61, 0x69, 0x74, 0x73, 0x3a, 0x20, 0x72, 0x65, 0x61,
  0x64, 0x65, 0x72, 0x73, 0x20, 0x69, 0x73, 0x20, 0x7b, 0x72, 0x65, 0x61,
  0x64, 0x65, 0x72, 0x73, 0x7d, 0x2c, 0x20, 0x61, 0x6e, 0x64, 0x20, 0x74,
  0x68, 0x65, 0x20, 0x66, 0x6c, 0x61, 0x67, 0x20, 0x69, 0x73, 0x20, 0x7b,
  0x66, 0x6c, 0x61, 0x67, 0x7d, 0x3b, 0x20, 0x62, 0x6f, 0x74, 0x68, 0x20,
  0x68, 0x61, 0x76, 0x65, 0x20, 0x74, 0x6f, 0x20, 0x62, 0x65, 0x20, 0x30,
  0x77, 0x75, 0x6e, 0x6c, 0x6f, 0x63, 0x6b, 0x3a, 0x20, 0x63, 0x61, 0x6c,
  0x6c, 0x65, 0x64, 0x2a, 0x20, 0x77, 0x75, 0x6e, 0x6c, 0x6f, 0x63, 0x6b,
  0x7b, 0x77, 0x68, 0x6f, 0x7d, 0x20, 0x63, 0x61, 0x6c, 0x6c, 0x73, 0x20,
  0x77, 0x75, 0x6e, 0x6c, 0x6f, 0x63, 0x6b, 0x2c, 0x20, 0x61, 0x6e, 0x64,
  0x20, 0x73, 0x74, 0x69, 0x6c, 0x6c, 0x20, 0x77, 0x72, 0x69, 0x74, 0x65,
  0x73, 0x77, 0x75, 0x6e, 0x6c, 0x6f, 0x63, 0x6b, 0x3a, 0x20, 0x6c, 0x65,
  0x66, 0x74, 0x30, 0x20, 0x77, 0x75, 0x6e, 0x6c, 0x6f, 0x63, 0x6b, 0x7b,
  0x77, 0x68, 0x6f, 0x7d, 0x20, 0x63, 0x6c, 0x65, 0x61, 0x72, 0x73, 0x20,
  0x74, 0x68, 0x65, 0x20, 0x66, 0x6c, 0x61, 0x67, 0x2c, 0x20, 0x61, 0x6e,
  0x64, 0x20, 0x68, 0x61, 0x73, 0x20, 0x6c, 0x65, 0x66, 0x74, 0x64, 0x6f,
  0x77, 0x6e, 0x67, 0x72, 0x61, 0x64, 0x65, 0x3a, 0x20, 0x63, 0x61, 0x6c,
  0x6c, 0x65, 0x64, 0x2a, 0x20, 0x64, 0x6f, 0x77, 0x6e, 0x67, 0x72, 0x61,
  0x64, 0x65, 0x7b, 0x77, 0x68, 0x6f, 0x7d, 0x20, 0x63, 0x61, 0x6c, 0x6c,
  0x73, 0x20, 0x64, 0x6f, 0x77, 0x6e, 0x67, 0x72, 0x61, 0x64, 0x65, 0x2c,
  0x20, 0x61, 0x6e, 0x64, 0x20, 0x73, 0x74, 0x69, 0x6c, 0x6c, 0x20, 0x77,
  0x72, 0x69, 0x74, 0x65, 0x73, 0x64, 0x6f, 0x77, 0x6e, 0x67, 0x72, 0x61,
  0x64, 0x65, 0x3a, 0x20, 0x65, 0x6e, 0x74, 0x65, 0x72, 0x65, 0x64, 0x30,
  0x20, 0x64, 0x6f, 0x77, 0x6e, 0x67, 0x72, 0x61, 0x64, 0x65, 0x7b, 0x77,
  0x68, 0x6f, 0x7d, 0x20, 0x62, 0x65, 0x63, 0x6f, 0x6d, 0x65, 0x73, 0x20,
  0x61, 0x20, 0x72, 0x65, 0x61, 0x64, 0x65, 0x72, 0x20, 0x69, 0x6e, 0x20,
  0x6f, 0x6e, 0x65, 0x20, 0x73, 0x65, 0x63, 0x74, 0x69, 0x6f, 0x6e, 0x3a,
  0x20, 0x72, 0x65, 0x61, 0x64, 0x65, 0x72, 0x73, 0x20, 0x69, 0x73, 0x20,
  0x6e, 0x6f, 0x77, 0x20, 0x7b, 0x72, 0x65, 0x61, 0x64, 0x65, 0x72, 0x73,
  0x7d, 0x2c, 0x20, 0x61, 0x6e, 0x64, 0x20, 0x74, 0x68, 0x65, 0x20, 0x66,
  0x6c, 0x61, 0x67, 0x20, 0x69, 0x73, 0x20, 0x63, 0x6c, 0x65, 0x61, 0x72,
  0x00, 0x00, 0x00, 0x00, 0x68, 0x1a, 0x10, 0x00, 0x00, 0x00, 0x00, 0x00,
  0x0d, 0x00, 0x00, 0x00, 0x00, 0x00, 0x00, 0x00, 0x58, 0x1a, 0x10, 0x00,
  0x00, 0x00, 0x00, 0x00, 0x01, 0x00, 0x00, 0x00, 0x00, 0x00, 0x00, 0x00,
  0x7c, 0x1a, 0x10, 0x00, 0x00, 0x00, 0x00, 0x00, 0x23, 0x00, 0x00, 0x00,
  0x00, 0x00, 0x00, 0x00, 0x9f, 0x1a, 0x10, 0x00, 0x00, 0x00, 0x00, 0x00,
  0x0e, 0x00, 0x00, 0x00, 0x00, 0x00, 0x00, 0x00, 0x38, 0x1a, 0x10, 0x00,
  0x00, 0x00, 0x00, 0x00, 0x02, 0x00, 0x00, 0x00, 0x00, 0x00, 0x00, 0x00,
  0xc5, 0x1a, 0x10, 0x00, 0x00, 0x00, 0x00, 0x00, 0x54, 0x00, 0x00, 0x00,
  0x00, 0x00, 0x00, 0x00, 0x19, 0x1b, 0x10, 0x00, 0x00, 0x00, 0x00, 0x00,
  0x19, 0x00, 0x00, 0x00, 0x00, 0x00, 0x00, 0x00, 0x18, 0x1a, 0x10, 0x00,
  0x00, 0x00, 0x00, 0x00, 0x02, 0x00, 0x00, 0x00, 0x00, 0x00, 0x00, 0x00,
  0x41, 0x1b, 0x10, 0x00, 0x00, 0x00, 0x00, 0x00, 0x26, 0x00, 0x00, 0x00,
  0x00, 0x00, 0x00, 0x00, 0x67, 0x1b, 0x10, 0x00, 0x00, 0x00, 0x00, 0x00,
  0x0f, 0x00, 0x00, 0x00, 0x00, 0x00, 0x00, 0x00, 0x08, 0x1a, 0x10, 0x00,
  0x00, 0x00, 0x00, 0x00, 0x01, 0x00, 0x00, 0x00, 0x00, 0x00, 0x00, 0x00,
  0x7f, 0x1b, 0x10, 0x00, 0x00, 0x00, 0x00, 0x00, 0x24, 0x00, 0x00, 0x00,
  0x00, 0x00, 0x00, 0x00, 0xa3, 0x1b, 0x10, 0x00, 0x00, 0x00, 0x00, 0x00,
  0x0d, 0x00, 0x00, 0x00, 0x00, 0x00, 0x00, 0x00, 0xe8, 0x19, 0x10, 0x00,
  0x00, 0x00, 0x00, 0x00, 0x02, 0x00, 0x00, 0x00, 0x00, 0x00, 0x00, 0x00,
  0xc7, 0x1b, 0x10, 0x00, 0x00, 0x00, 0x00, 0x00, 0x49, 0x00, 0x00, 0x00,
  0x00, 0x00, 0x00, 0x00, 0x10, 0x1c, 0x10, 0x00, 0x00, 0x00, 0x00, 0x00,
  0x0d, 0x00, 0x00, 0x00, 0x00, 0x00, 0x00, 0x00, 0xd8, 0x19, 0x10, 0x00,
  0x00, 0x00, 0x00, 0x00, 0x01, 0x00, 0x00, 0x00, 0x00, 0x00, 0x00, 0x00,
  0x24, 0x1c, 0x10, 0x00, 0x00, 0x00, 0x00, 0x00, 0x24, 0x00, 0x00, 0x00,
  0x00, 0x00, 0x00, 0x00, 0x48, 0x1c, 0x10, 0x00, 0x00, 0x00, 0x00, 0x00,
  0x1e, 0x00, 0x00, 0x00, 0x00, 0x00, 0x00, 0x00, 0xb8, 0x19, 0x10, 0x00,
  0x00, 0x00, 0x00, 0x00, 0x02, 0x00, 0x00, 0x00, 0x00, 0x00, 0x00, 0x00,
  0x6d, 0x1c, 0x10, 0x00, 0x00, 0x00, 0x00, 0x00, 0x37, 0x00, 0x00, 0x00,
  0x00, 0x00, 0x00, 0x00, 0xa4, 0x1c, 0x10, 0x00, 0x00, 0x00, 0x00, 0x00,
  0x1b, 0x00, 0x00, 0x00, 0x00, 0x00, 0x00, 0x00, 0x98, 0x19, 0x10, 0x00,
  0x00, 0x00, 0x00, 0x00, 0x02, 0x00, 0x00, 0x00, 0x00, 0x00, 0x00, 0x00,
  0xbf, 0x1c, 0x10, 0x00, 0x00, 0x00, 0x00, 0x00, 0x3e, 0x00, 0x00, 0x00,
  0x00, 0x00, 0x00, 0x00, 0xfd, 0x1c, 0x10, 0x00, 0x00, 0x00, 0x00, 0x00,
  0x0f, 0x00, 0x00, 0x00, 0x00, 0x00, 0x00, 0x00, 0x88, 0x19, 0x10, 0x00,
  0x00, 0x00, 0x00, 0x00, 0x01, 0x00, 0x00, 0x00, 0x00, 0x00, 0x00, 0x00,
  0x15, 0x1d, 0x10, 0x00, 0x00, 0x00, 0x00, 0x00, 0x25, 0x00, 0x00, 0x00,
  0x00, 0x00, 0x00, 0x00, 0x3a, 0x1d, 0x10, 0x00, 0x00, 0x00, 0x00, 0x00,
  0x0d, 0x00, 0x00, 0x00, 0x00, 0x00, 0x00, 0x00, 0x68, 0x19, 0x10, 0x00,
  0x00, 0x00, 0x00, 0x00, 0x02, 0x00, 0x00, 0x00, 0x00, 0x00, 0x00, 0x00,
  0x50, 0x1d, 0x10, 0x00, 0x00, 0x00, 0x00, 0x00, 0x23, 0x00, 0x00, 0x00,
  0x00, 0x00, 0x00, 0x00, 0x73, 0x1d, 0x10, 0x00, 0x00, 0x00, 0x00, 0x00,
  0x11, 0x00, 0x00, 0x00, 0x00, 0x00, 0x00, 0x00, 0x58, 0x19, 0x10, 0x00,
  0x00, 0x00, 0x00, 0x00, 0x01, 0x00, 0x00, 0x00, 0x00, 0x00, 0x00, 0x00,
  0x8f, 0x1d, 0x10, 0x00, 0x00, 0x00, 0x00, 0x00, 0x27, 0x00, 0x00, 0x00,
  0x00, 0x00, 0x00, 0x00, 0xb6, 0x1d, 0x10, 0x00, 0x00, 0x00, 0x00, 0x00,
  0x12, 0x00, 0x00, 0x00, 0x00, 0x00, 0x00, 0x00, 0x38, 0x19, 0x10, 0x00,
  0x00, 0x00, 0x00, 0x00, 0x02, 0x00, 0x00, 0x00, 0x00, 0x00, 0x00, 0x00,
  0xd3, 0x1d, 0x10, 0x00, 0x00, 0x00, 0x00, 0x00, 0x60, 0x00, 0x00, 0x00,
  0x00, 0x00, 0x00, 0x00, 0x33, 0x1e, 0x10, 0x00, 0x00, 0x00, 0x00, 0x00,
  0x17, 0x00, 0x00, 0x00, 0x00, 0x00, 0x00, 0x00, 0x28, 0x19, 0x10, 0x00,
  0x00, 0x00, 0x00, 0x00, 0x01, 0x00, 0x00, 0x00, 0x00, 0x00, 0x00, 0x00,
  0x59, 0x1e, 0x10, 0x00, 0x00, 0x00, 0x00, 0x00, 0x93, 0x00, 0x00, 0x00,
  0x00, 0x00, 0x00, 0x00, 0xec, 0x1e, 0x10, 0x00, 0x00, 0x00, 0x00, 0x00,
  0x1f, 0x00, 0x00, 0x00, 0x00, 0x00, 0x00, 0x00, 0x08, 0x19, 0x10, 0x00,
  0x00, 0x00, 0x00, 0x00, 0x02, 0x00, 0x00, 0x00, 0x00, 0x00, 0x00, 0x00,
  0x1a, 0x1f, 0x10, 0x00, 0x00, 0x00, 0x00, 0x00, 0x64, 0x00, 0x00, 0x00,
  0x00, 0x00, 0x00, 0x00, 0x7e, 0x1f, 0x10, 0x00, 0x00, 0x00, 0x00, 0x00,
  0x20, 0x00, 0x00, 0x00, 0x00, 0x00, 0x00, 0x00, 0xe8, 0x18, 0x10, 0x00,
  0x00, 0x00, 0x00, 0x00, 0x02, 0x00, 0x00, 0x00, 0x00, 0x00, 0x00, 0x00,
  0x9e, 0x1f, 0x10, 0x00, 0x00, 0x00, 0x00, 0x00, 0x63, 0x00, 0x00, 0x00,
  0x00, 0x00, 0x00, 0x00, 0x0b, 0x1f, 0x10, 0x00, 0x00, 0x00, 0x00, 0x00,
  0x0f, 0x00, 0x00, 0x00, 0x00, 0x00, 0x00, 0x00, 0xb4, 0x1a, 0x10, 0x00,
  0x00, 0x00, 0x00, 0x00, 0x11, 0x00, 0x00, 0x00, 0x00, 0x00, 0x00, 0x00,
  0x0b, 0x1f, 0x10, 0x00, 0x00, 0x00, 0x00, 0x00, 0x0f, 0x00, 0x00, 0x00,
  0x00, 0x00, 0x00, 0x00, 0x32, 0x1b, 0x10, 0x00, 0x00, 0x00, 0x00, 0x00,
  0x0f, 0x00, 0x00, 0x00, 0x00, 0x00, 0x00, 0x00, 0x4a, 0x1e, 0x10, 0x00,
  0x00, 0x00, 0x00, 0x00, 0x0f, 0x00, 0x00, 0x00, 0x00, 0x00, 0x00, 0x00,
  0xc8, 0x1d, 0x10, 0x00, 0x00, 0x00, 0x00, 0x00, 0x0b, 0x00, 0x00, 0x00,
  0x00, 0x00, 0x00, 0x00, 0xb4, 0x1a, 0x10, 0x00, 0x00, 0x00, 0x00, 0x00,
  0x11, 0x00, 0x00, 0x00, 0x00, 0x00, 0x00, 0x00, 0x84, 0x1d, 0x10, 0x00,
  0x00, 0x00, 0x00, 0x00, 0x0b, 0x00, 0x00, 0x00, 0x00, 0x00, 0x00, 0x00,
  0x47, 0x1d, 0x10, 0x00, 0x00, 0x00, 0x00, 0x00, 0x09, 0x00, 0x00, 0x00,
  0x00, 0x00, 0x00, 0x00, 0xb9, 0x1b, 0x10, 0x00, 0x00, 0x00, 0x00, 0x00,
  0x0e, 0x00, 0x00, 0x00, 0x00, 0x00, 0x00, 0x00, 0x0c, 0x1d, 0x10, 0x00,
  0x00, 0x00, 0x00, 0x00, 0x09, 0x00, 0x00, 0x00, 0x00, 0x00, 0x00, 0x00,
  0x66, 0x1c, 0x10, 0x00, 0x00, 0x00, 0x00, 0x00, 0x07, 0x00, 0x00, 0x00,
  0x00, 0x00, 0x00, 0x00, 0x32, 0x1b, 0x10, 0x00, 0x00, 0x00, 0x00, 0x00,
  0x0f, 0x00, 0x00, 0x00, 0x00, 0x00, 0x00, 0x00, 0x66, 0x1c, 0x10, 0x00,
  0x00, 0x00, 0x00, 0x00, 0x07, 0x00, 0x00, 0x00, 0x00, 0x00, 0x00, 0x00,
  0xb4, 0x1a, 0x10, 0x00, 0x00, 0x00, 0x00, 0x00, 0x11, 0x00, 0x00, 0x00,
  0x00, 0x00, 0x00, 0x00, 0x1d, 0x1c, 0x10, 0x00, 0x00, 0x00, 0x00, 0x00,
  0x07, 0x00, 0x00, 0x00, 0x00, 0x00, 0x00, 0x00, 0xb0, 0x1b, 0x10, 0x00,
  0x00, 0x00, 0x00, 0x00, 0x09, 0x00, 0x00, 0x00, 0x00, 0x00, 0x00, 0x00,
  0xb9, 0x1b, 0x10, 0x00, 0x00, 0x00, 0x00, 0x00, 0x0e, 0x00, 0x00, 0x00,
  0x00, 0x00, 0x00, 0x00, 0x76, 0x1b, 0x10, 0x00, 0x00, 0x00, 0x00, 0x00,
  0x09, 0x00, 0x00, 0x00, 0x00, 0x00, 0x00, 0x00, 0xad, 0x1a, 0x10, 0x00,
  0x00, 0x00, 0x00, 0x00, 0x07, 0x00, 0x00, 0x00, 0x00, 0x00, 0x00, 0x00,
  0x32, 0x1b, 0x10, 0x00, 0x00, 0x00, 0x00, 0x00, 0x0f, 0x00, 0x00, 0x00,
  0x00, 0x00, 0x00, 0x00, 0xad, 0x1a, 0x10, 0x00, 0x00, 0x00, 0x00, 0x00,
  0x07, 0x00, 0x00, 0x00, 0x00, 0x00, 0x00, 0x00, 0xb4, 0x1a, 0x10, 0x00,
  0x00, 0x00, 0x00, 0x00, 0x11, 0x00, 0x00, 0x00, 0x00, 0x00, 0x00, 0x00,
  0x75, 0x1a, 0x10, 0x00, 0x00, 0x00, 0x00, 0x00, 0x07, 0x00, 0x00, 0x00,
  0x00, 0x00, 0x00, 0x00, 0x72, 0x6c, 0x6f, 0x63, 0x6b, 0x3a, 0x20, 0x63,
  0x61, 0x6c, 0x6c, 0x65, 0x64, 0x2a, 0x20, 0x72, 0x6c, 0x6f, 0x63, 0x6b,
  0x7b, 0x77, 0x68, 0x6f, 0x7d, 0x20, 0x63, 0x61, 0x6c, 0x6c, 0x73, 0x20,
  0x72, 0x6c, 0x6f, 0x63, 0x6b, 0x3a, 0x20, 0x69, 0x74, 0x20, 0x77, 0x61,
  0x6e, 0x74, 0x73, 0x20, 0x74, 0x6f, 0x20, 0x72, 0x65, 0x61, 0x64, 0x72,
  0x6c, 0x6f, 0x63, 0x6b, 0x3a, 0x20, 0x65, 0x6e, 0x74, 0x65, 0x72, 0x65,
  0x64, 0x30, 0x20, 0x72, 0x6c, 0x6f, 0x63, 0x6b, 0x30, 0x20, 0x73, 0x65,
  0x63, 0x74, 0x69, 0x6f, 0x6e, 0x20, 0x65, 0x6e, 0x74, 0x65, 0x72, 0x65,
  0x64, 0x7b, 0x77, 0x68, 0x6f, 0x7d, 0x20, 0x66, 0x69, 0x6e, 0x64, 0x73,
  0x20, 0x74, 0x68, 0x65, 0x20, 0x66, 0x6c, 0x61, 0x67, 0x20, 0x63, 0x6c,
  0x65, 0x61, 0x72, 0x2c, 0x20, 0x61, 0x6e, 0x64, 0x20, 0x63, 0x6f, 0x75,
  0x6e, 0x74, 0x73, 0x20, 0x69, 0x74, 0x73, 0x65, 0x6c, 0x66, 0x20, 0x69,
  0x6e, 0x3a, 0x20, 0x72, 0x65, 0x61, 0x64, 0x41, 0x63, 0x71, 0x75, 0x69,
  0x72, 0x65, 0x73, 0x20, 0x69, 0x73, 0x20, 0x6e, 0x6f, 0x77, 0x20, 0x7b,
  0x72, 0x65, 0x61, 0x64, 0x41, 0x63, 0x71, 0x75, 0x69, 0x72, 0x65, 0x73,
  0x7d, 0x72, 0x6c, 0x6f, 0x63, 0x6b, 0x3a, 0x20, 0x70, 0x6f, 0x6c, 0x6c,
  0x20, 0x77, 0x69, 0x74, 0x68, 0x20, 0x61, 0x20, 0x77, 0x72, 0x69, 0x74,
  0x65, 0x72, 0x30, 0x20, 0x73, 0x65, 0x63, 0x74, 0x69, 0x6f, 0x6e, 0x20,
  0x77, 0x61, 0x69, 0x74, 0x73, 0x7b, 0x77, 0x68, 0x6f, 0x7d, 0x20, 0x70,
  0x6f, 0x6c, 0x6c, 0x73, 0x20, 0x61, 0x6e, 0x64, 0x20, 0x77, 0x61, 0x69,
  0x74, 0x73, 0x3a, 0x20, 0x74, 0x68, 0x65, 0x20, 0x66, 0x6c, 0x61, 0x67,
  0x20, 0x69, 0x73, 0x20, 0x73, 0x65, 0x74, 0x72, 0x75, 0x6e, 0x6c, 0x6f,
  0x63, 0x6b, 0x3a, 0x20, 0x63, 0x61, 0x6c, 0x6c, 0x65, 0x64, 0x2a, 0x20,
  0x72, 0x75, 0x6e, 0x6c, 0x6f, 0x63, 0x6b, 0x7b, 0x77, 0x68, 0x6f, 0x7d,
  0x20, 0x63, 0x61, 0x6c, 0x6c, 0x73, 0x20, 0x72, 0x75, 0x6e, 0x6c, 0x6f,
  0x63, 0x6b, 0x2c, 0x20, 0x61, 0x6e, 0x64, 0x20, 0x73, 0x74, 0x69, 0x6c,
  0x6c, 0x20, 0x72, 0x65, 0x61, 0x64, 0x73, 0x72, 0x75, 0x6e, 0x6c, 0x6f,
  0x63, 0x6b, 0x3a, 0x20, 0x6c, 0x65, 0x66, 0x74, 0x30, 0x20, 0x72, 0x75,
  0x6e, 0x6c, 0x6f, 0x63, 0x6b, 0x30, 0x20, 0x73, 0x65, 0x63, 0x74, 0x69,
  0x6f, 0x6e, 0x20, 0x6c, 0x65, 0x66, 0x74, 0x7b, 0x77, 0x68, 0x6f, 0x7d,
  0x20, 0x63, 0x6f, 0x75, 0x6e, 0x74, 0x73, 0x20, 0x69, 0x74, 0x73, 0x65,
  0x6c, 0x66, 0x20, 0x6f, 0x75, 0x74, 0x2c, 0x20, 0x61, 0x6e, 0x64, 0x20,
  0x68, 0x61, 0x73, 0x20, 0x6c, 0x65, 0x66, 0x74, 0x3a, 0x20, 0x72, 0x65,
  0x61, 0x64, 0x52, 0x65, 0x6c, 0x65, 0x61, 0x73, 0x65, 0x73, 0x20, 0x69,
  0x73, 0x20, 0x6e, 0x6f, 0x77, 0x20, 0x7b, 0x72, 0x65, 0x61, 0x64, 0x52,
  0x65, 0x6c, 0x65, 0x61, 0x73, 0x65, 0x73, 0x7d, 0x77, 0x6c, 0x6f, 0x63,
  0x6b, 0x3a, 0x20, 0x63, 0x61, 0x6c, 0x6c, 0x65, 0x64, 0x2a, 0x20, 0x77,
  0x6c, 0x6f, 0x63, 0x6b, 0x7b, 0x77, 0x68, 0x6f, 0x7d, 0x20, 0x63, 0x61,
  0x6c, 0x6c, 0x73, 0x20, 0x77, 0x6c, 0x6f, 0x63, 0x6b, 0x3a, 0x20, 0x69,
  0x74, 0x20, 0x77, 0x61, 0x6e, 0x74, 0x73, 0x20, 0x74, 0x6f, 0x20, 0x77,
  0x72, 0x69, 0x74, 0x65, 0x77, 0x6c, 0x6f, 0x63, 0x6b, 0x3a, 0x20, 0x65,
  0x6e, 0x74, 0x65, 0x72, 0x65, 0x64, 0x20, 0x77, 0x69, 0x74, 0x68, 0x6f,
  0x75, 0x74, 0x20, 0x77, 0x61, 0x69, 0x74, 0x69, 0x6e, 0x67, 0x30, 0x20,
  0x77, 0x6c, 0x6f, 0x63, 0x6b, 0x7b, 0x77, 0x68, 0x6f, 0x7d, 0x20, 0x73,
  0x65, 0x74, 0x73, 0x20, 0x74, 0x68, 0x65, 0x20, 0x66, 0x6c, 0x61, 0x67,
  0x2c, 0x20, 0x66, 0x69, 0x6e, 0x64, 0x73, 0x20, 0x74, 0x68, 0x65, 0x20,
  0x63, 0x6f, 0x75, 0x6e, 0x74, 0x73, 0x20, 0x65, 0x71, 0x75, 0x61, 0x6c,
  0x2c, 0x20, 0x61, 0x6e, 0x64, 0x20, 0x77, 0x72, 0x69, 0x74, 0x65, 0x73,
  0x77, 0x6c, 0x6f, 0x63, 0x6b, 0x3a, 0x20, 0x70, 0x6f, 0x6c, 0x6c, 0x20,
  0x6f, 0x66, 0x20, 0x61, 0x20, 0x74, 0x61, 0x6b, 0x65, 0x6e, 0x20, 0x6c,
  0x6f, 0x63, 0x6b, 0x7b, 0x77, 0x68, 0x6f, 0x7d, 0x20, 0x70, 0x6f, 0x6c,
  0x6c, 0x73, 0x20, 0x61, 0x6e, 0x64, 0x20, 0x77, 0x61, 0x69, 0x74, 0x73,
  0x3a, 0x20, 0x74, 0x68, 0x65, 0x20, 0x66, 0x6c, 0x61, 0x67, 0x20, 0x69,
  0x73, 0x20, 0x73, 0x65, 0x74, 0x3b, 0x20, 0x69, 0x74, 0x20, 0x69, 0x73,
  0x20, 0x6e, 0x6f, 0x74, 0x20, 0x69, 0x6e, 0x20, 0x74, 0x68, 0x65, 0x20,
  0x71, 0x75, 0x65, 0x75, 0x65, 0x77, 0x75, 0x6e, 0x6c, 0x6f, 0x63, 0x6b,
  0x3a, 0x20, 0x63, 0x61, 0x6c, 0x6c, 0x65, 0x64, 0x2a, 0x20, 0x77, 0x75,
  0x6e, 0x6c, 0x6f, 0x63, 0x6b, 0x7b, 0x77, 0x68, 0x6f, 0x7d, 0x20, 0x63,
  0x61, 0x6c, 0x6c, 0x73, 0x20, 0x77, 0x75, 0x6e, 0x6c, 0x6f, 0x63, 0x6b,
  0x2c, 0x20, 0x61, 0x6e, 0x64, 0x20, 0x73, 0x74, 0x69, 0x6c, 0x6c, 0x20,
  0x77, 0x72, 0x69, 0x74, 0x65, 0x73, 0x77, 0x75, 0x6e, 0x6c, 0x6f, 0x63,
  0x6b, 0x3a, 0x20, 0x6c, 0x65, 0x66, 0x74, 0x30, 0x20, 0x77, 0x75, 0x6e,
  0x6c, 0x6f, 0x63, 0x6b, 0x7b, 0x77, 0x68, 0x6f, 0x7d, 0x20, 0x63, 0x6c,
  0x65, 0x61, 0x72, 0x73, 0x20, 0x74, 0x68, 0x65, 0x20, 0x66, 0x6c, 0x61,
  0x67, 0x2c, 0x20, 0x61, 0x6e, 0x64, 0x20, 0x68, 0x61, 0x73, 0x20, 0x6c,
  0x65, 0x66, 0x74, 0x64, 0x6f, 0x77, 0x6e, 0x67, 0x72, 0x61, 0x64, 0x65,
  0x3a, 0x20, 0x63, 0x61, 0x6c, 0x6c, 0x65, 0x64, 0x2a, 0x20, 0x64, 0x6f,
  0x77, 0x6e, 0x67, 0x72, 0x61, 0x64, 0x65, 0x7b, 0x77, 0x68, 0x6f, 0x7d,
  0x20, 0x63, 0x61, 0x6c, 0x6c, 0x73, 0x20, 0x64, 0x6f, 0x77, 0x6e, 0x67,
  0x72, 0x61, 0x64, 0x65, 0x2c, 0x20, 0x61, 0x6e, 0x64, 0x20, 0x73, 0x74,
  0x69, 0x6c, 0x6c, 0x20, 0x77, 0x72, 0x69, 0x74, 0x65, 0x73, 0x64, 0x6f,
  0x77, 0x6e, 0x67, 0x72, 0x61, 0x64, 0x65, 0x3a, 0x20, 0x65, 0x6e, 0x74,
  0x65, 0x72, 0x65, 0x64, 0x30, 0x20, 0x64, 0x6f, 0x77, 0x6e, 0x67, 0x72,
  0x61, 0x64, 0x65, 0x7b, 0x77, 0x68, 0x6f, 0x7d, 0x20, 0x62, 0x65, 0x63,
  0x6f, 0x6d, 0x65, 0x73, 0x20, 0x61, 0x20, 0x72, 0x65, 0x61, 0x64, 0x65,
  0x72, 0x20, 0x69, 0x6e, 0x20, 0x6f, 0x6e, 0x65, 0x20, 0x73, 0x65, 0x63,
  0x74, 0x69, 0x6f, 0x6e, 0x3a, 0x20, 0x72, 0x65, 0x61, 0x64, 0x41, 0x63,
  0x71, 0x75, 0x69, 0x72, 0x65, 0x73, 0x20, 0x69, 0x73, 0x20, 0x6e, 0x6f,
  0x77, 0x20, 0x7b, 0x72, 0x65, 0x61, 0x64, 0x41, 0x63, 0x71, 0x75, 0x69,
  0x72, 0x65, 0x73, 0x7d, 0x2c, 0x20, 0x61, 0x6e, 0x64, 0x20, 0x74, 0x68,
  0x65, 0x20, 0x66, 0x6c, 0x61, 0x67, 0x20, 0x69, 0x73, 0x20, 0x63, 0x6c,
  0x65, 0x61, 0x72, 0x77, 0x6c, 0x6f, 0x63, 0x6b, 0x3a, 0x20, 0x61, 0x6e,
  0x6e, 0x6f, 0x75, 0x6e, 0x63, 0x65, 0x64, 0x20, 0x69, 0x74, 0x73, 0x65,
  0x6c, 0x66, 0x2a, 0x20, 0x73, 0x65, 0x63, 0x74, 0x69, 0x6f, 0x6e, 0x20,
  0x6d, 0x6f, 0x76, 0x65, 0x64, 0x7b, 0x77, 0x68, 0x6f, 0x7d, 0x20, 0x73,
  0x65, 0x74, 0x73, 0x20, 0x74, 0x68, 0x65, 0x20, 0x66, 0x6c, 0x61, 0x67,
  0x2c, 0x20, 0x61, 0x6e, 0x64, 0x20, 0x73, 0x6f, 0x20, 0x69, 0x73, 0x20,
  0x61, 0x6e, 0x6e, 0x6f, 0x75, 0x6e, 0x63, 0x65, 0x64, 0x3a, 0x20, 0x6e,
  0x6f, 0x20, 0x72, 0x65, 0x61, 0x64, 0x65, 0x72, 0x20, 0x65, 0x6e, 0x74,
  0x65, 0x72, 0x73, 0x20, 0x62, 0x65, 0x66, 0x6f, 0x72, 0x65, 0x20, 0x69,
  0x74, 0x3b, 0x20, 0x74, 0x68, 0x65, 0x20, 0x63, 0x6f, 0x75, 0x6e, 0x74,
  0x73, 0x20, 0x61, 0x72, 0x65, 0x20, 0x7b, 0x72, 0x65, 0x61, 0x64, 0x41,
  0x63, 0x71, 0x75, 0x69, 0x72, 0x65, 0x73, 0x7d, 0x20, 0x61, 0x6e, 0x64,
  0x20, 0x7b, 0x72, 0x65, 0x61, 0x64, 0x52, 0x65, 0x6c, 0x65, 0x61, 0x73,
  0x65, 0x73, 0x7d, 0x2c, 0x20, 0x73, 0x6f, 0x20, 0x69, 0x74, 0x20, 0x77,
  0x61, 0x69, 0x74, 0x73, 0x20, 0x66, 0x6f, 0x72, 0x20, 0x74, 0x68, 0x65,
  0x20, 0x72, 0x65, 0x61, 0x64, 0x65, 0x72, 0x73, 0x77, 0x6c, 0x6f, 0x63,
  0x6b, 0x3a, 0x20, 0x70, 0x6f, 0x6c, 0x6c, 0x20, 0x77, 0x69, 0x74, 0x68,
  0x20, 0x72, 0x65, 0x61, 0x64, 0x65, 0x72, 0x73, 0x20, 0x69, 0x6e, 0x73,
  0x69, 0x64, 0x65, 0x30, 0x20, 0x73, 0x65, 0x63, 0x74, 0x69, 0x6f, 0x6e,
  0x20, 0x6d, 0x6f, 0x76, 0x65, 0x64, 0x7b, 0x77, 0x68, 0x6f, 0x7d, 0x20,
  0x70, 0x6f, 0x6c, 0x6c, 0x73, 0x20, 0x61, 0x6e, 0x64, 0x20, 0x77, 0x61,
  0x69, 0x74, 0x73, 0x3a, 0x20, 0x74, 0x68, 0x65, 0x20, 0x63, 0x6f, 0x75,
  0x6e, 0x74, 0x73, 0x20, 0x61, 0x72, 0x65, 0x20, 0x7b, 0x72, 0x65, 0x61,
  0x64, 0x41, 0x63, 0x71, 0x75, 0x69, 0x72, 0x65, 0x73, 0x7d, 0x20, 0x61,
  0x6e, 0x64, 0x20, 0x7b, 0x72, 0x65, 0x61, 0x64, 0x52, 0x65, 0x6c, 0x65,
  0x61, 0x73, 0x65, 0x73, 0x7d, 0x2c, 0x20, 0x73, 0x6f, 0x20, 0x74, 0x68,
  0x65, 0x72, 0x65, 0x20, 0x61, 0x72, 0x65, 0x20, 0x72, 0x65, 0x61, 0x64,
  0x65, 0x72, 0x73, 0x20, 0x69, 0x6e, 0x73, 0x69, 0x64, 0x65, 0x77, 0x6c,
  0x6f, 0x63, 0x6b, 0x3a, 0x20, 0x65, 0x6e, 0x74, 0x65, 0x72, 0x65, 0x64,
  0x20, 0x61, 0x66, 0x74, 0x65, 0x72, 0x20, 0x74, 0x68, 0x65, 0x20, 0x72,
  0x65, 0x61, 0x64, 0x65, 0x72, 0x73, 0x7b, 0x77, 0x68, 0x6f, 0x7d, 0x20,
  0x66, 0x69, 0x6e, 0x64, 0x73, 0x20, 0x74, 0x68, 0x65, 0x20, 0x63, 0x6f,
  0x75, 0x6e, 0x74, 0x73, 0x20, 0x65, 0x71, 0x75, 0x61, 0x6c, 0x2c, 0x20,
  0x7b, 0x72, 0x65, 0x61, 0x64, 0x41, 0x63, 0x71, 0x75, 0x69, 0x72, 0x65,
  0x73, 0x7d, 0x20, 0x61, 0x6e, 0x64, 0x20, 0x7b, 0x72, 0x65, 0x61, 0x64,
  0x52, 0x65, 0x6c, 0x65, 0x61, 0x73, 0x65, 0x73, 0x7d, 0x3a, 0x20, 0x6e,
  0x6f, 0x20, 0x72, 0x65, 0x61, 0x64, 0x65, 0x72, 0x20, 0x69, 0x73, 0x20,
  0x69, 0x6e, 0x73, 0x69, 0x64, 0x65, 0x2c, 0x20, 0x61, 0x6e, 0x64, 0x20,
  0x69, 0x74, 0x20, 0x77, 0x72, 0x69, 0x74, 0x65, 0x73, 0x00, 0x00, 0x00,
  0x00, 0x00, 0x00, 0x00, 0x61, 0x63, 0x63, 0x65, 0x70, 0x74, 0x65, 0x64,
  0x4f, 0x74, 0x68, 0x65, 0x72, 0x57, 0x6f, 0x72, 0x64, 0x3a, 0x20, 0x74,
  0x68, 0x65, 0x20, 0x6c, 0x6f, 0x63, 0x6b, 0x27, 0x73, 0x20, 0x73, 0x74,
  0x65, 0x70, 0x20, 0x69, 0x73, 0x20, 0x6f, 0x6e, 0x20, 0x61, 0x6e, 0x6f,
  0x74, 0x68, 0x65, 0x72, 0x20, 0x77, 0x6f, 0x72, 0x64, 0x46, 0x6f, 0x75,
  0x6e, 0x64, 0x4f, 0x74, 0x68, 0x65, 0x72, 0x3a, 0x20, 0x74, 0x68, 0x65,
  0x20, 0x6c, 0x6f, 0x63, 0x6b, 0x20, 0x68, 0x61, 0x73, 0x20, 0x61, 0x6e,
  0x6f, 0x74, 0x68, 0x65, 0x72, 0x20, 0x76, 0x61, 0x6c, 0x75, 0x65, 0x20,
  0x69, 0x6e, 0x20, 0x74, 0x68, 0x65, 0x20, 0x77, 0x6f, 0x72, 0x64, 0x4c,
  0x65, 0x66, 0x74, 0x4f, 0x74, 0x68, 0x65, 0x72, 0x3a, 0x20, 0x74, 0x68,
  0x65, 0x20, 0x6c, 0x6f, 0x63, 0x6b, 0x20, 0x6c, 0x65, 0x61, 0x76, 0x65,
  0x73, 0x20, 0x61, 0x6e, 0x6f, 0x74, 0x68, 0x65, 0x72, 0x20, 0x76, 0x61,
  0x6c, 0x75, 0x65, 0x20, 0x69, 0x6e, 0x20, 0x74, 0x68, 0x65, 0x20, 0x77,
  0x6f, 0x72, 0x64, 0x57, 0x72, 0x6f, 0x74, 0x65, 0x4f, 0x74, 0x68, 0x65,
  0x72, 0x3a, 0x20, 0x74, 0x68, 0x65, 0x20, 0x6c, 0x6f, 0x63, 0x6b, 0x27,
  0x73, 0x20, 0x63, 0x6f, 0x6d, 0x70, 0x61, 0x72, 0x65, 0x2d, 0x61, 0x6e,
  0x64, 0x2d, 0x73, 0x77, 0x61, 0x70, 0x20, 0x65, 0x6e, 0x64, 0x73, 0x20,
  0x6f, 0x74, 0x68, 0x65, 0x72, 0x77, 0x69, 0x73, 0x65, 0x43, 0x6f, 0x75,
  0x6e, 0x74, 0x4e, 0x6f, 0x74, 0x41, 0x62, 0x6f, 0x76, 0x65, 0x3a, 0x20,
  0x74, 0x68, 0x65, 0x20, 0x73, 0x65, 0x63, 0x74, 0x69, 0x6f, 0x6e, 0x27,
  0x73, 0x20, 0x63, 0x6f, 0x75, 0x6e, 0x74, 0x20, 0x69, 0x73, 0x20, 0x6e,
  0x6f, 0x74, 0x20, 0x61, 0x62, 0x6f, 0x76, 0x65, 0x20, 0x74, 0x68, 0x6f,
  0x73, 0x65, 0x20, 0x62, 0x65, 0x66, 0x6f, 0x72, 0x65, 0x20, 0x69, 0x74,
  0x4f, 0x74, 0x68, 0x65, 0x72, 0x4f, 0x75, 0x74, 0x63, 0x6f, 0x6d, 0x65,
  0x3a, 0x20, 0x73, 0x6f, 0x6d, 0x65, 0x74, 0x68, 0x69, 0x6e, 0x67, 0x20,
  0x65, 0x6c, 0x73, 0x65, 0x20, 0x63, 0x6f, 0x6d, 0x65, 0x73, 0x20, 0x6f,
  0x66, 0x20, 0x74, 0x68, 0x65, 0x20, 0x6c, 0x6f, 0x63, 0x6b, 0x27, 0x73,
  0x20, 0x73, 0x74, 0x65, 0x70, 0x4e, 0x6f, 0x48, 0x65, 0x61, 0x64, 0x65,
  0x72, 0x3a, 0x20, 0x74, 0x68, 0x65, 0x72, 0x65, 0x20, 0x69, 0x73, 0x20,
  0x6e, 0x6f, 0x20, 0x68, 0x65, 0x61, 0x64, 0x65, 0x72, 0x42, 0x61, 0x64,
  0x48, 0x65, 0x61, 0x64, 0x65, 0x72, 0x3a, 0x20, 0x6e, 0x6f, 0x74, 0x20,
  0x61, 0x20, 0x68, 0x65, 0x61, 0x64, 0x65, 0x72, 0x42, 0x61, 0x64, 0x54,
  0x68, 0x72, 0x65, 0x61, 0x64, 0x73, 0x3a, 0x20, 0x6e, 0x6f, 0x74, 0x20,
  0x61, 0x20, 0x6e, 0x75, 0x6d, 0x62, 0x65, 0x72, 0x20, 0x6f, 0x66, 0x20,
  0x74, 0x68, 0x72, 0x65, 0x61, 0x64, 0x73, 0x57, 0x6f, 0x72, 0x64, 0x73,
  0x54, 0x6f, 0x6f, 0x4e, 0x61, 0x72, 0x72, 0x6f, 0x77, 0x3a, 0x20, 0x77,
  0x6f, 0x72, 0x64, 0x73, 0x20, 0x74, 0x6f, 0x6f, 0x20, 0x6e, 0x61, 0x72,
  0x72, 0x6f, 0x77, 0x20, 0x66, 0x6f, 0x72, 0x20, 0x74, 0x68, 0x65, 0x20,
  0x74, 0x68, 0x72, 0x65, 0x61, 0x64, 0x73, 0x42, 0x61, 0x64, 0x4c, 0x69,
  0x6e, 0x65, 0x3a, 0x20, 0x6e, 0x6f, 0x74, 0x20, 0x61, 0x20, 0x6d, 0x6f,
  0x76, 0x65, 0x6e, 0x6f, 0x20, 0x66, 0x61, 0x75, 0x6c, 0x74, 0x20, 0x68,
  0x61, 0x73, 0x20, 0x74, 0x68, 0x69, 0x73, 0x20, 0x6e, 0x75, 0x6d, 0x62,
  0x65, 0x72, 0x4e, 0x6f, 0x53, 0x75, 0x63, 0x68, 0x54, 0x68, 0x72, 0x65,
  0x61, 0x64, 0x4e, 0x6f, 0x53, 0x75, 0x63, 0x68, 0x54, 0x68, 0x72, 0x65,
  0x61, 0x64, 0x3a, 0x20, 0x6e, 0x6f, 0x20, 0x73, 0x75, 0x63, 0x68, 0x20,
  0x74, 0x68, 0x72, 0x65, 0x61, 0x64, 0x57, 0x72, 0x6f, 0x6e, 0x67, 0x4c,
  0x6f, 0x63, 0x6b, 0x57, 0x72, 0x6f, 0x6e, 0x67, 0x4c, 0x6f, 0x63, 0x6b,
  0x3a, 0x20, 0x74, 0x68, 0x65, 0x20, 0x6c, 0x6f, 0x63, 0x6b, 0x20, 0x68,
  0x61, 0x73, 0x20, 0x6e, 0x6f, 0x20, 0x73, 0x75, 0x63, 0x68, 0x20, 0x6f,
  0x70, 0x65, 0x72, 0x61, 0x74, 0x69, 0x6f, 0x6e, 0x20, 0x6f, 0x72, 0x20,
  0x73, 0x74, 0x65, 0x70, 0x42, 0x75, 0x73, 0x79, 0x42, 0x75, 0x73, 0x79,
  0x3a, 0x20, 0x74, 0x68, 0x65, 0x20, 0x74, 0x68, 0x72, 0x65, 0x61, 0x64,
  0x20, 0x68, 0x61, 0x73, 0x20, 0x61, 0x20, 0x70, 0x65, 0x6e, 0x64, 0x69,
  0x6e, 0x67, 0x20, 0x63, 0x61, 0x6c, 0x6c, 0x4e, 0x6f, 0x74, 0x48, 0x6f,
  0x6c, 0x64, 0x65, 0x72, 0x4e, 0x6f, 0x74, 0x48, 0x6f, 0x6c, 0x64, 0x65,
  0x72, 0x3a, 0x20, 0x74, 0x68, 0x65, 0x20, 0x74, 0x68, 0x72, 0x65, 0x61,
  0x64, 0x20, 0x64, 0x6f, 0x65, 0x73, 0x20, 0x6e, 0x6f, 0x74, 0x20, 0x68,
  0x6f, 0x6c, 0x64, 0x20, 0x74, 0x68, 0x65, 0x20, 0x6c, 0x6f, 0x63, 0x6b,
  0x20, 0x69, 0x6e, 0x20, 0x74, 0x68, 0x61, 0x74, 0x20, 0x6d, 0x6f, 0x64,
  0x65, 0x41, 0x6c, 0x72, 0x65, 0x61, 0x64, 0x79, 0x48, 0x6f, 0x6c, 0x64,
  0x73, 0x41, 0x6c, 0x72, 0x65, 0x61, 0x64, 0x79, 0x48, 0x6f, 0x6c, 0x64,
  0x73, 0x3a, 0x20, 0x74, 0x68, 0x65, 0x20, 0x74, 0x68, 0x72, 0x65, 0x61,
  0x64, 0x20, 0x68, 0x6f, 0x6c, 0x64, 0x73, 0x20, 0x74, 0x68, 0x65, 0x20,
  0x6c, 0x6f, 0x63, 0x6b, 0x20, 0x61, 0x6c, 0x72, 0x65, 0x61, 0x64, 0x79,
  0x4e, 0x6f, 0x43, 0x61, 0x6c, 0x6c, 0x4e, 0x6f, 0x43, 0x61, 0x6c, 0x6c,
  0x3a, 0x20, 0x74, 0x68, 0x65, 0x20, 0x74, 0x68, 0x72, 0x65, 0x61, 0x64,
  0x20, 0x68, 0x61, 0x73, 0x20, 0x6e, 0x6f, 0x20, 0x70, 0x65, 0x6e, 0x64,
  0x69, 0x6e, 0x67, 0x20, 0x63, 0x61, 0x6c, 0x6c, 0x57, 0x72, 0x6f, 0x6e,
  0x67, 0x53, 0x74, 0x65, 0x70, 0x57, 0x72, 0x6f, 0x6e, 0x67, 0x53, 0x74,
  0x65, 0x70, 0x3a, 0x20, 0x74, 0x68, 0x65, 0x20, 0x74, 0x68, 0x72, 0x65,
  0x61, 0x64, 0x27, 0x73, 0x20, 0x6e, 0x65, 0x78, 0x74, 0x20, 0x73, 0x74,
  0x65, 0x70, 0x20, 0x69, 0x73, 0x20, 0x61, 0x20, 0x64, 0x69, 0x66, 0x66,
  0x65, 0x72, 0x65, 0x6e, 0x74, 0x20, 0x6f, 0x6e, 0x65, 0x6c, 0x6f, 0x63,
  0x6b, 0x74, 0x68, 0x72, 0x65, 0x61, 0x64, 0x73, 0x74, 0x69, 0x63, 0x6b,
  0x65, 0x74, 0x72, 0x77, 0x2d, 0x73, 0x69, 0x6d, 0x70, 0x6c, 0x65, 0x72,
  0x77, 0x2d, 0x66, 0x69, 0x66, 0x6f, 0x62, 0x69, 0x74, 0x73, 0x77, 0x75,
  0x6e, 0x6c, 0x6f, 0x63, 0x6b, 0x0a, 0x64, 0x6f, 0x77, 0x6e, 0x67, 0x72,
  0x61, 0x64, 0x65, 0x0a, 0x72, 0x65, 0x61, 0x64, 0x73, 0x65, 0x63, 0x74,
  0x69, 0x6f, 0x6e, 0x77, 0x72, 0x69, 0x74, 0x65, 0x73, 0x77, 0x61, 0x70,
  0x63, 0x61, 0x73, 0x61, 0x64, 0x64, 0x61, 0x63, 0x71, 0x75, 0x69, 0x72,
  0x65, 0x72, 0x65, 0x6c, 0x65, 0x61, 0x73, 0x65, 0x72, 0x6c, 0x6f, 0x63,
  0x6b, 0x72, 0x75, 0x6e, 0x6c, 0x6f, 0x63, 0x6b, 0x77, 0x6c, 0x6f, 0x63,
  0x6b, 0x77, 0x75, 0x6e, 0x6c, 0x6f, 0x63, 0x6b, 0x64, 0x6f, 0x77, 0x6e,
  0x67, 0x72, 0x61, 0x64, 0x65, 0x66, 0x61, 0x75, 0x6c, 0x74, 0x4e, 0x6f,
  0x48, 0x65, 0x61, 0x64, 0x65, 0x72, 0x42, 0x61, 0x64, 0x48, 0x65, 0x61,
  0x64, 0x65, 0x72, 0x42, 0x61, 0x64, 0x54, 0x68, 0x72, 0x65, 0x61, 0x64,
  0x73, 0x42, 0x61, 0x64, 0x4c, 0x69, 0x6e, 0x65, 0x54, 0x6f, 0x6f, 0x4d,
  0x61, 0x6e, 0x79, 0x4d, 0x6f, 0x76, 0x65, 0x73, 0x57, 0x6f, 0x72, 0x64,
  0x73, 0x54, 0x6f, 0x6f, 0x4e, 0x61, 0x72, 0x72, 0x6f, 0x77, 0x66, 0x61,
  0x75, 0x6c, 0x74, 0x20, 0x54, 0x6f, 0x6f, 0x4c, 0x6f, 0x6e, 0x67, 0x20,
  0x6c, 0x69, 0x6e, 0x65, 0x20, 0x20, 0x30, 0x30, 0x30, 0x31, 0x30, 0x32,
  0x30, 0x33, 0x30, 0x34, 0x30, 0x35, 0x30, 0x36, 0x30, 0x37, 0x30, 0x38,
  0x30, 0x39, 0x31, 0x30, 0x31, 0x31, 0x31, 0x32, 0x31, 0x33, 0x31, 0x34,
  0x31, 0x35, 0x31, 0x36, 0x31, 0x37, 0x31, 0x38, 0x31, 0x39, 0x32, 0x30,
  0x32, 0x31, 0x32, 0x32, 0x32, 0x33, 0x32, 0x34, 0x32, 0x35, 0x32, 0x36,
  0x32, 0x37, 0x32, 0x38, 0x32, 0x39, 0x33, 0x30, 0x33, 0x31, 0x33, 0x32,
  0x33, 0x33, 0x33, 0x34, 0x33, 0x35, 0x33, 0x36, 0x33, 0x37, 0x33, 0x38,
  0x33, 0x39, 0x34, 0x30, 0x34, 0x31, 0x34, 0x32, 0x34, 0x33, 0x34, 0x34,
  0x34, 0x35, 0x34, 0x36, 0x34, 0x37, 0x34, 0x38, 0x34, 0x39, 0x35, 0x30,
  0x35, 0x31, 0x35, 0x32, 0x35, 0x33, 0x35, 0x34, 0x35, 0x35, 0x35, 0x36,
  0x35, 0x37, 0x35, 0x38, 0x35, 0x39, 0x36, 0x30, 0x36, 0x31, 0x36, 0x32,
  0x36, 0x33, 0x36, 0x34, 0x36, 0x35, 0x36, 0x36, 0x36, 0x37, 0x36, 0x38,
  0x36, 0x39, 0x37, 0x30, 0x37, 0x31, 0x37, 0x32, 0x37, 0x33, 0x37, 0x34,
  0x37, 0x35, 0x37, 0x36, 0x37, 0x37, 0x37, 0x38, 0x37, 0x39, 0x38, 0x30,
  0x38, 0x31, 0x38, 0x32, 0x38, 0x33, 0x38, 0x34, 0x38, 0x35, 0x38, 0x36,
  0x38, 0x37, 0x38, 0x38, 0x38, 0x39, 0x39, 0x30, 0x39, 0x31, 0x39, 0x32,
  0x39, 0x33, 0x39, 0x34, 0x39, 0x35, 0x39, 0x36, 0x39, 0x37, 0x39, 0x38,
  0x39, 0x39, 0x68, 0x6f, 0x6c, 0x64, 0x20, 0x72, 0x65, 0x61, 0x64, 0x20,
  0x20, 0x20, 0x20, 0x20, 0x20, 0x20, 0x20, 0x20, 0x20, 0x20, 0x20, 0x20,
  0x20, 0x20, 0x20, 0x73, 0x65, 0x63, 0x74, 0x69, 0x6f, 0x6e, 0x20, 0x20,
  0x20, 0x20, 0x20, 0x20, 0x20, 0x20, 0x20, 0x20, 0x20, 0x20, 0x20, 0x20,
  0x20, 0x20, 0x77, 0x72, 0x69, 0x74, 0x65, 0x20, 0x20, 0x20, 0x20, 0x20,
  0x20, 0x20, 0x20, 0x20, 0x20, 0x20, 0x20, 0x20, 0x20, 0x20, 0x20, 0x73,
  0x77, 0x61, 0x70, 0x20, 0x20, 0x20, 0x20, 0x20, 0x20, 0x20, 0x20, 0x20,
  0x20, 0x20, 0x20, 0x20, 0x20, 0x20, 0x20, 0x63, 0x61, 0x73, 0x20, 0x20,
  0x20, 0x20, 0x20, 0x20, 0x20, 0x20, 0x20, 0x20, 0x20, 0x20, 0x20, 0x20,
  0x20, 0x20, 0x61, 0x64, 0x64, 0x20, 0x20, 0x20, 0x20, 0x20, 0x20, 0x20,
  0x20, 0x20, 0x20, 0x20, 0x20, 0x20, 0x20, 0x20, 0x20, 0x61, 0x63, 0x71,
  0x75, 0x69, 0x72, 0x65, 0x20, 0x20, 0x20, 0x20, 0x20, 0x20, 0x20, 0x20,
  0x20, 0x20, 0x20, 0x20, 0x20, 0x20, 0x20, 0x20, 0x72, 0x65, 0x6c, 0x65,
  0x61, 0x73, 0x65, 0x20, 0x20, 0x20, 0x20, 0x20, 0x20, 0x20, 0x20, 0x20,
  0x20, 0x20, 0x20, 0x20, 0x20, 0x20, 0x20, 0x72, 0x6c, 0x6f, 0x63, 0x6b,
  0x20, 0x20, 0x20, 0x20, 0x20, 0x20, 0x20, 0x20, 0x20, 0x20, 0x20, 0x20,
  0x20, 0x20, 0x20, 0x20, 0x72, 0x75, 0x6e, 0x6c, 0x6f, 0x63, 0x6b, 0x20,
  0x20, 0x20, 0x20, 0x20, 0x20, 0x20, 0x20, 0x20, 0x20, 0x20, 0x20, 0x20,
  0x20, 0x20, 0x20, 0x77, 0x6c, 0x6f, 0x63, 0x6b, 0x20, 0x20, 0x20, 0x20,
  0x20, 0x20, 0x20, 0x20, 0x20, 0x20, 0x20, 0x20, 0x20, 0x20, 0x20, 0x20,
  0x77, 0x75, 0x6e, 0x6c, 0x6f, 0x63, 0x6b, 0x20, 0x20, 0x20, 0x20, 0x20,
  0x20, 0x20, 0x20, 0x20, 0x20, 0x20, 0x20, 0x20, 0x20, 0x20, 0x20, 0x64,
  0x6f, 0x77, 0x6e, 0x67, 0x72, 0x61, 0x64, 0x65, 0x20, 0x20, 0x20, 0x20,
  0x20, 0x20, 0x20, 0x20, 0x20, 0x20, 0x20, 0x20, 0x20, 0x20, 0x20, 0x20,
  0x63, 0x61, 0x6c, 0x6c, 0x65, 0x64, 0x20, 0x20, 0x20, 0x20, 0x20, 0x20,
  0x20, 0x20, 0x20, 0x20, 0x20, 0x20, 0x20, 0x20, 0x20, 0x20, 0x6d, 0x6f,
  0x76, 0x65, 0x64, 0x20, 0x20, 0x20, 0x20, 0x20, 0x20, 0x20, 0x20, 0x20,
  0x20, 0x20, 0x20, 0x20, 0x20, 0x20, 0x20, 0x6d, 0x6f, 0x76, 0x65, 0x64,
  0x77, 0x61, 0x69, 0x74, 0x73, 0x20, 0x20, 0x20, 0x20, 0x20, 0x20, 0x20,
  0x20, 0x20, 0x20, 0x20, 0x20, 0x20, 0x20, 0x20, 0x20, 0x77, 0x61, 0x69,
  0x74, 0x73, 0x65, 0x6e, 0x74, 0x65, 0x72, 0x65, 0x64, 0x20, 0x20, 0x20,
  0x20, 0x20, 0x20, 0x20, 0x20, 0x20, 0x20, 0x20, 0x20, 0x20, 0x20, 0x20,
  0x20, 0x65, 0x6e, 0x74, 0x65, 0x72, 0x65, 0x64, 0x6c, 0x65, 0x66, 0x74,
  0x20, 0x20, 0x20, 0x20, 0x20, 0x20, 0x20, 0x20, 0x20, 0x20, 0x20, 0x20,
  0x20, 0x20, 0x20, 0x20, 0x6c, 0x65, 0x66, 0x74, 0x20, 0x71, 0x75, 0x65,
  0x75, 0x65, 0x20, 0x20, 0x71, 0x75, 0x65, 0x75, 0x65, 0x20, 0x2d, 0x0a,
  0x72, 0x65, 0x66, 0x75, 0x73, 0x65, 0x64, 0x20, 0x6e, 0x65, 0x78, 0x74,
  0x20, 0x00, 0x00, 0x00, 0x01, 0x00, 0x02, 0x00, 0x03, 0x00, 0x04, 0x00,
  0x05, 0x00, 0x06, 0x01, 0x00, 0x01, 0x01, 0x01, 0x02, 0x01, 0x03, 0x01,
  0x04, 0x01, 0x05, 0x6e, 0x65, 0x78, 0x74, 0x5f, 0x74, 0x69, 0x63, 0x6b,
  0x65, 0x74, 0x6e, 0x6f, 0x77, 0x5f, 0x73, 0x65, 0x72, 0x76, 0x69, 0x6e,
  0x67, 0x74, 0x61, 0x69, 0x6c, 0x6e, 0x65, 0x78, 0x74, 0x6c, 0x6f, 0x63,
  0x6b, 0x65, 0x64, 0x66, 0x6f, 0x75, 0x6e, 0x64, 0x64, 0x6f, 0x6e, 0x65,
  0x66, 0x61, 0x69, 0x6c, 0x65, 0x64, 0x00, 0x00, 0x00, 0x00, 0x00, 0x00,
  0x0c, 0x00, 0x00, 0x00, 0x00, 0x00, 0x00, 0x00, 0x09, 0x00, 0x00, 0x00,
  0x00, 0x00, 0x00, 0x00, 0x04, 0x00, 0x00, 0x00, 0x00, 0x00, 0x00, 0x00,
  0x09, 0x00, 0x00, 0x00, 0x00, 0x00, 0x00, 0x00, 0x0c, 0x00, 0x00, 0x00,
  0x00, 0x00, 0x00, 0x00, 0x06, 0x00, 0x00, 0x00, 0x00, 0x00, 0x00, 0x00,
  0x09, 0x00, 0x00, 0x00, 0x00, 0x00, 0x00, 0x00, 0xfe, 0x21, 0x10, 0x00,
  0x00, 0x00, 0x00, 0x00, 0x26, 0x22, 0x10, 0x00, 0x00, 0x00, 0x00, 0x00,
  0x60, 0x22, 0x10, 0x00, 0x00, 0x00, 0x00, 0x00, 0x87, 0x22, 0x10, 0x00,
  0x00, 0x00, 0x00, 0x00, 0xc9, 0x22, 0x10, 0x00, 0x00, 0x00, 0x00, 0x00,
  0x04, 0x23, 0x10, 0x00, 0x00, 0x00, 0x00, 0x00, 0x30, 0x23, 0x10, 0x00,
  0x00, 0x00, 0x00, 0x00, 0x04, 0x00, 0x00, 0x00, 0x00, 0x00, 0x00, 0x00,
  0x05, 0x00, 0x00, 0x00, 0x00, 0x00, 0x00, 0x00, 0x04, 0x00, 0x00, 0x00,
  0x00, 0x00, 0x00, 0x00, 0x03, 0x00, 0x00, 0x00, 0x00, 0x00, 0x00, 0x00,
  0x03, 0x00, 0x00, 0x00, 0x00, 0x00, 0x00, 0x00, 0x07, 0x00, 0x00, 0x00,
  0x00, 0x00, 0x00, 0x00, 0xa4, 0x23, 0x10, 0x00, 0x00, 0x00, 0x00, 0x00,
  0xaf, 0x23, 0x10, 0x00, 0x00, 0x00, 0x00, 0x00, 0xb4, 0x23, 0x10, 0x00,
  0x00, 0x00, 0x00, 0x00, 0xb8, 0x23, 0x10, 0x00, 0x00, 0x00, 0x00, 0x00,
  0xbb, 0x23, 0x10, 0x00, 0x00, 0x00, 0x00, 0x00, 0xa8, 0x23, 0x10, 0x00,
  0x00, 0x00, 0x00, 0x00, 0x0c, 0x00, 0x00, 0x00, 0x00, 0x00, 0x00, 0x00,
  0x0c, 0x00, 0x00, 0x00, 0x00, 0x00, 0x00, 0x00, 0x07, 0x00, 0x00, 0x00,
  0x00, 0x00, 0x00, 0x00, 0x06, 0x00, 0x00, 0x00, 0x00, 0x00, 0x00, 0x00,
  0x0c, 0x00, 0x00, 0x00, 0x00, 0x00, 0x00, 0x00, 0x00, 0x01, 0x01, 0x00,
  0x01, 0x01, 0x00, 0x00, 0x00, 0x00, 0x00, 0x00, 0x00, 0x00, 0x00, 0x00,
  0x00, 0x00, 0x00, 0x00, 0x00, 0x00, 0x00, 0x00, 0x00, 0x04, 0x00, 0x00,
  0x00, 0x01, 0x00, 0x00, 0x00, 0x00, 0x00, 0x00, 0x00, 0x00, 0x00, 0x00,
  0x00, 0x00, 0x00, 0x00, 0x00, 0x00, 0x00, 0x00, 0x00, 0x00, 0x00, 0x00,
  0x00, 0x00, 0x01, 0x01, 0x01, 0x01, 0x01, 0x00, 0x01, 0x01, 0x01, 0x01,
  0x00, 0x00, 0x00, 0x00, 0x00, 0x00, 0x00, 0x00, 0x00, 0x00, 0x00, 0x00,
  0x00, 0x00, 0x01, 0x02, 0x01, 0x01, 0x00, 0x00, 0x00, 0x03, 0x00, 0x01,
  0x00, 0x00, 0x00, 0x00, 0x00, 0x00, 0x00, 0x00, 0x00, 0x01, 0x01, 0x01,
  0x01, 0x01, 0x01, 0x01, 0x01, 0x01, 0x01, 0x01, 0x01, 0x01, 0x01, 0x01,
  0x01, 0x00, 0x01, 0x01, 0x01, 0x00, 0x01, 0x01, 0x00, 0x05, 0x05, 0x05,
  0x05, 0x05, 0x05, 0x05, 0x05, 0x05, 0x05, 0x05, 0x05, 0x05, 0x05, 0x05,
  0x05, 0x00, 0x05, 0x05, 0x05, 0x00, 0x05, 0x05, 0x08, 0x00, 0x00, 0x00,
  0x00, 0x00, 0x00, 0x00, 0x1c, 0x00, 0x00, 0x00, 0x00, 0x00, 0x00, 0x00,
  0x31, 0x00, 0x00, 0x00, 0x00, 0x00, 0x00, 0x00, 0x23, 0x00, 0x00, 0x00,
  0x00, 0x00, 0x00, 0x00, 0x39, 0x00, 0x00, 0x00, 0x00, 0x00, 0x00, 0x00,
  0x2f, 0x00, 0x00, 0x00, 0x00, 0x00, 0x00, 0x00, 0x26, 0x00, 0x00, 0x00,
  0x00, 0x00, 0x00, 0x00, 0x34, 0x00, 0x00, 0x00, 0x00, 0x00, 0x00, 0x00,
  0x2d, 0x00, 0x00, 0x00, 0x00, 0x00, 0x00, 0x00, 0x32, 0x00, 0x00, 0x00,
  0x00, 0x00, 0x00, 0x00, 0x34, 0x00, 0x00, 0x00, 0x00, 0x00, 0x00, 0x00,
  0x36, 0x00, 0x00, 0x00, 0x00, 0x00, 0x00, 0x00, 0x3f, 0x00, 0x00, 0x00,
  0x00, 0x00, 0x00, 0x00, 0x35, 0x00, 0x00, 0x00, 0x00, 0x00, 0x00, 0x00,
  0x18, 0x00, 0x00, 0x00, 0x00, 0x00, 0x00, 0x00, 0x18, 0x00, 0x00, 0x00,
  0x00, 0x00, 0x00, 0x00, 0x1c, 0x00, 0x00, 0x00, 0x00, 0x00, 0x00, 0x00,
  0x17, 0x00, 0x00, 0x00, 0x00, 0x00, 0x00, 0x00, 0x23, 0x00, 0x00, 0x00,
  0x00, 0x00, 0x00, 0x00, 0x30, 0x00, 0x00, 0x00, 0x00, 0x00, 0x00, 0x00,
  0x13, 0x00, 0x00, 0x00, 0x00, 0x00, 0x00, 0x00, 0x08, 0x20, 0x10, 0x00,
  0x00, 0x00, 0x00, 0x00, 0x0a, 0x22, 0x10, 0x00, 0x00, 0x00, 0x00, 0x00,
  0x2f, 0x22, 0x10, 0x00, 0x00, 0x00, 0x00, 0x00, 0x64, 0x22, 0x10, 0x00,
  0x00, 0x00, 0x00, 0x00, 0x90, 0x22, 0x10, 0x00, 0x00, 0x00, 0x00, 0x00,
  0xd5, 0x22, 0x10, 0x00, 0x00, 0x00, 0x00, 0x00, 0x0a, 0x23, 0x10, 0x00,
  0x00, 0x00, 0x00, 0x00, 0x39, 0x23, 0x10, 0x00, 0x00, 0x00, 0x00, 0x00,
  0x10, 0x20, 0x10, 0x00, 0x00, 0x00, 0x00, 0x00, 0x3d, 0x20, 0x10, 0x00,
  0x00, 0x00, 0x00, 0x00, 0x6f, 0x20, 0x10, 0x00, 0x00, 0x00, 0x00, 0x00,
  0xa3, 0x20, 0x10, 0x00, 0x00, 0x00, 0x00, 0x00, 0xd9, 0x20, 0x10, 0x00,
  0x00, 0x00, 0x00, 0x00, 0x18, 0x21, 0x10, 0x00, 0x00, 0x00, 0x00, 0x00,
  0xe6, 0x21, 0x10, 0x00, 0x00, 0x00, 0x00, 0x00, 0xe6, 0x21, 0x10, 0x00,
  0x00, 0x00, 0x00, 0x00, 0x4d, 0x21, 0x10, 0x00, 0x00, 0x00, 0x00, 0x00,
  0x69, 0x21, 0x10, 0x00, 0x00, 0x00, 0x00, 0x00, 0x80, 0x21, 0x10, 0x00,
  0x00, 0x00, 0x00, 0x00, 0xa3, 0x21, 0x10, 0x00, 0x00, 0x00, 0x00, 0x00,
  0xd3, 0x21, 0x10, 0x00, 0x00, 0x00, 0x00, 0x00, 0x07, 0x00, 0x00, 0x00,
  0x00, 0x00, 0x00, 0x00, 0x10, 0x00, 0x00, 0x00, 0x00, 0x00, 0x00, 0x00,
  0x0c, 0x00, 0x00, 0x00, 0x00, 0x00, 0x00, 0x00, 0x0f, 0x00, 0x00, 0x00,
  0x00, 0x00, 0x00, 0x00, 0x00, 0x00, 0x10, 0x00, 0x00, 0x00, 0x00, 0x00,
  0x50, 0x04, 0x10, 0x00, 0x00, 0x00, 0x00, 0x00, 0xe8, 0x0e, 0x10, 0x00,
  0x00, 0x00, 0x00, 0x00, 0x18, 0x16, 0x10, 0x00, 0x00, 0x00, 0x00, 0x00,
  0x05, 0x00, 0x00, 0x00, 0x00, 0x00, 0x00, 0x00, 0x06, 0x00, 0x00, 0x00,
  0x00, 0x00, 0x00, 0x00, 0x05, 0x00, 0x00, 0x00, 0x00, 0x00, 0x00, 0x00,
  0x04, 0x00, 0x00, 0x00, 0x00, 0x00, 0x00, 0x00, 0x04, 0x00, 0x00, 0x00,
  0x00, 0x00, 0x00, 0x00, 0x08, 0x00, 0x00, 0x00, 0x00, 0x00, 0x00, 0x00,
  0x0f, 0x25, 0x10, 0x00, 0x00, 0x00, 0x00, 0x00, 0x3a, 0x25, 0x10, 0x00,
  0x00, 0x00, 0x00, 0x00, 0x4f, 0x25, 0x10, 0x00, 0x00, 0x00, 0x00, 0x00,
  0x63, 0x25, 0x10, 0x00, 0x00, 0x00, 0x00, 0x00, 0x76, 0x25, 0x10, 0x00,
  0x00, 0x00, 0x00, 0x00, 0x23, 0x25, 0x10, 0x00, 0x00, 0x00, 0x00, 0x00,
  0x08, 0x00, 0x00, 0x00, 0x00, 0x00, 0x00, 0x00, 0x08, 0x00, 0x00, 0x00,
  0x00, 0x00, 0x00, 0x00, 0x06, 0x00, 0x00, 0x00, 0x00, 0x00, 0x00, 0x00,
  0x08, 0x00, 0x00, 0x00, 0x00, 0x00, 0x00, 0x00, 0x06, 0x00, 0x00, 0x00,
  0x00, 0x00, 0x00, 0x00, 0x08, 0x00, 0x00, 0x00, 0x00, 0x00, 0x00, 0x00,
  0x0a, 0x00, 0x00, 0x00, 0x00, 0x00, 0x00, 0x00, 0x89, 0x25, 0x10, 0x00,
  0x00, 0x00, 0x00, 0x00, 0xa0, 0x25, 0x10, 0x00, 0x00, 0x00, 0x00, 0x00,
  0xb7, 0x25, 0x10, 0x00, 0x00, 0x00, 0x00, 0x00, 0xcc, 0x25, 0x10, 0x00,
  0x00, 0x00, 0x00, 0x00, 0xe3, 0x25, 0x10, 0x00, 0x00, 0x00, 0x00, 0x00,
  0xf8, 0x25, 0x10, 0x00, 0x00, 0x00, 0x00, 0x00, 0x0f, 0x26, 0x10, 0x00,
  0x00, 0x00, 0x00, 0x00, 0x07, 0x00, 0x00, 0x00, 0x00, 0x00, 0x00, 0x00,
  0x06, 0x00, 0x00, 0x00, 0x00, 0x00, 0x00, 0x00, 0x06, 0x00, 0x00, 0x00,
  0x00, 0x00, 0x00, 0x00, 0x08, 0x00, 0x00, 0x00, 0x00, 0x00, 0x00, 0x00,
  0x05, 0x00, 0x00, 0x00, 0x00, 0x00, 0x00, 0x00, 0x28, 0x26, 0x10, 0x00,
  0x00, 0x00, 0x00, 0x00, 0x3e, 0x26, 0x10, 0x00, 0x00, 0x00, 0x00, 0x00,
  0x58, 0x26, 0x10, 0x00, 0x00, 0x00, 0x00, 0x00, 0x72, 0x26, 0x10, 0x00,
  0x00, 0x00, 0x00, 0x00, 0x90, 0x26, 0x10, 0x00, 0x00, 0x00, 0x00, 0x00,
  0x04, 0x00, 0x00, 0x00, 0x00, 0x00, 0x00, 0x00, 0x04, 0x00, 0x00, 0x00,
  0x00, 0x00, 0x00, 0x00, 0x04, 0x00, 0x00, 0x00, 0x00, 0x00, 0x00, 0x00,
  0x05, 0x00, 0x00, 0x00, 0x00, 0x00, 0x00, 0x00, 0x06, 0x00, 0x00, 0x00,
  0x00, 0x00, 0x00, 0x00, 0x11, 0x00, 0x00, 0x00, 0x11, 0x00, 0x00, 0x00,
  0x11, 0x00, 0x00, 0x00, 0x12, 0x00, 0x00, 0x00, 0x11, 0x00, 0x00, 0x00,
  0x11, 0x00, 0x00, 0x00, 0x11, 0x00, 0x00, 0x00, 0x13, 0x00, 0x00, 0x00,

};

static void init_globals(w2c_lockreplay* instance) {
  instance->w2c_0x5F_stack_pointer = 1048576ull;
  instance->w2c_in_call = 0u;
  instance->w2c_0x5F_heap_base = 1059744ull;
}

static u32 w2c_lockreplay_0x5F_rattle_enter(w2c_lockreplay* instance);
static void w2c_lockreplay_0x5F_rattle_leave(w2c_lockreplay* instance);
static void w2c_lockreplay_0x5F_rattle_trap(w2c_lockreplay* instance);
static void w2c_lockreplay_0x5F_lshrti3(w2c_lockreplay* instance, u64 var_p0, u64 var_p1, u64 var_p2, u32 var_p3);
static void w2c_lockreplay_lk_lines0x3A0x3Aheader0x3A0x3Aheader_of(w2c_lockreplay* instance, u64 var_p0, u64 var_p1, u64 var_p2, u32 var_p3);
static u32 w2c_lockreplay_core0x3A0x3Acmp0x3A0x3Aslices0x3A0x3Agroups_equal0x3A0x3A0x3Ci80x2C310x27core0x3A0x3Acmp0x3A0x3Anumbers0x3A0x3AU8PartialEq0x7B0x7D0x3E(w2c_lockreplay* instance, u64 var_p0, u64 var_p1, u64 var_p2);
static void w2c_lockreplay_lk_lines0x3A0x3Avocabulary0x3A0x3Alock_named(w2c_lockreplay* instance, u64 var_p0, u64 var_p1, u64 var_p2);
static void w2c_lockreplay_lk_lines0x3A0x3Avocabulary0x3A0x3Anumber_of(w2c_lockreplay* instance, u64 var_p0, u64 var_p1, u64 var_p2, u32 var_p3, u32 var_p4);
static void w2c_lockreplay_lk_lines0x3A0x3Avocabulary0x3A0x3Awhole_number(w2c_lockreplay* instance, u64 var_p0, u64 var_p1, u64 var_p2);
static void w2c_lockreplay_lk_lines0x3A0x3Avocabulary0x3A0x3Amove_named(w2c_lockreplay* instance, u64 var_p0, u64 var_p1, u64 var_p2);
static void w2c_lockreplay_lk_locks0x3A0x3Amachine0x3A0x3AMachine0x3A0x3Aplay0x3A0x3A0x3C0x23e396818bfda329340x3E(w2c_lockreplay* instance, u64 var_p0, u64 var_p1, u32 var_p2, u32 var_p3, u32 var_p4);
static void w2c_lockreplay_lk_trace0x3A0x3Aline0x3A0x3Amove_with(w2c_lockreplay* instance, u64 var_p0, u64 var_p1, u32 var_p2, u64 var_p3);
static void w2c_lockreplay_lk_lines0x3A0x3Avocabulary0x3A0x3Aoutcome_named(w2c_lockreplay* instance, u64 var_p0, u64 var_p1, u64 var_p2);
static void w2c_lockreplay_lk_trace0x3A0x3Aline0x3A0x3Aresult_alone(w2c_lockreplay* instance, u64 var_p0, u32 var_p1, u64 var_p2, u64 var_p3);
static void w2c_lockreplay_lk_locks0x3A0x3Amachine0x3A0x3AMachine0x3A0x3Anext_step0x3A0x3A0x3C0x23e396818bfda329340x3E(w2c_lockreplay* instance, u64 var_p0, u64 var_p1, u32 var_p2);
static void w2c_lockreplay_lk_trace0x3A0x3Acompare0x3A0x3Acheck_line(w2c_lockreplay* instance, u64 var_p0, u64 var_p1, u64 var_p2, u64 var_p3);
static void w2c_lockreplay_lk_locks0x3A0x3Amachine0x3A0x3AMachine0x2BWordArray0x3A0x3Aeffect(w2c_lockreplay* instance, u64 var_p0, u64 var_p1, u32 var_p2);
static void w2c_lockreplay_lk_locks0x3A0x3Atracker0x3A0x3ATracker0x3A0x3Aplay0x3A0x3A0x3C0x23e396818bfda329340x3E(w2c_lockreplay* instance, u64 var_p0, u64 var_p1, u32 var_p2, u32 var_p3, u32 var_p4);
static void w2c_lockreplay_lk_trace0x3A0x3Aline0x3A0x3Aread_line(w2c_lockreplay* instance, u64 var_p0, u64 var_p1, u64 var_p2);
static u64 w2c_lockreplay_lt_fault_text_0(w2c_lockreplay* instance, u32 var_p0, u64 var_p1, u64 var_p2);
static u64 w2c_lockreplay_rattle0x3A0x3Aexport0x20lt_fault_text(w2c_lockreplay* instance, u32 var_p0, u64 var_p1, u64 var_p2);
static u32 w2c_lockreplay_lt_check_0(w2c_lockreplay* instance, u64 var_p0, u64 var_p1, u64 var_p2, u64 var_p3, u64 var_p4);
static u32 w2c_lockreplay_rattle0x3A0x3Aexport0x20lt_check(w2c_lockreplay* instance, u64 var_p0, u64 var_p1, u64 var_p2, u64 var_p3, u64 var_p4);

static u32 w2c_lockreplay_0x5F_rattle_enter(w2c_lockreplay* instance) {
  u32 var_l0 = 0;
  FUNC_PROLOGUE;
  u32 var_i0, var_i1;
  var_i0 = instance->w2c_in_call;
  var_l0 = var_i0;
  var_i0 = 1u;
  instance->w2c_in_call = var_i0;
  var_i0 = var_l0;
  var_i1 = 0u;
  var_i0 = var_i0 != var_i1;
  FUNC_EPILOGUE;
  return var_i0;
}

static void w2c_lockreplay_0x5F_rattle_leave(w2c_lockreplay* instance) {
  FUNC_PROLOGUE;
  u32 var_i0;
  var_i0 = 0u;
  instance->w2c_in_call = var_i0;
  FUNC_EPILOGUE;
}

static void w2c_lockreplay_0x5F_rattle_trap(w2c_lockreplay* instance) {
  FUNC_PROLOGUE;
  UNREACHABLE;
  FUNC_EPILOGUE;
}

static void w2c_lockreplay_0x5F_lshrti3(w2c_lockreplay* instance, u64 var_p0, u64 var_p1, u64 var_p2, u32 var_p3) {
  u64 var_l4 = 0;
  FUNC_PROLOGUE;
  u32 var_i0, var_i1, var_i2;
  u64 var_j0, var_j1, var_j2;
  var_i0 = var_p3;
  var_i1 = 64u;
  var_i0 &= var_i1;
  var_i0 = !(var_i0);
  if (var_i0) {goto var_B1;}
  var_j0 = var_p2;
  var_i1 = var_p3;
  var_j1 = (u64)(var_i1);
  var_j0 >>= (var_j1 & 63);
  var_p1 = var_j0;
  var_j0 = 0ull;
  var_p2 = var_j0;
  goto var_B0;
  var_B1:;
  var_j0 = var_p2;
  var_j1 = 1ull;
  var_j0 <<= (var_j1 & 63);
  var_i1 = var_p3;
  var_i2 = 63u;
  var_i1 &= var_i2;
  var_i2 = 63u;
  var_i1 ^= var_i2;
  var_j1 = (u64)(var_i1);
  var_j0 <<= (var_j1 & 63);
  var_j1 = var_p1;
  var_i2 = var_p3;
  var_j2 = (u64)(var_i2);
  var_l4 = var_j2;
  var_j1 >>= (var_j2 & 63);
  var_j0 |= var_j1;
  var_p1 = var_j0;
  var_j0 = var_p2;
  var_j1 = var_l4;
  var_j0 >>= (var_j1 & 63);
  var_p2 = var_j0;
  var_B0:;
  var_j0 = var_p0;
  var_j1 = var_p2;
  i64_store(origin, (u64)(var_j0) + 8, var_j1);
  var_j0 = var_p0;
  var_j1 = var_p1;
  i64_store(origin, (u64)(var_j0), var_j1);
  FUNC_EPILOGUE;
}

static void w2c_lockreplay_lk_lines0x3A0x3Aheader0x3A0x3Aheader_of(w2c_lockreplay* instance, u64 var_p0, u64 var_p1, u64 var_p2, u32 var_p3) {
  u32 var_l16 = 0, var_l17 = 0, var_l18 = 0, var_l19 = 0, var_l20 = 0;
  u64 var_l4 = 0, var_l5 = 0, var_l6 = 0, var_l7 = 0, var_l8 = 0, var_l9 = 0, var_l10 = 0, var_l11 = 0,
      var_l12 = 0, var_l13 = 0, var_l14 = 0, var_l15 = 0;
  FUNC_PROLOGUE;
  u32 var_i0, var_i1, var_i3, var_i4;
  u64 var_j0, var_j1, var_j2;
  var_j0 = instance->w2c_0x5F_stack_pointer;
  var_j1 = 32ull;
  var_j0 -= var_j1;
  var_l4 = var_j0;
  instance->w2c_0x5F_stack_pointer = var_j0;
  var_j0 = var_l4;
  var_l5 = var_j0;
  var_j1 = 16ull;
  var_i0 = (u64)((s64)var_j0 < (s64)var_j1);
  if (var_i0) {goto var_B3;}
  var_j0 = var_p2;
  var_i0 = !(var_j0);
  if (var_i0) {goto var_B1;}
  var_j0 = 0ull;
  var_l4 = var_j0;
  var_j0 = 0ull;
  var_j1 = var_p2;
  var_j0 -= var_j1;
  var_l6 = var_j0;
  var_L5:
    var_j0 = var_p1;
    var_j1 = var_l4;
    var_j0 += var_j1;
    var_l7 = var_j0;
    var_i0 = i32_load8_u(origin, (u64)(var_j0));
    var_i1 = 32u;
    var_i0 = var_i0 == var_i1;
    if (var_i0) {goto var_B4;}
    var_j0 = var_l6;
    var_j1 = var_l4;
    var_j2 = 1ull;
    var_j1 += var_j2;
    var_l4 = var_j1;
    var_j0 += var_j1;
    var_i0 = !(var_j0);
    var_i0 = !(var_i0);
    if (var_i0) {goto var_L5;}
    goto var_B1;
  var_B4:;
  var_j0 = var_l4;
  var_j1 = var_p2;
  var_j0 -= var_j1;
  var_l8 = var_j0;
  var_j1 = 18446744073709551615ull;
  var_i0 = var_j0 == var_j1;
  if (var_i0) {goto var_B1;}
  var_j0 = var_l7;
  var_j1 = 1ull;
  var_j0 += var_j1;
  var_l9 = var_j0;
  var_j0 = 0ull;
  var_l6 = var_j0;
  var_j0 = 0ull;
  var_j1 = var_p2;
  var_j0 -= var_j1;
  var_l10 = var_j0;
  var_L7:
    var_j0 = var_l7;
    var_j1 = var_l6;
    var_j0 += var_j1;
    var_l11 = var_j0;
    var_j1 = 1ull;
    var_j0 += var_j1;
    var_i0 = i32_load8_u(origin, (u64)(var_j0));
    var_i1 = 32u;
    var_i0 = var_i0 == var_i1;
    if (var_i0) {goto var_B6;}
    var_j0 = var_l8;
    var_j1 = var_l6;
    var_j0 += var_j1;
    var_l11 = var_j0;
    var_j0 = var_l6;
    var_j1 = 1ull;
    var_j0 += var_j1;
    var_l6 = var_j0;
    var_j0 = var_l11;
    var_j1 = 18446744073709551614ull;
    var_i0 = var_j0 == var_j1;
    if (var_i0) {goto var_B1;}
    goto var_L7;
  var_B6:;
  var_j0 = var_l4;
  var_j1 = var_l6;
  var_j0 += var_j1;
  var_l7 = var_j0;
  var_j1 = var_l10;
  var_j0 += var_j1;
  var_l8 = var_j0;
  var_j1 = 18446744073709551614ull;
  var_i0 = var_j0 == var_j1;
  if (var_i0) {goto var_B1;}
  var_j0 = var_l7;
  var_j1 = var_p1;
  var_j0 += var_j1;
  var_l12 = var_j0;
  var_j1 = 5ull;
  var_j0 += var_j1;
  var_l10 = var_j0;
  var_j0 = var_l8;
  var_j1 = 3ull;
  var_j0 += var_j1;
  var_l13 = var_j0;
  var_j0 = var_l12;
  var_j1 = 2ull;
  var_j0 += var_j1;
  var_l14 = var_j0;
  var_j0 = var_p2;
  var_j1 = 18446744073709551614ull;
  var_j0 += var_j1;
  var_l12 = var_j0;
  var_j0 = 7ull;
  var_l8 = var_j0;
  var_L9:
    var_j0 = var_p1;
    var_j1 = var_l7;
    var_j0 += var_j1;
    var_l15 = var_j0;
    var_j1 = 2ull;
    var_j0 += var_j1;
    var_i0 = i32_load8_u(origin, (u64)(var_j0));
    var_i1 = 32u;
    var_i0 = var_i0 == var_i1;
    if (var_i0) {goto var_B8;}
    var_j0 = var_l8;
    var_j1 = 18446744073709551615ull;
    var_j0 += var_j1;
    var_l8 = var_j0;
    var_j0 = var_l13;
    var_j1 = 1ull;
    var_j0 += var_j1;
    var_l13 = var_j0;
    var_j0 = var_l10;
    var_j1 = 1ull;
    var_j0 += var_j1;
    var_l10 = var_j0;
    var_j0 = var_l12;
    var_j1 = var_l7;
    var_j2 = 1ull;
    var_j1 += var_j2;
    var_l7 = var_j1;
    var_i0 = var_j0 == var_j1;
    if (var_i0) {goto var_B1;}
    goto var_L9;
  var_B8:;
  var_j0 = var_l4;
  var_j1 = 4ull;
  var_i0 = var_j0 != var_j1;
  if (var_i0) {goto var_B1;}
  var_j0 = var_p1;
  var_i0 = i32_load8_u(origin, (u64)(var_j0));
  var_i1 = 108u;
  var_i0 = var_i0 != var_i1;
  if (var_i0) {goto var_B1;}
  var_j0 = var_p1;
  var_j1 = 1ull;
  var_j0 += var_j1;
  var_i0 = i32_load8_u(origin, (u64)(var_j0));
  var_i1 = 255u;
  var_i0 &= var_i1;
  var_i1 = 111u;
  var_i0 = var_i0 != var_i1;
  if (var_i0) {goto var_B1;}
  var_j0 = var_p1;
  var_j1 = 2ull;
  var_j0 += var_j1;
  var_i0 = i32_load8_u(origin, (u64)(var_j0));
  var_i1 = 255u;
  var_i0 &= var_i1;
  var_i1 = 99u;
  var_i0 = var_i0 != var_i1;
  if (var_i0) {goto var_B1;}
  var_j0 = var_p1;
  var_j1 = 3ull;
  var_j0 += var_j1;
  var_i0 = i32_load8_u(origin, (u64)(var_j0));
  var_i1 = 255u;
  var_i0 &= var_i1;
  var_i1 = 107u;
  var_i0 = var_i0 != var_i1;
  if (var_i0) {goto var_B1;}
  var_j0 = var_p1;
  var_j1 = 4ull;
  var_j2 = 1057645ull;
  var_i0 = w2c_lockreplay_core0x3A0x3Acmp0x3A0x3Aslices0x3A0x3Agroups_equal0x3A0x3A0x3Ci80x2C310x27core0x3A0x3Acmp0x3A0x3Anumbers0x3A0x3AU8PartialEq0x7B0x7D0x3E(instance, var_j0, var_j1, var_j2);
  var_l16 = var_i0;
  var_j0 = var_l8;
  var_j1 = 0ull;
  var_i0 = var_j0 != var_j1;
  if (var_i0) {goto var_B1;}
  var_i0 = var_l16;
  var_i0 = !(var_i0);
  if (var_i0) {goto var_B1;}
  var_j0 = var_l14;
  var_i0 = i32_load8_u(origin, (u64)(var_j0));
  var_i1 = 116u;
  var_i0 = var_i0 != var_i1;
  if (var_i0) {goto var_B1;}
  var_j0 = var_l11;
  var_j1 = 3ull;
  var_j0 += var_j1;
  var_i0 = i32_load8_u(origin, (u64)(var_j0));
  var_i1 = 255u;
  var_i0 &= var_i1;
  var_i1 = 104u;
  var_i0 = var_i0 != var_i1;
  if (var_i0) {goto var_B1;}
  var_j0 = var_l11;
  var_j1 = 4ull;
  var_j0 += var_j1;
  var_i0 = i32_load8_u(origin, (u64)(var_j0));
  var_i1 = 255u;
  var_i0 &= var_i1;
  var_i1 = 114u;
  var_i0 = var_i0 != var_i1;
  if (var_i0) {goto var_B1;}
  var_j0 = var_l11;
  var_j1 = 5ull;
  var_j0 += var_j1;
  var_i0 = i32_load8_u(origin, (u64)(var_j0));
  var_i1 = 255u;
  var_i0 &= var_i1;
  var_i1 = 101u;
  var_i0 = var_i0 != var_i1;
  if (var_i0) {goto var_B1;}
  var_j0 = var_l14;
  var_j1 = 7ull;
  var_j2 = 1057649ull;
  var_i0 = w2c_lockreplay_core0x3A0x3Acmp0x3A0x3Aslices0x3A0x3Agroups_equal0x3A0x3A0x3Ci80x2C310x27core0x3A0x3Acmp0x3A0x3Anumbers0x3A0x3AU8PartialEq0x7B0x7D0x3E(instance, var_j0, var_j1, var_j2);
  var_i0 = !(var_i0);
  if (var_i0) {goto var_B1;}
  var_j0 = var_l5;
  var_j1 = 24ull;
  var_j0 += var_j1;
  var_j1 = var_l9;
  var_j2 = var_l6;
  w2c_lockreplay_lk_lines0x3A0x3Avocabulary0x3A0x3Alock_named(instance, var_j0, var_j1, var_j2);
  var_j0 = var_l5;
  var_i0 = i32_load8_u(origin, (u64)(var_j0) + 24u);
  var_i1 = 1u;
  var_i0 &= var_i1;
  var_i0 = !(var_i0);
  if (var_i0) {goto var_B1;}
  var_j0 = var_p2;
  var_j1 = 18446744073709551613ull;
  var_j0 += var_j1;
  var_j1 = var_l7;
  var_i0 = var_j0 == var_j1;
  if (var_i0) {goto var_B12;}
  var_j0 = var_l5;
  var_i0 = i32_load8_u(origin, (u64)(var_j0) + 25u);
  var_l17 = var_i0;
  var_j0 = 0ull;
  var_l6 = var_j0;
  var_j0 = var_l15;
  var_j1 = 3ull;
  var_j0 += var_j1;
  var_p1 = var_j0;
  var_l4 = var_j0;
  var_j0 = var_p2;
  var_j1 = var_l7;
  var_j0 -= var_j1;
  var_j1 = 18446744073709551613ull;
  var_j0 += var_j1;
  var_l8 = var_j0;
  var_l7 = var_j0;
  var_L15:
    var_j0 = var_l4;
    var_i0 = i32_load8_u(origin, (u64)(var_j0));
    var_i1 = 32u;
    var_i0 = var_i0 == var_i1;
    if (var_i0) {goto var_B14;}
    var_j0 = var_l4;
    var_j1 = 1ull;
    var_j0 += var_j1;
    var_l4 = var_j0;
    var_j0 = var_l6;
    var_j1 = 18446744073709551615ull;
    var_j0 += var_j1;
    var_l6 = var_j0;
    var_j0 = var_l7;
    var_j1 = 18446744073709551615ull;
    var_j0 += var_j1;
    var_l7 = var_j0;
    var_i0 = !(var_j0);
    var_i0 = !(var_i0);
    if (var_i0) {goto var_L15;}
  var_i0 = 64u;
  var_l18 = var_i0;
  goto var_B13;
  var_B14:;
  var_j0 = var_l7;
  var_j1 = 1ull;
  var_i0 = var_j0 == var_j1;
  if (var_i0) {goto var_B2;}
  var_j0 = var_l10;
  var_j1 = var_l6;
  var_j0 -= var_j1;
  var_l7 = var_j0;
  var_j0 = 0ull;
  var_j1 = var_l6;
  var_j0 -= var_j1;
  var_l8 = var_j0;
  var_j0 = var_l4;
  var_j1 = 1ull;
  var_j0 += var_j1;
  var_p2 = var_j0;
  var_j0 = var_l13;
  var_j1 = var_l6;
  var_j0 -= var_j1;
  var_j1 = 3ull;
  var_j0 += var_j1;
  var_l6 = var_j0;
  var_j0 = 4ull;
  var_l11 = var_j0;
  var_L17:
    var_j0 = var_l7;
    var_j1 = 18446744073709551615ull;
    var_j0 += var_j1;
    var_i0 = i32_load8_u(origin, (u64)(var_j0));
    var_i1 = 32u;
    var_i0 = var_i0 == var_i1;
    if (var_i0) {goto var_B16;}
    var_j0 = var_l11;
    var_j1 = 18446744073709551615ull;
    var_j0 += var_j1;
    var_l11 = var_j0;
    var_j0 = var_l7;
    var_j1 = 1ull;
    var_j0 += var_j1;
    var_l7 = var_j0;
    var_j0 = var_l6;
    var_j1 = 1ull;
    var_j0 += var_j1;
    var_l6 = var_j0;
    var_j1 = 2ull;
    var_i0 = var_j0 != var_j1;
    if (var_i0) {goto var_L17;}
    goto var_B2;
  var_B16:;
  var_j0 = var_l11;
  var_j1 = 0ull;
  var_i0 = var_j0 != var_j1;
  if (var_i0) {goto var_B2;}
  var_j0 = var_l4;
  var_j1 = 1ull;
  var_j0 += var_j1;
  var_i0 = i32_load8_u(origin, (u64)(var_j0));
  var_i1 = 98u;
  var_i0 = var_i0 != var_i1;
  if (var_i0) {goto var_B2;}
  var_j0 = var_l4;
  var_j1 = 2ull;
  var_j0 += var_j1;
  var_i0 = i32_load8_u(origin, (u64)(var_j0));
  var_i1 = 255u;
  var_i0 &= var_i1;
  var_i1 = 105u;
  var_i0 = var_i0 != var_i1;
  if (var_i0) {goto var_B2;}
  var_j0 = var_l4;
  var_j1 = 3ull;
  var_j0 += var_j1;
  var_i0 = i32_load8_u(origin, (u64)(var_j0));
  var_i1 = 255u;
  var_i0 &= var_i1;
  var_i1 = 116u;
  var_i0 = var_i0 != var_i1;
  if (var_i0) {goto var_B2;}
  var_j0 = var_l4;
  var_j1 = 4ull;
  var_j0 += var_j1;
  var_i0 = i32_load8_u(origin, (u64)(var_j0));
  var_i1 = 255u;
  var_i0 &= var_i1;
  var_i1 = 115u;
  var_i0 = var_i0 != var_i1;
  if (var_i0) {goto var_B2;}
  var_j0 = var_p2;
  var_j1 = 4ull;
  var_j2 = 1057678ull;
  var_i0 = w2c_lockreplay_core0x3A0x3Acmp0x3A0x3Aslices0x3A0x3Agroups_equal0x3A0x3A0x3Ci80x2C310x27core0x3A0x3Acmp0x3A0x3Anumbers0x3A0x3AU8PartialEq0x7B0x7D0x3E(instance, var_j0, var_j1, var_j2);
  var_i0 = !(var_i0);
  if (var_i0) {goto var_B2;}
  var_j0 = var_l6;
  var_j1 = 1ull;
  var_i0 = var_j0 == var_j1;
  if (var_i0) {goto var_B2;}
  var_j0 = var_l6;
  var_j1 = 18446744073709551615ull;
  var_j0 += var_j1;
  var_p2 = var_j0;
  var_j0 = 0ull;
  var_l4 = var_j0;
  var_L18:
    var_j0 = var_l7;
    var_j1 = var_l4;
    var_j0 += var_j1;
    var_i0 = i32_load8_u(origin, (u64)(var_j0));
    var_i1 = 32u;
    var_i0 = var_i0 == var_i1;
    if (var_i0) {goto var_B2;}
    var_j0 = var_l6;
    var_j1 = var_l4;
    var_j0 += var_j1;
    var_l11 = var_j0;
    var_j0 = var_l4;
    var_j1 = 1ull;
    var_j0 += var_j1;
    var_l4 = var_j0;
    var_j0 = var_l11;
    var_j1 = 0ull;
    var_i0 = var_j0 != var_j1;
    if (var_i0) {goto var_L18;}
  var_j0 = var_l6;
  var_i0 = !(var_j0);
  if (var_i0) {goto var_B19;}
  var_j0 = var_l7;
  var_i0 = i32_load8_u(origin, (u64)(var_j0));
  var_i1 = 48u;
  var_i0 = var_i0 == var_i1;
  if (var_i0) {goto var_B2;}
  var_B19:;
  var_j0 = 0ull;
  var_l4 = var_j0;
  var_L20:
    var_j0 = var_l4;
    var_j1 = 1844674407370955161ull;
    var_i0 = var_j0 > var_j1;
    if (var_i0) {goto var_B2;}
    var_j0 = var_l7;
    var_i0 = i32_load8_u(origin, (u64)(var_j0));
    var_i1 = 4294967248u;
    var_i0 += var_i1;
    var_l16 = var_i0;
    var_i1 = 255u;
    var_i0 &= var_i1;
    var_i1 = 9u;
    var_i0 = var_i0 > var_i1;
    if (var_i0) {goto var_B2;}
    var_j0 = var_l4;
    var_j1 = 10ull;
    var_j0 *= var_j1;
    var_l4 = var_j0;
    var_i1 = var_l16;
    var_j1 = (u64)(var_i1);
    var_j2 = 255ull;
    var_j1 &= var_j2;
    var_l6 = var_j1;
    var_j2 = 18446744073709551615ull;
    var_j1 ^= var_j2;
    var_i0 = var_j0 > var_j1;
    if (var_i0) {goto var_B2;}
    var_j0 = var_l7;
    var_j1 = 1ull;
    var_j0 += var_j1;
    var_l7 = var_j0;
    var_j0 = var_l4;
    var_j1 = var_l6;
    var_j0 += var_j1;
    var_l4 = var_j0;
    var_j0 = var_p2;
    var_j1 = 1ull;
    var_j0 += var_j1;
    var_p2 = var_j0;
    var_j1 = 0ull;
    var_i0 = var_j0 != var_j1;
    if (var_i0) {goto var_L20;}
  var_j0 = var_l4;
  var_j1 = 18446744073709551614ull;
  var_j0 += var_j1;
  var_j1 = 62ull;
  var_i0 = var_j0 > var_j1;
  if (var_i0) {goto var_B2;}
  var_j0 = var_l4;
  var_i0 = (u32)(var_j0);
  var_l18 = var_i0;
  var_B13:;
  var_j0 = var_l8;
  var_j1 = 1ull;
  var_i0 = var_j0 > var_j1;
  if (var_i0) {goto var_B22;}
  var_j0 = var_l8;
  var_i0 = (u32)(var_j0);
  switch (var_i0) {
    case 0: goto var_B12;
    case 1: goto var_B21;
    default: goto var_B12;
  }
  var_B22:;
  var_j0 = var_l15;
  var_j1 = 3ull;
  var_j0 += var_j1;
  var_i0 = i32_load8_u(origin, (u64)(var_j0));
  var_i1 = 48u;
  var_i0 = var_i0 == var_i1;
  if (var_i0) {goto var_B12;}
  var_B21:;
  var_j0 = 0ull;
  var_l4 = var_j0;
  var_L23:
    var_j0 = var_l4;
    var_j1 = 1844674407370955161ull;
    var_i0 = var_j0 > var_j1;
    if (var_i0) {goto var_B12;}
    var_j0 = var_p1;
    var_i0 = i32_load8_u(origin, (u64)(var_j0));
    var_i1 = 4294967248u;
    var_i0 += var_i1;
    var_l16 = var_i0;
    var_i1 = 255u;
    var_i0 &= var_i1;
    var_i1 = 9u;
    var_i0 = var_i0 > var_i1;
    if (var_i0) {goto var_B12;}
    var_j0 = var_l4;
    var_j1 = 10ull;
    var_j0 *= var_j1;
    var_l4 = var_j0;
    var_i1 = var_l16;
    var_j1 = (u64)(var_i1);
    var_j2 = 255ull;
    var_j1 &= var_j2;
    var_l7 = var_j1;
    var_j2 = 18446744073709551615ull;
    var_j1 ^= var_j2;
    var_i0 = var_j0 > var_j1;
    if (var_i0) {goto var_B12;}
    var_j0 = var_p1;
    var_j1 = 1ull;
    var_j0 += var_j1;
    var_p1 = var_j0;
    var_j0 = var_l4;
    var_j1 = var_l7;
    var_j0 += var_j1;
    var_l4 = var_j0;
    var_j0 = var_l8;
    var_j1 = 18446744073709551615ull;
    var_j0 += var_j1;
    var_l8 = var_j0;
    var_j1 = 0ull;
    var_i0 = var_j0 != var_j1;
    if (var_i0) {goto var_L23;}
  var_j0 = var_l4;
  var_i0 = !(var_j0);
  if (var_i0) {goto var_B12;}
  var_j0 = var_l4;
  var_j1 = 65ull;
  var_i0 = var_j0 >= var_j1;
  if (var_i0) {goto var_B12;}
  var_j0 = var_l5;
  var_j1 = var_l4;
  var_j2 = 0ull;
  var_i3 = var_l18;
  var_i4 = 255u;
  var_i3 &= var_i4;
  w2c_lockreplay_0x5F_lshrti3(instance, var_j0, var_j1, var_j2, var_i3);
  var_j0 = var_l5;
  var_j0 = i64_load(origin, (u64)(var_j0));
  var_j1 = var_l5;
  var_j1 = i64_load(origin, (u64)(var_j1) + 8u);
  var_j0 |= var_j1;
  var_i0 = !(var_j0);
  if (var_i0) {goto var_B11;}
  var_i0 = 7u;
  var_l16 = var_i0;
  var_i0 = 1u;
  var_l19 = var_i0;
  var_i0 = 0u;
  var_l17 = var_i0;
  var_i0 = 0u;
  var_l20 = var_i0;
  var_i0 = 0u;
  var_l18 = var_i0;
  goto var_B10;
  var_B12:;
  var_j0 = var_p0;
  var_j1 = 12884901889ull;
  i64_store(origin, (u64)(var_j0), var_j1);
  var_j0 = var_p0;
  var_j1 = 8ull;
  var_j0 += var_j1;
  var_i1 = var_p3;
  i32_store(origin, (u64)(var_j0), var_i1);
  goto var_B0;
  var_B11:;
  var_j0 = var_l4;
  var_i0 = (u32)(var_j0);
  var_l20 = var_i0;
  var_i0 = 0u;
  var_l16 = var_i0;
  var_i0 = 0u;
  var_l19 = var_i0;
  var_i0 = 0u;
  var_p3 = var_i0;
  var_B10:;
  var_j0 = var_p0;
  var_i1 = var_l19;
  i32_store8(origin, (u64)(var_j0), var_i1);
  var_j0 = var_p0;
  var_j1 = 8ull;
  var_j0 += var_j1;
  var_i1 = var_p3;
  i32_store(origin, (u64)(var_j0), var_i1);
  var_j0 = var_p0;
  var_j1 = 4ull;
  var_j0 += var_j1;
  var_i1 = var_l16;
  i32_store(origin, (u64)(var_j0), var_i1);
  var_j0 = var_p0;
  var_j1 = 3ull;
  var_j0 += var_j1;
  var_i1 = var_l18;
  i32_store8(origin, (u64)(var_j0), var_i1);
  var_j0 = var_p0;
  var_j1 = 2ull;
  var_j0 += var_j1;
  var_i1 = var_l20;
  i32_store8(origin, (u64)(var_j0), var_i1);
  var_j0 = var_p0;
  var_j1 = 1ull;
  var_j0 += var_j1;
  var_i1 = var_l17;
  i32_store8(origin, (u64)(var_j0), var_i1);
  goto var_B0;
  var_B3:;
  UNREACHABLE;
  var_B2:;
  var_j0 = var_p0;
  var_j1 = 8589934593ull;
  i64_store(origin, (u64)(var_j0), var_j1);
  var_j0 = var_p0;
  var_j1 = 8ull;
  var_j0 += var_j1;
  var_i1 = var_p3;
  i32_store(origin, (u64)(var_j0), var_i1);
  goto var_B0;
  var_B1:;
  var_j0 = var_p0;
  var_j1 = 8589934593ull;
  i64_store(origin, (u64)(var_j0), var_j1);
  var_j0 = var_p0;
  var_j1 = 8ull;
  var_j0 += var_j1;
  var_i1 = var_p3;
  i32_store(origin, (u64)(var_j0), var_i1);
  var_B0:;
  var_j0 = var_l5;
  var_j1 = 32ull;
  var_j0 += var_j1;
  instance->w2c_0x5F_stack_pointer = var_j0;
  FUNC_EPILOGUE;
}

static u32 w2c_lockreplay_core0x3A0x3Acmp0x3A0x3Aslices0x3A0x3Agroups_equal0x3A0x3A0x3Ci80x2C310x27core0x3A0x3Acmp0x3A0x3Anumbers0x3A0x3AU8PartialEq0x7B0x7D0x3E(w2c_lockreplay* instance, u64 var_p0, u64 var_p1, u64 var_p2) {
  u32 var_l4 = 0;
  u64 var_l3 = 0, var_l5 = 0, var_l6 = 0, var_l7 = 0, var_l8 = 0, var_l9 = 0, var_l10 = 0;
  FUNC_PROLOGUE;
  u32 var_i0, var_i1, var_i2, var_i3, var_i4, var_i5, var_i6;
  u64 var_j0, var_j1, var_j2, var_j3, var_j4, var_j5, var_j6, var_j7;
  var_j0 = instance->w2c_0x5F_stack_pointer;
  var_j1 = 16ull;
  var_i0 = (u64)((s64)var_j0 < (s64)var_j1);
  if (var_i0) {goto var_B2;}
  var_j0 = var_p1;
  var_j1 = 8ull;
  var_i0 = var_j0 > var_j1;
  if (var_i0) {goto var_B3;}
  var_j0 = var_p0;
  var_i0 = i32_load8_u(origin, (u64)(var_j0));
  var_j1 = var_p2;
  var_i1 = i32_load8_u(origin, (u64)(var_j1));
  var_i0 = var_i0 != var_i1;
  var_j1 = var_p0;
  var_j2 = 1ull;
  var_j1 += var_j2;
  var_i1 = i32_load8_u(origin, (u64)(var_j1));
  var_j2 = var_p2;
  var_j3 = 1ull;
  var_j2 += var_j3;
  var_i2 = i32_load8_u(origin, (u64)(var_j2));
  var_i1 = var_i1 != var_i2;
  var_i0 |= var_i1;
  var_j1 = var_p0;
  var_j2 = 2ull;
  var_j1 += var_j2;
  var_i1 = i32_load8_u(origin, (u64)(var_j1));
  var_j2 = var_p2;
  var_j3 = 2ull;
  var_j2 += var_j3;
  var_i2 = i32_load8_u(origin, (u64)(var_j2));
  var_i1 = var_i1 != var_i2;
  var_i0 |= var_i1;
  var_j1 = var_p0;
  var_j2 = 3ull;
  var_j1 += var_j2;
  var_i1 = i32_load8_u(origin, (u64)(var_j1));
  var_j2 = var_p2;
  var_j3 = 3ull;
  var_j2 += var_j3;
  var_i2 = i32_load8_u(origin, (u64)(var_j2));
  var_i1 = var_i1 != var_i2;
  var_i0 |= var_i1;
  var_j1 = var_p0;
  var_j2 = var_p1;
  var_j3 = 18446744073709551612ull;
  var_j2 += var_j3;
  var_l3 = var_j2;
  var_j1 += var_j2;
  var_i1 = i32_load8_u(origin, (u64)(var_j1));
  var_j2 = var_p2;
  var_j3 = var_l3;
  var_j2 += var_j3;
  var_i2 = i32_load8_u(origin, (u64)(var_j2));
  var_i1 = var_i1 != var_i2;
  var_j2 = var_p0;
  var_j3 = var_p1;
  var_j4 = 18446744073709551613ull;
  var_j3 += var_j4;
  var_l3 = var_j3;
  var_j2 += var_j3;
  var_i2 = i32_load8_u(origin, (u64)(var_j2));
  var_j3 = var_p2;
  var_j4 = var_l3;
  var_j3 += var_j4;
  var_i3 = i32_load8_u(origin, (u64)(var_j3));
  var_i2 = var_i2 != var_i3;
  var_i1 |= var_i2;
  var_j2 = var_p0;
  var_j3 = var_p1;
  var_j4 = 18446744073709551614ull;
  var_j3 += var_j4;
  var_l3 = var_j3;
  var_j2 += var_j3;
  var_i2 = i32_load8_u(origin, (u64)(var_j2));
  var_j3 = var_p2;
  var_j4 = var_l3;
  var_j3 += var_j4;
  var_i3 = i32_load8_u(origin, (u64)(var_j3));
  var_i2 = var_i2 != var_i3;
  var_i1 |= var_i2;
  var_j2 = var_p0;
  var_j3 = var_p1;
  var_j4 = 18446744073709551615ull;
  var_j3 += var_j4;
  var_l3 = var_j3;
  var_j2 += var_j3;
  var_i2 = i32_load8_u(origin, (u64)(var_j2));
  var_j3 = var_p2;
  var_j4 = var_l3;
  var_j3 += var_j4;
  var_i3 = i32_load8_u(origin, (u64)(var_j3));
  var_i2 = var_i2 != var_i3;
  var_i1 |= var_i2;
  var_i0 |= var_i1;
  var_l4 = var_i0;
  goto var_B0;
  var_B3:;
  var_j0 = var_p1;
  var_j1 = 32ull;
  var_i0 = var_j0 > var_j1;
  if (var_i0) {goto var_B4;}
  var_j0 = var_p0;
  var_j1 = var_p1;
  var_j2 = 18446744073709551608ull;
  var_j1 += var_j2;
  var_p1 = var_j1;
  var_j2 = 8ull;
  var_j3 = var_p1;
  var_j4 = 8ull;
  var_i3 = var_j3 < var_j4;
  var_j1 = var_i3 ? var_j1 : var_j2;
  var_l5 = var_j1;
  var_j0 += var_j1;
  var_l3 = var_j0;
  var_i0 = i32_load8_u(origin, (u64)(var_j0));
  var_j1 = var_p2;
  var_j2 = var_l5;
  var_j1 += var_j2;
  var_l5 = var_j1;
  var_i1 = i32_load8_u(origin, (u64)(var_j1));
  var_i0 = var_i0 != var_i1;
  var_j1 = var_p0;
  var_j2 = var_p1;
  var_j3 = 16ull;
  var_j4 = var_p1;
  var_j5 = 16ull;
  var_i4 = var_j4 < var_j5;
  var_j2 = var_i4 ? var_j2 : var_j3;
  var_l6 = var_j2;
  var_j1 += var_j2;
  var_l7 = var_j1;
  var_i1 = i32_load8_u(origin, (u64)(var_j1));
  var_j2 = var_p2;
  var_j3 = var_l6;
  var_j2 += var_j3;
  var_l6 = var_j2;
  var_i2 = i32_load8_u(origin, (u64)(var_j2));
  var_i1 = var_i1 != var_i2;
  var_i0 |= var_i1;
  var_j1 = var_p0;
  var_j2 = var_p1;
  var_j1 += var_j2;
  var_l8 = var_j1;
  var_i1 = i32_load8_u(origin, (u64)(var_j1));
  var_j2 = var_p2;
  var_j3 = var_p1;
  var_j2 += var_j3;
  var_p1 = var_j2;
  var_i2 = i32_load8_u(origin, (u64)(var_j2));
  var_i1 = var_i1 != var_i2;
  var_i0 |= var_i1;
  var_j1 = var_l3;
  var_i1 = i32_load8_u(origin, (u64)(var_j1) + 1u);
  var_j2 = var_l5;
  var_i2 = i32_load8_u(origin, (u64)(var_j2) + 1u);
  var_i1 = var_i1 != var_i2;
  var_j2 = var_l7;
  var_i2 = i32_load8_u(origin, (u64)(var_j2) + 1u);
  var_j3 = var_l6;
  var_i3 = i32_load8_u(origin, (u64)(var_j3) + 1u);
  var_i2 = var_i2 != var_i3;
  var_i1 |= var_i2;
  var_j2 = var_l8;
  var_i2 = i32_load8_u(origin, (u64)(var_j2) + 1u);
  var_j3 = var_p1;
  var_i3 = i32_load8_u(origin, (u64)(var_j3) + 1u);
  var_i2 = var_i2 != var_i3;
  var_i1 |= var_i2;
  var_i2 = 1u;
  var_i1 <<= (var_i2 & 31);
  var_i0 |= var_i1;
  var_j1 = var_l3;
  var_i1 = i32_load8_u(origin, (u64)(var_j1) + 3u);
  var_j2 = var_l5;
  var_i2 = i32_load8_u(origin, (u64)(var_j2) + 3u);
  var_i1 = var_i1 != var_i2;
  var_j2 = var_l7;
  var_i2 = i32_load8_u(origin, (u64)(var_j2) + 3u);
  var_j3 = var_l6;
  var_i3 = i32_load8_u(origin, (u64)(var_j3) + 3u);
  var_i2 = var_i2 != var_i3;
  var_i1 |= var_i2;
  var_j2 = var_l8;
  var_i2 = i32_load8_u(origin, (u64)(var_j2) + 3u);
  var_j3 = var_p1;
  var_i3 = i32_load8_u(origin, (u64)(var_j3) + 3u);
  var_i2 = var_i2 != var_i3;
  var_i1 |= var_i2;
  var_i2 = 3u;
  var_i1 <<= (var_i2 & 31);
  var_j2 = var_l3;
  var_i2 = i32_load8_u(origin, (u64)(var_j2) + 2u);
  var_j3 = var_l5;
  var_i3 = i32_load8_u(origin, (u64)(var_j3) + 2u);
  var_i2 = var_i2 != var_i3;
  var_j3 = var_l7;
  var_i3 = i32_load8_u(origin, (u64)(var_j3) + 2u);
  var_j4 = var_l6;
  var_i4 = i32_load8_u(origin, (u64)(var_j4) + 2u);
  var_i3 = var_i3 != var_i4;
  var_i2 |= var_i3;
  var_j3 = var_l8;
  var_i3 = i32_load8_u(origin, (u64)(var_j3) + 2u);
  var_j4 = var_p1;
  var_i4 = i32_load8_u(origin, (u64)(var_j4) + 2u);
  var_i3 = var_i3 != var_i4;
  var_i2 |= var_i3;
  var_i3 = 2u;
  var_i2 <<= (var_i3 & 31);
  var_i1 |= var_i2;
  var_i0 |= var_i1;
  var_j1 = var_l3;
  var_i1 = i32_load8_u(origin, (u64)(var_j1) + 4u);
  var_j2 = var_l5;
  var_i2 = i32_load8_u(origin, (u64)(var_j2) + 4u);
  var_i1 = var_i1 != var_i2;
  var_j2 = var_l7;
  var_i2 = i32_load8_u(origin, (u64)(var_j2) + 4u);
  var_j3 = var_l6;
  var_i3 = i32_load8_u(origin, (u64)(var_j3) + 4u);
  var_i2 = var_i2 != var_i3;
  var_i1 |= var_i2;
  var_j2 = var_l8;
  var_i2 = i32_load8_u(origin, (u64)(var_j2) + 4u);
  var_j3 = var_p1;
  var_i3 = i32_load8_u(origin, (u64)(var_j3) + 4u);
  var_i2 = var_i2 != var_i3;
  var_i1 |= var_i2;
  var_j2 = var_l3;
  var_i2 = i32_load8_u(origin, (u64)(var_j2) + 5u);
  var_j3 = var_l5;
  var_i3 = i32_load8_u(origin, (u64)(var_j3) + 5u);
  var_i2 = var_i2 != var_i3;
  var_j3 = var_l7;
  var_i3 = i32_load8_u(origin, (u64)(var_j3) + 5u);
  var_j4 = var_l6;
  var_i4 = i32_load8_u(origin, (u64)(var_j4) + 5u);
  var_i3 = var_i3 != var_i4;
  var_i2 |= var_i3;
  var_j3 = var_l8;
  var_i3 = i32_load8_u(origin, (u64)(var_j3) + 5u);
  var_j4 = var_p1;
  var_i4 = i32_load8_u(origin, (u64)(var_j4) + 5u);
  var_i3 = var_i3 != var_i4;
  var_i2 |= var_i3;
  var_i3 = 1u;
  var_i2 <<= (var_i3 & 31);
  var_i1 |= var_i2;
  var_j2 = var_l3;
  var_i2 = i32_load8_u(origin, (u64)(var_j2) + 7u);
  var_j3 = var_l5;
  var_i3 = i32_load8_u(origin, (u64)(var_j3) + 7u);
  var_i2 = var_i2 != var_i3;
  var_j3 = var_l7;
  var_i3 = i32_load8_u(origin, (u64)(var_j3) + 7u);
  var_j4 = var_l6;
  var_i4 = i32_load8_u(origin, (u64)(var_j4) + 7u);
  var_i3 = var_i3 != var_i4;
  var_i2 |= var_i3;
  var_j3 = var_l8;
  var_i3 = i32_load8_u(origin, (u64)(var_j3) + 7u);
  var_j4 = var_p1;
  var_i4 = i32_load8_u(origin, (u64)(var_j4) + 7u);
  var_i3 = var_i3 != var_i4;
  var_i2 |= var_i3;
  var_i3 = 3u;
  var_i2 <<= (var_i3 & 31);
  var_j3 = var_l3;
  var_i3 = i32_load8_u(origin, (u64)(var_j3) + 6u);
  var_j4 = var_l5;
  var_i4 = i32_load8_u(origin, (u64)(var_j4) + 6u);
  var_i3 = var_i3 != var_i4;
  var_j4 = var_l7;
  var_i4 = i32_load8_u(origin, (u64)(var_j4) + 6u);
  var_j5 = var_l6;
  var_i5 = i32_load8_u(origin, (u64)(var_j5) + 6u);
  var_i4 = var_i4 != var_i5;
  var_i3 |= var_i4;
  var_j4 = var_l8;
  var_i4 = i32_load8_u(origin, (u64)(var_j4) + 6u);
  var_j5 = var_p1;
  var_i5 = i32_load8_u(origin, (u64)(var_j5) + 6u);
  var_i4 = var_i4 != var_i5;
  var_i3 |= var_i4;
  var_i4 = 2u;
  var_i3 <<= (var_i4 & 31);
  var_i2 |= var_i3;
  var_i1 |= var_i2;
  var_i2 = 4u;
  var_i1 <<= (var_i2 & 31);
  var_i0 |= var_i1;
  var_i1 = 255u;
  var_i0 &= var_i1;
  var_i1 = 0u;
  var_i0 = var_i0 != var_i1;
  var_j1 = var_p0;
  var_i1 = i32_load8_u(origin, (u64)(var_j1));
  var_j2 = var_p2;
  var_i2 = i32_load8_u(origin, (u64)(var_j2));
  var_i1 = var_i1 != var_i2;
  var_i0 |= var_i1;
  var_j1 = var_p0;
  var_j2 = 1ull;
  var_j1 += var_j2;
  var_i1 = i32_load8_u(origin, (u64)(var_j1));
  var_j2 = var_p2;
  var_j3 = 1ull;
  var_j2 += var_j3;
  var_i2 = i32_load8_u(origin, (u64)(var_j2));
  var_i1 = var_i1 != var_i2;
  var_j2 = var_p0;
  var_j3 = 2ull;
  var_j2 += var_j3;
  var_i2 = i32_load8_u(origin, (u64)(var_j2));
  var_j3 = var_p2;
  var_j4 = 2ull;
  var_j3 += var_j4;
  var_i3 = i32_load8_u(origin, (u64)(var_j3));
  var_i2 = var_i2 != var_i3;
  var_i1 |= var_i2;
  var_i0 |= var_i1;
  var_j1 = var_p0;
  var_j2 = 3ull;
  var_j1 += var_j2;
  var_i1 = i32_load8_u(origin, (u64)(var_j1));
  var_j2 = var_p2;
  var_j3 = 3ull;
  var_j2 += var_j3;
  var_i2 = i32_load8_u(origin, (u64)(var_j2));
  var_i1 = var_i1 != var_i2;
  var_j2 = var_p0;
  var_j3 = 4ull;
  var_j2 += var_j3;
  var_i2 = i32_load8_u(origin, (u64)(var_j2));
  var_j3 = var_p2;
  var_j4 = 4ull;
  var_j3 += var_j4;
  var_i3 = i32_load8_u(origin, (u64)(var_j3));
  var_i2 = var_i2 != var_i3;
  var_i1 |= var_i2;
  var_j2 = var_p0;
  var_j3 = 5ull;
  var_j2 += var_j3;
  var_i2 = i32_load8_u(origin, (u64)(var_j2));
  var_j3 = var_p2;
  var_j4 = 5ull;
  var_j3 += var_j4;
  var_i3 = i32_load8_u(origin, (u64)(var_j3));
  var_i2 = var_i2 != var_i3;
  var_j3 = var_p0;
  var_j4 = 6ull;
  var_j3 += var_j4;
  var_i3 = i32_load8_u(origin, (u64)(var_j3));
  var_j4 = var_p2;
  var_j5 = 6ull;
  var_j4 += var_j5;
  var_i4 = i32_load8_u(origin, (u64)(var_j4));
  var_i3 = var_i3 != var_i4;
  var_i2 |= var_i3;
  var_i1 |= var_i2;
  var_i0 |= var_i1;
  var_j1 = var_p0;
  var_j2 = 7ull;
  var_j1 += var_j2;
  var_i1 = i32_load8_u(origin, (u64)(var_j1));
  var_j2 = var_p2;
  var_j3 = 7ull;
  var_j2 += var_j3;
  var_i2 = i32_load8_u(origin, (u64)(var_j2));
  var_i1 = var_i1 != var_i2;
  var_i0 |= var_i1;
  var_l4 = var_i0;
  goto var_B0;
  var_B4:;
  var_j0 = var_p1;
  var_j1 = 65ull;
  var_i0 = var_j0 < var_j1;
  if (var_i0) {goto var_B1;}
  var_j0 = var_p1;
  var_j1 = 18446744073709551552ull;
  var_j0 &= var_j1;
  var_l9 = var_j0;
  var_j0 = 0ull;
  var_l10 = var_j0;
  var_j0 = var_p0;
  var_l6 = var_j0;
  var_j0 = var_p2;
  var_l8 = var_j0;
  var_L6:
    var_i0 = 0u;
    var_l4 = var_i0;
    var_j0 = 0ull;
    var_l3 = var_j0;
    var_L7:
      var_i0 = var_l4;
      var_j1 = var_l6;
      var_j2 = var_l3;
      var_j1 += var_j2;
      var_l5 = var_j1;
      var_i1 = i32_load8_u(origin, (u64)(var_j1));
      var_j2 = var_l8;
      var_j3 = var_l3;
      var_j2 += var_j3;
      var_l7 = var_j2;
      var_i2 = i32_load8_u(origin, (u64)(var_j2));
      var_i1 = var_i1 != var_i2;
      var_i0 |= var_i1;
      var_j1 = var_l5;
      var_j2 = 1ull;
      var_j1 += var_j2;
      var_i1 = i32_load8_u(origin, (u64)(var_j1));
      var_j2 = var_l7;
      var_j3 = 1ull;
      var_j2 += var_j3;
      var_i2 = i32_load8_u(origin, (u64)(var_j2));
      var_i1 = var_i1 != var_i2;
      var_i0 |= var_i1;
      var_l4 = var_i0;
      var_j0 = var_l3;
      var_j1 = 2ull;
      var_j0 += var_j1;
      var_l3 = var_j0;
      var_j1 = 64ull;
      var_i0 = var_j0 != var_j1;
      if (var_i0) {goto var_L7;}
    var_i0 = var_l4;
    var_i1 = 1u;
    var_i0 &= var_i1;
    if (var_i0) {goto var_B5;}
    var_j0 = var_l6;
    var_j1 = 64ull;
    var_j0 += var_j1;
    var_l6 = var_j0;
    var_j0 = var_l8;
    var_j1 = 64ull;
    var_j0 += var_j1;
    var_l8 = var_j0;
    var_j0 = var_p1;
    var_j1 = var_l10;
    var_j2 = 64ull;
    var_j1 += var_j2;
    var_l10 = var_j1;
    var_j0 -= var_j1;
    var_j1 = 63ull;
    var_i0 = var_j0 > var_j1;
    if (var_i0) {goto var_L6;}
  var_j0 = var_l9;
  var_l10 = var_j0;
  var_B5:;
  var_j0 = var_p1;
  var_j1 = var_l10;
  var_j0 -= var_j1;
  var_l7 = var_j0;
  var_j1 = 32ull;
  var_i0 = var_j0 < var_j1;
  if (var_i0) {goto var_B8;}
  var_j0 = var_p2;
  var_j1 = var_l10;
  var_j0 += var_j1;
  var_l3 = var_j0;
  var_j0 = var_p0;
  var_j1 = var_l10;
  var_j0 += var_j1;
  var_l5 = var_j0;
  var_L10:
    var_i0 = 1u;
    var_l4 = var_i0;
    var_j0 = var_l5;
    var_i0 = i32_load8_u(origin, (u64)(var_j0));
    var_j1 = var_l3;
    var_i1 = i32_load8_u(origin, (u64)(var_j1));
    var_i0 = var_i0 != var_i1;
    var_j1 = var_l5;
    var_i1 = i32_load8_u(origin, (u64)(var_j1) + 1u);
    var_j2 = var_l3;
    var_i2 = i32_load8_u(origin, (u64)(var_j2) + 1u);
    var_i1 = var_i1 != var_i2;
    var_i2 = 1u;
    var_i1 <<= (var_i2 & 31);
    var_i0 |= var_i1;
    var_j1 = var_l5;
    var_i1 = i32_load8_u(origin, (u64)(var_j1) + 3u);
    var_j2 = var_l3;
    var_i2 = i32_load8_u(origin, (u64)(var_j2) + 3u);
    var_i1 = var_i1 != var_i2;
    var_i2 = 3u;
    var_i1 <<= (var_i2 & 31);
    var_j2 = var_l5;
    var_i2 = i32_load8_u(origin, (u64)(var_j2) + 2u);
    var_j3 = var_l3;
    var_i3 = i32_load8_u(origin, (u64)(var_j3) + 2u);
    var_i2 = var_i2 != var_i3;
    var_i3 = 2u;
    var_i2 <<= (var_i3 & 31);
    var_i1 |= var_i2;
    var_i0 |= var_i1;
    var_j1 = var_l5;
    var_i1 = i32_load8_u(origin, (u64)(var_j1) + 4u);
    var_j2 = var_l3;
    var_i2 = i32_load8_u(origin, (u64)(var_j2) + 4u);
    var_i1 = var_i1 != var_i2;
    var_j2 = var_l5;
    var_i2 = i32_load8_u(origin, (u64)(var_j2) + 5u);
    var_j3 = var_l3;
    var_i3 = i32_load8_u(origin, (u64)(var_j3) + 5u);
    var_i2 = var_i2 != var_i3;
    var_i3 = 1u;
    var_i2 <<= (var_i3 & 31);
    var_i1 |= var_i2;
    var_j2 = var_l5;
    var_i2 = i32_load8_u(origin, (u64)(var_j2) + 7u);
    var_j3 = var_l3;
    var_i3 = i32_load8_u(origin, (u64)(var_j3) + 7u);
    var_i2 = var_i2 != var_i3;
    var_i3 = 3u;
    var_i2 <<= (var_i3 & 31);
    var_j3 = var_l5;
    var_i3 = i32_load8_u(origin, (u64)(var_j3) + 6u);
    var_j4 = var_l3;
    var_i4 = i32_load8_u(origin, (u64)(var_j4) + 6u);
    var_i3 = var_i3 != var_i4;
    var_i4 = 2u;
    var_i3 <<= (var_i4 & 31);
    var_i2 |= var_i3;
    var_i1 |= var_i2;
    var_i2 = 4u;
    var_i1 <<= (var_i2 & 31);
    var_i0 |= var_i1;
    var_j1 = var_l5;
    var_i1 = i32_load8_u(origin, (u64)(var_j1) + 12u);
    var_j2 = var_l3;
    var_i2 = i32_load8_u(origin, (u64)(var_j2) + 12u);
    var_i1 = var_i1 != var_i2;
    var_j2 = var_l5;
    var_i2 = i32_load8_u(origin, (u64)(var_j2) + 13u);
    var_j3 = var_l3;
    var_i3 = i32_load8_u(origin, (u64)(var_j3) + 13u);
    var_i2 = var_i2 != var_i3;
    var_i3 = 1u;
    var_i2 <<= (var_i3 & 31);
    var_i1 |= var_i2;
    var_j2 = var_l5;
    var_i2 = i32_load8_u(origin, (u64)(var_j2) + 15u);
    var_j3 = var_l3;
    var_i3 = i32_load8_u(origin, (u64)(var_j3) + 15u);
    var_i2 = var_i2 != var_i3;
    var_i3 = 3u;
    var_i2 <<= (var_i3 & 31);
    var_j3 = var_l5;
    var_i3 = i32_load8_u(origin, (u64)(var_j3) + 14u);
    var_j4 = var_l3;
    var_i4 = i32_load8_u(origin, (u64)(var_j4) + 14u);
    var_i3 = var_i3 != var_i4;
    var_i4 = 2u;
    var_i3 <<= (var_i4 & 31);
    var_i2 |= var_i3;
    var_i1 |= var_i2;
    var_i2 = 12u;
    var_i1 <<= (var_i2 & 31);
    var_j2 = var_l5;
    var_i2 = i32_load8_u(origin, (u64)(var_j2) + 8u);
    var_j3 = var_l3;
    var_i3 = i32_load8_u(origin, (u64)(var_j3) + 8u);
    var_i2 = var_i2 != var_i3;
    var_j3 = var_l5;
    var_i3 = i32_load8_u(origin, (u64)(var_j3) + 9u);
    var_j4 = var_l3;
    var_i4 = i32_load8_u(origin, (u64)(var_j4) + 9u);
    var_i3 = var_i3 != var_i4;
    var_i4 = 1u;
    var_i3 <<= (var_i4 & 31);
    var_i2 |= var_i3;
    var_j3 = var_l5;
    var_i3 = i32_load8_u(origin, (u64)(var_j3) + 11u);
    var_j4 = var_l3;
    var_i4 = i32_load8_u(origin, (u64)(var_j4) + 11u);
    var_i3 = var_i3 != var_i4;
    var_i4 = 3u;
    var_i3 <<= (var_i4 & 31);
    var_j4 = var_l5;
    var_i4 = i32_load8_u(origin, (u64)(var_j4) + 10u);
    var_j5 = var_l3;
    var_i5 = i32_load8_u(origin, (u64)(var_j5) + 10u);
    var_i4 = var_i4 != var_i5;
    var_i5 = 2u;
    var_i4 <<= (var_i5 & 31);
    var_i3 |= var_i4;
    var_i2 |= var_i3;
    var_i3 = 8u;
    var_i2 <<= (var_i3 & 31);
    var_i1 |= var_i2;
    var_i0 |= var_i1;
    var_j1 = var_l5;
    var_i1 = i32_load8_u(origin, (u64)(var_j1) + 16u);
    var_j2 = var_l3;
    var_i2 = i32_load8_u(origin, (u64)(var_j2) + 16u);
    var_i1 = var_i1 != var_i2;
    var_j2 = var_l5;
    var_i2 = i32_load8_u(origin, (u64)(var_j2) + 17u);
    var_j3 = var_l3;
    var_i3 = i32_load8_u(origin, (u64)(var_j3) + 17u);
    var_i2 = var_i2 != var_i3;
    var_i3 = 1u;
    var_i2 <<= (var_i3 & 31);
    var_i1 |= var_i2;
    var_j2 = var_l5;
    var_i2 = i32_load8_u(origin, (u64)(var_j2) + 19u);
    var_j3 = var_l3;
    var_i3 = i32_load8_u(origin, (u64)(var_j3) + 19u);
    var_i2 = var_i2 != var_i3;
    var_i3 = 3u;
    var_i2 <<= (var_i3 & 31);
    var_j3 = var_l5;
    var_i3 = i32_load8_u(origin, (u64)(var_j3) + 18u);
    var_j4 = var_l3;
    var_i4 = i32_load8_u(origin, (u64)(var_j4) + 18u);
    var_i3 = var_i3 != var_i4;
    var_i4 = 2u;
    var_i3 <<= (var_i4 & 31);
    var_i2 |= var_i3;
    var_i1 |= var_i2;
    var_j2 = var_l5;
    var_i2 = i32_load8_u(origin, (u64)(var_j2) + 20u);
    var_j3 = var_l3;
    var_i3 = i32_load8_u(origin, (u64)(var_j3) + 20u);
    var_i2 = var_i2 != var_i3;
    var_j3 = var_l5;
    var_i3 = i32_load8_u(origin, (u64)(var_j3) + 21u);
    var_j4 = var_l3;
    var_i4 = i32_load8_u(origin, (u64)(var_j4) + 21u);
    var_i3 = var_i3 != var_i4;
    var_i4 = 1u;
    var_i3 <<= (var_i4 & 31);
    var_i2 |= var_i3;
    var_j3 = var_l5;
    var_i3 = i32_load8_u(origin, (u64)(var_j3) + 23u);
    var_j4 = var_l3;
    var_i4 = i32_load8_u(origin, (u64)(var_j4) + 23u);
    var_i3 = var_i3 != var_i4;
    var_i4 = 3u;
    var_i3 <<= (var_i4 & 31);
    var_j4 = var_l5;
    var_i4 = i32_load8_u(origin, (u64)(var_j4) + 22u);
    var_j5 = var_l3;
    var_i5 = i32_load8_u(origin, (u64)(var_j5) + 22u);
    var_i4 = var_i4 != var_i5;
    var_i5 = 2u;
    var_i4 <<= (var_i5 & 31);
    var_i3 |= var_i4;
    var_i2 |= var_i3;
    var_i3 = 4u;
    var_i2 <<= (var_i3 & 31);
    var_i1 |= var_i2;
    var_j2 = var_l5;
    var_i2 = i32_load8_u(origin, (u64)(var_j2) + 28u);
    var_j3 = var_l3;
    var_i3 = i32_load8_u(origin, (u64)(var_j3) + 28u);
    var_i2 = var_i2 != var_i3;
    var_j3 = var_l5;
    var_i3 = i32_load8_u(origin, (u64)(var_j3) + 29u);
    var_j4 = var_l3;
    var_i4 = i32_load8_u(origin, (u64)(var_j4) + 29u);
    var_i3 = var_i3 != var_i4;
    var_i4 = 1u;
    var_i3 <<= (var_i4 & 31);
    var_i2 |= var_i3;
    var_j3 = var_l5;
    var_i3 = i32_load8_u(origin, (u64)(var_j3) + 31u);
    var_j4 = var_l3;
    var_i4 = i32_load8_u(origin, (u64)(var_j4) + 31u);
    var_i3 = var_i3 != var_i4;
    var_i4 = 3u;
    var_i3 <<= (var_i4 & 31);
    var_j4 = var_l5;
    var_i4 = i32_load8_u(origin, (u64)(var_j4) + 30u);
    var_j5 = var_l3;
    var_i5 = i32_load8_u(origin, (u64)(var_j5) + 30u);
    var_i4 = var_i4 != var_i5;
    var_i5 = 2u;
    var_i4 <<= (var_i5 & 31);
    var_i3 |= var_i4;
    var_i2 |= var_i3;
    var_i3 = 12u;
    var_i2 <<= (var_i3 & 31);
    var_j3 = var_l5;
    var_i3 = i32_load8_u(origin, (u64)(var_j3) + 24u);
    var_j4 = var_l3;
    var_i4 = i32_load8_u(origin, (u64)(var_j4) + 24u);
    var_i3 = var_i3 != var_i4;
    var_j4 = var_l5;
    var_i4 = i32_load8_u(origin, (u64)(var_j4) + 25u);
    var_j5 = var_l3;
    var_i5 = i32_load8_u(origin, (u64)(var_j5) + 25u);
    var_i4 = var_i4 != var_i5;
    var_i5 = 1u;
    var_i4 <<= (var_i5 & 31);
    var_i3 |= var_i4;
    var_j4 = var_l5;
    var_i4 = i32_load8_u(origin, (u64)(var_j4) + 27u);
    var_j5 = var_l3;
    var_i5 = i32_load8_u(origin, (u64)(var_j5) + 27u);
    var_i4 = var_i4 != var_i5;
    var_i5 = 3u;
    var_i4 <<= (var_i5 & 31);
    var_j5 = var_l5;
    var_i5 = i32_load8_u(origin, (u64)(var_j5) + 26u);
    var_j6 = var_l3;
    var_i6 = i32_load8_u(origin, (u64)(var_j6) + 26u);
    var_i5 = var_i5 != var_i6;
    var_i6 = 2u;
    var_i5 <<= (var_i6 & 31);
    var_i4 |= var_i5;
    var_i3 |= var_i4;
    var_i4 = 8u;
    var_i3 <<= (var_i4 & 31);
    var_i2 |= var_i3;
    var_i1 |= var_i2;
    var_i0 |= var_i1;
    var_i1 = 65535u;
    var_i0 &= var_i1;
    if (var_i0) {goto var_B9;}
    var_j0 = var_l3;
    var_j1 = 32ull;
    var_j0 += var_j1;
    var_l3 = var_j0;
    var_j0 = var_l5;
    var_j1 = 32ull;
    var_j0 += var_j1;
    var_l5 = var_j0;
    var_j0 = var_l7;
    var_j1 = 18446744073709551584ull;
    var_j0 += var_j1;
    var_l7 = var_j0;
    var_j1 = 31ull;
    var_i0 = var_j0 > var_j1;
    if (var_i0) {goto var_L10;}
    goto var_B8;
  var_B9:;
  var_j0 = var_l7;
  var_j1 = 31ull;
  var_i0 = var_j0 > var_j1;
  if (var_i0) {goto var_B0;}
  var_B8:;
  var_j0 = var_p0;
  var_j1 = var_p1;
  var_j2 = 18446744073709551584ull;
  var_j1 += var_j2;
  var_l5 = var_j1;
  var_j0 += var_j1;
  var_l3 = var_j0;
  var_i0 = i32_load8_u(origin, (u64)(var_j0));
  var_j1 = var_p2;
  var_j2 = var_l5;
  var_j1 += var_j2;
  var_l5 = var_j1;
  var_i1 = i32_load8_u(origin, (u64)(var_j1));
  var_i0 = var_i0 != var_i1;
  var_j1 = var_l3;
  var_i1 = i32_load8_u(origin, (u64)(var_j1) + 1u);
  var_j2 = var_l5;
  var_i2 = i32_load8_u(origin, (u64)(var_j2) + 1u);
  var_i1 = var_i1 != var_i2;
  var_i2 = 1u;
  var_i1 <<= (var_i2 & 31);
  var_i0 |= var_i1;
  var_j1 = var_l3;
  var_i1 = i32_load8_u(origin, (u64)(var_j1) + 3u);
  var_j2 = var_l5;
  var_i2 = i32_load8_u(origin, (u64)(var_j2) + 3u);
  var_i1 = var_i1 != var_i2;
  var_i2 = 3u;
  var_i1 <<= (var_i2 & 31);
  var_j2 = var_l3;
  var_i2 = i32_load8_u(origin, (u64)(var_j2) + 2u);
  var_j3 = var_l5;
  var_i3 = i32_load8_u(origin, (u64)(var_j3) + 2u);
  var_i2 = var_i2 != var_i3;
  var_i3 = 2u;
  var_i2 <<= (var_i3 & 31);
  var_i1 |= var_i2;
  var_i0 |= var_i1;
  var_j1 = var_l3;
  var_i1 = i32_load8_u(origin, (u64)(var_j1) + 4u);
  var_j2 = var_l5;
  var_i2 = i32_load8_u(origin, (u64)(var_j2) + 4u);
  var_i1 = var_i1 != var_i2;
  var_j2 = var_l3;
  var_i2 = i32_load8_u(origin, (u64)(var_j2) + 5u);
  var_j3 = var_l5;
  var_i3 = i32_load8_u(origin, (u64)(var_j3) + 5u);
  var_i2 = var_i2 != var_i3;
  var_i3 = 1u;
  var_i2 <<= (var_i3 & 31);
  var_i1 |= var_i2;
  var_j2 = var_l3;
  var_i2 = i32_load8_u(origin, (u64)(var_j2) + 7u);
  var_j3 = var_l5;
  var_i3 = i32_load8_u(origin, (u64)(var_j3) + 7u);
  var_i2 = var_i2 != var_i3;
  var_i3 = 3u;
  var_i2 <<= (var_i3 & 31);
  var_j3 = var_l3;
  var_i3 = i32_load8_u(origin, (u64)(var_j3) + 6u);
  var_j4 = var_l5;
  var_i4 = i32_load8_u(origin, (u64)(var_j4) + 6u);
  var_i3 = var_i3 != var_i4;
  var_i4 = 2u;
  var_i3 <<= (var_i4 & 31);
  var_i2 |= var_i3;
  var_i1 |= var_i2;
  var_i2 = 4u;
  var_i1 <<= (var_i2 & 31);
  var_i0 |= var_i1;
  var_j1 = var_l3;
  var_i1 = i32_load8_u(origin, (u64)(var_j1) + 12u);
  var_j2 = var_l5;
  var_i2 = i32_load8_u(origin, (u64)(var_j2) + 12u);
  var_i1 = var_i1 != var_i2;
  var_j2 = var_l3;
  var_i2 = i32_load8_u(origin, (u64)(var_j2) + 13u);
  var_j3 = var_l5;
  var_i3 = i32_load8_u(origin, (u64)(var_j3) + 13u);
  var_i2 = var_i2 != var_i3;
  var_i3 = 1u;
  var_i2 <<= (var_i3 & 31);
  var_i1 |= var_i2;
  var_j2 = var_l3;
  var_i2 = i32_load8_u(origin, (u64)(var_j2) + 15u);
  var_j3 = var_l5;
  var_i3 = i32_load8_u(origin, (u64)(var_j3) + 15u);
  var_i2 = var_i2 != var_i3;
  var_i3 = 3u;
  var_i2 <<= (var_i3 & 31);
  var_j3 = var_l3;
  var_i3 = i32_load8_u(origin, (u64)(var_j3) + 14u);
  var_j4 = var_l5;
  var_i4 = i32_load8_u(origin, (u64)(var_j4) + 14u);
  var_i3 = var_i3 != var_i4;
  var_i4 = 2u;
  var_i3 <<= (var_i4 & 31);
  var_i2 |= var_i3;
  var_i1 |= var_i2;
  var_i2 = 12u;
  var_i1 <<= (var_i2 & 31);
  var_j2 = var_l3;
  var_i2 = i32_load8_u(origin, (u64)(var_j2) + 8u);
  var_j3 = var_l5;
  var_i3 = i32_load8_u(origin, (u64)(var_j3) + 8u);
  var_i2 = var_i2 != var_i3;
  var_j3 = var_l3;
  var_i3 = i32_load8_u(origin, (u64)(var_j3) + 9u);
  var_j4 = var_l5;
  var_i4 = i32_load8_u(origin, (u64)(var_j4) + 9u);
  var_i3 = var_i3 != var_i4;
  var_i4 = 1u;
  var_i3 <<= (var_i4 & 31);
  var_i2 |= var_i3;
  var_j3 = var_l3;
  var_i3 = i32_load8_u(origin, (u64)(var_j3) + 11u);
  var_j4 = var_l5;
  var_i4 = i32_load8_u(origin, (u64)(var_j4) + 11u);
  var_i3 = var_i3 != var_i4;
  var_i4 = 3u;
  var_i3 <<= (var_i4 & 31);
  var_j4 = var_l3;
  var_i4 = i32_load8_u(origin, (u64)(var_j4) + 10u);
  var_j5 = var_l5;
  var_i5 = i32_load8_u(origin, (u64)(var_j5) + 10u);
  var_i4 = var_i4 != var_i5;
  var_i5 = 2u;
  var_i4 <<= (var_i5 & 31);
  var_i3 |= var_i4;
  var_i2 |= var_i3;
  var_i3 = 8u;
  var_i2 <<= (var_i3 & 31);
  var_i1 |= var_i2;
  var_i0 |= var_i1;
  var_j1 = var_l3;
  var_i1 = i32_load8_u(origin, (u64)(var_j1) + 16u);
  var_j2 = var_l5;
  var_i2 = i32_load8_u(origin, (u64)(var_j2) + 16u);
  var_i1 = var_i1 != var_i2;
  var_j2 = var_l3;
  var_i2 = i32_load8_u(origin, (u64)(var_j2) + 17u);
  var_j3 = var_l5;
  var_i3 = i32_load8_u(origin, (u64)(var_j3) + 17u);
  var_i2 = var_i2 != var_i3;
  var_i3 = 1u;
  var_i2 <<= (var_i3 & 31);
  var_i1 |= var_i2;
  var_j2 = var_l3;
  var_i2 = i32_load8_u(origin, (u64)(var_j2) + 19u);
  var_j3 = var_l5;
  var_i3 = i32_load8_u(origin, (u64)(var_j3) + 19u);
  var_i2 = var_i2 != var_i3;
  var_i3 = 3u;
  var_i2 <<= (var_i3 & 31);
  var_j3 = var_l3;
  var_i3 = i32_load8_u(origin, (u64)(var_j3) + 18u);
  var_j4 = var_l5;
  var_i4 = i32_load8_u(origin, (u64)(var_j4) + 18u);
  var_i3 = var_i3 != var_i4;
  var_i4 = 2u;
  var_i3 <<= (var_i4 & 31);
  var_i2 |= var_i3;
  var_i1 |= var_i2;
  var_j2 = var_l3;
  var_i2 = i32_load8_u(origin, (u64)(var_j2) + 20u);
  var_j3 = var_l5;
  var_i3 = i32_load8_u(origin, (u64)(var_j3) + 20u);
  var_i2 = var_i2 != var_i3;
  var_j3 = var_l3;
  var_i3 = i32_load8_u(origin, (u64)(var_j3) + 21u);
  var_j4 = var_l5;
  var_i4 = i32_load8_u(origin, (u64)(var_j4) + 21u);
  var_i3 = var_i3 != var_i4;
  var_i4 = 1u;
  var_i3 <<= (var_i4 & 31);
  var_i2 |= var_i3;
  var_j3 = var_l3;
  var_i3 = i32_load8_u(origin, (u64)(var_j3) + 23u);
  var_j4 = var_l5;
  var_i4 = i32_load8_u(origin, (u64)(var_j4) + 23u);
  var_i3 = var_i3 != var_i4;
  var_i4 = 3u;
  var_i3 <<= (var_i4 & 31);
  var_j4 = var_l3;
  var_i4 = i32_load8_u(origin, (u64)(var_j4) + 22u);
  var_j5 = var_l5;
  var_i5 = i32_load8_u(origin, (u64)(var_j5) + 22u);
  var_i4 = var_i4 != var_i5;
  var_i5 = 2u;
  var_i4 <<= (var_i5 & 31);
  var_i3 |= var_i4;
  var_i2 |= var_i3;
  var_i3 = 4u;
  var_i2 <<= (var_i3 & 31);
  var_i1 |= var_i2;
  var_j2 = var_l3;
  var_i2 = i32_load8_u(origin, (u64)(var_j2) + 28u);
  var_j3 = var_l5;
  var_i3 = i32_load8_u(origin, (u64)(var_j3) + 28u);
  var_i2 = var_i2 != var_i3;
  var_j3 = var_l3;
  var_i3 = i32_load8_u(origin, (u64)(var_j3) + 29u);
  var_j4 = var_l5;
  var_i4 = i32_load8_u(origin, (u64)(var_j4) + 29u);
  var_i3 = var_i3 != var_i4;
  var_i4 = 1u;
  var_i3 <<= (var_i4 & 31);
  var_i2 |= var_i3;
  var_j3 = var_l3;
  var_i3 = i32_load8_u(origin, (u64)(var_j3) + 31u);
  var_j4 = var_l5;
  var_i4 = i32_load8_u(origin, (u64)(var_j4) + 31u);
  var_i3 = var_i3 != var_i4;
  var_i4 = 3u;
  var_i3 <<= (var_i4 & 31);
  var_j4 = var_l3;
  var_i4 = i32_load8_u(origin, (u64)(var_j4) + 30u);
  var_j5 = var_l5;
  var_i5 = i32_load8_u(origin, (u64)(var_j5) + 30u);
  var_i4 = var_i4 != var_i5;
  var_i5 = 2u;
  var_i4 <<= (var_i5 & 31);
  var_i3 |= var_i4;
  var_i2 |= var_i3;
  var_i3 = 12u;
  var_i2 <<= (var_i3 & 31);
  var_j3 = var_l3;
  var_i3 = i32_load8_u(origin, (u64)(var_j3) + 24u);
  var_j4 = var_l5;
  var_i4 = i32_load8_u(origin, (u64)(var_j4) + 24u);
  var_i3 = var_i3 != var_i4;
  var_j4 = var_l3;
  var_i4 = i32_load8_u(origin, (u64)(var_j4) + 25u);
  var_j5 = var_l5;
  var_i5 = i32_load8_u(origin, (u64)(var_j5) + 25u);
  var_i4 = var_i4 != var_i5;
  var_i5 = 1u;
  var_i4 <<= (var_i5 & 31);
  var_i3 |= var_i4;
  var_j4 = var_l3;
  var_i4 = i32_load8_u(origin, (u64)(var_j4) + 27u);
  var_j5 = var_l5;
  var_i5 = i32_load8_u(origin, (u64)(var_j5) + 27u);
  var_i4 = var_i4 != var_i5;
  var_i5 = 3u;
  var_i4 <<= (var_i5 & 31);
  var_j5 = var_l3;
  var_i5 = i32_load8_u(origin, (u64)(var_j5) + 26u);
  var_j6 = var_l5;
  var_i6 = i32_load8_u(origin, (u64)(var_j6) + 26u);
  var_i5 = var_i5 != var_i6;
  var_i6 = 2u;
  var_i5 <<= (var_i6 & 31);
  var_i4 |= var_i5;
  var_i3 |= var_i4;
  var_i4 = 8u;
  var_i3 <<= (var_i4 & 31);
  var_i2 |= var_i3;
  var_i1 |= var_i2;
  var_i0 |= var_i1;
  var_i1 = 65535u;
  var_i0 &= var_i1;
  var_i1 = 0u;
  var_i0 = var_i0 != var_i1;
  var_l4 = var_i0;
  goto var_B0;
  var_B2:;
  UNREACHABLE;
  var_B1:;
  var_j0 = var_p0;
  var_j1 = var_p1;
  var_j2 = 18446744073709551584ull;
  var_j1 += var_j2;
  var_l5 = var_j1;
  var_j0 += var_j1;
  var_l3 = var_j0;
  var_i0 = i32_load8_u(origin, (u64)(var_j0));
  var_j1 = var_p2;
  var_j2 = var_l5;
  var_j1 += var_j2;
  var_l5 = var_j1;
  var_i1 = i32_load8_u(origin, (u64)(var_j1));
  var_i0 = var_i0 != var_i1;
  var_j1 = var_l3;
  var_i1 = i32_load8_u(origin, (u64)(var_j1) + 1u);
  var_j2 = var_l5;
  var_i2 = i32_load8_u(origin, (u64)(var_j2) + 1u);
  var_i1 = var_i1 != var_i2;
  var_i2 = 1u;
  var_i1 <<= (var_i2 & 31);
  var_i0 |= var_i1;
  var_j1 = var_l3;
  var_i1 = i32_load8_u(origin, (u64)(var_j1) + 3u);
  var_j2 = var_l5;
  var_i2 = i32_load8_u(origin, (u64)(var_j2) + 3u);
  var_i1 = var_i1 != var_i2;
  var_i2 = 3u;
  var_i1 <<= (var_i2 & 31);
  var_j2 = var_l3;
  var_i2 = i32_load8_u(origin, (u64)(var_j2) + 2u);
  var_j3 = var_l5;
  var_i3 = i32_load8_u(origin, (u64)(var_j3) + 2u);
  var_i2 = var_i2 != var_i3;
  var_i3 = 2u;
  var_i2 <<= (var_i3 & 31);
  var_i1 |= var_i2;
  var_i0 |= var_i1;
  var_j1 = var_l3;
  var_i1 = i32_load8_u(origin, (u64)(var_j1) + 4u);
  var_j2 = var_l5;
  var_i2 = i32_load8_u(origin, (u64)(var_j2) + 4u);
  var_i1 = var_i1 != var_i2;
  var_j2 = var_l3;
  var_i2 = i32_load8_u(origin, (u64)(var_j2) + 5u);
  var_j3 = var_l5;
  var_i3 = i32_load8_u(origin, (u64)(var_j3) + 5u);
  var_i2 = var_i2 != var_i3;
  var_i3 = 1u;
  var_i2 <<= (var_i3 & 31);
  var_i1 |= var_i2;
  var_j2 = var_l3;
  var_i2 = i32_load8_u(origin, (u64)(var_j2) + 7u);
  var_j3 = var_l5;
  var_i3 = i32_load8_u(origin, (u64)(var_j3) + 7u);
  var_i2 = var_i2 != var_i3;
  var_i3 = 3u;
  var_i2 <<= (var_i3 & 31);
  var_j3 = var_l3;
  var_i3 = i32_load8_u(origin, (u64)(var_j3) + 6u);
  var_j4 = var_l5;
  var_i4 = i32_load8_u(origin, (u64)(var_j4) + 6u);
  var_i3 = var_i3 != var_i4;
  var_i4 = 2u;
  var_i3 <<= (var_i4 & 31);
  var_i2 |= var_i3;
  var_i1 |= var_i2;
  var_i2 = 4u;
  var_i1 <<= (var_i2 & 31);
  var_i0 |= var_i1;
  var_j1 = var_l3;
  var_i1 = i32_load8_u(origin, (u64)(var_j1) + 12u);
  var_j2 = var_l5;
  var_i2 = i32_load8_u(origin, (u64)(var_j2) + 12u);
  var_i1 = var_i1 != var_i2;
  var_j2 = var_l3;
  var_i2 = i32_load8_u(origin, (u64)(var_j2) + 13u);
  var_j3 = var_l5;
  var_i3 = i32_load8_u(origin, (u64)(var_j3) + 13u);
  var_i2 = var_i2 != var_i3;
  var_i3 = 1u;
  var_i2 <<= (var_i3 & 31);
  var_i1 |= var_i2;
  var_j2 = var_l3;
  var_i2 = i32_load8_u(origin, (u64)(var_j2) + 15u);
  var_j3 = var_l5;
  var_i3 = i32_load8_u(origin, (u64)(var_j3) + 15u);
  var_i2 = var_i2 != var_i3;
  var_i3 = 3u;
  var_i2 <<= (var_i3 & 31);
  var_j3 = var_l3;
  var_i3 = i32_load8_u(origin, (u64)(var_j3) + 14u);
  var_j4 = var_l5;
  var_i4 = i32_load8_u(origin, (u64)(var_j4) + 14u);
  var_i3 = var_i3 != var_i4;
  var_i4 = 2u;
  var_i3 <<= (var_i4 & 31);
  var_i2 |= var_i3;
  var_i1 |= var_i2;
  var_i2 = 12u;
  var_i1 <<= (var_i2 & 31);
  var_j2 = var_l3;
  var_i2 = i32_load8_u(origin, (u64)(var_j2) + 8u);
  var_j3 = var_l5;
  var_i3 = i32_load8_u(origin, (u64)(var_j3) + 8u);
  var_i2 = var_i2 != var_i3;
  var_j3 = var_l3;
  var_i3 = i32_load8_u(origin, (u64)(var_j3) + 9u);
  var_j4 = var_l5;
  var_i4 = i32_load8_u(origin, (u64)(var_j4) + 9u);
  var_i3 = var_i3 != var_i4;
  var_i4 = 1u;
  var_i3 <<= (var_i4 & 31);
  var_i2 |= var_i3;
  var_j3 = var_l3;
  var_i3 = i32_load8_u(origin, (u64)(var_j3) + 11u);
  var_j4 = var_l5;
  var_i4 = i32_load8_u(origin, (u64)(var_j4) + 11u);
  var_i3 = var_i3 != var_i4;
  var_i4 = 3u;
  var_i3 <<= (var_i4 & 31);
  var_j4 = var_l3;
  var_i4 = i32_load8_u(origin, (u64)(var_j4) + 10u);
  var_j5 = var_l5;
  var_i5 = i32_load8_u(origin, (u64)(var_j5) + 10u);
  var_i4 = var_i4 != var_i5;
  var_i5 = 2u;
  var_i4 <<= (var_i5 & 31);
  var_i3 |= var_i4;
  var_i2 |= var_i3;
  var_i3 = 8u;
  var_i2 <<= (var_i3 & 31);
  var_i1 |= var_i2;
  var_i0 |= var_i1;
  var_j1 = var_l3;
  var_i1 = i32_load8_u(origin, (u64)(var_j1) + 16u);
  var_j2 = var_l5;
  var_i2 = i32_load8_u(origin, (u64)(var_j2) + 16u);
  var_i1 = var_i1 != var_i2;
  var_j2 = var_l3;
  var_i2 = i32_load8_u(origin, (u64)(var_j2) + 17u);
  var_j3 = var_l5;
  var_i3 = i32_load8_u(origin, (u64)(var_j3) + 17u);
  var_i2 = var_i2 != var_i3;
  var_i3 = 1u;
  var_i2 <<= (var_i3 & 31);
  var_i1 |= var_i2;
  var_j2 = var_l3;
  var_i2 = i32_load8_u(origin, (u64)(var_j2) + 19u);
  var_j3 = var_l5;
  var_i3 = i32_load8_u(origin, (u64)(var_j3) + 19u);
  var_i2 = var_i2 != var_i3;
  var_i3 = 3u;
  var_i2 <<= (var_i3 & 31);
  var_j3 = var_l3;
  var_i3 = i32_load8_u(origin, (u64)(var_j3) + 18u);
  var_j4 = var_l5;
  var_i4 = i32_load8_u(origin, (u64)(var_j4) + 18u);
  var_i3 = var_i3 != var_i4;
  var_i4 = 2u;
  var_i3 <<= (var_i4 & 31);
  var_i2 |= var_i3;
  var_i1 |= var_i2;
  var_j2 = var_l3;
  var_i2 = i32_load8_u(origin, (u64)(var_j2) + 20u);
  var_j3 = var_l5;
  var_i3 = i32_load8_u(origin, (u64)(var_j3) + 20u);
  var_i2 = var_i2 != var_i3;
  var_j3 = var_l3;
  var_i3 = i32_load8_u(origin, (u64)(var_j3) + 21u);
  var_j4 = var_l5;
  var_i4 = i32_load8_u(origin, (u64)(var_j4) + 21u);
  var_i3 = var_i3 != var_i4;
  var_i4 = 1u;
  var_i3 <<= (var_i4 & 31);
  var_i2 |= var_i3;
  var_j3 = var_l3;
  var_i3 = i32_load8_u(origin, (u64)(var_j3) + 23u);
  var_j4 = var_l5;
  var_i4 = i32_load8_u(origin, (u64)(var_j4) + 23u);
  var_i3 = var_i3 != var_i4;
  var_i4 = 3u;
  var_i3 <<= (var_i4 & 31);
  var_j4 = var_l3;
  var_i4 = i32_load8_u(origin, (u64)(var_j4) + 22u);
  var_j5 = var_l5;
  var_i5 = i32_load8_u(origin, (u64)(var_j5) + 22u);
  var_i4 = var_i4 != var_i5;
  var_i5 = 2u;
  var_i4 <<= (var_i5 & 31);
  var_i3 |= var_i4;
  var_i2 |= var_i3;
  var_i3 = 4u;
  var_i2 <<= (var_i3 & 31);
  var_i1 |= var_i2;
  var_j2 = var_l3;
  var_i2 = i32_load8_u(origin, (u64)(var_j2) + 28u);
  var_j3 = var_l5;
  var_i3 = i32_load8_u(origin, (u64)(var_j3) + 28u);
  var_i2 = var_i2 != var_i3;
  var_j3 = var_l3;
  var_i3 = i32_load8_u(origin, (u64)(var_j3) + 29u);
  var_j4 = var_l5;
  var_i4 = i32_load8_u(origin, (u64)(var_j4) + 29u);
  var_i3 = var_i3 != var_i4;
  var_i4 = 1u;
  var_i3 <<= (var_i4 & 31);
  var_i2 |= var_i3;
  var_j3 = var_l3;
  var_i3 = i32_load8_u(origin, (u64)(var_j3) + 31u);
  var_j4 = var_l5;
  var_i4 = i32_load8_u(origin, (u64)(var_j4) + 31u);
  var_i3 = var_i3 != var_i4;
  var_i4 = 3u;
  var_i3 <<= (var_i4 & 31);
  var_j4 = var_l3;
  var_i4 = i32_load8_u(origin, (u64)(var_j4) + 30u);
  var_j5 = var_l5;
  var_i5 = i32_load8_u(origin, (u64)(var_j5) + 30u);
  var_i4 = var_i4 != var_i5;
  var_i5 = 2u;
  var_i4 <<= (var_i5 & 31);
  var_i3 |= var_i4;
  var_i2 |= var_i3;
  var_i3 = 12u;
  var_i2 <<= (var_i3 & 31);
  var_j3 = var_l3;
  var_i3 = i32_load8_u(origin, (u64)(var_j3) + 24u);
  var_j4 = var_l5;
  var_i4 = i32_load8_u(origin, (u64)(var_j4) + 24u);
  var_i3 = var_i3 != var_i4;
  var_j4 = var_l3;
  var_i4 = i32_load8_u(origin, (u64)(var_j4) + 25u);
  var_j5 = var_l5;
  var_i5 = i32_load8_u(origin, (u64)(var_j5) + 25u);
  var_i4 = var_i4 != var_i5;
  var_i5 = 1u;
  var_i4 <<= (var_i5 & 31);
  var_i3 |= var_i4;
  var_j4 = var_l3;
  var_i4 = i32_load8_u(origin, (u64)(var_j4) + 27u);
  var_j5 = var_l5;
  var_i5 = i32_load8_u(origin, (u64)(var_j5) + 27u);
  var_i4 = var_i4 != var_i5;
  var_i5 = 3u;
  var_i4 <<= (var_i5 & 31);
  var_j5 = var_l3;
  var_i5 = i32_load8_u(origin, (u64)(var_j5) + 26u);
  var_j6 = var_l5;
  var_i6 = i32_load8_u(origin, (u64)(var_j6) + 26u);
  var_i5 = var_i5 != var_i6;
  var_i6 = 2u;
  var_i5 <<= (var_i6 & 31);
  var_i4 |= var_i5;
  var_i3 |= var_i4;
  var_i4 = 8u;
  var_i3 <<= (var_i4 & 31);
  var_i2 |= var_i3;
  var_i1 |= var_i2;
  var_i0 |= var_i1;
  var_i1 = 65535u;
  var_i0 &= var_i1;
  var_i1 = 0u;
  var_i0 = var_i0 != var_i1;
  var_j1 = var_p0;
  var_i1 = i32_load8_u(origin, (u64)(var_j1));
  var_j2 = var_p2;
  var_i2 = i32_load8_u(origin, (u64)(var_j2));
  var_i1 = var_i1 != var_i2;
  var_i0 |= var_i1;
  var_j1 = var_p0;
  var_j2 = 1ull;
  var_j1 += var_j2;
  var_i1 = i32_load8_u(origin, (u64)(var_j1));
  var_j2 = var_p2;
  var_j3 = 1ull;
  var_j2 += var_j3;
  var_i2 = i32_load8_u(origin, (u64)(var_j2));
  var_i1 = var_i1 != var_i2;
  var_j2 = var_p0;
  var_j3 = 2ull;
  var_j2 += var_j3;
  var_i2 = i32_load8_u(origin, (u64)(var_j2));
  var_j3 = var_p2;
  var_j4 = 2ull;
  var_j3 += var_j4;
  var_i3 = i32_load8_u(origin, (u64)(var_j3));
  var_i2 = var_i2 != var_i3;
  var_i1 |= var_i2;
  var_i0 |= var_i1;
  var_j1 = var_p0;
  var_j2 = 3ull;
  var_j1 += var_j2;
  var_i1 = i32_load8_u(origin, (u64)(var_j1));
  var_j2 = var_p2;
  var_j3 = 3ull;
  var_j2 += var_j3;
  var_i2 = i32_load8_u(origin, (u64)(var_j2));
  var_i1 = var_i1 != var_i2;
  var_j2 = var_p0;
  var_j3 = 4ull;
  var_j2 += var_j3;
  var_i2 = i32_load8_u(origin, (u64)(var_j2));
  var_j3 = var_p2;
  var_j4 = 4ull;
  var_j3 += var_j4;
  var_i3 = i32_load8_u(origin, (u64)(var_j3));
  var_i2 = var_i2 != var_i3;
  var_i1 |= var_i2;
  var_j2 = var_p0;
  var_j3 = 5ull;
  var_j2 += var_j3;
  var_i2 = i32_load8_u(origin, (u64)(var_j2));
  var_j3 = var_p2;
  var_j4 = 5ull;
  var_j3 += var_j4;
  var_i3 = i32_load8_u(origin, (u64)(var_j3));
  var_i2 = var_i2 != var_i3;
  var_j3 = var_p0;
  var_j4 = 6ull;
  var_j3 += var_j4;
  var_i3 = i32_load8_u(origin, (u64)(var_j3));
  var_j4 = var_p2;
  var_j5 = 6ull;
  var_j4 += var_j5;
  var_i4 = i32_load8_u(origin, (u64)(var_j4));
  var_i3 = var_i3 != var_i4;
  var_i2 |= var_i3;
  var_i1 |= var_i2;
  var_i0 |= var_i1;
  var_j1 = var_p0;
  var_j2 = 7ull;
  var_j1 += var_j2;
  var_i1 = i32_load8_u(origin, (u64)(var_j1));
  var_j2 = var_p2;
  var_j3 = 7ull;
  var_j2 += var_j3;
  var_i2 = i32_load8_u(origin, (u64)(var_j2));
  var_i1 = var_i1 != var_i2;
  var_j2 = var_p0;
  var_j3 = 8ull;
  var_j2 += var_j3;
  var_i2 = i32_load8_u(origin, (u64)(var_j2));
  var_j3 = var_p2;
  var_j4 = 8ull;
  var_j3 += var_j4;
  var_i3 = i32_load8_u(origin, (u64)(var_j3));
  var_i2 = var_i2 != var_i3;
  var_i1 |= var_i2;
  var_j2 = var_p0;
  var_j3 = 9ull;
  var_j2 += var_j3;
  var_i2 = i32_load8_u(origin, (u64)(var_j2));
  var_j3 = var_p2;
  var_j4 = 9ull;
  var_j3 += var_j4;
  var_i3 = i32_load8_u(origin, (u64)(var_j3));
  var_i2 = var_i2 != var_i3;
  var_j3 = var_p0;
  var_j4 = 10ull;
  var_j3 += var_j4;
  var_i3 = i32_load8_u(origin, (u64)(var_j3));
  var_j4 = var_p2;
  var_j5 = 10ull;
  var_j4 += var_j5;
  var_i4 = i32_load8_u(origin, (u64)(var_j4));
  var_i3 = var_i3 != var_i4;
  var_i2 |= var_i3;
  var_i1 |= var_i2;
  var_j2 = var_p0;
  var_j3 = 11ull;
  var_j2 += var_j3;
  var_i2 = i32_load8_u(origin, (u64)(var_j2));
  var_j3 = var_p2;
  var_j4 = 11ull;
  var_j3 += var_j4;
  var_i3 = i32_load8_u(origin, (u64)(var_j3));
  var_i2 = var_i2 != var_i3;
  var_j3 = var_p0;
  var_j4 = 12ull;
  var_j3 += var_j4;
  var_i3 = i32_load8_u(origin, (u64)(var_j3));
  var_j4 = var_p2;
  var_j5 = 12ull;
  var_j4 += var_j5;
  var_i4 = i32_load8_u(origin, (u64)(var_j4));
  var_i3 = var_i3 != var_i4;
  var_i2 |= var_i3;
  var_j3 = var_p0;
  var_j4 = 13ull;
  var_j3 += var_j4;
  var_i3 = i32_load8_u(origin, (u64)(var_j3));
  var_j4 = var_p2;
  var_j5 = 13ull;
  var_j4 += var_j5;
  var_i4 = i32_load8_u(origin, (u64)(var_j4));
  var_i3 = var_i3 != var_i4;
  var_j4 = var_p0;
  var_j5 = 14ull;
  var_j4 += var_j5;
  var_i4 = i32_load8_u(origin, (u64)(var_j4));
  var_j5 = var_p2;
  var_j6 = 14ull;
  var_j5 += var_j6;
  var_i5 = i32_load8_u(origin, (u64)(var_j5));
  var_i4 = var_i4 != var_i5;
  var_i3 |= var_i4;
  var_i2 |= var_i3;
  var_i1 |= var_i2;
  var_i0 |= var_i1;
  var_j1 = var_p0;
  var_j2 = 15ull;
  var_j1 += var_j2;
  var_i1 = i32_load8_u(origin, (u64)(var_j1));
  var_j2 = var_p2;
  var_j3 = 15ull;
  var_j2 += var_j3;
  var_i2 = i32_load8_u(origin, (u64)(var_j2));
  var_i1 = var_i1 != var_i2;
  var_j2 = var_p0;
  var_j3 = 16ull;
  var_j2 += var_j3;
  var_i2 = i32_load8_u(origin, (u64)(var_j2));
  var_j3 = var_p2;
  var_j4 = 16ull;
  var_j3 += var_j4;
  var_i3 = i32_load8_u(origin, (u64)(var_j3));
  var_i2 = var_i2 != var_i3;
  var_i1 |= var_i2;
  var_j2 = var_p0;
  var_j3 = 17ull;
  var_j2 += var_j3;
  var_i2 = i32_load8_u(origin, (u64)(var_j2));
  var_j3 = var_p2;
  var_j4 = 17ull;
  var_j3 += var_j4;
  var_i3 = i32_load8_u(origin, (u64)(var_j3));
  var_i2 = var_i2 != var_i3;
  var_j3 = var_p0;
  var_j4 = 18ull;
  var_j3 += var_j4;
  var_i3 = i32_load8_u(origin, (u64)(var_j3));
  var_j4 = var_p2;
  var_j5 = 18ull;
  var_j4 += var_j5;
  var_i4 = i32_load8_u(origin, (u64)(var_j4));
  var_i3 = var_i3 != var_i4;
  var_i2 |= var_i3;
  var_i1 |= var_i2;
  var_j2 = var_p0;
  var_j3 = 19ull;
  var_j2 += var_j3;
  var_i2 = i32_load8_u(origin, (u64)(var_j2));
  var_j3 = var_p2;
  var_j4 = 19ull;
  var_j3 += var_j4;
  var_i3 = i32_load8_u(origin, (u64)(var_j3));
  var_i2 = var_i2 != var_i3;
  var_j3 = var_p0;
  var_j4 = 20ull;
  var_j3 += var_j4;
  var_i3 = i32_load8_u(origin, (u64)(var_j3));
  var_j4 = var_p2;
  var_j5 = 20ull;
  var_j4 += var_j5;
  var_i4 = i32_load8_u(origin, (u64)(var_j4));
  var_i3 = var_i3 != var_i4;
  var_i2 |= var_i3;
  var_j3 = var_p0;
  var_j4 = 21ull;
  var_j3 += var_j4;
  var_i3 = i32_load8_u(origin, (u64)(var_j3));
  var_j4 = var_p2;
  var_j5 = 21ull;
  var_j4 += var_j5;
  var_i4 = i32_load8_u(origin, (u64)(var_j4));
  var_i3 = var_i3 != var_i4;
  var_j4 = var_p0;
  var_j5 = 22ull;
  var_j4 += var_j5;
  var_i4 = i32_load8_u(origin, (u64)(var_j4));
  var_j5 = var_p2;
  var_j6 = 22ull;
  var_j5 += var_j6;
  var_i5 = i32_load8_u(origin, (u64)(var_j5));
  var_i4 = var_i4 != var_i5;
  var_i3 |= var_i4;
  var_i2 |= var_i3;
  var_i1 |= var_i2;
  var_j2 = var_p0;
  var_j3 = 23ull;
  var_j2 += var_j3;
  var_i2 = i32_load8_u(origin, (u64)(var_j2));
  var_j3 = var_p2;
  var_j4 = 23ull;
  var_j3 += var_j4;
  var_i3 = i32_load8_u(origin, (u64)(var_j3));
  var_i2 = var_i2 != var_i3;
  var_j3 = var_p0;
  var_j4 = 24ull;
  var_j3 += var_j4;
  var_i3 = i32_load8_u(origin, (u64)(var_j3));
  var_j4 = var_p2;
  var_j5 = 24ull;
  var_j4 += var_j5;
  var_i4 = i32_load8_u(origin, (u64)(var_j4));
  var_i3 = var_i3 != var_i4;
  var_i2 |= var_i3;
  var_j3 = var_p0;
  var_j4 = 25ull;
  var_j3 += var_j4;
  var_i3 = i32_load8_u(origin, (u64)(var_j3));
  var_j4 = var_p2;
  var_j5 = 25ull;
  var_j4 += var_j5;
  var_i4 = i32_load8_u(origin, (u64)(var_j4));
  var_i3 = var_i3 != var_i4;
  var_j4 = var_p0;
  var_j5 = 26ull;
  var_j4 += var_j5;
  var_i4 = i32_load8_u(origin, (u64)(var_j4));
  var_j5 = var_p2;
  var_j6 = 26ull;
  var_j5 += var_j6;
  var_i5 = i32_load8_u(origin, (u64)(var_j5));
  var_i4 = var_i4 != var_i5;
  var_i3 |= var_i4;
  var_i2 |= var_i3;
  var_j3 = var_p0;
  var_j4 = 27ull;
  var_j3 += var_j4;
  var_i3 = i32_load8_u(origin, (u64)(var_j3));
  var_j4 = var_p2;
  var_j5 = 27ull;
  var_j4 += var_j5;
  var_i4 = i32_load8_u(origin, (u64)(var_j4));
  var_i3 = var_i3 != var_i4;
  var_j4 = var_p0;
  var_j5 = 28ull;
  var_j4 += var_j5;
  var_i4 = i32_load8_u(origin, (u64)(var_j4));
  var_j5 = var_p2;
  var_j6 = 28ull;
  var_j5 += var_j6;
  var_i5 = i32_load8_u(origin, (u64)(var_j5));
  var_i4 = var_i4 != var_i5;
  var_i3 |= var_i4;
  var_j4 = var_p0;
  var_j5 = 29ull;
  var_j4 += var_j5;
  var_i4 = i32_load8_u(origin, (u64)(var_j4));
  var_j5 = var_p2;
  var_j6 = 29ull;
  var_j5 += var_j6;
  var_i5 = i32_load8_u(origin, (u64)(var_j5));
  var_i4 = var_i4 != var_i5;
  var_j5 = var_p0;
  var_j6 = 30ull;
  var_j5 += var_j6;
  var_i5 = i32_load8_u(origin, (u64)(var_j5));
  var_j6 = var_p2;
  var_j7 = 30ull;
  var_j6 += var_j7;
  var_i6 = i32_load8_u(origin, (u64)(var_j6));
  var_i5 = var_i5 != var_i6;
  var_i4 |= var_i5;
  var_i3 |= var_i4;
  var_i2 |= var_i3;
  var_i1 |= var_i2;
  var_i0 |= var_i1;
  var_j1 = var_p0;
  var_j2 = 31ull;
  var_j1 += var_j2;
  var_i1 = i32_load8_u(origin, (u64)(var_j1));
  var_j2 = var_p2;
  var_j3 = 31ull;
  var_j2 += var_j3;
  var_i2 = i32_load8_u(origin, (u64)(var_j2));
  var_i1 = var_i1 != var_i2;
  var_i0 |= var_i1;
  var_l4 = var_i0;
  var_B0:;
  var_i0 = var_l4;
  var_i1 = 4294967295u;
  var_i0 ^= var_i1;
  var_i1 = 1u;
  var_i0 &= var_i1;
  FUNC_EPILOGUE;
  return var_i0;
}

static void w2c_lockreplay_lk_lines0x3A0x3Avocabulary0x3A0x3Alock_named(w2c_lockreplay* instance, u64 var_p0, u64 var_p1, u64 var_p2) {
  u32 var_l5 = 0, var_l6 = 0;
  u64 var_l3 = 0, var_l4 = 0;
  FUNC_PROLOGUE;
  u32 var_i0, var_i1;
  u64 var_j0, var_j1, var_j2;
  var_j0 = instance->w2c_0x5F_stack_pointer;
  var_l3 = var_j0;
  var_j1 = 16ull;
  var_i0 = (u64)((s64)var_j0 < (s64)var_j1);
  if (var_i0) {goto var_B0;}
  var_j0 = var_p2;
  var_j1 = 18446744073709551613ull;
  var_j0 += var_j1;
  var_l4 = var_j0;
  var_j1 = 6ull;
  var_i0 = var_j0 > var_j1;
  if (var_i0) {goto var_B2;}
  var_j0 = var_l4;
  var_i0 = (u32)(var_j0);
  switch (var_i0) {
    case 0: goto var_B5;
    case 1: goto var_B2;
    case 2: goto var_B2;
    case 3: goto var_B6;
    case 4: goto var_B3;
    case 5: goto var_B2;
    case 6: goto var_B4;
    default: goto var_B5;
  }
  var_B6:;
  var_j0 = var_p1;
  var_i0 = i32_load8_u(origin, (u64)(var_j0));
  var_i1 = 116u;
  var_i0 = var_i0 != var_i1;
  if (var_i0) {goto var_B2;}
  var_j0 = var_p1;
  var_j1 = 1ull;
  var_j0 += var_j1;
  var_i0 = i32_load8_u(origin, (u64)(var_j0));
  var_i1 = 255u;
  var_i0 &= var_i1;
  var_i1 = 105u;
  var_i0 = var_i0 != var_i1;
  if (var_i0) {goto var_B2;}
  var_j0 = var_p1;
  var_j1 = 2ull;
  var_j0 += var_j1;
  var_i0 = i32_load8_u(origin, (u64)(var_j0));
  var_i1 = 255u;
  var_i0 &= var_i1;
  var_i1 = 99u;
  var_i0 = var_i0 != var_i1;
  if (var_i0) {goto var_B2;}
  var_j0 = var_p1;
  var_j1 = 3ull;
  var_j0 += var_j1;
  var_i0 = i32_load8_u(origin, (u64)(var_j0));
  var_i1 = 255u;
  var_i0 &= var_i1;
  var_i1 = 107u;
  var_i0 = var_i0 != var_i1;
  if (var_i0) {goto var_B2;}
  var_j0 = var_p1;
  var_j1 = 6ull;
  var_j2 = 1057656ull;
  var_i0 = w2c_lockreplay_core0x3A0x3Acmp0x3A0x3Aslices0x3A0x3Agroups_equal0x3A0x3A0x3Ci80x2C310x27core0x3A0x3Acmp0x3A0x3Anumbers0x3A0x3AU8PartialEq0x7B0x7D0x3E(instance, var_j0, var_j1, var_j2);
  var_i0 = !(var_i0);
  if (var_i0) {goto var_B2;}
  var_i0 = 1u;
  var_l5 = var_i0;
  var_i0 = 0u;
  var_l6 = var_i0;
  goto var_B1;
  var_B5:;
  var_j0 = var_p1;
  var_i0 = i32_load8_u(origin, (u64)(var_j0));
  var_i1 = 109u;
  var_i0 = var_i0 != var_i1;
  if (var_i0) {goto var_B2;}
  var_j0 = var_p1;
  var_j1 = 1ull;
  var_j0 += var_j1;
  var_i0 = i32_load8_u(origin, (u64)(var_j0));
  var_i1 = 99u;
  var_i0 = var_i0 != var_i1;
  if (var_i0) {goto var_B2;}
  var_j0 = var_p1;
  var_j1 = 2ull;
  var_j0 += var_j1;
  var_i0 = i32_load8_u(origin, (u64)(var_j0));
  var_i1 = 115u;
  var_i0 = var_i0 != var_i1;
  if (var_i0) {goto var_B2;}
  var_i0 = 1u;
  var_l6 = var_i0;
  var_i0 = 1u;
  var_l5 = var_i0;
  goto var_B1;
  var_B4:;
  var_j0 = var_p1;
  var_i0 = i32_load8_u(origin, (u64)(var_j0));
  var_i1 = 114u;
  var_i0 = var_i0 != var_i1;
  if (var_i0) {goto var_B2;}
  var_j0 = var_p1;
  var_j1 = 1ull;
  var_j0 += var_j1;
  var_i0 = i32_load8_u(origin, (u64)(var_j0));
  var_i1 = 255u;
  var_i0 &= var_i1;
  var_i1 = 119u;
  var_i0 = var_i0 != var_i1;
  if (var_i0) {goto var_B2;}
  var_j0 = var_p1;
  var_j1 = 2ull;
  var_j0 += var_j1;
  var_i0 = i32_load8_u(origin, (u64)(var_j0));
  var_i1 = 255u;
  var_i0 &= var_i1;
  var_i1 = 45u;
  var_i0 = var_i0 != var_i1;
  if (var_i0) {goto var_B2;}
  var_j0 = var_p1;
  var_j1 = 3ull;
  var_j0 += var_j1;
  var_i0 = i32_load8_u(origin, (u64)(var_j0));
  var_i1 = 255u;
  var_i0 &= var_i1;
  var_i1 = 115u;
  var_i0 = var_i0 != var_i1;
  if (var_i0) {goto var_B2;}
  var_j0 = var_p1;
  var_j1 = var_p2;
  var_j2 = 1057662ull;
  var_i0 = w2c_lockreplay_core0x3A0x3Acmp0x3A0x3Aslices0x3A0x3Agroups_equal0x3A0x3A0x3Ci80x2C310x27core0x3A0x3Acmp0x3A0x3Anumbers0x3A0x3AU8PartialEq0x7B0x7D0x3E(instance, var_j0, var_j1, var_j2);
  var_i0 = !(var_i0);
  if (var_i0) {goto var_B2;}
  var_i0 = 1u;
  var_l5 = var_i0;
  var_i0 = 2u;
  var_l6 = var_i0;
  goto var_B1;
  var_B3:;
  var_j0 = var_p1;
  var_i0 = i32_load8_u(origin, (u64)(var_j0));
  var_i1 = 114u;
  var_i0 = var_i0 != var_i1;
  if (var_i0) {goto var_B2;}
  var_j0 = var_p1;
  var_j1 = 1ull;
  var_j0 += var_j1;
  var_i0 = i32_load8_u(origin, (u64)(var_j0));
  var_i1 = 255u;
  var_i0 &= var_i1;
  var_i1 = 119u;
  var_i0 = var_i0 != var_i1;
  if (var_i0) {goto var_B2;}
  var_j0 = var_p1;
  var_j1 = 2ull;
  var_j0 += var_j1;
  var_i0 = i32_load8_u(origin, (u64)(var_j0));
  var_i1 = 255u;
  var_i0 &= var_i1;
  var_i1 = 45u;
  var_i0 = var_i0 != var_i1;
  if (var_i0) {goto var_B2;}
  var_j0 = var_p1;
  var_j1 = 3ull;
  var_j0 += var_j1;
  var_i0 = i32_load8_u(origin, (u64)(var_j0));
  var_i1 = 255u;
  var_i0 &= var_i1;
  var_i1 = 102u;
  var_i0 = var_i0 != var_i1;
  if (var_i0) {goto var_B2;}
  var_j0 = var_p1;
  var_j1 = var_p2;
  var_j2 = 1057671ull;
  var_i0 = w2c_lockreplay_core0x3A0x3Acmp0x3A0x3Aslices0x3A0x3Agroups_equal0x3A0x3A0x3Ci80x2C310x27core0x3A0x3Acmp0x3A0x3Anumbers0x3A0x3AU8PartialEq0x7B0x7D0x3E(instance, var_j0, var_j1, var_j2);
  var_i0 = !(var_i0);
  if (var_i0) {goto var_B2;}
  var_i0 = 1u;
  var_l5 = var_i0;
  var_i0 = 3u;
  var_l6 = var_i0;
  goto var_B1;
  var_B2:;
  var_i0 = 0u;
  var_l6 = var_i0;
  var_i0 = 0u;
  var_l5 = var_i0;
  var_B1:;
  var_j0 = var_p0;
  var_i1 = var_l6;
  i32_store8(origin, (u64)(var_j0) + 1, var_i1);
  var_j0 = var_p0;
  var_i1 = var_l5;
  i32_store8(origin, (u64)(var_j0), var_i1);
  var_j0 = var_l3;
  instance->w2c_0x5F_stack_pointer = var_j0;
  goto var_Bfunc;
  var_B0:;
  UNREACHABLE;
  var_Bfunc:;
  FUNC_EPILOGUE;
}

static void w2c_lockreplay_lk_lines0x3A0x3Avocabulary0x3A0x3Anumber_of(w2c_lockreplay* instance, u64 var_p0, u64 var_p1, u64 var_p2, u32 var_p3, u32 var_p4) {
  u32 var_l5 = 0, var_l6 = 0;
  u64 var_l7 = 0, var_l8 = 0;
  FUNC_PROLOGUE;
  u32 var_i0, var_i1, var_i2, var_i3;
  u64 var_j0, var_j1, var_j2, var_j3, var_j4;
  var_j0 = instance->w2c_0x5F_stack_pointer;
  var_j1 = 16ull;
  var_i0 = (u64)((s64)var_j0 < (s64)var_j1);
  if (var_i0) {goto var_B0;}
  var_i0 = 0u;
  var_l5 = var_i0;
  var_j0 = var_p2;
  var_j1 = 1ull;
  var_i0 = var_j0 > var_j1;
  if (var_i0) {goto var_B3;}
  var_i0 = 0u;
  var_l6 = var_i0;
  var_j0 = var_p2;
  var_i0 = (u32)(var_j0);
  switch (var_i0) {
    case 0: goto var_B1;
    case 1: goto var_B2;
    default: goto var_B1;
  }
  var_B3:;
  var_j0 = var_p1;
  var_i0 = i32_load8_u(origin, (u64)(var_j0));
  var_i1 = 48u;
  var_i0 = var_i0 != var_i1;
  if (var_i0) {goto var_B2;}
  var_i0 = 0u;
  var_l6 = var_i0;
  goto var_B1;
  var_B2:;
  var_j0 = 0ull;
  var_l7 = var_j0;
  var_L4:
    var_j0 = var_l7;
    var_j1 = 1844674407370955161ull;
    var_i0 = var_j0 <= var_j1;
    if (var_i0) {goto var_B5;}
    var_i0 = 0u;
    var_l6 = var_i0;
    goto var_B1;
    var_B5:;
    var_j0 = var_p1;
    var_i0 = i32_load8_u(origin, (u64)(var_j0));
    var_i1 = 4294967248u;
    var_i0 += var_i1;
    var_l6 = var_i0;
    var_i1 = 255u;
    var_i0 &= var_i1;
    var_i1 = 9u;
    var_i0 = var_i0 <= var_i1;
    if (var_i0) {goto var_B6;}
    var_i0 = 0u;
    var_l6 = var_i0;
    goto var_B1;
    var_B6:;
    var_j0 = var_l7;
    var_j1 = 10ull;
    var_j0 *= var_j1;
    var_l7 = var_j0;
    var_i1 = var_l6;
    var_j1 = (u64)(var_i1);
    var_j2 = 255ull;
    var_j1 &= var_j2;
    var_l8 = var_j1;
    var_j2 = 18446744073709551615ull;
    var_j1 ^= var_j2;
    var_i0 = var_j0 <= var_j1;
    if (var_i0) {goto var_B7;}
    var_i0 = 0u;
    var_l6 = var_i0;
    goto var_B1;
    var_B7:;
    var_j0 = var_p1;
    var_j1 = 1ull;
    var_j0 += var_j1;
    var_p1 = var_j0;
    var_j0 = var_l7;
    var_j1 = var_l8;
    var_j0 += var_j1;
    var_l7 = var_j0;
    var_j0 = var_p2;
    var_j1 = 18446744073709551615ull;
    var_j0 += var_j1;
    var_p2 = var_j0;
    var_j1 = 0ull;
    var_i0 = var_j0 != var_j1;
    if (var_i0) {goto var_L4;}
  var_i0 = 0u;
  var_l6 = var_i0;
  var_j0 = var_l7;
  var_i1 = var_p3;
  var_j1 = (u64)(var_i1);
  var_j2 = 255ull;
  var_j1 &= var_j2;
  var_i0 = var_j0 < var_j1;
  if (var_i0) {goto var_B1;}
  var_j0 = var_l7;
  var_i0 = (u32)(var_j0);
  var_i1 = 0u;
  var_j2 = var_l7;
  var_i3 = var_p4;
  var_j3 = (u64)(var_i3);
  var_j4 = 255ull;
  var_j3 &= var_j4;
  var_i2 = var_j2 <= var_j3;
  var_l6 = var_i2;
  var_i0 = var_i2 ? var_i0 : var_i1;
  var_l5 = var_i0;
  var_B1:;
  var_j0 = var_p0;
  var_i1 = var_l5;
  i32_store8(origin, (u64)(var_j0) + 1, var_i1);
  var_j0 = var_p0;
  var_i1 = var_l6;
  i32_store8(origin, (u64)(var_j0), var_i1);
  goto var_Bfunc;
  var_B0:;
  UNREACHABLE;
  var_Bfunc:;
  FUNC_EPILOGUE;
}

static void w2c_lockreplay_lk_lines0x3A0x3Avocabulary0x3A0x3Awhole_number(w2c_lockreplay* instance, u64 var_p0, u64 var_p1, u64 var_p2) {
  u32 var_l3 = 0, var_l5 = 0;
  u64 var_l4 = 0, var_l6 = 0;
  FUNC_PROLOGUE;
  u32 var_i0, var_i1;
  u64 var_j0, var_j1, var_j2;
  var_j0 = instance->w2c_0x5F_stack_pointer;
  var_j1 = 16ull;
  var_i0 = (u64)((s64)var_j0 < (s64)var_j1);
  if (var_i0) {goto var_B0;}
  var_i0 = 0u;
  var_l3 = var_i0;
  var_j0 = var_p2;
  var_j1 = 1ull;
  var_i0 = var_j0 > var_j1;
  if (var_i0) {goto var_B3;}
  var_j0 = var_p2;
  var_i0 = (u32)(var_j0);
  switch (var_i0) {
    case 0: goto var_B1;
    case 1: goto var_B2;
    default: goto var_B1;
  }
  var_B3:;
  var_j0 = var_p1;
  var_i0 = i32_load8_u(origin, (u64)(var_j0));
  var_i1 = 48u;
  var_i0 = var_i0 != var_i1;
  if (var_i0) {goto var_B2;}
  var_j0 = 0ull;
  var_p2 = var_j0;
  goto var_B1;
  var_B2:;
  var_j0 = 0ull;
  var_l4 = var_j0;
  var_L4:
    var_j0 = var_l4;
    var_j1 = 1844674407370955161ull;
    var_i0 = var_j0 <= var_j1;
    if (var_i0) {goto var_B5;}
    var_j0 = 0ull;
    var_p2 = var_j0;
    goto var_B1;
    var_B5:;
    var_j0 = var_p1;
    var_i0 = i32_load8_u(origin, (u64)(var_j0));
    var_i1 = 4294967248u;
    var_i0 += var_i1;
    var_l5 = var_i0;
    var_i1 = 255u;
    var_i0 &= var_i1;
    var_i1 = 9u;
    var_i0 = var_i0 <= var_i1;
    if (var_i0) {goto var_B6;}
    var_j0 = 0ull;
    var_p2 = var_j0;
    goto var_B1;
    var_B6:;
    var_j0 = var_l4;
    var_j1 = 10ull;
    var_j0 *= var_j1;
    var_l4 = var_j0;
    var_i1 = var_l5;
    var_j1 = (u64)(var_i1);
    var_j2 = 255ull;
    var_j1 &= var_j2;
    var_l6 = var_j1;
    var_j2 = 18446744073709551615ull;
    var_j1 ^= var_j2;
    var_i0 = var_j0 <= var_j1;
    if (var_i0) {goto var_B7;}
    var_j0 = 0ull;
    var_p2 = var_j0;
    goto var_B1;
    var_B7:;
    var_j0 = var_p1;
    var_j1 = 1ull;
    var_j0 += var_j1;
    var_p1 = var_j0;
    var_j0 = var_l4;
    var_j1 = var_l6;
    var_j0 += var_j1;
    var_l4 = var_j0;
    var_j0 = var_p2;
    var_j1 = 18446744073709551615ull;
    var_j0 += var_j1;
    var_p2 = var_j0;
    var_j1 = 0ull;
    var_i0 = var_j0 != var_j1;
    if (var_i0) {goto var_L4;}
  var_i0 = 1u;
  var_l3 = var_i0;
  var_j0 = var_l4;
  var_p2 = var_j0;
  var_B1:;
  var_j0 = var_p0;
  var_j1 = var_p2;
  i64_store(origin, (u64)(var_j0) + 8, var_j1);
  var_j0 = var_p0;
  var_i1 = var_l3;
  i32_store8(origin, (u64)(var_j0), var_i1);
  goto var_Bfunc;
  var_B0:;
  UNREACHABLE;
  var_Bfunc:;
  FUNC_EPILOGUE;
}

static void w2c_lockreplay_lk_lines0x3A0x3Avocabulary0x3A0x3Amove_named(w2c_lockreplay* instance, u64 var_p0, u64 var_p1, u64 var_p2) {
  u32 var_l5 = 0, var_l6 = 0, var_l7 = 0, var_l8 = 0;
  u64 var_l3 = 0, var_l4 = 0;
  FUNC_PROLOGUE;
  u32 var_i0, var_i1;
  u64 var_j0, var_j1, var_j2;
  var_j0 = instance->w2c_0x5F_stack_pointer;
  var_l3 = var_j0;
  var_j1 = 16ull;
  var_i0 = (u64)((s64)var_j0 < (s64)var_j1);
  if (var_i0) {goto var_B3;}
  var_j0 = var_p2;
  var_j1 = 18446744073709551613ull;
  var_j0 += var_j1;
  var_l4 = var_j0;
  var_j1 = 6ull;
  var_i0 = var_j0 > var_j1;
  if (var_i0) {goto var_B1;}
  var_j0 = var_l4;
  var_i0 = (u32)(var_j0);
  switch (var_i0) {
    case 0: goto var_B8;
    case 1: goto var_B9;
    case 2: goto var_B11;
    case 3: goto var_B1;
    case 4: goto var_B10;
    case 5: goto var_B1;
    case 6: goto var_B4;
    default: goto var_B8;
  }
  var_B11:;
  var_j0 = var_p1;
  var_j1 = 3ull;
  var_j0 += var_j1;
  var_i0 = i32_load8_u(origin, (u64)(var_j0));
  var_l5 = var_i0;
  var_j0 = var_p1;
  var_j1 = 2ull;
  var_j0 += var_j1;
  var_i0 = i32_load8_u(origin, (u64)(var_j0));
  var_l6 = var_i0;
  var_j0 = var_p1;
  var_j1 = 1ull;
  var_j0 += var_j1;
  var_i0 = i32_load8_u(origin, (u64)(var_j0));
  var_l7 = var_i0;
  var_j0 = var_p1;
  var_i0 = i32_load8_u(origin, (u64)(var_j0));
  var_l8 = var_i0;
  var_i1 = 119u;
  var_i0 = var_i0 != var_i1;
  if (var_i0) {goto var_B6;}
  var_i0 = var_l7;
  var_i1 = 255u;
  var_i0 &= var_i1;
  var_i1 = 114u;
  var_i0 = var_i0 != var_i1;
  if (var_i0) {goto var_B6;}
  var_i0 = var_l6;
  var_i1 = 255u;
  var_i0 &= var_i1;
  var_i1 = 105u;
  var_i0 = var_i0 != var_i1;
  if (var_i0) {goto var_B6;}
  var_i0 = var_l5;
  var_i1 = 255u;
  var_i0 &= var_i1;
  var_i1 = 116u;
  var_i0 = var_i0 != var_i1;
  if (var_i0) {goto var_B6;}
  var_j0 = var_p1;
  var_j1 = 5ull;
  var_j2 = 1057711ull;
  var_i0 = w2c_lockreplay_core0x3A0x3Acmp0x3A0x3Aslices0x3A0x3Agroups_equal0x3A0x3A0x3Ci80x2C310x27core0x3A0x3Acmp0x3A0x3Anumbers0x3A0x3AU8PartialEq0x7B0x7D0x3E(instance, var_j0, var_j1, var_j2);
  var_i0 = !(var_i0);
  if (var_i0) {goto var_B6;}
  var_i0 = 1u;
  var_l7 = var_i0;
  var_i0 = 1u;
  var_l6 = var_i0;
  var_i0 = 1u;
  var_l5 = var_i0;
  goto var_B0;
  var_B10:;
  var_j0 = var_p1;
  var_j1 = 3ull;
  var_j0 += var_j1;
  var_i0 = i32_load8_u(origin, (u64)(var_j0));
  var_l5 = var_i0;
  var_j0 = var_p1;
  var_j1 = 2ull;
  var_j0 += var_j1;
  var_i0 = i32_load8_u(origin, (u64)(var_j0));
  var_l7 = var_i0;
  var_j0 = var_p1;
  var_j1 = 1ull;
  var_j0 += var_j1;
  var_i0 = i32_load8_u(origin, (u64)(var_j0));
  var_l6 = var_i0;
  var_j0 = var_p1;
  var_i0 = i32_load8_u(origin, (u64)(var_j0));
  var_l8 = var_i0;
  var_i1 = 115u;
  var_i0 = var_i0 != var_i1;
  if (var_i0) {goto var_B7;}
  var_i0 = var_l7;
  var_i1 = 255u;
  var_i0 &= var_i1;
  var_i1 = 99u;
  var_i0 = var_i0 != var_i1;
  if (var_i0) {goto var_B7;}
  var_i0 = var_l5;
  var_i1 = 255u;
  var_i0 &= var_i1;
  var_i1 = 116u;
  var_i0 = var_i0 != var_i1;
  if (var_i0) {goto var_B7;}
  var_i0 = var_l6;
  var_i1 = 255u;
  var_i0 &= var_i1;
  var_i1 = 101u;
  var_i0 = var_i0 != var_i1;
  if (var_i0) {goto var_B7;}
  var_j0 = var_p1;
  var_j1 = 7ull;
  var_j2 = 1057704ull;
  var_i0 = w2c_lockreplay_core0x3A0x3Acmp0x3A0x3Aslices0x3A0x3Agroups_equal0x3A0x3A0x3Ci80x2C310x27core0x3A0x3Acmp0x3A0x3Anumbers0x3A0x3AU8PartialEq0x7B0x7D0x3E(instance, var_j0, var_j1, var_j2);
  var_i0 = !(var_i0);
  if (var_i0) {goto var_B7;}
  var_i0 = 1u;
  var_l6 = var_i0;
  var_i0 = 5u;
  var_l7 = var_i0;
  var_i0 = 1u;
  var_l5 = var_i0;
  goto var_B0;
  var_B9:;
  var_j0 = var_p1;
  var_j1 = 3ull;
  var_j0 += var_j1;
  var_i0 = i32_load8_u(origin, (u64)(var_j0));
  var_l6 = var_i0;
  var_j0 = var_p1;
  var_j1 = 2ull;
  var_j0 += var_j1;
  var_i0 = i32_load8_u(origin, (u64)(var_j0));
  var_l5 = var_i0;
  var_j0 = var_p1;
  var_j1 = 1ull;
  var_j0 += var_j1;
  var_i0 = i32_load8_u(origin, (u64)(var_j0));
  var_l7 = var_i0;
  var_j0 = var_p1;
  var_i0 = i32_load8_u(origin, (u64)(var_j0));
  var_l8 = var_i0;
  var_i1 = 114u;
  var_i0 = var_i0 != var_i1;
  if (var_i0) {goto var_B12;}
  var_i0 = var_l7;
  var_i1 = 255u;
  var_i0 &= var_i1;
  var_i1 = 101u;
  var_i0 = var_i0 != var_i1;
  if (var_i0) {goto var_B12;}
  var_i0 = var_l6;
  var_i1 = 255u;
  var_i0 &= var_i1;
  var_i1 = 100u;
  var_i0 = var_i0 != var_i1;
  if (var_i0) {goto var_B12;}
  var_i0 = var_l5;
  var_i1 = 255u;
  var_i0 &= var_i1;
  var_i1 = 97u;
  var_i0 = var_i0 != var_i1;
  if (var_i0) {goto var_B12;}
  var_j0 = var_p1;
  var_j1 = 4ull;
  var_j2 = 1057700ull;
  var_i0 = w2c_lockreplay_core0x3A0x3Acmp0x3A0x3Aslices0x3A0x3Agroups_equal0x3A0x3A0x3Ci80x2C310x27core0x3A0x3Acmp0x3A0x3Anumbers0x3A0x3AU8PartialEq0x7B0x7D0x3E(instance, var_j0, var_j1, var_j2);
  var_i0 = !(var_i0);
  if (var_i0) {goto var_B1;}
  var_i0 = 1u;
  var_l6 = var_i0;
  var_i0 = 0u;
  var_l7 = var_i0;
  var_i0 = 1u;
  var_l5 = var_i0;
  goto var_B0;
  var_B12:;
  var_i0 = var_l8;
  var_i1 = 115u;
  var_i0 = var_i0 != var_i1;
  if (var_i0) {goto var_B1;}
  var_i0 = var_l7;
  var_i1 = 255u;
  var_i0 &= var_i1;
  var_i1 = 119u;
  var_i0 = var_i0 != var_i1;
  if (var_i0) {goto var_B1;}
  var_i0 = var_l6;
  var_i1 = 255u;
  var_i0 &= var_i1;
  var_i1 = 112u;
  var_i0 = var_i0 != var_i1;
  if (var_i0) {goto var_B1;}
  var_i0 = var_l5;
  var_i1 = 255u;
  var_i0 &= var_i1;
  var_i1 = 97u;
  var_i0 = var_i0 != var_i1;
  if (var_i0) {goto var_B1;}
  var_j0 = var_p1;
  var_j1 = 4ull;
  var_j2 = 1057716ull;
  var_i0 = w2c_lockreplay_core0x3A0x3Acmp0x3A0x3Aslices0x3A0x3Agroups_equal0x3A0x3A0x3Ci80x2C310x27core0x3A0x3Acmp0x3A0x3Anumbers0x3A0x3AU8PartialEq0x7B0x7D0x3E(instance, var_j0, var_j1, var_j2);
  var_i0 = !(var_i0);
  if (var_i0) {goto var_B1;}
  var_i0 = 1u;
  var_l6 = var_i0;
  var_i0 = 2u;
  var_l7 = var_i0;
  var_i0 = 1u;
  var_l5 = var_i0;
  goto var_B0;
  var_B8:;
  var_j0 = var_p1;
  var_i0 = i32_load8_u(origin, (u64)(var_j0));
  var_i1 = 99u;
  var_i0 = var_i0 != var_i1;
  if (var_i0) {goto var_B13;}
  var_j0 = var_p1;
  var_j1 = 1ull;
  var_j0 += var_j1;
  var_i0 = i32_load8_u(origin, (u64)(var_j0));
  var_i1 = 97u;
  var_i0 = var_i0 != var_i1;
  if (var_i0) {goto var_B13;}
  var_j0 = var_p1;
  var_j1 = 2ull;
  var_j0 += var_j1;
  var_i0 = i32_load8_u(origin, (u64)(var_j0));
  var_i1 = 115u;
  var_i0 = var_i0 != var_i1;
  if (var_i0) {goto var_B13;}
  var_i0 = 1u;
  var_l6 = var_i0;
  var_i0 = 3u;
  var_l7 = var_i0;
  var_i0 = 1u;
  var_l5 = var_i0;
  goto var_B0;
  var_B13:;
  var_j0 = var_p1;
  var_i0 = i32_load8_u(origin, (u64)(var_j0));
  var_i1 = 97u;
  var_i0 = var_i0 != var_i1;
  if (var_i0) {goto var_B5;}
  var_j0 = var_p1;
  var_j1 = 1ull;
  var_j0 += var_j1;
  var_i0 = i32_load8_u(origin, (u64)(var_j0));
  var_i1 = 100u;
  var_i0 = var_i0 != var_i1;
  if (var_i0) {goto var_B5;}
  var_j0 = var_p1;
  var_j1 = 2ull;
  var_j0 += var_j1;
  var_i0 = i32_load8_u(origin, (u64)(var_j0));
  var_i1 = 100u;
  var_i0 = var_i0 != var_i1;
  if (var_i0) {goto var_B5;}
  var_i0 = 1u;
  var_l6 = var_i0;
  var_i0 = 4u;
  var_l7 = var_i0;
  var_i0 = 1u;
  var_l5 = var_i0;
  goto var_B0;
  var_B7:;
  var_i0 = var_l8;
  var_i1 = 97u;
  var_i0 = var_i0 != var_i1;
  if (var_i0) {goto var_B14;}
  var_i0 = var_l6;
  var_i1 = 255u;
  var_i0 &= var_i1;
  var_i1 = 99u;
  var_i0 = var_i0 != var_i1;
  if (var_i0) {goto var_B14;}
  var_i0 = var_l7;
  var_i1 = 255u;
  var_i0 &= var_i1;
  var_i1 = 113u;
  var_i0 = var_i0 != var_i1;
  if (var_i0) {goto var_B14;}
  var_i0 = var_l5;
  var_i1 = 255u;
  var_i0 &= var_i1;
  var_i1 = 117u;
  var_i0 = var_i0 != var_i1;
  if (var_i0) {goto var_B14;}
  var_j0 = var_p1;
  var_j1 = 7ull;
  var_j2 = 1057726ull;
  var_i0 = w2c_lockreplay_core0x3A0x3Acmp0x3A0x3Aslices0x3A0x3Agroups_equal0x3A0x3A0x3Ci80x2C310x27core0x3A0x3Acmp0x3A0x3Anumbers0x3A0x3AU8PartialEq0x7B0x7D0x3E(instance, var_j0, var_j1, var_j2);
  if (var_i0) {goto var_B15;}
  var_i0 = 97u;
  var_l8 = var_i0;
  var_i0 = 99u;
  var_l6 = var_i0;
  var_i0 = 113u;
  var_l7 = var_i0;
  var_i0 = 117u;
  var_l5 = var_i0;
  goto var_B2;
  var_B15:;
  var_i0 = 1u;
  var_l5 = var_i0;
  var_i0 = 0u;
  var_l7 = var_i0;
  var_i0 = 0u;
  var_l6 = var_i0;
  goto var_B0;
  var_B14:;
  var_i0 = var_l8;
  var_i1 = 114u;
  var_i0 = var_i0 != var_i1;
  if (var_i0) {goto var_B2;}
  var_i0 = var_l7;
  var_i1 = 255u;
  var_i0 &= var_i1;
  var_i1 = 108u;
  var_i0 = var_i0 != var_i1;
  if (var_i0) {goto var_B2;}
  var_i0 = var_l5;
  var_i1 = 255u;
  var_i0 &= var_i1;
  var_i1 = 101u;
  var_i0 = var_i0 != var_i1;
  if (var_i0) {goto var_B2;}
  var_i0 = var_l6;
  var_i1 = 255u;
  var_i0 &= var_i1;
  var_i1 = 101u;
  var_i0 = var_i0 != var_i1;
  if (var_i0) {goto var_B2;}
  var_j0 = var_p1;
  var_j1 = 7ull;
  var_j2 = 1057733ull;
  var_i0 = w2c_lockreplay_core0x3A0x3Acmp0x3A0x3Aslices0x3A0x3Agroups_equal0x3A0x3A0x3Ci80x2C310x27core0x3A0x3Acmp0x3A0x3Anumbers0x3A0x3AU8PartialEq0x7B0x7D0x3E(instance, var_j0, var_j1, var_j2);
  if (var_i0) {goto var_B16;}
  var_i0 = 114u;
  var_l8 = var_i0;
  var_i0 = 108u;
  var_l7 = var_i0;
  var_i0 = 101u;
  var_l5 = var_i0;
  var_i0 = 101u;
  var_l6 = var_i0;
  goto var_B2;
  var_B16:;
  var_i0 = 0u;
  var_l6 = var_i0;
  var_i0 = 1u;
  var_l7 = var_i0;
  var_i0 = 1u;
  var_l5 = var_i0;
  goto var_B0;
  var_B6:;
  var_i0 = var_l8;
  var_i1 = 114u;
  var_i0 = var_i0 != var_i1;
  if (var_i0) {goto var_B17;}
  var_i0 = var_l7;
  var_i1 = 255u;
  var_i0 &= var_i1;
  var_i1 = 108u;
  var_i0 = var_i0 != var_i1;
  if (var_i0) {goto var_B17;}
  var_i0 = var_l6;
  var_i1 = 255u;
  var_i0 &= var_i1;
  var_i1 = 111u;
  var_i0 = var_i0 != var_i1;
  if (var_i0) {goto var_B17;}
  var_i0 = var_l5;
  var_i1 = 255u;
  var_i0 &= var_i1;
  var_i1 = 99u;
  var_i0 = var_i0 != var_i1;
  if (var_i0) {goto var_B17;}
  var_j0 = var_p1;
  var_j1 = 5ull;
  var_j2 = 1057740ull;
  var_i0 = w2c_lockreplay_core0x3A0x3Acmp0x3A0x3Aslices0x3A0x3Agroups_equal0x3A0x3A0x3Ci80x2C310x27core0x3A0x3Acmp0x3A0x3Anumbers0x3A0x3AU8PartialEq0x7B0x7D0x3E(instance, var_j0, var_j1, var_j2);
  var_i0 = !(var_i0);
  if (var_i0) {goto var_B17;}
  var_i0 = 1u;
  var_l5 = var_i0;
  var_i0 = 0u;
  var_l6 = var_i0;
  var_i0 = 2u;
  var_l7 = var_i0;
  goto var_B0;
  var_B17:;
  var_i0 = var_l8;
  var_i1 = 119u;
  var_i0 = var_i0 != var_i1;
  if (var_i0) {goto var_B1;}
  var_i0 = var_l7;
  var_i1 = 255u;
  var_i0 &= var_i1;
  var_i1 = 108u;
  var_i0 = var_i0 != var_i1;
  if (var_i0) {goto var_B1;}
  var_i0 = var_l6;
  var_i1 = 255u;
  var_i0 &= var_i1;
  var_i1 = 111u;
  var_i0 = var_i0 != var_i1;
  if (var_i0) {goto var_B1;}
  var_i0 = var_l5;
  var_i1 = 255u;
  var_i0 &= var_i1;
  var_i1 = 99u;
  var_i0 = var_i0 != var_i1;
  if (var_i0) {goto var_B1;}
  var_j0 = var_p1;
  var_j1 = var_p2;
  var_j2 = 1057752ull;
  var_i0 = w2c_lockreplay_core0x3A0x3Acmp0x3A0x3Aslices0x3A0x3Agroups_equal0x3A0x3A0x3Ci80x2C310x27core0x3A0x3Acmp0x3A0x3Anumbers0x3A0x3AU8PartialEq0x7B0x7D0x3E(instance, var_j0, var_j1, var_j2);
  var_i0 = !(var_i0);
  if (var_i0) {goto var_B1;}
  var_i0 = 1u;
  var_l5 = var_i0;
  var_i0 = 0u;
  var_l6 = var_i0;
  var_i0 = 4u;
  var_l7 = var_i0;
  goto var_B0;
  var_B5:;
  var_j0 = var_p2;
  var_j1 = 9ull;
  var_i0 = var_j0 != var_j1;
  if (var_i0) {goto var_B1;}
  var_B4:;
  var_j0 = var_p1;
  var_i0 = i32_load8_u(origin, (u64)(var_j0));
  var_i1 = 100u;
  var_i0 = var_i0 != var_i1;
  if (var_i0) {goto var_B1;}
  var_j0 = var_p1;
  var_j1 = 1ull;
  var_j0 += var_j1;
  var_i0 = i32_load8_u(origin, (u64)(var_j0));
  var_i1 = 255u;
  var_i0 &= var_i1;
  var_i1 = 111u;
  var_i0 = var_i0 != var_i1;
  if (var_i0) {goto var_B1;}
  var_j0 = var_p1;
  var_j1 = 2ull;
  var_j0 += var_j1;
  var_i0 = i32_load8_u(origin, (u64)(var_j0));
  var_i1 = 255u;
  var_i0 &= var_i1;
  var_i1 = 119u;
  var_i0 = var_i0 != var_i1;
  if (var_i0) {goto var_B1;}
  var_j0 = var_p1;
  var_j1 = 3ull;
  var_j0 += var_j1;
  var_i0 = i32_load8_u(origin, (u64)(var_j0));
  var_i1 = 255u;
  var_i0 &= var_i1;
  var_i1 = 110u;
  var_i0 = var_i0 != var_i1;
  if (var_i0) {goto var_B1;}
  var_j0 = var_p1;
  var_j1 = var_p2;
  var_j2 = 1057764ull;
  var_i0 = w2c_lockreplay_core0x3A0x3Acmp0x3A0x3Aslices0x3A0x3Agroups_equal0x3A0x3A0x3Ci80x2C310x27core0x3A0x3Acmp0x3A0x3Anumbers0x3A0x3AU8PartialEq0x7B0x7D0x3E(instance, var_j0, var_j1, var_j2);
  var_i0 = !(var_i0);
  if (var_i0) {goto var_B1;}
  var_i0 = 1u;
  var_l5 = var_i0;
  var_i0 = 0u;
  var_l6 = var_i0;
  var_i0 = 6u;
  var_l7 = var_i0;
  goto var_B0;
  var_B3:;
  UNREACHABLE;
  var_B2:;
  var_i0 = var_l8;
  var_i1 = 114u;
  var_i0 = var_i0 != var_i1;
  if (var_i0) {goto var_B18;}
  var_i0 = var_l6;
  var_i1 = 255u;
  var_i0 &= var_i1;
  var_i1 = 117u;
  var_i0 = var_i0 != var_i1;
  if (var_i0) {goto var_B18;}
  var_i0 = var_l7;
  var_i1 = 255u;
  var_i0 &= var_i1;
  var_i1 = 110u;
  var_i0 = var_i0 != var_i1;
  if (var_i0) {goto var_B18;}
  var_i0 = var_l5;
  var_i1 = 255u;
  var_i0 &= var_i1;
  var_i1 = 108u;
  var_i0 = var_i0 != var_i1;
  if (var_i0) {goto var_B18;}
  var_j0 = var_p1;
  var_j1 = var_p2;
  var_j2 = 1057745ull;
  var_i0 = w2c_lockreplay_core0x3A0x3Acmp0x3A0x3Aslices0x3A0x3Agroups_equal0x3A0x3A0x3Ci80x2C310x27core0x3A0x3Acmp0x3A0x3Anumbers0x3A0x3AU8PartialEq0x7B0x7D0x3E(instance, var_j0, var_j1, var_j2);
  var_i0 = !(var_i0);
  if (var_i0) {goto var_B18;}
  var_i0 = 1u;
  var_l5 = var_i0;
  var_i0 = 0u;
  var_l6 = var_i0;
  var_i0 = 3u;
  var_l7 = var_i0;
  goto var_B0;
  var_B18:;
  var_i0 = var_l8;
  var_i1 = 119u;
  var_i0 = var_i0 != var_i1;
  if (var_i0) {goto var_B1;}
  var_i0 = var_l6;
  var_i1 = 255u;
  var_i0 &= var_i1;
  var_i1 = 117u;
  var_i0 = var_i0 != var_i1;
  if (var_i0) {goto var_B1;}
  var_i0 = var_l7;
  var_i1 = 255u;
  var_i0 &= var_i1;
  var_i1 = 110u;
  var_i0 = var_i0 != var_i1;
  if (var_i0) {goto var_B1;}
  var_i0 = var_l5;
  var_i1 = 255u;
  var_i0 &= var_i1;
  var_i1 = 108u;
  var_i0 = var_i0 != var_i1;
  if (var_i0) {goto var_B1;}
  var_j0 = var_p1;
  var_j1 = var_p2;
  var_j2 = 1057757ull;
  var_i0 = w2c_lockreplay_core0x3A0x3Acmp0x3A0x3Aslices0x3A0x3Agroups_equal0x3A0x3A0x3Ci80x2C310x27core0x3A0x3Acmp0x3A0x3Anumbers0x3A0x3AU8PartialEq0x7B0x7D0x3E(instance, var_j0, var_j1, var_j2);
  var_i0 = !(var_i0);
  if (var_i0) {goto var_B1;}
  var_i0 = 1u;
  var_l5 = var_i0;
  var_i0 = 0u;
  var_l6 = var_i0;
  var_i0 = 5u;
  var_l7 = var_i0;
  goto var_B0;
  var_B1:;
  var_i0 = 0u;
  var_l7 = var_i0;
  var_i0 = 0u;
  var_l6 = var_i0;
  var_i0 = 0u;
  var_l5 = var_i0;
  var_B0:;
  var_j0 = var_p0;
  var_i1 = var_l5;
  i32_store8(origin, (u64)(var_j0), var_i1);
  var_j0 = var_p0;
  var_j1 = 2ull;
  var_j0 += var_j1;
  var_i1 = var_l7;
  i32_store8(origin, (u64)(var_j0), var_i1);
  var_j0 = var_p0;
  var_j1 = 1ull;
  var_j0 += var_j1;
  var_i1 = var_l6;
  i32_store8(origin, (u64)(var_j0), var_i1);
  var_j0 = var_l3;
  instance->w2c_0x5F_stack_pointer = var_j0;
  FUNC_EPILOGUE;
}

static void w2c_lockreplay_lk_locks0x3A0x3Amachine0x3A0x3AMachine0x3A0x3Aplay0x3A0x3A0x3C0x23e396818bfda329340x3E(w2c_lockreplay* instance, u64 var_p0, u64 var_p1, u32 var_p2, u32 var_p3, u32 var_p4) {
  u32 var_l5 = 0, var_l6 = 0, var_l7 = 0, var_l10 = 0, var_l13 = 0, var_l14 = 0, var_l15 = 0, var_l16 = 0,
      var_l17 = 0;
  u64 var_l8 = 0, var_l9 = 0, var_l11 = 0, var_l12 = 0, var_l18 = 0, var_l19 = 0, var_l20 = 0, var_l21 = 0;
  FUNC_PROLOGUE;
  u32 var_i0, var_i1, var_i2, var_i3;
  u64 var_j0, var_j1, var_j2, var_j3;
  var_j0 = instance->w2c_0x5F_stack_pointer;
  var_j1 = 16ull;
  var_i0 = (u64)((s64)var_j0 < (s64)var_j1);
  if (var_i0) {goto var_B3;}
  var_i0 = 0u;
  var_l5 = var_i0;
  var_i0 = 0u;
  var_l6 = var_i0;
  var_j0 = var_p1;
  var_j1 = 1ull;
  var_j0 += var_j1;
  var_i0 = i32_load8_u(origin, (u64)(var_j0));
  var_i1 = var_p2;
  var_i2 = 255u;
  var_i1 &= var_i2;
  var_i0 = var_i0 <= var_i1;
  if (var_i0) {goto var_B0;}
  var_j0 = var_p1;
  var_i0 = i32_load8_u(origin, (u64)(var_j0));
  var_l7 = var_i0;
  var_i0 = var_p3;
  var_i1 = 255u;
  var_i0 &= var_i1;
  if (var_i0) {goto var_B30;}
  var_i0 = 1u;
  var_l5 = var_i0;
  var_i0 = 0u;
  var_l6 = var_i0;
  var_i0 = var_p4;
  var_i1 = 255u;
  var_i0 &= var_i1;
  var_i1 = 2u;
  var_i0 = var_i0 < var_i1;
  var_i1 = var_l7;
  var_i2 = 1u;
  var_i1 = var_i1 > var_i2;
  var_i0 ^= var_i1;
  if (var_i0) {goto var_B29;}
  goto var_B0;
  var_B30:;
  var_i0 = var_l7;
  switch (var_i0) {
    case 0: goto var_B33;
    case 1: goto var_B32;
    case 2: goto var_B31;
    case 3: goto var_B31;
    default: goto var_B33;
  }
  var_B33:;
  var_i0 = 1u;
  var_l5 = var_i0;
  var_i0 = 0u;
  var_l6 = var_i0;
  var_i0 = 1u;
  var_i1 = var_p4;
  var_i2 = 255u;
  var_i1 &= var_i2;
  var_i0 <<= (var_i1 & 31);
  var_i1 = 19u;
  var_i0 &= var_i1;
  var_i0 = !(var_i0);
  if (var_i0) {goto var_B0;}
  var_j0 = var_p1;
  var_i1 = var_p2;
  var_j1 = (u64)(var_i1);
  var_j2 = 255ull;
  var_j1 &= var_j2;
  var_j2 = 4ull;
  var_j1 <<= (var_j2 & 63);
  var_j0 += var_j1;
  var_l8 = var_j0;
  var_j1 = 1064ull;
  var_j0 += var_j1;
  var_j0 = i64_load(origin, (u64)(var_j0));
  var_l9 = var_j0;
  var_j0 = var_l8;
  var_j1 = 1057ull;
  var_j0 += var_j1;
  var_i0 = i32_load8_u(origin, (u64)(var_j0));
  var_l10 = var_i0;
  var_j0 = var_l8;
  var_j1 = 1056ull;
  var_j0 += var_j1;
  var_i0 = i32_load8_u(origin, (u64)(var_j0));
  var_l5 = var_i0;
  goto var_B23;
  var_B32:;
  var_i0 = var_p4;
  var_i1 = 255u;
  var_i0 &= var_i1;
  var_i1 = 3u;
  var_i0 = var_i0 <= var_i1;
  if (var_i0) {goto var_B28;}
  goto var_B24;
  var_B31:;
  var_i0 = var_p4;
  var_i1 = 255u;
  var_i0 &= var_i1;
  var_i1 = 5u;
  var_i0 = var_i0 != var_i1;
  if (var_i0) {goto var_B24;}
  var_B29:;
  var_j0 = var_p1;
  var_i1 = var_p2;
  var_j1 = (u64)(var_i1);
  var_j2 = 255ull;
  var_j1 &= var_j2;
  var_l11 = var_j1;
  var_j2 = 4ull;
  var_j1 <<= (var_j2 & 63);
  var_j0 += var_j1;
  var_l8 = var_j0;
  var_j1 = 1064ull;
  var_j0 += var_j1;
  var_j0 = i64_load(origin, (u64)(var_j0));
  var_l9 = var_j0;
  var_j0 = var_l8;
  var_j1 = 1057ull;
  var_j0 += var_j1;
  var_i0 = i32_load8_u(origin, (u64)(var_j0));
  var_l10 = var_i0;
  var_j0 = var_l8;
  var_j1 = 1056ull;
  var_j0 += var_j1;
  var_i0 = i32_load8_u(origin, (u64)(var_j0));
  var_l5 = var_i0;
  var_i0 = var_l7;
  switch (var_i0) {
    case 0: goto var_B23;
    case 1: goto var_B27;
    case 2: goto var_B26;
    case 3: goto var_B26;
    default: goto var_B23;
  }
  var_B28:;
  var_j0 = var_p1;
  var_i1 = var_p2;
  var_j1 = (u64)(var_i1);
  var_j2 = 255ull;
  var_j1 &= var_j2;
  var_l11 = var_j1;
  var_j2 = 4ull;
  var_j1 <<= (var_j2 & 63);
  var_j0 += var_j1;
  var_l8 = var_j0;
  var_j1 = 1064ull;
  var_j0 += var_j1;
  var_j0 = i64_load(origin, (u64)(var_j0));
  var_l9 = var_j0;
  var_j0 = var_l8;
  var_j1 = 1057ull;
  var_j0 += var_j1;
  var_i0 = i32_load8_u(origin, (u64)(var_j0));
  var_l10 = var_i0;
  var_j0 = var_l8;
  var_j1 = 1056ull;
  var_j0 += var_j1;
  var_i0 = i32_load8_u(origin, (u64)(var_j0));
  var_l5 = var_i0;
  var_B27:;
  var_j0 = var_l11;
  var_j1 = 1ull;
  var_j0 += var_j1;
  var_l12 = var_j0;
  var_j0 = 0ull;
  var_l8 = var_j0;
  var_i0 = 1u;
  var_l13 = var_i0;
  var_i0 = 2u;
  var_l6 = var_i0;
  var_i0 = 2u;
  var_l14 = var_i0;
  var_i0 = var_l5;
  var_j0 = (u64)(var_i0);
  var_j1 = 255ull;
  var_j0 &= var_j1;
  var_i0 = (u32)(var_j0);
  switch (var_i0) {
    case 0: goto var_B19;
    case 1: goto var_B19;
    case 2: goto var_B19;
    case 3: goto var_B19;
    case 4: goto var_B19;
    case 5: goto var_B19;
    case 6: goto var_B39;
    case 7: goto var_B18;
    case 8: goto var_B25;
    case 9: goto var_B38;
    case 10: goto var_B37;
    case 11: goto var_B19;
    case 12: goto var_B36;
    case 13: goto var_B35;
    case 14: goto var_B36;
    case 15: goto var_B34;
    case 16: goto var_B19;
    case 17: goto var_B19;
    case 18: goto var_B19;
    case 19: goto var_B19;
    case 20: goto var_B19;
    case 21: goto var_B19;
    case 22: goto var_B19;
    case 23: goto var_B19;
    default: goto var_B19;
  }
  var_B39:;
  var_j0 = var_l11;
  var_j1 = 1ull;
  var_j0 <<= (var_j1 & 63);
  var_j1 = 1ull;
  var_j0 |= var_j1;
  var_l8 = var_j0;
  var_j0 = 0ull;
  var_l12 = var_j0;
  var_i0 = 1u;
  var_l6 = var_i0;
  var_i0 = 6u;
  var_l5 = var_i0;
  goto var_B20;
  var_B38:;
  var_i0 = var_l10;
  var_j0 = (u64)(var_i0);
  var_j1 = 255ull;
  var_j0 &= var_j1;
  var_j1 = 1ull;
  var_j0 <<= (var_j1 & 63);
  var_j1 = 1ull;
  var_j0 |= var_j1;
  var_l8 = var_j0;
  var_i0 = 1u;
  var_l6 = var_i0;
  var_i0 = 9u;
  var_l5 = var_i0;
  goto var_B20;
  var_B37:;
  var_j0 = var_l11;
  var_j1 = 1ull;
  var_j0 <<= (var_j1 & 63);
  var_j1 = 2ull;
  var_j0 += var_j1;
  var_l8 = var_j0;
  var_j0 = 0ull;
  var_l12 = var_j0;
  var_i0 = 10u;
  var_l5 = var_i0;
  goto var_B22;
  var_B36:;
  var_j0 = var_l11;
  var_j1 = 1ull;
  var_j0 <<= (var_j1 & 63);
  var_j1 = 1ull;
  var_j0 |= var_j1;
  var_l8 = var_j0;
  var_j0 = 0ull;
  var_l12 = var_j0;
  goto var_B22;
  var_B35:;
  var_i0 = 3u;
  var_l6 = var_i0;
  var_i0 = 3u;
  var_l14 = var_i0;
  goto var_B18;
  var_B34:;
  var_i0 = var_l10;
  var_j0 = (u64)(var_i0);
  var_j1 = 255ull;
  var_j0 &= var_j1;
  var_j1 = 1ull;
  var_j0 <<= (var_j1 & 63);
  var_j1 = 2ull;
  var_j0 += var_j1;
  var_l8 = var_j0;
  var_j0 = 0ull;
  var_l12 = var_j0;
  var_i0 = 1u;
  var_l6 = var_i0;
  var_i0 = 15u;
  var_l5 = var_i0;
  goto var_B20;
  var_B26:;
  var_j0 = 0ull;
  var_l8 = var_j0;
  var_i0 = 0u;
  var_l13 = var_i0;
  var_i0 = 5u;
  var_l6 = var_i0;
  var_i0 = var_l5;
  var_i1 = 4294967295u;
  var_i0 += var_i1;
  var_i1 = 16u;
  var_i0 = var_i0 >= var_i1;
  if (var_i0) {goto var_B40;}
  var_i0 = 0u;
  var_l14 = var_i0;
  var_j0 = 0ull;
  var_l12 = var_j0;
  goto var_B18;
  var_B40:;
  var_i0 = 0u;
  var_l14 = var_i0;
  var_j0 = 0ull;
  var_l12 = var_j0;
  var_i0 = 1u;
  var_i1 = var_l5;
  var_i0 <<= (var_i1 & 31);
  var_i1 = 14417920u;
  var_i0 &= var_i1;
  if (var_i0) {goto var_B18;}
  goto var_B19;
  var_B25:;
  var_j0 = var_l11;
  var_j1 = 1ull;
  var_j0 <<= (var_j1 & 63);
  var_j1 = 2ull;
  var_j0 += var_j1;
  var_l8 = var_j0;
  var_i0 = 1u;
  var_l6 = var_i0;
  var_i0 = 8u;
  var_l5 = var_i0;
  var_i0 = 1u;
  var_l13 = var_i0;
  var_i0 = 1u;
  var_l14 = var_i0;
  var_j0 = 1ull;
  var_l12 = var_j0;
  goto var_B18;
  var_B24:;
  var_i0 = 1u;
  var_l5 = var_i0;
  goto var_B1;
  var_B23:;
  var_i0 = var_l5;
  var_i1 = 255u;
  var_i0 &= var_i1;
  var_l15 = var_i0;
  var_i1 = 4294967290u;
  var_i0 += var_i1;
  var_i1 = 18u;
  var_i0 = var_i0 < var_i1;
  if (var_i0) {goto var_B19;}
  var_j0 = 1ull;
  var_l12 = var_j0;
  var_j0 = 0ull;
  var_l8 = var_j0;
  var_i0 = 1u;
  var_l13 = var_i0;
  var_i0 = 4u;
  var_l6 = var_i0;
  var_i0 = 4u;
  var_l14 = var_i0;
  var_i0 = var_l15;
  switch (var_i0) {
    case 0: goto var_B19;
    case 1: goto var_B18;
    case 2: goto var_B41;
    case 3: goto var_B19;
    case 4: goto var_B41;
    case 5: goto var_B21;
    default: goto var_B19;
  }
  var_B41:;
  var_j0 = 0ull;
  var_l12 = var_j0;
  var_j0 = 1ull;
  var_l8 = var_j0;
  var_B22:;
  var_i0 = 0u;
  var_l6 = var_i0;
  var_i0 = 0u;
  var_l14 = var_i0;
  goto var_B18;
  var_B21:;
  var_j0 = 1ull;
  var_l8 = var_j0;
  var_j0 = 2ull;
  var_j1 = var_p1;
  var_j2 = 1048ull;
  var_j1 += var_j2;
  var_i1 = i32_load8_u(origin, (u64)(var_j1));
  var_i2 = 4294967295u;
  var_i1 += var_i2;
  var_j1 = (u64)(var_i1);
  var_j2 = 255ull;
  var_j1 &= var_j2;
  var_j0 <<= (var_j1 & 63);
  var_j1 = 18446744073709551615ull;
  var_j0 += var_j1;
  var_j1 = var_l9;
  var_j2 = 1ull;
  var_j1 += var_j2;
  var_j0 &= var_j1;
  var_l12 = var_j0;
  var_i0 = 1u;
  var_l6 = var_i0;
  var_i0 = 5u;
  var_l5 = var_i0;
  var_B20:;
  var_i0 = 1u;
  var_l13 = var_i0;
  var_i0 = 1u;
  var_l14 = var_i0;
  goto var_B18;
  var_B19:;
  var_i0 = var_p3;
  var_i1 = 255u;
  var_i0 &= var_i1;
  var_i0 = !(var_i0);
  if (var_i0) {goto var_B42;}
  var_i0 = 5u;
  var_l5 = var_i0;
  goto var_B1;
  var_B42:;
  var_i0 = var_l7;
  switch (var_i0) {
    case 0: goto var_B49;
    case 1: goto var_B48;
    case 2: goto var_B47;
    case 3: goto var_B47;
    default: goto var_B49;
  }
  var_B49:;
  var_i0 = var_l5;
  var_i1 = 255u;
  var_i0 &= var_i1;
  var_l6 = var_i0;
  var_i1 = 4294967292u;
  var_i0 += var_i1;
  var_i1 = 20u;
  var_i0 = var_i0 < var_i1;
  if (var_i0) {goto var_B45;}
  var_i0 = var_l6;
  switch (var_i0) {
    case 0: goto var_B51;
    case 1: goto var_B45;
    case 2: goto var_B45;
    case 3: goto var_B50;
    default: goto var_B51;
  }
  var_B51:;
  var_i0 = var_p4;
  var_i1 = 255u;
  var_i0 &= var_i1;
  var_i0 = !(var_i0);
  if (var_i0) {goto var_B16;}
  goto var_B2;
  var_B50:;
  var_i0 = 4u;
  var_l13 = var_i0;
  var_i0 = 3u;
  var_l5 = var_i0;
  var_j0 = var_l9;
  var_l11 = var_j0;
  var_i0 = 0u;
  var_l6 = var_i0;
  var_i0 = var_p4;
  var_j0 = (u64)(var_i0);
  var_j1 = 255ull;
  var_j0 &= var_j1;
  var_i0 = (u32)(var_j0);
  switch (var_i0) {
    case 0: goto var_B43;
    case 1: goto var_B5;
    default: goto var_B0;
  }
  var_B48:;
  var_i0 = 1u;
  var_i1 = var_l5;
  var_i2 = 255u;
  var_i1 &= var_i2;
  var_l6 = var_i1;
  var_i0 <<= (var_i1 & 31);
  var_i1 = 16775166u;
  var_i0 &= var_i1;
  if (var_i0) {goto var_B44;}
  var_i0 = var_l6;
  if (var_i0) {goto var_B46;}
  var_i0 = var_p4;
  var_i1 = 255u;
  var_i0 &= var_i1;
  if (var_i0) {goto var_B2;}
  var_j0 = 0ull;
  var_l11 = var_j0;
  var_i0 = 6u;
  var_l13 = var_i0;
  goto var_B5;
  var_B47:;
  var_i0 = var_l5;
  var_i1 = 255u;
  var_i0 &= var_i1;
  var_l6 = var_i0;
  var_i1 = 4294967295u;
  var_i0 += var_i1;
  var_i1 = 16u;
  var_i0 = var_i0 < var_i1;
  if (var_i0) {goto var_B13;}
  var_i0 = var_l6;
  switch (var_i0) {
    case 0: goto var_B52;
    case 1: goto var_B3;
    case 2: goto var_B3;
    case 3: goto var_B3;
    case 4: goto var_B3;
    case 5: goto var_B3;
    case 6: goto var_B3;
    case 7: goto var_B3;
    case 8: goto var_B3;
    case 9: goto var_B3;
    case 10: goto var_B3;
    case 11: goto var_B3;
    case 12: goto var_B3;
    case 13: goto var_B3;
    case 14: goto var_B3;
    case 15: goto var_B3;
    case 16: goto var_B3;
    case 17: goto var_B14;
    case 18: goto var_B13;
    case 19: goto var_B13;
    case 20: goto var_B13;
    case 21: goto var_B17;
    case 22: goto var_B13;
    case 23: goto var_B13;
    default: goto var_B52;
  }
  var_B52:;
  var_i0 = 1u;
  var_i1 = var_p4;
  var_i2 = 255u;
  var_i1 &= var_i2;
  var_i0 <<= (var_i1 & 31);
  var_i1 = 107u;
  var_i0 &= var_i1;
  var_i0 = !(var_i0);
  if (var_i0) {goto var_B6;}
  goto var_B13;
  var_B46:;
  var_j0 = 0ull;
  var_l11 = var_j0;
  var_i0 = 12u;
  var_l13 = var_i0;
  var_i0 = 3u;
  var_l5 = var_i0;
  var_i0 = 0u;
  var_l6 = var_i0;
  var_i0 = var_p4;
  var_j0 = (u64)(var_i0);
  var_j1 = 255ull;
  var_j0 &= var_j1;
  var_i0 = (u32)(var_j0);
  switch (var_i0) {
    case 0: goto var_B43;
    case 1: goto var_B5;
    default: goto var_B0;
  }
  var_B45:;
  var_i0 = var_p4;
  var_i1 = 255u;
  var_i0 &= var_i1;
  if (var_i0) {goto var_B2;}
  goto var_B43;
  var_B44:;
  var_i0 = var_p4;
  var_i1 = 255u;
  var_i0 &= var_i1;
  if (var_i0) {goto var_B2;}
  var_B43:;
  var_i0 = 4u;
  var_l5 = var_i0;
  goto var_B1;
  var_B18:;
  var_i0 = var_p3;
  var_i1 = 255u;
  var_i0 &= var_i1;
  if (var_i0) {goto var_B53;}
  var_i0 = 2u;
  var_l5 = var_i0;
  goto var_B1;
  var_B53:;
  var_i0 = var_l6;
  var_i1 = var_p4;
  var_i2 = 255u;
  var_i1 &= var_i2;
  var_i0 = var_i0 == var_i1;
  if (var_i0) {goto var_B15;}
  var_i0 = 6u;
  var_l5 = var_i0;
  goto var_B0;
  var_B17:;
  var_i0 = var_p4;
  var_i1 = 4294967291u;
  var_i0 += var_i1;
  var_i1 = 255u;
  var_i0 &= var_i1;
  var_i1 = 2u;
  var_i0 = var_i0 >= var_i1;
  if (var_i0) {goto var_B13;}
  goto var_B6;
  var_B16:;
  var_j0 = 0ull;
  var_l11 = var_j0;
  var_i0 = 1u;
  var_l13 = var_i0;
  goto var_B5;
  var_B15:;
  var_j0 = var_p1;
  var_j1 = 8ull;
  var_j0 += var_j1;
  var_l11 = var_j0;
  var_j0 = var_l8;
  var_j1 = 3ull;
  var_j0 <<= (var_j1 & 63);
  var_l8 = var_j0;
  var_i0 = var_l7;
  switch (var_i0) {
    case 0: goto var_B57;
    case 1: goto var_B56;
    case 2: goto var_B55;
    case 3: goto var_B54;
    default: goto var_B57;
  }
  var_B57:;
  var_i0 = 2u;
  var_l6 = var_i0;
  var_i0 = var_l13;
  var_i0 = !(var_i0);
  if (var_i0) {goto var_B9;}
  var_j0 = var_l11;
  var_j1 = var_l8;
  var_j0 += var_j1;
  var_l8 = var_j0;
  var_i0 = var_l14;
  switch (var_i0) {
    case 0: goto var_B64;
    case 1: goto var_B63;
    case 2: goto var_B62;
    case 3: goto var_B61;
    case 4: goto var_B60;
    default: goto var_B64;
  }
  var_B64:;
  var_j0 = var_l8;
  var_j0 = i64_load(origin, (u64)(var_j0));
  var_l11 = var_j0;
  goto var_B59;
  var_B63:;
  var_j0 = var_l8;
  var_j1 = var_l12;
  i64_store(origin, (u64)(var_j0), var_j1);
  var_i0 = 0u;
  var_l15 = var_i0;
  var_j0 = 0ull;
  var_l11 = var_j0;
  goto var_B58;
  var_B62:;
  var_j0 = var_l8;
  var_j0 = i64_load(origin, (u64)(var_j0));
  var_l11 = var_j0;
  var_j0 = var_l8;
  var_j1 = var_l12;
  i64_store(origin, (u64)(var_j0), var_j1);
  goto var_B59;
  var_B61:;
  var_i0 = 0u;
  var_l15 = var_i0;
  var_j0 = 0ull;
  var_l11 = var_j0;
  var_j0 = var_l8;
  var_j0 = i64_load(origin, (u64)(var_j0));
  var_j1 = var_l12;
  var_i0 = var_j0 != var_j1;
  if (var_i0) {goto var_B58;}
  var_j0 = 0ull;
  var_l11 = var_j0;
  var_j0 = var_l8;
  var_j1 = 0ull;
  i64_store(origin, (u64)(var_j0), var_j1);
  goto var_B58;
  var_B60:;
  var_j0 = var_l8;
  var_j1 = 2ull;
  var_j2 = var_p1;
  var_j3 = 1048ull;
  var_j2 += var_j3;
  var_i2 = i32_load8_u(origin, (u64)(var_j2));
  var_i3 = 4294967295u;
  var_i2 += var_i3;
  var_j2 = (u64)(var_i2);
  var_j3 = 255ull;
  var_j2 &= var_j3;
  var_j1 <<= (var_j2 & 63);
  var_j2 = 18446744073709551615ull;
  var_j1 += var_j2;
  var_j2 = var_l8;
  var_j2 = i64_load(origin, (u64)(var_j2));
  var_l11 = var_j2;
  var_j3 = var_l12;
  var_j2 += var_j3;
  var_j1 &= var_j2;
  i64_store(origin, (u64)(var_j0), var_j1);
  var_B59:;
  var_i0 = 1u;
  var_l15 = var_i0;
  var_B58:;
  var_i0 = var_l5;
  var_i1 = 255u;
  var_i0 &= var_i1;
  var_l13 = var_i0;
  var_i1 = 4294967290u;
  var_i0 += var_i1;
  var_i1 = 18u;
  var_i0 = var_i0 < var_i1;
  if (var_i0) {goto var_B65;}
  var_i0 = 1u;
  var_p4 = var_i0;
  var_i0 = 4u;
  var_l6 = var_i0;
  var_j0 = 0ull;
  var_l8 = var_j0;
  var_i0 = 0u;
  var_p3 = var_i0;
  var_i0 = 0u;
  var_l7 = var_i0;
  var_i0 = var_l5;
  var_l14 = var_i0;
  var_i0 = var_l13;
  var_i1 = 4294967295u;
  var_i0 += var_i1;
  switch (var_i0) {
    case 0: goto var_B68;
    case 1: goto var_B67;
    case 2: goto var_B65;
    case 3: goto var_B66;
    case 4: goto var_B4;
    default: goto var_B68;
  }
  var_B68:;
  var_i0 = var_l15;
  var_i0 = !(var_i0);
  if (var_i0) {goto var_B65;}
  var_i0 = 3u;
  var_l14 = var_i0;
  var_i0 = 1u;
  var_l6 = var_i0;
  var_i0 = 0u;
  var_l7 = var_i0;
  var_i0 = 2u;
  var_p3 = var_i0;
  var_j0 = var_l11;
  var_l8 = var_j0;
  var_i0 = 0u;
  var_p4 = var_i0;
  goto var_B4;
  var_B67:;
  var_i0 = var_l15;
  var_j1 = var_l11;
  var_j2 = var_l9;
  var_i1 = var_j1 == var_j2;
  var_i0 &= var_i1;
  var_i0 = !(var_i0);
  if (var_i0) {goto var_B65;}
  var_i0 = 4u;
  var_l14 = var_i0;
  var_i0 = 0u;
  var_l7 = var_i0;
  var_i0 = 3u;
  var_p3 = var_i0;
  var_j0 = var_l9;
  var_l8 = var_j0;
  var_i0 = 3u;
  var_l6 = var_i0;
  var_i0 = 0u;
  var_p4 = var_i0;
  goto var_B4;
  var_B66:;
  var_i0 = var_l15;
  var_i0 = !(var_i0);
  if (var_i0) {goto var_B65;}
  var_i0 = 1u;
  var_l6 = var_i0;
  var_i0 = 0u;
  var_l7 = var_i0;
  var_i0 = 5u;
  var_p3 = var_i0;
  var_j0 = var_l11;
  var_l8 = var_j0;
  var_i0 = 0u;
  var_l14 = var_i0;
  var_i0 = 0u;
  var_p4 = var_i0;
  goto var_B4;
  var_B65:;
  var_i0 = 0u;
  var_l14 = var_i0;
  var_i0 = var_l5;
  var_p3 = var_i0;
  var_i0 = var_l10;
  var_l7 = var_i0;
  var_j0 = var_l9;
  var_l8 = var_j0;
  var_i0 = 2u;
  var_l6 = var_i0;
  var_i0 = 0u;
  var_p4 = var_i0;
  goto var_B4;
  var_B56:;
  var_i0 = 2u;
  var_l6 = var_i0;
  var_i0 = var_l13;
  var_i0 = !(var_i0);
  if (var_i0) {goto var_B9;}
  var_j0 = var_l11;
  var_j1 = var_l8;
  var_j0 += var_j1;
  var_l8 = var_j0;
  var_i0 = var_l14;
  switch (var_i0) {
    case 0: goto var_B75;
    case 1: goto var_B74;
    case 2: goto var_B73;
    case 3: goto var_B72;
    case 4: goto var_B71;
    default: goto var_B75;
  }
  var_B75:;
  var_j0 = var_l8;
  var_j0 = i64_load(origin, (u64)(var_j0));
  var_l11 = var_j0;
  goto var_B70;
  var_B74:;
  var_j0 = var_l8;
  var_j1 = var_l12;
  i64_store(origin, (u64)(var_j0), var_j1);
  var_i0 = 1u;
  var_l15 = var_i0;
  var_j0 = 0ull;
  var_l11 = var_j0;
  var_i0 = 0u;
  var_l16 = var_i0;
  var_i0 = 0u;
  var_l17 = var_i0;
  var_i0 = 0u;
  var_l13 = var_i0;
  goto var_B69;
  var_B73:;
  var_j0 = var_l8;
  var_j0 = i64_load(origin, (u64)(var_j0));
  var_l11 = var_j0;
  var_j0 = var_l8;
  var_j1 = var_l12;
  i64_store(origin, (u64)(var_j0), var_j1);
  goto var_B70;
  var_B72:;
  var_i0 = 0u;
  var_l13 = var_i0;
  var_j0 = var_l8;
  var_j0 = i64_load(origin, (u64)(var_j0));
  var_j1 = var_l12;
  var_i0 = var_j0 == var_j1;
  if (var_i0) {goto var_B76;}
  var_i0 = 1u;
  var_l17 = var_i0;
  var_j0 = 0ull;
  var_l11 = var_j0;
  var_i0 = 0u;
  var_l16 = var_i0;
  var_i0 = 1u;
  var_l15 = var_i0;
  goto var_B69;
  var_B76:;
  var_j0 = 0ull;
  var_l11 = var_j0;
  var_j0 = var_l8;
  var_j1 = 0ull;
  i64_store(origin, (u64)(var_j0), var_j1);
  var_i0 = 1u;
  var_l16 = var_i0;
  var_i0 = 1u;
  var_l17 = var_i0;
  var_i0 = 1u;
  var_l15 = var_i0;
  goto var_B69;
  var_B71:;
  var_j0 = var_l8;
  var_j1 = 2ull;
  var_j2 = var_p1;
  var_j3 = 1048ull;
  var_j2 += var_j3;
  var_i2 = i32_load8_u(origin, (u64)(var_j2));
  var_i3 = 4294967295u;
  var_i2 += var_i3;
  var_j2 = (u64)(var_i2);
  var_j3 = 255ull;
  var_j2 &= var_j3;
  var_j1 <<= (var_j2 & 63);
  var_j2 = 18446744073709551615ull;
  var_j1 += var_j2;
  var_j2 = var_l8;
  var_j2 = i64_load(origin, (u64)(var_j2));
  var_l11 = var_j2;
  var_j3 = var_l12;
  var_j2 += var_j3;
  var_j1 &= var_j2;
  i64_store(origin, (u64)(var_j0), var_j1);
  var_B70:;
  var_i0 = 1u;
  var_l13 = var_i0;
  var_i0 = 0u;
  var_l16 = var_i0;
  var_i0 = 0u;
  var_l17 = var_i0;
  var_i0 = 0u;
  var_l15 = var_i0;
  var_B69:;
  var_i0 = 1u;
  var_l6 = var_i0;
  var_j0 = 0ull;
  var_l8 = var_j0;
  var_i0 = 0u;
  var_p4 = var_i0;
  var_i0 = 7u;
  var_p3 = var_i0;
  var_i0 = 0u;
  var_l7 = var_i0;
  var_i0 = 0u;
  var_l14 = var_i0;
  var_i0 = var_l5;
  var_i1 = 255u;
  var_i0 &= var_i1;
  var_i1 = 4294967295u;
  var_i0 += var_i1;
  switch (var_i0) {
    case 0: goto var_B77;
    case 1: goto var_B77;
    case 2: goto var_B77;
    case 3: goto var_B77;
    case 4: goto var_B77;
    case 5: goto var_B4;
    case 6: goto var_B85;
    case 7: goto var_B84;
    case 8: goto var_B83;
    case 9: goto var_B82;
    case 10: goto var_B77;
    case 11: goto var_B81;
    case 12: goto var_B80;
    case 13: goto var_B78;
    case 14: goto var_B79;
    case 15: goto var_B77;
    case 16: goto var_B77;
    case 17: goto var_B77;
    case 18: goto var_B77;
    case 19: goto var_B77;
    case 20: goto var_B77;
    case 21: goto var_B77;
    case 22: goto var_B77;
    default: goto var_B77;
  }
  var_B85:;
  var_i0 = var_l13;
  var_i0 = !(var_i0);
  if (var_i0) {goto var_B77;}
  var_j0 = var_l11;
  var_i0 = !(var_j0);
  var_i0 = !(var_i0);
  if (var_i0) {goto var_B86;}
  var_i0 = 5u;
  var_l14 = var_i0;
  goto var_B10;
  var_B86:;
  var_j0 = var_l11;
  var_i0 = (u32)(var_j0);
  var_i1 = 4294967295u;
  var_i0 += var_i1;
  var_l7 = var_i0;
  var_i0 = 3u;
  var_l14 = var_i0;
  var_i0 = 8u;
  var_p3 = var_i0;
  goto var_B4;
  var_B84:;
  var_i0 = 9u;
  var_p3 = var_i0;
  var_i0 = var_l10;
  var_l7 = var_i0;
  var_i0 = 0u;
  var_l14 = var_i0;
  goto var_B4;
  var_B83:;
  var_i0 = 10u;
  var_p3 = var_i0;
  goto var_B11;
  var_B82:;
  var_j0 = var_l11;
  var_i0 = !(var_j0);
  var_i1 = var_l13;
  var_i0 &= var_i1;
  var_i0 = !(var_i0);
  if (var_i0) {goto var_B77;}
  var_i0 = 4u;
  var_l14 = var_i0;
  goto var_B10;
  var_B81:;
  var_i0 = var_l13;
  var_i0 = !(var_i0);
  if (var_i0) {goto var_B77;}
  var_j0 = var_l11;
  var_i0 = !(var_j0);
  var_i0 = !(var_i0);
  if (var_i0) {goto var_B12;}
  var_i0 = 13u;
  var_p3 = var_i0;
  goto var_B11;
  var_B80:;
  var_i0 = var_l17;
  var_i0 = !(var_i0);
  if (var_i0) {goto var_B77;}
  var_i0 = var_l16;
  if (var_i0) {goto var_B79;}
  var_i0 = 14u;
  var_p3 = var_i0;
  goto var_B11;
  var_B79:;
  var_i0 = 1u;
  var_p4 = var_i0;
  var_i0 = 5u;
  var_l14 = var_i0;
  var_i0 = 4u;
  var_l6 = var_i0;
  var_i0 = 0u;
  var_p3 = var_i0;
  var_i0 = 0u;
  var_l7 = var_i0;
  goto var_B4;
  var_B78:;
  var_j0 = var_l11;
  var_i0 = !(var_j0);
  var_i1 = var_l15;
  var_i0 |= var_i1;
  var_i0 = !(var_i0);
  if (var_i0) {goto var_B12;}
  var_B77:;
  var_i0 = var_l5;
  var_p3 = var_i0;
  var_i0 = var_l10;
  var_l7 = var_i0;
  var_j0 = var_l9;
  var_l8 = var_j0;
  var_i0 = 2u;
  var_l6 = var_i0;
  var_i0 = 0u;
  var_l14 = var_i0;
  goto var_B4;
  var_B55:;
  var_j0 = var_p1;
  var_j1 = 16ull;
  var_j0 += var_j1;
  var_l18 = var_j0;
  var_j0 = i64_load(origin, (u64)(var_j0));
  var_l19 = var_j0;
  var_j0 = var_l11;
  var_j0 = i64_load(origin, (u64)(var_j0));
  var_l20 = var_j0;
  var_j0 = var_p1;
  var_j1 = 1048ull;
  var_j0 += var_j1;
  var_i0 = i32_load8_u(origin, (u64)(var_j0));
  var_l16 = var_i0;
  var_i0 = 2u;
  var_l6 = var_i0;
  var_i0 = 4u;
  var_l13 = var_i0;
  var_i0 = 0u;
  var_l14 = var_i0;
  var_j0 = 0ull;
  var_l12 = var_j0;
  var_i0 = 0u;
  var_l15 = var_i0;
  var_i0 = 5u;
  var_l17 = var_i0;
  var_i0 = var_l5;
  var_p3 = var_i0;
  var_i0 = var_l10;
  var_l7 = var_i0;
  var_j0 = var_l9;
  var_l8 = var_j0;
  var_i0 = 0u;
  var_p4 = var_i0;
  var_i0 = var_l5;
  var_i1 = 255u;
  var_i0 &= var_i1;
  var_i1 = 4294967295u;
  var_i0 += var_i1;
  switch (var_i0) {
    case 0: goto var_B4;
    case 1: goto var_B4;
    case 2: goto var_B4;
    case 3: goto var_B4;
    case 4: goto var_B4;
    case 5: goto var_B4;
    case 6: goto var_B4;
    case 7: goto var_B4;
    case 8: goto var_B4;
    case 9: goto var_B4;
    case 10: goto var_B4;
    case 11: goto var_B4;
    case 12: goto var_B4;
    case 13: goto var_B4;
    case 14: goto var_B4;
    case 15: goto var_B93;
    case 16: goto var_B4;
    case 17: goto var_B92;
    case 18: goto var_B91;
    case 19: goto var_B4;
    case 20: goto var_B4;
    case 21: goto var_B87;
    case 22: goto var_B88;
    default: goto var_B4;
  }
  var_B93:;
  var_j0 = var_l19;
  var_j1 = 0ull;
  var_i0 = var_j0 == var_j1;
  if (var_i0) {goto var_B90;}
  var_i0 = 16u;
  var_p3 = var_i0;
  goto var_B7;
  var_B92:;
  var_j0 = 2ull;
  var_i1 = var_l16;
  var_i2 = 4294967295u;
  var_i1 += var_i2;
  var_j1 = (u64)(var_i1);
  var_j2 = 255ull;
  var_j1 &= var_j2;
  var_j0 <<= (var_j1 & 63);
  var_j1 = 18446744073709551615ull;
  var_j0 += var_j1;
  var_l8 = var_j0;
  var_j1 = var_l20;
  var_j0 += var_j1;
  var_j1 = var_l8;
  var_j0 &= var_j1;
  var_l8 = var_j0;
  var_i0 = 3u;
  var_p4 = var_i0;
  var_i0 = 4u;
  var_l6 = var_i0;
  var_i0 = 0u;
  var_p3 = var_i0;
  goto var_B89;
  var_B91:;
  var_j0 = var_l19;
  var_j1 = var_l20;
  var_j0 |= var_j1;
  var_i0 = !(var_j0);
  if (var_i0) {goto var_B94;}
  var_i0 = 19u;
  var_p3 = var_i0;
  goto var_B7;
  var_B94:;
  var_i0 = 4u;
  var_l17 = var_i0;
  var_i0 = 3u;
  var_l13 = var_i0;
  var_i0 = 21u;
  var_l15 = var_i0;
  var_j0 = 1ull;
  var_l12 = var_j0;
  goto var_B87;
  var_B90:;
  var_j0 = 2ull;
  var_i1 = var_l16;
  var_i2 = 4294967295u;
  var_i1 += var_i2;
  var_j1 = (u64)(var_i1);
  var_j2 = 255ull;
  var_j1 &= var_j2;
  var_j0 <<= (var_j1 & 63);
  var_j1 = 18446744073709551615ull;
  var_j0 += var_j1;
  var_j1 = var_l20;
  var_j2 = 1ull;
  var_j1 += var_j2;
  var_j0 &= var_j1;
  var_l8 = var_j0;
  var_i0 = 2u;
  var_p4 = var_i0;
  var_i0 = 3u;
  var_l6 = var_i0;
  var_i0 = 17u;
  var_p3 = var_i0;
  var_B89:;
  var_j0 = var_l11;
  var_j1 = var_l8;
  i64_store(origin, (u64)(var_j0), var_j1);
  var_i0 = 0u;
  var_l7 = var_i0;
  var_j0 = 0ull;
  var_l8 = var_j0;
  var_i0 = 5u;
  var_l14 = var_i0;
  goto var_B4;
  var_B88:;
  var_j0 = var_l11;
  var_j1 = 2ull;
  var_i2 = var_l16;
  var_i3 = 4294967295u;
  var_i2 += var_i3;
  var_j2 = (u64)(var_i2);
  var_j3 = 255ull;
  var_j2 &= var_j3;
  var_j1 <<= (var_j2 & 63);
  var_j2 = 18446744073709551615ull;
  var_j1 += var_j2;
  var_j2 = var_l20;
  var_j3 = 1ull;
  var_j2 += var_j3;
  var_j1 &= var_j2;
  i64_store(origin, (u64)(var_j0), var_j1);
  var_i0 = 6u;
  var_l17 = var_i0;
  var_i0 = 3u;
  var_l13 = var_i0;
  var_i0 = 17u;
  var_l15 = var_i0;
  var_j0 = 0ull;
  var_l12 = var_j0;
  var_B87:;
  var_j0 = var_l18;
  var_j1 = var_l12;
  i64_store(origin, (u64)(var_j0), var_j1);
  var_i0 = var_l15;
  var_p3 = var_i0;
  var_i0 = 0u;
  var_l7 = var_i0;
  var_j0 = 0ull;
  var_l8 = var_j0;
  var_i0 = var_l13;
  var_l6 = var_i0;
  var_i0 = 5u;
  var_l14 = var_i0;
  var_i0 = var_l17;
  var_p4 = var_i0;
  goto var_B4;
  var_B54:;
  var_j0 = var_p1;
  var_j1 = 24ull;
  var_j0 += var_j1;
  var_j0 = i64_load(origin, (u64)(var_j0));
  var_l21 = var_j0;
  var_j0 = 16ull;
  var_l20 = var_j0;
  var_j0 = var_p1;
  var_j1 = 16ull;
  var_j0 += var_j1;
  var_j0 = i64_load(origin, (u64)(var_j0));
  var_l19 = var_j0;
  var_j0 = var_l11;
  var_j0 = i64_load(origin, (u64)(var_j0));
  var_l18 = var_j0;
  var_j0 = var_p1;
  var_j1 = 1048ull;
  var_j0 += var_j1;
  var_i0 = i32_load8_u(origin, (u64)(var_j0));
  var_l13 = var_i0;
  var_i0 = 5u;
  var_l14 = var_i0;
  var_i0 = 4u;
  var_l6 = var_i0;
  var_i0 = 0u;
  var_l7 = var_i0;
  var_j0 = 0ull;
  var_l8 = var_j0;
  var_j0 = 0ull;
  var_l12 = var_j0;
  var_i0 = 0u;
  var_p3 = var_i0;
  var_i0 = 5u;
  var_p4 = var_i0;
  var_i0 = var_l5;
  var_i1 = 255u;
  var_i0 &= var_i1;
  var_i1 = 4294967295u;
  var_i0 += var_i1;
  switch (var_i0) {
    case 0: goto var_B98;
    case 1: goto var_B98;
    case 2: goto var_B98;
    case 3: goto var_B98;
    case 4: goto var_B98;
    case 5: goto var_B98;
    case 6: goto var_B98;
    case 7: goto var_B98;
    case 8: goto var_B98;
    case 9: goto var_B98;
    case 10: goto var_B98;
    case 11: goto var_B98;
    case 12: goto var_B98;
    case 13: goto var_B98;
    case 14: goto var_B98;
    case 15: goto var_B99;
    case 16: goto var_B98;
    case 17: goto var_B96;
    case 18: goto var_B102;
    case 19: goto var_B101;
    case 20: goto var_B98;
    case 21: goto var_B95;
    case 22: goto var_B100;
    default: goto var_B98;
  }
  var_B102:;
  var_i0 = 0u;
  var_p4 = var_i0;
  var_j0 = 1ull;
  var_l12 = var_j0;
  var_j0 = var_l18;
  var_j1 = var_l19;
  var_i0 = var_j0 != var_j1;
  if (var_i0) {goto var_B103;}
  var_j0 = var_l21;
  var_i0 = !(var_j0);
  var_i0 = !(var_i0);
  if (var_i0) {goto var_B103;}
  var_i0 = 6u;
  var_l14 = var_i0;
  var_i0 = 3u;
  var_l6 = var_i0;
  var_i0 = 21u;
  var_p3 = var_i0;
  goto var_B95;
  var_B103:;
  var_j0 = var_l21;
  var_j1 = 0ull;
  var_i0 = var_j0 != var_j1;
  if (var_i0) {goto var_B98;}
  var_i0 = 2u;
  var_l14 = var_i0;
  var_i0 = 1u;
  var_l6 = var_i0;
  var_i0 = 20u;
  var_p3 = var_i0;
  goto var_B95;
  var_B101:;
  var_j0 = var_l18;
  var_j1 = var_l19;
  var_i0 = var_j0 != var_j1;
  if (var_i0) {goto var_B98;}
  var_i0 = 4u;
  var_p4 = var_i0;
  var_i0 = 5u;
  var_l14 = var_i0;
  var_i0 = 3u;
  var_l6 = var_i0;
  var_j0 = 0ull;
  var_l8 = var_j0;
  var_i0 = 0u;
  var_l7 = var_i0;
  var_i0 = 21u;
  var_p3 = var_i0;
  goto var_B4;
  var_B100:;
  var_j0 = var_l11;
  var_j1 = 2ull;
  var_i2 = var_l13;
  var_i3 = 4294967295u;
  var_i2 += var_i3;
  var_j2 = (u64)(var_i2);
  var_j3 = 255ull;
  var_j2 &= var_j3;
  var_j1 <<= (var_j2 & 63);
  var_j2 = 18446744073709551615ull;
  var_j1 += var_j2;
  var_j2 = var_l18;
  var_j3 = 1ull;
  var_j2 += var_j3;
  var_j1 &= var_j2;
  i64_store(origin, (u64)(var_j0), var_j1);
  var_i0 = 6u;
  var_p4 = var_i0;
  var_i0 = 3u;
  var_l6 = var_i0;
  var_i0 = 17u;
  var_p3 = var_i0;
  var_j0 = 0ull;
  var_l12 = var_j0;
  goto var_B95;
  var_B99:;
  var_j0 = var_l21;
  var_i0 = !(var_j0);
  if (var_i0) {goto var_B97;}
  var_B98:;
  var_i0 = 0u;
  var_l14 = var_i0;
  var_i0 = 2u;
  var_l6 = var_i0;
  goto var_B8;
  var_B97:;
  var_j0 = var_l11;
  var_j1 = 2ull;
  var_i2 = var_l13;
  var_i3 = 4294967295u;
  var_i2 += var_i3;
  var_j2 = (u64)(var_i2);
  var_j3 = 255ull;
  var_j2 &= var_j3;
  var_j1 <<= (var_j2 & 63);
  var_j2 = 18446744073709551615ull;
  var_j1 += var_j2;
  var_j2 = var_l18;
  var_j3 = 1ull;
  var_j2 += var_j3;
  var_j1 &= var_j2;
  i64_store(origin, (u64)(var_j0), var_j1);
  var_i0 = 2u;
  var_p4 = var_i0;
  var_i0 = 5u;
  var_l14 = var_i0;
  var_i0 = 3u;
  var_l6 = var_i0;
  var_i0 = 17u;
  var_p3 = var_i0;
  goto var_B4;
  var_B96:;
  var_j0 = 2ull;
  var_i1 = var_l13;
  var_i2 = 4294967295u;
  var_i1 += var_i2;
  var_j1 = (u64)(var_i1);
  var_j2 = 255ull;
  var_j1 &= var_j2;
  var_j0 <<= (var_j1 & 63);
  var_j1 = 18446744073709551615ull;
  var_j0 += var_j1;
  var_j1 = var_l19;
  var_j2 = 1ull;
  var_j1 += var_j2;
  var_j0 &= var_j1;
  var_l12 = var_j0;
  var_i0 = 3u;
  var_p4 = var_i0;
  var_j0 = 8ull;
  var_l20 = var_j0;
  var_i0 = 0u;
  var_p3 = var_i0;
  var_B95:;
  var_j0 = var_l11;
  var_j1 = var_l20;
  var_j0 += var_j1;
  var_j1 = var_l12;
  i64_store(origin, (u64)(var_j0), var_j1);
  goto var_B4;
  var_B14:;
  var_i0 = var_p4;
  var_i1 = 255u;
  var_i0 &= var_i1;
  var_i1 = 3u;
  var_i0 = var_i0 == var_i1;
  if (var_i0) {goto var_B6;}
  var_B13:;
  var_j0 = 847740695479043ull;
  var_i1 = var_p4;
  var_j1 = (u64)(var_i1);
  var_j2 = 255ull;
  var_j1 &= var_j2;
  var_j2 = 3ull;
  var_j1 <<= (var_j2 & 63);
  var_j0 >>= (var_j1 & 63);
  var_i0 = (u32)(var_j0);
  var_l5 = var_i0;
  goto var_B1;
  var_B12:;
  var_j0 = var_l11;
  var_i0 = (u32)(var_j0);
  var_i1 = 4294967295u;
  var_i0 += var_i1;
  var_l7 = var_i0;
  var_i0 = 15u;
  var_p3 = var_i0;
  var_i0 = 0u;
  var_l14 = var_i0;
  goto var_B4;
  var_B11:;
  var_i0 = 0u;
  var_l7 = var_i0;
  var_i0 = 0u;
  var_l14 = var_i0;
  goto var_B4;
  var_B10:;
  var_i0 = 3u;
  var_l6 = var_i0;
  var_i0 = 11u;
  var_p3 = var_i0;
  var_i0 = 0u;
  var_l7 = var_i0;
  goto var_B4;
  var_B9:;
  var_i0 = 0u;
  var_l14 = var_i0;
  var_B8:;
  var_i0 = var_l5;
  var_p3 = var_i0;
  var_B7:;
  var_i0 = var_l10;
  var_l7 = var_i0;
  var_j0 = var_l9;
  var_l8 = var_j0;
  var_i0 = 0u;
  var_p4 = var_i0;
  goto var_B4;
  var_B6:;
  var_i0 = 1u;
  var_l14 = var_i0;
  var_i0 = 0u;
  var_l6 = var_i0;
  var_i0 = var_l5;
  var_i1 = 255u;
  var_i0 &= var_i1;
  var_l13 = var_i0;
  var_i1 = 4294967295u;
  var_i0 += var_i1;
  var_i1 = 16u;
  var_i0 = var_i0 >= var_i1;
  if (var_i0) {goto var_B104;}
  var_i0 = var_l5;
  var_p3 = var_i0;
  var_i0 = var_l10;
  var_l7 = var_i0;
  var_j0 = var_l9;
  var_l8 = var_j0;
  goto var_B4;
  var_B104:;
  var_i0 = var_l5;
  var_p3 = var_i0;
  var_i0 = var_l10;
  var_l7 = var_i0;
  var_j0 = var_l9;
  var_l8 = var_j0;
  var_i0 = var_l13;
  switch (var_i0) {
    case 0: goto var_B107;
    case 1: goto var_B3;
    case 2: goto var_B3;
    case 3: goto var_B3;
    case 4: goto var_B3;
    case 5: goto var_B3;
    case 6: goto var_B3;
    case 7: goto var_B3;
    case 8: goto var_B3;
    case 9: goto var_B3;
    case 10: goto var_B3;
    case 11: goto var_B3;
    case 12: goto var_B3;
    case 13: goto var_B3;
    case 14: goto var_B3;
    case 15: goto var_B3;
    case 16: goto var_B3;
    case 17: goto var_B106;
    case 18: goto var_B4;
    case 19: goto var_B4;
    case 20: goto var_B4;
    case 21: goto var_B105;
    default: goto var_B107;
  }
  var_B107:;
  var_i0 = 0u;
  var_p3 = var_i0;
  var_j0 = 0ull;
  var_l11 = var_j0;
  var_i0 = 16u;
  var_l13 = var_i0;
  var_i0 = var_l10;
  var_l7 = var_i0;
  var_j0 = var_l9;
  var_l8 = var_j0;
  var_i0 = 0u;
  var_l6 = var_i0;
  var_i0 = var_p4;
  var_i1 = 255u;
  var_i0 &= var_i1;
  var_i1 = 4294967294u;
  var_i0 += var_i1;
  switch (var_i0) {
    case 0: goto var_B5;
    case 1: goto var_B4;
    case 2: goto var_B108;
    case 3: goto var_B4;
    case 4: goto var_B4;
    default: goto var_B5;
  }
  var_B108:;
  var_i0 = 19u;
  var_l13 = var_i0;
  goto var_B5;
  var_B106:;
  var_i0 = 18u;
  var_i1 = var_l5;
  var_i2 = var_p4;
  var_i3 = 255u;
  var_i2 &= var_i3;
  var_i3 = 3u;
  var_i2 = var_i2 == var_i3;
  var_p3 = var_i2;
  var_i0 = var_i2 ? var_i0 : var_i1;
  var_l13 = var_i0;
  var_j0 = 0ull;
  var_j1 = var_l9;
  var_i2 = var_p3;
  var_j0 = var_i2 ? var_j0 : var_j1;
  var_l11 = var_j0;
  var_i0 = var_p3;
  if (var_i0) {goto var_B5;}
  var_i0 = var_l13;
  var_p3 = var_i0;
  var_i0 = var_l10;
  var_l7 = var_i0;
  var_j0 = var_l11;
  var_l8 = var_j0;
  goto var_B4;
  var_B105:;
  var_i0 = 21u;
  var_p3 = var_i0;
  var_j0 = 0ull;
  var_l11 = var_j0;
  var_i0 = 22u;
  var_l13 = var_i0;
  var_i0 = var_l10;
  var_l7 = var_i0;
  var_j0 = var_l9;
  var_l8 = var_j0;
  var_i0 = var_p4;
  var_i1 = 255u;
  var_i0 &= var_i1;
  var_i1 = 4294967294u;
  var_i0 += var_i1;
  switch (var_i0) {
    case 0: goto var_B4;
    case 1: goto var_B4;
    case 2: goto var_B4;
    case 3: goto var_B5;
    case 4: goto var_B109;
    default: goto var_B4;
  }
  var_B109:;
  var_i0 = 23u;
  var_l13 = var_i0;
  var_B5:;
  var_i0 = 1u;
  var_l14 = var_i0;
  var_i0 = 0u;
  var_l7 = var_i0;
  var_i0 = var_l13;
  var_p3 = var_i0;
  var_j0 = var_l11;
  var_l8 = var_j0;
  var_i0 = 0u;
  var_l6 = var_i0;
  var_B4:;
  var_j0 = var_p1;
  var_i1 = var_p2;
  var_j1 = (u64)(var_i1);
  var_j2 = 255ull;
  var_j1 &= var_j2;
  var_j2 = 4ull;
  var_j1 <<= (var_j2 & 63);
  var_j0 += var_j1;
  var_p1 = var_j0;
  var_j1 = 1064ull;
  var_j0 += var_j1;
  var_j1 = var_l8;
  i64_store(origin, (u64)(var_j0), var_j1);
  var_j0 = var_p1;
  var_j1 = 1057ull;
  var_j0 += var_j1;
  var_i1 = var_l7;
  i32_store8(origin, (u64)(var_j0), var_i1);
  var_j0 = var_p1;
  var_j1 = 1056ull;
  var_j0 += var_j1;
  var_i1 = var_p3;
  i32_store8(origin, (u64)(var_j0), var_i1);
  var_j0 = var_p0;
  var_j1 = 3ull;
  var_j0 += var_j1;
  var_i1 = var_p4;
  i32_store8(origin, (u64)(var_j0), var_i1);
  var_j0 = var_p0;
  var_j1 = 2ull;
  var_j0 += var_j1;
  var_i1 = var_l14;
  i32_store8(origin, (u64)(var_j0), var_i1);
  var_j0 = var_p0;
  var_j1 = 1ull;
  var_j0 += var_j1;
  var_i1 = var_l6;
  i32_store8(origin, (u64)(var_j0), var_i1);
  var_j0 = var_p0;
  var_i1 = 0u;
  i32_store8(origin, (u64)(var_j0), var_i1);
  goto var_Bfunc;
  var_B3:;
  UNREACHABLE;
  var_B2:;
  var_i0 = 3u;
  var_l5 = var_i0;
  var_B1:;
  var_i0 = 0u;
  var_l6 = var_i0;
  var_B0:;
  var_j0 = var_p0;
  var_i1 = 1u;
  i32_store8(origin, (u64)(var_j0), var_i1);
  var_j0 = var_p0;
  var_j1 = 3ull;
  var_j0 += var_j1;
  var_i1 = 0u;
  i32_store8(origin, (u64)(var_j0), var_i1);
  var_j0 = var_p0;
  var_j1 = 2ull;
  var_j0 += var_j1;
  var_i1 = var_l6;
  i32_store8(origin, (u64)(var_j0), var_i1);
  var_j0 = var_p0;
  var_j1 = 1ull;
  var_j0 += var_j1;
  var_i1 = var_l5;
  i32_store8(origin, (u64)(var_j0), var_i1);
  var_Bfunc:;
  FUNC_EPILOGUE;
}

static void w2c_lockreplay_lk_trace0x3A0x3Aline0x3A0x3Amove_with(w2c_lockreplay* instance, u64 var_p0, u64 var_p1, u32 var_p2, u64 var_p3) {
  u32 var_l7 = 0, var_l8 = 0, var_l11 = 0, var_l12 = 0, var_l13 = 0, var_l15 = 0, var_l17 = 0, var_l18 = 0,
      var_l19 = 0, var_l20 = 0;
  u64 var_l4 = 0, var_l5 = 0, var_l6 = 0, var_l9 = 0, var_l10 = 0, var_l14 = 0, var_l16 = 0, var_l21 = 0,
      var_l22 = 0, var_l23 = 0, var_l24 = 0, var_l25 = 0;
  FUNC_PROLOGUE;
  u32 var_i0, var_i1, var_i2, var_i3, var_i4;
  u64 var_j0, var_j1, var_j2, var_j3;
  var_j0 = instance->w2c_0x5F_stack_pointer;
  var_j1 = 192ull;
  var_j0 -= var_j1;
  var_l4 = var_j0;
  instance->w2c_0x5F_stack_pointer = var_j0;
  var_j0 = var_l4;
  var_l4 = var_j0;
  var_j1 = 16ull;
  var_i0 = (u64)((s64)var_j0 < (s64)var_j1);
  if (var_i0) {goto var_B34;}
  var_j0 = var_p3;
  var_j1 = 2ull;
  var_j0 += var_j1;
  var_j0 = i64_load8_u(origin, (u64)(var_j0));
  var_l5 = var_j0;
  var_j0 = var_p3;
  var_j1 = 1ull;
  var_j0 += var_j1;
  var_j0 = i64_load8_u(origin, (u64)(var_j0));
  var_l6 = var_j0;
  var_j0 = var_p1;
  var_j1 = 25ull;
  var_j0 += var_j1;
  var_i0 = i32_load8_u(origin, (u64)(var_j0));
  var_l7 = var_i0;
  var_j0 = var_p1;
  var_j1 = 24ull;
  var_j0 += var_j1;
  var_i0 = i32_load8_u(origin, (u64)(var_j0));
  var_l8 = var_i0;
  var_j0 = var_p1;
  var_j1 = 16ull;
  var_j0 += var_j1;
  var_j0 = i64_load(origin, (u64)(var_j0));
  var_l9 = var_j0;
  var_j0 = var_p1;
  var_j1 = 8ull;
  var_j0 += var_j1;
  var_j0 = i64_load(origin, (u64)(var_j0));
  var_l10 = var_j0;
  var_j0 = var_p3;
  var_i0 = i32_load8_u(origin, (u64)(var_j0));
  var_l11 = var_i0;
  var_j0 = var_p1;
  var_i0 = i32_load8_u(origin, (u64)(var_j0));
  var_l12 = var_i0;
  var_i0 = 0u;
  var_l13 = var_i0;
  var_j0 = var_l4;
  var_i1 = 0u;
  i32_store8(origin, (u64)(var_j0) + 166, var_i1);
  var_j0 = var_l4;
  var_i1 = 0u;
  i32_store16(origin, (u64)(var_j0) + 164, var_i1);
  var_j0 = var_l4;
  var_i1 = 0u;
  i32_store(origin, (u64)(var_j0) + 156, var_i1);
  var_j0 = var_l4;
  var_i1 = 0u;
  i32_store16(origin, (u64)(var_j0) + 160, var_i1);
  var_i0 = var_l12;
  var_i1 = 255u;
  var_i0 &= var_i1;
  var_i1 = 1u;
  var_i0 = var_i0 != var_i1;
  if (var_i0) {goto var_B36;}
  var_j0 = var_l9;
  var_i0 = !(var_j0);
  var_i0 = !(var_i0);
  if (var_i0) {goto var_B38;}
  var_j0 = 0ull;
  var_l14 = var_j0;
  var_j0 = 0ull;
  var_p3 = var_j0;
  var_j0 = 0ull;
  var_p1 = var_j0;
  goto var_B37;
  var_B38:;
  var_j0 = 0ull;
  var_p1 = var_j0;
  var_L40:
    var_j0 = var_l10;
    var_j1 = var_p1;
    var_j0 += var_j1;
    var_p3 = var_j0;
    var_i0 = i32_load8_u(origin, (u64)(var_j0));
    var_i1 = 32u;
    var_i0 = var_i0 == var_i1;
    if (var_i0) {goto var_B39;}
    var_j0 = var_l9;
    var_j1 = var_p1;
    var_j2 = 1ull;
    var_j1 += var_j2;
    var_p1 = var_j1;
    var_i0 = var_j0 != var_j1;
    if (var_i0) {goto var_L40;}
  var_j0 = 0ull;
  var_l14 = var_j0;
  var_i0 = 0u;
  var_l13 = var_i0;
  var_j0 = 0ull;
  var_p3 = var_j0;
  var_j0 = var_l9;
  var_p1 = var_j0;
  goto var_B37;
  var_B39:;
  var_j0 = var_p3;
  var_j1 = 1ull;
  var_j0 += var_j1;
  var_l14 = var_j0;
  var_j0 = var_p1;
  var_j1 = 18446744073709551615ull;
  var_j0 ^= var_j1;
  var_j1 = var_l9;
  var_j0 += var_j1;
  var_p3 = var_j0;
  var_i0 = 1u;
  var_l13 = var_i0;
  var_B37:;
  var_j0 = var_l4;
  var_j1 = 164ull;
  var_j0 += var_j1;
  var_j1 = var_l10;
  var_j2 = var_p1;
  w2c_lockreplay_lk_lines0x3A0x3Avocabulary0x3A0x3Amove_named(instance, var_j0, var_j1, var_j2);
  var_j0 = var_l4;
  var_i0 = i32_load8_u(origin, (u64)(var_j0) + 164u);
  var_i1 = 1u;
  var_i0 = var_i0 == var_i1;
  if (var_i0) {goto var_B35;}
  var_j0 = var_p0;
  var_j1 = 1ull;
  i64_store(origin, (u64)(var_j0), var_j1);
  var_j0 = var_p0;
  var_j1 = 34ull;
  var_j0 += var_j1;
  var_j1 = 0ull;
  i64_store(origin, (u64)(var_j0), var_j1);
  var_j0 = var_p0;
  var_j1 = 33ull;
  var_j0 += var_j1;
  var_i1 = var_l7;
  i32_store8(origin, (u64)(var_j0), var_i1);
  var_j0 = var_p0;
  var_j1 = 32ull;
  var_j0 += var_j1;
  var_i1 = var_l8;
  i32_store8(origin, (u64)(var_j0), var_i1);
  var_j0 = var_p0;
  var_j1 = 24ull;
  var_j0 += var_j1;
  var_j1 = var_l9;
  i64_store(origin, (u64)(var_j0), var_j1);
  var_j0 = var_p0;
  var_j1 = 16ull;
  var_j0 += var_j1;
  var_j1 = var_l10;
  i64_store(origin, (u64)(var_j0), var_j1);
  var_j0 = var_p0;
  var_j1 = 10ull;
  var_j0 += var_j1;
  var_i1 = 0u;
  i32_store8(origin, (u64)(var_j0), var_i1);
  var_j0 = var_p0;
  var_j1 = 8ull;
  var_j0 += var_j1;
  var_i1 = 1u;
  i32_store16(origin, (u64)(var_j0), var_i1);
  var_j0 = var_p0;
  var_j1 = 42ull;
  var_j0 += var_j1;
  var_j1 = 0ull;
  i64_store(origin, (u64)(var_j0), var_j1);
  var_j0 = var_p0;
  var_j1 = 50ull;
  var_j0 += var_j1;
  var_j1 = 0ull;
  i64_store(origin, (u64)(var_j0), var_j1);
  var_j0 = var_p0;
  var_j1 = 56ull;
  var_j0 += var_j1;
  var_j1 = 0ull;
  i64_store(origin, (u64)(var_j0), var_j1);
  goto var_B0;
  var_B36:;
  var_j0 = var_p0;
  var_j1 = 1ull;
  i64_store(origin, (u64)(var_j0), var_j1);
  var_j0 = var_p0;
  var_j1 = 34ull;
  var_j0 += var_j1;
  var_j1 = 0ull;
  i64_store(origin, (u64)(var_j0), var_j1);
  var_j0 = var_p0;
  var_j1 = 33ull;
  var_j0 += var_j1;
  var_i1 = var_l7;
  i32_store8(origin, (u64)(var_j0), var_i1);
  var_j0 = var_p0;
  var_j1 = 32ull;
  var_j0 += var_j1;
  var_i1 = var_l8;
  i32_store8(origin, (u64)(var_j0), var_i1);
  var_j0 = var_p0;
  var_j1 = 24ull;
  var_j0 += var_j1;
  var_j1 = var_l9;
  i64_store(origin, (u64)(var_j0), var_j1);
  var_j0 = var_p0;
  var_j1 = 16ull;
  var_j0 += var_j1;
  var_j1 = var_l10;
  i64_store(origin, (u64)(var_j0), var_j1);
  var_j0 = var_p0;
  var_j1 = 9ull;
  var_j0 += var_j1;
  var_i1 = 0u;
  i32_store16(origin, (u64)(var_j0), var_i1);
  var_j0 = var_p0;
  var_j1 = 8ull;
  var_j0 += var_j1;
  var_i1 = var_l12;
  i32_store8(origin, (u64)(var_j0), var_i1);
  var_j0 = var_p0;
  var_j1 = 42ull;
  var_j0 += var_j1;
  var_j1 = 0ull;
  i64_store(origin, (u64)(var_j0), var_j1);
  var_j0 = var_p0;
  var_j1 = 50ull;
  var_j0 += var_j1;
  var_j1 = 0ull;
  i64_store(origin, (u64)(var_j0), var_j1);
  var_j0 = var_p0;
  var_j1 = 56ull;
  var_j0 += var_j1;
  var_j1 = 0ull;
  i64_store(origin, (u64)(var_j0), var_j1);
  goto var_B0;
  var_B35:;
  var_j0 = var_l4;
  var_i0 = i32_load8_u(origin, (u64)(var_j0) + 165u);
  var_l8 = var_i0;
  var_j0 = var_l4;
  var_i0 = i32_load8_u(origin, (u64)(var_j0) + 166u);
  var_l12 = var_i0;
  var_i0 = 0u;
  var_l7 = var_i0;
  var_j0 = var_l4;
  var_i1 = 0u;
  i32_store16(origin, (u64)(var_j0) + 172, var_i1);
  var_j0 = var_l4;
  var_i1 = 0u;
  i32_store(origin, (u64)(var_j0) + 168, var_i1);
  var_i0 = var_l11;
  var_i1 = 255u;
  var_i0 &= var_i1;
  if (var_i0) {goto var_B41;}
  var_i0 = var_l8;
  var_i1 = 255u;
  var_i0 &= var_i1;
  if (var_i0) {goto var_B42;}
  var_j0 = 0ull;
  var_l5 = var_j0;
  var_i0 = 0u;
  var_l7 = var_i0;
  var_i0 = var_l13;
  if (var_i0) {goto var_B44;}
  var_i0 = 0u;
  var_l15 = var_i0;
  var_j0 = 0ull;
  var_p1 = var_j0;
  var_j0 = 0ull;
  var_l9 = var_j0;
  var_j0 = 0ull;
  var_l10 = var_j0;
  var_i0 = 0u;
  var_l13 = var_i0;
  goto var_B43;
  var_B44:;
  var_i0 = 8u;
  var_l13 = var_i0;
  var_j0 = 1ull;
  var_p1 = var_j0;
  var_i0 = 1u;
  var_l15 = var_i0;
  var_j0 = var_l14;
  var_l9 = var_j0;
  var_j0 = var_p3;
  var_l10 = var_j0;
  var_B43:;
  var_j0 = 0ull;
  var_l16 = var_j0;
  var_i0 = 0u;
  var_l11 = var_i0;
  var_i0 = 0u;
  var_l17 = var_i0;
  goto var_B3;
  var_B42:;
  var_i0 = var_l12;
  var_i1 = 255u;
  var_i0 &= var_i1;
  var_i1 = 5u;
  var_i0 = var_i0 != var_i1;
  if (var_i0) {goto var_B45;}
  var_i0 = var_l13;
  var_i0 = !(var_i0);
  if (var_i0) {goto var_B33;}
  var_j0 = var_p3;
  var_i0 = !(var_j0);
  if (var_i0) {goto var_B49;}
  var_j0 = 0ull;
  var_p1 = var_j0;
  var_L52:
    var_j0 = var_l14;
    var_j1 = var_p1;
    var_j0 += var_j1;
    var_l9 = var_j0;
    var_i0 = i32_load8_u(origin, (u64)(var_j0));
    var_l7 = var_i0;
    var_i1 = 32u;
    var_i0 = var_i0 == var_i1;
    if (var_i0) {goto var_B51;}
    var_j0 = var_p3;
    var_j1 = var_p1;
    var_j2 = 1ull;
    var_j1 += var_j2;
    var_p1 = var_j1;
    var_i0 = var_j0 != var_j1;
    if (var_i0) {goto var_L52;}
  var_j0 = 0ull;
  var_l9 = var_j0;
  var_j0 = 0ull;
  var_l10 = var_j0;
  var_j0 = var_p3;
  var_p1 = var_j0;
  goto var_B50;
  var_B51:;
  var_j0 = var_p1;
  var_j1 = 18446744073709551615ull;
  var_j0 ^= var_j1;
  var_j1 = var_p3;
  var_j0 += var_j1;
  var_l10 = var_j0;
  var_j0 = var_l9;
  var_j1 = 1ull;
  var_j0 += var_j1;
  var_l9 = var_j0;
  var_B50:;
  var_j0 = var_p1;
  var_j1 = 1ull;
  var_i0 = var_j0 > var_j1;
  if (var_i0) {goto var_B55;}
  var_j0 = var_p1;
  var_i0 = (u32)(var_j0);
  switch (var_i0) {
    case 0: goto var_B53;
    case 1: goto var_B54;
    default: goto var_B53;
  }
  var_B55:;
  var_j0 = var_l14;
  var_i0 = i32_load8_u(origin, (u64)(var_j0));
  var_i1 = 48u;
  var_i0 = var_i0 == var_i1;
  if (var_i0) {goto var_B53;}
  var_B54:;
  var_j0 = 0ull;
  var_l5 = var_j0;
  var_j0 = var_l14;
  var_l6 = var_j0;
  var_L56:
    var_j0 = var_l5;
    var_j1 = 1844674407370955161ull;
    var_i0 = var_j0 > var_j1;
    if (var_i0) {goto var_B53;}
    var_j0 = var_l6;
    var_i0 = i32_load8_u(origin, (u64)(var_j0));
    var_i1 = 4294967248u;
    var_i0 += var_i1;
    var_l13 = var_i0;
    var_i1 = 255u;
    var_i0 &= var_i1;
    var_i1 = 9u;
    var_i0 = var_i0 > var_i1;
    if (var_i0) {goto var_B53;}
    var_j0 = var_l5;
    var_j1 = 10ull;
    var_j0 *= var_j1;
    var_l5 = var_j0;
    var_i1 = var_l13;
    var_j1 = (u64)(var_i1);
    var_j2 = 255ull;
    var_j1 &= var_j2;
    var_l16 = var_j1;
    var_j2 = 18446744073709551615ull;
    var_j1 ^= var_j2;
    var_i0 = var_j0 > var_j1;
    if (var_i0) {goto var_B53;}
    var_j0 = var_l6;
    var_j1 = 1ull;
    var_j0 += var_j1;
    var_l6 = var_j0;
    var_j0 = var_l5;
    var_j1 = var_l16;
    var_j0 += var_j1;
    var_l5 = var_j0;
    var_j0 = var_p1;
    var_j1 = 18446744073709551615ull;
    var_j0 += var_j1;
    var_p1 = var_j0;
    var_i0 = !(var_j0);
    var_i0 = !(var_i0);
    if (var_i0) {goto var_L56;}
  var_i0 = 0u;
  var_l15 = var_i0;
  var_j0 = var_l4;
  var_i1 = 0u;
  i32_store16(origin, (u64)(var_j0) + 188, var_i1);
  var_j0 = var_l4;
  var_i1 = 0u;
  i32_store(origin, (u64)(var_j0) + 184, var_i1);
  var_i0 = var_l7;
  var_i1 = 32u;
  var_i0 = var_i0 != var_i1;
  if (var_i0) {goto var_B59;}
  var_j0 = var_l10;
  var_i0 = !(var_j0);
  if (var_i0) {goto var_B60;}
  var_j0 = 0ull;
  var_p1 = var_j0;
  var_L61:
    var_j0 = var_l9;
    var_j1 = var_p1;
    var_j0 += var_j1;
    var_p3 = var_j0;
    var_i0 = i32_load8_u(origin, (u64)(var_j0));
    var_i1 = 32u;
    var_i0 = var_i0 == var_i1;
    if (var_i0) {goto var_B58;}
    var_j0 = var_l10;
    var_j1 = var_p1;
    var_j2 = 1ull;
    var_j1 += var_j2;
    var_p1 = var_j1;
    var_i0 = var_j0 != var_j1;
    if (var_i0) {goto var_L61;}
  var_B60:;
  var_j0 = var_l4;
  var_j1 = 24ull;
  var_j0 += var_j1;
  var_j1 = var_l9;
  var_j2 = var_l10;
  w2c_lockreplay_lk_lines0x3A0x3Avocabulary0x3A0x3Aoutcome_named(instance, var_j0, var_j1, var_j2);
  var_i0 = 1u;
  var_l7 = var_i0;
  var_j0 = var_l4;
  var_i0 = i32_load8_u(origin, (u64)(var_j0) + 24u);
  var_i1 = 1u;
  var_i0 &= var_i1;
  var_i0 = !(var_i0);
  if (var_i0) {goto var_B57;}
  var_j0 = var_l4;
  var_i0 = i32_load8_u(origin, (u64)(var_j0) + 25u);
  var_l13 = var_i0;
  var_i0 = 0u;
  var_l15 = var_i0;
  var_j0 = var_l4;
  var_i1 = 0u;
  i32_store16(origin, (u64)(var_j0) + 188, var_i1);
  var_j0 = var_l4;
  var_i1 = 0u;
  i32_store(origin, (u64)(var_j0) + 184, var_i1);
  var_j0 = 1ull;
  var_l9 = var_j0;
  var_j0 = 2ull;
  var_p1 = var_j0;
  var_j0 = var_l5;
  var_l10 = var_j0;
  goto var_B6;
  var_B59:;
  var_j0 = var_l4;
  var_i1 = 0u;
  i32_store16(origin, (u64)(var_j0) + 180, var_i1);
  var_j0 = var_l4;
  var_i1 = 0u;
  i32_store(origin, (u64)(var_j0) + 176, var_i1);
  var_j0 = 1ull;
  var_l9 = var_j0;
  var_j0 = 2ull;
  var_p1 = var_j0;
  var_j0 = var_l5;
  var_l10 = var_j0;
  var_i0 = 0u;
  var_l7 = var_i0;
  var_i0 = 0u;
  var_l13 = var_i0;
  goto var_B5;
  var_B58:;
  var_j0 = var_l4;
  var_j1 = 32ull;
  var_j0 += var_j1;
  var_j1 = var_l9;
  var_j2 = var_p1;
  w2c_lockreplay_lk_lines0x3A0x3Avocabulary0x3A0x3Aoutcome_named(instance, var_j0, var_j1, var_j2);
  var_i0 = 1u;
  var_l15 = var_i0;
  var_j0 = var_l4;
  var_i0 = i32_load8_u(origin, (u64)(var_j0) + 32u);
  var_i1 = 1u;
  var_i0 &= var_i1;
  if (var_i0) {goto var_B7;}
  var_B57:;
  var_i0 = 0u;
  var_l13 = var_i0;
  var_j0 = var_l4;
  var_i1 = 0u;
  i32_store16(origin, (u64)(var_j0) + 180, var_i1);
  var_j0 = var_l4;
  var_i1 = 0u;
  i32_store(origin, (u64)(var_j0) + 176, var_i1);
  var_i0 = 2u;
  var_l7 = var_i0;
  var_j0 = 1ull;
  var_p1 = var_j0;
  var_i0 = 1u;
  var_l15 = var_i0;
  goto var_B5;
  var_B53:;
  var_j0 = var_l4;
  var_i1 = 0u;
  i32_store16(origin, (u64)(var_j0) + 188, var_i1);
  var_j0 = var_l4;
  var_i1 = 0u;
  i32_store(origin, (u64)(var_j0) + 184, var_i1);
  var_j0 = 0ull;
  var_p1 = var_j0;
  var_L62:
    var_j0 = var_l14;
    var_j1 = var_p1;
    var_j0 += var_j1;
    var_l9 = var_j0;
    var_i0 = i32_load8_u(origin, (u64)(var_j0));
    var_i1 = 32u;
    var_i0 = var_i0 == var_i1;
    if (var_i0) {goto var_B48;}
    var_j0 = var_p3;
    var_j1 = var_p1;
    var_j2 = 1ull;
    var_j1 += var_j2;
    var_p1 = var_j1;
    var_i0 = var_j0 != var_j1;
    if (var_i0) {goto var_L62;}
  var_B49:;
  var_j0 = var_l4;
  var_j1 = 8ull;
  var_j0 += var_j1;
  var_j1 = var_l14;
  var_j2 = var_p3;
  w2c_lockreplay_lk_lines0x3A0x3Avocabulary0x3A0x3Aoutcome_named(instance, var_j0, var_j1, var_j2);
  var_i0 = 1u;
  var_l7 = var_i0;
  var_j0 = var_l4;
  var_i0 = i32_load8_u(origin, (u64)(var_j0) + 8u);
  var_i1 = 1u;
  var_i0 &= var_i1;
  if (var_i0) {goto var_B47;}
  goto var_B9;
  var_B48:;
  var_j0 = var_l4;
  var_j1 = 16ull;
  var_j0 += var_j1;
  var_j1 = var_l14;
  var_j2 = var_p1;
  w2c_lockreplay_lk_lines0x3A0x3Avocabulary0x3A0x3Aoutcome_named(instance, var_j0, var_j1, var_j2);
  var_i0 = 1u;
  var_l15 = var_i0;
  var_j0 = var_l4;
  var_i0 = i32_load8_u(origin, (u64)(var_j0) + 16u);
  var_i1 = 1u;
  var_i0 &= var_i1;
  var_i0 = !(var_i0);
  if (var_i0) {goto var_B9;}
  var_j0 = var_p1;
  var_j1 = 18446744073709551615ull;
  var_j0 ^= var_j1;
  var_j1 = var_p3;
  var_j0 += var_j1;
  var_p3 = var_j0;
  var_j0 = 1ull;
  var_p1 = var_j0;
  var_j0 = var_l9;
  var_j1 = 1ull;
  var_j0 += var_j1;
  var_l14 = var_j0;
  var_i0 = 8u;
  var_l13 = var_i0;
  var_i0 = 0u;
  var_l7 = var_i0;
  goto var_B46;
  var_B47:;
  var_j0 = var_l4;
  var_i0 = i32_load8_u(origin, (u64)(var_j0) + 9u);
  var_l13 = var_i0;
  var_i0 = 0u;
  var_l15 = var_i0;
  var_j0 = var_l4;
  var_i1 = 0u;
  i32_store16(origin, (u64)(var_j0) + 188, var_i1);
  var_j0 = var_l4;
  var_i1 = 0u;
  i32_store(origin, (u64)(var_j0) + 184, var_i1);
  var_j0 = 0ull;
  var_l14 = var_j0;
  var_j0 = 2ull;
  var_p1 = var_j0;
  var_j0 = 0ull;
  var_p3 = var_j0;
  var_B46:;
  var_j0 = var_l4;
  var_j1 = var_l4;
  var_i1 = i32_load16_u(origin, (u64)(var_j1) + 188u);
  i32_store16(origin, (u64)(var_j0) + 180, var_i1);
  var_j0 = var_l4;
  var_j1 = var_l4;
  var_i1 = i32_load(origin, (u64)(var_j1) + 184u);
  i32_store(origin, (u64)(var_j0) + 176, var_i1);
  goto var_B8;
  var_B45:;
  var_i0 = 0u;
  var_l11 = var_i0;
  var_j0 = var_l4;
  var_i1 = 0u;
  i32_store16(origin, (u64)(var_j0) + 180, var_i1);
  var_j0 = var_l4;
  var_i1 = 0u;
  i32_store(origin, (u64)(var_j0) + 176, var_i1);
  var_i0 = var_l13;
  if (var_i0) {goto var_B63;}
  var_j0 = var_l4;
  var_i1 = 0u;
  i32_store16(origin, (u64)(var_j0) + 188, var_i1);
  var_j0 = var_l4;
  var_i1 = 0u;
  i32_store(origin, (u64)(var_j0) + 184, var_i1);
  var_j0 = 0ull;
  var_l14 = var_j0;
  var_j0 = 0ull;
  var_p3 = var_j0;
  var_j0 = 0ull;
  var_l16 = var_j0;
  var_i0 = 0u;
  var_l17 = var_i0;
  var_i0 = 0u;
  var_l7 = var_i0;
  var_i0 = 0u;
  var_l13 = var_i0;
  var_i0 = 0u;
  var_l15 = var_i0;
  var_j0 = 0ull;
  var_p1 = var_j0;
  goto var_B14;
  var_B63:;
  var_j0 = var_p3;
  var_i0 = !(var_j0);
  var_l13 = var_i0;
  if (var_i0) {goto var_B65;}
  var_j0 = var_l14;
  var_p1 = var_j0;
  var_j0 = var_p3;
  var_l9 = var_j0;
  var_L66:
    var_j0 = var_p1;
    var_i0 = i32_load8_u(origin, (u64)(var_j0));
    var_i1 = 32u;
    var_i0 = var_i0 == var_i1;
    if (var_i0) {goto var_B64;}
    var_j0 = var_p1;
    var_j1 = 1ull;
    var_j0 += var_j1;
    var_p1 = var_j0;
    var_j0 = var_l9;
    var_j1 = 18446744073709551615ull;
    var_j0 += var_j1;
    var_l9 = var_j0;
    var_j1 = 0ull;
    var_i0 = var_j0 != var_j1;
    if (var_i0) {goto var_L66;}
  var_B65:;
  var_j0 = var_l4;
  var_j1 = 96ull;
  var_j0 += var_j1;
  var_j1 = var_l14;
  var_j2 = var_p3;
  w2c_lockreplay_lk_lines0x3A0x3Avocabulary0x3A0x3Aoutcome_named(instance, var_j0, var_j1, var_j2);
  var_i0 = 1u;
  var_l7 = var_i0;
  var_j0 = var_l4;
  var_i0 = i32_load8_u(origin, (u64)(var_j0) + 96u);
  var_i1 = 1u;
  var_i0 = var_i0 != var_i1;
  if (var_i0) {goto var_B64;}
  var_j0 = var_l4;
  var_i0 = i32_load8_u(origin, (u64)(var_j0) + 97u);
  var_l13 = var_i0;
  var_i0 = 0u;
  var_l15 = var_i0;
  var_j0 = var_l4;
  var_i1 = 0u;
  i32_store16(origin, (u64)(var_j0) + 180, var_i1);
  var_j0 = var_l4;
  var_i1 = 0u;
  i32_store(origin, (u64)(var_j0) + 176, var_i1);
  var_j0 = 2ull;
  var_p1 = var_j0;
  var_j0 = 0ull;
  var_l14 = var_j0;
  var_j0 = 0ull;
  var_p3 = var_j0;
  var_j0 = 0ull;
  var_l16 = var_j0;
  var_i0 = 0u;
  var_l11 = var_i0;
  var_i0 = 0u;
  var_l17 = var_i0;
  goto var_B10;
  var_B64:;
  var_i0 = 0u;
  var_l11 = var_i0;
  var_j0 = var_l4;
  var_i1 = 0u;
  i32_store16(origin, (u64)(var_j0) + 188, var_i1);
  var_j0 = var_l4;
  var_i1 = 0u;
  i32_store(origin, (u64)(var_j0) + 184, var_i1);
  var_i0 = 1u;
  var_l15 = var_i0;
  var_j0 = 0ull;
  var_l5 = var_j0;
  var_i0 = 3u;
  var_l7 = var_i0;
  var_i0 = var_l13;
  var_i0 = !(var_i0);
  if (var_i0) {goto var_B67;}
  var_j0 = 0ull;
  var_p3 = var_j0;
  goto var_B13;
  var_B67:;
  var_j0 = 0ull;
  var_p1 = var_j0;
  var_L70:
    var_j0 = 1ull;
    var_l9 = var_j0;
    var_j0 = var_l14;
    var_j1 = var_p1;
    var_j0 += var_j1;
    var_l10 = var_j0;
    var_i0 = i32_load8_u(origin, (u64)(var_j0));
    var_l13 = var_i0;
    var_i1 = 32u;
    var_i0 = var_i0 == var_i1;
    if (var_i0) {goto var_B69;}
    var_j0 = var_p3;
    var_j1 = var_p1;
    var_j2 = 1ull;
    var_j1 += var_j2;
    var_p1 = var_j1;
    var_i0 = var_j0 != var_j1;
    if (var_i0) {goto var_L70;}
  var_j0 = 0ull;
  var_l9 = var_j0;
  var_j0 = 0ull;
  var_l10 = var_j0;
  var_j0 = 0ull;
  var_l6 = var_j0;
  var_j0 = var_p3;
  var_p1 = var_j0;
  goto var_B68;
  var_B69:;
  var_j0 = var_p1;
  var_j1 = 18446744073709551615ull;
  var_j0 ^= var_j1;
  var_j1 = var_p3;
  var_j0 += var_j1;
  var_l6 = var_j0;
  var_j0 = var_l10;
  var_j1 = 1ull;
  var_j0 += var_j1;
  var_l10 = var_j0;
  var_B68:;
  var_j0 = var_p1;
  var_j1 = 18446744073709551612ull;
  var_j0 += var_j1;
  var_p1 = var_j0;
  var_j1 = 7ull;
  var_i0 = var_j0 > var_j1;
  if (var_i0) {goto var_B13;}
  var_i0 = 1u;
  var_l18 = var_i0;
  var_j0 = var_p1;
  var_i0 = (u32)(var_j0);
  switch (var_i0) {
    case 0: goto var_B76;
    case 1: goto var_B12;
    case 2: goto var_B73;
    case 3: goto var_B12;
    case 4: goto var_B12;
    case 5: goto var_B12;
    case 6: goto var_B12;
    case 7: goto var_B75;
    default: goto var_B76;
  }
  var_B76:;
  var_j0 = var_l14;
  var_j1 = 3ull;
  var_j0 += var_j1;
  var_i0 = i32_load8_u(origin, (u64)(var_j0));
  var_l19 = var_i0;
  var_j0 = var_l14;
  var_j1 = 2ull;
  var_j0 += var_j1;
  var_i0 = i32_load8_u(origin, (u64)(var_j0));
  var_l18 = var_i0;
  var_j0 = var_l14;
  var_j1 = 1ull;
  var_j0 += var_j1;
  var_i0 = i32_load8_u(origin, (u64)(var_j0));
  var_l17 = var_i0;
  var_j0 = var_l14;
  var_i0 = i32_load8_u(origin, (u64)(var_j0));
  var_l20 = var_i0;
  var_i1 = 116u;
  var_i0 = var_i0 != var_i1;
  if (var_i0) {goto var_B74;}
  var_i0 = var_l17;
  var_i1 = 255u;
  var_i0 &= var_i1;
  var_i1 = 97u;
  var_i0 = var_i0 != var_i1;
  if (var_i0) {goto var_B74;}
  var_i0 = var_l18;
  var_i1 = 255u;
  var_i0 &= var_i1;
  var_i1 = 105u;
  var_i0 = var_i0 != var_i1;
  if (var_i0) {goto var_B74;}
  var_i0 = var_l19;
  var_i1 = 255u;
  var_i0 &= var_i1;
  var_i1 = 108u;
  var_i0 = var_i0 != var_i1;
  if (var_i0) {goto var_B74;}
  var_j0 = var_l14;
  var_j1 = 4ull;
  var_j2 = 1058549ull;
  var_i0 = w2c_lockreplay_core0x3A0x3Acmp0x3A0x3Aslices0x3A0x3Agroups_equal0x3A0x3A0x3Ci80x2C310x27core0x3A0x3Acmp0x3A0x3Anumbers0x3A0x3AU8PartialEq0x7B0x7D0x3E(instance, var_j0, var_j1, var_j2);
  var_i0 = !(var_i0);
  if (var_i0) {goto var_B74;}
  var_j0 = 513ull;
  var_l5 = var_j0;
  var_i0 = 6u;
  var_l7 = var_i0;
  goto var_B71;
  var_B75:;
  var_j0 = var_l14;
  var_j1 = 3ull;
  var_j0 += var_j1;
  var_i0 = i32_load8_u(origin, (u64)(var_j0));
  var_l18 = var_i0;
  var_j0 = var_l14;
  var_j1 = 2ull;
  var_j0 += var_j1;
  var_i0 = i32_load8_u(origin, (u64)(var_j0));
  var_l17 = var_i0;
  var_j0 = var_l14;
  var_j1 = 1ull;
  var_j0 += var_j1;
  var_i0 = i32_load8_u(origin, (u64)(var_j0));
  var_l13 = var_i0;
  var_j0 = var_l14;
  var_i0 = i32_load8_u(origin, (u64)(var_j0));
  var_i1 = 110u;
  var_i0 = var_i0 != var_i1;
  var_l19 = var_i0;
  if (var_i0) {goto var_B77;}
  var_i0 = var_l13;
  var_i1 = 255u;
  var_i0 &= var_i1;
  var_i1 = 101u;
  var_i0 = var_i0 != var_i1;
  if (var_i0) {goto var_B77;}
  var_i0 = var_l17;
  var_i1 = 255u;
  var_i0 &= var_i1;
  var_i1 = 120u;
  var_i0 = var_i0 != var_i1;
  if (var_i0) {goto var_B77;}
  var_i0 = var_l18;
  var_i1 = 255u;
  var_i0 &= var_i1;
  var_i1 = 116u;
  var_i0 = var_i0 != var_i1;
  if (var_i0) {goto var_B77;}
  var_i0 = 1u;
  var_l18 = var_i0;
  var_j0 = var_l14;
  var_j1 = 11ull;
  var_j2 = 1058527ull;
  var_i0 = w2c_lockreplay_core0x3A0x3Acmp0x3A0x3Aslices0x3A0x3Agroups_equal0x3A0x3A0x3Ci80x2C310x27core0x3A0x3Acmp0x3A0x3Anumbers0x3A0x3AU8PartialEq0x7B0x7D0x3E(instance, var_j0, var_j1, var_j2);
  var_i0 = !(var_i0);
  if (var_i0) {goto var_B12;}
  var_j0 = 1ull;
  var_l5 = var_j0;
  var_i0 = 6u;
  var_l7 = var_i0;
  goto var_B71;
  var_B77:;
  var_i0 = var_l19;
  if (var_i0) {goto var_B13;}
  var_i0 = var_l13;
  var_i1 = 255u;
  var_i0 &= var_i1;
  var_i1 = 111u;
  var_i0 = var_i0 != var_i1;
  if (var_i0) {goto var_B13;}
  var_i0 = var_l17;
  var_i1 = 255u;
  var_i0 &= var_i1;
  var_i1 = 119u;
  var_i0 = var_i0 != var_i1;
  if (var_i0) {goto var_B13;}
  var_i0 = var_l18;
  var_i1 = 255u;
  var_i0 &= var_i1;
  var_i1 = 95u;
  var_i0 = var_i0 != var_i1;
  if (var_i0) {goto var_B13;}
  var_i0 = 1u;
  var_l18 = var_i0;
  var_j0 = var_l14;
  var_j1 = 11ull;
  var_j2 = 1058538ull;
  var_i0 = w2c_lockreplay_core0x3A0x3Acmp0x3A0x3Aslices0x3A0x3Agroups_equal0x3A0x3A0x3Ci80x2C310x27core0x3A0x3Acmp0x3A0x3Anumbers0x3A0x3AU8PartialEq0x7B0x7D0x3E(instance, var_j0, var_j1, var_j2);
  var_i0 = !(var_i0);
  if (var_i0) {goto var_B12;}
  var_j0 = 257ull;
  var_l5 = var_j0;
  var_i0 = 6u;
  var_l7 = var_i0;
  goto var_B71;
  var_B74:;
  var_i0 = var_l20;
  var_i1 = 110u;
  var_i0 = var_i0 != var_i1;
  if (var_i0) {goto var_B13;}
  var_i0 = var_l17;
  var_i1 = 255u;
  var_i0 &= var_i1;
  var_i1 = 101u;
  var_i0 = var_i0 != var_i1;
  if (var_i0) {goto var_B13;}
  var_i0 = var_l18;
  var_i1 = 255u;
  var_i0 &= var_i1;
  var_i1 = 120u;
  var_i0 = var_i0 != var_i1;
  if (var_i0) {goto var_B13;}
  var_i0 = var_l19;
  var_i1 = 255u;
  var_i0 &= var_i1;
  var_i1 = 116u;
  var_i0 = var_i0 != var_i1;
  if (var_i0) {goto var_B13;}
  var_i0 = 1u;
  var_l18 = var_i0;
  var_j0 = var_l14;
  var_j1 = 4ull;
  var_j2 = 1058553ull;
  var_i0 = w2c_lockreplay_core0x3A0x3Acmp0x3A0x3Aslices0x3A0x3Agroups_equal0x3A0x3A0x3Ci80x2C310x27core0x3A0x3Acmp0x3A0x3Anumbers0x3A0x3AU8PartialEq0x7B0x7D0x3E(instance, var_j0, var_j1, var_j2);
  var_i0 = !(var_i0);
  if (var_i0) {goto var_B12;}
  var_j0 = 768ull;
  var_l21 = var_j0;
  goto var_B72;
  var_B73:;
  var_j0 = var_l14;
  var_i0 = i32_load8_u(origin, (u64)(var_j0));
  var_i1 = 108u;
  var_i0 = var_i0 != var_i1;
  if (var_i0) {goto var_B13;}
  var_j0 = var_l14;
  var_j1 = 1ull;
  var_j0 += var_j1;
  var_i0 = i32_load8_u(origin, (u64)(var_j0));
  var_i1 = 255u;
  var_i0 &= var_i1;
  var_i1 = 111u;
  var_i0 = var_i0 != var_i1;
  if (var_i0) {goto var_B13;}
  var_j0 = var_l14;
  var_j1 = 2ull;
  var_j0 += var_j1;
  var_i0 = i32_load8_u(origin, (u64)(var_j0));
  var_i1 = 255u;
  var_i0 &= var_i1;
  var_i1 = 99u;
  var_i0 = var_i0 != var_i1;
  if (var_i0) {goto var_B13;}
  var_j0 = var_l14;
  var_j1 = 3ull;
  var_j0 += var_j1;
  var_i0 = i32_load8_u(origin, (u64)(var_j0));
  var_i1 = 255u;
  var_i0 &= var_i1;
  var_i1 = 107u;
  var_i0 = var_i0 != var_i1;
  if (var_i0) {goto var_B13;}
  var_i0 = 1u;
  var_l18 = var_i0;
  var_j0 = var_l14;
  var_j1 = 6ull;
  var_j2 = 1058557ull;
  var_i0 = w2c_lockreplay_core0x3A0x3Acmp0x3A0x3Aslices0x3A0x3Agroups_equal0x3A0x3A0x3Ci80x2C310x27core0x3A0x3Acmp0x3A0x3Anumbers0x3A0x3AU8PartialEq0x7B0x7D0x3E(instance, var_j0, var_j1, var_j2);
  var_i0 = !(var_i0);
  if (var_i0) {goto var_B12;}
  var_j0 = 1024ull;
  var_l21 = var_j0;
  var_B72:;
  var_j0 = 0ull;
  var_l16 = var_j0;
  var_i0 = 4u;
  var_l7 = var_i0;
  var_i0 = var_l13;
  var_i1 = 32u;
  var_i0 = var_i0 != var_i1;
  if (var_i0) {goto var_B78;}
  var_j0 = var_l6;
  var_i0 = !(var_j0);
  if (var_i0) {goto var_B78;}
  var_j0 = 0ull;
  var_p1 = var_j0;
  var_L81:
    var_j0 = var_l10;
    var_j1 = var_p1;
    var_j0 += var_j1;
    var_l14 = var_j0;
    var_i0 = i32_load8_u(origin, (u64)(var_j0));
    var_l13 = var_i0;
    var_i1 = 32u;
    var_i0 = var_i0 == var_i1;
    if (var_i0) {goto var_B80;}
    var_j0 = var_l6;
    var_j1 = var_p1;
    var_j2 = 1ull;
    var_j1 += var_j2;
    var_p1 = var_j1;
    var_i0 = var_j0 != var_j1;
    if (var_i0) {goto var_L81;}
  var_j0 = 0ull;
  var_l14 = var_j0;
  var_i0 = 0u;
  var_l18 = var_i0;
  var_j0 = 0ull;
  var_p3 = var_j0;
  var_j0 = var_l6;
  var_p1 = var_j0;
  goto var_B79;
  var_B80:;
  var_j0 = var_p1;
  var_j1 = 18446744073709551615ull;
  var_j0 ^= var_j1;
  var_j1 = var_l6;
  var_j0 += var_j1;
  var_p3 = var_j0;
  var_j0 = var_l14;
  var_j1 = 1ull;
  var_j0 += var_j1;
  var_l14 = var_j0;
  var_i0 = 1u;
  var_l18 = var_i0;
  var_B79:;
  var_j0 = 0ull;
  var_l16 = var_j0;
  var_j0 = var_p1;
  var_j1 = 2ull;
  var_i0 = var_j0 != var_j1;
  if (var_i0) {goto var_B78;}
  var_j0 = var_l10;
  var_i0 = i32_load8_u(origin, (u64)(var_j0));
  var_i1 = 111u;
  var_i0 = var_i0 != var_i1;
  if (var_i0) {goto var_B78;}
  var_j0 = var_l10;
  var_j1 = 1ull;
  var_j0 += var_j1;
  var_i0 = i32_load8_u(origin, (u64)(var_j0));
  var_i1 = 102u;
  var_i0 = var_i0 != var_i1;
  if (var_i0) {goto var_B78;}
  var_i0 = 5u;
  var_l7 = var_i0;
  var_i0 = var_l13;
  var_i1 = 32u;
  var_i0 = var_i0 != var_i1;
  if (var_i0) {goto var_B12;}
  var_j0 = var_p3;
  var_i0 = !(var_j0);
  var_i0 = !(var_i0);
  if (var_i0) {goto var_B83;}
  var_j0 = 0ull;
  var_l9 = var_j0;
  var_j0 = 0ull;
  var_l10 = var_j0;
  var_j0 = 0ull;
  var_l6 = var_j0;
  var_j0 = 0ull;
  var_p1 = var_j0;
  goto var_B82;
  var_B83:;
  var_j0 = 0ull;
  var_p1 = var_j0;
  var_L85:
    var_j0 = 1ull;
    var_l9 = var_j0;
    var_j0 = var_l14;
    var_j1 = var_p1;
    var_j0 += var_j1;
    var_l10 = var_j0;
    var_i0 = i32_load8_u(origin, (u64)(var_j0));
    var_i1 = 32u;
    var_i0 = var_i0 == var_i1;
    if (var_i0) {goto var_B84;}
    var_j0 = var_p3;
    var_j1 = var_p1;
    var_j2 = 1ull;
    var_j1 += var_j2;
    var_p1 = var_j1;
    var_i0 = var_j0 != var_j1;
    if (var_i0) {goto var_L85;}
  var_j0 = 0ull;
  var_l9 = var_j0;
  var_j0 = 0ull;
  var_l10 = var_j0;
  var_j0 = 0ull;
  var_l6 = var_j0;
  var_j0 = var_p3;
  var_p1 = var_j0;
  goto var_B82;
  var_B84:;
  var_j0 = var_l10;
  var_j1 = 1ull;
  var_j0 += var_j1;
  var_l10 = var_j0;
  var_j0 = var_p1;
  var_j1 = 18446744073709551615ull;
  var_j0 ^= var_j1;
  var_j1 = var_p3;
  var_j0 += var_j1;
  var_l6 = var_j0;
  var_B82:;
  var_j0 = var_l4;
  var_j1 = 88ull;
  var_j0 += var_j1;
  var_j1 = var_l14;
  var_j2 = var_p1;
  var_i3 = 0u;
  var_i4 = 255u;
  w2c_lockreplay_lk_lines0x3A0x3Avocabulary0x3A0x3Anumber_of(instance, var_j0, var_j1, var_j2, var_i3, var_i4);
  var_j0 = var_l4;
  var_i0 = i32_load8_u(origin, (u64)(var_j0) + 88u);
  var_i1 = 1u;
  var_i0 &= var_i1;
  var_i0 = !(var_i0);
  if (var_i0) {goto var_B12;}
  var_j0 = var_l4;
  var_i0 = i32_load8_u(origin, (u64)(var_j0) + 89u);
  var_j0 = (u64)(var_i0);
  var_j1 = 255ull;
  var_j0 &= var_j1;
  var_j1 = 8ull;
  var_j0 <<= (var_j1 & 63);
  var_j1 = 1ull;
  var_j0 |= var_j1;
  var_l16 = var_j0;
  var_i0 = 6u;
  var_l7 = var_i0;
  var_B78:;
  var_j0 = var_l16;
  var_i0 = (u32)(var_j0);
  var_i1 = 8u;
  var_i0 >>= (var_i1 & 31);
  var_i1 = var_p2;
  var_j2 = var_l16;
  var_j3 = 255ull;
  var_j2 &= var_j3;
  var_j3 = 1ull;
  var_i2 = var_j2 == var_j3;
  var_i0 = var_i2 ? var_i0 : var_i1;
  var_j0 = (u64)(var_i0);
  var_j1 = 255ull;
  var_j0 &= var_j1;
  var_j1 = 16ull;
  var_j0 <<= (var_j1 & 63);
  var_j1 = var_l21;
  var_j0 |= var_j1;
  var_j1 = 1ull;
  var_j0 |= var_j1;
  var_l5 = var_j0;
  var_B71:;
  var_i0 = 0u;
  var_l13 = var_i0;
  var_j0 = var_l9;
  var_i0 = !(var_j0);
  var_i0 = !(var_i0);
  if (var_i0) {goto var_B86;}
  var_j0 = 0ull;
  var_l14 = var_j0;
  var_j0 = 0ull;
  var_p3 = var_j0;
  var_i0 = 0u;
  var_l7 = var_i0;
  var_j0 = 0ull;
  var_l16 = var_j0;
  var_i0 = 0u;
  var_l11 = var_i0;
  goto var_B24;
  var_B86:;
  var_i0 = 0u;
  var_l15 = var_i0;
  var_j0 = var_l6;
  var_i0 = !(var_j0);
  var_i0 = !(var_i0);
  if (var_i0) {goto var_B87;}
  var_j0 = 0ull;
  var_l21 = var_j0;
  var_j0 = 0ull;
  var_l22 = var_j0;
  goto var_B26;
  var_B87:;
  var_j0 = 0ull;
  var_l9 = var_j0;
  var_L90:
    var_j0 = 1ull;
    var_p1 = var_j0;
    var_j0 = var_l10;
    var_j1 = var_l9;
    var_j0 += var_j1;
    var_l14 = var_j0;
    var_i0 = i32_load8_u(origin, (u64)(var_j0));
    var_l11 = var_i0;
    var_i1 = 32u;
    var_i0 = var_i0 == var_i1;
    if (var_i0) {goto var_B89;}
    var_j0 = var_l6;
    var_j1 = var_l9;
    var_j2 = 1ull;
    var_j1 += var_j2;
    var_l9 = var_j1;
    var_i0 = var_j0 != var_j1;
    if (var_i0) {goto var_L90;}
  var_j0 = 0ull;
  var_p1 = var_j0;
  var_j0 = 0ull;
  var_l14 = var_j0;
  var_j0 = 0ull;
  var_p3 = var_j0;
  var_j0 = var_l6;
  var_l9 = var_j0;
  goto var_B88;
  var_B89:;
  var_j0 = var_l9;
  var_j1 = 18446744073709551615ull;
  var_j0 ^= var_j1;
  var_j1 = var_l6;
  var_j0 += var_j1;
  var_p3 = var_j0;
  var_j0 = var_l14;
  var_j1 = 1ull;
  var_j0 += var_j1;
  var_l14 = var_j0;
  var_B88:;
  var_j0 = var_l9;
  var_j1 = 5ull;
  var_i0 = var_j0 != var_j1;
  if (var_i0) {goto var_B28;}
  var_j0 = var_l10;
  var_i0 = i32_load8_u(origin, (u64)(var_j0));
  var_i1 = 102u;
  var_i0 = var_i0 != var_i1;
  if (var_i0) {goto var_B28;}
  var_j0 = var_l10;
  var_j1 = 1ull;
  var_j0 += var_j1;
  var_i0 = i32_load8_u(origin, (u64)(var_j0));
  var_i1 = 255u;
  var_i0 &= var_i1;
  var_i1 = 111u;
  var_i0 = var_i0 != var_i1;
  if (var_i0) {goto var_B28;}
  var_j0 = var_l10;
  var_j1 = 2ull;
  var_j0 += var_j1;
  var_i0 = i32_load8_u(origin, (u64)(var_j0));
  var_i1 = 255u;
  var_i0 &= var_i1;
  var_i1 = 117u;
  var_i0 = var_i0 != var_i1;
  if (var_i0) {goto var_B28;}
  var_j0 = var_l10;
  var_j1 = 3ull;
  var_j0 += var_j1;
  var_i0 = i32_load8_u(origin, (u64)(var_j0));
  var_i1 = 255u;
  var_i0 &= var_i1;
  var_i1 = 110u;
  var_i0 = var_i0 != var_i1;
  if (var_i0) {goto var_B28;}
  var_j0 = var_l10;
  var_j1 = 5ull;
  var_j2 = 1058563ull;
  var_i0 = w2c_lockreplay_core0x3A0x3Acmp0x3A0x3Aslices0x3A0x3Agroups_equal0x3A0x3A0x3Ci80x2C310x27core0x3A0x3Acmp0x3A0x3Anumbers0x3A0x3AU8PartialEq0x7B0x7D0x3E(instance, var_j0, var_j1, var_j2);
  var_i0 = !(var_i0);
  if (var_i0) {goto var_B28;}
  var_i0 = var_l11;
  var_i1 = 32u;
  var_i0 = var_i0 != var_i1;
  if (var_i0) {goto var_B91;}
  var_j0 = var_p3;
  var_i0 = !(var_j0);
  if (var_i0) {goto var_B91;}
  var_j0 = 0ull;
  var_l9 = var_j0;
  var_L94:
    var_j0 = var_l14;
    var_j1 = var_l9;
    var_j0 += var_j1;
    var_l10 = var_j0;
    var_i0 = i32_load8_u(origin, (u64)(var_j0));
    var_l7 = var_i0;
    var_i1 = 32u;
    var_i0 = var_i0 == var_i1;
    if (var_i0) {goto var_B93;}
    var_j0 = var_p3;
    var_j1 = var_l9;
    var_j2 = 1ull;
    var_j1 += var_j2;
    var_l9 = var_j1;
    var_i0 = var_j0 != var_j1;
    if (var_i0) {goto var_L94;}
  var_j0 = 0ull;
  var_l10 = var_j0;
  var_j0 = 0ull;
  var_l6 = var_j0;
  var_j0 = var_p3;
  var_l9 = var_j0;
  goto var_B92;
  var_B93:;
  var_j0 = var_l10;
  var_j1 = 1ull;
  var_j0 += var_j1;
  var_l10 = var_j0;
  var_j0 = var_l9;
  var_j1 = 18446744073709551615ull;
  var_j0 ^= var_j1;
  var_j1 = var_p3;
  var_j0 += var_j1;
  var_l6 = var_j0;
  var_B92:;
  var_j0 = var_l9;
  var_j1 = 1ull;
  var_i0 = var_j0 > var_j1;
  if (var_i0) {goto var_B96;}
  var_j0 = var_l9;
  var_i0 = (u32)(var_j0);
  switch (var_i0) {
    case 0: goto var_B91;
    case 1: goto var_B95;
    default: goto var_B91;
  }
  var_B96:;
  var_j0 = var_l14;
  var_i0 = i32_load8_u(origin, (u64)(var_j0));
  var_i1 = 48u;
  var_i0 = var_i0 == var_i1;
  if (var_i0) {goto var_B91;}
  var_B95:;
  var_j0 = 0ull;
  var_l21 = var_j0;
  var_j0 = var_l14;
  var_l22 = var_j0;
  var_L97:
    var_j0 = var_l21;
    var_j1 = 1844674407370955161ull;
    var_i0 = var_j0 > var_j1;
    if (var_i0) {goto var_B91;}
    var_j0 = var_l22;
    var_i0 = i32_load8_u(origin, (u64)(var_j0));
    var_i1 = 4294967248u;
    var_i0 += var_i1;
    var_l11 = var_i0;
    var_i1 = 255u;
    var_i0 &= var_i1;
    var_i1 = 9u;
    var_i0 = var_i0 > var_i1;
    if (var_i0) {goto var_B91;}
    var_j0 = var_l21;
    var_j1 = 10ull;
    var_j0 *= var_j1;
    var_l16 = var_j0;
    var_i1 = var_l11;
    var_j1 = (u64)(var_i1);
    var_j2 = 255ull;
    var_j1 &= var_j2;
    var_l21 = var_j1;
    var_j2 = 18446744073709551615ull;
    var_j1 ^= var_j2;
    var_i0 = var_j0 > var_j1;
    if (var_i0) {goto var_B91;}
    var_j0 = var_l22;
    var_j1 = 1ull;
    var_j0 += var_j1;
    var_l22 = var_j0;
    var_j0 = var_l16;
    var_j1 = var_l21;
    var_j0 += var_j1;
    var_l21 = var_j0;
    var_j0 = 0ull;
    var_l16 = var_j0;
    var_j0 = var_l9;
    var_j1 = 18446744073709551615ull;
    var_j0 += var_j1;
    var_l9 = var_j0;
    var_j1 = 0ull;
    var_i0 = var_j0 != var_j1;
    if (var_i0) {goto var_L97;}
  var_i0 = var_l7;
  var_i1 = 32u;
  var_i0 = var_i0 == var_i1;
  if (var_i0) {goto var_B98;}
  var_i0 = 0u;
  var_l7 = var_i0;
  var_j0 = 1ull;
  var_l14 = var_j0;
  var_j0 = var_l21;
  var_p3 = var_j0;
  var_i0 = 0u;
  var_l11 = var_i0;
  goto var_B24;
  var_B98:;
  var_i0 = 8u;
  var_l7 = var_i0;
  var_j0 = 1ull;
  var_l22 = var_j0;
  goto var_B27;
  var_B91:;
  var_i0 = 0u;
  var_l11 = var_i0;
  var_j0 = var_l4;
  var_i1 = 0u;
  i32_store16(origin, (u64)(var_j0) + 188, var_i1);
  var_j0 = var_l4;
  var_i1 = 0u;
  i32_store(origin, (u64)(var_j0) + 184, var_i1);
  var_i0 = 1u;
  var_l15 = var_i0;
  var_i0 = 7u;
  var_l7 = var_i0;
  goto var_B16;
  var_B41:;
  var_i0 = var_l8;
  var_i1 = 255u;
  var_i0 &= var_i1;
  var_i0 = !(var_i0);
  if (var_i0) {goto var_B30;}
  var_i0 = var_l12;
  var_i1 = 255u;
  var_i0 &= var_i1;
  var_i1 = 5u;
  var_i0 = var_i0 == var_i1;
  if (var_i0) {goto var_B30;}
  var_i0 = var_l13;
  var_j0 = (u64)(var_i0);
  var_l21 = var_j0;
  var_i0 = 6u;
  var_l17 = var_i0;
  var_j0 = 0ull;
  var_l16 = var_j0;
  var_i0 = var_l13;
  if (var_i0) {goto var_B109;}
  var_j0 = 0ull;
  var_l22 = var_j0;
  var_j0 = 0ull;
  var_l23 = var_j0;
  goto var_B108;
  var_B109:;
  var_j0 = var_p3;
  var_i0 = !(var_j0);
  if (var_i0) {goto var_B106;}
  var_j0 = 0ull;
  var_p1 = var_j0;
  var_L112:
    var_j0 = var_l14;
    var_j1 = var_p1;
    var_j0 += var_j1;
    var_l9 = var_j0;
    var_i0 = i32_load8_u(origin, (u64)(var_j0));
    var_l7 = var_i0;
    var_i1 = 32u;
    var_i0 = var_i0 == var_i1;
    if (var_i0) {goto var_B111;}
    var_j0 = var_p3;
    var_j1 = var_p1;
    var_j2 = 1ull;
    var_j1 += var_j2;
    var_p1 = var_j1;
    var_i0 = var_j0 != var_j1;
    if (var_i0) {goto var_L112;}
  var_j0 = 0ull;
  var_l9 = var_j0;
  var_i0 = 0u;
  var_l13 = var_i0;
  var_j0 = 0ull;
  var_l10 = var_j0;
  var_j0 = var_p3;
  var_p1 = var_j0;
  goto var_B110;
  var_B111:;
  var_j0 = var_p1;
  var_j1 = 18446744073709551615ull;
  var_j0 ^= var_j1;
  var_j1 = var_p3;
  var_j0 += var_j1;
  var_l10 = var_j0;
  var_j0 = var_l9;
  var_j1 = 1ull;
  var_j0 += var_j1;
  var_l9 = var_j0;
  var_i0 = 1u;
  var_l13 = var_i0;
  var_B110:;
  var_j0 = 0ull;
  var_l22 = var_j0;
  var_j0 = var_p1;
  var_j1 = 5ull;
  var_i0 = var_j0 == var_j1;
  if (var_i0) {goto var_B113;}
  var_j0 = 0ull;
  var_l23 = var_j0;
  goto var_B108;
  var_B113:;
  var_j0 = var_l14;
  var_i0 = i32_load8_u(origin, (u64)(var_j0));
  var_i1 = 102u;
  var_i0 = var_i0 == var_i1;
  if (var_i0) {goto var_B114;}
  var_j0 = 0ull;
  var_l23 = var_j0;
  goto var_B108;
  var_B114:;
  var_j0 = var_l14;
  var_j1 = 1ull;
  var_j0 += var_j1;
  var_i0 = i32_load8_u(origin, (u64)(var_j0));
  var_i1 = 255u;
  var_i0 &= var_i1;
  var_i1 = 111u;
  var_i0 = var_i0 == var_i1;
  if (var_i0) {goto var_B115;}
  var_j0 = 0ull;
  var_l23 = var_j0;
  goto var_B108;
  var_B115:;
  var_j0 = var_l14;
  var_j1 = 2ull;
  var_j0 += var_j1;
  var_i0 = i32_load8_u(origin, (u64)(var_j0));
  var_i1 = 255u;
  var_i0 &= var_i1;
  var_i1 = 117u;
  var_i0 = var_i0 == var_i1;
  if (var_i0) {goto var_B116;}
  var_j0 = 0ull;
  var_l23 = var_j0;
  goto var_B108;
  var_B116:;
  var_j0 = var_l14;
  var_j1 = 3ull;
  var_j0 += var_j1;
  var_i0 = i32_load8_u(origin, (u64)(var_j0));
  var_i1 = 255u;
  var_i0 &= var_i1;
  var_i1 = 110u;
  var_i0 = var_i0 == var_i1;
  if (var_i0) {goto var_B117;}
  var_j0 = 0ull;
  var_l23 = var_j0;
  goto var_B108;
  var_B117:;
  var_j0 = 0ull;
  var_l23 = var_j0;
  var_j0 = var_l14;
  var_j1 = 5ull;
  var_j2 = 1058563ull;
  var_i0 = w2c_lockreplay_core0x3A0x3Acmp0x3A0x3Aslices0x3A0x3Agroups_equal0x3A0x3A0x3Ci80x2C310x27core0x3A0x3Acmp0x3A0x3Anumbers0x3A0x3AU8PartialEq0x7B0x7D0x3E(instance, var_j0, var_j1, var_j2);
  var_i0 = !(var_i0);
  if (var_i0) {goto var_B108;}
  var_i0 = var_l7;
  var_i1 = 32u;
  var_i0 = var_i0 != var_i1;
  if (var_i0) {goto var_B107;}
  var_j0 = var_l10;
  var_i0 = !(var_j0);
  if (var_i0) {goto var_B107;}
  var_j0 = 0ull;
  var_p1 = var_j0;
  var_L120:
    var_j0 = 1ull;
    var_l21 = var_j0;
    var_j0 = var_l9;
    var_j1 = var_p1;
    var_j0 += var_j1;
    var_p3 = var_j0;
    var_i0 = i32_load8_u(origin, (u64)(var_j0));
    var_i1 = 32u;
    var_i0 = var_i0 == var_i1;
    if (var_i0) {goto var_B119;}
    var_j0 = var_l10;
    var_j1 = var_p1;
    var_j2 = 1ull;
    var_j1 += var_j2;
    var_p1 = var_j1;
    var_i0 = var_j0 != var_j1;
    if (var_i0) {goto var_L120;}
  var_j0 = 0ull;
  var_l21 = var_j0;
  var_j0 = 0ull;
  var_l14 = var_j0;
  var_j0 = 0ull;
  var_p3 = var_j0;
  var_j0 = var_l10;
  var_p1 = var_j0;
  goto var_B118;
  var_B119:;
  var_j0 = var_p3;
  var_j1 = 1ull;
  var_j0 += var_j1;
  var_l14 = var_j0;
  var_j0 = var_p1;
  var_j1 = 18446744073709551615ull;
  var_j0 ^= var_j1;
  var_j1 = var_l10;
  var_j0 += var_j1;
  var_p3 = var_j0;
  var_B118:;
  var_j0 = var_p1;
  var_j1 = 1ull;
  var_i0 = var_j0 > var_j1;
  if (var_i0) {goto var_B122;}
  var_j0 = var_p1;
  var_i0 = (u32)(var_j0);
  switch (var_i0) {
    case 0: goto var_B107;
    case 1: goto var_B121;
    default: goto var_B107;
  }
  var_B122:;
  var_j0 = var_l9;
  var_i0 = i32_load8_u(origin, (u64)(var_j0));
  var_i1 = 48u;
  var_i0 = var_i0 == var_i1;
  if (var_i0) {goto var_B107;}
  var_B121:;
  var_j0 = 0ull;
  var_l22 = var_j0;
  var_j0 = var_l9;
  var_l24 = var_j0;
  var_L123:
    var_j0 = var_l22;
    var_j1 = 1844674407370955161ull;
    var_i0 = var_j0 > var_j1;
    if (var_i0) {goto var_B107;}
    var_j0 = var_l24;
    var_i0 = i32_load8_u(origin, (u64)(var_j0));
    var_i1 = 4294967248u;
    var_i0 += var_i1;
    var_l7 = var_i0;
    var_i1 = 255u;
    var_i0 &= var_i1;
    var_i1 = 9u;
    var_i0 = var_i0 > var_i1;
    if (var_i0) {goto var_B107;}
    var_j0 = var_l22;
    var_j1 = 10ull;
    var_j0 *= var_j1;
    var_l22 = var_j0;
    var_i1 = var_l7;
    var_j1 = (u64)(var_i1);
    var_j2 = 255ull;
    var_j1 &= var_j2;
    var_l25 = var_j1;
    var_j2 = 18446744073709551615ull;
    var_j1 ^= var_j2;
    var_i0 = var_j0 > var_j1;
    if (var_i0) {goto var_B107;}
    var_j0 = 1ull;
    var_l23 = var_j0;
    var_j0 = var_l24;
    var_j1 = 1ull;
    var_j0 += var_j1;
    var_l24 = var_j0;
    var_j0 = var_l22;
    var_j1 = var_l25;
    var_j0 += var_j1;
    var_l22 = var_j0;
    var_i0 = 8u;
    var_l17 = var_i0;
    var_j0 = var_p1;
    var_j1 = 18446744073709551615ull;
    var_j0 += var_j1;
    var_p1 = var_j0;
    var_j1 = 0ull;
    var_i0 = var_j0 != var_j1;
    if (var_i0) {goto var_L123;}
  var_B108:;
  var_i0 = 0u;
  var_l7 = var_i0;
  var_j0 = var_l21;
  var_i0 = !(var_j0);
  var_i0 = !(var_i0);
  if (var_i0) {goto var_B124;}
  var_j0 = var_l23;
  var_l9 = var_j0;
  var_j0 = var_l22;
  var_l10 = var_j0;
  var_i0 = 0u;
  var_l11 = var_i0;
  var_i0 = 0u;
  var_l17 = var_i0;
  goto var_B99;
  var_B124:;
  var_j0 = var_l14;
  var_j1 = 8ull;
  var_j0 >>= (var_j1 & 63);
  var_l21 = var_j0;
  var_j0 = var_p3;
  var_i0 = !(var_j0);
  if (var_i0) {goto var_B105;}
  var_j0 = 0ull;
  var_p1 = var_j0;
  var_L127:
    var_j0 = var_l14;
    var_j1 = var_p1;
    var_j0 += var_j1;
    var_l9 = var_j0;
    var_i0 = i32_load8_u(origin, (u64)(var_j0));
    var_l11 = var_i0;
    var_i1 = 32u;
    var_i0 = var_i0 == var_i1;
    if (var_i0) {goto var_B126;}
    var_j0 = var_p3;
    var_j1 = var_p1;
    var_j2 = 1ull;
    var_j1 += var_j2;
    var_p1 = var_j1;
    var_i0 = var_j0 != var_j1;
    if (var_i0) {goto var_L127;}
  var_j0 = 0ull;
  var_l9 = var_j0;
  var_i0 = 0u;
  var_l13 = var_i0;
  var_j0 = 0ull;
  var_l10 = var_j0;
  var_j0 = var_p3;
  var_p1 = var_j0;
  goto var_B125;
  var_B126:;
  var_j0 = var_l9;
  var_j1 = 1ull;
  var_j0 += var_j1;
  var_l9 = var_j0;
  var_j0 = var_p1;
  var_j1 = 18446744073709551615ull;
  var_j0 ^= var_j1;
  var_j1 = var_p3;
  var_j0 += var_j1;
  var_l10 = var_j0;
  var_i0 = 1u;
  var_l13 = var_i0;
  var_B125:;
  var_i0 = 0u;
  var_l7 = var_i0;
  var_j0 = var_p1;
  var_j1 = 4ull;
  var_i0 = var_j0 == var_j1;
  if (var_i0) {goto var_B129;}
  var_j0 = 0ull;
  var_l16 = var_j0;
  goto var_B128;
  var_B129:;
  var_j0 = var_l14;
  var_i0 = i32_load8_u(origin, (u64)(var_j0));
  var_i1 = 108u;
  var_i0 = var_i0 == var_i1;
  if (var_i0) {goto var_B130;}
  var_j0 = 0ull;
  var_l16 = var_j0;
  goto var_B128;
  var_B130:;
  var_j0 = var_l14;
  var_j1 = 1ull;
  var_j0 += var_j1;
  var_i0 = i32_load8_u(origin, (u64)(var_j0));
  var_i1 = 255u;
  var_i0 &= var_i1;
  var_i1 = 101u;
  var_i0 = var_i0 == var_i1;
  if (var_i0) {goto var_B131;}
  var_j0 = 0ull;
  var_l16 = var_j0;
  goto var_B128;
  var_B131:;
  var_j0 = var_l14;
  var_j1 = 2ull;
  var_j0 += var_j1;
  var_i0 = i32_load8_u(origin, (u64)(var_j0));
  var_i1 = 255u;
  var_i0 &= var_i1;
  var_i1 = 102u;
  var_i0 = var_i0 == var_i1;
  if (var_i0) {goto var_B132;}
  var_j0 = 0ull;
  var_l16 = var_j0;
  goto var_B128;
  var_B132:;
  var_j0 = var_l14;
  var_j1 = 3ull;
  var_j0 += var_j1;
  var_i0 = i32_load8_u(origin, (u64)(var_j0));
  var_i1 = 255u;
  var_i0 &= var_i1;
  var_i1 = 116u;
  var_i0 = var_i0 == var_i1;
  if (var_i0) {goto var_B133;}
  var_j0 = 0ull;
  var_l16 = var_j0;
  goto var_B128;
  var_B133:;
  var_j0 = 0ull;
  var_l16 = var_j0;
  var_j0 = var_l14;
  var_j1 = 4ull;
  var_j2 = 1058468ull;
  var_i0 = w2c_lockreplay_core0x3A0x3Acmp0x3A0x3Aslices0x3A0x3Agroups_equal0x3A0x3A0x3Ci80x2C310x27core0x3A0x3Acmp0x3A0x3Anumbers0x3A0x3AU8PartialEq0x7B0x7D0x3E(instance, var_j0, var_j1, var_j2);
  var_i0 = !(var_i0);
  if (var_i0) {goto var_B128;}
  var_i0 = var_l11;
  var_i1 = 32u;
  var_i0 = var_i0 != var_i1;
  if (var_i0) {goto var_B101;}
  var_j0 = var_l10;
  var_i0 = !(var_j0);
  if (var_i0) {goto var_B135;}
  var_j0 = 0ull;
  var_p1 = var_j0;
  var_L136:
    var_j0 = var_l9;
    var_j1 = var_p1;
    var_j0 += var_j1;
    var_l14 = var_j0;
    var_i0 = i32_load8_u(origin, (u64)(var_j0));
    var_i1 = 32u;
    var_i0 = var_i0 == var_i1;
    if (var_i0) {goto var_B134;}
    var_j0 = var_l10;
    var_j1 = var_p1;
    var_j2 = 1ull;
    var_j1 += var_j2;
    var_p1 = var_j1;
    var_i0 = var_j0 != var_j1;
    if (var_i0) {goto var_L136;}
  var_B135:;
  var_j0 = var_l4;
  var_j1 = 120ull;
  var_j0 += var_j1;
  var_j1 = var_l9;
  var_j2 = var_l10;
  w2c_lockreplay_lk_lines0x3A0x3Avocabulary0x3A0x3Awhole_number(instance, var_j0, var_j1, var_j2);
  var_i0 = 1u;
  var_l7 = var_i0;
  var_j0 = var_l4;
  var_i0 = i32_load8_u(origin, (u64)(var_j0) + 120u);
  var_i1 = 1u;
  var_i0 &= var_i1;
  var_i0 = !(var_i0);
  if (var_i0) {goto var_B101;}
  var_j0 = var_l4;
  var_j0 = i64_load(origin, (u64)(var_j0) + 128u);
  var_l16 = var_j0;
  var_i0 = 0u;
  var_l11 = var_i0;
  var_j0 = var_l23;
  var_l9 = var_j0;
  var_j0 = var_l22;
  var_l10 = var_j0;
  var_i0 = 0u;
  var_l17 = var_i0;
  goto var_B99;
  var_B134:;
  var_j0 = var_l4;
  var_j1 = 136ull;
  var_j0 += var_j1;
  var_j1 = var_l9;
  var_j2 = var_p1;
  w2c_lockreplay_lk_lines0x3A0x3Avocabulary0x3A0x3Awhole_number(instance, var_j0, var_j1, var_j2);
  var_i0 = 1u;
  var_l7 = var_i0;
  var_j0 = var_l4;
  var_i0 = i32_load8_u(origin, (u64)(var_j0) + 136u);
  var_i1 = 1u;
  var_i0 &= var_i1;
  var_i0 = !(var_i0);
  if (var_i0) {goto var_B101;}
  var_j0 = var_l4;
  var_j0 = i64_load(origin, (u64)(var_j0) + 144u);
  var_l16 = var_j0;
  var_j0 = var_p1;
  var_j1 = 18446744073709551615ull;
  var_j0 ^= var_j1;
  var_j1 = var_l10;
  var_j0 += var_j1;
  var_p3 = var_j0;
  var_j0 = var_l14;
  var_j1 = 1ull;
  var_j0 += var_j1;
  var_l14 = var_j0;
  var_j1 = 8ull;
  var_j0 >>= (var_j1 & 63);
  var_l21 = var_j0;
  var_i0 = 10u;
  var_l17 = var_i0;
  var_B128:;
  var_j0 = var_l21;
  var_j1 = 8ull;
  var_j0 <<= (var_j1 & 63);
  var_j1 = 65280ull;
  var_j0 &= var_j1;
  var_j1 = var_l14;
  var_j2 = 18446744073709486335ull;
  var_j1 &= var_j2;
  var_j0 |= var_j1;
  var_l9 = var_j0;
  var_j0 = var_p3;
  var_i0 = !(var_j0);
  var_i0 = !(var_i0);
  if (var_i0) {goto var_B104;}
  var_j0 = 0ull;
  var_p3 = var_j0;
  goto var_B103;
  var_B107:;
  var_j0 = var_l4;
  var_i1 = 0u;
  i32_store16(origin, (u64)(var_j0) + 172, var_i1);
  var_j0 = var_l4;
  var_i1 = 0u;
  i32_store(origin, (u64)(var_j0) + 168, var_i1);
  var_i0 = 7u;
  var_l7 = var_i0;
  goto var_B29;
  var_B106:;
  var_j0 = var_l14;
  var_j1 = 8ull;
  var_j0 >>= (var_j1 & 63);
  var_l21 = var_j0;
  var_i0 = 6u;
  var_l17 = var_i0;
  var_j0 = 0ull;
  var_l23 = var_j0;
  var_j0 = 0ull;
  var_l22 = var_j0;
  var_B105:;
  var_j0 = var_l21;
  var_j1 = 8ull;
  var_j0 <<= (var_j1 & 63);
  var_j1 = 65280ull;
  var_j0 &= var_j1;
  var_j1 = var_l14;
  var_j2 = 18446744073709486335ull;
  var_j1 &= var_j2;
  var_j0 |= var_j1;
  var_l9 = var_j0;
  var_i0 = 0u;
  var_l7 = var_i0;
  var_j0 = 0ull;
  var_l16 = var_j0;
  var_j0 = 0ull;
  var_p3 = var_j0;
  goto var_B103;
  var_B104:;
  var_j0 = 0ull;
  var_p1 = var_j0;
  var_L137:
    var_j0 = var_l9;
    var_j1 = var_p1;
    var_j0 += var_j1;
    var_l14 = var_j0;
    var_i0 = i32_load8_u(origin, (u64)(var_j0));
    var_i1 = 32u;
    var_i0 = var_i0 == var_i1;
    if (var_i0) {goto var_B102;}
    var_j0 = var_p3;
    var_j1 = var_p1;
    var_j2 = 1ull;
    var_j1 += var_j2;
    var_p1 = var_j1;
    var_i0 = var_j0 != var_j1;
    if (var_i0) {goto var_L137;}
  var_B103:;
  var_j0 = var_l4;
  var_j1 = 104ull;
  var_j0 += var_j1;
  var_i1 = var_l12;
  var_j2 = var_l9;
  var_j3 = var_p3;
  w2c_lockreplay_lk_trace0x3A0x3Aline0x3A0x3Aresult_alone(instance, var_j0, var_i1, var_j2, var_j3);
  var_i0 = 1u;
  var_l11 = var_i0;
  var_j0 = var_l4;
  var_i0 = i32_load8_u(origin, (u64)(var_j0) + 104u);
  var_i1 = 1u;
  var_i0 &= var_i1;
  if (var_i0) {goto var_B100;}
  goto var_B32;
  var_B102:;
  var_j0 = var_l4;
  var_j1 = 112ull;
  var_j0 += var_j1;
  var_i1 = var_l12;
  var_j2 = var_l9;
  var_j3 = var_p1;
  w2c_lockreplay_lk_trace0x3A0x3Aline0x3A0x3Aresult_alone(instance, var_j0, var_i1, var_j2, var_j3);
  var_j0 = var_l4;
  var_i0 = i32_load8_u(origin, (u64)(var_j0) + 112u);
  var_i1 = 1u;
  var_i0 &= var_i1;
  var_i0 = !(var_i0);
  if (var_i0) {goto var_B32;}
  var_j0 = var_p1;
  var_j1 = 18446744073709551615ull;
  var_j0 ^= var_j1;
  var_j1 = var_p3;
  var_j0 += var_j1;
  var_l10 = var_j0;
  var_j0 = var_l14;
  var_j1 = 1ull;
  var_j0 += var_j1;
  var_l9 = var_j0;
  var_i0 = 0u;
  var_l7 = var_i0;
  var_i0 = 8u;
  var_l12 = var_i0;
  goto var_B31;
  var_B101:;
  var_j0 = var_l4;
  var_i1 = 0u;
  i32_store16(origin, (u64)(var_j0) + 172, var_i1);
  var_j0 = var_l4;
  var_i1 = 0u;
  i32_store(origin, (u64)(var_j0) + 168, var_i1);
  var_i0 = 9u;
  var_l7 = var_i0;
  goto var_B29;
  var_B100:;
  var_j0 = var_l4;
  var_i0 = i32_load8_u(origin, (u64)(var_j0) + 105u);
  var_i1 = 1u;
  var_i0 &= var_i1;
  var_l17 = var_i0;
  var_j0 = var_l23;
  var_l9 = var_j0;
  var_j0 = var_l22;
  var_l10 = var_j0;
  var_B99:;
  var_i0 = 0u;
  var_l13 = var_i0;
  var_j0 = var_l4;
  var_i1 = 0u;
  i32_store16(origin, (u64)(var_j0) + 160, var_i1);
  var_j0 = var_l4;
  var_i1 = 0u;
  i32_store(origin, (u64)(var_j0) + 156, var_i1);
  var_j0 = var_l5;
  var_j1 = 8ull;
  var_j0 <<= (var_j1 & 63);
  var_j1 = var_l6;
  var_j0 |= var_j1;
  var_l5 = var_j0;
  var_j0 = 1ull;
  var_p1 = var_j0;
  goto var_B1;
  var_B34:;
  UNREACHABLE;
  var_B33:;
  var_i0 = 0u;
  var_l15 = var_i0;
  var_j0 = var_l4;
  var_i1 = 0u;
  i32_store16(origin, (u64)(var_j0) + 172, var_i1);
  var_j0 = var_l4;
  var_i1 = 0u;
  i32_store(origin, (u64)(var_j0) + 168, var_i1);
  var_j0 = 0ull;
  var_p1 = var_j0;
  var_j0 = 0ull;
  var_l9 = var_j0;
  var_j0 = 0ull;
  var_l10 = var_j0;
  var_i0 = 0u;
  var_l7 = var_i0;
  var_i0 = 0u;
  var_l13 = var_i0;
  goto var_B4;
  var_B32:;
  var_i0 = var_l17;
  var_l7 = var_i0;
  var_j0 = var_p3;
  var_l10 = var_j0;
  var_B31:;
  var_j0 = var_l4;
  var_i1 = 0u;
  i32_store16(origin, (u64)(var_j0) + 172, var_i1);
  var_j0 = var_l4;
  var_i1 = 0u;
  i32_store(origin, (u64)(var_j0) + 168, var_i1);
  var_i0 = 1u;
  var_l13 = var_i0;
  goto var_B29;
  var_B30:;
  var_j0 = var_l14;
  var_l9 = var_j0;
  var_j0 = var_p3;
  var_l10 = var_j0;
  var_i0 = 8u;
  var_l12 = var_i0;
  var_B29:;
  var_i0 = var_l13;
  var_j0 = (u64)(var_i0);
  var_p1 = var_j0;
  var_i0 = var_l12;
  var_l13 = var_i0;
  goto var_B2;
  var_B28:;
  var_j0 = 0ull;
  var_l22 = var_j0;
  var_j0 = 0ull;
  var_l21 = var_j0;
  var_B27:;
  var_j0 = var_l6;
  var_i0 = !(var_j0);
  var_i0 = !(var_i0);
  if (var_i0) {goto var_B25;}
  var_B26:;
  var_j0 = var_l10;
  var_l14 = var_j0;
  var_j0 = 0ull;
  var_l16 = var_j0;
  var_j0 = 0ull;
  var_p3 = var_j0;
  goto var_B21;
  var_B25:;
  var_j0 = 0ull;
  var_l9 = var_j0;
  var_L140:
    var_j0 = 1ull;
    var_p1 = var_j0;
    var_j0 = var_l10;
    var_j1 = var_l9;
    var_j0 += var_j1;
    var_p3 = var_j0;
    var_i0 = i32_load8_u(origin, (u64)(var_j0));
    var_l11 = var_i0;
    var_i1 = 32u;
    var_i0 = var_i0 == var_i1;
    if (var_i0) {goto var_B139;}
    var_j0 = var_l6;
    var_j1 = var_l9;
    var_j2 = 1ull;
    var_j1 += var_j2;
    var_l9 = var_j1;
    var_i0 = var_j0 != var_j1;
    if (var_i0) {goto var_L140;}
  var_j0 = 0ull;
  var_p1 = var_j0;
  var_j0 = 0ull;
  var_l14 = var_j0;
  var_j0 = 0ull;
  var_p3 = var_j0;
  var_j0 = var_l6;
  var_l9 = var_j0;
  goto var_B138;
  var_B139:;
  var_j0 = var_p3;
  var_j1 = 1ull;
  var_j0 += var_j1;
  var_l14 = var_j0;
  var_j0 = var_l9;
  var_j1 = 18446744073709551615ull;
  var_j0 ^= var_j1;
  var_j1 = var_l6;
  var_j0 += var_j1;
  var_p3 = var_j0;
  var_B138:;
  var_i0 = 0u;
  var_l15 = var_i0;
  var_j0 = var_l9;
  var_j1 = 4ull;
  var_i0 = var_j0 == var_j1;
  if (var_i0) {goto var_B141;}
  var_j0 = 0ull;
  var_l16 = var_j0;
  goto var_B22;
  var_B141:;
  var_j0 = var_l10;
  var_i0 = i32_load8_u(origin, (u64)(var_j0));
  var_i1 = 108u;
  var_i0 = var_i0 == var_i1;
  if (var_i0) {goto var_B142;}
  var_j0 = 0ull;
  var_l16 = var_j0;
  goto var_B22;
  var_B142:;
  var_j0 = var_l10;
  var_j1 = 1ull;
  var_j0 += var_j1;
  var_i0 = i32_load8_u(origin, (u64)(var_j0));
  var_i1 = 255u;
  var_i0 &= var_i1;
  var_i1 = 101u;
  var_i0 = var_i0 == var_i1;
  if (var_i0) {goto var_B143;}
  var_j0 = 0ull;
  var_l16 = var_j0;
  goto var_B22;
  var_B143:;
  var_j0 = var_l10;
  var_j1 = 2ull;
  var_j0 += var_j1;
  var_i0 = i32_load8_u(origin, (u64)(var_j0));
  var_i1 = 255u;
  var_i0 &= var_i1;
  var_i1 = 102u;
  var_i0 = var_i0 == var_i1;
  if (var_i0) {goto var_B144;}
  var_j0 = 0ull;
  var_l16 = var_j0;
  goto var_B22;
  var_B144:;
  var_j0 = var_l10;
  var_j1 = 3ull;
  var_j0 += var_j1;
  var_i0 = i32_load8_u(origin, (u64)(var_j0));
  var_i1 = 255u;
  var_i0 &= var_i1;
  var_i1 = 116u;
  var_i0 = var_i0 == var_i1;
  if (var_i0) {goto var_B145;}
  var_j0 = 0ull;
  var_l16 = var_j0;
  goto var_B22;
  var_B145:;
  var_j0 = 0ull;
  var_l16 = var_j0;
  var_j0 = var_l10;
  var_j1 = 4ull;
  var_j2 = 1058468ull;
  var_i0 = w2c_lockreplay_core0x3A0x3Acmp0x3A0x3Aslices0x3A0x3Agroups_equal0x3A0x3A0x3Ci80x2C310x27core0x3A0x3Acmp0x3A0x3Anumbers0x3A0x3AU8PartialEq0x7B0x7D0x3E(instance, var_j0, var_j1, var_j2);
  var_i0 = !(var_i0);
  if (var_i0) {goto var_B22;}
  var_i0 = var_l11;
  var_i1 = 32u;
  var_i0 = var_i0 != var_i1;
  if (var_i0) {goto var_B19;}
  var_j0 = var_p3;
  var_i0 = !(var_j0);
  if (var_i0) {goto var_B146;}
  var_j0 = 0ull;
  var_l9 = var_j0;
  var_L147:
    var_j0 = var_l14;
    var_j1 = var_l9;
    var_j0 += var_j1;
    var_l10 = var_j0;
    var_i0 = i32_load8_u(origin, (u64)(var_j0));
    var_i1 = 32u;
    var_i0 = var_i0 == var_i1;
    if (var_i0) {goto var_B23;}
    var_j0 = var_p3;
    var_j1 = var_l9;
    var_j2 = 1ull;
    var_j1 += var_j2;
    var_l9 = var_j1;
    var_i0 = var_j0 != var_j1;
    if (var_i0) {goto var_L147;}
  var_B146:;
  var_j0 = var_l4;
  var_j1 = 56ull;
  var_j0 += var_j1;
  var_j1 = var_l14;
  var_j2 = var_p3;
  w2c_lockreplay_lk_lines0x3A0x3Avocabulary0x3A0x3Awhole_number(instance, var_j0, var_j1, var_j2);
  var_i0 = 1u;
  var_l7 = var_i0;
  var_j0 = var_l4;
  var_i0 = i32_load8_u(origin, (u64)(var_j0) + 56u);
  var_i1 = 1u;
  var_i0 &= var_i1;
  var_i0 = !(var_i0);
  if (var_i0) {goto var_B19;}
  var_j0 = var_l4;
  var_j0 = i64_load(origin, (u64)(var_j0) + 64u);
  var_l16 = var_j0;
  var_i0 = 0u;
  var_l11 = var_i0;
  var_j0 = var_l22;
  var_l14 = var_j0;
  var_j0 = var_l21;
  var_p3 = var_j0;
  var_B24:;
  var_i0 = 0u;
  var_l17 = var_i0;
  goto var_B15;
  var_B23:;
  var_j0 = var_l4;
  var_j1 = 72ull;
  var_j0 += var_j1;
  var_j1 = var_l14;
  var_j2 = var_l9;
  w2c_lockreplay_lk_lines0x3A0x3Avocabulary0x3A0x3Awhole_number(instance, var_j0, var_j1, var_j2);
  var_i0 = 1u;
  var_l15 = var_i0;
  var_j0 = var_l4;
  var_i0 = i32_load8_u(origin, (u64)(var_j0) + 72u);
  var_i1 = 1u;
  var_i0 &= var_i1;
  var_i0 = !(var_i0);
  if (var_i0) {goto var_B19;}
  var_j0 = var_l4;
  var_j0 = i64_load(origin, (u64)(var_j0) + 80u);
  var_l16 = var_j0;
  var_j0 = var_l9;
  var_j1 = 18446744073709551615ull;
  var_j0 ^= var_j1;
  var_j1 = var_p3;
  var_j0 += var_j1;
  var_l6 = var_j0;
  var_j0 = var_l10;
  var_j1 = 1ull;
  var_j0 += var_j1;
  var_l10 = var_j0;
  var_i0 = 10u;
  var_l7 = var_i0;
  var_B22:;
  var_j0 = var_l6;
  var_i0 = !(var_j0);
  var_i0 = !(var_i0);
  if (var_i0) {goto var_B148;}
  var_j0 = var_l10;
  var_l14 = var_j0;
  var_j0 = 0ull;
  var_p3 = var_j0;
  goto var_B21;
  var_B148:;
  var_j0 = 0ull;
  var_p1 = var_j0;
  var_L149:
    var_j0 = var_l10;
    var_j1 = var_p1;
    var_j0 += var_j1;
    var_l9 = var_j0;
    var_i0 = i32_load8_u(origin, (u64)(var_j0));
    var_i1 = 32u;
    var_i0 = var_i0 == var_i1;
    if (var_i0) {goto var_B20;}
    var_j0 = var_l6;
    var_j1 = var_p1;
    var_j2 = 1ull;
    var_j1 += var_j2;
    var_p1 = var_j1;
    var_i0 = var_j0 != var_j1;
    if (var_i0) {goto var_L149;}
  var_j0 = var_l10;
  var_l14 = var_j0;
  var_j0 = var_l6;
  var_p3 = var_j0;
  var_B21:;
  var_j0 = var_l4;
  var_j1 = 40ull;
  var_j0 += var_j1;
  var_i1 = var_l12;
  var_j2 = var_l10;
  var_j3 = var_p3;
  w2c_lockreplay_lk_trace0x3A0x3Aline0x3A0x3Aresult_alone(instance, var_j0, var_i1, var_j2, var_j3);
  var_i0 = 1u;
  var_l11 = var_i0;
  var_i0 = var_l12;
  var_l18 = var_i0;
  var_j0 = var_l4;
  var_i0 = i32_load8_u(origin, (u64)(var_j0) + 40u);
  var_i1 = 1u;
  var_i0 &= var_i1;
  var_i0 = !(var_i0);
  if (var_i0) {goto var_B17;}
  var_j0 = var_l4;
  var_i0 = i32_load8_u(origin, (u64)(var_j0) + 41u);
  var_i1 = 1u;
  var_i0 &= var_i1;
  var_l17 = var_i0;
  var_j0 = var_l22;
  var_l14 = var_j0;
  var_j0 = var_l21;
  var_p3 = var_j0;
  var_i0 = var_l15;
  var_l7 = var_i0;
  goto var_B15;
  var_B20:;
  var_j0 = var_l4;
  var_j1 = 48ull;
  var_j0 += var_j1;
  var_i1 = var_l12;
  var_j2 = var_l10;
  var_j3 = var_p1;
  w2c_lockreplay_lk_trace0x3A0x3Aline0x3A0x3Aresult_alone(instance, var_j0, var_i1, var_j2, var_j3);
  var_j0 = var_l4;
  var_i0 = i32_load8_u(origin, (u64)(var_j0) + 48u);
  var_i1 = 1u;
  var_i0 &= var_i1;
  if (var_i0) {goto var_B18;}
  var_i0 = var_l12;
  var_l18 = var_i0;
  var_j0 = var_l6;
  var_p3 = var_j0;
  var_j0 = var_l10;
  var_l14 = var_j0;
  goto var_B17;
  var_B19:;
  var_i0 = 0u;
  var_l11 = var_i0;
  var_j0 = var_l4;
  var_i1 = 0u;
  i32_store16(origin, (u64)(var_j0) + 188, var_i1);
  var_j0 = var_l4;
  var_i1 = 0u;
  i32_store(origin, (u64)(var_j0) + 184, var_i1);
  var_i0 = 1u;
  var_l15 = var_i0;
  var_i0 = 9u;
  var_l7 = var_i0;
  goto var_B16;
  var_B18:;
  var_j0 = var_p1;
  var_j1 = 18446744073709551615ull;
  var_j0 ^= var_j1;
  var_j1 = var_l6;
  var_j0 += var_j1;
  var_p3 = var_j0;
  var_j0 = var_l9;
  var_j1 = 1ull;
  var_j0 += var_j1;
  var_l14 = var_j0;
  var_i0 = 0u;
  var_l7 = var_i0;
  var_i0 = 8u;
  var_l18 = var_i0;
  var_B17:;
  var_i0 = 0u;
  var_l11 = var_i0;
  var_j0 = var_l4;
  var_i1 = 0u;
  i32_store16(origin, (u64)(var_j0) + 188, var_i1);
  var_j0 = var_l4;
  var_i1 = 0u;
  i32_store(origin, (u64)(var_j0) + 184, var_i1);
  var_j0 = 1ull;
  var_p1 = var_j0;
  var_i0 = 1u;
  var_l15 = var_i0;
  var_j0 = 0ull;
  var_l16 = var_j0;
  var_i0 = 0u;
  var_l17 = var_i0;
  var_i0 = var_l18;
  var_l13 = var_i0;
  goto var_B14;
  var_B16:;
  var_j0 = 0ull;
  var_l16 = var_j0;
  var_i0 = 0u;
  var_l17 = var_i0;
  var_i0 = var_l12;
  var_l13 = var_i0;
  goto var_B14;
  var_B15:;
  var_j0 = var_l4;
  var_i1 = 0u;
  i32_store16(origin, (u64)(var_j0) + 188, var_i1);
  var_j0 = var_l4;
  var_i1 = 0u;
  i32_store(origin, (u64)(var_j0) + 184, var_i1);
  var_i0 = 0u;
  var_l15 = var_i0;
  var_j0 = var_l5;
  var_p1 = var_j0;
  var_B14:;
  var_j0 = var_l4;
  var_j1 = var_l4;
  var_i1 = i32_load16_u(origin, (u64)(var_j1) + 188u);
  i32_store16(origin, (u64)(var_j0) + 180, var_i1);
  var_j0 = var_l4;
  var_j1 = var_l4;
  var_i1 = i32_load(origin, (u64)(var_j1) + 184u);
  i32_store(origin, (u64)(var_j0) + 176, var_i1);
  var_j0 = var_p1;
  var_j1 = 16776960ull;
  var_j0 &= var_j1;
  var_l5 = var_j0;
  var_j0 = var_p1;
  var_i0 = (u32)(var_j0);
  var_l18 = var_i0;
  goto var_B11;
  var_B13:;
  var_i0 = 1u;
  var_l18 = var_i0;
  var_B12:;
  var_j0 = var_l4;
  var_i1 = 0u;
  i32_store16(origin, (u64)(var_j0) + 180, var_i1);
  var_j0 = var_l4;
  var_i1 = 0u;
  i32_store(origin, (u64)(var_j0) + 176, var_i1);
  var_i0 = var_l12;
  var_l13 = var_i0;
  var_j0 = 0ull;
  var_l16 = var_j0;
  var_i0 = 0u;
  var_l17 = var_i0;
  var_B11:;
  var_j0 = var_l5;
  var_i1 = var_l18;
  var_j1 = (u64)(var_i1);
  var_j2 = 255ull;
  var_j1 &= var_j2;
  var_j0 |= var_j1;
  var_p1 = var_j0;
  var_B10:;
  var_j0 = var_l4;
  var_j1 = var_l4;
  var_i1 = i32_load16_u(origin, (u64)(var_j1) + 180u);
  i32_store16(origin, (u64)(var_j0) + 172, var_i1);
  var_j0 = var_l4;
  var_j1 = var_l4;
  var_i1 = i32_load(origin, (u64)(var_j1) + 176u);
  i32_store(origin, (u64)(var_j0) + 168, var_i1);
  var_j0 = var_p1;
  var_j1 = 8ull;
  var_j0 >>= (var_j1 & 63);
  var_l5 = var_j0;
  var_j0 = var_l14;
  var_l9 = var_j0;
  var_j0 = var_p3;
  var_l10 = var_j0;
  goto var_B3;
  var_B9:;
  var_i0 = 0u;
  var_l13 = var_i0;
  var_j0 = var_l4;
  var_i1 = 0u;
  i32_store16(origin, (u64)(var_j0) + 180, var_i1);
  var_j0 = var_l4;
  var_i1 = 0u;
  i32_store(origin, (u64)(var_j0) + 176, var_i1);
  var_j0 = 1ull;
  var_p1 = var_j0;
  var_i0 = 1u;
  var_l15 = var_i0;
  var_i0 = 1u;
  var_l7 = var_i0;
  var_B8:;
  var_j0 = var_l14;
  var_l9 = var_j0;
  var_j0 = var_p3;
  var_l10 = var_j0;
  goto var_B5;
  var_B7:;
  var_j0 = var_p1;
  var_j1 = 18446744073709551615ull;
  var_j0 ^= var_j1;
  var_j1 = var_l10;
  var_j0 += var_j1;
  var_l10 = var_j0;
  var_j0 = 1ull;
  var_p1 = var_j0;
  var_j0 = var_p3;
  var_j1 = 1ull;
  var_j0 += var_j1;
  var_l9 = var_j0;
  var_i0 = 8u;
  var_l13 = var_i0;
  var_i0 = 0u;
  var_l7 = var_i0;
  var_B6:;
  var_j0 = var_l4;
  var_j1 = var_l4;
  var_i1 = i32_load16_u(origin, (u64)(var_j1) + 188u);
  i32_store16(origin, (u64)(var_j0) + 180, var_i1);
  var_j0 = var_l4;
  var_j1 = var_l4;
  var_i1 = i32_load(origin, (u64)(var_j1) + 184u);
  i32_store(origin, (u64)(var_j0) + 176, var_i1);
  var_B5:;
  var_j0 = var_l4;
  var_j1 = var_l4;
  var_i1 = i32_load16_u(origin, (u64)(var_j1) + 180u);
  i32_store16(origin, (u64)(var_j0) + 172, var_i1);
  var_j0 = var_l4;
  var_j1 = var_l4;
  var_i1 = i32_load(origin, (u64)(var_j1) + 176u);
  i32_store(origin, (u64)(var_j0) + 168, var_i1);
  var_B4:;
  var_i0 = 0u;
  var_l11 = var_i0;
  var_j0 = 0ull;
  var_l5 = var_j0;
  var_j0 = 0ull;
  var_l16 = var_j0;
  var_i0 = 0u;
  var_l17 = var_i0;
  var_B3:;
  var_j0 = var_l4;
  var_j1 = var_l4;
  var_i1 = i32_load16_u(origin, (u64)(var_j1) + 172u);
  i32_store16(origin, (u64)(var_j0) + 160, var_i1);
  var_j0 = var_l4;
  var_j1 = var_l4;
  var_i1 = i32_load(origin, (u64)(var_j1) + 168u);
  i32_store(origin, (u64)(var_j0) + 156, var_i1);
  var_j0 = var_p1;
  var_j1 = 255ull;
  var_j0 &= var_j1;
  var_p1 = var_j0;
  var_i0 = var_l15;
  var_i0 = !(var_i0);
  if (var_i0) {goto var_B1;}
  var_B2:;
  var_j0 = var_p0;
  var_j1 = 1ull;
  i64_store(origin, (u64)(var_j0), var_j1);
  var_j0 = var_p0;
  var_j1 = 34ull;
  var_j0 += var_j1;
  var_j1 = 0ull;
  i64_store(origin, (u64)(var_j0), var_j1);
  var_j0 = var_p0;
  var_j1 = 33ull;
  var_j0 += var_j1;
  var_i1 = var_l13;
  i32_store8(origin, (u64)(var_j0), var_i1);
  var_j0 = var_p0;
  var_j1 = 32ull;
  var_j0 += var_j1;
  var_i1 = var_l7;
  i32_store8(origin, (u64)(var_j0), var_i1);
  var_j0 = var_p0;
  var_j1 = 24ull;
  var_j0 += var_j1;
  var_j1 = var_l10;
  i64_store(origin, (u64)(var_j0), var_j1);
  var_j0 = var_p0;
  var_j1 = 16ull;
  var_j0 += var_j1;
  var_j1 = var_l9;
  i64_store(origin, (u64)(var_j0), var_j1);
  var_j0 = var_p0;
  var_j1 = 9ull;
  var_j0 += var_j1;
  var_i1 = 0u;
  i32_store16(origin, (u64)(var_j0), var_i1);
  var_j0 = var_p0;
  var_j1 = 8ull;
  var_j0 += var_j1;
  var_j1 = var_p1;
  i64_store8(origin, (u64)(var_j0), var_j1);
  var_j0 = var_p0;
  var_j1 = 42ull;
  var_j0 += var_j1;
  var_j1 = 0ull;
  i64_store(origin, (u64)(var_j0), var_j1);
  var_j0 = var_p0;
  var_j1 = 50ull;
  var_j0 += var_j1;
  var_j1 = 0ull;
  i64_store(origin, (u64)(var_j0), var_j1);
  var_j0 = var_p0;
  var_j1 = 56ull;
  var_j0 += var_j1;
  var_j1 = 0ull;
  i64_store(origin, (u64)(var_j0), var_j1);
  goto var_B0;
  var_B1:;
  var_j0 = var_p0;
  var_j1 = 0ull;
  i64_store(origin, (u64)(var_j0), var_j1);
  var_j0 = var_p0;
  var_j1 = 46ull;
  var_j0 += var_j1;
  var_j1 = 0ull;
  i64_store16(origin, (u64)(var_j0), var_j1);
  var_j0 = var_p0;
  var_j1 = 42ull;
  var_j0 += var_j1;
  var_j1 = 0ull;
  i64_store32(origin, (u64)(var_j0), var_j1);
  var_j0 = var_p0;
  var_j1 = 57ull;
  var_j0 += var_j1;
  var_i1 = var_l17;
  i32_store8(origin, (u64)(var_j0), var_i1);
  var_j0 = var_p0;
  var_j1 = 56ull;
  var_j0 += var_j1;
  var_i1 = var_l11;
  i32_store8(origin, (u64)(var_j0), var_i1);
  var_j0 = var_p0;
  var_j1 = 48ull;
  var_j0 += var_j1;
  var_j1 = var_l16;
  i64_store(origin, (u64)(var_j0), var_j1);
  var_j0 = var_p0;
  var_j1 = 41ull;
  var_j0 += var_j1;
  var_i1 = var_l13;
  i32_store8(origin, (u64)(var_j0), var_i1);
  var_j0 = var_p0;
  var_j1 = 40ull;
  var_j0 += var_j1;
  var_i1 = var_l7;
  i32_store8(origin, (u64)(var_j0), var_i1);
  var_j0 = var_p0;
  var_j1 = 32ull;
  var_j0 += var_j1;
  var_j1 = var_l10;
  i64_store(origin, (u64)(var_j0), var_j1);
  var_j0 = var_p0;
  var_j1 = 24ull;
  var_j0 += var_j1;
  var_j1 = var_l9;
  i64_store(origin, (u64)(var_j0), var_j1);
  var_j0 = var_p0;
  var_j1 = 10ull;
  var_j0 += var_j1;
  var_i1 = var_l12;
  i32_store8(origin, (u64)(var_j0), var_i1);
  var_j0 = var_p0;
  var_j1 = 9ull;
  var_j0 += var_j1;
  var_i1 = var_l8;
  i32_store8(origin, (u64)(var_j0), var_i1);
  var_j0 = var_p0;
  var_j1 = 8ull;
  var_j0 += var_j1;
  var_i1 = var_p2;
  i32_store8(origin, (u64)(var_j0), var_i1);
  var_j0 = var_p0;
  var_j1 = 58ull;
  var_j0 += var_j1;
  var_j1 = var_l4;
  var_i1 = i32_load(origin, (u64)(var_j1) + 156u);
  i32_store(origin, (u64)(var_j0), var_i1);
  var_j0 = var_p0;
  var_j1 = 62ull;
  var_j0 += var_j1;
  var_j1 = var_l4;
  var_i1 = i32_load16_u(origin, (u64)(var_j1) + 160u);
  i32_store16(origin, (u64)(var_j0), var_i1);
  var_j0 = var_p0;
  var_j1 = 16ull;
  var_j0 += var_j1;
  var_j1 = var_l5;
  var_j2 = 8ull;
  var_j1 <<= (var_j2 & 63);
  var_j2 = var_p1;
  var_j1 |= var_j2;
  i64_store(origin, (u64)(var_j0), var_j1);
  var_B0:;
  var_j0 = var_l4;
  var_j1 = 192ull;
  var_j0 += var_j1;
  instance->w2c_0x5F_stack_pointer = var_j0;
  FUNC_EPILOGUE;
}

static void w2c_lockreplay_lk_lines0x3A0x3Avocabulary0x3A0x3Aoutcome_named(w2c_lockreplay* instance, u64 var_p0, u64 var_p1, u64 var_p2) {
  u32 var_l4 = 0, var_l5 = 0, var_l6 = 0, var_l7 = 0;
  u64 var_l3 = 0;
  FUNC_PROLOGUE;
  u32 var_i0, var_i1;
  u64 var_j0, var_j1, var_j2;
  var_j0 = instance->w2c_0x5F_stack_pointer;
  var_l3 = var_j0;
  var_j1 = 16ull;
  var_i0 = (u64)((s64)var_j0 < (s64)var_j1);
  if (var_i0) {goto var_B0;}
  var_j0 = var_p2;
  var_j1 = 18446744073709551612ull;
  var_j0 += var_j1;
  var_p2 = var_j0;
  var_j1 = 3ull;
  var_i0 = var_j0 > var_j1;
  if (var_i0) {goto var_B2;}
  var_j0 = var_p2;
  var_i0 = (u32)(var_j0);
  switch (var_i0) {
    case 0: goto var_B5;
    case 1: goto var_B3;
    case 2: goto var_B2;
    case 3: goto var_B4;
    default: goto var_B5;
  }
  var_B5:;
  var_j0 = var_p1;
  var_i0 = i32_load8_u(origin, (u64)(var_j0));
  var_i1 = 108u;
  var_i0 = var_i0 != var_i1;
  if (var_i0) {goto var_B2;}
  var_j0 = var_p1;
  var_j1 = 1ull;
  var_j0 += var_j1;
  var_i0 = i32_load8_u(origin, (u64)(var_j0));
  var_i1 = 255u;
  var_i0 &= var_i1;
  var_i1 = 101u;
  var_i0 = var_i0 != var_i1;
  if (var_i0) {goto var_B2;}
  var_j0 = var_p1;
  var_j1 = 2ull;
  var_j0 += var_j1;
  var_i0 = i32_load8_u(origin, (u64)(var_j0));
  var_i1 = 255u;
  var_i0 &= var_i1;
  var_i1 = 102u;
  var_i0 = var_i0 != var_i1;
  if (var_i0) {goto var_B2;}
  var_j0 = var_p1;
  var_j1 = 3ull;
  var_j0 += var_j1;
  var_i0 = i32_load8_u(origin, (u64)(var_j0));
  var_i1 = 255u;
  var_i0 &= var_i1;
  var_i1 = 116u;
  var_i0 = var_i0 != var_i1;
  if (var_i0) {goto var_B2;}
  var_j0 = var_p1;
  var_j1 = 4ull;
  var_j2 = 1058468ull;
  var_i0 = w2c_lockreplay_core0x3A0x3Acmp0x3A0x3Aslices0x3A0x3Agroups_equal0x3A0x3A0x3Ci80x2C310x27core0x3A0x3Acmp0x3A0x3Anumbers0x3A0x3AU8PartialEq0x7B0x7D0x3E(instance, var_j0, var_j1, var_j2);
  var_i0 = !(var_i0);
  if (var_i0) {goto var_B2;}
  var_i0 = 1u;
  var_l4 = var_i0;
  var_i0 = 4u;
  var_l5 = var_i0;
  goto var_B1;
  var_B4:;
  var_j0 = var_p1;
  var_i0 = i32_load8_u(origin, (u64)(var_j0));
  var_i1 = 101u;
  var_i0 = var_i0 != var_i1;
  if (var_i0) {goto var_B2;}
  var_j0 = var_p1;
  var_j1 = 1ull;
  var_j0 += var_j1;
  var_i0 = i32_load8_u(origin, (u64)(var_j0));
  var_i1 = 255u;
  var_i0 &= var_i1;
  var_i1 = 110u;
  var_i0 = var_i0 != var_i1;
  if (var_i0) {goto var_B2;}
  var_j0 = var_p1;
  var_j1 = 2ull;
  var_j0 += var_j1;
  var_i0 = i32_load8_u(origin, (u64)(var_j0));
  var_i1 = 255u;
  var_i0 &= var_i1;
  var_i1 = 116u;
  var_i0 = var_i0 != var_i1;
  if (var_i0) {goto var_B2;}
  var_j0 = var_p1;
  var_j1 = 3ull;
  var_j0 += var_j1;
  var_i0 = i32_load8_u(origin, (u64)(var_j0));
  var_i1 = 255u;
  var_i0 &= var_i1;
  var_i1 = 101u;
  var_i0 = var_i0 != var_i1;
  if (var_i0) {goto var_B2;}
  var_j0 = var_p1;
  var_j1 = 7ull;
  var_j2 = 1058441ull;
  var_i0 = w2c_lockreplay_core0x3A0x3Acmp0x3A0x3Aslices0x3A0x3Agroups_equal0x3A0x3A0x3Ci80x2C310x27core0x3A0x3Acmp0x3A0x3Anumbers0x3A0x3AU8PartialEq0x7B0x7D0x3E(instance, var_j0, var_j1, var_j2);
  var_i0 = !(var_i0);
  if (var_i0) {goto var_B2;}
  var_i0 = 1u;
  var_l4 = var_i0;
  var_i0 = 3u;
  var_l5 = var_i0;
  goto var_B1;
  var_B3:;
  var_j0 = var_p1;
  var_j1 = 3ull;
  var_j0 += var_j1;
  var_i0 = i32_load8_u(origin, (u64)(var_j0));
  var_l6 = var_i0;
  var_j0 = var_p1;
  var_j1 = 2ull;
  var_j0 += var_j1;
  var_i0 = i32_load8_u(origin, (u64)(var_j0));
  var_l5 = var_i0;
  var_j0 = var_p1;
  var_j1 = 1ull;
  var_j0 += var_j1;
  var_i0 = i32_load8_u(origin, (u64)(var_j0));
  var_l4 = var_i0;
  var_j0 = var_p1;
  var_i0 = i32_load8_u(origin, (u64)(var_j0));
  var_l7 = var_i0;
  var_i1 = 109u;
  var_i0 = var_i0 != var_i1;
  if (var_i0) {goto var_B6;}
  var_i0 = var_l4;
  var_i1 = 255u;
  var_i0 &= var_i1;
  var_i1 = 111u;
  var_i0 = var_i0 != var_i1;
  if (var_i0) {goto var_B6;}
  var_i0 = var_l5;
  var_i1 = 255u;
  var_i0 &= var_i1;
  var_i1 = 118u;
  var_i0 = var_i0 != var_i1;
  if (var_i0) {goto var_B6;}
  var_i0 = var_l6;
  var_i1 = 255u;
  var_i0 &= var_i1;
  var_i1 = 101u;
  var_i0 = var_i0 != var_i1;
  if (var_i0) {goto var_B6;}
  var_j0 = var_p1;
  var_j1 = 5ull;
  var_j2 = 1058387ull;
  var_i0 = w2c_lockreplay_core0x3A0x3Acmp0x3A0x3Aslices0x3A0x3Agroups_equal0x3A0x3A0x3Ci80x2C310x27core0x3A0x3Acmp0x3A0x3Anumbers0x3A0x3AU8PartialEq0x7B0x7D0x3E(instance, var_j0, var_j1, var_j2);
  var_i0 = !(var_i0);
  if (var_i0) {goto var_B6;}
  var_i0 = 1u;
  var_l5 = var_i0;
  var_i0 = 1u;
  var_l4 = var_i0;
  goto var_B1;
  var_B6:;
  var_i0 = var_l7;
  var_i1 = 119u;
  var_i0 = var_i0 != var_i1;
  if (var_i0) {goto var_B2;}
  var_i0 = var_l4;
  var_i1 = 255u;
  var_i0 &= var_i1;
  var_i1 = 97u;
  var_i0 = var_i0 != var_i1;
  if (var_i0) {goto var_B2;}
  var_i0 = var_l5;
  var_i1 = 255u;
  var_i0 &= var_i1;
  var_i1 = 105u;
  var_i0 = var_i0 != var_i1;
  if (var_i0) {goto var_B2;}
  var_i0 = var_l6;
  var_i1 = 255u;
  var_i0 &= var_i1;
  var_i1 = 116u;
  var_i0 = var_i0 != var_i1;
  if (var_i0) {goto var_B2;}
  var_j0 = var_p1;
  var_j1 = 5ull;
  var_j2 = 1058413ull;
  var_i0 = w2c_lockreplay_core0x3A0x3Acmp0x3A0x3Aslices0x3A0x3Agroups_equal0x3A0x3A0x3Ci80x2C310x27core0x3A0x3Acmp0x3A0x3Anumbers0x3A0x3AU8PartialEq0x7B0x7D0x3E(instance, var_j0, var_j1, var_j2);
  var_i0 = !(var_i0);
  if (var_i0) {goto var_B2;}
  var_i0 = 1u;
  var_l4 = var_i0;
  var_i0 = 2u;
  var_l5 = var_i0;
  goto var_B1;
  var_B2:;
  var_i0 = 0u;
  var_l5 = var_i0;
  var_i0 = 0u;
  var_l4 = var_i0;
  var_B1:;
  var_j0 = var_p0;
  var_i1 = var_l5;
  i32_store8(origin, (u64)(var_j0) + 1, var_i1);
  var_j0 = var_p0;
  var_i1 = var_l4;
  i32_store8(origin, (u64)(var_j0), var_i1);
  var_j0 = var_l3;
  instance->w2c_0x5F_stack_pointer = var_j0;
  goto var_Bfunc;
  var_B0:;
  UNREACHABLE;
  var_Bfunc:;
  FUNC_EPILOGUE;
}

static void w2c_lockreplay_lk_trace0x3A0x3Aline0x3A0x3Aresult_alone(w2c_lockreplay* instance, u64 var_p0, u32 var_p1, u64 var_p2, u64 var_p3) {
  u32 var_l5 = 0;
  u64 var_l4 = 0;
  FUNC_PROLOGUE;
  u32 var_i0, var_i1;
  u64 var_j0, var_j1, var_j2;
  var_j0 = instance->w2c_0x5F_stack_pointer;
  var_l4 = var_j0;
  var_j1 = 16ull;
  var_i0 = (u64)((s64)var_j0 < (s64)var_j1);
  if (var_i0) {goto var_B0;}
  var_i0 = 0u;
  var_l5 = var_i0;
  var_i0 = var_p1;
  var_i1 = 255u;
  var_i0 &= var_i1;
  var_i1 = 3u;
  var_i0 = var_i0 != var_i1;
  if (var_i0) {goto var_B2;}
  var_j0 = var_p3;
  var_j1 = 18446744073709551612ull;
  var_j0 += var_j1;
  var_p3 = var_j0;
  var_j1 = 2ull;
  var_i0 = var_j0 > var_j1;
  if (var_i0) {goto var_B3;}
  var_j0 = var_p3;
  var_i0 = (u32)(var_j0);
  switch (var_i0) {
    case 0: goto var_B4;
    case 1: goto var_B3;
    case 2: goto var_B5;
    default: goto var_B4;
  }
  var_B5:;
  var_j0 = var_p2;
  var_i0 = i32_load8_u(origin, (u64)(var_j0));
  var_i1 = 102u;
  var_i0 = var_i0 != var_i1;
  if (var_i0) {goto var_B3;}
  var_j0 = var_p2;
  var_j1 = 1ull;
  var_j0 += var_j1;
  var_i0 = i32_load8_u(origin, (u64)(var_j0));
  var_i1 = 255u;
  var_i0 &= var_i1;
  var_i1 = 97u;
  var_i0 = var_i0 != var_i1;
  if (var_i0) {goto var_B3;}
  var_j0 = var_p2;
  var_j1 = 2ull;
  var_j0 += var_j1;
  var_i0 = i32_load8_u(origin, (u64)(var_j0));
  var_i1 = 255u;
  var_i0 &= var_i1;
  var_i1 = 105u;
  var_i0 = var_i0 != var_i1;
  if (var_i0) {goto var_B3;}
  var_j0 = var_p2;
  var_j1 = 3ull;
  var_j0 += var_j1;
  var_i0 = i32_load8_u(origin, (u64)(var_j0));
  var_i1 = 255u;
  var_i0 &= var_i1;
  var_i1 = 108u;
  var_i0 = var_i0 != var_i1;
  if (var_i0) {goto var_B3;}
  var_j0 = var_p2;
  var_j1 = 6ull;
  var_j2 = 1058572ull;
  var_i0 = w2c_lockreplay_core0x3A0x3Acmp0x3A0x3Aslices0x3A0x3Agroups_equal0x3A0x3A0x3Ci80x2C310x27core0x3A0x3Acmp0x3A0x3Anumbers0x3A0x3AU8PartialEq0x7B0x7D0x3E(instance, var_j0, var_j1, var_j2);
  var_p1 = var_i0;
  goto var_B1;
  var_B4:;
  var_j0 = var_p2;
  var_i0 = i32_load8_u(origin, (u64)(var_j0));
  var_i1 = 100u;
  var_i0 = var_i0 != var_i1;
  if (var_i0) {goto var_B3;}
  var_j0 = var_p2;
  var_j1 = 1ull;
  var_j0 += var_j1;
  var_i0 = i32_load8_u(origin, (u64)(var_j0));
  var_i1 = 255u;
  var_i0 &= var_i1;
  var_i1 = 111u;
  var_i0 = var_i0 != var_i1;
  if (var_i0) {goto var_B3;}
  var_j0 = var_p2;
  var_j1 = 2ull;
  var_j0 += var_j1;
  var_i0 = i32_load8_u(origin, (u64)(var_j0));
  var_i1 = 255u;
  var_i0 &= var_i1;
  var_i1 = 110u;
  var_i0 = var_i0 != var_i1;
  if (var_i0) {goto var_B3;}
  var_j0 = var_p2;
  var_j1 = 3ull;
  var_j0 += var_j1;
  var_i0 = i32_load8_u(origin, (u64)(var_j0));
  var_i1 = 255u;
  var_i0 &= var_i1;
  var_i1 = 101u;
  var_i0 = var_i0 != var_i1;
  if (var_i0) {goto var_B3;}
  var_i0 = 1u;
  var_l5 = var_i0;
  var_i0 = 1u;
  var_p1 = var_i0;
  var_j0 = var_p2;
  var_j1 = 4ull;
  var_j2 = 1058568ull;
  var_i0 = w2c_lockreplay_core0x3A0x3Acmp0x3A0x3Aslices0x3A0x3Agroups_equal0x3A0x3A0x3Ci80x2C310x27core0x3A0x3Acmp0x3A0x3Anumbers0x3A0x3AU8PartialEq0x7B0x7D0x3E(instance, var_j0, var_j1, var_j2);
  if (var_i0) {goto var_B1;}
  var_B3:;
  var_i0 = 0u;
  var_l5 = var_i0;
  var_B2:;
  var_i0 = 0u;
  var_p1 = var_i0;
  var_B1:;
  var_j0 = var_p0;
  var_i1 = var_l5;
  i32_store8(origin, (u64)(var_j0) + 1, var_i1);
  var_j0 = var_p0;
  var_i1 = var_p1;
  i32_store8(origin, (u64)(var_j0), var_i1);
  var_j0 = var_l4;
  instance->w2c_0x5F_stack_pointer = var_j0;
  goto var_Bfunc;
  var_B0:;
  UNREACHABLE;
  var_Bfunc:;
  FUNC_EPILOGUE;
}

static void w2c_lockreplay_lk_locks0x3A0x3Amachine0x3A0x3AMachine0x3A0x3Anext_step0x3A0x3A0x3C0x23e396818bfda329340x3E(w2c_lockreplay* instance, u64 var_p0, u64 var_p1, u32 var_p2) {
  u64 var_l3 = 0;
  FUNC_PROLOGUE;
  u32 var_i0, var_i1;
  u64 var_j0, var_j1, var_j2;
  var_j0 = instance->w2c_0x5F_stack_pointer;
  var_j1 = 16ull;
  var_i0 = (u64)((s64)var_j0 < (s64)var_j1);
  if (var_i0) {goto var_B0;}
  var_j0 = var_p1;
  var_i1 = var_p2;
  var_j1 = (u64)(var_i1);
  var_j2 = 255ull;
  var_j1 &= var_j2;
  var_j2 = 4ull;
  var_j1 <<= (var_j2 & 63);
  var_j0 += var_j1;
  var_j1 = 1056ull;
  var_j0 += var_j1;
  var_j0 = i64_load8_u(origin, (u64)(var_j0));
  var_l3 = var_j0;
  var_j0 = var_p1;
  var_j0 = i64_load8_u(origin, (u64)(var_j0));
  var_i0 = (u32)(var_j0);
  switch (var_i0) {
    case 0: goto var_B4;
    case 1: goto var_B3;
    case 2: goto var_B2;
    case 3: goto var_B2;
    default: goto var_B4;
  }
  var_B4:;
  var_j0 = var_l3;
  var_j1 = 1058856ull;
  var_j0 += var_j1;
  var_p1 = var_j0;
  var_j0 = var_l3;
  var_j1 = 1058832ull;
  var_j0 += var_j1;
  var_l3 = var_j0;
  goto var_B1;
  var_B3:;
  var_j0 = var_l3;
  var_j1 = 1058904ull;
  var_j0 += var_j1;
  var_p1 = var_j0;
  var_j0 = var_l3;
  var_j1 = 1058880ull;
  var_j0 += var_j1;
  var_l3 = var_j0;
  goto var_B1;
  var_B2:;
  var_j0 = var_l3;
  var_j1 = 1058952ull;
  var_j0 += var_j1;
  var_p1 = var_j0;
  var_j0 = var_l3;
  var_j1 = 1058928ull;
  var_j0 += var_j1;
  var_l3 = var_j0;
  var_B1:;
  var_j0 = var_p0;
  var_j1 = var_p1;
  var_i1 = i32_load8_u(origin, (u64)(var_j1));
  i32_store8(origin, (u64)(var_j0) + 1, var_i1);
  var_j0 = var_p0;
  var_j1 = var_l3;
  var_i1 = i32_load8_u(origin, (u64)(var_j1));
  i32_store8(origin, (u64)(var_j0), var_i1);
  goto var_Bfunc;
  var_B0:;
  UNREACHABLE;
  var_Bfunc:;
  FUNC_EPILOGUE;
}

static void w2c_lockreplay_lk_trace0x3A0x3Acompare0x3A0x3Acheck_line(w2c_lockreplay* instance, u64 var_p0, u64 var_p1, u64 var_p2, u64 var_p3) {
  u32 var_l5 = 0, var_l6 = 0, var_l7 = 0, var_l9 = 0, var_l10 = 0, var_l12 = 0, var_l13 = 0, var_l14 = 0,
      var_l15 = 0, var_l16 = 0, var_l17 = 0, var_l18 = 0, var_l19 = 0, var_l20 = 0, var_l21 = 0, var_l23 = 0;
  u64 var_l4 = 0, var_l8 = 0, var_l11 = 0, var_l22 = 0, var_l24 = 0, var_l25 = 0, var_l26 = 0;
  FUNC_PROLOGUE;
  u32 var_i0, var_i1, var_i2, var_i3, var_i4, var_i5;
  u64 var_j0, var_j1, var_j2, var_j4, var_j5;
  var_j0 = instance->w2c_0x5F_stack_pointer;
  var_j1 = 496ull;
  var_j0 -= var_j1;
  var_l4 = var_j0;
  instance->w2c_0x5F_stack_pointer = var_j0;
  var_j0 = var_l4;
  var_l4 = var_j0;
  var_j1 = 16ull;
  var_i0 = (u64)((s64)var_j0 < (s64)var_j1);
  if (var_i0) {goto var_B5;}
  var_j0 = var_p3;
  var_i0 = i32_load8_u(origin, (u64)(var_j0));
  var_l5 = var_i0;
  var_j0 = var_p3;
  var_j1 = 49ull;
  var_j0 += var_j1;
  var_i0 = i32_load8_u(origin, (u64)(var_j0));
  var_l6 = var_i0;
  var_j0 = var_p3;
  var_j1 = 48ull;
  var_j0 += var_j1;
  var_i0 = i32_load8_u(origin, (u64)(var_j0));
  var_l7 = var_i0;
  var_j0 = var_p3;
  var_j1 = 40ull;
  var_j0 += var_j1;
  var_j0 = i64_load(origin, (u64)(var_j0));
  var_l8 = var_j0;
  var_j0 = var_p3;
  var_j1 = 33ull;
  var_j0 += var_j1;
  var_i0 = i32_load8_u(origin, (u64)(var_j0));
  var_l9 = var_i0;
  var_j0 = var_p3;
  var_j1 = 32ull;
  var_j0 += var_j1;
  var_i0 = i32_load8_u(origin, (u64)(var_j0));
  var_l10 = var_i0;
  var_j0 = var_p3;
  var_j1 = 24ull;
  var_j0 += var_j1;
  var_j0 = i64_load(origin, (u64)(var_j0));
  var_l11 = var_j0;
  var_j0 = var_p3;
  var_j1 = 16ull;
  var_j0 += var_j1;
  var_i0 = i32_load8_u(origin, (u64)(var_j0));
  var_l12 = var_i0;
  var_j0 = var_p3;
  var_j1 = 10ull;
  var_j0 += var_j1;
  var_i0 = i32_load8_u(origin, (u64)(var_j0));
  var_l13 = var_i0;
  var_j0 = var_p3;
  var_j1 = 9ull;
  var_j0 += var_j1;
  var_i0 = i32_load8_u(origin, (u64)(var_j0));
  var_l14 = var_i0;
  var_j0 = var_p3;
  var_j1 = 8ull;
  var_j0 += var_j1;
  var_i0 = i32_load8_u(origin, (u64)(var_j0));
  var_l15 = var_i0;
  var_j0 = var_p3;
  var_j1 = 1ull;
  var_j0 += var_j1;
  var_i0 = i32_load8_u(origin, (u64)(var_j0));
  var_l16 = var_i0;
  var_j0 = var_p3;
  var_j1 = 2ull;
  var_j0 += var_j1;
  var_i0 = i32_load8_u(origin, (u64)(var_j0));
  var_l17 = var_i0;
  var_j0 = var_l4;
  var_i1 = 0u;
  i32_store8(origin, (u64)(var_j0) + 128, var_i1);
  var_j0 = var_l4;
  var_j1 = 0ull;
  i64_store(origin, (u64)(var_j0) + 120, var_j1);
  var_j0 = var_l4;
  var_j1 = 0ull;
  i64_store(origin, (u64)(var_j0) + 104, var_j1);
  var_j0 = var_l4;
  var_j1 = 0ull;
  i64_store(origin, (u64)(var_j0) + 112, var_j1);
  var_j0 = var_l4;
  var_j1 = 8ull;
  var_j0 += var_j1;
  var_i1 = 0u;
  var_j2 = 96ull;
  memory_fill(origin, var_j0, var_i1, var_j2);
  var_j0 = var_l4;
  var_i1 = 0u;
  i32_store(origin, (u64)(var_j0) + 3, var_i1);
  var_j0 = var_l4;
  var_i1 = 0u;
  i32_store(origin, (u64)(var_j0), var_i1);
  var_i0 = 0u;
  var_l18 = var_i0;
  var_i0 = 0u;
  var_l19 = var_i0;
  var_j0 = var_p1;
  var_j1 = 1ull;
  var_j0 += var_j1;
  var_i0 = i32_load8_u(origin, (u64)(var_j0));
  var_i1 = var_l5;
  var_i2 = 255u;
  var_i1 &= var_i2;
  var_i0 = var_i0 <= var_i1;
  if (var_i0) {goto var_B1;}
  var_i0 = var_l5;
  var_j0 = (u64)(var_i0);
  var_j1 = 255ull;
  var_j0 &= var_j1;
  var_p3 = var_j0;
  var_j0 = var_p1;
  var_i0 = i32_load8_u(origin, (u64)(var_j0));
  var_l20 = var_i0;
  var_i0 = var_l16;
  var_i1 = 255u;
  var_i0 &= var_i1;
  if (var_i0) {goto var_B18;}
  var_i0 = 1u;
  var_l18 = var_i0;
  var_i0 = 0u;
  var_l19 = var_i0;
  var_i0 = var_l17;
  var_i1 = 255u;
  var_i0 &= var_i1;
  var_i1 = 2u;
  var_i0 = var_i0 < var_i1;
  var_i1 = var_l20;
  var_i2 = 1u;
  var_i1 = var_i1 > var_i2;
  var_i0 ^= var_i1;
  if (var_i0) {goto var_B17;}
  goto var_B1;
  var_B18:;
  var_i0 = var_l20;
  switch (var_i0) {
    case 0: goto var_B21;
    case 1: goto var_B20;
    case 2: goto var_B19;
    case 3: goto var_B19;
    default: goto var_B21;
  }
  var_B21:;
  var_i0 = 1u;
  var_l18 = var_i0;
  var_i0 = 0u;
  var_l19 = var_i0;
  var_i0 = 1u;
  var_i1 = var_l17;
  var_i2 = 255u;
  var_i1 &= var_i2;
  var_i0 <<= (var_i1 & 31);
  var_i1 = 19u;
  var_i0 &= var_i1;
  var_i0 = !(var_i0);
  if (var_i0) {goto var_B1;}
  var_j0 = var_p1;
  var_j1 = var_p3;
  var_j2 = 4ull;
  var_j1 <<= (var_j2 & 63);
  var_j0 += var_j1;
  var_j1 = 1056ull;
  var_j0 += var_j1;
  var_i0 = i32_load8_u(origin, (u64)(var_j0));
  var_l18 = var_i0;
  goto var_B12;
  var_B20:;
  var_i0 = var_l17;
  var_i1 = 255u;
  var_i0 &= var_i1;
  var_i1 = 3u;
  var_i0 = var_i0 <= var_i1;
  if (var_i0) {goto var_B16;}
  goto var_B13;
  var_B19:;
  var_i0 = var_l17;
  var_i1 = 255u;
  var_i0 &= var_i1;
  var_i1 = 5u;
  var_i0 = var_i0 != var_i1;
  if (var_i0) {goto var_B13;}
  var_B17:;
  var_j0 = var_p1;
  var_j1 = var_p3;
  var_j2 = 4ull;
  var_j1 <<= (var_j2 & 63);
  var_j0 += var_j1;
  var_j1 = 1056ull;
  var_j0 += var_j1;
  var_i0 = i32_load8_u(origin, (u64)(var_j0));
  var_l18 = var_i0;
  var_i0 = var_l20;
  switch (var_i0) {
    case 0: goto var_B12;
    case 1: goto var_B15;
    case 2: goto var_B14;
    case 3: goto var_B14;
    default: goto var_B12;
  }
  var_B16:;
  var_j0 = var_p1;
  var_j1 = var_p3;
  var_j2 = 4ull;
  var_j1 <<= (var_j2 & 63);
  var_j0 += var_j1;
  var_j1 = 1056ull;
  var_j0 += var_j1;
  var_i0 = i32_load8_u(origin, (u64)(var_j0));
  var_l18 = var_i0;
  var_B15:;
  var_i0 = 2u;
  var_l19 = var_i0;
  var_i0 = var_l18;
  var_j0 = (u64)(var_i0);
  var_j1 = 255ull;
  var_j0 &= var_j1;
  var_i0 = (u32)(var_j0);
  switch (var_i0) {
    case 0: goto var_B11;
    case 1: goto var_B11;
    case 2: goto var_B11;
    case 3: goto var_B11;
    case 4: goto var_B11;
    case 5: goto var_B11;
    case 6: goto var_B23;
    case 7: goto var_B9;
    case 8: goto var_B23;
    case 9: goto var_B23;
    case 10: goto var_B10;
    case 11: goto var_B11;
    case 12: goto var_B10;
    case 13: goto var_B22;
    case 14: goto var_B10;
    case 15: goto var_B23;
    case 16: goto var_B11;
    case 17: goto var_B11;
    case 18: goto var_B11;
    case 19: goto var_B11;
    case 20: goto var_B11;
    case 21: goto var_B11;
    case 22: goto var_B11;
    case 23: goto var_B11;
    default: goto var_B11;
  }
  var_B23:;
  var_i0 = 1u;
  var_l19 = var_i0;
  goto var_B9;
  var_B22:;
  var_i0 = 3u;
  var_l19 = var_i0;
  goto var_B9;
  var_B14:;
  var_i0 = 5u;
  var_l19 = var_i0;
  var_i0 = var_l18;
  var_i1 = 4294967295u;
  var_i0 += var_i1;
  var_i1 = 16u;
  var_i0 = var_i0 < var_i1;
  if (var_i0) {goto var_B9;}
  var_i0 = 1u;
  var_i1 = var_l18;
  var_i0 <<= (var_i1 & 31);
  var_i1 = 14417920u;
  var_i0 &= var_i1;
  if (var_i0) {goto var_B9;}
  goto var_B11;
  var_B13:;
  var_i0 = 1u;
  var_l18 = var_i0;
  goto var_B2;
  var_B12:;
  var_i0 = var_l18;
  var_i1 = 255u;
  var_i0 &= var_i1;
  var_l21 = var_i0;
  var_i1 = 4294967290u;
  var_i0 += var_i1;
  var_i1 = 18u;
  var_i0 = var_i0 < var_i1;
  if (var_i0) {goto var_B11;}
  var_i0 = 4u;
  var_l19 = var_i0;
  var_i0 = var_l21;
  switch (var_i0) {
    case 0: goto var_B11;
    case 1: goto var_B9;
    case 2: goto var_B10;
    case 3: goto var_B11;
    case 4: goto var_B10;
    case 5: goto var_B24;
    default: goto var_B11;
  }
  var_B24:;
  var_i0 = 1u;
  var_l19 = var_i0;
  goto var_B9;
  var_B11:;
  var_i0 = var_l16;
  var_i1 = 255u;
  var_i0 &= var_i1;
  var_i0 = !(var_i0);
  if (var_i0) {goto var_B25;}
  var_i0 = 5u;
  var_l18 = var_i0;
  goto var_B2;
  var_B25:;
  var_i0 = var_l20;
  switch (var_i0) {
    case 0: goto var_B32;
    case 1: goto var_B31;
    case 2: goto var_B30;
    case 3: goto var_B30;
    default: goto var_B32;
  }
  var_B32:;
  var_i0 = var_l18;
  var_i1 = 255u;
  var_i0 &= var_i1;
  var_l19 = var_i0;
  var_i1 = 4294967292u;
  var_i0 += var_i1;
  var_i1 = 20u;
  var_i0 = var_i0 < var_i1;
  if (var_i0) {goto var_B28;}
  var_i0 = var_l19;
  switch (var_i0) {
    case 0: goto var_B34;
    case 1: goto var_B28;
    case 2: goto var_B28;
    case 3: goto var_B33;
    default: goto var_B34;
  }
  var_B34:;
  var_i0 = var_l17;
  var_i1 = 255u;
  var_i0 &= var_i1;
  var_i0 = !(var_i0);
  if (var_i0) {goto var_B4;}
  goto var_B3;
  var_B33:;
  var_i0 = 3u;
  var_l18 = var_i0;
  var_i0 = 0u;
  var_l19 = var_i0;
  var_i0 = var_l17;
  var_j0 = (u64)(var_i0);
  var_j1 = 255ull;
  var_j0 &= var_j1;
  var_i0 = (u32)(var_j0);
  switch (var_i0) {
    case 0: goto var_B26;
    case 1: goto var_B4;
    default: goto var_B1;
  }
  var_B31:;
  var_i0 = 1u;
  var_i1 = var_l18;
  var_i2 = 255u;
  var_i1 &= var_i2;
  var_l19 = var_i1;
  var_i0 <<= (var_i1 & 31);
  var_i1 = 16775166u;
  var_i0 &= var_i1;
  if (var_i0) {goto var_B27;}
  var_i0 = var_l19;
  if (var_i0) {goto var_B29;}
  var_i0 = var_l17;
  var_i1 = 255u;
  var_i0 &= var_i1;
  if (var_i0) {goto var_B3;}
  goto var_B4;
  var_B30:;
  var_i0 = var_l18;
  var_i1 = 255u;
  var_i0 &= var_i1;
  var_l19 = var_i0;
  var_i1 = 4294967295u;
  var_i0 += var_i1;
  var_i1 = 16u;
  var_i0 = var_i0 < var_i1;
  if (var_i0) {goto var_B6;}
  var_i0 = var_l19;
  switch (var_i0) {
    case 0: goto var_B35;
    case 1: goto var_B5;
    case 2: goto var_B5;
    case 3: goto var_B5;
    case 4: goto var_B5;
    case 5: goto var_B5;
    case 6: goto var_B5;
    case 7: goto var_B5;
    case 8: goto var_B5;
    case 9: goto var_B5;
    case 10: goto var_B5;
    case 11: goto var_B5;
    case 12: goto var_B5;
    case 13: goto var_B5;
    case 14: goto var_B5;
    case 15: goto var_B5;
    case 16: goto var_B5;
    case 17: goto var_B7;
    case 18: goto var_B6;
    case 19: goto var_B6;
    case 20: goto var_B6;
    case 21: goto var_B8;
    case 22: goto var_B6;
    case 23: goto var_B6;
    default: goto var_B35;
  }
  var_B35:;
  var_i0 = 1u;
  var_i1 = var_l17;
  var_i2 = 255u;
  var_i1 &= var_i2;
  var_i0 <<= (var_i1 & 31);
  var_i1 = 107u;
  var_i0 &= var_i1;
  var_i0 = !(var_i0);
  if (var_i0) {goto var_B4;}
  goto var_B6;
  var_B29:;
  var_i0 = 3u;
  var_l18 = var_i0;
  var_i0 = 0u;
  var_l19 = var_i0;
  var_i0 = var_l17;
  var_j0 = (u64)(var_i0);
  var_j1 = 255ull;
  var_j0 &= var_j1;
  var_i0 = (u32)(var_j0);
  switch (var_i0) {
    case 0: goto var_B26;
    case 1: goto var_B4;
    default: goto var_B1;
  }
  var_B28:;
  var_i0 = var_l17;
  var_i1 = 255u;
  var_i0 &= var_i1;
  if (var_i0) {goto var_B3;}
  goto var_B26;
  var_B27:;
  var_i0 = var_l17;
  var_i1 = 255u;
  var_i0 &= var_i1;
  if (var_i0) {goto var_B3;}
  var_B26:;
  var_i0 = 4u;
  var_l18 = var_i0;
  goto var_B2;
  var_B10:;
  var_i0 = 0u;
  var_l19 = var_i0;
  var_B9:;
  var_i0 = var_l16;
  var_i1 = 255u;
  var_i0 &= var_i1;
  if (var_i0) {goto var_B36;}
  var_i0 = 2u;
  var_l18 = var_i0;
  goto var_B2;
  var_B36:;
  var_i0 = var_l19;
  var_i1 = var_l17;
  var_i2 = 255u;
  var_i1 &= var_i2;
  var_i0 = var_i0 == var_i1;
  if (var_i0) {goto var_B4;}
  var_i0 = 6u;
  var_l18 = var_i0;
  goto var_B1;
  var_B8:;
  var_i0 = var_l17;
  var_i1 = 4294967291u;
  var_i0 += var_i1;
  var_i1 = 255u;
  var_i0 &= var_i1;
  var_i1 = 2u;
  var_i0 = var_i0 >= var_i1;
  if (var_i0) {goto var_B6;}
  goto var_B4;
  var_B7:;
  var_i0 = var_l17;
  var_i1 = 255u;
  var_i0 &= var_i1;
  var_i1 = 3u;
  var_i0 = var_i0 == var_i1;
  if (var_i0) {goto var_B4;}
  var_B6:;
  var_j0 = 847740695479043ull;
  var_i1 = var_l17;
  var_j1 = (u64)(var_i1);
  var_j2 = 255ull;
  var_j1 &= var_j2;
  var_j2 = 3ull;
  var_j1 <<= (var_j2 & 63);
  var_j0 >>= (var_j1 & 63);
  var_i0 = (u32)(var_j0);
  var_l18 = var_i0;
  goto var_B2;
  var_B5:;
  UNREACHABLE;
  var_B4:;
  var_i0 = 0u;
  var_l19 = var_i0;
  var_j0 = var_l4;
  var_j1 = 376ull;
  var_j0 += var_j1;
  var_i1 = 0u;
  var_j2 = 120ull;
  memory_fill(origin, var_j0, var_i1, var_j2);
  var_j0 = var_p1;
  var_j1 = var_p3;
  var_j2 = 4ull;
  var_j1 <<= (var_j2 & 63);
  var_j0 += var_j1;
  var_p3 = var_j0;
  var_j1 = 1064ull;
  var_j0 += var_j1;
  var_j0 = i64_load(origin, (u64)(var_j0));
  var_l22 = var_j0;
  var_j0 = var_p3;
  var_j1 = 1057ull;
  var_j0 += var_j1;
  var_i0 = i32_load8_u(origin, (u64)(var_j0));
  var_l23 = var_i0;
  var_j0 = var_p3;
  var_j1 = 1056ull;
  var_j0 += var_j1;
  var_i0 = i32_load8_u(origin, (u64)(var_j0));
  var_l18 = var_i0;
  var_j0 = var_l4;
  var_j1 = 376ull;
  var_j0 += var_j1;
  var_j1 = var_p1;
  var_i2 = var_l5;
  w2c_lockreplay_lk_locks0x3A0x3Amachine0x3A0x3AMachine0x2BWordArray0x3A0x3Aeffect(instance, var_j0, var_j1, var_i2);
  var_i0 = var_l16;
  var_i1 = 255u;
  var_i0 &= var_i1;
  if (var_i0) {goto var_B39;}
  var_j0 = 0ull;
  var_l24 = var_j0;
  var_j0 = var_l4;
  var_j1 = 0ull;
  i64_store(origin, (u64)(var_j0) + 368, var_j1);
  var_j0 = var_l4;
  var_j1 = 0ull;
  i64_store(origin, (u64)(var_j0) + 360, var_j1);
  var_j0 = var_l4;
  var_j1 = 264ull;
  var_j0 += var_j1;
  var_i1 = 0u;
  var_j2 = 96ull;
  memory_fill(origin, var_j0, var_i1, var_j2);
  var_j0 = var_l4;
  var_i1 = 0u;
  i32_store(origin, (u64)(var_j0) + 259, var_i1);
  var_j0 = var_l4;
  var_i1 = 0u;
  i32_store(origin, (u64)(var_j0) + 256, var_i1);
  var_j0 = 0ull;
  var_p1 = var_j0;
  var_j0 = 0ull;
  var_p3 = var_j0;
  var_i0 = 0u;
  var_l21 = var_i0;
  goto var_B38;
  var_B39:;
  var_j0 = var_l4;
  var_i0 = i32_load8_u(origin, (u64)(var_j0) + 376u);
  if (var_i0) {goto var_B40;}
  var_j0 = 0ull;
  var_l24 = var_j0;
  var_j0 = var_l4;
  var_j1 = 0ull;
  i64_store(origin, (u64)(var_j0) + 368, var_j1);
  var_j0 = var_l4;
  var_j1 = 0ull;
  i64_store(origin, (u64)(var_j0) + 360, var_j1);
  var_i0 = 0u;
  var_l19 = var_i0;
  var_j0 = var_l4;
  var_j1 = 264ull;
  var_j0 += var_j1;
  var_i1 = 0u;
  var_j2 = 96ull;
  memory_fill(origin, var_j0, var_i1, var_j2);
  var_j0 = var_l4;
  var_i1 = 0u;
  i32_store(origin, (u64)(var_j0) + 259, var_i1);
  var_j0 = var_l4;
  var_i1 = 0u;
  i32_store(origin, (u64)(var_j0) + 256, var_i1);
  var_i0 = 2u;
  var_l21 = var_i0;
  var_j0 = 0ull;
  var_p1 = var_j0;
  var_j0 = 0ull;
  var_p3 = var_j0;
  goto var_B38;
  var_B40:;
  var_j0 = var_l4;
  var_i0 = i32_load8_u(origin, (u64)(var_j0) + 384u);
  if (var_i0) {goto var_B41;}
  var_j0 = var_l4;
  var_j1 = var_l4;
  var_j1 = i64_load(origin, (u64)(var_j1) + 416u);
  i64_store(origin, (u64)(var_j0) + 360, var_j1);
  var_j0 = var_l4;
  var_j1 = var_l4;
  var_j1 = i64_load(origin, (u64)(var_j1) + 424u);
  i64_store(origin, (u64)(var_j0) + 368, var_j1);
  var_j0 = var_l4;
  var_j0 = i64_load(origin, (u64)(var_j0) + 408u);
  var_l24 = var_j0;
  var_j0 = var_l4;
  var_j0 = i64_load(origin, (u64)(var_j0) + 400u);
  var_p1 = var_j0;
  var_j0 = var_l4;
  var_j0 = i64_load(origin, (u64)(var_j0) + 392u);
  var_p3 = var_j0;
  var_j0 = var_l4;
  var_i0 = i32_load8_u(origin, (u64)(var_j0) + 432u);
  var_l21 = var_i0;
  var_i0 = 0u;
  var_l19 = var_i0;
  var_j0 = var_l4;
  var_j1 = 264ull;
  var_j0 += var_j1;
  var_i1 = 0u;
  var_j2 = 96ull;
  memory_fill(origin, var_j0, var_i1, var_j2);
  var_j0 = var_l4;
  var_i1 = 0u;
  i32_store(origin, (u64)(var_j0) + 259, var_i1);
  var_j0 = var_l4;
  var_i1 = 0u;
  i32_store(origin, (u64)(var_j0) + 256, var_i1);
  var_j0 = 0ull;
  var_l25 = var_j0;
  var_j0 = 1ull;
  var_l26 = var_j0;
  var_i0 = 1u;
  var_l5 = var_i0;
  goto var_B37;
  var_B41:;
  var_j0 = 0ull;
  var_l24 = var_j0;
  var_j0 = var_l4;
  var_j1 = 0ull;
  i64_store(origin, (u64)(var_j0) + 360, var_j1);
  var_j0 = var_l4;
  var_j1 = 0ull;
  i64_store(origin, (u64)(var_j0) + 368, var_j1);
  var_j0 = var_l4;
  var_i0 = i32_load8_u(origin, (u64)(var_j0) + 488u);
  var_l21 = var_i0;
  var_j0 = var_l4;
  var_j1 = 264ull;
  var_j0 += var_j1;
  var_j1 = var_l4;
  var_j2 = 392ull;
  var_j1 += var_j2;
  var_j2 = 96ull;
  memory_copy(origin, origin, var_j0, var_j1, var_j2);
  var_j0 = var_l4;
  var_j1 = var_l4;
  var_i1 = i32_load(origin, (u64)(var_j1) + 492u);
  i32_store(origin, (u64)(var_j0) + 259, var_i1);
  var_j0 = var_l4;
  var_j1 = var_l4;
  var_i1 = i32_load(origin, (u64)(var_j1) + 489u);
  i32_store(origin, (u64)(var_j0) + 256, var_i1);
  var_j0 = 1ull;
  var_l25 = var_j0;
  var_i0 = 0u;
  var_l5 = var_i0;
  var_j0 = 0ull;
  var_p1 = var_j0;
  var_j0 = 0ull;
  var_p3 = var_j0;
  var_i0 = var_l21;
  var_l19 = var_i0;
  var_j0 = 0ull;
  var_l26 = var_j0;
  goto var_B37;
  var_B38:;
  var_i0 = 0u;
  var_l5 = var_i0;
  var_j0 = 0ull;
  var_l26 = var_j0;
  var_j0 = 0ull;
  var_l25 = var_j0;
  var_B37:;
  var_j0 = var_l4;
  var_j1 = var_l4;
  var_j1 = i64_load(origin, (u64)(var_j1) + 368u);
  i64_store(origin, (u64)(var_j0) + 248, var_j1);
  var_j0 = var_l4;
  var_j1 = var_l4;
  var_j1 = i64_load(origin, (u64)(var_j1) + 360u);
  i64_store(origin, (u64)(var_j0) + 240, var_j1);
  var_j0 = var_l4;
  var_j1 = 144ull;
  var_j0 += var_j1;
  var_j1 = var_l4;
  var_j2 = 264ull;
  var_j1 += var_j2;
  var_j2 = 96ull;
  memory_copy(origin, origin, var_j0, var_j1, var_j2);
  var_j0 = var_l4;
  var_j1 = var_l4;
  var_i1 = i32_load(origin, (u64)(var_j1) + 259u);
  i32_store(origin, (u64)(var_j0) + 139, var_i1);
  var_j0 = var_l4;
  var_j1 = var_l4;
  var_i1 = i32_load(origin, (u64)(var_j1) + 256u);
  i32_store(origin, (u64)(var_j0) + 136, var_i1);
  var_i0 = var_l15;
  switch (var_i0) {
    case 0: goto var_B49;
    case 1: goto var_B52;
    case 2: goto var_B51;
    default: goto var_B49;
  }
  var_B52:;
  var_i0 = var_l5;
  var_i0 = !(var_i0);
  if (var_i0) {goto var_B48;}
  var_i0 = var_l20;
  switch (var_i0) {
    case 0: goto var_B58;
    case 1: goto var_B57;
    case 2: goto var_B56;
    case 3: goto var_B55;
    default: goto var_B58;
  }
  var_B58:;
  var_i0 = 0u;
  var_l15 = var_i0;
  var_j0 = var_p3;
  var_j1 = 1ull;
  var_i0 = var_j0 > var_j1;
  if (var_i0) {goto var_B45;}
  var_i0 = 0u;
  var_l5 = var_i0;
  var_j0 = var_p3;
  var_i0 = (u32)(var_j0);
  switch (var_i0) {
    case 0: goto var_B53;
    case 1: goto var_B59;
    default: goto var_B53;
  }
  var_B59:;
  var_i0 = 1u;
  var_l5 = var_i0;
  goto var_B53;
  var_B57:;
  var_j0 = var_p3;
  var_i0 = !(var_j0);
  var_i0 = !(var_i0);
  if (var_i0) {goto var_B60;}
  var_i0 = 2u;
  var_l5 = var_i0;
  goto var_B54;
  var_B60:;
  var_j0 = var_p3;
  var_j1 = 128ull;
  var_i0 = var_j0 > var_j1;
  if (var_i0) {goto var_B45;}
  var_j0 = var_p3;
  var_j1 = 1ull;
  var_j0 >>= (var_j1 & 63);
  var_i0 = (u32)(var_j0);
  var_j1 = var_p3;
  var_j2 = 1ull;
  var_j1 &= var_j2;
  var_i1 = !(var_j1);
  var_l5 = var_i1;
  var_i0 -= var_i1;
  var_l15 = var_i0;
  var_i0 = 4u;
  var_i1 = 3u;
  var_i2 = var_l5;
  var_i0 = var_i2 ? var_i0 : var_i1;
  var_l5 = var_i0;
  goto var_B53;
  var_B56:;
  var_i0 = 0u;
  var_l15 = var_i0;
  var_j0 = var_p3;
  var_j1 = 1ull;
  var_i0 = var_j0 > var_j1;
  if (var_i0) {goto var_B45;}
  var_i0 = 5u;
  var_l5 = var_i0;
  var_j0 = var_p3;
  var_i0 = (u32)(var_j0);
  switch (var_i0) {
    case 0: goto var_B53;
    case 1: goto var_B61;
    default: goto var_B53;
  }
  var_B61:;
  var_i0 = 6u;
  var_l5 = var_i0;
  goto var_B53;
  var_B55:;
  var_j0 = var_p3;
  var_j1 = 3ull;
  var_i0 = var_j0 >= var_j1;
  if (var_i0) {goto var_B45;}
  var_i0 = 395271u;
  var_j1 = var_p3;
  var_i1 = (u32)(var_j1);
  var_i2 = 3u;
  var_i1 <<= (var_i2 & 31);
  var_i2 = 16777208u;
  var_i1 &= var_i2;
  var_i0 >>= (var_i1 & 31);
  var_l5 = var_i0;
  var_B54:;
  var_i0 = 0u;
  var_l15 = var_i0;
  var_B53:;
  var_i0 = var_l5;
  var_i1 = 255u;
  var_i0 &= var_i1;
  var_i1 = var_l14;
  var_i0 = var_i0 != var_i1;
  if (var_i0) {goto var_B46;}
  var_i0 = 1u;
  var_i1 = var_l14;
  var_i0 <<= (var_i1 & 31);
  var_i1 = 487u;
  var_i0 &= var_i1;
  if (var_i0) {goto var_B62;}
  var_i0 = 3u;
  var_l5 = var_i0;
  var_i0 = var_l14;
  var_i1 = 3u;
  var_i0 = var_i0 == var_i1;
  if (var_i0) {goto var_B63;}
  var_i0 = var_l15;
  var_i1 = 255u;
  var_i0 &= var_i1;
  var_i1 = var_l13;
  var_i2 = 255u;
  var_i1 &= var_i2;
  var_i0 = var_i0 == var_i1;
  if (var_i0) {goto var_B62;}
  var_i0 = 4u;
  var_l5 = var_i0;
  goto var_B46;
  var_B63:;
  var_i0 = var_l15;
  var_i1 = 255u;
  var_i0 &= var_i1;
  var_i1 = var_l13;
  var_i2 = 255u;
  var_i1 &= var_i2;
  var_i0 = var_i0 != var_i1;
  if (var_i0) {goto var_B46;}
  var_B62:;
  var_i0 = var_l12;
  var_i1 = 255u;
  var_i0 &= var_i1;
  var_i1 = 1u;
  var_i0 = var_i0 != var_i1;
  if (var_i0) {goto var_B64;}
  var_j0 = var_p1;
  var_j1 = var_l11;
  var_i0 = var_j0 == var_j1;
  if (var_i0) {goto var_B64;}
  var_j0 = var_l4;
  var_i1 = 2u;
  i32_store8(origin, (u64)(var_j0) + 128, var_i1);
  var_j0 = var_l4;
  var_j1 = 1ull;
  i64_store(origin, (u64)(var_j0) + 120, var_j1);
  var_i0 = 0u;
  var_l13 = var_i0;
  var_j0 = var_p1;
  var_p2 = var_j0;
  var_i0 = 0u;
  var_l20 = var_i0;
  goto var_B47;
  var_B64:;
  var_i0 = var_l10;
  var_i1 = 255u;
  var_i0 &= var_i1;
  var_i1 = 1u;
  var_i0 = var_i0 != var_i1;
  if (var_i0) {goto var_B65;}
  var_j0 = var_l24;
  var_j1 = var_l8;
  var_i0 = var_j0 == var_j1;
  if (var_i0) {goto var_B65;}
  var_j0 = var_l4;
  var_i1 = 3u;
  i32_store8(origin, (u64)(var_j0) + 128, var_i1);
  var_j0 = var_l4;
  var_j1 = 1ull;
  i64_store(origin, (u64)(var_j0) + 120, var_j1);
  var_i0 = 0u;
  var_l20 = var_i0;
  var_j0 = var_l8;
  var_l11 = var_j0;
  var_j0 = var_l24;
  var_p2 = var_j0;
  var_i0 = 0u;
  var_l13 = var_i0;
  goto var_B47;
  var_B65:;
  var_i0 = 0u;
  var_l5 = var_i0;
  var_j0 = var_l4;
  var_i1 = 4u;
  var_i2 = 0u;
  var_i3 = var_l7;
  var_i4 = 255u;
  var_i3 &= var_i4;
  var_i4 = 1u;
  var_i3 = var_i3 == var_i4;
  var_j4 = var_p1;
  var_j5 = var_l24;
  var_i4 = var_j4 != var_j5;
  var_l16 = var_i4;
  var_i5 = var_l6;
  var_i4 ^= var_i5;
  var_i3 &= var_i4;
  var_l15 = var_i3;
  var_i1 = var_i3 ? var_i1 : var_i2;
  i32_store8(origin, (u64)(var_j0) + 128, var_i1);
  var_j0 = var_l4;
  var_i1 = var_l15;
  var_j1 = (u64)(var_i1);
  i64_store(origin, (u64)(var_j0) + 120, var_j1);
  var_i0 = var_l15;
  var_i1 = var_l16;
  var_i0 &= var_i1;
  var_l16 = var_i0;
  var_j0 = 0ull;
  var_p2 = var_j0;
  var_j0 = 0ull;
  var_l11 = var_j0;
  goto var_B50;
  var_B51:;
  var_i0 = 1u;
  var_l15 = var_i0;
  var_i0 = var_l12;
  var_i1 = 255u;
  var_i0 &= var_i1;
  var_i1 = 1u;
  var_i0 = var_i0 != var_i1;
  if (var_i0) {goto var_B71;}
  var_j0 = var_l11;
  var_j1 = var_p2;
  var_i0 = var_j0 > var_j1;
  if (var_i0) {goto var_B72;}
  var_i0 = 0u;
  var_l16 = var_i0;
  var_i0 = 5u;
  var_l17 = var_i0;
  var_j0 = 1ull;
  var_l8 = var_j0;
  var_i0 = 0u;
  var_l5 = var_i0;
  goto var_B66;
  var_B72:;
  var_i0 = 0u;
  var_l15 = var_i0;
  var_j0 = 0ull;
  var_l8 = var_j0;
  var_i0 = var_l10;
  var_i1 = 255u;
  var_i0 &= var_i1;
  var_i1 = 1u;
  var_i0 = var_i0 != var_i1;
  if (var_i0) {goto var_B70;}
  var_i0 = 0u;
  var_l17 = var_i0;
  var_i0 = 0u;
  var_l16 = var_i0;
  var_i0 = 0u;
  var_l5 = var_i0;
  var_j0 = 0ull;
  var_p2 = var_j0;
  var_j0 = 0ull;
  var_l11 = var_j0;
  var_i0 = var_l21;
  var_i1 = 255u;
  var_i0 &= var_i1;
  var_i1 = var_l9;
  var_i2 = 255u;
  var_i1 &= var_i2;
  var_i0 = var_i0 != var_i1;
  if (var_i0) {goto var_B68;}
  goto var_B66;
  var_B71:;
  var_i0 = var_l10;
  var_i1 = 255u;
  var_i0 &= var_i1;
  var_i1 = 1u;
  var_i0 = var_i0 != var_i1;
  var_l5 = var_i0;
  var_i0 = 0u;
  var_l15 = var_i0;
  var_j0 = 0ull;
  var_l8 = var_j0;
  var_i0 = var_l5;
  var_i0 = !(var_i0);
  if (var_i0) {goto var_B69;}
  var_B70:;
  var_i0 = 0u;
  var_l17 = var_i0;
  var_i0 = 0u;
  var_l16 = var_i0;
  var_i0 = 0u;
  var_l5 = var_i0;
  var_j0 = 0ull;
  var_p2 = var_j0;
  goto var_B67;
  var_B69:;
  var_i0 = 0u;
  var_l17 = var_i0;
  var_i0 = 0u;
  var_l16 = var_i0;
  var_i0 = 0u;
  var_l5 = var_i0;
  var_j0 = 0ull;
  var_p2 = var_j0;
  var_j0 = 0ull;
  var_l11 = var_j0;
  var_i0 = var_l21;
  var_i1 = 255u;
  var_i0 &= var_i1;
  var_i1 = var_l9;
  var_i2 = 255u;
  var_i1 &= var_i2;
  var_i0 = var_i0 == var_i1;
  if (var_i0) {goto var_B66;}
  var_B68:;
  var_j0 = 0ull;
  var_p2 = var_j0;
  var_i0 = 6u;
  var_l17 = var_i0;
  var_j0 = 1ull;
  var_l8 = var_j0;
  var_i0 = 1u;
  var_l15 = var_i0;
  var_i0 = var_l21;
  var_l16 = var_i0;
  var_i0 = var_l9;
  var_l5 = var_i0;
  var_B67:;
  var_j0 = 0ull;
  var_l11 = var_j0;
  var_B66:;
  var_j0 = var_l4;
  var_i1 = var_l17;
  i32_store8(origin, (u64)(var_j0) + 128, var_i1);
  var_j0 = var_l4;
  var_j1 = var_l8;
  i64_store(origin, (u64)(var_j0) + 120, var_j1);
  var_B50:;
  var_i0 = 0u;
  var_l13 = var_i0;
  var_i0 = 0u;
  var_l20 = var_i0;
  var_i0 = 0u;
  var_l17 = var_i0;
  var_i0 = var_l15;
  if (var_i0) {goto var_B43;}
  var_B49:;
  var_j0 = var_l4;
  var_j1 = var_l4;
  var_j1 = i64_load(origin, (u64)(var_j1) + 248u);
  i64_store(origin, (u64)(var_j0) + 112, var_j1);
  var_j0 = var_l4;
  var_j1 = var_l4;
  var_j1 = i64_load(origin, (u64)(var_j1) + 240u);
  i64_store(origin, (u64)(var_j0) + 104, var_j1);
  var_j0 = var_l4;
  var_j1 = 8ull;
  var_j0 += var_j1;
  var_j1 = var_l4;
  var_j2 = 144ull;
  var_j1 += var_j2;
  var_j2 = 96ull;
  memory_copy(origin, origin, var_j0, var_j1, var_j2);
  var_j0 = var_l4;
  var_j1 = var_l4;
  var_i1 = i32_load(origin, (u64)(var_j1) + 139u);
  i32_store(origin, (u64)(var_j0) + 3, var_i1);
  var_j0 = var_l4;
  var_j1 = var_l4;
  var_i1 = i32_load(origin, (u64)(var_j1) + 136u);
  i32_store(origin, (u64)(var_j0), var_i1);
  var_i0 = var_l21;
  var_j0 = (u64)(var_i0);
  var_j1 = 255ull;
  var_j0 &= var_j1;
  var_l11 = var_j0;
  var_i0 = 0u;
  var_l5 = var_i0;
  var_j0 = 0ull;
  var_l8 = var_j0;
  var_j0 = var_l22;
  var_p2 = var_j0;
  var_i0 = var_l23;
  var_l16 = var_i0;
  var_i0 = 0u;
  var_l17 = var_i0;
  var_i0 = 0u;
  var_l20 = var_i0;
  var_i0 = 0u;
  var_l13 = var_i0;
  goto var_B42;
  var_B48:;
  var_j0 = var_l4;
  var_i1 = 1u;
  i32_store8(origin, (u64)(var_j0) + 128, var_i1);
  var_j0 = var_l4;
  var_j1 = 1ull;
  i64_store(origin, (u64)(var_j0) + 120, var_j1);
  var_i0 = 0u;
  var_l17 = var_i0;
  var_j0 = 0ull;
  var_l11 = var_j0;
  var_j0 = 0ull;
  var_p2 = var_j0;
  var_i0 = var_l14;
  var_l20 = var_i0;
  var_i0 = 0u;
  var_l5 = var_i0;
  var_i0 = 0u;
  var_l16 = var_i0;
  goto var_B43;
  var_B47:;
  var_i0 = 0u;
  var_l17 = var_i0;
  var_i0 = var_l15;
  var_l5 = var_i0;
  var_i0 = var_l14;
  var_l16 = var_i0;
  goto var_B43;
  var_B46:;
  var_i0 = 1u;
  var_l16 = var_i0;
  var_i0 = var_l15;
  var_l17 = var_i0;
  goto var_B44;
  var_B45:;
  var_i0 = 0u;
  var_l16 = var_i0;
  var_i0 = 0u;
  var_l5 = var_i0;
  var_i0 = 0u;
  var_l17 = var_i0;
  var_B44:;
  var_j0 = var_l4;
  var_i1 = 1u;
  i32_store8(origin, (u64)(var_j0) + 128, var_i1);
  var_j0 = var_l4;
  var_j1 = 1ull;
  i64_store(origin, (u64)(var_j0) + 120, var_j1);
  var_j0 = 0ull;
  var_l11 = var_j0;
  var_j0 = 0ull;
  var_p2 = var_j0;
  var_i0 = var_l14;
  var_l20 = var_i0;
  var_B43:;
  var_i0 = 0u;
  var_l19 = var_i0;
  var_j0 = 0ull;
  var_l26 = var_j0;
  var_j0 = 1ull;
  var_l8 = var_j0;
  var_j0 = var_l4;
  var_i0 = i32_load8_u(origin, (u64)(var_j0) + 128u);
  var_l18 = var_i0;
  var_j0 = 0ull;
  var_p3 = var_j0;
  var_j0 = 0ull;
  var_p1 = var_j0;
  var_j0 = 0ull;
  var_l24 = var_j0;
  var_j0 = 0ull;
  var_l25 = var_j0;
  var_B42:;
  var_j0 = var_p0;
  var_j1 = var_l8;
  i64_store(origin, (u64)(var_j0), var_j1);
  var_j0 = var_p0;
  var_j1 = 56ull;
  var_j0 += var_j1;
  var_j1 = var_l24;
  i64_store(origin, (u64)(var_j0), var_j1);
  var_j0 = var_p0;
  var_j1 = 48ull;
  var_j0 += var_j1;
  var_j1 = var_p1;
  i64_store(origin, (u64)(var_j0), var_j1);
  var_j0 = var_p0;
  var_j1 = 40ull;
  var_j0 += var_j1;
  var_j1 = var_p3;
  i64_store(origin, (u64)(var_j0), var_j1);
  var_j0 = var_p0;
  var_j1 = 32ull;
  var_j0 += var_j1;
  var_j1 = var_l26;
  i64_store(origin, (u64)(var_j0), var_j1);
  var_j0 = var_p0;
  var_j1 = 24ull;
  var_j0 += var_j1;
  var_j1 = var_l11;
  i64_store(origin, (u64)(var_j0), var_j1);
  var_j0 = var_p0;
  var_j1 = 16ull;
  var_j0 += var_j1;
  var_j1 = var_p2;
  i64_store(origin, (u64)(var_j0), var_j1);
  var_j0 = var_p0;
  var_j1 = 14ull;
  var_j0 += var_j1;
  var_i1 = 0u;
  i32_store16(origin, (u64)(var_j0), var_i1);
  var_j0 = var_p0;
  var_j1 = 13ull;
  var_j0 += var_j1;
  var_i1 = var_l13;
  i32_store8(origin, (u64)(var_j0), var_i1);
  var_j0 = var_p0;
  var_j1 = 12ull;
  var_j0 += var_j1;
  var_i1 = var_l20;
  i32_store8(origin, (u64)(var_j0), var_i1);
  var_j0 = var_p0;
  var_j1 = 11ull;
  var_j0 += var_j1;
  var_i1 = var_l17;
  i32_store8(origin, (u64)(var_j0), var_i1);
  var_j0 = var_p0;
  var_j1 = 10ull;
  var_j0 += var_j1;
  var_i1 = var_l5;
  i32_store8(origin, (u64)(var_j0), var_i1);
  var_j0 = var_p0;
  var_j1 = 9ull;
  var_j0 += var_j1;
  var_i1 = var_l16;
  i32_store8(origin, (u64)(var_j0), var_i1);
  var_j0 = var_p0;
  var_j1 = 8ull;
  var_j0 += var_j1;
  var_i1 = var_l18;
  i32_store8(origin, (u64)(var_j0), var_i1);
  var_j0 = var_p0;
  var_j1 = 64ull;
  var_j0 += var_j1;
  var_j1 = var_l4;
  var_j1 = i64_load(origin, (u64)(var_j1) + 104u);
  i64_store(origin, (u64)(var_j0), var_j1);
  var_j0 = var_p0;
  var_j1 = 72ull;
  var_j0 += var_j1;
  var_j1 = var_l4;
  var_j1 = i64_load(origin, (u64)(var_j1) + 112u);
  i64_store(origin, (u64)(var_j0), var_j1);
  var_j0 = var_p0;
  var_j1 = 80ull;
  var_j0 += var_j1;
  var_j1 = var_l25;
  i64_store(origin, (u64)(var_j0), var_j1);
  var_j0 = var_p0;
  var_j1 = 88ull;
  var_j0 += var_j1;
  var_j1 = var_l4;
  var_j2 = 8ull;
  var_j1 += var_j2;
  var_j2 = 96ull;
  memory_copy(origin, origin, var_j0, var_j1, var_j2);
  var_j0 = var_p0;
  var_j1 = 184ull;
  var_j0 += var_j1;
  var_i1 = var_l19;
  i32_store8(origin, (u64)(var_j0), var_i1);
  var_j0 = var_p0;
  var_j1 = 185ull;
  var_j0 += var_j1;
  var_j1 = var_l4;
  var_i1 = i32_load(origin, (u64)(var_j1));
  i32_store(origin, (u64)(var_j0), var_i1);
  var_j0 = var_p0;
  var_j1 = 188ull;
  var_j0 += var_j1;
  var_j1 = var_l4;
  var_i1 = i32_load(origin, (u64)(var_j1) + 3u);
  i32_store(origin, (u64)(var_j0), var_i1);
  goto var_B0;
  var_B3:;
  var_i0 = 3u;
  var_l18 = var_i0;
  var_B2:;
  var_i0 = 0u;
  var_l19 = var_i0;
  var_B1:;
  var_j0 = var_p0;
  var_j1 = 1ull;
  i64_store(origin, (u64)(var_j0), var_j1);
  var_j0 = var_p0;
  var_j1 = 10ull;
  var_j0 += var_j1;
  var_i1 = var_l19;
  i32_store8(origin, (u64)(var_j0), var_i1);
  var_j0 = var_p0;
  var_j1 = 9ull;
  var_j0 += var_j1;
  var_i1 = var_l18;
  i32_store8(origin, (u64)(var_j0), var_i1);
  var_j0 = var_p0;
  var_j1 = 8ull;
  var_j0 += var_j1;
  var_i1 = 0u;
  i32_store8(origin, (u64)(var_j0), var_i1);
  var_j0 = var_p0;
  var_j1 = 11ull;
  var_j0 += var_j1;
  var_i1 = 0u;
  var_j2 = 181ull;
  memory_fill(origin, var_j0, var_i1, var_j2);
  var_B0:;
  var_j0 = var_l4;
  var_j1 = 496ull;
  var_j0 += var_j1;
  instance->w2c_0x5F_stack_pointer = var_j0;
  FUNC_EPILOGUE;
}

static void w2c_lockreplay_lk_locks0x3A0x3Amachine0x3A0x3AMachine0x2BWordArray0x3A0x3Aeffect(w2c_lockreplay* instance, u64 var_p0, u64 var_p1, u32 var_p2) {
  u32 var_l7 = 0, var_l10 = 0, var_l11 = 0, var_l12 = 0, var_l13 = 0;
  u64 var_l3 = 0, var_l4 = 0, var_l5 = 0, var_l6 = 0, var_l8 = 0, var_l9 = 0, var_l14 = 0, var_l15 = 0,
      var_l16 = 0, var_l17 = 0, var_l18 = 0, var_l19 = 0;
  FUNC_PROLOGUE;
  u32 var_i0, var_i1, var_i2, var_i3;
  u64 var_j0, var_j1, var_j2, var_j3;
  var_j0 = instance->w2c_0x5F_stack_pointer;
  var_j1 = 32ull;
  var_j0 -= var_j1;
  var_l3 = var_j0;
  var_j1 = 16ull;
  var_i0 = (u64)((s64)var_j0 < (s64)var_j1);
  if (var_i0) {goto var_B10;}
  var_j0 = var_p1;
  var_j1 = 8ull;
  var_j0 += var_j1;
  var_l4 = var_j0;
  var_j0 = var_p1;
  var_i1 = var_p2;
  var_j1 = (u64)(var_i1);
  var_j2 = 255ull;
  var_j1 &= var_j2;
  var_l5 = var_j1;
  var_j2 = 4ull;
  var_j1 <<= (var_j2 & 63);
  var_j0 += var_j1;
  var_l6 = var_j0;
  var_j1 = 1056ull;
  var_j0 += var_j1;
  var_i0 = i32_load8_u(origin, (u64)(var_j0));
  var_p2 = var_i0;
  var_j0 = var_p1;
  var_i0 = i32_load8_u(origin, (u64)(var_j0));
  var_l7 = var_i0;
  var_j0 = (u64)(var_i0);
  var_j1 = 255ull;
  var_j0 &= var_j1;
  var_i0 = (u32)(var_j0);
  switch (var_i0) {
    case 0: goto var_B13;
    case 1: goto var_B12;
    case 2: goto var_B11;
    case 3: goto var_B11;
    default: goto var_B13;
  }
  var_B13:;
  var_i0 = var_p2;
  var_i1 = 4294967290u;
  var_i0 += var_i1;
  var_i1 = 18u;
  var_i0 = var_i0 < var_i1;
  if (var_i0) {goto var_B5;}
  var_j0 = var_l6;
  var_j1 = 1064ull;
  var_j0 += var_j1;
  var_j0 = i64_load(origin, (u64)(var_j0));
  var_l8 = var_j0;
  var_j0 = var_p1;
  var_j1 = 1048ull;
  var_j0 += var_j1;
  var_i0 = i32_load8_u(origin, (u64)(var_j0));
  var_l7 = var_i0;
  var_i0 = var_p2;
  switch (var_i0) {
    case 0: goto var_B5;
    case 1: goto var_B15;
    case 2: goto var_B14;
    case 3: goto var_B5;
    case 4: goto var_B14;
    case 5: goto var_B16;
    default: goto var_B5;
  }
  var_B16:;
  var_j0 = 1ull;
  var_l9 = var_j0;
  var_j0 = 2ull;
  var_i1 = var_l7;
  var_i2 = 4294967295u;
  var_i1 += var_i2;
  var_j1 = (u64)(var_i1);
  var_j2 = 255ull;
  var_j1 &= var_j2;
  var_j0 <<= (var_j1 & 63);
  var_j1 = 18446744073709551615ull;
  var_j0 += var_j1;
  var_j1 = var_l8;
  var_j2 = 1ull;
  var_j1 += var_j2;
  var_j0 &= var_j1;
  var_l6 = var_j0;
  var_j0 = var_p1;
  var_j1 = 16ull;
  var_j0 += var_j1;
  var_j0 = i64_load(origin, (u64)(var_j0));
  var_l4 = var_j0;
  var_i0 = 4u;
  var_l7 = var_i0;
  var_j0 = 0ull;
  var_p1 = var_j0;
  var_i0 = 0u;
  var_l10 = var_i0;
  var_i0 = 0u;
  var_l11 = var_i0;
  var_j0 = 0ull;
  var_l5 = var_j0;
  goto var_B2;
  var_B15:;
  var_j0 = 1ull;
  var_l5 = var_j0;
  var_j0 = var_l4;
  var_j0 = i64_load(origin, (u64)(var_j0));
  var_l4 = var_j0;
  var_j1 = 1ull;
  var_j0 += var_j1;
  var_j1 = 2ull;
  var_i2 = var_l7;
  var_i3 = 4294967295u;
  var_i2 += var_i3;
  var_j2 = (u64)(var_i2);
  var_j3 = 255ull;
  var_j2 &= var_j3;
  var_j1 <<= (var_j2 & 63);
  var_j2 = 18446744073709551615ull;
  var_j1 += var_j2;
  var_j0 &= var_j1;
  var_l6 = var_j0;
  var_j0 = var_l4;
  var_j1 = 16ull;
  var_j0 >>= (var_j1 & 63);
  var_p1 = var_j0;
  var_j0 = var_l4;
  var_j1 = 8ull;
  var_j0 >>= (var_j1 & 63);
  var_i0 = (u32)(var_j0);
  var_l10 = var_i0;
  var_j0 = var_l4;
  var_i0 = (u32)(var_j0);
  var_l11 = var_i0;
  var_i0 = 1u;
  var_l7 = var_i0;
  var_j0 = 0ull;
  var_l9 = var_j0;
  goto var_B2;
  var_B14:;
  var_j0 = var_p1;
  var_j1 = 16ull;
  var_j0 += var_j1;
  var_j0 = i64_load(origin, (u64)(var_j0));
  var_l6 = var_j0;
  var_j1 = 16ull;
  var_j0 >>= (var_j1 & 63);
  var_p1 = var_j0;
  var_j0 = var_l6;
  var_i0 = (u32)(var_j0);
  var_l11 = var_i0;
  var_j0 = var_l6;
  var_j1 = 8ull;
  var_j0 >>= (var_j1 & 63);
  var_i0 = (u32)(var_j0);
  var_l10 = var_i0;
  var_i0 = 1u;
  var_l7 = var_i0;
  var_j0 = 1ull;
  var_l5 = var_j0;
  var_j0 = 1ull;
  var_l9 = var_j0;
  var_j0 = var_l6;
  var_l4 = var_j0;
  var_i0 = var_p2;
  var_i1 = 4294967294u;
  var_i0 += var_i1;
  switch (var_i0) {
    case 0: goto var_B18;
    case 1: goto var_B17;
    case 2: goto var_B2;
    default: goto var_B18;
  }
  var_B18:;
  var_j0 = var_l6;
  var_j1 = var_l8;
  var_i0 = var_j0 != var_j1;
  if (var_i0) {goto var_B17;}
  var_i0 = 3u;
  var_l7 = var_i0;
  var_j0 = var_l8;
  var_l6 = var_j0;
  var_j0 = 1ull;
  var_l9 = var_j0;
  var_j0 = var_l8;
  var_l4 = var_j0;
  goto var_B2;
  var_B17:;
  var_i0 = 2u;
  var_l7 = var_i0;
  var_j0 = 1ull;
  var_l9 = var_j0;
  goto var_B3;
  var_B12:;
  var_j0 = var_l6;
  var_j1 = 1057ull;
  var_j0 += var_j1;
  var_j0 = i64_load8_u(origin, (u64)(var_j0));
  var_p1 = var_j0;
  var_j0 = 1ull;
  var_l6 = var_j0;
  var_j0 = var_l5;
  var_j1 = 1ull;
  var_j0 += var_j1;
  var_l8 = var_j0;
  var_i0 = var_p2;
  switch (var_i0) {
    case 0: goto var_B5;
    case 1: goto var_B5;
    case 2: goto var_B5;
    case 3: goto var_B5;
    case 4: goto var_B5;
    case 5: goto var_B5;
    case 6: goto var_B24;
    case 7: goto var_B9;
    case 8: goto var_B30;
    case 9: goto var_B29;
    case 10: goto var_B26;
    case 11: goto var_B5;
    case 12: goto var_B28;
    case 13: goto var_B20;
    case 14: goto var_B28;
    case 15: goto var_B27;
    case 16: goto var_B5;
    case 17: goto var_B5;
    case 18: goto var_B5;
    case 19: goto var_B5;
    case 20: goto var_B5;
    case 21: goto var_B5;
    case 22: goto var_B5;
    case 23: goto var_B5;
    default: goto var_B5;
  }
  var_B30:;
  var_j0 = var_l5;
  var_j1 = 1ull;
  var_j0 <<= (var_j1 & 63);
  var_j1 = 2ull;
  var_j0 += var_j1;
  var_l9 = var_j0;
  goto var_B22;
  var_B29:;
  var_j0 = var_p1;
  var_j1 = 1ull;
  var_j0 <<= (var_j1 & 63);
  var_j1 = 1ull;
  var_j0 |= var_j1;
  var_l9 = var_j0;
  var_j0 = var_l8;
  var_l6 = var_j0;
  goto var_B22;
  var_B28:;
  var_j0 = var_l5;
  var_j1 = 1ull;
  var_j0 <<= (var_j1 & 63);
  var_j1 = 1ull;
  var_j0 |= var_j1;
  var_l9 = var_j0;
  goto var_B25;
  var_B27:;
  var_j0 = var_p1;
  var_j1 = 1ull;
  var_j0 <<= (var_j1 & 63);
  var_j1 = 2ull;
  var_j0 += var_j1;
  var_l9 = var_j0;
  goto var_B23;
  var_B26:;
  var_j0 = var_l5;
  var_j1 = 1ull;
  var_j0 <<= (var_j1 & 63);
  var_j1 = 2ull;
  var_j0 += var_j1;
  var_l9 = var_j0;
  var_B25:;
  var_j0 = 1ull;
  var_l5 = var_j0;
  var_i0 = 1u;
  var_l12 = var_i0;
  var_i0 = 0u;
  var_l13 = var_i0;
  var_j0 = var_l4;
  var_j1 = var_l9;
  var_j2 = 3ull;
  var_j1 <<= (var_j2 & 63);
  var_j0 += var_j1;
  var_j0 = i64_load(origin, (u64)(var_j0));
  var_l4 = var_j0;
  var_l6 = var_j0;
  var_j0 = var_l4;
  var_l8 = var_j0;
  goto var_B21;
  var_B24:;
  var_j0 = var_l5;
  var_j1 = 1ull;
  var_j0 <<= (var_j1 & 63);
  var_j1 = 1ull;
  var_j0 |= var_j1;
  var_l9 = var_j0;
  var_B23:;
  var_j0 = 0ull;
  var_l6 = var_j0;
  var_B22:;
  var_j0 = var_l4;
  var_j1 = var_l9;
  var_j2 = 3ull;
  var_j1 <<= (var_j2 & 63);
  var_j0 += var_j1;
  var_j0 = i64_load(origin, (u64)(var_j0));
  var_l4 = var_j0;
  var_j0 = 0ull;
  var_l5 = var_j0;
  var_i0 = 0u;
  var_l12 = var_i0;
  var_i0 = 1u;
  var_l13 = var_i0;
  var_j0 = 0ull;
  var_l8 = var_j0;
  var_B21:;
  var_j0 = var_l8;
  var_j1 = 16ull;
  var_j0 >>= (var_j1 & 63);
  var_p1 = var_j0;
  var_j0 = var_l8;
  var_j1 = 8ull;
  var_j0 >>= (var_j1 & 63);
  var_i0 = (u32)(var_j0);
  var_l10 = var_i0;
  var_j0 = var_l8;
  var_i0 = (u32)(var_j0);
  var_l11 = var_i0;
  var_i0 = 1u;
  var_l7 = var_i0;
  var_i0 = var_p2;
  var_i1 = 4294967290u;
  var_i0 += var_i1;
  switch (var_i0) {
    case 0: goto var_B2;
    case 1: goto var_B35;
    case 2: goto var_B2;
    case 3: goto var_B2;
    case 4: goto var_B34;
    case 5: goto var_B31;
    case 6: goto var_B33;
    case 7: goto var_B31;
    case 8: goto var_B32;
    case 9: goto var_B19;
    default: goto var_B2;
  }
  var_B35:;
  var_i0 = var_l12;
  var_i0 = !(var_i0);
  if (var_i0) {goto var_B31;}
  goto var_B6;
  var_B34:;
  var_i0 = var_l12;
  var_j1 = var_l8;
  var_i1 = !(var_j1);
  var_i0 &= var_i1;
  var_i0 = !(var_i0);
  if (var_i0) {goto var_B31;}
  var_i0 = 3u;
  var_l7 = var_i0;
  var_i0 = 0u;
  var_l11 = var_i0;
  goto var_B2;
  var_B33:;
  var_i0 = var_l12;
  if (var_i0) {goto var_B2;}
  goto var_B31;
  var_B32:;
  var_i0 = var_l13;
  var_j1 = var_l8;
  var_i1 = !(var_j1);
  var_i0 |= var_i1;
  var_i0 = !(var_i0);
  if (var_i0) {goto var_B2;}
  var_B31:;
  var_i0 = 2u;
  var_l7 = var_i0;
  goto var_B2;
  var_B20:;
  var_j0 = 0ull;
  var_p1 = var_j0;
  var_j0 = 258ull;
  var_l5 = var_j0;
  var_i0 = 0u;
  var_l10 = var_i0;
  var_j0 = var_l4;
  var_j0 = i64_load(origin, (u64)(var_j0));
  var_l6 = var_j0;
  var_j1 = var_l8;
  var_i0 = var_j0 != var_j1;
  if (var_i0) {goto var_B8;}
  var_i0 = 0u;
  var_l11 = var_i0;
  var_j0 = 0ull;
  var_l6 = var_j0;
  var_j0 = 0ull;
  var_l9 = var_j0;
  var_j0 = var_l8;
  var_l4 = var_j0;
  var_B19:;
  var_i0 = 4u;
  var_l7 = var_i0;
  goto var_B2;
  var_B11:;
  var_i0 = var_p2;
  var_i1 = 4294967295u;
  var_i0 += var_i1;
  var_i1 = 16u;
  var_i0 = var_i0 < var_i1;
  if (var_i0) {goto var_B36;}
  var_i0 = 1u;
  var_i1 = var_p2;
  var_i0 <<= (var_i1 & 31);
  var_i1 = 14417920u;
  var_i0 &= var_i1;
  var_i0 = !(var_i0);
  if (var_i0) {goto var_B7;}
  var_B36:;
  var_j0 = var_p1;
  var_j1 = 1048ull;
  var_j0 += var_j1;
  var_i0 = i32_load8_u(origin, (u64)(var_j0));
  var_l11 = var_i0;
  var_j0 = var_p1;
  var_j1 = 16ull;
  var_j0 += var_j1;
  var_j0 = i64_load(origin, (u64)(var_j0));
  var_l14 = var_j0;
  var_j0 = var_p1;
  var_j1 = 8ull;
  var_j0 += var_j1;
  var_j0 = i64_load(origin, (u64)(var_j0));
  var_l8 = var_j0;
  var_i0 = var_l7;
  var_i1 = 255u;
  var_i0 &= var_i1;
  var_i1 = 3u;
  var_i0 = var_i0 != var_i1;
  if (var_i0) {goto var_B47;}
  var_j0 = var_p1;
  var_j1 = 24ull;
  var_j0 += var_j1;
  var_j0 = i64_load(origin, (u64)(var_j0));
  var_l6 = var_j0;
  var_i0 = 4u;
  var_l7 = var_i0;
  var_j0 = 2ull;
  var_l15 = var_j0;
  var_j0 = 0ull;
  var_l5 = var_j0;
  var_j0 = 0ull;
  var_l16 = var_j0;
  var_j0 = 0ull;
  var_l17 = var_j0;
  var_j0 = 0ull;
  var_p1 = var_j0;
  var_i0 = var_p2;
  var_i1 = 4294967295u;
  var_i0 += var_i1;
  switch (var_i0) {
    case 0: goto var_B48;
    case 1: goto var_B48;
    case 2: goto var_B48;
    case 3: goto var_B48;
    case 4: goto var_B48;
    case 5: goto var_B48;
    case 6: goto var_B48;
    case 7: goto var_B48;
    case 8: goto var_B48;
    case 9: goto var_B48;
    case 10: goto var_B48;
    case 11: goto var_B48;
    case 12: goto var_B48;
    case 13: goto var_B48;
    case 14: goto var_B48;
    case 15: goto var_B53;
    case 16: goto var_B48;
    case 17: goto var_B52;
    case 18: goto var_B51;
    case 19: goto var_B49;
    case 20: goto var_B48;
    case 21: goto var_B38;
    case 22: goto var_B40;
    default: goto var_B48;
  }
  var_B53:;
  var_j0 = var_l6;
  var_j1 = 0ull;
  var_i0 = var_j0 != var_j1;
  if (var_i0) {goto var_B48;}
  var_j0 = 2ull;
  var_i1 = var_l11;
  var_i2 = 4294967295u;
  var_i1 += var_i2;
  var_j1 = (u64)(var_i1);
  var_j2 = 255ull;
  var_j1 &= var_j2;
  var_j0 <<= (var_j1 & 63);
  var_j1 = 18446744073709551615ull;
  var_j0 += var_j1;
  var_j1 = var_l8;
  var_j2 = 1ull;
  var_j1 += var_j2;
  var_j0 &= var_j1;
  var_p1 = var_j0;
  var_i0 = 3u;
  var_l12 = var_i0;
  goto var_B42;
  var_B52:;
  var_j0 = 1ull;
  var_l15 = var_j0;
  var_j0 = 2ull;
  var_i1 = var_l11;
  var_i2 = 4294967295u;
  var_i1 += var_i2;
  var_j1 = (u64)(var_i1);
  var_j2 = 255ull;
  var_j1 &= var_j2;
  var_j0 <<= (var_j1 & 63);
  var_j1 = 18446744073709551615ull;
  var_j0 += var_j1;
  var_j1 = var_l14;
  var_j2 = 1ull;
  var_j1 += var_j2;
  var_j0 &= var_j1;
  var_p1 = var_j0;
  goto var_B50;
  var_B51:;
  var_j0 = var_l6;
  var_i0 = !(var_j0);
  var_p2 = var_i0;
  var_i0 = !(var_i0);
  if (var_i0) {goto var_B48;}
  var_i0 = 3u;
  var_i1 = 1u;
  var_i2 = var_p2;
  var_i0 = var_i2 ? var_i0 : var_i1;
  var_i1 = 1u;
  var_j2 = var_l8;
  var_j3 = var_l14;
  var_i2 = var_j2 == var_j3;
  var_i0 = var_i2 ? var_i0 : var_i1;
  var_l7 = var_i0;
  var_j0 = 1ull;
  var_p1 = var_j0;
  var_B50:;
  var_j0 = 0ull;
  var_l16 = var_j0;
  var_j0 = 0ull;
  var_l17 = var_j0;
  goto var_B38;
  var_B49:;
  var_j0 = var_l8;
  var_j1 = var_l14;
  var_i0 = var_j0 != var_j1;
  if (var_i0) {goto var_B48;}
  var_i0 = 3u;
  var_l12 = var_i0;
  var_j0 = 0ull;
  var_l5 = var_j0;
  goto var_B46;
  var_B48:;
  var_i0 = 2u;
  var_l12 = var_i0;
  var_j0 = 0ull;
  var_l5 = var_j0;
  goto var_B46;
  var_B47:;
  var_i0 = 2u;
  var_l12 = var_i0;
  var_i0 = 4u;
  var_l7 = var_i0;
  var_j0 = 1ull;
  var_l15 = var_j0;
  var_j0 = 0ull;
  var_l5 = var_j0;
  var_j0 = 0ull;
  var_l16 = var_j0;
  var_j0 = 0ull;
  var_l17 = var_j0;
  var_j0 = 0ull;
  var_p1 = var_j0;
  var_j0 = 0ull;
  var_l6 = var_j0;
  var_j0 = 0ull;
  var_l9 = var_j0;
  var_i0 = var_p2;
  var_i1 = 4294967295u;
  var_i0 += var_i1;
  switch (var_i0) {
    case 0: goto var_B41;
    case 1: goto var_B41;
    case 2: goto var_B41;
    case 3: goto var_B41;
    case 4: goto var_B41;
    case 5: goto var_B41;
    case 6: goto var_B41;
    case 7: goto var_B41;
    case 8: goto var_B41;
    case 9: goto var_B41;
    case 10: goto var_B41;
    case 11: goto var_B41;
    case 12: goto var_B41;
    case 13: goto var_B41;
    case 14: goto var_B41;
    case 15: goto var_B55;
    case 16: goto var_B41;
    case 17: goto var_B43;
    case 18: goto var_B54;
    case 19: goto var_B41;
    case 20: goto var_B41;
    case 21: goto var_B38;
    case 22: goto var_B44;
    default: goto var_B41;
  }
  var_B55:;
  var_j0 = 0ull;
  var_l5 = var_j0;
  var_j0 = 0ull;
  var_l6 = var_j0;
  var_j0 = 0ull;
  var_l9 = var_j0;
  var_j0 = var_l14;
  var_j1 = 0ull;
  var_i0 = var_j0 != var_j1;
  if (var_i0) {goto var_B41;}
  var_j0 = 2ull;
  var_i1 = var_l11;
  var_i2 = 4294967295u;
  var_i1 += var_i2;
  var_j1 = (u64)(var_i1);
  var_j2 = 255ull;
  var_j1 &= var_j2;
  var_j0 <<= (var_j1 & 63);
  var_j1 = 18446744073709551615ull;
  var_j0 += var_j1;
  var_j1 = var_l8;
  var_j2 = 1ull;
  var_j1 += var_j2;
  var_j0 &= var_j1;
  var_p1 = var_j0;
  var_i0 = 3u;
  var_l12 = var_i0;
  goto var_B42;
  var_B54:;
  var_j0 = var_l14;
  var_j1 = var_l8;
  var_j0 |= var_j1;
  var_i0 = !(var_j0);
  if (var_i0) {goto var_B45;}
  var_B46:;
  var_j0 = 0ull;
  var_l6 = var_j0;
  var_j0 = 0ull;
  var_l9 = var_j0;
  goto var_B41;
  var_B45:;
  var_i0 = 3u;
  var_l7 = var_i0;
  var_j0 = 1ull;
  var_l15 = var_j0;
  var_j0 = 0ull;
  var_l16 = var_j0;
  var_j0 = 0ull;
  var_l17 = var_j0;
  var_j0 = 1ull;
  var_p1 = var_j0;
  goto var_B38;
  var_B44:;
  var_j0 = 1ull;
  var_l15 = var_j0;
  var_j0 = 2ull;
  var_i1 = var_l11;
  var_i2 = 4294967295u;
  var_i1 += var_i2;
  var_j1 = (u64)(var_i1);
  var_j2 = 255ull;
  var_j1 &= var_j2;
  var_j0 <<= (var_j1 & 63);
  var_j1 = 18446744073709551615ull;
  var_j0 += var_j1;
  var_j1 = var_l8;
  var_j2 = 1ull;
  var_j1 += var_j2;
  var_j0 &= var_j1;
  var_l6 = var_j0;
  goto var_B39;
  var_B43:;
  var_j0 = 2ull;
  var_i1 = var_l11;
  var_i2 = 4294967295u;
  var_i1 += var_i2;
  var_j1 = (u64)(var_i1);
  var_j2 = 255ull;
  var_j1 &= var_j2;
  var_j0 <<= (var_j1 & 63);
  var_j1 = 18446744073709551615ull;
  var_j0 += var_j1;
  var_p1 = var_j0;
  var_j1 = var_l8;
  var_j0 += var_j1;
  var_j1 = var_p1;
  var_j0 &= var_j1;
  var_p1 = var_j0;
  var_i0 = 4u;
  var_l12 = var_i0;
  var_B42:;
  var_j0 = var_p1;
  var_j1 = 0ull;
  var_j2 = var_l8;
  var_j3 = var_p1;
  var_i2 = var_j2 != var_j3;
  var_p2 = var_i2;
  var_j0 = var_i2 ? var_j0 : var_j1;
  var_l5 = var_j0;
  var_j0 = var_l8;
  var_j1 = 0ull;
  var_i2 = var_p2;
  var_j0 = var_i2 ? var_j0 : var_j1;
  var_l6 = var_j0;
  var_i0 = var_p2;
  var_j0 = (u64)(var_i0);
  var_l9 = var_j0;
  var_B41:;
  var_j0 = var_l3;
  var_i1 = 0u;
  i32_store16(origin, (u64)(var_j0) + 28, var_i1);
  var_j0 = var_l3;
  var_i1 = 0u;
  i32_store(origin, (u64)(var_j0) + 24, var_i1);
  var_j0 = 0ull;
  var_l8 = var_j0;
  var_j0 = 0ull;
  var_l14 = var_j0;
  var_j0 = 0ull;
  var_l18 = var_j0;
  var_j0 = 0ull;
  var_l19 = var_j0;
  goto var_B37;
  var_B40:;
  var_j0 = 2ull;
  var_l15 = var_j0;
  var_j0 = 2ull;
  var_i1 = var_l11;
  var_i2 = 4294967295u;
  var_i1 += var_i2;
  var_j1 = (u64)(var_i1);
  var_j2 = 255ull;
  var_j1 &= var_j2;
  var_j0 <<= (var_j1 & 63);
  var_j1 = 18446744073709551615ull;
  var_j0 += var_j1;
  var_j1 = var_l8;
  var_j2 = 1ull;
  var_j1 += var_j2;
  var_j0 &= var_j1;
  var_l6 = var_j0;
  var_B39:;
  var_j0 = 0ull;
  var_p1 = var_j0;
  var_j0 = var_l6;
  var_j1 = 0ull;
  var_j2 = var_l8;
  var_j3 = var_l6;
  var_i2 = var_j2 != var_j3;
  var_p2 = var_i2;
  var_j0 = var_i2 ? var_j0 : var_j1;
  var_l5 = var_j0;
  var_j0 = var_l8;
  var_j1 = 0ull;
  var_i2 = var_p2;
  var_j0 = var_i2 ? var_j0 : var_j1;
  var_l16 = var_j0;
  var_i0 = var_p2;
  var_j0 = (u64)(var_i0);
  var_l17 = var_j0;
  var_i0 = 3u;
  var_l7 = var_i0;
  var_B38:;
  var_j0 = 0ull;
  var_l14 = var_j0;
  var_j0 = 0ull;
  var_l18 = var_j0;
  var_j0 = 0ull;
  var_l19 = var_j0;
  var_j0 = 0ull;
  var_l8 = var_j0;
  var_j0 = var_l4;
  var_j1 = var_l15;
  var_j2 = 3ull;
  var_j1 <<= (var_j2 & 63);
  var_j0 += var_j1;
  var_j0 = i64_load(origin, (u64)(var_j0));
  var_l6 = var_j0;
  var_j1 = var_p1;
  var_i0 = var_j0 == var_j1;
  if (var_i0) {goto var_B56;}
  var_j0 = 1ull;
  var_l8 = var_j0;
  var_j0 = var_l15;
  var_l14 = var_j0;
  var_j0 = var_l6;
  var_l18 = var_j0;
  var_j0 = var_p1;
  var_l19 = var_j0;
  var_B56:;
  var_j0 = var_l3;
  var_i1 = 0u;
  i32_store16(origin, (u64)(var_j0) + 28, var_i1);
  var_j0 = var_l3;
  var_i1 = 0u;
  i32_store(origin, (u64)(var_j0) + 24, var_i1);
  var_j0 = var_l16;
  var_l6 = var_j0;
  var_j0 = var_l17;
  var_l9 = var_j0;
  var_i0 = var_l7;
  var_l12 = var_i0;
  var_B37:;
  var_i0 = 0u;
  var_l11 = var_i0;
  var_j0 = var_l3;
  var_i1 = 0u;
  i32_store(origin, (u64)(var_j0) + 19, var_i1);
  var_j0 = var_l3;
  var_i1 = 0u;
  i32_store(origin, (u64)(var_j0) + 16, var_i1);
  var_j0 = 1ull;
  var_l15 = var_j0;
  var_j0 = 0ull;
  var_p1 = var_j0;
  var_j0 = 0ull;
  var_l4 = var_j0;
  var_i0 = 0u;
  var_l10 = var_i0;
  var_i0 = 0u;
  var_l7 = var_i0;
  goto var_B1;
  var_B10:;
  UNREACHABLE;
  var_B9:;
  var_j0 = var_l4;
  var_j0 = i64_load(origin, (u64)(var_j0));
  var_l4 = var_j0;
  var_j1 = 16ull;
  var_j0 >>= (var_j1 & 63);
  var_p1 = var_j0;
  var_j0 = var_l4;
  var_j1 = 8ull;
  var_j0 >>= (var_j1 & 63);
  var_i0 = (u32)(var_j0);
  var_l10 = var_i0;
  var_j0 = var_l4;
  var_i0 = (u32)(var_j0);
  var_l11 = var_i0;
  var_j0 = 1ull;
  var_l5 = var_j0;
  var_j0 = 0ull;
  var_l9 = var_j0;
  var_j0 = var_l8;
  var_l6 = var_j0;
  var_j0 = var_l4;
  var_l8 = var_j0;
  goto var_B6;
  var_B8:;
  var_i0 = 1u;
  var_l7 = var_i0;
  var_j0 = 2ull;
  var_l5 = var_j0;
  var_i0 = 0u;
  var_l11 = var_i0;
  var_j0 = 0ull;
  var_l9 = var_j0;
  goto var_B3;
  var_B7:;
  var_i0 = 0u;
  var_l11 = var_i0;
  var_j0 = var_l3;
  var_i1 = 0u;
  i32_store16(origin, (u64)(var_j0) + 12, var_i1);
  var_j0 = var_l3;
  var_i1 = 0u;
  i32_store(origin, (u64)(var_j0) + 8, var_i1);
  var_j0 = var_l3;
  var_i1 = 0u;
  i32_store(origin, (u64)(var_j0), var_i1);
  var_j0 = var_l3;
  var_i1 = 0u;
  i32_store(origin, (u64)(var_j0) + 3, var_i1);
  var_j0 = 0ull;
  var_l9 = var_j0;
  var_j0 = 0ull;
  var_l16 = var_j0;
  var_j0 = 0ull;
  var_l15 = var_j0;
  goto var_B4;
  var_B6:;
  var_i0 = 3u;
  var_i1 = 1u;
  var_j2 = var_l8;
  var_i2 = !(var_j2);
  var_i0 = var_i2 ? var_i0 : var_i1;
  var_l7 = var_i0;
  goto var_B2;
  var_B5:;
  var_i0 = 0u;
  var_l11 = var_i0;
  var_j0 = var_l3;
  var_i1 = 0u;
  i32_store16(origin, (u64)(var_j0) + 12, var_i1);
  var_j0 = var_l3;
  var_i1 = 0u;
  i32_store(origin, (u64)(var_j0) + 8, var_i1);
  var_j0 = var_l3;
  var_i1 = 0u;
  i32_store(origin, (u64)(var_j0), var_i1);
  var_j0 = var_l3;
  var_i1 = 0u;
  i32_store(origin, (u64)(var_j0) + 3, var_i1);
  var_j0 = 0ull;
  var_l16 = var_j0;
  var_j0 = 0ull;
  var_l15 = var_j0;
  var_j0 = 0ull;
  var_l9 = var_j0;
  var_B4:;
  var_j0 = 0ull;
  var_l4 = var_j0;
  var_j0 = 0ull;
  var_l6 = var_j0;
  var_j0 = 0ull;
  var_l5 = var_j0;
  var_i0 = 0u;
  var_l10 = var_i0;
  var_j0 = 0ull;
  var_p1 = var_j0;
  var_i0 = 0u;
  var_l7 = var_i0;
  var_j0 = 0ull;
  var_l8 = var_j0;
  var_j0 = 0ull;
  var_l14 = var_j0;
  var_j0 = 0ull;
  var_l18 = var_j0;
  var_j0 = 0ull;
  var_l19 = var_j0;
  var_i0 = 0u;
  var_l12 = var_i0;
  goto var_B0;
  var_B3:;
  var_j0 = var_l6;
  var_l4 = var_j0;
  var_B2:;
  var_i0 = 0u;
  var_l12 = var_i0;
  var_j0 = var_l3;
  var_i1 = 0u;
  i32_store16(origin, (u64)(var_j0) + 28, var_i1);
  var_j0 = var_l3;
  var_i1 = 0u;
  i32_store(origin, (u64)(var_j0) + 24, var_i1);
  var_j0 = var_l3;
  var_i1 = 0u;
  i32_store(origin, (u64)(var_j0) + 16, var_i1);
  var_j0 = var_l3;
  var_i1 = 0u;
  i32_store(origin, (u64)(var_j0) + 19, var_i1);
  var_j0 = 0ull;
  var_l8 = var_j0;
  var_j0 = 0ull;
  var_l14 = var_j0;
  var_j0 = 0ull;
  var_l18 = var_j0;
  var_j0 = 0ull;
  var_l19 = var_j0;
  var_j0 = 0ull;
  var_l15 = var_j0;
  var_B1:;
  var_j0 = var_l3;
  var_j1 = var_l3;
  var_i1 = i32_load16_u(origin, (u64)(var_j1) + 28u);
  i32_store16(origin, (u64)(var_j0) + 12, var_i1);
  var_j0 = var_l3;
  var_j1 = var_l3;
  var_i1 = i32_load(origin, (u64)(var_j1) + 24u);
  i32_store(origin, (u64)(var_j0) + 8, var_i1);
  var_j0 = var_l3;
  var_j1 = var_l3;
  var_i1 = i32_load(origin, (u64)(var_j1) + 16u);
  i32_store(origin, (u64)(var_j0), var_i1);
  var_j0 = var_l3;
  var_j1 = var_l3;
  var_i1 = i32_load(origin, (u64)(var_j1) + 19u);
  i32_store(origin, (u64)(var_j0) + 3, var_i1);
  var_j0 = 1ull;
  var_l16 = var_j0;
  var_B0:;
  var_j0 = var_p0;
  var_j1 = var_l16;
  i64_store(origin, (u64)(var_j0), var_j1);
  var_j0 = var_p0;
  var_j1 = 63ull;
  var_j0 += var_j1;
  var_j1 = 0ull;
  i64_store8(origin, (u64)(var_j0), var_j1);
  var_j0 = var_p0;
  var_j1 = 61ull;
  var_j0 += var_j1;
  var_j1 = 0ull;
  i64_store16(origin, (u64)(var_j0), var_j1);
  var_j0 = var_p0;
  var_j1 = 57ull;
  var_j0 += var_j1;
  var_j1 = 0ull;
  i64_store32(origin, (u64)(var_j0), var_j1);
  var_j0 = var_p0;
  var_j1 = 54ull;
  var_j0 += var_j1;
  var_j1 = var_p1;
  var_j2 = 32ull;
  var_j1 >>= (var_j2 & 63);
  i64_store16(origin, (u64)(var_j0), var_j1);
  var_j0 = var_p0;
  var_j1 = 50ull;
  var_j0 += var_j1;
  var_j1 = var_p1;
  i64_store32(origin, (u64)(var_j0), var_j1);
  var_j0 = var_p0;
  var_j1 = 96ull;
  var_j0 += var_j1;
  var_i1 = 0u;
  i32_store16(origin, (u64)(var_j0), var_i1);
  var_j0 = var_p0;
  var_j1 = 88ull;
  var_j0 += var_j1;
  var_j1 = var_l19;
  i64_store(origin, (u64)(var_j0), var_j1);
  var_j0 = var_p0;
  var_j1 = 80ull;
  var_j0 += var_j1;
  var_j1 = var_l18;
  i64_store(origin, (u64)(var_j0), var_j1);
  var_j0 = var_p0;
  var_j1 = 72ull;
  var_j0 += var_j1;
  var_j1 = var_l14;
  i64_store(origin, (u64)(var_j0), var_j1);
  var_j0 = var_p0;
  var_j1 = 64ull;
  var_j0 += var_j1;
  var_j1 = var_l8;
  i64_store(origin, (u64)(var_j0), var_j1);
  var_j0 = var_p0;
  var_j1 = 56ull;
  var_j0 += var_j1;
  var_i1 = var_l7;
  i32_store8(origin, (u64)(var_j0), var_i1);
  var_j0 = var_p0;
  var_j1 = 49ull;
  var_j0 += var_j1;
  var_i1 = var_l10;
  i32_store8(origin, (u64)(var_j0), var_i1);
  var_j0 = var_p0;
  var_j1 = 48ull;
  var_j0 += var_j1;
  var_i1 = var_l11;
  i32_store8(origin, (u64)(var_j0), var_i1);
  var_j0 = var_p0;
  var_j1 = 40ull;
  var_j0 += var_j1;
  var_j1 = var_l5;
  i64_store(origin, (u64)(var_j0), var_j1);
  var_j0 = var_p0;
  var_j1 = 32ull;
  var_j0 += var_j1;
  var_j1 = var_l6;
  i64_store(origin, (u64)(var_j0), var_j1);
  var_j0 = var_p0;
  var_j1 = 24ull;
  var_j0 += var_j1;
  var_j1 = var_l4;
  i64_store(origin, (u64)(var_j0), var_j1);
  var_j0 = var_p0;
  var_j1 = 16ull;
  var_j0 += var_j1;
  var_j1 = var_l9;
  i64_store(origin, (u64)(var_j0), var_j1);
  var_j0 = var_p0;
  var_j1 = 8ull;
  var_j0 += var_j1;
  var_j1 = var_l15;
  i64_store(origin, (u64)(var_j0), var_j1);
  var_j0 = var_p0;
  var_j1 = 98ull;
  var_j0 += var_j1;
  var_j1 = var_l3;
  var_i1 = i32_load(origin, (u64)(var_j1) + 8u);
  i32_store(origin, (u64)(var_j0), var_i1);
  var_j0 = var_p0;
  var_j1 = 102ull;
  var_j0 += var_j1;
  var_j1 = var_l3;
  var_i1 = i32_load16_u(origin, (u64)(var_j1) + 12u);
  i32_store16(origin, (u64)(var_j0), var_i1);
  var_j0 = var_p0;
  var_j1 = 112ull;
  var_j0 += var_j1;
  var_i1 = var_l12;
  i32_store8(origin, (u64)(var_j0), var_i1);
  var_j0 = var_p0;
  var_j1 = 104ull;
  var_j0 += var_j1;
  var_j1 = 0ull;
  i64_store(origin, (u64)(var_j0), var_j1);
  var_j0 = var_p0;
  var_j1 = 113ull;
  var_j0 += var_j1;
  var_j1 = var_l3;
  var_i1 = i32_load(origin, (u64)(var_j1));
  i32_store(origin, (u64)(var_j0), var_i1);
  var_j0 = var_p0;
  var_j1 = 116ull;
  var_j0 += var_j1;
  var_j1 = var_l3;
  var_i1 = i32_load(origin, (u64)(var_j1) + 3u);
  i32_store(origin, (u64)(var_j0), var_i1);
  FUNC_EPILOGUE;
}

static void w2c_lockreplay_lk_locks0x3A0x3Atracker0x3A0x3ATracker0x3A0x3Aplay0x3A0x3A0x3C0x23e396818bfda329340x3E(w2c_lockreplay* instance, u64 var_p0, u64 var_p1, u32 var_p2, u32 var_p3, u32 var_p4) {
  u32 var_l7 = 0, var_l8 = 0, var_l9 = 0, var_l10 = 0, var_l12 = 0, var_l13 = 0, var_l14 = 0, var_l15 = 0,
      var_l16 = 0, var_l17 = 0, var_l18 = 0, var_l19 = 0;
  u64 var_l5 = 0, var_l6 = 0, var_l11 = 0, var_l20 = 0, var_l21 = 0, var_l22 = 0, var_l23 = 0, var_l24 = 0,
      var_l25 = 0, var_l26 = 0, var_l27 = 0;
  FUNC_PROLOGUE;
  u32 var_i0, var_i1, var_i2, var_i3, var_i4;
  u64 var_j0, var_j1, var_j2, var_j3;
  var_j0 = instance->w2c_0x5F_stack_pointer;
  var_j1 = 48ull;
  var_j0 -= var_j1;
  var_l5 = var_j0;
  instance->w2c_0x5F_stack_pointer = var_j0;
  var_j0 = var_l5;
  var_l6 = var_j0;
  var_j1 = 16ull;
  var_i0 = (u64)((s64)var_j0 < (s64)var_j1);
  if (var_i0) {goto var_B7;}
  var_j0 = var_l6;
  var_i1 = 0u;
  i32_store(origin, (u64)(var_j0) + 12, var_i1);
  var_j0 = var_l6;
  var_j1 = 12ull;
  var_j0 += var_j1;
  var_j1 = var_p1;
  var_i2 = var_p2;
  var_i3 = var_p3;
  var_i4 = var_p4;
  w2c_lockreplay_lk_locks0x3A0x3Amachine0x3A0x3AMachine0x3A0x3Aplay0x3A0x3A0x3C0x23e396818bfda329340x3E(instance, var_j0, var_j1, var_i2, var_i3, var_i4);
  var_j0 = var_l6;
  var_i0 = i32_load8_u(origin, (u64)(var_j0) + 13u);
  var_l7 = var_i0;
  var_j0 = var_l6;
  var_i0 = i32_load8_u(origin, (u64)(var_j0) + 14u);
  var_p4 = var_i0;
  var_j0 = var_l6;
  var_i0 = i32_load8_u(origin, (u64)(var_j0) + 12u);
  var_l8 = var_i0;
  if (var_i0) {goto var_B14;}
  var_i0 = 0u;
  var_j1 = var_l6;
  var_i1 = i32_load8_u(origin, (u64)(var_j1) + 15u);
  var_l9 = var_i1;
  var_i2 = var_l8;
  var_i0 = var_i2 ? var_i0 : var_i1;
  var_l8 = var_i0;
  var_i0 = 1u;
  var_l10 = var_i0;
  var_i0 = var_p3;
  var_i1 = 255u;
  var_i0 &= var_i1;
  var_i1 = 1u;
  var_i0 = var_i0 != var_i1;
  if (var_i0) {goto var_B1;}
  var_i0 = 0u;
  var_p3 = var_i0;
  var_j0 = var_l6;
  var_i1 = 0u;
  i32_store(origin, (u64)(var_j0) + 43, var_i1);
  var_j0 = var_l6;
  var_i1 = 0u;
  i32_store(origin, (u64)(var_j0) + 40, var_i1);
  var_j0 = 0ull;
  var_l11 = var_j0;
  var_i0 = 0u;
  var_l12 = var_i0;
  var_i0 = 1u;
  var_l13 = var_i0;
  var_i0 = 0u;
  var_l14 = var_i0;
  var_i0 = 0u;
  var_l15 = var_i0;
  var_i0 = 1u;
  var_l16 = var_i0;
  var_i0 = 0u;
  var_l17 = var_i0;
  var_i0 = 0u;
  var_l18 = var_i0;
  var_i0 = 1u;
  var_l19 = var_i0;
  var_i0 = var_p4;
  switch (var_i0) {
    case 0: goto var_B2;
    case 1: goto var_B13;
    case 2: goto var_B12;
    case 3: goto var_B11;
    case 4: goto var_B10;
    case 5: goto var_B9;
    case 6: goto var_B8;
    default: goto var_B2;
  }
  var_B14:;
  var_j0 = var_p0;
  var_i1 = 1u;
  i32_store8(origin, (u64)(var_j0), var_i1);
  var_j0 = var_p0;
  var_j1 = 3ull;
  var_j0 += var_j1;
  var_i1 = 0u;
  i32_store8(origin, (u64)(var_j0), var_i1);
  var_j0 = var_p0;
  var_j1 = 2ull;
  var_j0 += var_j1;
  var_i1 = var_p4;
  i32_store8(origin, (u64)(var_j0), var_i1);
  var_j0 = var_p0;
  var_j1 = 1ull;
  var_j0 += var_j1;
  var_i1 = var_l7;
  i32_store8(origin, (u64)(var_j0), var_i1);
  goto var_B0;
  var_B13:;
  var_j0 = 1ull;
  var_l11 = var_j0;
  var_i0 = 0u;
  var_l10 = var_i0;
  var_i0 = 1u;
  var_l13 = var_i0;
  var_i0 = var_p2;
  var_p3 = var_i0;
  var_i0 = var_l9;
  var_l12 = var_i0;
  goto var_B5;
  var_B12:;
  var_j0 = 1ull;
  var_l11 = var_j0;
  var_i0 = 0u;
  var_l12 = var_i0;
  var_i0 = 1u;
  var_l10 = var_i0;
  var_i0 = var_p2;
  var_p3 = var_i0;
  var_i0 = 1u;
  var_l13 = var_i0;
  goto var_B5;
  var_B11:;
  var_j0 = 1ull;
  var_l11 = var_j0;
  var_i0 = 0u;
  var_l14 = var_i0;
  var_i0 = 1u;
  var_l13 = var_i0;
  var_i0 = 2u;
  var_l10 = var_i0;
  goto var_B6;
  var_B10:;
  var_j0 = 1ull;
  var_l11 = var_j0;
  var_i0 = 0u;
  var_l14 = var_i0;
  var_i0 = 1u;
  var_l13 = var_i0;
  var_i0 = 3u;
  var_l10 = var_i0;
  goto var_B6;
  var_B9:;
  var_j0 = 2ull;
  var_l11 = var_j0;
  var_i0 = 0u;
  var_l17 = var_i0;
  var_i0 = 1u;
  var_l16 = var_i0;
  var_i0 = 3u;
  var_l13 = var_i0;
  var_i0 = 2u;
  var_l10 = var_i0;
  var_i0 = var_p2;
  var_p3 = var_i0;
  var_i0 = var_l9;
  var_l12 = var_i0;
  var_i0 = var_p2;
  var_l14 = var_i0;
  var_i0 = var_l9;
  var_l15 = var_i0;
  var_i0 = 0u;
  var_l18 = var_i0;
  goto var_B3;
  var_B8:;
  var_j0 = 3ull;
  var_l11 = var_j0;
  var_i0 = 0u;
  var_l12 = var_i0;
  var_i0 = 3u;
  var_l16 = var_i0;
  var_i0 = 4u;
  var_l15 = var_i0;
  var_i0 = 2u;
  var_l13 = var_i0;
  var_i0 = 1u;
  var_l10 = var_i0;
  var_i0 = var_p2;
  var_p3 = var_i0;
  var_i0 = var_p2;
  var_l14 = var_i0;
  var_i0 = var_p2;
  var_l17 = var_i0;
  var_i0 = 4u;
  var_l18 = var_i0;
  goto var_B3;
  var_B7:;
  UNREACHABLE;
  var_B6:;
  var_i0 = var_p2;
  var_p3 = var_i0;
  var_i0 = var_l9;
  var_l12 = var_i0;
  goto var_B4;
  var_B5:;
  var_i0 = 0u;
  var_l14 = var_i0;
  var_B4:;
  var_i0 = 0u;
  var_l15 = var_i0;
  var_i0 = 1u;
  var_l16 = var_i0;
  var_i0 = 0u;
  var_l17 = var_i0;
  var_i0 = 0u;
  var_l18 = var_i0;
  var_B3:;
  var_i0 = 0u;
  var_l19 = var_i0;
  var_B2:;
  var_j0 = var_l6;
  var_j1 = var_l6;
  var_i1 = i32_load(origin, (u64)(var_j1) + 43u);
  i32_store(origin, (u64)(var_j0) + 7, var_i1);
  var_j0 = var_l6;
  var_j1 = var_l6;
  var_i1 = i32_load(origin, (u64)(var_j1) + 40u);
  i32_store(origin, (u64)(var_j0) + 4, var_i1);
  var_j0 = var_l6;
  var_i1 = var_l18;
  i32_store8(origin, (u64)(var_j0) + 24, var_i1);
  var_j0 = var_l6;
  var_i1 = var_l17;
  i32_store8(origin, (u64)(var_j0) + 23, var_i1);
  var_j0 = var_l6;
  var_i1 = var_l16;
  i32_store8(origin, (u64)(var_j0) + 22, var_i1);
  var_j0 = var_l6;
  var_i1 = var_l15;
  i32_store8(origin, (u64)(var_j0) + 21, var_i1);
  var_j0 = var_l6;
  var_i1 = var_l14;
  i32_store8(origin, (u64)(var_j0) + 20, var_i1);
  var_j0 = var_l6;
  var_i1 = var_l13;
  i32_store8(origin, (u64)(var_j0) + 19, var_i1);
  var_j0 = var_l6;
  var_i1 = var_l12;
  i32_store8(origin, (u64)(var_j0) + 18, var_i1);
  var_j0 = var_l6;
  var_i1 = var_p3;
  i32_store8(origin, (u64)(var_j0) + 17, var_i1);
  var_j0 = var_l6;
  var_i1 = var_l10;
  i32_store8(origin, (u64)(var_j0) + 16, var_i1);
  var_j0 = var_l6;
  var_j1 = var_l6;
  var_i1 = i32_load(origin, (u64)(var_j1) + 4u);
  i32_store(origin, (u64)(var_j0) + 25, var_i1);
  var_j0 = var_l6;
  var_j1 = var_l6;
  var_i1 = i32_load(origin, (u64)(var_j1) + 7u);
  i32_store(origin, (u64)(var_j0) + 28, var_i1);
  var_j0 = var_l6;
  var_j1 = var_l11;
  i64_store(origin, (u64)(var_j0) + 32, var_j1);
  var_i0 = var_l19;
  var_i0 = !(var_i0);
  if (var_i0) {goto var_B16;}
  var_j0 = var_p1;
  var_j1 = 2241ull;
  var_j0 += var_j1;
  var_l20 = var_j0;
  var_i0 = i32_load8_u(origin, (u64)(var_j0));
  var_p2 = var_i0;
  var_j0 = var_p1;
  var_j1 = 2240ull;
  var_j0 += var_j1;
  var_l21 = var_j0;
  var_i0 = i32_load8_u(origin, (u64)(var_j0));
  var_p3 = var_i0;
  goto var_B15;
  var_B16:;
  var_j0 = var_p1;
  var_j1 = 2088ull;
  var_j0 += var_j1;
  var_l22 = var_j0;
  var_j0 = var_p1;
  var_j1 = 2160ull;
  var_j0 += var_j1;
  var_l23 = var_j0;
  var_j0 = 0ull;
  var_l24 = var_j0;
  var_L17:
    var_j0 = var_l6;
    var_j1 = 16ull;
    var_j0 += var_j1;
    var_j1 = var_l24;
    var_j2 = 3ull;
    var_j1 *= var_j2;
    var_j0 += var_j1;
    var_l5 = var_j0;
    var_j0 = i64_load8_u(origin, (u64)(var_j0));
    var_i0 = (u32)(var_j0);
    switch (var_i0) {
      case 0: goto var_B18;
      case 1: goto var_B20;
      case 2: goto var_B19;
      case 3: goto var_B18;
      default: goto var_B18;
    }
    var_B20:;
    var_j0 = var_p1;
    var_j1 = 2234ull;
    var_j0 += var_j1;
    var_i1 = 1u;
    i32_store8(origin, (u64)(var_j0), var_i1);
    var_j0 = var_p1;
    var_j1 = 2235ull;
    var_j0 += var_j1;
    var_j1 = var_l5;
    var_j2 = 1ull;
    var_j1 += var_j2;
    var_i1 = i32_load8_u(origin, (u64)(var_j1));
    i32_store8(origin, (u64)(var_j0), var_i1);
    goto var_B18;
    var_B19:;
    var_j0 = var_l5;
    var_j1 = 1ull;
    var_j0 += var_j1;
    var_i0 = i32_load8_u(origin, (u64)(var_j0));
    var_p3 = var_i0;
    var_j0 = var_l5;
    var_j1 = 2ull;
    var_j0 += var_j1;
    var_j0 = i64_load8_u(origin, (u64)(var_j0));
    var_i0 = (u32)(var_j0);
    switch (var_i0) {
      case 0: goto var_B27;
      case 1: goto var_B26;
      case 2: goto var_B25;
      case 3: goto var_B24;
      case 4: goto var_B23;
      case 5: goto var_B22;
      case 6: goto var_B21;
      default: goto var_B27;
    }
    var_B27:;
    var_j0 = var_l22;
    var_j1 = var_p1;
    var_j2 = 2152ull;
    var_j1 += var_j2;
    var_l5 = var_j1;
    var_j1 = i64_load(origin, (u64)(var_j1));
    var_l20 = var_j1;
    var_j0 += var_j1;
    var_i1 = var_p3;
    i32_store8(origin, (u64)(var_j0), var_i1);
    var_j0 = var_l5;
    var_j1 = var_l20;
    var_j2 = 1ull;
    var_j1 += var_j2;
    i64_store(origin, (u64)(var_j0), var_j1);
    goto var_B18;
    var_B26:;
    var_j0 = 0ull;
    var_l5 = var_j0;
    var_j0 = var_p1;
    var_j1 = 2152ull;
    var_j0 += var_j1;
    var_l25 = var_j0;
    var_j0 = i64_load(origin, (u64)(var_j0));
    var_l20 = var_j0;
    var_j1 = 1ull;
    var_i0 = var_j0 == var_j1;
    if (var_i0) {goto var_B28;}
    var_j0 = var_l22;
    var_i0 = i32_load8_u(origin, (u64)(var_j0));
    var_p3 = var_i0;
    var_j0 = 0ull;
    var_l26 = var_j0;
    var_j0 = var_l20;
    var_j1 = 18446744073709551615ull;
    var_j0 += var_j1;
    var_l27 = var_j0;
    var_l5 = var_j0;
    var_j0 = var_l27;
    var_j1 = 2049ull;
    var_i0 = var_j0 < var_j1;
    if (var_i0) {goto var_B30;}
    var_j0 = 0ull;
    var_l26 = var_j0;
    var_j0 = var_p1;
    var_l21 = var_j0;
    var_L31:
      var_j0 = 18446744073709549568ull;
      var_l5 = var_j0;
      var_L32:
        var_j0 = var_l21;
        var_j1 = var_l5;
        var_j0 += var_j1;
        var_l20 = var_j0;
        var_j1 = 4136ull;
        var_j0 += var_j1;
        var_j1 = var_l20;
        var_j2 = 4137ull;
        var_j1 += var_j2;
        var_i1 = i32_load(origin, (u64)(var_j1));
        i32_store(origin, (u64)(var_j0), var_i1);
        var_j0 = var_l5;
        var_j1 = 4ull;
        var_j0 += var_j1;
        var_l5 = var_j0;
        var_j1 = 0ull;
        var_i0 = var_j0 != var_j1;
        if (var_i0) {goto var_L32;}
      var_j0 = var_l21;
      var_j1 = 2048ull;
      var_j0 += var_j1;
      var_l21 = var_j0;
      var_j0 = var_l27;
      var_j1 = var_l26;
      var_j2 = 2048ull;
      var_j1 += var_j2;
      var_l26 = var_j1;
      var_j0 -= var_j1;
      var_l5 = var_j0;
      var_j1 = 2048ull;
      var_i0 = var_j0 > var_j1;
      if (var_i0) {goto var_L31;}
    var_j0 = var_l27;
    var_j1 = var_l26;
    var_i0 = var_j0 == var_j1;
    if (var_i0) {goto var_B29;}
    var_B30:;
    var_j0 = var_l5;
    var_i0 = !(var_j0);
    if (var_i0) {goto var_B29;}
    var_j0 = var_l22;
    var_j1 = var_l26;
    var_j0 += var_j1;
    var_l20 = var_j0;
    var_j1 = var_l20;
    var_j2 = 1ull;
    var_j1 += var_j2;
    var_j2 = var_l5;
    memory_copy(origin, origin, var_j0, var_j1, var_j2);
    var_B29:;
    var_j0 = var_l22;
    var_j1 = var_l27;
    var_j0 += var_j1;
    var_i1 = var_p3;
    i32_store8(origin, (u64)(var_j0), var_i1);
    var_j0 = var_p1;
    var_j1 = 2152ull;
    var_j0 += var_j1;
    var_j0 = i64_load(origin, (u64)(var_j0));
    var_j1 = 18446744073709551615ull;
    var_j0 += var_j1;
    var_l5 = var_j0;
    var_B28:;
    var_j0 = var_l25;
    var_j1 = var_l5;
    i64_store(origin, (u64)(var_j0), var_j1);
    var_j0 = var_l22;
    var_j1 = var_l5;
    var_j0 += var_j1;
    var_i1 = 0u;
    i32_store8(origin, (u64)(var_j0), var_i1);
    goto var_B18;
    var_B25:;
    var_j0 = 0ull;
    var_l5 = var_j0;
    var_j0 = var_p1;
    var_j1 = 2224ull;
    var_j0 += var_j1;
    var_j0 = i64_load(origin, (u64)(var_j0));
    var_l27 = var_j0;
    var_j1 = 1ull;
    var_i0 = var_j0 > var_j1;
    if (var_i0) {goto var_B35;}
    var_j0 = var_l27;
    var_l20 = var_j0;
    var_j0 = var_l27;
    var_i0 = (u32)(var_j0);
    switch (var_i0) {
      case 0: goto var_B33;
      case 1: goto var_B34;
      default: goto var_B33;
    }
    var_B35:;
    var_j0 = var_l27;
    var_l20 = var_j0;
    var_L36:
      var_j0 = var_l5;
      var_j1 = var_l20;
      var_j2 = 1ull;
      var_j1 >>= (var_j2 & 63);
      var_l21 = var_j1;
      var_j2 = var_l5;
      var_j1 += var_j2;
      var_l26 = var_j1;
      var_j2 = var_l23;
      var_j3 = var_l26;
      var_j2 += var_j3;
      var_i2 = i32_load8_u(origin, (u64)(var_j2));
      var_i3 = var_p3;
      var_i4 = 255u;
      var_i3 &= var_i4;
      var_i2 = var_i2 > var_i3;
      var_j0 = var_i2 ? var_j0 : var_j1;
      var_l5 = var_j0;
      var_j0 = var_l20;
      var_j1 = var_l21;
      var_j0 -= var_j1;
      var_l20 = var_j0;
      var_j1 = 1ull;
      var_i0 = var_j0 > var_j1;
      if (var_i0) {goto var_L36;}
    var_B34:;
    var_j0 = var_l5;
    var_j1 = var_l23;
    var_j2 = var_l5;
    var_j1 += var_j2;
    var_i1 = i32_load8_u(origin, (u64)(var_j1));
    var_i2 = var_p3;
    var_i3 = 255u;
    var_i2 &= var_i3;
    var_i1 = var_i1 <= var_i2;
    var_j1 = (u64)(var_i1);
    var_j0 += var_j1;
    var_l20 = var_j0;
    var_B33:;
    var_j0 = var_l23;
    var_j1 = var_l27;
    var_j0 += var_j1;
    var_l26 = var_j0;
    var_i1 = var_p3;
    i32_store8(origin, (u64)(var_j0), var_i1);
    var_j0 = var_p1;
    var_j1 = 2224ull;
    var_j0 += var_j1;
    var_j1 = var_l27;
    var_j2 = 1ull;
    var_j1 += var_j2;
    var_l21 = var_j1;
    i64_store(origin, (u64)(var_j0), var_j1);
    var_j0 = var_l23;
    var_j1 = var_l20;
    var_j0 += var_j1;
    var_l5 = var_j0;
    var_j0 = var_l21;
    var_j1 = var_l20;
    var_j0 -= var_j1;
    var_j1 = 18446744073709551615ull;
    var_j0 += var_j1;
    var_l20 = var_j0;
    var_j1 = 1ull;
    var_i0 = var_j0 > var_j1;
    if (var_i0) {goto var_B37;}
    var_j0 = var_l20;
    var_i0 = (u32)(var_j0);
    switch (var_i0) {
      case 0: goto var_B18;
      case 1: goto var_B38;
      default: goto var_B18;
    }
    var_B38:;
    var_j0 = var_l5;
    var_i0 = i32_load8_u(origin, (u64)(var_j0));
    var_p3 = var_i0;
    var_j0 = var_l5;
    var_j1 = var_l5;
    var_j2 = 1ull;
    var_j1 += var_j2;
    var_i1 = i32_load8_u(origin, (u64)(var_j1));
    i32_store8(origin, (u64)(var_j0), var_i1);
    var_j0 = var_l26;
    var_i1 = var_p3;
    i32_store8(origin, (u64)(var_j0), var_i1);
    goto var_B18;
    var_B37:;
    var_j0 = var_l26;
    var_i0 = i32_load8_u(origin, (u64)(var_j0));
    var_p3 = var_i0;
    var_j0 = var_l20;
    var_i0 = !(var_j0);
    if (var_i0) {goto var_B39;}
    var_j0 = var_l5;
    var_j1 = 1ull;
    var_j0 += var_j1;
    var_j1 = var_l5;
    var_j2 = var_l20;
    memory_copy(origin, origin, var_j0, var_j1, var_j2);
    var_B39:;
    var_j0 = var_l5;
    var_i1 = var_p3;
    i32_store8(origin, (u64)(var_j0), var_i1);
    goto var_B18;
    var_B24:;
    var_j0 = 0ull;
    var_l5 = var_j0;
    var_j0 = var_p1;
    var_j1 = 2224ull;
    var_j0 += var_j1;
    var_j0 = i64_load(origin, (u64)(var_j0));
    var_l27 = var_j0;
    var_j1 = 1ull;
    var_i0 = var_j0 > var_j1;
    if (var_i0) {goto var_B42;}
    var_j0 = var_l27;
    var_l20 = var_j0;
    var_j0 = var_l27;
    var_i0 = (u32)(var_j0);
    switch (var_i0) {
      case 0: goto var_B40;
      case 1: goto var_B41;
      default: goto var_B40;
    }
    var_B42:;
    var_j0 = var_l27;
    var_l20 = var_j0;
    var_L43:
      var_j0 = var_l20;
      var_j1 = 1ull;
      var_j0 >>= (var_j1 & 63);
      var_l21 = var_j0;
      var_j1 = var_l5;
      var_j0 += var_j1;
      var_l26 = var_j0;
      var_j1 = var_l5;
      var_j2 = var_l23;
      var_j3 = var_l26;
      var_j2 += var_j3;
      var_i2 = i32_load8_u(origin, (u64)(var_j2));
      var_i3 = var_p3;
      var_i4 = 255u;
      var_i3 &= var_i4;
      var_i2 = var_i2 < var_i3;
      var_j0 = var_i2 ? var_j0 : var_j1;
      var_l5 = var_j0;
      var_j0 = var_l20;
      var_j1 = var_l21;
      var_j0 -= var_j1;
      var_l20 = var_j0;
      var_j1 = 1ull;
      var_i0 = var_j0 > var_j1;
      if (var_i0) {goto var_L43;}
    var_B41:;
    var_j0 = var_l5;
    var_j1 = var_l23;
    var_j2 = var_l5;
    var_j1 += var_j2;
    var_i1 = i32_load8_u(origin, (u64)(var_j1));
    var_i2 = var_p3;
    var_i3 = 255u;
    var_i2 &= var_i3;
    var_i1 = var_i1 < var_i2;
    var_j1 = (u64)(var_i1);
    var_j0 += var_j1;
    var_l20 = var_j0;
    var_B40:;
    var_j0 = var_l27;
    var_j1 = var_l20;
    var_j0 -= var_j1;
    var_l5 = var_j0;
    var_j1 = 1ull;
    var_i0 = var_j0 == var_j1;
    if (var_i0) {goto var_B44;}
    var_j0 = var_l23;
    var_j1 = var_l20;
    var_j0 += var_j1;
    var_l25 = var_j0;
    var_i0 = i32_load8_u(origin, (u64)(var_j0));
    var_p3 = var_i0;
    var_j0 = 0ull;
    var_l26 = var_j0;
    var_j0 = var_l5;
    var_j1 = 18446744073709551615ull;
    var_j0 += var_j1;
    var_l27 = var_j0;
    var_l5 = var_j0;
    var_j0 = var_l27;
    var_j1 = 2049ull;
    var_i0 = var_j0 < var_j1;
    if (var_i0) {goto var_B46;}
    var_j0 = var_p1;
    var_j1 = var_l20;
    var_j0 += var_j1;
    var_l21 = var_j0;
    var_j0 = 0ull;
    var_l26 = var_j0;
    var_L47:
      var_j0 = 18446744073709549568ull;
      var_l5 = var_j0;
      var_L48:
        var_j0 = var_l21;
        var_j1 = var_l5;
        var_j0 += var_j1;
        var_l20 = var_j0;
        var_j1 = 4208ull;
        var_j0 += var_j1;
        var_j1 = var_l20;
        var_j2 = 4209ull;
        var_j1 += var_j2;
        var_i1 = i32_load(origin, (u64)(var_j1));
        i32_store(origin, (u64)(var_j0), var_i1);
        var_j0 = var_l5;
        var_j1 = 4ull;
        var_j0 += var_j1;
        var_l5 = var_j0;
        var_j1 = 0ull;
        var_i0 = var_j0 != var_j1;
        if (var_i0) {goto var_L48;}
      var_j0 = var_l21;
      var_j1 = 2048ull;
      var_j0 += var_j1;
      var_l21 = var_j0;
      var_j0 = var_l27;
      var_j1 = var_l26;
      var_j2 = 2048ull;
      var_j1 += var_j2;
      var_l26 = var_j1;
      var_j0 -= var_j1;
      var_l5 = var_j0;
      var_j1 = 2048ull;
      var_i0 = var_j0 > var_j1;
      if (var_i0) {goto var_L47;}
    var_j0 = var_l27;
    var_j1 = var_l26;
    var_i0 = var_j0 == var_j1;
    if (var_i0) {goto var_B45;}
    var_B46:;
    var_j0 = var_l5;
    var_i0 = !(var_j0);
    if (var_i0) {goto var_B45;}
    var_j0 = var_l25;
    var_j1 = var_l26;
    var_j0 += var_j1;
    var_l20 = var_j0;
    var_j1 = var_l20;
    var_j2 = 1ull;
    var_j1 += var_j2;
    var_j2 = var_l5;
    memory_copy(origin, origin, var_j0, var_j1, var_j2);
    var_B45:;
    var_j0 = var_l25;
    var_j1 = var_l27;
    var_j0 += var_j1;
    var_i1 = var_p3;
    i32_store8(origin, (u64)(var_j0), var_i1);
    var_j0 = var_p1;
    var_j1 = 2224ull;
    var_j0 += var_j1;
    var_j0 = i64_load(origin, (u64)(var_j0));
    var_l27 = var_j0;
    var_B44:;
    var_j0 = var_p1;
    var_j1 = 2224ull;
    var_j0 += var_j1;
    var_j1 = var_l27;
    var_j2 = 18446744073709551615ull;
    var_j1 += var_j2;
    var_l5 = var_j1;
    i64_store(origin, (u64)(var_j0), var_j1);
    var_j0 = var_l23;
    var_j1 = var_l5;
    var_j0 += var_j1;
    var_i1 = 0u;
    i32_store8(origin, (u64)(var_j0), var_i1);
    goto var_B18;
    var_B23:;
    var_j0 = var_p1;
    var_j1 = 2235ull;
    var_j0 += var_j1;
    var_i1 = var_p3;
    i32_store8(origin, (u64)(var_j0), var_i1);
    var_j0 = var_p1;
    var_j1 = 2234ull;
    var_j0 += var_j1;
    var_i1 = 0u;
    i32_store8(origin, (u64)(var_j0), var_i1);
    var_j0 = var_p1;
    var_j1 = 2233ull;
    var_j0 += var_j1;
    var_i1 = var_p3;
    i32_store8(origin, (u64)(var_j0), var_i1);
    var_j0 = var_p1;
    var_j1 = 2232ull;
    var_j0 += var_j1;
    var_i1 = 1u;
    i32_store8(origin, (u64)(var_j0), var_i1);
    goto var_B18;
    var_B22:;
    var_j0 = var_p1;
    var_j1 = 2232ull;
    var_j0 += var_j1;
    var_i1 = 0u;
    i32_store16(origin, (u64)(var_j0), var_i1);
    goto var_B18;
    var_B21:;
    var_j0 = 0ull;
    var_l5 = var_j0;
    var_j0 = var_p1;
    var_j1 = 2224ull;
    var_j0 += var_j1;
    var_j0 = i64_load(origin, (u64)(var_j0));
    var_l27 = var_j0;
    var_j1 = 1ull;
    var_i0 = var_j0 > var_j1;
    if (var_i0) {goto var_B51;}
    var_j0 = var_l27;
    var_l20 = var_j0;
    var_j0 = var_l27;
    var_i0 = (u32)(var_j0);
    switch (var_i0) {
      case 0: goto var_B49;
      case 1: goto var_B50;
      default: goto var_B49;
    }
    var_B51:;
    var_j0 = var_l27;
    var_l20 = var_j0;
    var_L52:
      var_j0 = var_l5;
      var_j1 = var_l20;
      var_j2 = 1ull;
      var_j1 >>= (var_j2 & 63);
      var_l21 = var_j1;
      var_j2 = var_l5;
      var_j1 += var_j2;
      var_l26 = var_j1;
      var_j2 = var_l23;
      var_j3 = var_l26;
      var_j2 += var_j3;
      var_i2 = i32_load8_u(origin, (u64)(var_j2));
      var_i3 = var_p3;
      var_i4 = 255u;
      var_i3 &= var_i4;
      var_i2 = var_i2 > var_i3;
      var_j0 = var_i2 ? var_j0 : var_j1;
      var_l5 = var_j0;
      var_j0 = var_l20;
      var_j1 = var_l21;
      var_j0 -= var_j1;
      var_l20 = var_j0;
      var_j1 = 1ull;
      var_i0 = var_j0 > var_j1;
      if (var_i0) {goto var_L52;}
    var_B50:;
    var_j0 = var_l5;
    var_j1 = var_l23;
    var_j2 = var_l5;
    var_j1 += var_j2;
    var_i1 = i32_load8_u(origin, (u64)(var_j1));
    var_i2 = var_p3;
    var_i3 = 255u;
    var_i2 &= var_i3;
    var_i1 = var_i1 <= var_i2;
    var_j1 = (u64)(var_i1);
    var_j0 += var_j1;
    var_l20 = var_j0;
    var_B49:;
    var_j0 = var_l23;
    var_j1 = var_l27;
    var_j0 += var_j1;
    var_l26 = var_j0;
    var_i1 = var_p3;
    i32_store8(origin, (u64)(var_j0), var_i1);
    var_j0 = var_p1;
    var_j1 = 2224ull;
    var_j0 += var_j1;
    var_j1 = var_l27;
    var_j2 = 1ull;
    var_j1 += var_j2;
    var_l21 = var_j1;
    i64_store(origin, (u64)(var_j0), var_j1);
    var_j0 = var_l23;
    var_j1 = var_l20;
    var_j0 += var_j1;
    var_l5 = var_j0;
    var_j0 = var_l21;
    var_j1 = var_l20;
    var_j0 -= var_j1;
    var_j1 = 18446744073709551615ull;
    var_j0 += var_j1;
    var_l20 = var_j0;
    var_j1 = 1ull;
    var_i0 = var_j0 > var_j1;
    if (var_i0) {goto var_B54;}
    var_j0 = var_l20;
    var_i0 = (u32)(var_j0);
    switch (var_i0) {
      case 0: goto var_B53;
      case 1: goto var_B55;
      default: goto var_B53;
    }
    var_B55:;
    var_j0 = var_l5;
    var_i0 = i32_load8_u(origin, (u64)(var_j0));
    var_p3 = var_i0;
    var_j0 = var_l5;
    var_j1 = var_l5;
    var_j2 = 1ull;
    var_j1 += var_j2;
    var_i1 = i32_load8_u(origin, (u64)(var_j1));
    i32_store8(origin, (u64)(var_j0), var_i1);
    var_j0 = var_l26;
    var_i1 = var_p3;
    i32_store8(origin, (u64)(var_j0), var_i1);
    goto var_B53;
    var_B54:;
    var_j0 = var_l26;
    var_i0 = i32_load8_u(origin, (u64)(var_j0));
    var_p3 = var_i0;
    var_j0 = var_l20;
    var_i0 = !(var_j0);
    if (var_i0) {goto var_B56;}
    var_j0 = var_l5;
    var_j1 = 1ull;
    var_j0 += var_j1;
    var_j1 = var_l5;
    var_j2 = var_l20;
    memory_copy(origin, origin, var_j0, var_j1, var_j2);
    var_B56:;
    var_j0 = var_l5;
    var_i1 = var_p3;
    i32_store8(origin, (u64)(var_j0), var_i1);
    var_B53:;
    var_j0 = var_p1;
    var_j1 = 2232ull;
    var_j0 += var_j1;
    var_i1 = 0u;
    i32_store16(origin, (u64)(var_j0), var_i1);
    var_B18:;
    var_j0 = var_l24;
    var_j1 = 1ull;
    var_j0 += var_j1;
    var_l24 = var_j0;
    var_j1 = var_l11;
    var_i0 = var_j0 != var_j1;
    if (var_i0) {goto var_L17;}
  var_j0 = var_p1;
  var_j1 = 2241ull;
  var_j0 += var_j1;
  var_l20 = var_j0;
  var_i0 = i32_load8_u(origin, (u64)(var_j0));
  var_p2 = var_i0;
  var_j0 = var_p1;
  var_j1 = 2240ull;
  var_j0 += var_j1;
  var_l21 = var_j0;
  var_i0 = i32_load8_u(origin, (u64)(var_j0));
  var_p3 = var_i0;
  var_j0 = var_l6;
  var_j1 = 16ull;
  var_j0 += var_j1;
  var_l5 = var_j0;
  var_L57:
    var_j0 = var_l5;
    var_j0 = i64_load8_u(origin, (u64)(var_j0));
    var_i0 = (u32)(var_j0);
    switch (var_i0) {
      case 0: goto var_B58;
      case 1: goto var_B58;
      case 2: goto var_B59;
      case 3: goto var_B60;
      default: goto var_B58;
    }
    var_B60:;
    var_j0 = var_l5;
    var_j1 = 2ull;
    var_j0 += var_j1;
    var_i0 = i32_load8_u(origin, (u64)(var_j0));
    if (var_i0) {goto var_B58;}
    var_j0 = var_l5;
    var_j1 = 1ull;
    var_j0 += var_j1;
    var_i0 = i32_load8_u(origin, (u64)(var_j0));
    var_p2 = var_i0;
    var_i0 = 1u;
    var_p3 = var_i0;
    goto var_B58;
    var_B59:;
    var_i0 = 0u;
    var_i1 = var_p3;
    var_j2 = var_l5;
    var_j3 = 2ull;
    var_j2 += var_j3;
    var_i2 = i32_load8_u(origin, (u64)(var_j2));
    var_i3 = 1u;
    var_i2 = var_i2 == var_i3;
    var_i0 = var_i2 ? var_i0 : var_i1;
    var_p3 = var_i0;
    var_B58:;
    var_j0 = var_l5;
    var_j1 = 3ull;
    var_j0 += var_j1;
    var_l5 = var_j0;
    var_j0 = var_l11;
    var_j1 = 18446744073709551615ull;
    var_j0 += var_j1;
    var_l11 = var_j0;
    var_i0 = !(var_j0);
    var_i0 = !(var_i0);
    if (var_i0) {goto var_L57;}
  var_B15:;
  var_j0 = var_l20;
  var_i1 = var_p2;
  i32_store8(origin, (u64)(var_j0), var_i1);
  var_j0 = var_l21;
  var_i1 = var_p3;
  i32_store8(origin, (u64)(var_j0), var_i1);
  var_B1:;
  var_j0 = var_p0;
  var_i1 = 0u;
  i32_store8(origin, (u64)(var_j0), var_i1);
  var_j0 = var_p0;
  var_j1 = 3ull;
  var_j0 += var_j1;
  var_i1 = var_l8;
  i32_store8(origin, (u64)(var_j0), var_i1);
  var_j0 = var_p0;
  var_j1 = 2ull;
  var_j0 += var_j1;
  var_i1 = var_p4;
  i32_store8(origin, (u64)(var_j0), var_i1);
  var_j0 = var_p0;
  var_j1 = 1ull;
  var_j0 += var_j1;
  var_i1 = var_l7;
  i32_store8(origin, (u64)(var_j0), var_i1);
  var_B0:;
  var_j0 = var_l6;
  var_j1 = 48ull;
  var_j0 += var_j1;
  instance->w2c_0x5F_stack_pointer = var_j0;
  FUNC_EPILOGUE;
}

static void w2c_lockreplay_lk_trace0x3A0x3Aline0x3A0x3Aread_line(w2c_lockreplay* instance, u64 var_p0, u64 var_p1, u64 var_p2) {
  u32 var_l9 = 0, var_l10 = 0, var_l11 = 0, var_l12 = 0, var_l13 = 0;
  u64 var_l3 = 0, var_l4 = 0, var_l5 = 0, var_l6 = 0, var_l7 = 0, var_l8 = 0;
  FUNC_PROLOGUE;
  u32 var_i0, var_i1, var_i2;
  u64 var_j0, var_j1, var_j2, var_j3, var_j4;
  var_j0 = instance->w2c_0x5F_stack_pointer;
  var_j1 = 208ull;
  var_j0 -= var_j1;
  var_l3 = var_j0;
  instance->w2c_0x5F_stack_pointer = var_j0;
  var_j0 = var_l3;
  var_l3 = var_j0;
  var_j1 = 16ull;
  var_i0 = (u64)((s64)var_j0 < (s64)var_j1);
  if (var_i0) {goto var_B0;}
  var_j0 = var_l3;
  var_j1 = 0ull;
  i64_store(origin, (u64)(var_j0) + 101, var_j1);
  var_j0 = var_l3;
  var_j1 = 0ull;
  i64_store(origin, (u64)(var_j0) + 96, var_j1);
  var_j0 = var_l3;
  var_j1 = 0ull;
  i64_store(origin, (u64)(var_j0) + 88, var_j1);
  var_j0 = var_l3;
  var_j1 = 0ull;
  i64_store(origin, (u64)(var_j0) + 56, var_j1);
  var_j0 = var_l3;
  var_j1 = 0ull;
  i64_store(origin, (u64)(var_j0) + 64, var_j1);
  var_j0 = var_l3;
  var_j1 = 0ull;
  i64_store(origin, (u64)(var_j0) + 72, var_j1);
  var_j0 = var_l3;
  var_j1 = 0ull;
  i64_store(origin, (u64)(var_j0) + 78, var_j1);
  var_j0 = var_p2;
  var_j1 = 96ull;
  var_i0 = var_j0 <= var_j1;
  if (var_i0) {goto var_B2;}
  var_j0 = var_p0;
  var_i1 = 0u;
  i32_store(origin, (u64)(var_j0) + 7, var_i1);
  var_j0 = var_p0;
  var_j1 = 0ull;
  i64_store(origin, (u64)(var_j0), var_j1);
  var_j0 = var_p0;
  var_j1 = 16ull;
  var_j0 += var_j1;
  var_j1 = 0ull;
  i64_store(origin, (u64)(var_j0), var_j1);
  var_j0 = var_p0;
  var_j1 = 24ull;
  var_j0 += var_j1;
  var_j1 = 0ull;
  i64_store(origin, (u64)(var_j0), var_j1);
  var_j0 = var_p0;
  var_j1 = 32ull;
  var_j0 += var_j1;
  var_j1 = 0ull;
  i64_store(origin, (u64)(var_j0), var_j1);
  var_j0 = var_p0;
  var_j1 = 40ull;
  var_j0 += var_j1;
  var_j1 = 0ull;
  i64_store(origin, (u64)(var_j0), var_j1);
  var_j0 = var_p0;
  var_j1 = 48ull;
  var_j0 += var_j1;
  var_j1 = 0ull;
  i64_store(origin, (u64)(var_j0), var_j1);
  var_j0 = var_p0;
  var_j1 = 56ull;
  var_j0 += var_j1;
  var_j1 = 0ull;
  i64_store(origin, (u64)(var_j0), var_j1);
  goto var_B1;
  var_B2:;
  var_j0 = var_l3;
  var_j1 = 0ull;
  i64_store(origin, (u64)(var_j0) + 144, var_j1);
  var_j0 = var_l3;
  var_j1 = 0ull;
  i64_store(origin, (u64)(var_j0) + 152, var_j1);
  var_j0 = var_l3;
  var_j1 = 0ull;
  i64_store(origin, (u64)(var_j0) + 160, var_j1);
  var_j0 = var_l3;
  var_j1 = 0ull;
  i64_store(origin, (u64)(var_j0) + 168, var_j1);
  var_j0 = var_l3;
  var_j1 = 0ull;
  i64_store(origin, (u64)(var_j0) + 176, var_j1);
  var_j0 = var_l3;
  var_j1 = 0ull;
  i64_store(origin, (u64)(var_j0) + 184, var_j1);
  var_j0 = var_l3;
  var_j1 = 0ull;
  i64_store(origin, (u64)(var_j0) + 192, var_j1);
  var_j0 = var_l3;
  var_j1 = 0ull;
  i64_store(origin, (u64)(var_j0) + 200, var_j1);
  var_j0 = var_l3;
  var_j1 = 1792ull;
  i64_store(origin, (u64)(var_j0) + 136, var_j1);
  var_j0 = var_l3;
  var_i1 = 0u;
  i32_store16(origin, (u64)(var_j0) + 110, var_i1);
  var_j0 = var_p2;
  var_i0 = !(var_j0);
  if (var_i0) {goto var_B4;}
  var_j0 = 0ull;
  var_l4 = var_j0;
  var_L7:
    var_j0 = 1ull;
    var_l5 = var_j0;
    var_j0 = var_p1;
    var_j1 = var_l4;
    var_j0 += var_j1;
    var_l6 = var_j0;
    var_i0 = i32_load8_u(origin, (u64)(var_j0));
    var_i1 = 32u;
    var_i0 = var_i0 == var_i1;
    if (var_i0) {goto var_B6;}
    var_j0 = var_p2;
    var_j1 = var_l4;
    var_j2 = 1ull;
    var_j1 += var_j2;
    var_l4 = var_j1;
    var_i0 = var_j0 != var_j1;
    if (var_i0) {goto var_L7;}
  var_j0 = 0ull;
  var_l5 = var_j0;
  var_j0 = 0ull;
  var_l7 = var_j0;
  var_j0 = 0ull;
  var_l8 = var_j0;
  goto var_B5;
  var_B6:;
  var_j0 = var_l6;
  var_j1 = 1ull;
  var_j0 += var_j1;
  var_l7 = var_j0;
  var_j0 = var_l4;
  var_j1 = 18446744073709551615ull;
  var_j0 ^= var_j1;
  var_j1 = var_p2;
  var_j0 += var_j1;
  var_l8 = var_j0;
  var_j0 = var_l4;
  var_p2 = var_j0;
  var_B5:;
  var_j0 = var_p2;
  var_j1 = 1ull;
  var_i0 = var_j0 > var_j1;
  if (var_i0) {goto var_B9;}
  var_j0 = var_p2;
  var_i0 = (u32)(var_j0);
  switch (var_i0) {
    case 0: goto var_B4;
    case 1: goto var_B8;
    default: goto var_B4;
  }
  var_B9:;
  var_j0 = var_p1;
  var_i0 = i32_load8_u(origin, (u64)(var_j0));
  var_i1 = 48u;
  var_i0 = var_i0 == var_i1;
  if (var_i0) {goto var_B4;}
  var_B8:;
  var_j0 = 0ull;
  var_l4 = var_j0;
  var_L10:
    var_j0 = var_l4;
    var_j1 = 1844674407370955161ull;
    var_i0 = var_j0 > var_j1;
    if (var_i0) {goto var_B4;}
    var_j0 = var_p1;
    var_i0 = i32_load8_u(origin, (u64)(var_j0));
    var_i1 = 4294967248u;
    var_i0 += var_i1;
    var_l9 = var_i0;
    var_i1 = 255u;
    var_i0 &= var_i1;
    var_i1 = 9u;
    var_i0 = var_i0 > var_i1;
    if (var_i0) {goto var_B4;}
    var_j0 = var_l4;
    var_j1 = 10ull;
    var_j0 *= var_j1;
    var_l4 = var_j0;
    var_i1 = var_l9;
    var_j1 = (u64)(var_i1);
    var_j2 = 255ull;
    var_j1 &= var_j2;
    var_l6 = var_j1;
    var_j2 = 18446744073709551615ull;
    var_j1 ^= var_j2;
    var_i0 = var_j0 > var_j1;
    if (var_i0) {goto var_B4;}
    var_j0 = var_p1;
    var_j1 = 1ull;
    var_j0 += var_j1;
    var_p1 = var_j0;
    var_j0 = var_l4;
    var_j1 = var_l6;
    var_j0 += var_j1;
    var_l4 = var_j0;
    var_j0 = var_p2;
    var_j1 = 18446744073709551615ull;
    var_j0 += var_j1;
    var_p2 = var_j0;
    var_j1 = 0ull;
    var_i0 = var_j0 != var_j1;
    if (var_i0) {goto var_L10;}
  var_j0 = var_l4;
  var_j1 = 256ull;
  var_i0 = var_j0 >= var_j1;
  if (var_i0) {goto var_B4;}
  var_j0 = var_l3;
  var_j1 = var_l8;
  i64_store(origin, (u64)(var_j0) + 128, var_j1);
  var_j0 = var_l3;
  var_j1 = var_l7;
  i64_store(origin, (u64)(var_j0) + 120, var_j1);
  var_j0 = var_l3;
  var_j1 = var_l5;
  i64_store(origin, (u64)(var_j0) + 112, var_j1);
  var_j0 = var_l3;
  var_i1 = 0u;
  i32_store8(origin, (u64)(var_j0) + 109, var_i1);
  var_j0 = var_l3;
  var_j1 = 144ull;
  var_j0 += var_j1;
  var_j1 = var_l3;
  var_j2 = 112ull;
  var_j1 += var_j2;
  var_j2 = var_l4;
  var_i2 = (u32)(var_j2);
  var_j3 = var_l3;
  var_j4 = 109ull;
  var_j3 += var_j4;
  w2c_lockreplay_lk_trace0x3A0x3Aline0x3A0x3Amove_with(instance, var_j0, var_j1, var_i2, var_j3);
  var_j0 = var_l3;
  var_j1 = var_l3;
  var_j1 = i64_load(origin, (u64)(var_j1) + 160u);
  i64_store(origin, (u64)(var_j0) + 40, var_j1);
  var_j0 = var_l3;
  var_j1 = var_l3;
  var_j1 = i64_load(origin, (u64)(var_j1) + 168u);
  i64_store(origin, (u64)(var_j0) + 48, var_j1);
  var_j0 = var_l3;
  var_j1 = var_l3;
  var_j1 = i64_load(origin, (u64)(var_j1) + 178u);
  i64_store(origin, (u64)(var_j0) + 8, var_j1);
  var_j0 = var_l3;
  var_j1 = var_l3;
  var_j1 = i64_load(origin, (u64)(var_j1) + 186u);
  i64_store(origin, (u64)(var_j0) + 16, var_j1);
  var_j0 = var_l3;
  var_j1 = var_l3;
  var_j1 = i64_load(origin, (u64)(var_j1) + 194u);
  i64_store(origin, (u64)(var_j0) + 24, var_j1);
  var_j0 = var_l3;
  var_j1 = var_l3;
  var_j1 = i64_load(origin, (u64)(var_j1) + 200u);
  i64_store(origin, (u64)(var_j0) + 30, var_j1);
  var_j0 = var_l3;
  var_i0 = i32_load8_u(origin, (u64)(var_j0) + 144u);
  if (var_i0) {goto var_B4;}
  var_j0 = var_l3;
  var_i0 = i32_load8_u(origin, (u64)(var_j0) + 154u);
  var_l9 = var_i0;
  var_j0 = var_l3;
  var_i0 = i32_load8_u(origin, (u64)(var_j0) + 153u);
  var_l10 = var_i0;
  var_j0 = var_l3;
  var_i0 = i32_load8_u(origin, (u64)(var_j0) + 152u);
  var_l11 = var_i0;
  var_j0 = var_l3;
  var_i0 = i32_load8_u(origin, (u64)(var_j0) + 176u);
  var_l12 = var_i0;
  var_j0 = var_l3;
  var_i0 = i32_load8_u(origin, (u64)(var_j0) + 177u);
  var_l13 = var_i0;
  var_j0 = var_l3;
  var_j1 = var_l3;
  var_j1 = i64_load(origin, (u64)(var_j1) + 30u);
  i64_store(origin, (u64)(var_j0) + 78, var_j1);
  var_j0 = var_l3;
  var_j1 = var_l3;
  var_j1 = i64_load(origin, (u64)(var_j1) + 24u);
  i64_store(origin, (u64)(var_j0) + 72, var_j1);
  var_j0 = var_l3;
  var_j1 = var_l3;
  var_j1 = i64_load(origin, (u64)(var_j1) + 16u);
  i64_store(origin, (u64)(var_j0) + 64, var_j1);
  var_j0 = var_l3;
  var_j1 = var_l3;
  var_j1 = i64_load(origin, (u64)(var_j1) + 8u);
  i64_store(origin, (u64)(var_j0) + 56, var_j1);
  var_j0 = var_l3;
  var_j1 = var_l3;
  var_j1 = i64_load(origin, (u64)(var_j1) + 40u);
  i64_store(origin, (u64)(var_j0) + 93, var_j1);
  var_j0 = var_l3;
  var_j1 = var_l3;
  var_j1 = i64_load(origin, (u64)(var_j1) + 48u);
  i64_store(origin, (u64)(var_j0) + 101, var_j1);
  var_j0 = 1ull;
  var_l4 = var_j0;
  goto var_B3;
  var_B4:;
  var_j0 = 0ull;
  var_l4 = var_j0;
  var_j0 = var_l3;
  var_j1 = 0ull;
  i64_store(origin, (u64)(var_j0) + 101, var_j1);
  var_j0 = var_l3;
  var_j1 = 0ull;
  i64_store(origin, (u64)(var_j0) + 93, var_j1);
  var_j0 = var_l3;
  var_j1 = 0ull;
  i64_store(origin, (u64)(var_j0) + 56, var_j1);
  var_j0 = var_l3;
  var_j1 = 0ull;
  i64_store(origin, (u64)(var_j0) + 64, var_j1);
  var_j0 = var_l3;
  var_j1 = 0ull;
  i64_store(origin, (u64)(var_j0) + 72, var_j1);
  var_j0 = var_l3;
  var_j1 = 0ull;
  i64_store(origin, (u64)(var_j0) + 78, var_j1);
  var_i0 = 0u;
  var_l11 = var_i0;
  var_i0 = 0u;
  var_l10 = var_i0;
  var_i0 = 0u;
  var_l9 = var_i0;
  var_i0 = 0u;
  var_l12 = var_i0;
  var_i0 = 0u;
  var_l13 = var_i0;
  var_B3:;
  var_j0 = var_p0;
  var_j1 = var_l4;
  i64_store(origin, (u64)(var_j0), var_j1);
  var_j0 = var_p0;
  var_j1 = 10ull;
  var_j0 += var_j1;
  var_i1 = var_l9;
  i32_store8(origin, (u64)(var_j0), var_i1);
  var_j0 = var_p0;
  var_j1 = 9ull;
  var_j0 += var_j1;
  var_i1 = var_l10;
  i32_store8(origin, (u64)(var_j0), var_i1);
  var_j0 = var_p0;
  var_j1 = 8ull;
  var_j0 += var_j1;
  var_i1 = var_l11;
  i32_store8(origin, (u64)(var_j0), var_i1);
  var_j0 = var_p0;
  var_j1 = 16ull;
  var_j0 += var_j1;
  var_j1 = var_l3;
  var_j1 = i64_load(origin, (u64)(var_j1) + 93u);
  i64_store(origin, (u64)(var_j0), var_j1);
  var_j0 = var_p0;
  var_j1 = 24ull;
  var_j0 += var_j1;
  var_j1 = var_l3;
  var_j1 = i64_load(origin, (u64)(var_j1) + 101u);
  i64_store(origin, (u64)(var_j0), var_j1);
  var_j0 = var_p0;
  var_j1 = 33ull;
  var_j0 += var_j1;
  var_i1 = var_l13;
  i32_store8(origin, (u64)(var_j0), var_i1);
  var_j0 = var_p0;
  var_j1 = 32ull;
  var_j0 += var_j1;
  var_i1 = var_l12;
  i32_store8(origin, (u64)(var_j0), var_i1);
  var_j0 = var_p0;
  var_j1 = 34ull;
  var_j0 += var_j1;
  var_j1 = var_l3;
  var_j1 = i64_load(origin, (u64)(var_j1) + 56u);
  i64_store(origin, (u64)(var_j0), var_j1);
  var_j0 = var_p0;
  var_j1 = 42ull;
  var_j0 += var_j1;
  var_j1 = var_l3;
  var_j1 = i64_load(origin, (u64)(var_j1) + 64u);
  i64_store(origin, (u64)(var_j0), var_j1);
  var_j0 = var_p0;
  var_j1 = 50ull;
  var_j0 += var_j1;
  var_j1 = var_l3;
  var_j1 = i64_load(origin, (u64)(var_j1) + 72u);
  i64_store(origin, (u64)(var_j0), var_j1);
  var_j0 = var_p0;
  var_j1 = 56ull;
  var_j0 += var_j1;
  var_j1 = var_l3;
  var_j1 = i64_load(origin, (u64)(var_j1) + 78u);
  i64_store(origin, (u64)(var_j0), var_j1);
  var_B1:;
  var_j0 = var_l3;
  var_j1 = 208ull;
  var_j0 += var_j1;
  instance->w2c_0x5F_stack_pointer = var_j0;
  goto var_Bfunc;
  var_B0:;
  UNREACHABLE;
  var_Bfunc:;
  FUNC_EPILOGUE;
}

static u64 w2c_lockreplay_lt_fault_text_0(w2c_lockreplay* instance, u32 var_p0, u64 var_p1, u64 var_p2) {
  FUNC_PROLOGUE;
  u32 var_i0;
  u64 var_j0, var_j1, var_j2;
  var_i0 = w2c_lockreplay_0x5F_rattle_enter(instance);
  var_i0 = !(var_i0);
  if (var_i0) {goto var_B0;}
  w2c_lockreplay_0x5F_rattle_trap(instance);
  UNREACHABLE;
  var_B0:;
  var_i0 = var_p0;
  var_j1 = var_p1;
  var_j2 = var_p2;
  var_j0 = w2c_lockreplay_rattle0x3A0x3Aexport0x20lt_fault_text(instance, var_i0, var_j1, var_j2);
  var_p2 = var_j0;
  w2c_lockreplay_0x5F_rattle_leave(instance);
  var_j0 = var_p2;
  FUNC_EPILOGUE;
  return var_j0;
}

static u64 w2c_lockreplay_rattle0x3A0x3Aexport0x20lt_fault_text(w2c_lockreplay* instance, u32 var_p0, u64 var_p1, u64 var_p2) {
  u64 var_l3 = 0, var_l4 = 0, var_l5 = 0, var_l6 = 0, var_l7 = 0, var_l8 = 0, var_l9 = 0, var_l10 = 0;
  FUNC_PROLOGUE;
  u32 var_i0, var_i1, var_i3;
  u64 var_j0, var_j1, var_j2, var_j3, var_j4;
  var_j0 = instance->w2c_0x5F_stack_pointer;
  var_j1 = 16ull;
  var_i0 = (u64)((s64)var_j0 < (s64)var_j1);
  if (var_i0) {goto var_B1;}
  var_j0 = var_p1;
  var_j1 = 4096ull;
  var_j2 = 0ull;
  var_j3 = var_p1;
  var_i3 = !(var_j3);
  var_j1 = var_i3 ? var_j1 : var_j2;
  var_l3 = var_j1;
  var_j0 += var_j1;
  var_l4 = var_j0;
  var_i0 = var_p0;
  var_i1 = 20u;
  var_i0 = var_i0 <= var_i1;
  if (var_i0) {goto var_B3;}
  var_j0 = 1057254ull;
  var_l5 = var_j0;
  var_j0 = 24ull;
  var_l6 = var_j0;
  goto var_B2;
  var_B3:;
  var_i0 = var_p0;
  var_j0 = (u64)(var_i0);
  var_j1 = 3ull;
  var_j0 <<= (var_j1 & 63);
  var_l7 = var_j0;
  var_j0 = i64_load(origin, (u64)(var_j0) + 1059144u);
  var_l5 = var_j0;
  var_j0 = var_l7;
  var_j0 = i64_load(origin, (u64)(var_j0) + 1058976u);
  var_l6 = var_j0;
  var_B2:;
  var_j0 = var_l4;
  var_j1 = var_l5;
  var_j0 -= var_j1;
  var_j1 = var_p2;
  var_j2 = var_l6;
  var_j3 = var_p2;
  var_j4 = var_l6;
  var_i3 = var_j3 < var_j4;
  var_j1 = var_i3 ? var_j1 : var_j2;
  var_p2 = var_j1;
  var_i0 = var_j0 >= var_j1;
  if (var_i0) {goto var_B4;}
  var_j0 = var_p2;
  var_j1 = 3ull;
  var_j0 &= var_j1;
  var_l8 = var_j0;
  var_j0 = 0ull;
  var_l7 = var_j0;
  var_j0 = var_p2;
  var_j1 = 4ull;
  var_i0 = var_j0 < var_j1;
  if (var_i0) {goto var_B5;}
  var_j0 = var_p2;
  var_j1 = 18446744073709551612ull;
  var_j0 &= var_j1;
  var_l9 = var_j0;
  var_j0 = 0ull;
  var_l7 = var_j0;
  var_L6:
    var_j0 = var_l4;
    var_j1 = var_l7;
    var_j0 += var_j1;
    var_p2 = var_j0;
    var_j1 = var_l5;
    var_j2 = var_l7;
    var_j1 += var_j2;
    var_l10 = var_j1;
    var_i1 = i32_load8_u(origin, (u64)(var_j1));
    i32_store8(origin, (u64)(var_j0), var_i1);
    var_j0 = var_p2;
    var_j1 = 1ull;
    var_j0 += var_j1;
    var_j1 = var_l10;
    var_j2 = 1ull;
    var_j1 += var_j2;
    var_i1 = i32_load8_u(origin, (u64)(var_j1));
    i32_store8(origin, (u64)(var_j0), var_i1);
    var_j0 = var_p2;
    var_j1 = 2ull;
    var_j0 += var_j1;
    var_j1 = var_l10;
    var_j2 = 2ull;
    var_j1 += var_j2;
    var_i1 = i32_load8_u(origin, (u64)(var_j1));
    i32_store8(origin, (u64)(var_j0), var_i1);
    var_j0 = var_p2;
    var_j1 = 3ull;
    var_j0 += var_j1;
    var_j1 = var_l10;
    var_j2 = 3ull;
    var_j1 += var_j2;
    var_i1 = i32_load8_u(origin, (u64)(var_j1));
    i32_store8(origin, (u64)(var_j0), var_i1);
    var_j0 = var_l9;
    var_j1 = var_l7;
    var_j2 = 4ull;
    var_j1 += var_j2;
    var_l7 = var_j1;
    var_i0 = var_j0 != var_j1;
    if (var_i0) {goto var_L6;}
  var_j0 = var_l8;
  var_i0 = !(var_j0);
  if (var_i0) {goto var_B0;}
  var_B5:;
  var_j0 = var_l5;
  var_j1 = var_l7;
  var_j0 += var_j1;
  var_p2 = var_j0;
  var_j0 = var_p1;
  var_j1 = var_l3;
  var_j2 = var_l7;
  var_j1 += var_j2;
  var_j0 += var_j1;
  var_l7 = var_j0;
  var_L7:
    var_j0 = var_l7;
    var_j1 = var_p2;
    var_i1 = i32_load8_u(origin, (u64)(var_j1));
    i32_store8(origin, (u64)(var_j0), var_i1);
    var_j0 = var_l7;
    var_j1 = 1ull;
    var_j0 += var_j1;
    var_l7 = var_j0;
    var_j0 = var_p2;
    var_j1 = 1ull;
    var_j0 += var_j1;
    var_p2 = var_j0;
    var_j0 = var_l8;
    var_j1 = 18446744073709551615ull;
    var_j0 += var_j1;
    var_l8 = var_j0;
    var_j1 = 0ull;
    var_i0 = var_j0 != var_j1;
    if (var_i0) {goto var_L7;}
    goto var_B0;
  var_B4:;
  var_j0 = var_p2;
  var_i0 = !(var_j0);
  if (var_i0) {goto var_B0;}
  var_j0 = var_l4;
  var_j1 = var_l5;
  var_j2 = var_p2;
  memory_copy(origin, origin, var_j0, var_j1, var_j2);
  var_j0 = var_l6;
  goto var_Bfunc;
  var_B1:;
  UNREACHABLE;
  var_B0:;
  var_j0 = var_l6;
  var_Bfunc:;
  FUNC_EPILOGUE;
  return var_j0;
}

static u32 w2c_lockreplay_lt_check_0(w2c_lockreplay* instance, u64 var_p0, u64 var_p1, u64 var_p2, u64 var_p3, u64 var_p4) {
  u32 var_l5 = 0;
  FUNC_PROLOGUE;
  u32 var_i0;
  u64 var_j0, var_j1, var_j2, var_j3, var_j4;
  var_i0 = w2c_lockreplay_0x5F_rattle_enter(instance);
  var_i0 = !(var_i0);
  if (var_i0) {goto var_B0;}
  w2c_lockreplay_0x5F_rattle_trap(instance);
  UNREACHABLE;
  var_B0:;
  var_j0 = var_p0;
  var_j1 = var_p1;
  var_j2 = var_p2;
  var_j3 = var_p3;
  var_j4 = var_p4;
  var_i0 = w2c_lockreplay_rattle0x3A0x3Aexport0x20lt_check(instance, var_j0, var_j1, var_j2, var_j3, var_j4);
  var_l5 = var_i0;
  w2c_lockreplay_0x5F_rattle_leave(instance);
  var_i0 = var_l5;
  FUNC_EPILOGUE;
  return var_i0;
}

static u32 w2c_lockreplay_rattle0x3A0x3Aexport0x20lt_check(w2c_lockreplay* instance, u64 var_p0, u64 var_p1, u64 var_p2, u64 var_p3, u64 var_p4) {
  u32 var_l15 = 0, var_l16 = 0, var_l17 = 0, var_l18 = 0, var_l22 = 0, var_l23 = 0, var_l24 = 0;
  u64 var_l5 = 0, var_l6 = 0, var_l7 = 0, var_l8 = 0, var_l9 = 0, var_l10 = 0, var_l11 = 0, var_l12 = 0,
      var_l13 = 0, var_l14 = 0, var_l19 = 0, var_l20 = 0, var_l21 = 0;
  FUNC_PROLOGUE;
  u32 var_i0, var_i1, var_i2, var_i3, var_i4;
  u64 var_j0, var_j1, var_j2, var_j3, var_j4;
  var_j0 = instance->w2c_0x5F_stack_pointer;
  var_j1 = 2592ull;
  var_j0 -= var_j1;
  var_l5 = var_j0;
  instance->w2c_0x5F_stack_pointer = var_j0;
  var_j0 = var_l5;
  var_l6 = var_j0;
  var_j1 = 16ull;
  var_i0 = (u64)((s64)var_j0 < (s64)var_j1);
  if (var_i0) {goto var_B0;}
  var_j0 = var_p2;
  var_j1 = 4096ull;
  var_j2 = 0ull;
  var_j3 = var_p2;
  var_i3 = !(var_j3);
  var_j1 = var_i3 ? var_j1 : var_j2;
  var_j0 += var_j1;
  var_l7 = var_j0;
  var_j0 = var_p4;
  var_j1 = 0ull;
  i64_store(origin, (u64)(var_j0) + 16, var_j1);
  var_j0 = var_p4;
  var_j1 = 0ull;
  i64_store(origin, (u64)(var_j0) + 8, var_j1);
  var_j0 = var_p4;
  var_j1 = 0ull;
  i64_store(origin, (u64)(var_j0), var_j1);
  var_j0 = var_l6;
  var_j1 = 8ull;
  var_j0 += var_j1;
  var_i1 = 0u;
  var_j2 = 2264ull;
  memory_fill(origin, var_j0, var_i1, var_j2);
  var_j0 = var_p0;
  var_j1 = 4096ull;
  var_j2 = 0ull;
  var_j3 = var_p0;
  var_i3 = !(var_j3);
  var_j1 = var_i3 ? var_j1 : var_j2;
  var_j0 += var_j1;
  var_l5 = var_j0;
  var_j0 = var_l6;
  var_j1 = 2536ull;
  var_j0 += var_j1;
  var_j1 = 8ull;
  var_j0 += var_j1;
  var_l8 = var_j0;
  var_j0 = var_l6;
  var_j1 = 2272ull;
  var_j0 += var_j1;
  var_j1 = 16ull;
  var_j0 += var_j1;
  var_l9 = var_j0;
  var_j0 = var_l6;
  var_j1 = 2097ull;
  var_j0 += var_j1;
  var_l10 = var_j0;
  var_j0 = var_l6;
  var_j1 = 1065ull;
  var_j0 += var_j1;
  var_l11 = var_j0;
  var_j0 = var_l6;
  var_j1 = 18ull;
  var_j0 += var_j1;
  var_l12 = var_j0;
  var_j0 = var_l6;
  var_j1 = 8ull;
  var_j0 += var_j1;
  var_j1 = 8ull;
  var_j0 += var_j1;
  var_l13 = var_j0;
  var_L2:
    var_j0 = var_l5;
    var_p0 = var_j0;
    var_j0 = var_p1;
    var_i0 = !(var_j0);
    if (var_i0) {goto var_B7;}
    var_j0 = 0ull;
    var_p2 = var_j0;
    var_L10:
      var_j0 = var_p0;
      var_j1 = var_p2;
      var_j0 += var_j1;
      var_l5 = var_j0;
      var_i0 = i32_load8_u(origin, (u64)(var_j0));
      var_i1 = 10u;
      var_i0 = var_i0 == var_i1;
      if (var_i0) {goto var_B9;}
      var_j0 = var_p1;
      var_j1 = var_p2;
      var_j2 = 1ull;
      var_j1 += var_j2;
      var_p2 = var_j1;
      var_i0 = var_j0 != var_j1;
      if (var_i0) {goto var_L10;}
    var_j0 = 1058584ull;
    var_l5 = var_j0;
    var_j0 = var_p1;
    var_p2 = var_j0;
    var_j0 = 0ull;
    var_p1 = var_j0;
    goto var_B8;
    var_B9:;
    var_j0 = var_p2;
    var_j1 = 18446744073709551615ull;
    var_j0 ^= var_j1;
    var_j1 = var_p1;
    var_j0 += var_j1;
    var_p1 = var_j0;
    var_j0 = var_l5;
    var_j1 = 1ull;
    var_j0 += var_j1;
    var_l5 = var_j0;
    var_B8:;
    var_j0 = var_p4;
    var_j1 = 18446744073709551615ull;
    var_j2 = var_p4;
    var_j2 = i64_load(origin, (u64)(var_j2));
    var_j3 = 1ull;
    var_j2 += var_j3;
    var_l14 = var_j2;
    var_j3 = var_l14;
    var_i3 = !(var_j3);
    var_j1 = var_i3 ? var_j1 : var_j2;
    i64_store(origin, (u64)(var_j0), var_j1);
    var_j0 = var_l6;
    var_j1 = 0ull;
    i64_store(origin, (u64)(var_j0) + 2328, var_j1);
    var_j0 = var_l6;
    var_j1 = 0ull;
    i64_store(origin, (u64)(var_j0) + 2320, var_j1);
    var_j0 = var_l6;
    var_j1 = 0ull;
    i64_store(origin, (u64)(var_j0) + 2312, var_j1);
    var_j0 = var_l6;
    var_j1 = 0ull;
    i64_store(origin, (u64)(var_j0) + 2304, var_j1);
    var_j0 = var_l6;
    var_j1 = 0ull;
    i64_store(origin, (u64)(var_j0) + 2296, var_j1);
    var_j0 = var_l6;
    var_j1 = 0ull;
    i64_store(origin, (u64)(var_j0) + 2288, var_j1);
    var_j0 = var_l6;
    var_j1 = 0ull;
    i64_store(origin, (u64)(var_j0) + 2280, var_j1);
    var_j0 = var_l6;
    var_j1 = 0ull;
    i64_store(origin, (u64)(var_j0) + 2272, var_j1);
    var_j0 = var_p2;
    var_i0 = !(var_j0);
    if (var_i0) {goto var_B12;}
    var_j0 = var_p0;
    var_i0 = i32_load8_u(origin, (u64)(var_j0));
    var_i1 = 35u;
    var_i0 = var_i0 == var_i1;
    if (var_i0) {goto var_B12;}
    var_j0 = var_l6;
    var_i0 = i32_load8_u(origin, (u64)(var_j0) + 8u);
    var_i1 = 1u;
    var_i0 = var_i0 != var_i1;
    if (var_i0) {goto var_B13;}
    var_j0 = var_l6;
    var_j1 = 2272ull;
    var_j0 += var_j1;
    var_j1 = var_p0;
    var_j2 = var_p2;
    w2c_lockreplay_lk_trace0x3A0x3Aline0x3A0x3Aread_line(instance, var_j0, var_j1, var_j2);
    var_j0 = var_l6;
    var_i0 = i32_load8_u(origin, (u64)(var_j0) + 2272u);
    var_i1 = 1u;
    var_i0 = var_i0 != var_i1;
    if (var_i0) {goto var_B6;}
    var_j0 = var_l6;
    var_i0 = i32_load8_u(origin, (u64)(var_j0) + 2280u);
    var_l15 = var_i0;
    var_j0 = var_l6;
    var_i0 = i32_load8_u(origin, (u64)(var_j0) + 2281u);
    var_l16 = var_i0;
    var_j0 = var_l6;
    var_i0 = i32_load8_u(origin, (u64)(var_j0) + 2282u);
    var_l17 = var_i0;
    var_j0 = var_l8;
    var_j1 = var_l9;
    var_j1 = i64_load(origin, (u64)(var_j1));
    i64_store(origin, (u64)(var_j0), var_j1);
    var_j0 = var_l8;
    var_j1 = var_l9;
    var_j1 = i64_load(origin, (u64)(var_j1) + 8u);
    i64_store(origin, (u64)(var_j0) + 8, var_j1);
    var_j0 = var_l8;
    var_j1 = var_l9;
    var_j1 = i64_load(origin, (u64)(var_j1) + 16u);
    i64_store(origin, (u64)(var_j0) + 16, var_j1);
    var_j0 = var_l8;
    var_j1 = var_l9;
    var_j1 = i64_load(origin, (u64)(var_j1) + 24u);
    i64_store(origin, (u64)(var_j0) + 24, var_j1);
    var_j0 = var_l8;
    var_j1 = var_l9;
    var_j1 = i64_load(origin, (u64)(var_j1) + 32u);
    i64_store(origin, (u64)(var_j0) + 32, var_j1);
    var_j0 = var_l8;
    var_j1 = var_l9;
    var_j1 = i64_load(origin, (u64)(var_j1) + 40u);
    i64_store(origin, (u64)(var_j0) + 40, var_j1);
    var_j0 = 0ull;
    var_p0 = var_j0;
    var_j0 = var_l6;
    var_j1 = 0ull;
    i64_store(origin, (u64)(var_j0) + 2536, var_j1);
    var_j0 = var_l6;
    var_i1 = var_l17;
    i32_store8(origin, (u64)(var_j0) + 2538, var_i1);
    var_j0 = var_l6;
    var_i1 = var_l16;
    i32_store8(origin, (u64)(var_j0) + 2537, var_i1);
    var_j0 = var_l6;
    var_i1 = var_l15;
    i32_store8(origin, (u64)(var_j0) + 2536, var_i1);
    var_i0 = 0u;
    var_l18 = var_i0;
    var_j0 = var_l6;
    var_j1 = 2336ull;
    var_j0 += var_j1;
    var_i1 = 0u;
    var_j2 = 192ull;
    memory_fill(origin, var_j0, var_i1, var_j2);
    var_j0 = var_l6;
    var_j1 = 2336ull;
    var_j0 += var_j1;
    var_j1 = var_l13;
    var_j2 = var_l6;
    var_j2 = i64_load(origin, (u64)(var_j2) + 2264u);
    var_p2 = var_j2;
    var_j3 = var_l6;
    var_j4 = 2536ull;
    var_j3 += var_j4;
    w2c_lockreplay_lk_trace0x3A0x3Acompare0x3A0x3Acheck_line(instance, var_j0, var_j1, var_j2, var_j3);
    var_j0 = var_l6;
    var_i0 = i32_load8_u(origin, (u64)(var_j0) + 2336u);
    if (var_i0) {goto var_B11;}
    var_j0 = var_l6;
    var_j1 = var_l6;
    var_j1 = i64_load(origin, (u64)(var_j1) + 2560u);
    var_j2 = var_p2;
    var_j3 = var_l6;
    var_i3 = i32_load8_u(origin, (u64)(var_j3) + 2552u);
    var_i4 = 255u;
    var_i3 &= var_i4;
    var_i4 = 1u;
    var_i3 = var_i3 == var_i4;
    var_j1 = var_i3 ? var_j1 : var_j2;
    var_j2 = var_p2;
    var_j3 = var_l6;
    var_i3 = i32_load8_u(origin, (u64)(var_j3) + 2544u);
    var_i4 = 2u;
    var_i3 = var_i3 == var_i4;
    var_j1 = var_i3 ? var_j1 : var_j2;
    i64_store(origin, (u64)(var_j0) + 2264, var_j1);
    var_j0 = var_l6;
    var_j0 = i64_load(origin, (u64)(var_j0) + 2360u);
    var_p0 = var_j0;
    var_j0 = var_l6;
    var_j1 = 2532ull;
    var_j0 += var_j1;
    var_j1 = var_l13;
    var_i2 = var_l15;
    var_i3 = var_l16;
    var_i4 = var_l17;
    w2c_lockreplay_lk_locks0x3A0x3Atracker0x3A0x3ATracker0x3A0x3Aplay0x3A0x3A0x3C0x23e396818bfda329340x3E(instance, var_j0, var_j1, var_i2, var_i3, var_i4);
    var_j0 = var_p4;
    var_j0 = i64_load(origin, (u64)(var_j0) + 8u);
    var_p2 = var_j0;
    var_j1 = var_p3;
    var_i0 = var_j0 >= var_j1;
    if (var_i0) {goto var_B14;}
    var_j0 = var_l6;
    var_j0 = i64_load(origin, (u64)(var_j0) + 2392u);
    var_l19 = var_j0;
    var_j0 = var_l6;
    var_j0 = i64_load(origin, (u64)(var_j0) + 2384u);
    var_l20 = var_j0;
    var_j0 = var_l6;
    var_j0 = i64_load(origin, (u64)(var_j0) + 2376u);
    var_l14 = var_j0;
    var_j0 = var_l6;
    var_i0 = i32_load8_u(origin, (u64)(var_j0) + 2368u);
    var_l18 = var_i0;
    var_j0 = var_p4;
    var_j0 = i64_load(origin, (u64)(var_j0));
    var_l21 = var_j0;
    var_j0 = var_l7;
    var_j1 = var_p2;
    var_j2 = 40ull;
    var_j1 *= var_j2;
    var_j0 += var_j1;
    var_p2 = var_j0;
    var_j1 = var_p0;
    var_i1 = (u32)(var_j1);
    var_i2 = 255u;
    var_i1 &= var_i2;
    i32_store(origin, (u64)(var_j0) + 32, var_i1);
    var_j0 = var_p2;
    var_i1 = var_l15;
    i32_store(origin, (u64)(var_j0) + 24, var_i1);
    var_j0 = var_p2;
    var_j1 = var_l21;
    i64_store(origin, (u64)(var_j0), var_j1);
    var_j0 = var_p2;
    var_j1 = var_l14;
    var_i1 = (u32)(var_j1);
    var_i2 = 4294967295u;
    var_j3 = var_l14;
    var_j4 = 129ull;
    var_i3 = var_j3 < var_j4;
    var_i1 = var_i3 ? var_i1 : var_i2;
    var_i2 = 4294967295u;
    var_i3 = var_l18;
    var_i4 = 255u;
    var_i3 &= var_i4;
    var_i4 = 1u;
    var_i3 = var_i3 == var_i4;
    var_l15 = var_i3;
    var_i1 = var_i3 ? var_i1 : var_i2;
    i32_store(origin, (u64)(var_j0) + 36, var_i1);
    var_j0 = var_p2;
    var_i1 = var_l17;
    var_i2 = 16u;
    var_i1 += var_i2;
    var_i2 = var_l17;
    var_i3 = var_l16;
    var_i4 = 255u;
    var_i3 &= var_i4;
    var_i1 = var_i3 ? var_i1 : var_i2;
    var_i2 = 255u;
    var_i1 &= var_i2;
    i32_store(origin, (u64)(var_j0) + 28, var_i1);
    var_j0 = var_p2;
    var_j1 = var_l19;
    var_j2 = 0ull;
    var_i3 = var_l15;
    var_j1 = var_i3 ? var_j1 : var_j2;
    i64_store(origin, (u64)(var_j0) + 16, var_j1);
    var_j0 = var_p2;
    var_j1 = var_l20;
    var_j2 = 0ull;
    var_i3 = var_l15;
    var_j1 = var_i3 ? var_j1 : var_j2;
    i64_store(origin, (u64)(var_j0) + 8, var_j1);
    var_j0 = var_p4;
    var_j0 = i64_load(origin, (u64)(var_j0) + 8u);
    var_p2 = var_j0;
    var_B14:;
    var_j0 = var_p4;
    var_j1 = 18446744073709551615ull;
    var_j2 = var_p2;
    var_j3 = 1ull;
    var_j2 += var_j3;
    var_p2 = var_j2;
    var_j3 = var_p2;
    var_i3 = !(var_j3);
    var_j1 = var_i3 ? var_j1 : var_j2;
    i64_store(origin, (u64)(var_j0) + 8, var_j1);
    goto var_B12;
    var_B13:;
    var_j0 = var_l6;
    var_i1 = 0u;
    i32_store(origin, (u64)(var_j0) + 2344, var_i1);
    var_j0 = var_l6;
    var_j1 = 0ull;
    i64_store(origin, (u64)(var_j0) + 2336, var_j1);
    var_j0 = var_p2;
    var_j1 = 96ull;
    var_i0 = var_j0 <= var_j1;
    if (var_i0) {goto var_B15;}
    var_i0 = 17u;
    var_l15 = var_i0;
    goto var_B5;
    var_B15:;
    var_j0 = var_l6;
    var_j1 = 2336ull;
    var_j0 += var_j1;
    var_j1 = var_p0;
    var_j2 = var_p2;
    var_i3 = 0u;
    w2c_lockreplay_lk_lines0x3A0x3Aheader0x3A0x3Aheader_of(instance, var_j0, var_j1, var_j2, var_i3);
    var_j0 = var_l6;
    var_i0 = i32_load8_u(origin, (u64)(var_j0) + 2336u);
    var_i0 = !(var_i0);
    if (var_i0) {goto var_B16;}
    var_j0 = var_l6;
    var_j0 = i64_load8_u(origin, (u64)(var_j0) + 2340u);
    var_j1 = 2ull;
    var_j0 <<= (var_j1 & 63);
    var_i0 = i32_load(origin, (u64)(var_j0) + 1059704u);
    var_l15 = var_i0;
    goto var_B5;
    var_B16:;
    var_j0 = var_l6;
    var_i0 = i32_load16_u(origin, (u64)(var_j0) + 2338u);
    var_l15 = var_i0;
    var_i1 = 8u;
    var_i0 >>= (var_i1 & 31);
    var_l16 = var_i0;
    var_j0 = 2ull;
    var_p2 = var_j0;
    var_j0 = var_l6;
    var_i0 = i32_load8_u(origin, (u64)(var_j0) + 2337u);
    var_l17 = var_i0;
    var_j0 = (u64)(var_i0);
    var_j1 = 255ull;
    var_j0 &= var_j1;
    var_i0 = (u32)(var_j0);
    switch (var_i0) {
      case 0: goto var_B17;
      case 1: goto var_B18;
      case 2: goto var_B17;
      case 3: goto var_B19;
      default: goto var_B17;
    }
    var_B19:;
    var_j0 = 3ull;
    var_p2 = var_j0;
    goto var_B17;
    var_B18:;
    var_i0 = var_l15;
    var_i1 = 1u;
    var_i0 <<= (var_i1 & 31);
    var_i1 = 510u;
    var_i0 &= var_i1;
    var_i1 = 1u;
    var_i0 |= var_i1;
    var_j0 = (u64)(var_i0);
    var_p2 = var_j0;
    var_B17:;
    var_j0 = var_l6;
    var_i1 = var_l17;
    i32_store8(origin, (u64)(var_j0) + 16, var_i1);
    var_j0 = var_l6;
    var_j1 = 1ull;
    i64_store(origin, (u64)(var_j0) + 8, var_j1);
    var_j0 = var_l6;
    var_i1 = var_l15;
    i32_store8(origin, (u64)(var_j0) + 17, var_i1);
    var_j0 = var_l12;
    var_i1 = 0u;
    var_j2 = 1038ull;
    memory_fill(origin, var_j0, var_i1, var_j2);
    var_j0 = var_l6;
    var_i1 = var_l16;
    i32_store8(origin, (u64)(var_j0) + 1064, var_i1);
    var_j0 = var_l6;
    var_j1 = var_p2;
    i64_store(origin, (u64)(var_j0) + 1056, var_j1);
    var_j0 = var_l11;
    var_i1 = 0u;
    var_j2 = 1031ull;
    memory_fill(origin, var_j0, var_i1, var_j2);
    var_j0 = var_l6;
    var_i1 = var_l17;
    i32_store8(origin, (u64)(var_j0) + 2096, var_i1);
    var_j0 = var_l10;
    var_i1 = 0u;
    var_j2 = 175ull;
    memory_fill(origin, var_j0, var_i1, var_j2);
    var_j0 = var_p4;
    var_i1 = var_l15;
    var_i2 = 255u;
    var_i1 &= var_i2;
    i32_store(origin, (u64)(var_j0) + 20, var_i1);
    var_B12:;
    var_j0 = var_p4;
    var_i0 = i32_load(origin, (u64)(var_j0) + 16u);
    var_l15 = var_i0;
    var_i0 = !(var_i0);
    if (var_i0) {goto var_L2;}
    goto var_B1;
    var_B11:;
    var_j0 = var_l6;
    var_i0 = i32_load8_u(origin, (u64)(var_j0) + 2344u);
    var_l17 = var_i0;
    var_j0 = var_l6;
    var_i0 = i32_load8_u(origin, (u64)(var_j0) + 2345u);
    var_l22 = var_i0;
    var_i0 = 4294967295u;
    var_l16 = var_i0;
    var_j0 = var_l6;
    var_i0 = i32_load8_u(origin, (u64)(var_j0) + 8u);
    var_i1 = 1u;
    var_i0 = var_i0 != var_i1;
    if (var_i0) {goto var_B4;}
    var_j0 = var_l6;
    var_i0 = i32_load8_u(origin, (u64)(var_j0) + 17u);
    var_i1 = 255u;
    var_i0 &= var_i1;
    var_i1 = var_l15;
    var_i0 = var_i0 <= var_i1;
    if (var_i0) {goto var_B4;}
    var_j0 = var_p4;
    var_j0 = i64_load(origin, (u64)(var_j0));
    var_p2 = var_j0;
    var_j0 = var_l6;
    var_j1 = var_l13;
    var_i2 = var_l15;
    w2c_lockreplay_lk_locks0x3A0x3Amachine0x3A0x3AMachine0x3A0x3Anext_step0x3A0x3A0x3C0x23e396818bfda329340x3E(instance, var_j0, var_j1, var_i2);
    var_j0 = 0ull;
    var_l14 = var_j0;
    var_j0 = 0ull;
    var_l19 = var_j0;
    var_i0 = 0u;
    var_l23 = var_i0;
    var_i0 = 0u;
    var_l24 = var_i0;
    var_j0 = var_l6;
    var_i0 = i32_load8_u(origin, (u64)(var_j0));
    var_i1 = 1u;
    var_i0 &= var_i1;
    var_i0 = !(var_i0);
    if (var_i0) {goto var_B3;}
    var_j0 = var_l6;
    var_i0 = i32_load8_u(origin, (u64)(var_j0) + 1u);
    var_l18 = var_i0;
    var_i0 = 0u;
    var_l16 = var_i0;
    var_j0 = var_l6;
    var_j1 = 2336ull;
    var_j0 += var_j1;
    var_i1 = 0u;
    var_j2 = 120ull;
    memory_fill(origin, var_j0, var_i1, var_j2);
    var_j0 = var_l6;
    var_j1 = 2336ull;
    var_j0 += var_j1;
    var_j1 = var_l13;
    var_i2 = var_l15;
    w2c_lockreplay_lk_locks0x3A0x3Amachine0x3A0x3AMachine0x2BWordArray0x3A0x3Aeffect(instance, var_j0, var_j1, var_i2);
    var_j0 = var_l6;
    var_i0 = i32_load8_u(origin, (u64)(var_j0) + 2336u);
    if (var_i0) {goto var_B23;}
    var_i0 = 2u;
    var_l24 = var_i0;
    goto var_B22;
    var_B23:;
    var_j0 = var_l6;
    var_i0 = i32_load8_u(origin, (u64)(var_j0) + 2344u);
    var_i0 = !(var_i0);
    if (var_i0) {goto var_B21;}
    var_j0 = var_l6;
    var_i0 = i32_load8_u(origin, (u64)(var_j0) + 2448u);
    var_l24 = var_i0;
    var_B22:;
    var_j0 = 0ull;
    var_l14 = var_j0;
    var_j0 = 0ull;
    var_p0 = var_j0;
    var_j0 = 0ull;
    var_l19 = var_j0;
    goto var_B20;
    var_B21:;
    var_j0 = var_l6;
    var_j0 = i64_load(origin, (u64)(var_j0) + 2368u);
    var_l19 = var_j0;
    var_j0 = var_l6;
    var_j0 = i64_load(origin, (u64)(var_j0) + 2360u);
    var_l14 = var_j0;
    var_j0 = var_l6;
    var_j0 = i64_load(origin, (u64)(var_j0) + 2352u);
    var_p0 = var_j0;
    var_j0 = var_l6;
    var_i0 = i32_load8_u(origin, (u64)(var_j0) + 2392u);
    var_l24 = var_i0;
    var_i0 = 1u;
    var_l16 = var_i0;
    var_B20:;
    var_j0 = var_p0;
    var_i0 = (u32)(var_j0);
    var_i1 = 4294967295u;
    var_j2 = var_p0;
    var_j3 = 129ull;
    var_i2 = var_j2 < var_j3;
    var_i0 = var_i2 ? var_i0 : var_i1;
    var_i1 = 4294967295u;
    var_i2 = var_l16;
    var_i0 = var_i2 ? var_i0 : var_i1;
    var_l16 = var_i0;
    var_i0 = var_l18;
    var_i1 = 16u;
    var_i0 += var_i1;
    var_i1 = 255u;
    var_i0 &= var_i1;
    var_l23 = var_i0;
    var_j0 = var_p2;
    var_p0 = var_j0;
    var_i0 = var_l15;
    var_l18 = var_i0;
    goto var_B3;
    var_B7:;
    var_i0 = 0u;
    var_l15 = var_i0;
    var_j0 = var_l6;
    var_i0 = i32_load8_u(origin, (u64)(var_j0) + 8u);
    if (var_i0) {goto var_B1;}
    var_i0 = 16u;
    var_l15 = var_i0;
    var_j0 = var_p4;
    var_i1 = 16u;
    i32_store(origin, (u64)(var_j0) + 16, var_i1);
    var_j0 = var_p4;
    var_j1 = 18446744073709551615ull;
    var_j2 = var_p4;
    var_j2 = i64_load(origin, (u64)(var_j2));
    var_j3 = 1ull;
    var_j2 += var_j3;
    var_p2 = var_j2;
    var_j3 = var_p2;
    var_i3 = !(var_j3);
    var_j1 = var_i3 ? var_j1 : var_j2;
    i64_store(origin, (u64)(var_j0), var_j1);
    goto var_B1;
    var_B6:;
    var_i0 = 20u;
    var_l15 = var_i0;
    var_B5:;
    var_j0 = var_p4;
    var_i1 = var_l15;
    i32_store(origin, (u64)(var_j0) + 16, var_i1);
    goto var_B1;
    var_B4:;
    var_j0 = 0ull;
    var_l14 = var_j0;
    var_j0 = 0ull;
    var_l19 = var_j0;
    var_i0 = 0u;
    var_l23 = var_i0;
    var_i0 = 0u;
    var_l24 = var_i0;
    var_B3:;
    var_j0 = var_p4;
    var_j0 = i64_load(origin, (u64)(var_j0) + 8u);
    var_p2 = var_j0;
    var_j1 = var_p3;
    var_i0 = var_j0 >= var_j1;
    if (var_i0) {goto var_B24;}
    var_j0 = var_l7;
    var_j1 = var_p2;
    var_j2 = 40ull;
    var_j1 *= var_j2;
    var_j0 += var_j1;
    var_p2 = var_j0;
    var_i1 = var_l16;
    i32_store(origin, (u64)(var_j0) + 36, var_i1);
    var_j0 = var_p2;
    var_i1 = var_l24;
    i32_store(origin, (u64)(var_j0) + 32, var_i1);
    var_j0 = var_p2;
    var_i1 = var_l23;
    i32_store(origin, (u64)(var_j0) + 28, var_i1);
    var_j0 = var_p2;
    var_i1 = var_l18;
    i32_store(origin, (u64)(var_j0) + 24, var_i1);
    var_j0 = var_p2;
    var_j1 = var_l19;
    i64_store(origin, (u64)(var_j0) + 16, var_j1);
    var_j0 = var_p2;
    var_j1 = var_l14;
    i64_store(origin, (u64)(var_j0) + 8, var_j1);
    var_j0 = var_p2;
    var_j1 = var_p0;
    i64_store(origin, (u64)(var_j0), var_j1);
    var_B24:;
    var_i0 = 8u;
    var_l15 = var_i0;
    var_i0 = var_l17;
    switch (var_i0) {
      case 0: goto var_B31;
      case 1: goto var_B25;
      case 2: goto var_B30;
      case 3: goto var_B29;
      case 4: goto var_B28;
      case 5: goto var_B27;
      case 6: goto var_B26;
      default: goto var_B31;
    }
    var_B31:;
    var_i0 = var_l22;
    var_i1 = 1u;
    var_i0 += var_i1;
    var_i1 = 255u;
    var_i0 &= var_i1;
    var_l15 = var_i0;
    goto var_B25;
    var_B30:;
    var_i0 = 9u;
    var_l15 = var_i0;
    goto var_B25;
    var_B29:;
    var_i0 = 10u;
    var_l15 = var_i0;
    goto var_B25;
    var_B28:;
    var_i0 = 11u;
    var_l15 = var_i0;
    goto var_B25;
    var_B27:;
    var_i0 = 12u;
    var_l15 = var_i0;
    goto var_B25;
    var_B26:;
    var_i0 = 13u;
    var_l15 = var_i0;
    var_B25:;
    var_j0 = var_p4;
    var_i1 = var_l15;
    i32_store(origin, (u64)(var_j0) + 16, var_i1);
    var_i0 = var_l15;
    var_i0 = !(var_i0);
    if (var_i0) {goto var_L2;}
  var_B1:;
  var_j0 = var_l6;
  var_j1 = 2592ull;
  var_j0 += var_j1;
  instance->w2c_0x5F_stack_pointer = var_j0;
  var_i0 = var_l15;
  goto var_Bfunc;
  var_B0:;
  UNREACHABLE;
  var_Bfunc:;
  FUNC_EPILOGUE;
  return var_i0;
}
/* The end of the machine. */

/* A call of the module has an instance of its own: the globals, and a room with the stack and a copy
   of the data, since there they follow one another. So calls share only constants. */

#if defined __GNUC__
#pragma GCC diagnostic pop
#endif

/* A room has place for SHIFTS more steps of 16 bytes: to these addresses are aligned. */
enum { LT_STACK = (LT_DEEPEST + 31) / 16 * 16, LT_SHIFTS = 3 };

typedef struct lt_call {
    w2c_lockreplay instance;
    _Alignas(16) u8 room[LT_STACK + sizeof lt_data + 16 * LT_SHIFTS];
} lt_call;

/* Makes an instance ready for a call to which up to three pointers are lent. None of them gets the
   address 0, which the module takes for no slice. */
static void lt_begin(lt_call *call, const void *one, const void *two, const void *three)
{
    uintptr_t origin = (uintptr_t)(call->room + LT_STACK) - LT_DATA_AT;
    while (origin == (uintptr_t)one || origin == (uintptr_t)two || origin == (uintptr_t)three)
        origin += 16;
    memcpy((u8 *)(origin + LT_DATA_AT), lt_data, sizeof lt_data);
    init_globals(&call->instance);
    LT_HIDE(origin);
    call->instance.w2c_memory.origin = origin;
}

/* Returns the address of what a caller lends. */
static u64 lt_lent(const lt_call *call, const void *pointer)
{
    uintptr_t lent = (uintptr_t)pointer;
    LT_HIDE(lent);
    return (u64)lent - call->instance.w2c_memory.origin;
}

uint32_t lt_check(const uint8_t *text, size_t length, struct lt_step *steps, size_t room,
                  struct lt_answer *answer)
{
    lt_call call;
    lt_begin(&call, text, steps, answer);
    return w2c_lockreplay_lt_check_0(&call.instance, lt_lent(&call, text), length,
                                     lt_lent(&call, steps), room, lt_lent(&call, answer));
}

size_t lt_fault_text(uint32_t fault, uint8_t *text, size_t room)
{
    lt_call call;
    lt_begin(&call, text, NULL, NULL);
    return w2c_lockreplay_lt_fault_text_0(&call.instance, fault, lt_lent(&call, text), room);
}
