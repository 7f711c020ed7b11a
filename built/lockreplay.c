/* lockreplay.c: replays schedules of four locks (docs/FORMATS.md), as the program lockreplay does.
   SPDX-License-Identifier: Apache-2.0 OR MIT

       cc -O2 -pthread lockreplay.c -o lockreplay && ./lockreplay replay < one.schedule

   One file, for a C compiler and POSIX threads. It is made by `make c-files`, and not edited. What
   reads a schedule, replays it and writes the report are the proved functions of crates/lk_page,
   compiled to WebAssembly, and that to C by wasm2c of the WebAssembly Binary Toolkit. That they are
   proved says nothing of the two translations, nor of the command line after them, which is written
   by hand. */
#if defined __clang__
#pragma clang diagnostic ignored "-Wunused-function"
#endif
#define _POSIX_C_SOURCE 200809L
#include <fcntl.h>
#ifdef __linux__
#include <malloc.h>
#endif
#include <pthread.h>
#include <signal.h>
#include <stdatomic.h>
#include <stdint.h>
#include <stdio.h>
#include <stdlib.h>
#include <string.h>
#include <unistd.h>

/* Notices of others whose code is in this file, as THIRD-PARTY has them.

thiserror 2.0.21
--------------------------------------------------------------------------------

Permission is hereby granted, free of charge, to any
person obtaining a copy of this software and associated
documentation files (the "Software"), to deal in the
Software without restriction, including without
limitation the rights to use, copy, modify, merge,
publish, distribute, sublicense, and/or sell copies of
the Software, and to permit persons to whom the Software
is furnished to do so, subject to the following
conditions:

The above copyright notice and this permission notice
shall be included in all copies or substantial portions
of the Software.

THE SOFTWARE IS PROVIDED "AS IS", WITHOUT WARRANTY OF
ANY KIND, EXPRESS OR IMPLIED, INCLUDING BUT NOT LIMITED
TO THE WARRANTIES OF MERCHANTABILITY, FITNESS FOR A
PARTICULAR PURPOSE AND NONINFRINGEMENT. IN NO EVENT
SHALL THE AUTHORS OR COPYRIGHT HOLDERS BE LIABLE FOR ANY
CLAIM, DAMAGES OR OTHER LIABILITY, WHETHER IN AN ACTION
OF CONTRACT, TORT OR OTHERWISE, ARISING FROM, OUT OF OR
IN CONNECTION WITH THE SOFTWARE OR THE USE OR OTHER
DEALINGS IN THE SOFTWARE.

itoa 1.0.18
--------------------------------------------------------------------------------

Permission is hereby granted, free of charge, to any
person obtaining a copy of this software and associated
documentation files (the "Software"), to deal in the
Software without restriction, including without
limitation the rights to use, copy, modify, merge,
publish, distribute, sublicense, and/or sell copies of
the Software, and to permit persons to whom the Software
is furnished to do so, subject to the following
conditions:

The above copyright notice and this permission notice
shall be included in all copies or substantial portions
of the Software.

THE SOFTWARE IS PROVIDED "AS IS", WITHOUT WARRANTY OF
ANY KIND, EXPRESS OR IMPLIED, INCLUDING BUT NOT LIMITED
TO THE WARRANTIES OF MERCHANTABILITY, FITNESS FOR A
PARTICULAR PURPOSE AND NONINFRINGEMENT. IN NO EVENT
SHALL THE AUTHORS OR COPYRIGHT HOLDERS BE LIABLE FOR ANY
CLAIM, DAMAGES OR OTHER LIABILITY, WHETHER IN AN ACTION
OF CONTRACT, TORT OR OTHERWISE, ARISING FROM, OUT OF OR
IN CONNECTION WITH THE SOFTWARE OR THE USE OR OTHER
DEALINGS IN THE SOFTWARE.

arrayvec 0.7.8
--------------------------------------------------------------------------------

Copyright (c) Ulrik Sverdrup "bluss" 2015-2023

Permission is hereby granted, free of charge, to any
person obtaining a copy of this software and associated
documentation files (the "Software"), to deal in the
Software without restriction, including without
limitation the rights to use, copy, modify, merge,
publish, distribute, sublicense, and/or sell copies of
the Software, and to permit persons to whom the Software
is furnished to do so, subject to the following
conditions:

The above copyright notice and this permission notice
shall be included in all copies or substantial portions
of the Software.

THE SOFTWARE IS PROVIDED "AS IS", WITHOUT WARRANTY OF
ANY KIND, EXPRESS OR IMPLIED, INCLUDING BUT NOT LIMITED
TO THE WARRANTIES OF MERCHANTABILITY, FITNESS FOR A
PARTICULAR PURPOSE AND NONINFRINGEMENT. IN NO EVENT
SHALL THE AUTHORS OR COPYRIGHT HOLDERS BE LIABLE FOR ANY
CLAIM, DAMAGES OR OTHER LIABILITY, WHETHER IN AN ACTION
OF CONTRACT, TORT OR OTHERWISE, ARISING FROM, OUT OF OR
IN CONNECTION WITH THE SOFTWARE OR THE USE OR OTHER
DEALINGS IN THE SOFTWARE.

wasm2c 1.0.36, of WABT: The WebAssembly Binary Toolkit
--------------------------------------------------------------------------------

Copyright 2016-2023 WebAssembly Community Group participants

Licensed under the Apache License, Version 2.0 (the "License");
you may not use this file except in compliance with the License.
You may obtain a copy of the License at

    http://www.apache.org/licenses/LICENSE-2.0

Unless required by applicable law or agreed to in writing, software
distributed under the License is distributed on an "AS IS" BASIS,
WITHOUT WARRANTIES OR CONDITIONS OF ANY KIND, either express or implied.
See the License for the specific language governing permissions and
limitations under the License.
*/

/* What wasm2c's C asks of its runtime: where an address is, loads and stores, and a trap, which
   ends the program. The module is proved not to come to one.

   An address of the module is a pointer minus `origin`, modulo 2^64. So the module uses what a
   caller lends where it is, and no bound is checked here: the proofs say that each access is inside
   of what was lent. */

#if defined __BYTE_ORDER__ && __BYTE_ORDER__ == __ORDER_BIG_ENDIAN__
#error "this file is for processors that have the lowest byte of a number first"
#endif

typedef uint8_t u8;
typedef uint16_t u16;
typedef uint32_t u32;
typedef uint64_t u64;
typedef int32_t s32;
typedef int64_t s64;

typedef struct wasm_rt_memory_t {
    u64 origin;
} wasm_rt_memory_t;

/* Each function reads `origin` once: as far as a compiler knows, a store might change it. */
#define FUNC_PROLOGUE                                                                              \
    const u64 origin = instance->w2c_memory.origin;                                                \
    (void)origin
#define FUNC_EPILOGUE
#define UNREACHABLE abort()

/* Hides from the compiler of which object a pointer is, that was made a number. So it expects the
   accesses in any object whose pointer was hidden. */
#if defined __GNUC__
#define LT_HIDE(number) __asm__ volatile("" : "+r"(number) : : "memory")
#else
#define LT_HIDE(number) ((void)0)
#endif

static inline u8 *lt_at(u64 origin, u64 address) { return (u8 *)(uintptr_t)(origin + address); }

#define LT_LOAD(name, stored, answer)                                                              \
    static inline answer name(u64 origin, u64 address)                                             \
    {                                                                                              \
        stored found;                                                                              \
        memcpy(&found, lt_at(origin, address), sizeof found);                                      \
        return found;                                                                              \
    }
#define LT_STORE(name, stored, given)                                                              \
    static inline void name(u64 origin, u64 address, given value)                                  \
    {                                                                                              \
        stored left = (stored)value;                                                               \
        memcpy(lt_at(origin, address), &left, sizeof left);                                        \
    }

LT_LOAD(i32_load, u32, u32)
LT_LOAD(i64_load, u64, u64)
LT_LOAD(i32_load8_u, u8, u32)
LT_LOAD(i32_load16_u, u16, u32)
LT_LOAD(i64_load8_u, u8, u64)
LT_LOAD(i64_load16_u, u16, u64)
LT_LOAD(i64_load32_u, u32, u64)
LT_STORE(i32_store, u32, u32)
LT_STORE(i64_store, u64, u64)
LT_STORE(i32_store8, u8, u32)
LT_STORE(i32_store16, u16, u32)
LT_STORE(i64_store8, u8, u64)
LT_STORE(i64_store16, u16, u64)
LT_STORE(i64_store32, u32, u64)

#define DIV_U(number, by) ((by) == 0 ? (abort(), (number)) : (number) / (by))

/* How many bits of a number are set */
static inline u64 I64_POPCNT(u64 number)
{
    number -= number >> 1 & 0x5555555555555555;
    number = (number & 0x3333333333333333) + (number >> 2 & 0x3333333333333333);
    number = (number + (number >> 4)) & 0x0F0F0F0F0F0F0F0F;
    return number * 0x0101010101010101 >> 56;
}

static inline void memory_fill(u64 origin, u64 address, u32 byte, u64 size)
{
    memset(lt_at(origin, address), (int)byte, (size_t)size);
}

static inline void memory_copy(u64 origin, u64 same, u64 address, u64 source, u64 size)
{
    (void)same;
    memmove(lt_at(origin, address), lt_at(origin, source), (size_t)size);
}

#if defined __GNUC__
#pragma GCC diagnostic push
#pragma GCC diagnostic ignored "-Wunused-parameter"
#pragma GCC diagnostic ignored "-Wunused-label"
#pragma GCC diagnostic ignored "-Wunused-variable"
#pragma GCC diagnostic ignored "-Wunused-but-set-variable"
#endif

/* The machine, made by wasm2c. */
typedef struct w2c_lockreplay {
  u64 w2c_0x5F_stack_pointer;
  u32 w2c_in_call;
  u64 w2c_0x5F_heap_base;
  wasm_rt_memory_t w2c_memory;
} w2c_lockreplay;

enum { LT_DATA_AT = 1048576, LT_DEEPEST = 5552 };

static const u8 lt_data[] = {
  0xb0, 0x01, 0x10, 0x00, 0x00, 0x00, 0x00, 0x00, 0x0f, 0x00, 0x00, 0x00,
  0x00, 0x00, 0x00, 0x00, 0xa0, 0x01, 0x10, 0x00, 0x00, 0x00, 0x00, 0x00,
  0x01, 0x00, 0x00, 0x00, 0x00, 0x00, 0x00, 0x00, 0xc8, 0x01, 0x10, 0x00,
  0x00, 0x00, 0x00, 0x00, 0x2b, 0x00, 0x00, 0x00, 0x00, 0x00, 0x00, 0x00,
  0xf3, 0x01, 0x10, 0x00, 0x00, 0x00, 0x00, 0x00, 0x16, 0x00, 0x00, 0x00,
  0x00, 0x00, 0x00, 0x00, 0x90, 0x01, 0x10, 0x00, 0x00, 0x00, 0x00, 0x00,
  0x01, 0x00, 0x00, 0x00, 0x00, 0x00, 0x00, 0x00, 0x0e, 0x02, 0x10, 0x00,
  0x00, 0x00, 0x00, 0x00, 0x57, 0x00, 0x00, 0x00, 0x00, 0x00, 0x00, 0x00,
  0x65, 0x02, 0x10, 0x00, 0x00, 0x00, 0x00, 0x00, 0x10, 0x00, 0x00, 0x00,
  0x00, 0x00, 0x00, 0x00, 0x80, 0x01, 0x10, 0x00, 0x00, 0x00, 0x00, 0x00,
  0x01, 0x00, 0x00, 0x00, 0x00, 0x00, 0x00, 0x00, 0x7e, 0x02, 0x10, 0x00,
  0x00, 0x00, 0x00, 0x00, 0x42, 0x00, 0x00, 0x00, 0x00, 0x00, 0x00, 0x00,
  0xc0, 0x02, 0x10, 0x00, 0x00, 0x00, 0x00, 0x00, 0x1d, 0x00, 0x00, 0x00,
  0x00, 0x00, 0x00, 0x00, 0x60, 0x01, 0x10, 0x00, 0x00, 0x00, 0x00, 0x00,
  0x02, 0x00, 0x00, 0x00, 0x00, 0x00, 0x00, 0x00, 0x10, 0x03, 0x10, 0x00,
  0x00, 0x00, 0x00, 0x00, 0x49, 0x00, 0x00, 0x00, 0x00, 0x00, 0x00, 0x00,
  0x59, 0x03, 0x10, 0x00, 0x00, 0x00, 0x00, 0x00, 0x0f, 0x00, 0x00, 0x00,
  0x00, 0x00, 0x00, 0x00, 0x80, 0x01, 0x10, 0x00, 0x00, 0x00, 0x00, 0x00,
  0x01, 0x00, 0x00, 0x00, 0x00, 0x00, 0x00, 0x00, 0x68, 0x03, 0x10, 0x00,
  0x00, 0x00, 0x00, 0x00, 0x2d, 0x00, 0x00, 0x00, 0x00, 0x00, 0x00, 0x00,
  0x95, 0x03, 0x10, 0x00, 0x00, 0x00, 0x00, 0x00, 0x1f, 0x00, 0x00, 0x00,
  0x00, 0x00, 0x00, 0x00, 0x50, 0x01, 0x10, 0x00, 0x00, 0x00, 0x00, 0x00,
  0x01, 0x00, 0x00, 0x00, 0x00, 0x00, 0x00, 0x00, 0xc7, 0x03, 0x10, 0x00,
  0x00, 0x00, 0x00, 0x00, 0x35, 0x00, 0x00, 0x00, 0x00, 0x00, 0x00, 0x00,
  0xfc, 0x03, 0x10, 0x00, 0x00, 0x00, 0x00, 0x00, 0x1f, 0x00, 0x00, 0x00,
  0x00, 0x00, 0x00, 0x00, 0x50, 0x01, 0x10, 0x00, 0x00, 0x00, 0x00, 0x00,
  0x01, 0x00, 0x00, 0x00, 0x00, 0x00, 0x00, 0x00, 0x1b, 0x04, 0x10, 0x00,
  0x00, 0x00, 0x00, 0x00, 0x32, 0x00, 0x00, 0x00, 0x00, 0x00, 0x00, 0x00,
  0xb4, 0x03, 0x10, 0x00, 0x00, 0x00, 0x00, 0x00, 0x13, 0x00, 0x00, 0x00,
  0x00, 0x00, 0x00, 0x00, 0xdd, 0x02, 0x10, 0x00, 0x00, 0x00, 0x00, 0x00,
  0x19, 0x00, 0x00, 0x00, 0x00, 0x00, 0x00, 0x00, 0xf6, 0x02, 0x10, 0x00,
  0x00, 0x00, 0x00, 0x00, 0x1a, 0x00, 0x00, 0x00, 0x00, 0x00, 0x00, 0x00,
  0x75, 0x02, 0x10, 0x00, 0x00, 0x00, 0x00, 0x00, 0x09, 0x00, 0x00, 0x00,
  0x00, 0x00, 0x00, 0x00, 0x09, 0x02, 0x10, 0x00, 0x00, 0x00, 0x00, 0x00,
  0x05, 0x00, 0x00, 0x00, 0x00, 0x00, 0x00, 0x00, 0xbf, 0x01, 0x10, 0x00,
  0x00, 0x00, 0x00, 0x00, 0x09, 0x00, 0x00, 0x00, 0x00, 0x00, 0x00, 0x00,
  0x61, 0x63, 0x71, 0x75, 0x69, 0x72, 0x65, 0x3a, 0x20, 0x63, 0x61, 0x6c,
  0x6c, 0x65, 0x64, 0x2a, 0x20, 0x61, 0x63, 0x71, 0x75, 0x69, 0x72, 0x65,
  0x7b, 0x77, 0x68, 0x6f, 0x7d, 0x20, 0x63, 0x61, 0x6c, 0x6c, 0x73, 0x20,
  0x61, 0x63, 0x71, 0x75, 0x69, 0x72, 0x65, 0x3b, 0x20, 0x61, 0x20, 0x63,
  0x61, 0x6c, 0x6c, 0x20, 0x63, 0x68, 0x61, 0x6e, 0x67, 0x65, 0x73, 0x20,
  0x6e, 0x6f, 0x20, 0x77, 0x6f, 0x72, 0x64, 0x61, 0x63, 0x71, 0x75, 0x69,
  0x72, 0x65, 0x3a, 0x20, 0x74, 0x6f, 0x6f, 0x6b, 0x20, 0x61, 0x20, 0x74,
  0x69, 0x63, 0x6b, 0x65, 0x74, 0x2a, 0x20, 0x61, 0x64, 0x64, 0x7b, 0x77,
  0x68, 0x6f, 0x7d, 0x20, 0x74, 0x61, 0x6b, 0x65, 0x73, 0x20, 0x74, 0x69,
  0x63, 0x6b, 0x65, 0x74, 0x20, 0x7b, 0x66, 0x6f, 0x75, 0x6e, 0x64, 0x7d,
  0x2c, 0x20, 0x61, 0x6e, 0x64, 0x20, 0x69, 0x73, 0x20, 0x69, 0x6e, 0x20,
  0x74, 0x68, 0x65, 0x20, 0x71, 0x75, 0x65, 0x75, 0x65, 0x20, 0x66, 0x72,
  0x6f, 0x6d, 0x20, 0x68, 0x65, 0x72, 0x65, 0x20, 0x6f, 0x6e, 0x3b, 0x20,
  0x6e, 0x65, 0x78, 0x74, 0x5f, 0x74, 0x69, 0x63, 0x6b, 0x65, 0x74, 0x20,
  0x69, 0x73, 0x20, 0x6e, 0x6f, 0x77, 0x20, 0x7b, 0x6c, 0x65, 0x66, 0x74,
  0x7d, 0x61, 0x63, 0x71, 0x75, 0x69, 0x72, 0x65, 0x3a, 0x20, 0x65, 0x6e,
  0x74, 0x65, 0x72, 0x65, 0x64, 0x2a, 0x20, 0x72, 0x65, 0x6c, 0x65, 0x61,
  0x73, 0x65, 0x7b, 0x77, 0x68, 0x6f, 0x7d, 0x20, 0x66, 0x69, 0x6e, 0x64,
  0x73, 0x20, 0x69, 0x74, 0x73, 0x20, 0x74, 0x69, 0x63, 0x6b, 0x65, 0x74,
  0x2c, 0x20, 0x7b, 0x66, 0x6f, 0x75, 0x6e, 0x64, 0x7d, 0x2c, 0x20, 0x69,
  0x6e, 0x20, 0x6e, 0x6f, 0x77, 0x5f, 0x73, 0x65, 0x72, 0x76, 0x69, 0x6e,
  0x67, 0x3a, 0x20, 0x69, 0x74, 0x20, 0x68, 0x6f, 0x6c, 0x64, 0x73, 0x20,
  0x74, 0x68, 0x65, 0x20, 0x6c, 0x6f, 0x63, 0x6b, 0x61, 0x63, 0x71, 0x75,
  0x69, 0x72, 0x65, 0x3a, 0x20, 0x70, 0x6f, 0x6c, 0x6c, 0x20, 0x62, 0x65,
  0x66, 0x6f, 0x72, 0x65, 0x20, 0x69, 0x74, 0x73, 0x20, 0x74, 0x75, 0x72,
  0x6e, 0x30, 0x20, 0x61, 0x64, 0x64, 0x20, 0x6e, 0x65, 0x78, 0x74, 0x5f,
  0x74, 0x69, 0x63, 0x6b, 0x65, 0x74, 0x20, 0x66, 0x6f, 0x75, 0x6e, 0x64,
  0x20, 0x31, 0x30, 0x20, 0x72, 0x65, 0x61, 0x64, 0x20, 0x6e, 0x6f, 0x77,
  0x5f, 0x73, 0x65, 0x72, 0x76, 0x69, 0x6e, 0x67, 0x20, 0x66, 0x6f, 0x75,
  0x6e, 0x64, 0x20, 0x30, 0x7b, 0x77, 0x68, 0x6f, 0x7d, 0x20, 0x70, 0x6f,
  0x6c, 0x6c, 0x73, 0x20, 0x61, 0x6e, 0x64, 0x20, 0x77, 0x61, 0x69, 0x74,
  0x73, 0x3a, 0x20, 0x6e, 0x6f, 0x77, 0x5f, 0x73, 0x65, 0x72, 0x76, 0x69,
  0x6e, 0x67, 0x20, 0x69, 0x73, 0x20, 0x7b, 0x66, 0x6f, 0x75, 0x6e, 0x64,
  0x7d, 0x2c, 0x20, 0x61, 0x6e, 0x64, 0x20, 0x69, 0x74, 0x73, 0x20, 0x74,
  0x69, 0x63, 0x6b, 0x65, 0x74, 0x20, 0x69, 0x73, 0x20, 0x7b, 0x6e, 0x75,
  0x6d, 0x62, 0x65, 0x72, 0x7d, 0x72, 0x65, 0x6c, 0x65, 0x61, 0x73, 0x65,
  0x3a, 0x20, 0x63, 0x61, 0x6c, 0x6c, 0x65, 0x64, 0x7b, 0x77, 0x68, 0x6f,
  0x7d, 0x20, 0x63, 0x61, 0x6c, 0x6c, 0x73, 0x20, 0x72, 0x65, 0x6c, 0x65,
  0x61, 0x73, 0x65, 0x2c, 0x20, 0x61, 0x6e, 0x64, 0x20, 0x73, 0x74, 0x69,
  0x6c, 0x6c, 0x20, 0x68, 0x6f, 0x6c, 0x64, 0x73, 0x20, 0x74, 0x68, 0x65,
  0x20, 0x6c, 0x6f, 0x63, 0x6b, 0x72, 0x65, 0x6c, 0x65, 0x61, 0x73, 0x65,
  0x3a, 0x20, 0x72, 0x65, 0x61, 0x64, 0x20, 0x74, 0x68, 0x65, 0x20, 0x74,
  0x69, 0x63, 0x6b, 0x65, 0x74, 0x20, 0x73, 0x65, 0x72, 0x76, 0x65, 0x64,
  0x2a, 0x20, 0x77, 0x72, 0x69, 0x74, 0x65, 0x20, 0x6e, 0x6f, 0x77, 0x5f,
  0x73, 0x65, 0x72, 0x76, 0x69, 0x6e, 0x67, 0x7b, 0x77, 0x68, 0x6f, 0x7d,
  0x20, 0x72, 0x65, 0x61, 0x64, 0x73, 0x20, 0x6e, 0x6f, 0x77, 0x5f, 0x73,
  0x65, 0x72, 0x76, 0x69, 0x6e, 0x67, 0x2c, 0x20, 0x74, 0x6f, 0x20, 0x70,
  0x61, 0x73, 0x73, 0x20, 0x69, 0x74, 0x20, 0x6f, 0x6e, 0x3a, 0x20, 0x69,
  0x74, 0x20, 0x69, 0x73, 0x20, 0x7b, 0x66, 0x6f, 0x75, 0x6e, 0x64, 0x7d,
  0x72, 0x65, 0x6c, 0x65, 0x61, 0x73, 0x65, 0x3a, 0x20, 0x73, 0x65, 0x72,
  0x76, 0x65, 0x64, 0x20, 0x74, 0x68, 0x65, 0x20, 0x6e, 0x65, 0x78, 0x74,
  0x20, 0x74, 0x69, 0x63, 0x6b, 0x65, 0x74, 0x7b, 0x77, 0x68, 0x6f, 0x7d,
  0x20, 0x77, 0x72, 0x69, 0x74, 0x65, 0x73, 0x20, 0x7b, 0x6c, 0x65, 0x66,
  0x74, 0x7d, 0x20, 0x69, 0x6e, 0x74, 0x6f, 0x20, 0x6e, 0x6f, 0x77, 0x5f,
  0x73, 0x65, 0x72, 0x76, 0x69, 0x6e, 0x67, 0x2c, 0x20, 0x61, 0x6e, 0x64,
  0x20, 0x68, 0x61, 0x73, 0x20, 0x6c, 0x65, 0x66, 0x74, 0x00, 0x00, 0x00,
  0x70, 0x08, 0x10, 0x00, 0x00, 0x00, 0x00, 0x00, 0x0f, 0x00, 0x00, 0x00,
  0x00, 0x00, 0x00, 0x00, 0x60, 0x08, 0x10, 0x00, 0x00, 0x00, 0x00, 0x00,
  0x01, 0x00, 0x00, 0x00, 0x00, 0x00, 0x00, 0x00, 0x88, 0x08, 0x10, 0x00,
  0x00, 0x00, 0x00, 0x00, 0x2b, 0x00, 0x00, 0x00, 0x00, 0x00, 0x00, 0x00,
  0xb3, 0x08, 0x10, 0x00, 0x00, 0x00, 0x00, 0x00, 0x19, 0x00, 0x00, 0x00,
  0x00, 0x00, 0x00, 0x00, 0x50, 0x08, 0x10, 0x00, 0x00, 0x00, 0x00, 0x00,
  0x01, 0x00, 0x00, 0x00, 0x00, 0x00, 0x00, 0x00, 0xdf, 0x08, 0x10, 0x00,
  0x00, 0x00, 0x00, 0x00, 0x22, 0x00, 0x00, 0x00, 0x00, 0x00, 0x00, 0x00,
  0x01, 0x09, 0x10, 0x00, 0x00, 0x00, 0x00, 0x00, 0x20, 0x00, 0x00, 0x00,
  0x00, 0x00, 0x00, 0x00, 0x40, 0x08, 0x10, 0x00, 0x00, 0x00, 0x00, 0x00,
  0x01, 0x00, 0x00, 0x00, 0x00, 0x00, 0x00, 0x00, 0x34, 0x09, 0x10, 0x00,
  0x00, 0x00, 0x00, 0x00, 0x48, 0x00, 0x00, 0x00, 0x00, 0x00, 0x00, 0x00,
  0x7c, 0x09, 0x10, 0x00, 0x00, 0x00, 0x00, 0x00, 0x19, 0x00, 0x00, 0x00,
  0x00, 0x00, 0x00, 0x00, 0x30, 0x08, 0x10, 0x00, 0x00, 0x00, 0x00, 0x00,
  0x01, 0x00, 0x00, 0x00, 0x00, 0x00, 0x00, 0x00, 0xaa, 0x09, 0x10, 0x00,
  0x00, 0x00, 0x00, 0x00, 0x73, 0x00, 0x00, 0x00, 0x00, 0x00, 0x00, 0x00,
  0x1d, 0x0a, 0x10, 0x00, 0x00, 0x00, 0x00, 0x00, 0x17, 0x00, 0x00, 0x00,
  0x00, 0x00, 0x00, 0x00, 0x30, 0x08, 0x10, 0x00, 0x00, 0x00, 0x00, 0x00,
  0x01, 0x00, 0x00, 0x00, 0x00, 0x00, 0x00, 0x00, 0x34, 0x0a, 0x10, 0x00,
  0x00, 0x00, 0x00, 0x00, 0x36, 0x00, 0x00, 0x00, 0x00, 0x00, 0x00, 0x00,
  0x6a, 0x0a, 0x10, 0x00, 0x00, 0x00, 0x00, 0x00, 0x16, 0x00, 0x00, 0x00,
  0x00, 0x00, 0x00, 0x00, 0x20, 0x08, 0x10, 0x00, 0x00, 0x00, 0x00, 0x00,
  0x01, 0x00, 0x00, 0x00, 0x00, 0x00, 0x00, 0x00, 0x91, 0x0a, 0x10, 0x00,
  0x00, 0x00, 0x00, 0x00, 0x39, 0x00, 0x00, 0x00, 0x00, 0x00, 0x00, 0x00,
  0xca, 0x0a, 0x10, 0x00, 0x00, 0x00, 0x00, 0x00, 0x20, 0x00, 0x00, 0x00,
  0x00, 0x00, 0x00, 0x00, 0x10, 0x08, 0x10, 0x00, 0x00, 0x00, 0x00, 0x00,
  0x01, 0x00, 0x00, 0x00, 0x00, 0x00, 0x00, 0x00, 0xff, 0x0a, 0x10, 0x00,
  0x00, 0x00, 0x00, 0x00, 0x39, 0x00, 0x00, 0x00, 0x00, 0x00, 0x00, 0x00,
  0x38, 0x0b, 0x10, 0x00, 0x00, 0x00, 0x00, 0x00, 0x1e, 0x00, 0x00, 0x00,
  0x00, 0x00, 0x00, 0x00, 0x00, 0x08, 0x10, 0x00, 0x00, 0x00, 0x00, 0x00,
  0x01, 0x00, 0x00, 0x00, 0x00, 0x00, 0x00, 0x00, 0x6b, 0x0b, 0x10, 0x00,
  0x00, 0x00, 0x00, 0x00, 0x38, 0x00, 0x00, 0x00, 0x00, 0x00, 0x00, 0x00,
  0xa3, 0x0b, 0x10, 0x00, 0x00, 0x00, 0x00, 0x00, 0x0f, 0x00, 0x00, 0x00,
  0x00, 0x00, 0x00, 0x00, 0xf0, 0x07, 0x10, 0x00, 0x00, 0x00, 0x00, 0x00,
  0x01, 0x00, 0x00, 0x00, 0x00, 0x00, 0x00, 0x00, 0xbb, 0x0b, 0x10, 0x00,
  0x00, 0x00, 0x00, 0x00, 0x2d, 0x00, 0x00, 0x00, 0x00, 0x00, 0x00, 0x00,
  0xe8, 0x0b, 0x10, 0x00, 0x00, 0x00, 0x00, 0x00, 0x16, 0x00, 0x00, 0x00,
  0x00, 0x00, 0x00, 0x00, 0xe0, 0x07, 0x10, 0x00, 0x00, 0x00, 0x00, 0x00,
  0x01, 0x00, 0x00, 0x00, 0x00, 0x00, 0x00, 0x00, 0x03, 0x0c, 0x10, 0x00,
  0x00, 0x00, 0x00, 0x00, 0x2c, 0x00, 0x00, 0x00, 0x00, 0x00, 0x00, 0x00,
  0x2f, 0x0c, 0x10, 0x00, 0x00, 0x00, 0x00, 0x00, 0x15, 0x00, 0x00, 0x00,
  0x00, 0x00, 0x00, 0x00, 0xc0, 0x07, 0x10, 0x00, 0x00, 0x00, 0x00, 0x00,
  0x02, 0x00, 0x00, 0x00, 0x00, 0x00, 0x00, 0x00, 0x60, 0x0c, 0x10, 0x00,
  0x00, 0x00, 0x00, 0x00, 0x2e, 0x00, 0x00, 0x00, 0x00, 0x00, 0x00, 0x00,
  0x8e, 0x0c, 0x10, 0x00, 0x00, 0x00, 0x00, 0x00, 0x24, 0x00, 0x00, 0x00,
  0x00, 0x00, 0x00, 0x00, 0xb0, 0x07, 0x10, 0x00, 0x00, 0x00, 0x00, 0x00,
  0x01, 0x00, 0x00, 0x00, 0x00, 0x00, 0x00, 0x00, 0xbc, 0x0c, 0x10, 0x00,
  0x00, 0x00, 0x00, 0x00, 0x50, 0x00, 0x00, 0x00, 0x00, 0x00, 0x00, 0x00,
  0x0c, 0x0d, 0x10, 0x00, 0x00, 0x00, 0x00, 0x00, 0x20, 0x00, 0x00, 0x00,
  0x00, 0x00, 0x00, 0x00, 0xa0, 0x07, 0x10, 0x00, 0x00, 0x00, 0x00, 0x00,
  0x01, 0x00, 0x00, 0x00, 0x00, 0x00, 0x00, 0x00, 0x38, 0x0d, 0x10, 0x00,
  0x00, 0x00, 0x00, 0x00, 0x66, 0x00, 0x00, 0x00, 0x00, 0x00, 0x00, 0x00,
  0x9e, 0x0d, 0x10, 0x00, 0x00, 0x00, 0x00, 0x00, 0x1f, 0x00, 0x00, 0x00,
  0x00, 0x00, 0x00, 0x00, 0x80, 0x07, 0x10, 0x00, 0x00, 0x00, 0x00, 0x00,
  0x02, 0x00, 0x00, 0x00, 0x00, 0x00, 0x00, 0x00, 0xdc, 0x0d, 0x10, 0x00,
  0x00, 0x00, 0x00, 0x00, 0x40, 0x00, 0x00, 0x00, 0x00, 0x00, 0x00, 0x00,
  0x1c, 0x0e, 0x10, 0x00, 0x00, 0x00, 0x00, 0x00, 0x1a, 0x00, 0x00, 0x00,
  0x00, 0x00, 0x00, 0x00, 0x60, 0x07, 0x10, 0x00, 0x00, 0x00, 0x00, 0x00,
  0x02, 0x00, 0x00, 0x00, 0x00, 0x00, 0x00, 0x00, 0x36, 0x0e, 0x10, 0x00,
  0x00, 0x00, 0x00, 0x00, 0x26, 0x00, 0x00, 0x00, 0x00, 0x00, 0x00, 0x00,
  0x5c, 0x0e, 0x10, 0x00, 0x00, 0x00, 0x00, 0x00, 0x19, 0x00, 0x00, 0x00,
  0x00, 0x00, 0x00, 0x00, 0x50, 0x07, 0x10, 0x00, 0x00, 0x00, 0x00, 0x00,
  0x01, 0x00, 0x00, 0x00, 0x00, 0x00, 0x00, 0x00, 0x88, 0x0e, 0x10, 0x00,
  0x00, 0x00, 0x00, 0x00, 0x5b, 0x00, 0x00, 0x00, 0x00, 0x00, 0x00, 0x00,
  0x75, 0x0e, 0x10, 0x00, 0x00, 0x00, 0x00, 0x00, 0x13, 0x00, 0x00, 0x00,
  0x00, 0x00, 0x00, 0x00, 0xbd, 0x0d, 0x10, 0x00, 0x00, 0x00, 0x00, 0x00,
  0x0c, 0x00, 0x00, 0x00, 0x00, 0x00, 0x00, 0x00, 0x4d, 0x0c, 0x10, 0x00,
  0x00, 0x00, 0x00, 0x00, 0x13, 0x00, 0x00, 0x00, 0x00, 0x00, 0x00, 0x00,
  0xbd, 0x0d, 0x10, 0x00, 0x00, 0x00, 0x00, 0x00, 0x0c, 0x00, 0x00, 0x00,
  0x00, 0x00, 0x00, 0x00, 0xc9, 0x0d, 0x10, 0x00, 0x00, 0x00, 0x00, 0x00,
  0x13, 0x00, 0x00, 0x00, 0x00, 0x00, 0x00, 0x00, 0x2c, 0x0d, 0x10, 0x00,
  0x00, 0x00, 0x00, 0x00, 0x0c, 0x00, 0x00, 0x00, 0x00, 0x00, 0x00, 0x00,
  0xb2, 0x0c, 0x10, 0x00, 0x00, 0x00, 0x00, 0x00, 0x0a, 0x00, 0x00, 0x00,
  0x00, 0x00, 0x00, 0x00, 0x44, 0x0c, 0x10, 0x00, 0x00, 0x00, 0x00, 0x00,
  0x09, 0x00, 0x00, 0x00, 0x00, 0x00, 0x00, 0x00, 0x4d, 0x0c, 0x10, 0x00,
  0x00, 0x00, 0x00, 0x00, 0x13, 0x00, 0x00, 0x00, 0x00, 0x00, 0x00, 0x00,
  0xfe, 0x0b, 0x10, 0x00, 0x00, 0x00, 0x00, 0x00, 0x05, 0x00, 0x00, 0x00,
  0x00, 0x00, 0x00, 0x00, 0xb2, 0x0b, 0x10, 0x00, 0x00, 0x00, 0x00, 0x00,
  0x09, 0x00, 0x00, 0x00, 0x00, 0x00, 0x00, 0x00, 0x56, 0x0b, 0x10, 0x00,
  0x00, 0x00, 0x00, 0x00, 0x15, 0x00, 0x00, 0x00, 0x00, 0x00, 0x00, 0x00,
  0xea, 0x0a, 0x10, 0x00, 0x00, 0x00, 0x00, 0x00, 0x15, 0x00, 0x00, 0x00,
  0x00, 0x00, 0x00, 0x00, 0x80, 0x0a, 0x10, 0x00, 0x00, 0x00, 0x00, 0x00,
  0x11, 0x00, 0x00, 0x00, 0x00, 0x00, 0x00, 0x00, 0x95, 0x09, 0x10, 0x00,
  0x00, 0x00, 0x00, 0x00, 0x15, 0x00, 0x00, 0x00, 0x00, 0x00, 0x00, 0x00,
  0x21, 0x09, 0x10, 0x00, 0x00, 0x00, 0x00, 0x00, 0x13, 0x00, 0x00, 0x00,
  0x00, 0x00, 0x00, 0x00, 0xcc, 0x08, 0x10, 0x00, 0x00, 0x00, 0x00, 0x00,
  0x13, 0x00, 0x00, 0x00, 0x00, 0x00, 0x00, 0x00, 0x7f, 0x08, 0x10, 0x00,
  0x00, 0x00, 0x00, 0x00, 0x09, 0x00, 0x00, 0x00, 0x00, 0x00, 0x00, 0x00,
  0x61, 0x63, 0x71, 0x75, 0x69, 0x72, 0x65, 0x3a, 0x20, 0x63, 0x61, 0x6c,
  0x6c, 0x65, 0x64, 0x2a, 0x20, 0x61, 0x63, 0x71, 0x75, 0x69, 0x72, 0x65,
  0x7b, 0x77, 0x68, 0x6f, 0x7d, 0x20, 0x63, 0x61, 0x6c, 0x6c, 0x73, 0x20,
  0x61, 0x63, 0x71, 0x75, 0x69, 0x72, 0x65, 0x3b, 0x20, 0x61, 0x20, 0x63,
  0x61, 0x6c, 0x6c, 0x20, 0x63, 0x68, 0x61, 0x6e, 0x67, 0x65, 0x73, 0x20,
  0x6e, 0x6f, 0x20, 0x77, 0x6f, 0x72, 0x64, 0x61, 0x63, 0x71, 0x75, 0x69,
  0x72, 0x65, 0x3a, 0x20, 0x63, 0x6c, 0x65, 0x61, 0x72, 0x65, 0x64, 0x20,
  0x69, 0x74, 0x73, 0x20, 0x6e, 0x65, 0x78, 0x74, 0x2a, 0x20, 0x77, 0x72,
  0x69, 0x74, 0x65, 0x20, 0x6e, 0x65, 0x78, 0x74, 0x20, 0x6c, 0x65, 0x66,
  0x74, 0x20, 0x30, 0x7b, 0x77, 0x68, 0x6f, 0x7d, 0x20, 0x77, 0x72, 0x69,
  0x74, 0x65, 0x73, 0x20, 0x6e, 0x69, 0x6c, 0x20, 0x69, 0x6e, 0x74, 0x6f,
  0x20, 0x69, 0x74, 0x73, 0x20, 0x6f, 0x77, 0x6e, 0x20, 0x6e, 0x65, 0x78,
  0x74, 0x61, 0x63, 0x71, 0x75, 0x69, 0x72, 0x65, 0x3a, 0x20, 0x65, 0x6e,
  0x74, 0x65, 0x72, 0x65, 0x64, 0x20, 0x77, 0x69, 0x74, 0x68, 0x6f, 0x75,
  0x74, 0x20, 0x77, 0x61, 0x69, 0x74, 0x69, 0x6e, 0x67, 0x2a, 0x20, 0x73,
  0x77, 0x61, 0x70, 0x20, 0x74, 0x61, 0x69, 0x6c, 0x20, 0x66, 0x6f, 0x75,
  0x6e, 0x64, 0x20, 0x30, 0x7b, 0x77, 0x68, 0x6f, 0x7d, 0x20, 0x73, 0x77,
  0x61, 0x70, 0x73, 0x20, 0x74, 0x68, 0x65, 0x20, 0x74, 0x61, 0x69, 0x6c,
  0x20, 0x66, 0x6f, 0x72, 0x20, 0x69, 0x74, 0x73, 0x20, 0x72, 0x65, 0x63,
  0x6f, 0x72, 0x64, 0x3b, 0x20, 0x74, 0x68, 0x65, 0x20, 0x74, 0x61, 0x69,
  0x6c, 0x20, 0x77, 0x61, 0x73, 0x20, 0x6e, 0x69, 0x6c, 0x3a, 0x20, 0x69,
  0x74, 0x20, 0x68, 0x6f, 0x6c, 0x64, 0x73, 0x20, 0x74, 0x68, 0x65, 0x20,
  0x6c, 0x6f, 0x63, 0x6b, 0x61, 0x63, 0x71, 0x75, 0x69, 0x72, 0x65, 0x3a,
  0x20, 0x6a, 0x6f, 0x69, 0x6e, 0x65, 0x64, 0x20, 0x74, 0x68, 0x65, 0x20,
  0x71, 0x75, 0x65, 0x75, 0x65, 0x2a, 0x20, 0x77, 0x72, 0x69, 0x74, 0x65,
  0x20, 0x6c, 0x6f, 0x63, 0x6b, 0x65, 0x64, 0x20, 0x6c, 0x65, 0x66, 0x74,
  0x20, 0x31, 0x7b, 0x77, 0x68, 0x6f, 0x7d, 0x20, 0x73, 0x77, 0x61, 0x70,
  0x73, 0x20, 0x74, 0x68, 0x65, 0x20, 0x74, 0x61, 0x69, 0x6c, 0x20, 0x61,
  0x6e, 0x64, 0x20, 0x66, 0x69, 0x6e, 0x64, 0x73, 0x20, 0x7b, 0x66, 0x69,
  0x6e, 0x64, 0x73, 0x7d, 0x3b, 0x20, 0x69, 0x74, 0x20, 0x69, 0x73, 0x20,
  0x69, 0x6e, 0x20, 0x74, 0x68, 0x65, 0x20, 0x71, 0x75, 0x65, 0x75, 0x65,
  0x20, 0x66, 0x72, 0x6f, 0x6d, 0x20, 0x68, 0x65, 0x72, 0x65, 0x20, 0x6f,
  0x6e, 0x2c, 0x20, 0x74, 0x68, 0x6f, 0x75, 0x67, 0x68, 0x20, 0x6e, 0x6f,
  0x20, 0x77, 0x6f, 0x72, 0x64, 0x20, 0x6f, 0x66, 0x20, 0x7b, 0x66, 0x69,
  0x6e, 0x64, 0x73, 0x7d, 0x27, 0x73, 0x20, 0x72, 0x65, 0x63, 0x6f, 0x72,
  0x64, 0x20, 0x73, 0x61, 0x79, 0x73, 0x20, 0x73, 0x6f, 0x61, 0x63, 0x71,
  0x75, 0x69, 0x72, 0x65, 0x3a, 0x20, 0x73, 0x65, 0x74, 0x20, 0x69, 0x74,
  0x73, 0x20, 0x6c, 0x6f, 0x63, 0x6b, 0x65, 0x64, 0x7b, 0x77, 0x68, 0x6f,
  0x7d, 0x20, 0x73, 0x65, 0x74, 0x73, 0x20, 0x69, 0x74, 0x73, 0x20, 0x6f,
  0x77, 0x6e, 0x20, 0x6c, 0x6f, 0x63, 0x6b, 0x65, 0x64, 0x20, 0x74, 0x6f,
  0x20, 0x31, 0x2c, 0x20, 0x62, 0x65, 0x66, 0x6f, 0x72, 0x65, 0x20, 0x69,
  0x74, 0x20, 0x6c, 0x69, 0x6e, 0x6b, 0x73, 0x20, 0x69, 0x74, 0x73, 0x65,
  0x6c, 0x66, 0x61, 0x63, 0x71, 0x75, 0x69, 0x72, 0x65, 0x3a, 0x20, 0x6c,
  0x69, 0x6e, 0x6b, 0x65, 0x64, 0x20, 0x69, 0x74, 0x73, 0x65, 0x6c, 0x66,
  0x30, 0x20, 0x77, 0x72, 0x69, 0x74, 0x65, 0x20, 0x6e, 0x65, 0x78, 0x74,
  0x20, 0x6f, 0x66, 0x20, 0x31, 0x7b, 0x77, 0x68, 0x6f, 0x7d, 0x20, 0x77,
  0x72, 0x69, 0x74, 0x65, 0x73, 0x20, 0x74, 0x68, 0x65, 0x20, 0x6c, 0x69,
  0x6e, 0x6b, 0x3a, 0x20, 0x7b, 0x6f, 0x74, 0x68, 0x65, 0x72, 0x7d, 0x27,
  0x73, 0x20, 0x6e, 0x65, 0x78, 0x74, 0x20, 0x6e, 0x6f, 0x77, 0x20, 0x70,
  0x6f, 0x69, 0x6e, 0x74, 0x73, 0x20, 0x74, 0x6f, 0x20, 0x7b, 0x77, 0x68,
  0x6f, 0x7d, 0x61, 0x63, 0x71, 0x75, 0x69, 0x72, 0x65, 0x3a, 0x20, 0x70,
  0x6f, 0x6c, 0x6c, 0x20, 0x6f, 0x66, 0x20, 0x61, 0x20, 0x6d, 0x69, 0x73,
  0x73, 0x69, 0x6e, 0x67, 0x20, 0x67, 0x72, 0x61, 0x6e, 0x74, 0x2a, 0x20,
  0x72, 0x65, 0x61, 0x64, 0x20, 0x6c, 0x6f, 0x63, 0x6b, 0x65, 0x64, 0x20,
  0x66, 0x6f, 0x75, 0x6e, 0x64, 0x20, 0x31, 0x7b, 0x77, 0x68, 0x6f, 0x7d,
  0x20, 0x70, 0x6f, 0x6c, 0x6c, 0x73, 0x20, 0x69, 0x74, 0x73, 0x20, 0x6f,
  0x77, 0x6e, 0x20, 0x6c, 0x6f, 0x63, 0x6b, 0x65, 0x64, 0x20, 0x61, 0x6e,
  0x64, 0x20, 0x77, 0x61, 0x69, 0x74, 0x73, 0x3a, 0x20, 0x69, 0x74, 0x20,
  0x69, 0x73, 0x20, 0x73, 0x74, 0x69, 0x6c, 0x6c, 0x20, 0x7b, 0x66, 0x6f,
  0x75, 0x6e, 0x64, 0x7d, 0x61, 0x63, 0x71, 0x75, 0x69, 0x72, 0x65, 0x3a,
  0x20, 0x65, 0x6e, 0x74, 0x65, 0x72, 0x65, 0x64, 0x20, 0x61, 0x66, 0x74,
  0x65, 0x72, 0x20, 0x77, 0x61, 0x69, 0x74, 0x69, 0x6e, 0x67, 0x2a, 0x20,
  0x72, 0x65, 0x61, 0x64, 0x20, 0x6c, 0x6f, 0x63, 0x6b, 0x65, 0x64, 0x20,
  0x66, 0x6f, 0x75, 0x6e, 0x64, 0x20, 0x30, 0x7b, 0x77, 0x68, 0x6f, 0x7d,
  0x20, 0x66, 0x69, 0x6e, 0x64, 0x73, 0x20, 0x69, 0x74, 0x73, 0x20, 0x6f,
  0x77, 0x6e, 0x20, 0x6c, 0x6f, 0x63, 0x6b, 0x65, 0x64, 0x20, 0x61, 0x74,
  0x20, 0x7b, 0x66, 0x6f, 0x75, 0x6e, 0x64, 0x7d, 0x3a, 0x20, 0x69, 0x74,
  0x20, 0x68, 0x6f, 0x6c, 0x64, 0x73, 0x20, 0x74, 0x68, 0x65, 0x20, 0x6c,
  0x6f, 0x63, 0x6b, 0x72, 0x65, 0x6c, 0x65, 0x61, 0x73, 0x65, 0x3a, 0x20,
  0x63, 0x61, 0x6c, 0x6c, 0x65, 0x64, 0x2a, 0x20, 0x72, 0x65, 0x6c, 0x65,
  0x61, 0x73, 0x65, 0x7b, 0x77, 0x68, 0x6f, 0x7d, 0x20, 0x63, 0x61, 0x6c,
  0x6c, 0x73, 0x20, 0x72, 0x65, 0x6c, 0x65, 0x61, 0x73, 0x65, 0x2c, 0x20,
  0x61, 0x6e, 0x64, 0x20, 0x73, 0x74, 0x69, 0x6c, 0x6c, 0x20, 0x68, 0x6f,
  0x6c, 0x64, 0x73, 0x20, 0x74, 0x68, 0x65, 0x20, 0x6c, 0x6f, 0x63, 0x6b,
  0x72, 0x65, 0x6c, 0x65, 0x61, 0x73, 0x65, 0x3a, 0x20, 0x66, 0x6f, 0x75,
  0x6e, 0x64, 0x20, 0x6e, 0x6f, 0x20, 0x6c, 0x69, 0x6e, 0x6b, 0x2a, 0x20,
  0x63, 0x61, 0x73, 0x7b, 0x77, 0x68, 0x6f, 0x7d, 0x20, 0x6c, 0x6f, 0x6f,
  0x6b, 0x73, 0x20, 0x66, 0x6f, 0x72, 0x20, 0x61, 0x20, 0x73, 0x75, 0x63,
  0x63, 0x65, 0x73, 0x73, 0x6f, 0x72, 0x3a, 0x20, 0x69, 0x74, 0x73, 0x20,
  0x6e, 0x65, 0x78, 0x74, 0x20, 0x69, 0x73, 0x20, 0x6e, 0x69, 0x6c, 0x72,
  0x65, 0x6c, 0x65, 0x61, 0x73, 0x65, 0x3a, 0x20, 0x66, 0x6f, 0x75, 0x6e,
  0x64, 0x20, 0x61, 0x20, 0x6c, 0x69, 0x6e, 0x6b, 0x30, 0x20, 0x72, 0x65,
  0x6c, 0x65, 0x61, 0x73, 0x65, 0x30, 0x20, 0x72, 0x65, 0x61, 0x64, 0x20,
  0x6e, 0x65, 0x78, 0x74, 0x20, 0x66, 0x6f, 0x75, 0x6e, 0x64, 0x20, 0x32,
  0x7b, 0x77, 0x68, 0x6f, 0x7d, 0x20, 0x6c, 0x6f, 0x6f, 0x6b, 0x73, 0x20,
  0x66, 0x6f, 0x72, 0x20, 0x61, 0x20, 0x73, 0x75, 0x63, 0x63, 0x65, 0x73,
  0x73, 0x6f, 0x72, 0x2c, 0x20, 0x61, 0x6e, 0x64, 0x20, 0x66, 0x69, 0x6e,
  0x64, 0x73, 0x20, 0x7b, 0x66, 0x69, 0x6e, 0x64, 0x73, 0x7d, 0x72, 0x65,
  0x6c, 0x65, 0x61, 0x73, 0x65, 0x3a, 0x20, 0x73, 0x75, 0x63, 0x63, 0x65,
  0x73, 0x73, 0x66, 0x75, 0x6c, 0x20, 0x63, 0x6f, 0x6d, 0x70, 0x61, 0x72,
  0x65, 0x2d, 0x61, 0x6e, 0x64, 0x2d, 0x73, 0x77, 0x61, 0x70, 0x2a, 0x20,
  0x63, 0x61, 0x73, 0x20, 0x64, 0x6f, 0x6e, 0x65, 0x74, 0x68, 0x65, 0x20,
  0x74, 0x61, 0x69, 0x6c, 0x20, 0x69, 0x73, 0x20, 0x73, 0x74, 0x69, 0x6c,
  0x6c, 0x20, 0x7b, 0x77, 0x68, 0x6f, 0x7d, 0x3a, 0x20, 0x74, 0x68, 0x65,
  0x20, 0x63, 0x6f, 0x6d, 0x70, 0x61, 0x72, 0x65, 0x2d, 0x61, 0x6e, 0x64,
  0x2d, 0x73, 0x77, 0x61, 0x70, 0x20, 0x73, 0x65, 0x74, 0x73, 0x20, 0x69,
  0x74, 0x20, 0x74, 0x6f, 0x20, 0x6e, 0x69, 0x6c, 0x2c, 0x20, 0x61, 0x6e,
  0x64, 0x20, 0x7b, 0x77, 0x68, 0x6f, 0x7d, 0x20, 0x68, 0x61, 0x73, 0x20,
  0x6c, 0x65, 0x66, 0x74, 0x72, 0x65, 0x6c, 0x65, 0x61, 0x73, 0x65, 0x3a,
  0x20, 0x66, 0x61, 0x69, 0x6c, 0x65, 0x64, 0x20, 0x63, 0x6f, 0x6d, 0x70,
  0x61, 0x72, 0x65, 0x2d, 0x61, 0x6e, 0x64, 0x2d, 0x73, 0x77, 0x61, 0x70,
  0x2a, 0x20, 0x63, 0x61, 0x73, 0x20, 0x66, 0x61, 0x69, 0x6c, 0x65, 0x64,
  0x74, 0x68, 0x65, 0x20, 0x63, 0x6f, 0x6d, 0x70, 0x61, 0x72, 0x65, 0x2d,
  0x61, 0x6e, 0x64, 0x2d, 0x73, 0x77, 0x61, 0x70, 0x20, 0x66, 0x61, 0x69,
  0x6c, 0x73, 0x3a, 0x20, 0x74, 0x68, 0x65, 0x20, 0x74, 0x61, 0x69, 0x6c,
  0x20, 0x69, 0x73, 0x20, 0x7b, 0x66, 0x69, 0x6e, 0x64, 0x73, 0x7d, 0x3b,
  0x20, 0x7b, 0x77, 0x68, 0x6f, 0x7d, 0x20, 0x68, 0x61, 0x73, 0x20, 0x61,
  0x20, 0x73, 0x75, 0x63, 0x63, 0x65, 0x73, 0x73, 0x6f, 0x72, 0x2c, 0x20,
  0x61, 0x6e, 0x64, 0x20, 0x68, 0x61, 0x73, 0x20, 0x6e, 0x6f, 0x74, 0x20,
  0x73, 0x65, 0x65, 0x6e, 0x20, 0x79, 0x65, 0x74, 0x20, 0x77, 0x68, 0x6f,
  0x20, 0x69, 0x74, 0x20, 0x69, 0x73, 0x72, 0x65, 0x6c, 0x65, 0x61, 0x73,
  0x65, 0x3a, 0x20, 0x70, 0x6f, 0x6c, 0x6c, 0x20, 0x6f, 0x66, 0x20, 0x61,
  0x20, 0x6d, 0x69, 0x73, 0x73, 0x69, 0x6e, 0x67, 0x20, 0x6c, 0x69, 0x6e,
  0x6b, 0x30, 0x20, 0x63, 0x61, 0x73, 0x20, 0x66, 0x61, 0x69, 0x6c, 0x65,
  0x64, 0x30, 0x20, 0x72, 0x65, 0x61, 0x64, 0x20, 0x6e, 0x65, 0x78, 0x74,
  0x20, 0x66, 0x6f, 0x75, 0x6e, 0x64, 0x20, 0x30, 0x7b, 0x77, 0x68, 0x6f,
  0x7d, 0x20, 0x70, 0x6f, 0x6c, 0x6c, 0x73, 0x20, 0x69, 0x74, 0x73, 0x20,
  0x6f, 0x77, 0x6e, 0x20, 0x6e, 0x65, 0x78, 0x74, 0x20, 0x61, 0x6e, 0x64,
  0x20, 0x77, 0x61, 0x69, 0x74, 0x73, 0x20, 0x66, 0x6f, 0x72, 0x20, 0x74,
  0x68, 0x65, 0x20, 0x6c, 0x69, 0x6e, 0x6b, 0x3a, 0x20, 0x69, 0x74, 0x20,
  0x69, 0x73, 0x20, 0x73, 0x74, 0x69, 0x6c, 0x6c, 0x20, 0x6e, 0x69, 0x6c,
  0x72, 0x65, 0x6c, 0x65, 0x61, 0x73, 0x65, 0x3a, 0x20, 0x66, 0x6f, 0x75,
  0x6e, 0x64, 0x20, 0x61, 0x20, 0x6c, 0x61, 0x74, 0x65, 0x20, 0x6c, 0x69,
  0x6e, 0x6b, 0x74, 0x68, 0x65, 0x20, 0x6c, 0x69, 0x6e, 0x6b, 0x20, 0x69,
  0x73, 0x20, 0x74, 0x68, 0x65, 0x72, 0x65, 0x3a, 0x20, 0x7b, 0x77, 0x68,
  0x6f, 0x7d, 0x20, 0x66, 0x69, 0x6e, 0x64, 0x73, 0x20, 0x7b, 0x66, 0x69,
  0x6e, 0x64, 0x73, 0x7d, 0x72, 0x65, 0x6c, 0x65, 0x61, 0x73, 0x65, 0x3a,
  0x20, 0x67, 0x72, 0x61, 0x6e, 0x74, 0x65, 0x64, 0x20, 0x74, 0x68, 0x65,
  0x20, 0x6c, 0x6f, 0x63, 0x6b, 0x30, 0x20, 0x77, 0x72, 0x69, 0x74, 0x65,
  0x20, 0x6c, 0x6f, 0x63, 0x6b, 0x65, 0x64, 0x20, 0x6f, 0x66, 0x20, 0x31,
  0x7b, 0x77, 0x68, 0x6f, 0x7d, 0x20, 0x63, 0x6c, 0x65, 0x61, 0x72, 0x73,
  0x20, 0x7b, 0x6f, 0x74, 0x68, 0x65, 0x72, 0x7d, 0x27, 0x73, 0x20, 0x6c,
  0x6f, 0x63, 0x6b, 0x65, 0x64, 0x2c, 0x20, 0x61, 0x6e, 0x64, 0x20, 0x68,
  0x61, 0x73, 0x20, 0x6c, 0x65, 0x66, 0x74, 0x3b, 0x20, 0x7b, 0x6f, 0x74,
  0x68, 0x65, 0x72, 0x7d, 0x20, 0x69, 0x73, 0x20, 0x6e, 0x65, 0x78, 0x74,
  0x2c, 0x20, 0x61, 0x6e, 0x64, 0x20, 0x65, 0x6e, 0x74, 0x65, 0x72, 0x73,
  0x20, 0x77, 0x69, 0x74, 0x68, 0x20, 0x69, 0x74, 0x73, 0x20, 0x6e, 0x65,
  0x78, 0x74, 0x20, 0x70, 0x6f, 0x6c, 0x6c, 0x00, 0x00, 0x00, 0x00, 0x00,
  0x58, 0x12, 0x10, 0x00, 0x00, 0x00, 0x00, 0x00, 0x0d, 0x00, 0x00, 0x00,
  0x00, 0x00, 0x00, 0x00, 0x48, 0x12, 0x10, 0x00, 0x00, 0x00, 0x00, 0x00,
  0x01, 0x00, 0x00, 0x00, 0x00, 0x00, 0x00, 0x00, 0x6c, 0x12, 0x10, 0x00,
  0x00, 0x00, 0x00, 0x00, 0x23, 0x00, 0x00, 0x00, 0x00, 0x00, 0x00, 0x00,
  0x8f, 0x12, 0x10, 0x00, 0x00, 0x00, 0x00, 0x00, 0x0e, 0x00, 0x00, 0x00,
  0x00, 0x00, 0x00, 0x00, 0x28, 0x12, 0x10, 0x00, 0x00, 0x00, 0x00, 0x00,
  0x02, 0x00, 0x00, 0x00, 0x00, 0x00, 0x00, 0x00, 0xb5, 0x12, 0x10, 0x00,
  0x00, 0x00, 0x00, 0x00, 0x45, 0x00, 0x00, 0x00, 0x00, 0x00, 0x00, 0x00,
  0xfa, 0x12, 0x10, 0x00, 0x00, 0x00, 0x00, 0x00, 0x19, 0x00, 0x00, 0x00,
  0x00, 0x00, 0x00, 0x00, 0x08, 0x12, 0x10, 0x00, 0x00, 0x00, 0x00, 0x00,
  0x02, 0x00, 0x00, 0x00, 0x00, 0x00, 0x00, 0x00, 0x22, 0x13, 0x10, 0x00,
  0x00, 0x00, 0x00, 0x00, 0x26, 0x00, 0x00, 0x00, 0x00, 0x00, 0x00, 0x00,
  0x48, 0x13, 0x10, 0x00, 0x00, 0x00, 0x00, 0x00, 0x0f, 0x00, 0x00, 0x00,
  0x00, 0x00, 0x00, 0x00, 0xf8, 0x11, 0x10, 0x00, 0x00, 0x00, 0x00, 0x00,
  0x01, 0x00, 0x00, 0x00, 0x00, 0x00, 0x00, 0x00, 0x60, 0x13, 0x10, 0x00,
  0x00, 0x00, 0x00, 0x00, 0x24, 0x00, 0x00, 0x00, 0x00, 0x00, 0x00, 0x00,
  0x84, 0x13, 0x10, 0x00, 0x00, 0x00, 0x00, 0x00, 0x0d, 0x00, 0x00, 0x00,
  0x00, 0x00, 0x00, 0x00, 0xd8, 0x11, 0x10, 0x00, 0x00, 0x00, 0x00, 0x00,
  0x02, 0x00, 0x00, 0x00, 0x00, 0x00, 0x00, 0x00, 0xa8, 0x13, 0x10, 0x00,
  0x00, 0x00, 0x00, 0x00, 0x3f, 0x00, 0x00, 0x00, 0x00, 0x00, 0x00, 0x00,
  0xe7, 0x13, 0x10, 0x00, 0x00, 0x00, 0x00, 0x00, 0x0d, 0x00, 0x00, 0x00,
  0x00, 0x00, 0x00, 0x00, 0xc8, 0x11, 0x10, 0x00, 0x00, 0x00, 0x00, 0x00,
  0x01, 0x00, 0x00, 0x00, 0x00, 0x00, 0x00, 0x00, 0xfb, 0x13, 0x10, 0x00,
  0x00, 0x00, 0x00, 0x00, 0x24, 0x00, 0x00, 0x00, 0x00, 0x00, 0x00, 0x00,
  0x1f, 0x14, 0x10, 0x00, 0x00, 0x00, 0x00, 0x00, 0x0e, 0x00, 0x00, 0x00,
  0x00, 0x00, 0x00, 0x00, 0xa8, 0x11, 0x10, 0x00, 0x00, 0x00, 0x00, 0x00,
  0x02, 0x00, 0x00, 0x00, 0x00, 0x00, 0x00, 0x00, 0x34, 0x14, 0x10, 0x00,
  0x00, 0x00, 0x00, 0x00, 0x43, 0x00, 0x00, 0x00, 0x00, 0x00, 0x00, 0x00,
  0x77, 0x14, 0x10, 0x00, 0x00, 0x00, 0x00, 0x00, 0x1b, 0x00, 0x00, 0x00,
  0x00, 0x00, 0x00, 0x00, 0x88, 0x11, 0x10, 0x00, 0x00, 0x00, 0x00, 0x00,
  0x02, 0x00, 0x00, 0x00, 0x00, 0x00, 0x00, 0x00, 0x92, 0x14, 0x10, 0x00,
  0x00, 0x00, 0x00, 0x00, 0x56, 0x00, 0x00, 0x00, 0x00, 0x00, 0x00, 0x00,
  0xe8, 0x14, 0x10, 0x00, 0x00, 0x00, 0x00, 0x00, 0x0f, 0x00, 0x00, 0x00,
  0x00, 0x00, 0x00, 0x00, 0x78, 0x11, 0x10, 0x00, 0x00, 0x00, 0x00, 0x00,
  0x01, 0x00, 0x00, 0x00, 0x00, 0x00, 0x00, 0x00, 0x00, 0x15, 0x10, 0x00,
  0x00, 0x00, 0x00, 0x00, 0x25, 0x00, 0x00, 0x00, 0x00, 0x00, 0x00, 0x00,
  0x25, 0x15, 0x10, 0x00, 0x00, 0x00, 0x00, 0x00, 0x0d, 0x00, 0x00, 0x00,
  0x00, 0x00, 0x00, 0x00, 0x58, 0x11, 0x10, 0x00, 0x00, 0x00, 0x00, 0x00,
  0x02, 0x00, 0x00, 0x00, 0x00, 0x00, 0x00, 0x00, 0x3b, 0x15, 0x10, 0x00,
  0x00, 0x00, 0x00, 0x00, 0x23, 0x00, 0x00, 0x00, 0x00, 0x00, 0x00, 0x00,
  0x5e, 0x15, 0x10, 0x00, 0x00, 0x00, 0x00, 0x00, 0x11, 0x00, 0x00, 0x00,
  0x00, 0x00, 0x00, 0x00, 0x48, 0x11, 0x10, 0x00, 0x00, 0x00, 0x00, 0x00,
  0x01, 0x00, 0x00, 0x00, 0x00, 0x00, 0x00, 0x00, 0x7a, 0x15, 0x10, 0x00,
  0x00, 0x00, 0x00, 0x00, 0x27, 0x00, 0x00, 0x00, 0x00, 0x00, 0x00, 0x00,
  0xa1, 0x15, 0x10, 0x00, 0x00, 0x00, 0x00, 0x00, 0x12, 0x00, 0x00, 0x00,
  0x00, 0x00, 0x00, 0x00, 0x28, 0x11, 0x10, 0x00, 0x00, 0x00, 0x00, 0x00,
  0x02, 0x00, 0x00, 0x00, 0x00, 0x00, 0x00, 0x00, 0xbe, 0x15, 0x10, 0x00,
  0x00, 0x00, 0x00, 0x00, 0x56, 0x00, 0x00, 0x00, 0x00, 0x00, 0x00, 0x00,
  0xb3, 0x15, 0x10, 0x00, 0x00, 0x00, 0x00, 0x00, 0x0b, 0x00, 0x00, 0x00,
  0x00, 0x00, 0x00, 0x00, 0xa4, 0x12, 0x10, 0x00, 0x00, 0x00, 0x00, 0x00,
  0x11, 0x00, 0x00, 0x00, 0x00, 0x00, 0x00, 0x00, 0x6f, 0x15, 0x10, 0x00,
  0x00, 0x00, 0x00, 0x00, 0x0b, 0x00, 0x00, 0x00, 0x00, 0x00, 0x00, 0x00,
  0x32, 0x15, 0x10, 0x00, 0x00, 0x00, 0x00, 0x00, 0x09, 0x00, 0x00, 0x00,
  0x00, 0x00, 0x00, 0x00, 0x9a, 0x13, 0x10, 0x00, 0x00, 0x00, 0x00, 0x00,
  0x0e, 0x00, 0x00, 0x00, 0x00, 0x00, 0x00, 0x00, 0xf7, 0x14, 0x10, 0x00,
  0x00, 0x00, 0x00, 0x00, 0x09, 0x00, 0x00, 0x00, 0x00, 0x00, 0x00, 0x00,
  0x2d, 0x14, 0x10, 0x00, 0x00, 0x00, 0x00, 0x00, 0x07, 0x00, 0x00, 0x00,
  0x00, 0x00, 0x00, 0x00, 0x13, 0x13, 0x10, 0x00, 0x00, 0x00, 0x00, 0x00,
  0x0f, 0x00, 0x00, 0x00, 0x00, 0x00, 0x00, 0x00, 0x2d, 0x14, 0x10, 0x00,
  0x00, 0x00, 0x00, 0x00, 0x07, 0x00, 0x00, 0x00, 0x00, 0x00, 0x00, 0x00,
  0xa4, 0x12, 0x10, 0x00, 0x00, 0x00, 0x00, 0x00, 0x11, 0x00, 0x00, 0x00,
  0x00, 0x00, 0x00, 0x00, 0xf4, 0x13, 0x10, 0x00, 0x00, 0x00, 0x00, 0x00,
  0x07, 0x00, 0x00, 0x00, 0x00, 0x00, 0x00, 0x00, 0x91, 0x13, 0x10, 0x00,
  0x00, 0x00, 0x00, 0x00, 0x09, 0x00, 0x00, 0x00, 0x00, 0x00, 0x00, 0x00,
  0x9a, 0x13, 0x10, 0x00, 0x00, 0x00, 0x00, 0x00, 0x0e, 0x00, 0x00, 0x00,
  0x00, 0x00, 0x00, 0x00, 0x57, 0x13, 0x10, 0x00, 0x00, 0x00, 0x00, 0x00,
  0x09, 0x00, 0x00, 0x00, 0x00, 0x00, 0x00, 0x00, 0x9d, 0x12, 0x10, 0x00,
  0x00, 0x00, 0x00, 0x00, 0x07, 0x00, 0x00, 0x00, 0x00, 0x00, 0x00, 0x00,
  0x13, 0x13, 0x10, 0x00, 0x00, 0x00, 0x00, 0x00, 0x0f, 0x00, 0x00, 0x00,
  0x00, 0x00, 0x00, 0x00, 0x9d, 0x12, 0x10, 0x00, 0x00, 0x00, 0x00, 0x00,
  0x07, 0x00, 0x00, 0x00, 0x00, 0x00, 0x00, 0x00, 0xa4, 0x12, 0x10, 0x00,
  0x00, 0x00, 0x00, 0x00, 0x11, 0x00, 0x00, 0x00, 0x00, 0x00, 0x00, 0x00,
  0x65, 0x12, 0x10, 0x00, 0x00, 0x00, 0x00, 0x00, 0x07, 0x00, 0x00, 0x00,
  0x00, 0x00, 0x00, 0x00, 0x72, 0x6c, 0x6f, 0x63, 0x6b, 0x3a, 0x20, 0x63,
  0x61, 0x6c, 0x6c, 0x65, 0x64, 0x2a, 0x20, 0x72, 0x6c, 0x6f, 0x63, 0x6b,
  0x7b, 0x77, 0x68, 0x6f, 0x7d, 0x20, 0x63, 0x61, 0x6c, 0x6c, 0x73, 0x20,
  0x72, 0x6c, 0x6f, 0x63, 0x6b, 0x3a, 0x20, 0x69, 0x74, 0x20, 0x77, 0x61,
  0x6e, 0x74, 0x73, 0x20, 0x74, 0x6f, 0x20, 0x72, 0x65, 0x61, 0x64, 0x72,
  0x6c, 0x6f, 0x63, 0x6b, 0x3a, 0x20, 0x65, 0x6e, 0x74, 0x65, 0x72, 0x65,
  0x64, 0x30, 0x20, 0x72, 0x6c, 0x6f, 0x63, 0x6b, 0x30, 0x20, 0x73, 0x65,
  0x63, 0x74, 0x69, 0x6f, 0x6e, 0x20, 0x65, 0x6e, 0x74, 0x65, 0x72, 0x65,
  0x64, 0x7b, 0x77, 0x68, 0x6f, 0x7d, 0x20, 0x66, 0x69, 0x6e, 0x64, 0x73,
  0x20, 0x6e, 0x6f, 0x20, 0x77, 0x72, 0x69, 0x74, 0x65, 0x72, 0x2c, 0x20,
  0x61, 0x6e, 0x64, 0x20, 0x63, 0x6f, 0x75, 0x6e, 0x74, 0x73, 0x20, 0x69,
  0x74, 0x73, 0x65, 0x6c, 0x66, 0x20, 0x69, 0x6e, 0x3a, 0x20, 0x72, 0x65,
  0x61, 0x64, 0x65, 0x72, 0x73, 0x20, 0x69, 0x73, 0x20, 0x6e, 0x6f, 0x77,
  0x20, 0x7b, 0x72, 0x65, 0x61, 0x64, 0x65, 0x72, 0x73, 0x7d, 0x72, 0x6c,
  0x6f, 0x63, 0x6b, 0x3a, 0x20, 0x70, 0x6f, 0x6c, 0x6c, 0x20, 0x77, 0x69,
  0x74, 0x68, 0x20, 0x61, 0x20, 0x77, 0x72, 0x69, 0x74, 0x65, 0x72, 0x30,
  0x20, 0x73, 0x65, 0x63, 0x74, 0x69, 0x6f, 0x6e, 0x20, 0x77, 0x61, 0x69,
  0x74, 0x73, 0x7b, 0x77, 0x68, 0x6f, 0x7d, 0x20, 0x70, 0x6f, 0x6c, 0x6c,
  0x73, 0x20, 0x61, 0x6e, 0x64, 0x20, 0x77, 0x61, 0x69, 0x74, 0x73, 0x3a,
  0x20, 0x74, 0x68, 0x65, 0x20, 0x66, 0x6c, 0x61, 0x67, 0x20, 0x69, 0x73,
  0x20, 0x73, 0x65, 0x74, 0x72, 0x75, 0x6e, 0x6c, 0x6f, 0x63, 0x6b, 0x3a,
  0x20, 0x63, 0x61, 0x6c, 0x6c, 0x65, 0x64, 0x2a, 0x20, 0x72, 0x75, 0x6e,
  0x6c, 0x6f, 0x63, 0x6b, 0x7b, 0x77, 0x68, 0x6f, 0x7d, 0x20, 0x63, 0x61,
  0x6c, 0x6c, 0x73, 0x20, 0x72, 0x75, 0x6e, 0x6c, 0x6f, 0x63, 0x6b, 0x2c,
  0x20, 0x61, 0x6e, 0x64, 0x20, 0x73, 0x74, 0x69, 0x6c, 0x6c, 0x20, 0x72,
  0x65, 0x61, 0x64, 0x73, 0x72, 0x75, 0x6e, 0x6c, 0x6f, 0x63, 0x6b, 0x3a,
  0x20, 0x6c, 0x65, 0x66, 0x74, 0x30, 0x20, 0x72, 0x75, 0x6e, 0x6c, 0x6f,
  0x63, 0x6b, 0x30, 0x20, 0x73, 0x65, 0x63, 0x74, 0x69, 0x6f, 0x6e, 0x20,
  0x6c, 0x65, 0x66, 0x74, 0x7b, 0x77, 0x68, 0x6f, 0x7d, 0x20, 0x63, 0x6f,
  0x75, 0x6e, 0x74, 0x73, 0x20, 0x69, 0x74, 0x73, 0x65, 0x6c, 0x66, 0x20,
  0x6f, 0x75, 0x74, 0x2c, 0x20, 0x61, 0x6e, 0x64, 0x20, 0x68, 0x61, 0x73,
  0x20, 0x6c, 0x65, 0x66, 0x74, 0x3a, 0x20, 0x72, 0x65, 0x61, 0x64, 0x65,
  0x72, 0x73, 0x20, 0x69, 0x73, 0x20, 0x6e, 0x6f, 0x77, 0x20, 0x7b, 0x72,
  0x65, 0x61, 0x64, 0x65, 0x72, 0x73, 0x7d, 0x77, 0x6c, 0x6f, 0x63, 0x6b,
  0x3a, 0x20, 0x63, 0x61, 0x6c, 0x6c, 0x65, 0x64, 0x2a, 0x20, 0x77, 0x6c,
  0x6f, 0x63, 0x6b, 0x7b, 0x77, 0x68, 0x6f, 0x7d, 0x20, 0x63, 0x61, 0x6c,
  0x6c, 0x73, 0x20, 0x77, 0x6c, 0x6f, 0x63, 0x6b, 0x3a, 0x20, 0x69, 0x74,
  0x20, 0x77, 0x61, 0x6e, 0x74, 0x73, 0x20, 0x74, 0x6f, 0x20, 0x77, 0x72,
  0x69, 0x74, 0x65, 0x77, 0x6c, 0x6f, 0x63, 0x6b, 0x3a, 0x20, 0x65, 0x6e,
  0x74, 0x65, 0x72, 0x65, 0x64, 0x30, 0x20, 0x77, 0x6c, 0x6f, 0x63, 0x6b,
  0x7b, 0x77, 0x68, 0x6f, 0x7d, 0x20, 0x66, 0x69, 0x6e, 0x64, 0x73, 0x20,
  0x6e, 0x6f, 0x20, 0x72, 0x65, 0x61, 0x64, 0x65, 0x72, 0x20, 0x61, 0x6e,
  0x64, 0x20, 0x74, 0x68, 0x65, 0x20, 0x66, 0x6c, 0x61, 0x67, 0x20, 0x63,
  0x6c, 0x65, 0x61, 0x72, 0x2c, 0x20, 0x73, 0x65, 0x74, 0x73, 0x20, 0x74,
  0x68, 0x65, 0x20, 0x66, 0x6c, 0x61, 0x67, 0x2c, 0x20, 0x61, 0x6e, 0x64,
  0x20, 0x77, 0x72, 0x69, 0x74, 0x65, 0x73, 0x77, 0x6c, 0x6f, 0x63, 0x6b,
  0x3a, 0x20, 0x70, 0x6f, 0x6c, 0x6c, 0x20, 0x6f, 0x66, 0x20, 0x61, 0x20,
  0x74, 0x61, 0x6b, 0x65, 0x6e, 0x20, 0x6c, 0x6f, 0x63, 0x6b, 0x7b, 0x77,
  0x68, 0x6f, 0x7d, 0x20, 0x70, 0x6f, 0x6c, 0x6c, 0x73, 0x20, 0x61, 0x6e,
  0x64, 0x20, 0x77, 0x61, 0x69, 0x74, 0x73, 0x3a, 0x20, 0x72, 0x65, 0x61,
  0x64, 0x65, 0x72, 0x73, 0x20, 0x69, 0x73, 0x20, 0x7b, 0x72, 0x65, 0x61,
  0x64, 0x65, 0x72, 0x73, 0x7d, 0x2c, 0x20, 0x61, 0x6e, 0x64, 0x20, 0x74,
  0x68, 0x65, 0x20, 0x66, 0x6c, 0x61, 0x67, 0x20, 0x69, 0x73, 0x20, 0x7b,
  0x66, 0x6c, 0x61, 0x67, 0x7d, 0x3b, 0x20, 0x62, 0x6f, 0x74, 0x68, 0x20,
  0x68, 0x61, 0x76, 0x65, 0x20, 0x74, 0x6f, 0x20, 0x62, 0x65, 0x20, 0x30,
  0x77, 0x75, 0x6e, 0x6c, 0x6f, 0x63, 0x6b, 0x3a, 0x20, 0x63, 0x61, 0x6c,
  0x6c, 0x65, 0x64, 0x2a, 0x20, 0x77, 0x75, 0x6e, 0x6c, 0x6f, 0x63, 0x6b,
  0x7b, 0x77, 0x68, 0x6f, 0x7d, 0x20, 0x63, 0x61, 0x6c, 0x6c, 0x73, 0x20,
  0x77, 0x75, 0x6e, 0x6c, 0x6f, 0x63, 0x6b, 0x2c, 0x20, 0x61, 0x6e, 0x64,
  0x20, 0x73, 0x74, 0x69, 0x6c, 0x6c, 0x20, 0x77, 0x72, 0x69, 0x74, 0x65,
  0x73, 0x77, 0x75, 0x6e, 0x6c, 0x6f, 0x63, 0x6b, 0x3a, 0x20, 0x6c, 0x65,
  0x66, 0x74, 0x30, 0x20, 0x77, 0x75, 0x6e, 0x6c, 0x6f, 0x63, 0x6b, 0x7b,
  0x77, 0x68, 0x6f, 0x7d, 0x20, 0x63, 0x6c, 0x65, 0x61, 0x72, 0x73, 0x20,
  0x74, 0x68, 0x65, 0x20, 0x66, 0x6c, 0x61, 0x67, 0x2c, 0x20, 0x61, 0x6e,
  0x64, 0x20, 0x68, 0x61, 0x73, 0x20, 0x6c, 0x65, 0x66, 0x74, 0x64, 0x6f,
  0x77, 0x6e, 0x67, 0x72, 0x61, 0x64, 0x65, 0x3a, 0x20, 0x63, 0x61, 0x6c,
  0x6c, 0x65, 0x64, 0x2a, 0x20, 0x64, 0x6f, 0x77, 0x6e, 0x67, 0x72, 0x61,
  0x64, 0x65, 0x7b, 0x77, 0x68, 0x6f, 0x7d, 0x20, 0x63, 0x61, 0x6c, 0x6c,
  0x73, 0x20, 0x64, 0x6f, 0x77, 0x6e, 0x67, 0x72, 0x61, 0x64, 0x65, 0x2c,
  0x20, 0x61, 0x6e, 0x64, 0x20, 0x73, 0x74, 0x69, 0x6c, 0x6c, 0x20, 0x77,
  0x72, 0x69, 0x74, 0x65, 0x73, 0x64, 0x6f, 0x77, 0x6e, 0x67, 0x72, 0x61,
  0x64, 0x65, 0x3a, 0x20, 0x65, 0x6e, 0x74, 0x65, 0x72, 0x65, 0x64, 0x30,
  0x20, 0x64, 0x6f, 0x77, 0x6e, 0x67, 0x72, 0x61, 0x64, 0x65, 0x7b, 0x77,
  0x68, 0x6f, 0x7d, 0x20, 0x62, 0x65, 0x63, 0x6f, 0x6d, 0x65, 0x73, 0x20,
  0x61, 0x20, 0x72, 0x65, 0x61, 0x64, 0x65, 0x72, 0x20, 0x69, 0x6e, 0x20,
  0x6f, 0x6e, 0x65, 0x20, 0x73, 0x65, 0x63, 0x74, 0x69, 0x6f, 0x6e, 0x3a,
  0x20, 0x72, 0x65, 0x61, 0x64, 0x65, 0x72, 0x73, 0x20, 0x69, 0x73, 0x20,
  0x6e, 0x6f, 0x77, 0x20, 0x7b, 0x72, 0x65, 0x61, 0x64, 0x65, 0x72, 0x73,
  0x7d, 0x2c, 0x20, 0x61, 0x6e, 0x64, 0x20, 0x74, 0x68, 0x65, 0x20, 0x66,
  0x6c, 0x61, 0x67, 0x20, 0x69, 0x73, 0x20, 0x63, 0x6c, 0x65, 0x61, 0x72,
  0x00, 0x00, 0x00, 0x00, 0x68, 0x1a, 0x10, 0x00, 0x00, 0x00, 0x00, 0x00,
  0x0d, 0x00, 0x00, 0x00, 0x00, 0x00, 0x00, 0x00, 0x58, 0x1a, 0x10, 0x00,
  0x00, 0x00, 0x00, 0x00, 0x01, 0x00, 0x00, 0x00, 0x00, 0x00, 0x00, 0x00,
  0x7c, 0x1a, 0x10, 0x00, 0x00, 0x00, 0x00, 0x00, 0x23, 0x00, 0x00, 0x00,
  0x00, 0x00, 0x00, 0x00, 0x9f, 0x1a, 0x10, 0x00, 0x00, 0x00, 0x00, 0x00,
  0x0e, 0x00, 0x00, 0x00, 0x00, 0x00, 0x00, 0x00, 0x38, 0x1a, 0x10, 0x00,
  0x00, 0x00, 0x00, 0x00, 0x02, 0x00, 0x00, 0x00, 0x00, 0x00, 0x00, 0x00,
  0xc5, 0x1a, 0x10, 0x00, 0x00, 0x00, 0x00, 0x00, 0x54, 0x00, 0x00, 0x00,
  0x00, 0x00, 0x00, 0x00, 0x19, 0x1b, 0x10, 0x00, 0x00, 0x00, 0x00, 0x00,
  0x19, 0x00, 0x00, 0x00, 0x00, 0x00, 0x00, 0x00, 0x18, 0x1a, 0x10, 0x00,
  0x00, 0x00, 0x00, 0x00, 0x02, 0x00, 0x00, 0x00, 0x00, 0x00, 0x00, 0x00,
  0x41, 0x1b, 0x10, 0x00, 0x00, 0x00, 0x00, 0x00, 0x26, 0x00, 0x00, 0x00,
  0x00, 0x00, 0x00, 0x00, 0x67, 0x1b, 0x10, 0x00, 0x00, 0x00, 0x00, 0x00,
  0x0f, 0x00, 0x00, 0x00, 0x00, 0x00, 0x00, 0x00, 0x08, 0x1a, 0x10, 0x00,
  0x00, 0x00, 0x00, 0x00, 0x01, 0x00, 0x00, 0x00, 0x00, 0x00, 0x00, 0x00,
  0x7f, 0x1b, 0x10, 0x00, 0x00, 0x00, 0x00, 0x00, 0x24, 0x00, 0x00, 0x00,
  0x00, 0x00, 0x00, 0x00, 0xa3, 0x1b, 0x10, 0x00, 0x00, 0x00, 0x00, 0x00,
  0x0d, 0x00, 0x00, 0x00, 0x00, 0x00, 0x00, 0x00, 0xe8, 0x19, 0x10, 0x00,
  0x00, 0x00, 0x00, 0x00, 0x02, 0x00, 0x00, 0x00, 0x00, 0x00, 0x00, 0x00,
  0xc7, 0x1b, 0x10, 0x00, 0x00, 0x00, 0x00, 0x00, 0x49, 0x00, 0x00, 0x00,
  0x00, 0x00, 0x00, 0x00, 0x10, 0x1c, 0x10, 0x00, 0x00, 0x00, 0x00, 0x00,
  0x0d, 0x00, 0x00, 0x00, 0x00, 0x00, 0x00, 0x00, 0xd8, 0x19, 0x10, 0x00,
  0x00, 0x00, 0x00, 0x00, 0x01, 0x00, 0x00, 0x00, 0x00, 0x00, 0x00, 0x00,
  0x24, 0x1c, 0x10, 0x00, 0x00, 0x00, 0x00, 0x00, 0x24, 0x00, 0x00, 0x00,
  0x00, 0x00, 0x00, 0x00, 0x48, 0x1c, 0x10, 0x00, 0x00, 0x00, 0x00, 0x00,
  0x1e, 0x00, 0x00, 0x00, 0x00, 0x00, 0x00, 0x00, 0xb8, 0x19, 0x10, 0x00,
  0x00, 0x00, 0x00, 0x00, 0x02, 0x00, 0x00, 0x00, 0x00, 0x00, 0x00, 0x00,
  0x6d, 0x1c, 0x10, 0x00, 0x00, 0x00, 0x00, 0x00, 0x37, 0x00, 0x00, 0x00,
  0x00, 0x00, 0x00, 0x00, 0xa4, 0x1c, 0x10, 0x00, 0x00, 0x00, 0x00, 0x00,
  0x1b, 0x00, 0x00, 0x00, 0x00, 0x00, 0x00, 0x00, 0x98, 0x19, 0x10, 0x00,
  0x00, 0x00, 0x00, 0x00, 0x02, 0x00, 0x00, 0x00, 0x00, 0x00, 0x00, 0x00,
  0xbf, 0x1c, 0x10, 0x00, 0x00, 0x00, 0x00, 0x00, 0x3e, 0x00, 0x00, 0x00,
  0x00, 0x00, 0x00, 0x00, 0xfd, 0x1c, 0x10, 0x00, 0x00, 0x00, 0x00, 0x00,
  0x0f, 0x00, 0x00, 0x00, 0x00, 0x00, 0x00, 0x00, 0x88, 0x19, 0x10, 0x00,
  0x00, 0x00, 0x00, 0x00, 0x01, 0x00, 0x00, 0x00, 0x00, 0x00, 0x00, 0x00,
  0x15, 0x1d, 0x10, 0x00, 0x00, 0x00, 0x00, 0x00, 0x25, 0x00, 0x00, 0x00,
  0x00, 0x00, 0x00, 0x00, 0x3a, 0x1d, 0x10, 0x00, 0x00, 0x00, 0x00, 0x00,
  0x0d, 0x00, 0x00, 0x00, 0x00, 0x00, 0x00, 0x00, 0x68, 0x19, 0x10, 0x00,
  0x00, 0x00, 0x00, 0x00, 0x02, 0x00, 0x00, 0x00, 0x00, 0x00, 0x00, 0x00,
  0x50, 0x1d, 0x10, 0x00, 0x00, 0x00, 0x00, 0x00, 0x23, 0x00, 0x00, 0x00,
  0x00, 0x00, 0x00, 0x00, 0x73, 0x1d, 0x10, 0x00, 0x00, 0x00, 0x00, 0x00,
  0x11, 0x00, 0x00, 0x00, 0x00, 0x00, 0x00, 0x00, 0x58, 0x19, 0x10, 0x00,
  0x00, 0x00, 0x00, 0x00, 0x01, 0x00, 0x00, 0x00, 0x00, 0x00, 0x00, 0x00,
  0x8f, 0x1d, 0x10, 0x00, 0x00, 0x00, 0x00, 0x00, 0x27, 0x00, 0x00, 0x00,
  0x00, 0x00, 0x00, 0x00, 0xb6, 0x1d, 0x10, 0x00, 0x00, 0x00, 0x00, 0x00,
  0x12, 0x00, 0x00, 0x00, 0x00, 0x00, 0x00, 0x00, 0x38, 0x19, 0x10, 0x00,
  0x00, 0x00, 0x00, 0x00, 0x02, 0x00, 0x00, 0x00, 0x00, 0x00, 0x00, 0x00,
  0xd3, 0x1d, 0x10, 0x00, 0x00, 0x00, 0x00, 0x00, 0x60, 0x00, 0x00, 0x00,
  0x00, 0x00, 0x00, 0x00, 0x33, 0x1e, 0x10, 0x00, 0x00, 0x00, 0x00, 0x00,
  0x17, 0x00, 0x00, 0x00, 0x00, 0x00, 0x00, 0x00, 0x28, 0x19, 0x10, 0x00,
  0x00, 0x00, 0x00, 0x00, 0x01, 0x00, 0x00, 0x00, 0x00, 0x00, 0x00, 0x00,
  0x59, 0x1e, 0x10, 0x00, 0x00, 0x00, 0x00, 0x00, 0x93, 0x00, 0x00, 0x00,
  0x00, 0x00, 0x00, 0x00, 0xec, 0x1e, 0x10, 0x00, 0x00, 0x00, 0x00, 0x00,
  0x1f, 0x00, 0x00, 0x00, 0x00, 0x00, 0x00, 0x00, 0x08, 0x19, 0x10, 0x00,
  0x00, 0x00, 0x00, 0x00, 0x02, 0x00, 0x00, 0x00, 0x00, 0x00, 0x00, 0x00,
  0x1a, 0x1f, 0x10, 0x00, 0x00, 0x00, 0x00, 0x00, 0x64, 0x00, 0x00, 0x00,
  0x00, 0x00, 0x00, 0x00, 0x7e, 0x1f, 0x10, 0x00, 0x00, 0x00, 0x00, 0x00,
  0x20, 0x00, 0x00, 0x00, 0x00, 0x00, 0x00, 0x00, 0xe8, 0x18, 0x10, 0x00,
  0x00, 0x00, 0x00, 0x00, 0x02, 0x00, 0x00, 0x00, 0x00, 0x00, 0x00, 0x00,
  0x9e, 0x1f, 0x10, 0x00, 0x00, 0x00, 0x00, 0x00, 0x63, 0x00, 0x00, 0x00,
  0x00, 0x00, 0x00, 0x00, 0x0b, 0x1f, 0x10, 0x00, 0x00, 0x00, 0x00, 0x00,
  0x0f, 0x00, 0x00, 0x00, 0x00, 0x00, 0x00, 0x00, 0xb4, 0x1a, 0x10, 0x00,
  0x00, 0x00, 0x00, 0x00, 0x11, 0x00, 0x00, 0x00, 0x00, 0x00, 0x00, 0x00,
  0x0b, 0x1f, 0x10, 0x00, 0x00, 0x00, 0x00, 0x00, 0x0f, 0x00, 0x00, 0x00,
  0x00, 0x00, 0x00, 0x00, 0x32, 0x1b, 0x10, 0x00, 0x00, 0x00, 0x00, 0x00,
  0x0f, 0x00, 0x00, 0x00, 0x00, 0x00, 0x00, 0x00, 0x4a, 0x1e, 0x10, 0x00,
  0x00, 0x00, 0x00, 0x00, 0x0f, 0x00, 0x00, 0x00, 0x00, 0x00, 0x00, 0x00,
  0xc8, 0x1d, 0x10, 0x00, 0x00, 0x00, 0x00, 0x00, 0x0b, 0x00, 0x00, 0x00,
  0x00, 0x00, 0x00, 0x00, 0xb4, 0x1a, 0x10, 0x00, 0x00, 0x00, 0x00, 0x00,
  0x11, 0x00, 0x00, 0x00, 0x00, 0x00, 0x00, 0x00, 0x84, 0x1d, 0x10, 0x00,
  0x00, 0x00, 0x00, 0x00, 0x0b, 0x00, 0x00, 0x00, 0x00, 0x00, 0x00, 0x00,
  0x47, 0x1d, 0x10, 0x00, 0x00, 0x00, 0x00, 0x00, 0x09, 0x00, 0x00, 0x00,
  0x00, 0x00, 0x00, 0x00, 0xb9, 0x1b, 0x10, 0x00, 0x00, 0x00, 0x00, 0x00,
  0x0e, 0x00, 0x00, 0x00, 0x00, 0x00, 0x00, 0x00, 0x0c, 0x1d, 0x10, 0x00,
  0x00, 0x00, 0x00, 0x00, 0x09, 0x00, 0x00, 0x00, 0x00, 0x00, 0x00, 0x00,
  0x66, 0x1c, 0x10, 0x00, 0x00, 0x00, 0x00, 0x00, 0x07, 0x00, 0x00, 0x00,
  0x00, 0x00, 0x00, 0x00, 0x32, 0x1b, 0x10, 0x00, 0x00, 0x00, 0x00, 0x00,
  0x0f, 0x00, 0x00, 0x00, 0x00, 0x00, 0x00, 0x00, 0x66, 0x1c, 0x10, 0x00,
  0x00, 0x00, 0x00, 0x00, 0x07, 0x00, 0x00, 0x00, 0x00, 0x00, 0x00, 0x00,
  0xb4, 0x1a, 0x10, 0x00, 0x00, 0x00, 0x00, 0x00, 0x11, 0x00, 0x00, 0x00,
  0x00, 0x00, 0x00, 0x00, 0x1d, 0x1c, 0x10, 0x00, 0x00, 0x00, 0x00, 0x00,
  0x07, 0x00, 0x00, 0x00, 0x00, 0x00, 0x00, 0x00, 0xb0, 0x1b, 0x10, 0x00,
  0x00, 0x00, 0x00, 0x00, 0x09, 0x00, 0x00, 0x00, 0x00, 0x00, 0x00, 0x00,
  0xb9, 0x1b, 0x10, 0x00, 0x00, 0x00, 0x00, 0x00, 0x0e, 0x00, 0x00, 0x00,
  0x00, 0x00, 0x00, 0x00, 0x76, 0x1b, 0x10, 0x00, 0x00, 0x00, 0x00, 0x00,
  0x09, 0x00, 0x00, 0x00, 0x00, 0x00, 0x00, 0x00, 0xad, 0x1a, 0x10, 0x00,
  0x00, 0x00, 0x00, 0x00, 0x07, 0x00, 0x00, 0x00, 0x00, 0x00, 0x00, 0x00,
  0x32, 0x1b, 0x10, 0x00, 0x00, 0x00, 0x00, 0x00, 0x0f, 0x00, 0x00, 0x00,
  0x00, 0x00, 0x00, 0x00, 0xad, 0x1a, 0x10, 0x00, 0x00, 0x00, 0x00, 0x00,
  0x07, 0x00, 0x00, 0x00, 0x00, 0x00, 0x00, 0x00, 0xb4, 0x1a, 0x10, 0x00,
  0x00, 0x00, 0x00, 0x00, 0x11, 0x00, 0x00, 0x00, 0x00, 0x00, 0x00, 0x00,
  0x75, 0x1a, 0x10, 0x00, 0x00, 0x00, 0x00, 0x00, 0x07, 0x00, 0x00, 0x00,
  0x00, 0x00, 0x00, 0x00, 0x72, 0x6c, 0x6f, 0x63, 0x6b, 0x3a, 0x20, 0x63,
  0x61, 0x6c, 0x6c, 0x65, 0x64, 0x2a, 0x20, 0x72, 0x6c, 0x6f, 0x63, 0x6b,
  0x7b, 0x77, 0x68, 0x6f, 0x7d, 0x20, 0x63, 0x61, 0x6c, 0x6c, 0x73, 0x20,
  0x72, 0x6c, 0x6f, 0x63, 0x6b, 0x3a, 0x20, 0x69, 0x74, 0x20, 0x77, 0x61,
  0x6e, 0x74, 0x73, 0x20, 0x74, 0x6f, 0x20, 0x72, 0x65, 0x61, 0x64, 0x72,
  0x6c, 0x6f, 0x63, 0x6b, 0x3a, 0x20, 0x65, 0x6e, 0x74, 0x65, 0x72, 0x65,
  0x64, 0x30, 0x20, 0x72, 0x6c, 0x6f, 0x63, 0x6b, 0x30, 0x20, 0x73, 0x65,
  0x63, 0x74, 0x69, 0x6f, 0x6e, 0x20, 0x65, 0x6e, 0x74, 0x65, 0x72, 0x65,
  0x64, 0x7b, 0x77, 0x68, 0x6f, 0x7d, 0x20, 0x66, 0x69, 0x6e, 0x64, 0x73,
  0x20, 0x74, 0x68, 0x65, 0x20, 0x66, 0x6c, 0x61, 0x67, 0x20, 0x63, 0x6c,
  0x65, 0x61, 0x72, 0x2c, 0x20, 0x61, 0x6e, 0x64, 0x20, 0x63, 0x6f, 0x75,
  0x6e, 0x74, 0x73, 0x20, 0x69, 0x74, 0x73, 0x65, 0x6c, 0x66, 0x20, 0x69,
  0x6e, 0x3a, 0x20, 0x72, 0x65, 0x61, 0x64, 0x41, 0x63, 0x71, 0x75, 0x69,
  0x72, 0x65, 0x73, 0x20, 0x69, 0x73, 0x20, 0x6e, 0x6f, 0x77, 0x20, 0x7b,
  0x72, 0x65, 0x61, 0x64, 0x41, 0x63, 0x71, 0x75, 0x69, 0x72, 0x65, 0x73,
  0x7d, 0x72, 0x6c, 0x6f, 0x63, 0x6b, 0x3a, 0x20, 0x70, 0x6f, 0x6c, 0x6c,
  0x20, 0x77, 0x69, 0x74, 0x68, 0x20, 0x61, 0x20, 0x77, 0x72, 0x69, 0x74,
  0x65, 0x72, 0x30, 0x20, 0x73, 0x65, 0x63, 0x74, 0x69, 0x6f, 0x6e, 0x20,
  0x77, 0x61, 0x69, 0x74, 0x73, 0x7b, 0x77, 0x68, 0x6f, 0x7d, 0x20, 0x70,
  0x6f, 0x6c, 0x6c, 0x73, 0x20, 0x61, 0x6e, 0x64, 0x20, 0x77, 0x61, 0x69,
  0x74, 0x73, 0x3a, 0x20, 0x74, 0x68, 0x65, 0x20, 0x66, 0x6c, 0x61, 0x67,
  0x20, 0x69, 0x73, 0x20, 0x73, 0x65, 0x74, 0x72, 0x75, 0x6e, 0x6c, 0x6f,
  0x63, 0x6b, 0x3a, 0x20, 0x63, 0x61, 0x6c, 0x6c, 0x65, 0x64, 0x2a, 0x20,
  0x72, 0x75, 0x6e, 0x6c, 0x6f, 0x63, 0x6b, 0x7b, 0x77, 0x68, 0x6f, 0x7d,
  0x20, 0x63, 0x61, 0x6c, 0x6c, 0x73, 0x20, 0x72, 0x75, 0x6e, 0x6c, 0x6f,
  0x63, 0x6b, 0x2c, 0x20, 0x61, 0x6e, 0x64, 0x20, 0x73, 0x74, 0x69, 0x6c,
  0x6c, 0x20, 0x72, 0x65, 0x61, 0x64, 0x73, 0x72, 0x75, 0x6e, 0x6c, 0x6f,
  0x63, 0x6b, 0x3a, 0x20, 0x6c, 0x65, 0x66, 0x74, 0x30, 0x20, 0x72, 0x75,
  0x6e, 0x6c, 0x6f, 0x63, 0x6b, 0x30, 0x20, 0x73, 0x65, 0x63, 0x74, 0x69,
  0x6f, 0x6e, 0x20, 0x6c, 0x65, 0x66, 0x74, 0x7b, 0x77, 0x68, 0x6f, 0x7d,
  0x20, 0x63, 0x6f, 0x75, 0x6e, 0x74, 0x73, 0x20, 0x69, 0x74, 0x73, 0x65,
  0x6c, 0x66, 0x20, 0x6f, 0x75, 0x74, 0x2c, 0x20, 0x61, 0x6e, 0x64, 0x20,
  0x68, 0x61, 0x73, 0x20, 0x6c, 0x65, 0x66, 0x74, 0x3a, 0x20, 0x72, 0x65,
  0x61, 0x64, 0x52, 0x65, 0x6c, 0x65, 0x61, 0x73, 0x65, 0x73, 0x20, 0x69,
  0x73, 0x20, 0x6e, 0x6f, 0x77, 0x20, 0x7b, 0x72, 0x65, 0x61, 0x64, 0x52,
  0x65, 0x6c, 0x65, 0x61, 0x73, 0x65, 0x73, 0x7d, 0x77, 0x6c, 0x6f, 0x63,
  0x6b, 0x3a, 0x20, 0x63, 0x61, 0x6c, 0x6c, 0x65, 0x64, 0x2a, 0x20, 0x77,
  0x6c, 0x6f, 0x63, 0x6b, 0x7b, 0x77, 0x68, 0x6f, 0x7d, 0x20, 0x63, 0x61,
  0x6c, 0x6c, 0x73, 0x20, 0x77, 0x6c, 0x6f, 0x63, 0x6b, 0x3a, 0x20, 0x69,
  0x74, 0x20, 0x77, 0x61, 0x6e, 0x74, 0x73, 0x20, 0x74, 0x6f, 0x20, 0x77,
  0x72, 0x69, 0x74, 0x65, 0x77, 0x6c, 0x6f, 0x63, 0x6b, 0x3a, 0x20, 0x65,
  0x6e, 0x74, 0x65, 0x72, 0x65, 0x64, 0x20, 0x77, 0x69, 0x74, 0x68, 0x6f,
  0x75, 0x74, 0x20, 0x77, 0x61, 0x69, 0x74, 0x69, 0x6e, 0x67, 0x30, 0x20,
  0x77, 0x6c, 0x6f, 0x63, 0x6b, 0x7b, 0x77, 0x68, 0x6f, 0x7d, 0x20, 0x73,
  0x65, 0x74, 0x73, 0x20, 0x74, 0x68, 0x65, 0x20, 0x66, 0x6c, 0x61, 0x67,
  0x2c, 0x20, 0x66, 0x69, 0x6e, 0x64, 0x73, 0x20, 0x74, 0x68, 0x65, 0x20,
  0x63, 0x6f, 0x75, 0x6e, 0x74, 0x73, 0x20, 0x65, 0x71, 0x75, 0x61, 0x6c,
  0x2c, 0x20, 0x61, 0x6e, 0x64, 0x20, 0x77, 0x72, 0x69, 0x74, 0x65, 0x73,
  0x77, 0x6c, 0x6f, 0x63, 0x6b, 0x3a, 0x20, 0x70, 0x6f, 0x6c, 0x6c, 0x20,
  0x6f, 0x66, 0x20, 0x61, 0x20, 0x74, 0x61, 0x6b, 0x65, 0x6e, 0x20, 0x6c,
  0x6f, 0x63, 0x6b, 0x7b, 0x77, 0x68, 0x6f, 0x7d, 0x20, 0x70, 0x6f, 0x6c,
  0x6c, 0x73, 0x20, 0x61, 0x6e, 0x64, 0x20, 0x77, 0x61, 0x69, 0x74, 0x73,
  0x3a, 0x20, 0x74, 0x68, 0x65, 0x20, 0x66, 0x6c, 0x61, 0x67, 0x20, 0x69,
  0x73, 0x20, 0x73, 0x65, 0x74, 0x3b, 0x20, 0x69, 0x74, 0x20, 0x69, 0x73,
  0x20, 0x6e, 0x6f, 0x74, 0x20, 0x69, 0x6e, 0x20, 0x74, 0x68, 0x65, 0x20,
  0x71, 0x75, 0x65, 0x75, 0x65, 0x77, 0x75, 0x6e, 0x6c, 0x6f, 0x63, 0x6b,
  0x3a, 0x20, 0x63, 0x61, 0x6c, 0x6c, 0x65, 0x64, 0x2a, 0x20, 0x77, 0x75,
  0x6e, 0x6c, 0x6f, 0x63, 0x6b, 0x7b, 0x77, 0x68, 0x6f, 0x7d, 0x20, 0x63,
  0x61, 0x6c, 0x6c, 0x73, 0x20, 0x77, 0x75, 0x6e, 0x6c, 0x6f, 0x63, 0x6b,
  0x2c, 0x20, 0x61, 0x6e, 0x64, 0x20, 0x73, 0x74, 0x69, 0x6c, 0x6c, 0x20,
  0x77, 0x72, 0x69, 0x74, 0x65, 0x73, 0x77, 0x75, 0x6e, 0x6c, 0x6f, 0x63,
  0x6b, 0x3a, 0x20, 0x6c, 0x65, 0x66, 0x74, 0x30, 0x20, 0x77, 0x75, 0x6e,
  0x6c, 0x6f, 0x63, 0x6b, 0x7b, 0x77, 0x68, 0x6f, 0x7d, 0x20, 0x63, 0x6c,
  0x65, 0x61, 0x72, 0x73, 0x20, 0x74, 0x68, 0x65, 0x20, 0x66, 0x6c, 0x61,
  0x67, 0x2c, 0x20, 0x61, 0x6e, 0x64, 0x20, 0x68, 0x61, 0x73, 0x20, 0x6c,
  0x65, 0x66, 0x74, 0x64, 0x6f, 0x77, 0x6e, 0x67, 0x72, 0x61, 0x64, 0x65,
  0x3a, 0x20, 0x63, 0x61, 0x6c, 0x6c, 0x65, 0x64, 0x2a, 0x20, 0x64, 0x6f,
  0x77, 0x6e, 0x67, 0x72, 0x61, 0x64, 0x65, 0x7b, 0x77, 0x68, 0x6f, 0x7d,
  0x20, 0x63, 0x61, 0x6c, 0x6c, 0x73, 0x20, 0x64, 0x6f, 0x77, 0x6e, 0x67,
  0x72, 0x61, 0x64, 0x65, 0x2c, 0x20, 0x61, 0x6e, 0x64, 0x20, 0x73, 0x74,
  0x69, 0x6c, 0x6c, 0x20, 0x77, 0x72, 0x69, 0x74, 0x65, 0x73, 0x64, 0x6f,
  0x77, 0x6e, 0x67, 0x72, 0x61, 0x64, 0x65, 0x3a, 0x20, 0x65, 0x6e, 0x74,
  0x65, 0x72, 0x65, 0x64, 0x30, 0x20, 0x64, 0x6f, 0x77, 0x6e, 0x67, 0x72,
  0x61, 0x64, 0x65, 0x7b, 0x77, 0x68, 0x6f, 0x7d, 0x20, 0x62, 0x65, 0x63,
  0x6f, 0x6d, 0x65, 0x73, 0x20, 0x61, 0x20, 0x72, 0x65, 0x61, 0x64, 0x65,
  0x72, 0x20, 0x69, 0x6e, 0x20, 0x6f, 0x6e, 0x65, 0x20, 0x73, 0x65, 0x63,
  0x74, 0x69, 0x6f, 0x6e, 0x3a, 0x20, 0x72, 0x65, 0x61, 0x64, 0x41, 0x63,
  0x71, 0x75, 0x69, 0x72, 0x65, 0x73, 0x20, 0x69, 0x73, 0x20, 0x6e, 0x6f,
  0x77, 0x20, 0x7b, 0x72, 0x65, 0x61, 0x64, 0x41, 0x63, 0x71, 0x75, 0x69,
  0x72, 0x65, 0x73, 0x7d, 0x2c, 0x20, 0x61, 0x6e, 0x64, 0x20, 0x74, 0x68,
  0x65, 0x20, 0x66, 0x6c, 0x61, 0x67, 0x20, 0x69, 0x73, 0x20, 0x63, 0x6c,
  0x65, 0x61, 0x72, 0x77, 0x6c, 0x6f, 0x63, 0x6b, 0x3a, 0x20, 0x61, 0x6e,
  0x6e, 0x6f, 0x75, 0x6e, 0x63, 0x65, 0x64, 0x20, 0x69, 0x74, 0x73, 0x65,
  0x6c, 0x66, 0x2a, 0x20, 0x73, 0x65, 0x63, 0x74, 0x69, 0x6f, 0x6e, 0x20,
  0x6d, 0x6f, 0x76, 0x65, 0x64, 0x7b, 0x77, 0x68, 0x6f, 0x7d, 0x20, 0x73,
  0x65, 0x74, 0x73, 0x20, 0x74, 0x68, 0x65, 0x20, 0x66, 0x6c, 0x61, 0x67,
  0x2c, 0x20, 0x61, 0x6e, 0x64, 0x20, 0x73, 0x6f, 0x20, 0x69, 0x73, 0x20,
  0x61, 0x6e, 0x6e, 0x6f, 0x75, 0x6e, 0x63, 0x65, 0x64, 0x3a, 0x20, 0x6e,
  0x6f, 0x20, 0x72, 0x65, 0x61, 0x64, 0x65, 0x72, 0x20, 0x65, 0x6e, 0x74,
  0x65, 0x72, 0x73, 0x20, 0x62, 0x65, 0x66, 0x6f, 0x72, 0x65, 0x20, 0x69,
  0x74, 0x3b, 0x20, 0x74, 0x68, 0x65, 0x20, 0x63, 0x6f, 0x75, 0x6e, 0x74,
  0x73, 0x20, 0x61, 0x72, 0x65, 0x20, 0x7b, 0x72, 0x65, 0x61, 0x64, 0x41,
  0x63, 0x71, 0x75, 0x69, 0x72, 0x65, 0x73, 0x7d, 0x20, 0x61, 0x6e, 0x64,
  0x20, 0x7b, 0x72, 0x65, 0x61, 0x64, 0x52, 0x65, 0x6c, 0x65, 0x61, 0x73,
  0x65, 0x73, 0x7d, 0x2c, 0x20, 0x73, 0x6f, 0x20, 0x69, 0x74, 0x20, 0x77,
  0x61, 0x69, 0x74, 0x73, 0x20, 0x66, 0x6f, 0x72, 0x20, 0x74, 0x68, 0x65,
  0x20, 0x72, 0x65, 0x61, 0x64, 0x65, 0x72, 0x73, 0x77, 0x6c, 0x6f, 0x63,
  0x6b, 0x3a, 0x20, 0x70, 0x6f, 0x6c, 0x6c, 0x20, 0x77, 0x69, 0x74, 0x68,
  0x20, 0x72, 0x65, 0x61, 0x64, 0x65, 0x72, 0x73, 0x20, 0x69, 0x6e, 0x73,
  0x69, 0x64, 0x65, 0x30, 0x20, 0x73, 0x65, 0x63, 0x74, 0x69, 0x6f, 0x6e,
  0x20, 0x6d, 0x6f, 0x76, 0x65, 0x64, 0x7b, 0x77, 0x68, 0x6f, 0x7d, 0x20,
  0x70, 0x6f, 0x6c, 0x6c, 0x73, 0x20, 0x61, 0x6e, 0x64, 0x20, 0x77, 0x61,
  0x69, 0x74, 0x73, 0x3a, 0x20, 0x74, 0x68, 0x65, 0x20, 0x63, 0x6f, 0x75,
  0x6e, 0x74, 0x73, 0x20, 0x61, 0x72, 0x65, 0x20, 0x7b, 0x72, 0x65, 0x61,
  0x64, 0x41, 0x63, 0x71, 0x75, 0x69, 0x72, 0x65, 0x73, 0x7d, 0x20, 0x61,
  0x6e, 0x64, 0x20, 0x7b, 0x72, 0x65, 0x61, 0x64, 0x52, 0x65, 0x6c, 0x65,
  0x61, 0x73, 0x65, 0x73, 0x7d, 0x2c, 0x20, 0x73, 0x6f, 0x20, 0x74, 0x68,
  0x65, 0x72, 0x65, 0x20, 0x61, 0x72, 0x65, 0x20, 0x72, 0x65, 0x61, 0x64,
  0x65, 0x72, 0x73, 0x20, 0x69, 0x6e, 0x73, 0x69, 0x64, 0x65, 0x77, 0x6c,
  0x6f, 0x63, 0x6b, 0x3a, 0x20, 0x65, 0x6e, 0x74, 0x65, 0x72, 0x65, 0x64,
  0x20, 0x61, 0x66, 0x74, 0x65, 0x72, 0x20, 0x74, 0x68, 0x65, 0x20, 0x72,
  0x65, 0x61, 0x64, 0x65, 0x72, 0x73, 0x7b, 0x77, 0x68, 0x6f, 0x7d, 0x20,
  0x66, 0x69, 0x6e, 0x64, 0x73, 0x20, 0x74, 0x68, 0x65, 0x20, 0x63, 0x6f,
  0x75, 0x6e, 0x74, 0x73, 0x20, 0x65, 0x71, 0x75, 0x61, 0x6c, 0x2c, 0x20,
  0x7b, 0x72, 0x65, 0x61, 0x64, 0x41, 0x63, 0x71, 0x75, 0x69, 0x72, 0x65,
  0x73, 0x7d, 0x20, 0x61, 0x6e, 0x64, 0x20, 0x7b, 0x72, 0x65, 0x61, 0x64,
  0x52, 0x65, 0x6c, 0x65, 0x61, 0x73, 0x65, 0x73, 0x7d, 0x3a, 0x20, 0x6e,
  0x6f, 0x20, 0x72, 0x65, 0x61, 0x64, 0x65, 0x72, 0x20, 0x69, 0x73, 0x20,
  0x69, 0x6e, 0x73, 0x69, 0x64, 0x65, 0x2c, 0x20, 0x61, 0x6e, 0x64, 0x20,
  0x69, 0x74, 0x20, 0x77, 0x72, 0x69, 0x74, 0x65, 0x73, 0x00, 0x00, 0x00,
  0x00, 0x00, 0x00, 0x00, 0x61, 0x63, 0x63, 0x65, 0x70, 0x74, 0x65, 0x64,
  0x4f, 0x74, 0x68, 0x65, 0x72, 0x57, 0x6f, 0x72, 0x64, 0x3a, 0x20, 0x74,
  0x68, 0x65, 0x20, 0x6c, 0x6f, 0x63, 0x6b, 0x27, 0x73, 0x20, 0x73, 0x74,
  0x65, 0x70, 0x20, 0x69, 0x73, 0x20, 0x6f, 0x6e, 0x20, 0x61, 0x6e, 0x6f,
  0x74, 0x68, 0x65, 0x72, 0x20, 0x77, 0x6f, 0x72, 0x64, 0x46, 0x6f, 0x75,
  0x6e, 0x64, 0x4f, 0x74, 0x68, 0x65, 0x72, 0x3a, 0x20, 0x74, 0x68, 0x65,
  0x20, 0x6c, 0x6f, 0x63, 0x6b, 0x20, 0x68, 0x61, 0x73, 0x20, 0x61, 0x6e,
  0x6f, 0x74, 0x68, 0x65, 0x72, 0x20, 0x76, 0x61, 0x6c, 0x75, 0x65, 0x20,
  0x69, 0x6e, 0x20, 0x74, 0x68, 0x65, 0x20, 0x77, 0x6f, 0x72, 0x64, 0x4c,
  0x65, 0x66, 0x74, 0x4f, 0x74, 0x68, 0x65, 0x72, 0x3a, 0x20, 0x74, 0x68,
  0x65, 0x20, 0x6c, 0x6f, 0x63, 0x6b, 0x20, 0x6c, 0x65, 0x61, 0x76, 0x65,
  0x73, 0x20, 0x61, 0x6e, 0x6f, 0x74, 0x68, 0x65, 0x72, 0x20, 0x76, 0x61,
  0x6c, 0x75, 0x65, 0x20, 0x69, 0x6e, 0x20, 0x74, 0x68, 0x65, 0x20, 0x77,
  0x6f, 0x72, 0x64, 0x57, 0x72, 0x6f, 0x74, 0x65, 0x4f, 0x74, 0x68, 0x65,
  0x72, 0x3a, 0x20, 0x74, 0x68, 0x65, 0x20, 0x6c, 0x6f, 0x63, 0x6b, 0x27,
  0x73, 0x20, 0x63, 0x6f, 0x6d, 0x70, 0x61, 0x72, 0x65, 0x2d, 0x61, 0x6e,
  0x64, 0x2d, 0x73, 0x77, 0x61, 0x70, 0x20, 0x65, 0x6e, 0x64, 0x73, 0x20,
  0x6f, 0x74, 0x68, 0x65, 0x72, 0x77, 0x69, 0x73, 0x65, 0x43, 0x6f, 0x75,
  0x6e, 0x74, 0x4e, 0x6f, 0x74, 0x41, 0x62, 0x6f, 0x76, 0x65, 0x3a, 0x20,
  0x74, 0x68, 0x65, 0x20, 0x73, 0x65, 0x63, 0x74, 0x69, 0x6f, 0x6e, 0x27,
  0x73, 0x20, 0x63, 0x6f, 0x75, 0x6e, 0x74, 0x20, 0x69, 0x73, 0x20, 0x6e,
  0x6f, 0x74, 0x20, 0x61, 0x62, 0x6f, 0x76, 0x65, 0x20, 0x74, 0x68, 0x6f,
  0x73, 0x65, 0x20, 0x62, 0x65, 0x66, 0x6f, 0x72, 0x65, 0x20, 0x69, 0x74,
  0x4f, 0x74, 0x68, 0x65, 0x72, 0x4f, 0x75, 0x74, 0x63, 0x6f, 0x6d, 0x65,
  0x3a, 0x20, 0x73, 0x6f, 0x6d, 0x65, 0x74, 0x68, 0x69, 0x6e, 0x67, 0x20,
  0x65, 0x6c, 0x73, 0x65, 0x20, 0x63, 0x6f, 0x6d, 0x65, 0x73, 0x20, 0x6f,
  0x66, 0x20, 0x74, 0x68, 0x65, 0x20, 0x6c, 0x6f, 0x63, 0x6b, 0x27, 0x73,
  0x20, 0x73, 0x74, 0x65, 0x70, 0x4e, 0x6f, 0x48, 0x65, 0x61, 0x64, 0x65,
  0x72, 0x3a, 0x20, 0x74, 0x68, 0x65, 0x72, 0x65, 0x20, 0x69, 0x73, 0x20,
  0x6e, 0x6f, 0x20, 0x68, 0x65, 0x61, 0x64, 0x65, 0x72, 0x42, 0x61, 0x64,
  0x48, 0x65, 0x61, 0x64, 0x65, 0x72, 0x3a, 0x20, 0x6e, 0x6f, 0x74, 0x20,
  0x61, 0x20, 0x68, 0x65, 0x61, 0x64, 0x65, 0x72, 0x42, 0x61, 0x64, 0x54,
  0x68, 0x72, 0x65, 0x61, 0x64, 0x73, 0x3a, 0x20, 0x6e, 0x6f, 0x74, 0x20,
  0x61, 0x20, 0x6e, 0x75, 0x6d, 0x62, 0x65, 0x72, 0x20, 0x6f, 0x66, 0x20,
  0x74, 0x68, 0x72, 0x65, 0x61, 0x64, 0x73, 0x57, 0x6f, 0x72, 0x64, 0x73,
  0x54, 0x6f, 0x6f, 0x4e, 0x61, 0x72, 0x72, 0x6f, 0x77, 0x3a, 0x20, 0x77,
  0x6f, 0x72, 0x64, 0x73, 0x20, 0x74, 0x6f, 0x6f, 0x20, 0x6e, 0x61, 0x72,
  0x72, 0x6f, 0x77, 0x20, 0x66, 0x6f, 0x72, 0x20, 0x74, 0x68, 0x65, 0x20,
  0x74, 0x68, 0x72, 0x65, 0x61, 0x64, 0x73, 0x42, 0x61, 0x64, 0x4c, 0x69,
  0x6e, 0x65, 0x3a, 0x20, 0x6e, 0x6f, 0x74, 0x20, 0x61, 0x20, 0x6d, 0x6f,
  0x76, 0x65, 0x6e, 0x6f, 0x20, 0x66, 0x61, 0x75, 0x6c, 0x74, 0x20, 0x68,
  0x61, 0x73, 0x20, 0x74, 0x68, 0x69, 0x73, 0x20, 0x6e, 0x75, 0x6d, 0x62,
  0x65, 0x72, 0x4e, 0x6f, 0x53, 0x75, 0x63, 0x68, 0x54, 0x68, 0x72, 0x65,
  0x61, 0x64, 0x4e, 0x6f, 0x53, 0x75, 0x63, 0x68, 0x54, 0x68, 0x72, 0x65,
  0x61, 0x64, 0x3a, 0x20, 0x6e, 0x6f, 0x20, 0x73, 0x75, 0x63, 0x68, 0x20,
  0x74, 0x68, 0x72, 0x65, 0x61, 0x64, 0x57, 0x72, 0x6f, 0x6e, 0x67, 0x4c,
  0x6f, 0x63, 0x6b, 0x57, 0x72, 0x6f, 0x6e, 0x67, 0x4c, 0x6f, 0x63, 0x6b,
  0x3a, 0x20, 0x74, 0x68, 0x65, 0x20, 0x6c, 0x6f, 0x63, 0x6b, 0x20, 0x68,
  0x61, 0x73, 0x20, 0x6e, 0x6f, 0x20, 0x73, 0x75, 0x63, 0x68, 0x20, 0x6f,
  0x70, 0x65, 0x72, 0x61, 0x74, 0x69, 0x6f, 0x6e, 0x20, 0x6f, 0x72, 0x20,
  0x73, 0x74, 0x65, 0x70, 0x42, 0x75, 0x73, 0x79, 0x42, 0x75, 0x73, 0x79,
  0x3a, 0x20, 0x74, 0x68, 0x65, 0x20, 0x74, 0x68, 0x72, 0x65, 0x61, 0x64,
  0x20, 0x68, 0x61, 0x73, 0x20, 0x61, 0x20, 0x70, 0x65, 0x6e, 0x64, 0x69,
  0x6e, 0x67, 0x20, 0x63, 0x61, 0x6c, 0x6c, 0x4e, 0x6f, 0x74, 0x48, 0x6f,
  0x6c, 0x64, 0x65, 0x72, 0x4e, 0x6f, 0x74, 0x48, 0x6f, 0x6c, 0x64, 0x65,
  0x72, 0x3a, 0x20, 0x74, 0x68, 0x65, 0x20, 0x74, 0x68, 0x72, 0x65, 0x61,
  0x64, 0x20, 0x64, 0x6f, 0x65, 0x73, 0x20, 0x6e, 0x6f, 0x74, 0x20, 0x68,
  0x6f, 0x6c, 0x64, 0x20, 0x74, 0x68, 0x65, 0x20, 0x6c, 0x6f, 0x63, 0x6b,
  0x20, 0x69, 0x6e, 0x20, 0x74, 0x68, 0x61, 0x74, 0x20, 0x6d, 0x6f, 0x64,
  0x65, 0x41, 0x6c, 0x72, 0x65, 0x61, 0x64, 0x79, 0x48, 0x6f, 0x6c, 0x64,
  0x73, 0x41, 0x6c, 0x72, 0x65, 0x61, 0x64, 0x79, 0x48, 0x6f, 0x6c, 0x64,
  0x73, 0x3a, 0x20, 0x74, 0x68, 0x65, 0x20, 0x74, 0x68, 0x72, 0x65, 0x61,
  0x64, 0x20, 0x68, 0x6f, 0x6c, 0x64, 0x73, 0x20, 0x74, 0x68, 0x65, 0x20,
  0x6c, 0x6f, 0x63, 0x6b, 0x20, 0x61, 0x6c, 0x72, 0x65, 0x61, 0x64, 0x79,
  0x4e, 0x6f, 0x43, 0x61, 0x6c, 0x6c, 0x4e, 0x6f, 0x43, 0x61, 0x6c, 0x6c,
  0x3a, 0x20, 0x74, 0x68, 0x65, 0x20, 0x74, 0x68, 0x72, 0x65, 0x61, 0x64,
  0x20, 0x68, 0x61, 0x73, 0x20, 0x6e, 0x6f, 0x20, 0x70, 0x65, 0x6e, 0x64,
  0x69, 0x6e, 0x67, 0x20, 0x63, 0x61, 0x6c, 0x6c, 0x57, 0x72, 0x6f, 0x6e,
  0x67, 0x53, 0x74, 0x65, 0x70, 0x57, 0x72, 0x6f, 0x6e, 0x67, 0x53, 0x74,
  0x65, 0x70, 0x3a, 0x20, 0x74, 0x68, 0x65, 0x20, 0x74, 0x68, 0x72, 0x65,
  0x61, 0x64, 0x27, 0x73, 0x20, 0x6e, 0x65, 0x78, 0x74, 0x20, 0x73, 0x74,
  0x65, 0x70, 0x20, 0x69, 0x73, 0x20, 0x61, 0x20, 0x64, 0x69, 0x66, 0x66,
  0x65, 0x72, 0x65, 0x6e, 0x74, 0x20, 0x6f, 0x6e, 0x65, 0x6c, 0x6f, 0x63,
  0x6b, 0x74, 0x68, 0x72, 0x65, 0x61, 0x64, 0x73, 0x74, 0x69, 0x63, 0x6b,
  0x65, 0x74, 0x72, 0x77, 0x2d, 0x73, 0x69, 0x6d, 0x70, 0x6c, 0x65, 0x72,
  0x77, 0x2d, 0x66, 0x69, 0x66, 0x6f, 0x62, 0x69, 0x74, 0x73, 0x77, 0x75,
  0x6e, 0x6c, 0x6f, 0x63, 0x6b, 0x0a, 0x64, 0x6f, 0x77, 0x6e, 0x67, 0x72,
  0x61, 0x64, 0x65, 0x0a, 0x72, 0x65, 0x61, 0x64, 0x73, 0x65, 0x63, 0x74,
  0x69, 0x6f, 0x6e, 0x77, 0x72, 0x69, 0x74, 0x65, 0x73, 0x77, 0x61, 0x70,
  0x63, 0x61, 0x73, 0x61, 0x64, 0x64, 0x61, 0x63, 0x71, 0x75, 0x69, 0x72,
  0x65, 0x72, 0x65, 0x6c, 0x65, 0x61, 0x73, 0x65, 0x72, 0x6c, 0x6f, 0x63,
  0x6b, 0x72, 0x75, 0x6e, 0x6c, 0x6f, 0x63, 0x6b, 0x77, 0x6c, 0x6f, 0x63,
  0x6b, 0x77, 0x75, 0x6e, 0x6c, 0x6f, 0x63, 0x6b, 0x64, 0x6f, 0x77, 0x6e,
  0x67, 0x72, 0x61, 0x64, 0x65, 0x66, 0x61, 0x75, 0x6c, 0x74, 0x4e, 0x6f,
  0x48, 0x65, 0x61, 0x64, 0x65, 0x72, 0x42, 0x61, 0x64, 0x48, 0x65, 0x61,
  0x64, 0x65, 0x72, 0x42, 0x61, 0x64, 0x54, 0x68, 0x72, 0x65, 0x61, 0x64,
  0x73, 0x42, 0x61, 0x64, 0x4c, 0x69, 0x6e, 0x65, 0x54, 0x6f, 0x6f, 0x4d,
  0x61, 0x6e, 0x79, 0x4d, 0x6f, 0x76, 0x65, 0x73, 0x57, 0x6f, 0x72, 0x64,
  0x73, 0x54, 0x6f, 0x6f, 0x4e, 0x61, 0x72, 0x72, 0x6f, 0x77, 0x66, 0x61,
  0x75, 0x6c, 0x74, 0x20, 0x54, 0x6f, 0x6f, 0x4c, 0x6f, 0x6e, 0x67, 0x20,
  0x6c, 0x69, 0x6e, 0x65, 0x20, 0x20, 0x30, 0x30, 0x30, 0x31, 0x30, 0x32,
  0x30, 0x33, 0x30, 0x34, 0x30, 0x35, 0x30, 0x36, 0x30, 0x37, 0x30, 0x38,
  0x30, 0x39, 0x31, 0x30, 0x31, 0x31, 0x31, 0x32, 0x31, 0x33, 0x31, 0x34,
  0x31, 0x35, 0x31, 0x36, 0x31, 0x37, 0x31, 0x38, 0x31, 0x39, 0x32, 0x30,
  0x32, 0x31, 0x32, 0x32, 0x32, 0x33, 0x32, 0x34, 0x32, 0x35, 0x32, 0x36,
  0x32, 0x37, 0x32, 0x38, 0x32, 0x39, 0x33, 0x30, 0x33, 0x31, 0x33, 0x32,
  0x33, 0x33, 0x33, 0x34, 0x33, 0x35, 0x33, 0x36, 0x33, 0x37, 0x33, 0x38,
  0x33, 0x39, 0x34, 0x30, 0x34, 0x31, 0x34, 0x32, 0x34, 0x33, 0x34, 0x34,
  0x34, 0x35, 0x34, 0x36, 0x34, 0x37, 0x34, 0x38, 0x34, 0x39, 0x35, 0x30,
  0x35, 0x31, 0x35, 0x32, 0x35, 0x33, 0x35, 0x34, 0x35, 0x35, 0x35, 0x36,
  0x35, 0x37, 0x35, 0x38, 0x35, 0x39, 0x36, 0x30, 0x36, 0x31, 0x36, 0x32,
  0x36, 0x33, 0x36, 0x34, 0x36, 0x35, 0x36, 0x36, 0x36, 0x37, 0x36, 0x38,
  0x36, 0x39, 0x37, 0x30, 0x37, 0x31, 0x37, 0x32, 0x37, 0x33, 0x37, 0x34,
  0x37, 0x35, 0x37, 0x36, 0x37, 0x37, 0x37, 0x38, 0x37, 0x39, 0x38, 0x30,
  0x38, 0x31, 0x38, 0x32, 0x38, 0x33, 0x38, 0x34, 0x38, 0x35, 0x38, 0x36,
  0x38, 0x37, 0x38, 0x38, 0x38, 0x39, 0x39, 0x30, 0x39, 0x31, 0x39, 0x32,
  0x39, 0x33, 0x39, 0x34, 0x39, 0x35, 0x39, 0x36, 0x39, 0x37, 0x39, 0x38,
  0x39, 0x39, 0x68, 0x6f, 0x6c, 0x64, 0x20, 0x72, 0x65, 0x61, 0x64, 0x20,
  0x20, 0x20, 0x20, 0x20, 0x20, 0x20, 0x20, 0x20, 0x20, 0x20, 0x20, 0x20,
  0x20, 0x20, 0x20, 0x73, 0x65, 0x63, 0x74, 0x69, 0x6f, 0x6e, 0x20, 0x20,
  0x20, 0x20, 0x20, 0x20, 0x20, 0x20, 0x20, 0x20, 0x20, 0x20, 0x20, 0x20,
  0x20, 0x20, 0x77, 0x72, 0x69, 0x74, 0x65, 0x20, 0x20, 0x20, 0x20, 0x20,
  0x20, 0x20, 0x20, 0x20, 0x20, 0x20, 0x20, 0x20, 0x20, 0x20, 0x20, 0x73,
  0x77, 0x61, 0x70, 0x20, 0x20, 0x20, 0x20, 0x20, 0x20, 0x20, 0x20, 0x20,
  0x20, 0x20, 0x20, 0x20, 0x20, 0x20, 0x20, 0x63, 0x61, 0x73, 0x20, 0x20,
  0x20, 0x20, 0x20, 0x20, 0x20, 0x20, 0x20, 0x20, 0x20, 0x20, 0x20, 0x20,
  0x20, 0x20, 0x61, 0x64, 0x64, 0x20, 0x20, 0x20, 0x20, 0x20, 0x20, 0x20,
  0x20, 0x20, 0x20, 0x20, 0x20, 0x20, 0x20, 0x20, 0x20, 0x61, 0x63, 0x71,
  0x75, 0x69, 0x72, 0x65, 0x20, 0x20, 0x20, 0x20, 0x20, 0x20, 0x20, 0x20,
  0x20, 0x20, 0x20, 0x20, 0x20, 0x20, 0x20, 0x20, 0x72, 0x65, 0x6c, 0x65,
  0x61, 0x73, 0x65, 0x20, 0x20, 0x20, 0x20, 0x20, 0x20, 0x20, 0x20, 0x20,
  0x20, 0x20, 0x20, 0x20, 0x20, 0x20, 0x20, 0x72, 0x6c, 0x6f, 0x63, 0x6b,
  0x20, 0x20, 0x20, 0x20, 0x20, 0x20, 0x20, 0x20, 0x20, 0x20, 0x20, 0x20,
  0x20, 0x20, 0x20, 0x20, 0x72, 0x75, 0x6e, 0x6c, 0x6f, 0x63, 0x6b, 0x20,
  0x20, 0x20, 0x20, 0x20, 0x20, 0x20, 0x20, 0x20, 0x20, 0x20, 0x20, 0x20,
  0x20, 0x20, 0x20, 0x77, 0x6c, 0x6f, 0x63, 0x6b, 0x20, 0x20, 0x20, 0x20,
  0x20, 0x20, 0x20, 0x20, 0x20, 0x20, 0x20, 0x20, 0x20, 0x20, 0x20, 0x20,
  0x77, 0x75, 0x6e, 0x6c, 0x6f, 0x63, 0x6b, 0x20, 0x20, 0x20, 0x20, 0x20,
  0x20, 0x20, 0x20, 0x20, 0x20, 0x20, 0x20, 0x20, 0x20, 0x20, 0x20, 0x64,
  0x6f, 0x77, 0x6e, 0x67, 0x72, 0x61, 0x64, 0x65, 0x20, 0x20, 0x20, 0x20,
  0x20, 0x20, 0x20, 0x20, 0x20, 0x20, 0x20, 0x20, 0x20, 0x20, 0x20, 0x20,
  0x63, 0x61, 0x6c, 0x6c, 0x65, 0x64, 0x20, 0x20, 0x20, 0x20, 0x20, 0x20,
  0x20, 0x20, 0x20, 0x20, 0x20, 0x20, 0x20, 0x20, 0x20, 0x20, 0x6d, 0x6f,
  0x76, 0x65, 0x64, 0x20, 0x20, 0x20, 0x20, 0x20, 0x20, 0x20, 0x20, 0x20,
  0x20, 0x20, 0x20, 0x20, 0x20, 0x20, 0x20, 0x6d, 0x6f, 0x76, 0x65, 0x64,
  0x77, 0x61, 0x69, 0x74, 0x73, 0x20, 0x20, 0x20, 0x20, 0x20, 0x20, 0x20,
  0x20, 0x20, 0x20, 0x20, 0x20, 0x20, 0x20, 0x20, 0x20, 0x77, 0x61, 0x69,
  0x74, 0x73, 0x65, 0x6e, 0x74, 0x65, 0x72, 0x65, 0x64, 0x20, 0x20, 0x20,
  0x20, 0x20, 0x20, 0x20, 0x20, 0x20, 0x20, 0x20, 0x20, 0x20, 0x20, 0x20,
  0x20, 0x65, 0x6e, 0x74, 0x65, 0x72, 0x65, 0x64, 0x6c, 0x65, 0x66, 0x74,
  0x20, 0x20, 0x20, 0x20, 0x20, 0x20, 0x20, 0x20, 0x20, 0x20, 0x20, 0x20,
  0x20, 0x20, 0x20, 0x20, 0x6c, 0x65, 0x66, 0x74, 0x20, 0x71, 0x75, 0x65,
  0x75, 0x65, 0x20, 0x20, 0x71, 0x75, 0x65, 0x75, 0x65, 0x20, 0x2d, 0x0a,
  0x72, 0x65, 0x66, 0x75, 0x73, 0x65, 0x64, 0x20, 0x6e, 0x65, 0x78, 0x74,
  0x20, 0x00, 0x00, 0x00, 0x01, 0x00, 0x02, 0x00, 0x03, 0x00, 0x04, 0x00,
  0x05, 0x00, 0x06, 0x01, 0x00, 0x01, 0x01, 0x01, 0x02, 0x01, 0x03, 0x01,
  0x04, 0x01, 0x05, 0x6e, 0x65, 0x78, 0x74, 0x5f, 0x74, 0x69, 0x63, 0x6b,
  0x65, 0x74, 0x6e, 0x6f, 0x77, 0x5f, 0x73, 0x65, 0x72, 0x76, 0x69, 0x6e,
  0x67, 0x74, 0x61, 0x69, 0x6c, 0x6e, 0x65, 0x78, 0x74, 0x6c, 0x6f, 0x63,
  0x6b, 0x65, 0x64, 0x66, 0x6f, 0x75, 0x6e, 0x64, 0x64, 0x6f, 0x6e, 0x65,
  0x66, 0x61, 0x69, 0x6c, 0x65, 0x64, 0x00, 0x00, 0x00, 0x00, 0x00, 0x00,
  0x0c, 0x00, 0x00, 0x00, 0x00, 0x00, 0x00, 0x00, 0x09, 0x00, 0x00, 0x00,
  0x00, 0x00, 0x00, 0x00, 0x04, 0x00, 0x00, 0x00, 0x00, 0x00, 0x00, 0x00,
  0x09, 0x00, 0x00, 0x00, 0x00, 0x00, 0x00, 0x00, 0x0c, 0x00, 0x00, 0x00,
  0x00, 0x00, 0x00, 0x00, 0x06, 0x00, 0x00, 0x00, 0x00, 0x00, 0x00, 0x00,
  0x09, 0x00, 0x00, 0x00, 0x00, 0x00, 0x00, 0x00, 0xfe, 0x21, 0x10, 0x00,
  0x00, 0x00, 0x00, 0x00, 0x26, 0x22, 0x10, 0x00, 0x00, 0x00, 0x00, 0x00,
  0x60, 0x22, 0x10, 0x00, 0x00, 0x00, 0x00, 0x00, 0x87, 0x22, 0x10, 0x00,
  0x00, 0x00, 0x00, 0x00, 0xc9, 0x22, 0x10, 0x00, 0x00, 0x00, 0x00, 0x00,
  0x04, 0x23, 0x10, 0x00, 0x00, 0x00, 0x00, 0x00, 0x30, 0x23, 0x10, 0x00,
  0x00, 0x00, 0x00, 0x00, 0x04, 0x00, 0x00, 0x00, 0x00, 0x00, 0x00, 0x00,
  0x05, 0x00, 0x00, 0x00, 0x00, 0x00, 0x00, 0x00, 0x04, 0x00, 0x00, 0x00,
  0x00, 0x00, 0x00, 0x00, 0x03, 0x00, 0x00, 0x00, 0x00, 0x00, 0x00, 0x00,
  0x03, 0x00, 0x00, 0x00, 0x00, 0x00, 0x00, 0x00, 0x07, 0x00, 0x00, 0x00,
  0x00, 0x00, 0x00, 0x00, 0xa4, 0x23, 0x10, 0x00, 0x00, 0x00, 0x00, 0x00,
  0xaf, 0x23, 0x10, 0x00, 0x00, 0x00, 0x00, 0x00, 0xb4, 0x23, 0x10, 0x00,
  0x00, 0x00, 0x00, 0x00, 0xb8, 0x23, 0x10, 0x00, 0x00, 0x00, 0x00, 0x00,
  0xbb, 0x23, 0x10, 0x00, 0x00, 0x00, 0x00, 0x00, 0xa8, 0x23, 0x10, 0x00,
  0x00, 0x00, 0x00, 0x00, 0x0c, 0x00, 0x00, 0x00, 0x00, 0x00, 0x00, 0x00,
  0x0c, 0x00, 0x00, 0x00, 0x00, 0x00, 0x00, 0x00, 0x07, 0x00, 0x00, 0x00,
  0x00, 0x00, 0x00, 0x00, 0x06, 0x00, 0x00, 0x00, 0x00, 0x00, 0x00, 0x00,
  0x0c, 0x00, 0x00, 0x00, 0x00, 0x00, 0x00, 0x00, 0x00, 0x01, 0x01, 0x00,
  0x01, 0x01, 0x00, 0x00, 0x00, 0x00, 0x00, 0x00, 0x00, 0x00, 0x00, 0x00,
  0x00, 0x00, 0x00, 0x00, 0x00, 0x00, 0x00, 0x00, 0x00, 0x04, 0x00, 0x00,
  0x00, 0x01, 0x00, 0x00, 0x00, 0x00, 0x00, 0x00, 0x00, 0x00, 0x00, 0x00,
  0x00, 0x00, 0x00, 0x00, 0x00, 0x00, 0x00, 0x00, 0x00, 0x00, 0x00, 0x00,
  0x00, 0x00, 0x01, 0x01, 0x01, 0x01, 0x01, 0x00, 0x01, 0x01, 0x01, 0x01,
  0x00, 0x00, 0x00, 0x00, 0x00, 0x00, 0x00, 0x00, 0x00, 0x00, 0x00, 0x00,
  0x00, 0x00, 0x01, 0x02, 0x01, 0x01, 0x00, 0x00, 0x00, 0x03, 0x00, 0x01,
  0x00, 0x00, 0x00, 0x00, 0x00, 0x00, 0x00, 0x00, 0x00, 0x01, 0x01, 0x01,
  0x01, 0x01, 0x01, 0x01, 0x01, 0x01, 0x01, 0x01, 0x01, 0x01, 0x01, 0x01,
  0x01, 0x00, 0x01, 0x01, 0x01, 0x00, 0x01, 0x01, 0x00, 0x05, 0x05, 0x05,
  0x05, 0x05, 0x05, 0x05, 0x05, 0x05, 0x05, 0x05, 0x05, 0x05, 0x05, 0x05,
  0x05, 0x00, 0x05, 0x05, 0x05, 0x00, 0x05, 0x05, 0x08, 0x00, 0x00, 0x00,
  0x00, 0x00, 0x00, 0x00, 0x1c, 0x00, 0x00, 0x00, 0x00, 0x00, 0x00, 0x00,
  0x31, 0x00, 0x00, 0x00, 0x00, 0x00, 0x00, 0x00, 0x23, 0x00, 0x00, 0x00,
  0x00, 0x00, 0x00, 0x00, 0x39, 0x00, 0x00, 0x00, 0x00, 0x00, 0x00, 0x00,
  0x2f, 0x00, 0x00, 0x00, 0x00, 0x00, 0x00, 0x00, 0x26, 0x00, 0x00, 0x00,
  0x00, 0x00, 0x00, 0x00, 0x34, 0x00, 0x00, 0x00, 0x00, 0x00, 0x00, 0x00,
  0x2d, 0x00, 0x00, 0x00, 0x00, 0x00, 0x00, 0x00, 0x32, 0x00, 0x00, 0x00,
  0x00, 0x00, 0x00, 0x00, 0x34, 0x00, 0x00, 0x00, 0x00, 0x00, 0x00, 0x00,
  0x36, 0x00, 0x00, 0x00, 0x00, 0x00, 0x00, 0x00, 0x3f, 0x00, 0x00, 0x00,
  0x00, 0x00, 0x00, 0x00, 0x35, 0x00, 0x00, 0x00, 0x00, 0x00, 0x00, 0x00,
  0x18, 0x00, 0x00, 0x00, 0x00, 0x00, 0x00, 0x00, 0x18, 0x00, 0x00, 0x00,
  0x00, 0x00, 0x00, 0x00, 0x1c, 0x00, 0x00, 0x00, 0x00, 0x00, 0x00, 0x00,
  0x17, 0x00, 0x00, 0x00, 0x00, 0x00, 0x00, 0x00, 0x23, 0x00, 0x00, 0x00,
  0x00, 0x00, 0x00, 0x00, 0x30, 0x00, 0x00, 0x00, 0x00, 0x00, 0x00, 0x00,
  0x13, 0x00, 0x00, 0x00, 0x00, 0x00, 0x00, 0x00, 0x08, 0x20, 0x10, 0x00,
  0x00, 0x00, 0x00, 0x00, 0x0a, 0x22, 0x10, 0x00, 0x00, 0x00, 0x00, 0x00,
  0x2f, 0x22, 0x10, 0x00, 0x00, 0x00, 0x00, 0x00, 0x64, 0x22, 0x10, 0x00,
  0x00, 0x00, 0x00, 0x00, 0x90, 0x22, 0x10, 0x00, 0x00, 0x00, 0x00, 0x00,
  0xd5, 0x22, 0x10, 0x00, 0x00, 0x00, 0x00, 0x00, 0x0a, 0x23, 0x10, 0x00,
  0x00, 0x00, 0x00, 0x00, 0x39, 0x23, 0x10, 0x00, 0x00, 0x00, 0x00, 0x00,
  0x10, 0x20, 0x10, 0x00, 0x00, 0x00, 0x00, 0x00, 0x3d, 0x20, 0x10, 0x00,
  0x00, 0x00, 0x00, 0x00, 0x6f, 0x20, 0x10, 0x00, 0x00, 0x00, 0x00, 0x00,
  0xa3, 0x20, 0x10, 0x00, 0x00, 0x00, 0x00, 0x00, 0xd9, 0x20, 0x10, 0x00,
  0x00, 0x00, 0x00, 0x00, 0x18, 0x21, 0x10, 0x00, 0x00, 0x00, 0x00, 0x00,
  0xe6, 0x21, 0x10, 0x00, 0x00, 0x00, 0x00, 0x00, 0xe6, 0x21, 0x10, 0x00,
  0x00, 0x00, 0x00, 0x00, 0x4d, 0x21, 0x10, 0x00, 0x00, 0x00, 0x00, 0x00,
  0x69, 0x21, 0x10, 0x00, 0x00, 0x00, 0x00, 0x00, 0x80, 0x21, 0x10, 0x00,
  0x00, 0x00, 0x00, 0x00, 0xa3, 0x21, 0x10, 0x00, 0x00, 0x00, 0x00, 0x00,
  0xd3, 0x21, 0x10, 0x00, 0x00, 0x00, 0x00, 0x00, 0x07, 0x00, 0x00, 0x00,
  0x00, 0x00, 0x00, 0x00, 0x10, 0x00, 0x00, 0x00, 0x00, 0x00, 0x00, 0x00,
  0x0c, 0x00, 0x00, 0x00, 0x00, 0x00, 0x00, 0x00, 0x0f, 0x00, 0x00, 0x00,
  0x00, 0x00, 0x00, 0x00, 0x00, 0x00, 0x10, 0x00, 0x00, 0x00, 0x00, 0x00,
  0x50, 0x04, 0x10, 0x00, 0x00, 0x00, 0x00, 0x00, 0xe8, 0x0e, 0x10, 0x00,
  0x00, 0x00, 0x00, 0x00, 0x18, 0x16, 0x10, 0x00, 0x00, 0x00, 0x00, 0x00,
  0x05, 0x00, 0x00, 0x00, 0x00, 0x00, 0x00, 0x00, 0x06, 0x00, 0x00, 0x00,
  0x00, 0x00, 0x00, 0x00, 0x05, 0x00, 0x00, 0x00, 0x00, 0x00, 0x00, 0x00,
  0x04, 0x00, 0x00, 0x00, 0x00, 0x00, 0x00, 0x00, 0x04, 0x00, 0x00, 0x00,
  0x00, 0x00, 0x00, 0x00, 0x08, 0x00, 0x00, 0x00, 0x00, 0x00, 0x00, 0x00,
  0x0f, 0x25, 0x10, 0x00, 0x00, 0x00, 0x00, 0x00, 0x3a, 0x25, 0x10, 0x00,
  0x00, 0x00, 0x00, 0x00, 0x4f, 0x25, 0x10, 0x00, 0x00, 0x00, 0x00, 0x00,
  0x63, 0x25, 0x10, 0x00, 0x00, 0x00, 0x00, 0x00, 0x76, 0x25, 0x10, 0x00,
  0x00, 0x00, 0x00, 0x00, 0x23, 0x25, 0x10, 0x00, 0x00, 0x00, 0x00, 0x00,
  0x08, 0x00, 0x00, 0x00, 0x00, 0x00, 0x00, 0x00, 0x08, 0x00, 0x00, 0x00,
  0x00, 0x00, 0x00, 0x00, 0x06, 0x00, 0x00, 0x00, 0x00, 0x00, 0x00, 0x00,
  0x08, 0x00, 0x00, 0x00, 0x00, 0x00, 0x00, 0x00, 0x06, 0x00, 0x00, 0x00,
  0x00, 0x00, 0x00, 0x00, 0x08, 0x00, 0x00, 0x00, 0x00, 0x00, 0x00, 0x00,
  0x0a, 0x00, 0x00, 0x00, 0x00, 0x00, 0x00, 0x00, 0x89, 0x25, 0x10, 0x00,
  0x00, 0x00, 0x00, 0x00, 0xa0, 0x25, 0x10, 0x00, 0x00, 0x00, 0x00, 0x00,
  0xb7, 0x25, 0x10, 0x00, 0x00, 0x00, 0x00, 0x00, 0xcc, 0x25, 0x10, 0x00,
  0x00, 0x00, 0x00, 0x00, 0xe3, 0x25, 0x10, 0x00, 0x00, 0x00, 0x00, 0x00,
  0xf8, 0x25, 0x10, 0x00, 0x00, 0x00, 0x00, 0x00, 0x0f, 0x26, 0x10, 0x00,
  0x00, 0x00, 0x00, 0x00, 0x07, 0x00, 0x00, 0x00, 0x00, 0x00, 0x00, 0x00,
  0x06, 0x00, 0x00, 0x00, 0x00, 0x00, 0x00, 0x00, 0x06, 0x00, 0x00, 0x00,
  0x00, 0x00, 0x00, 0x00, 0x08, 0x00, 0x00, 0x00, 0x00, 0x00, 0x00, 0x00,
  0x05, 0x00, 0x00, 0x00, 0x00, 0x00, 0x00, 0x00, 0x28, 0x26, 0x10, 0x00,
  0x00, 0x00, 0x00, 0x00, 0x3e, 0x26, 0x10, 0x00, 0x00, 0x00, 0x00, 0x00,
  0x58, 0x26, 0x10, 0x00, 0x00, 0x00, 0x00, 0x00, 0x72, 0x26, 0x10, 0x00,
  0x00, 0x00, 0x00, 0x00, 0x90, 0x26, 0x10, 0x00, 0x00, 0x00, 0x00, 0x00,
  0x04, 0x00, 0x00, 0x00, 0x00, 0x00, 0x00, 0x00, 0x04, 0x00, 0x00, 0x00,
  0x00, 0x00, 0x00, 0x00, 0x04, 0x00, 0x00, 0x00, 0x00, 0x00, 0x00, 0x00,
  0x05, 0x00, 0x00, 0x00, 0x00, 0x00, 0x00, 0x00, 0x06, 0x00, 0x00, 0x00,
  0x00, 0x00, 0x00, 0x00, 0x11, 0x00, 0x00, 0x00, 0x11, 0x00, 0x00, 0x00,
  0x11, 0x00, 0x00, 0x00, 0x12, 0x00, 0x00, 0x00, 0x11, 0x00, 0x00, 0x00,
  0x11, 0x00, 0x00, 0x00, 0x11, 0x00, 0x00, 0x00, 0x13, 0x00, 0x00, 0x00,

};

static void init_globals(w2c_lockreplay* instance) {
  instance->w2c_0x5F_stack_pointer = 1048576ull;
  instance->w2c_in_call = 0u;
  instance->w2c_0x5F_heap_base = 1059744ull;
}

static u32 w2c_lockreplay_0x5F_rattle_enter(w2c_lockreplay* instance);
static void w2c_lockreplay_0x5F_rattle_leave(w2c_lockreplay* instance);
static void w2c_lockreplay_0x5F_rattle_trap(w2c_lockreplay* instance);
static void w2c_lockreplay_0x5F_lshrti3(w2c_lockreplay* instance, u64 var_p0, u64 var_p1, u64 var_p2, u32 var_p3);
static void w2c_lockreplay_lk_replay0x3A0x3Aschedule0x3A0x3Aopen_schedule(w2c_lockreplay* instance, u64 var_p0, u64 var_p1, u64 var_p2);
static void w2c_lockreplay_lk_lines0x3A0x3Aheader0x3A0x3Aheader_of(w2c_lockreplay* instance, u64 var_p0, u64 var_p1, u64 var_p2, u32 var_p3);
static void w2c_lockreplay_lk_replay0x3A0x3Aschedule0x3A0x3Aread_move(w2c_lockreplay* instance, u64 var_p0, u64 var_p1, u64 var_p2);
static u32 w2c_lockreplay_core0x3A0x3Acmp0x3A0x3Aslices0x3A0x3Agroups_equal0x3A0x3A0x3Ci80x2C310x27core0x3A0x3Acmp0x3A0x3Anumbers0x3A0x3AU8PartialEq0x7B0x7D0x3E(w2c_lockreplay* instance, u64 var_p0, u64 var_p1, u64 var_p2);
static void w2c_lockreplay_lk_lines0x3A0x3Avocabulary0x3A0x3Alock_named(w2c_lockreplay* instance, u64 var_p0, u64 var_p1, u64 var_p2);
static u32 w2c_lockreplay_core0x3A0x3Acmp0x3A0x3Aslices0x3A0x3Aparts_equal0x3A0x3A0x3Ci80x2C310x27core0x3A0x3Acmp0x3A0x3Anumbers0x3A0x3AU8PartialEq0x7B0x7D0x3E(w2c_lockreplay* instance, u64 var_p0, u64 var_p1, u64 var_p2, u64 var_p3);
static void w2c_lockreplay_core0x3A0x3Aslice0x3A0x3Aparts0x3A0x3Aslice0x2BT0x3A0x3Astrip_prefix0x3A0x3A0x3Ci80x2C310x27core0x3A0x3Acmp0x3A0x3Anumbers0x3A0x3AU8PartialEq0x7B0x7D0x3E(w2c_lockreplay* instance, u64 var_p0, u64 var_p1, u64 var_p2, u64 var_p3, u64 var_p4);
static void w2c_lockreplay_lk_lines0x3A0x3Avocabulary0x3A0x3Amove_named(w2c_lockreplay* instance, u64 var_p0, u64 var_p1, u64 var_p2);
static void w2c_lockreplay_itoa0x3A0x3ABuffer0x3A0x3Aformat0x3A0x3A0x3C0x23a27d2209050c8f1b0x3E(w2c_lockreplay* instance, u64 var_p0, u64 var_p1, u32 var_p2);
static void w2c_lockreplay_lk_locks0x3A0x3Amachine0x3A0x3AMachine0x3A0x3Aplay0x3A0x3A0x3C0x23e396818bfda329340x3E(w2c_lockreplay* instance, u64 var_p0, u64 var_p1, u32 var_p2, u32 var_p3, u32 var_p4);
static void w2c_lockreplay_lk_replay0x3A0x3Areport0x3A0x3Aoccupancy0x3A0x3AOccupancyText0x3A0x3Aact(w2c_lockreplay* instance, u64 var_p0, u32 var_p1, u32 var_p2);
static void w2c_lockreplay_lk_replay0x3A0x3Areport0x3A0x3Alists0x3A0x3AReaders0x3A0x3Ajoin(w2c_lockreplay* instance, u64 var_p0, u32 var_p1);
static u64 w2c_lockreplay_lk_replay0x3A0x3Areport0x3A0x3Atext0x3A0x3AText0x3A0x3Aput_rest(w2c_lockreplay* instance, u64 var_p0, u64 var_p1, u64 var_p2);
static u64 w2c_lockreplay_lk_replay0x3A0x3Areport0x3A0x3Aclosings0x3A0x3Aput_last(w2c_lockreplay* instance, u64 var_p0, u32 var_p1, u64 var_p2);
static u64 w2c_lockreplay_report_0(w2c_lockreplay* instance, u64 var_p0, u64 var_p1, u64 var_p2, u64 var_p3, u64 var_p4);
static u64 w2c_lockreplay_rattle0x3A0x3Aexport0x20report(w2c_lockreplay* instance, u64 var_p0, u64 var_p1, u64 var_p2, u64 var_p3, u64 var_p4);

static u32 w2c_lockreplay_0x5F_rattle_enter(w2c_lockreplay* instance) {
  u32 var_l0 = 0;
  FUNC_PROLOGUE;
  u32 var_i0, var_i1;
  var_i0 = instance->w2c_in_call;
  var_l0 = var_i0;
  var_i0 = 1u;
  instance->w2c_in_call = var_i0;
  var_i0 = var_l0;
  var_i1 = 0u;
  var_i0 = var_i0 != var_i1;
  FUNC_EPILOGUE;
  return var_i0;
}

static void w2c_lockreplay_0x5F_rattle_leave(w2c_lockreplay* instance) {
  FUNC_PROLOGUE;
  u32 var_i0;
  var_i0 = 0u;
  instance->w2c_in_call = var_i0;
  FUNC_EPILOGUE;
}

static void w2c_lockreplay_0x5F_rattle_trap(w2c_lockreplay* instance) {
  FUNC_PROLOGUE;
  UNREACHABLE;
  FUNC_EPILOGUE;
}

static void w2c_lockreplay_0x5F_lshrti3(w2c_lockreplay* instance, u64 var_p0, u64 var_p1, u64 var_p2, u32 var_p3) {
  u64 var_l4 = 0;
  FUNC_PROLOGUE;
  u32 var_i0, var_i1, var_i2;
  u64 var_j0, var_j1, var_j2;
  var_i0 = var_p3;
  var_i1 = 64u;
  var_i0 &= var_i1;
  var_i0 = !(var_i0);
  if (var_i0) {goto var_B1;}
  var_j0 = var_p2;
  var_i1 = var_p3;
  var_j1 = (u64)(var_i1);
  var_j0 >>= (var_j1 & 63);
  var_p1 = var_j0;
  var_j0 = 0ull;
  var_p2 = var_j0;
  goto var_B0;
  var_B1:;
  var_j0 = var_p2;
  var_j1 = 1ull;
  var_j0 <<= (var_j1 & 63);
  var_i1 = var_p3;
  var_i2 = 63u;
  var_i1 &= var_i2;
  var_i2 = 63u;
  var_i1 ^= var_i2;
  var_j1 = (u64)(var_i1);
  var_j0 <<= (var_j1 & 63);
  var_j1 = var_p1;
  var_i2 = var_p3;
  var_j2 = (u64)(var_i2);
  var_l4 = var_j2;
  var_j1 >>= (var_j2 & 63);
  var_j0 |= var_j1;
  var_p1 = var_j0;
  var_j0 = var_p2;
  var_j1 = var_l4;
  var_j0 >>= (var_j1 & 63);
  var_p2 = var_j0;
  var_B0:;
  var_j0 = var_p0;
  var_j1 = var_p2;
  i64_store(origin, (u64)(var_j0) + 8, var_j1);
  var_j0 = var_p0;
  var_j1 = var_p1;
  i64_store(origin, (u64)(var_j0), var_j1);
  FUNC_EPILOGUE;
}

static void w2c_lockreplay_lk_replay0x3A0x3Aschedule0x3A0x3Aopen_schedule(w2c_lockreplay* instance, u64 var_p0, u64 var_p1, u64 var_p2) {
  u32 var_l5 = 0, var_l6 = 0, var_l9 = 0, var_l10 = 0;
  u64 var_l3 = 0, var_l4 = 0, var_l7 = 0, var_l8 = 0;
  FUNC_PROLOGUE;
  u32 var_i0, var_i1, var_i2, var_i3;
  u64 var_j0, var_j1, var_j2;
  var_j0 = instance->w2c_0x5F_stack_pointer;
  var_j1 = 48ull;
  var_j0 -= var_j1;
  var_l3 = var_j0;
  instance->w2c_0x5F_stack_pointer = var_j0;
  var_j0 = var_l3;
  var_l4 = var_j0;
  var_j1 = 16ull;
  var_i0 = (u64)((s64)var_j0 < (s64)var_j1);
  if (var_i0) {goto var_B0;}
  var_j0 = var_l4;
  var_i1 = 0u;
  i32_store(origin, (u64)(var_j0) + 32, var_i1);
  var_j0 = var_l4;
  var_j1 = 0ull;
  i64_store(origin, (u64)(var_j0) + 24, var_j1);
  var_i0 = 0u;
  var_l5 = var_i0;
  var_i0 = 0u;
  var_l6 = var_i0;
  var_j0 = var_p2;
  var_j1 = 1048576ull;
  var_i0 = var_j0 > var_j1;
  if (var_i0) {goto var_B3;}
  var_j0 = var_p2;
  var_i0 = !(var_j0);
  var_i0 = !(var_i0);
  if (var_i0) {goto var_B4;}
  var_i0 = 1u;
  var_l5 = var_i0;
  var_i0 = 1u;
  var_l6 = var_i0;
  goto var_B3;
  var_B4:;
  var_i0 = 1u;
  var_l6 = var_i0;
  var_L5:
    var_j0 = var_p1;
    var_l7 = var_j0;
    var_j0 = 0ull;
    var_l3 = var_j0;
    var_L10:
      var_j0 = var_l7;
      var_j1 = var_l3;
      var_j0 += var_j1;
      var_p1 = var_j0;
      var_i0 = i32_load8_u(origin, (u64)(var_j0));
      var_i1 = 10u;
      var_i0 = var_i0 == var_i1;
      if (var_i0) {goto var_B9;}
      var_j0 = var_p2;
      var_j1 = var_l3;
      var_j2 = 1ull;
      var_j1 += var_j2;
      var_l3 = var_j1;
      var_i0 = var_j0 != var_j1;
      if (var_i0) {goto var_L10;}
    var_j0 = 1058584ull;
    var_p1 = var_j0;
    var_j0 = 0ull;
    var_l8 = var_j0;
    var_j0 = var_p2;
    var_l3 = var_j0;
    goto var_B8;
    var_B9:;
    var_j0 = var_p1;
    var_j1 = 1ull;
    var_j0 += var_j1;
    var_p1 = var_j0;
    var_j0 = var_l3;
    var_j1 = 18446744073709551615ull;
    var_j0 ^= var_j1;
    var_j1 = var_p2;
    var_j0 += var_j1;
    var_l8 = var_j0;
    var_p2 = var_j0;
    var_j0 = var_l3;
    var_i0 = !(var_j0);
    if (var_i0) {goto var_B7;}
    var_B8:;
    var_j0 = var_l7;
    var_i0 = i32_load8_u(origin, (u64)(var_j0));
    var_i1 = 35u;
    var_i0 = var_i0 != var_i1;
    if (var_i0) {goto var_B6;}
    var_j0 = var_l8;
    var_p2 = var_j0;
    var_B7:;
    var_i0 = 1u;
    var_l5 = var_i0;
    var_i0 = var_l6;
    var_i1 = 1u;
    var_i0 += var_i1;
    var_l6 = var_i0;
    var_j0 = var_p2;
    var_i0 = !(var_j0);
    var_i0 = !(var_i0);
    if (var_i0) {goto var_L5;}
    goto var_B3;
    var_B6:;
  var_j0 = var_l4;
  var_j1 = 24ull;
  var_j0 += var_j1;
  var_j1 = var_l7;
  var_j2 = var_l3;
  var_i3 = var_l6;
  w2c_lockreplay_lk_lines0x3A0x3Aheader0x3A0x3Aheader_of(instance, var_j0, var_j1, var_j2, var_i3);
  var_j0 = var_l4;
  var_i0 = i32_load8_u(origin, (u64)(var_j0) + 24u);
  var_i0 = !(var_i0);
  if (var_i0) {goto var_B2;}
  var_j0 = var_l4;
  var_i0 = i32_load8_u(origin, (u64)(var_j0) + 28u);
  var_l5 = var_i0;
  var_j0 = var_l4;
  var_i0 = i32_load(origin, (u64)(var_j0) + 32u);
  var_l6 = var_i0;
  var_B3:;
  var_j0 = var_p0;
  var_i1 = 1u;
  i32_store(origin, (u64)(var_j0), var_i1);
  var_j0 = var_p0;
  var_j1 = 12ull;
  var_j0 += var_j1;
  var_j1 = 0ull;
  i64_store(origin, (u64)(var_j0), var_j1);
  var_j0 = var_p0;
  var_j1 = 8ull;
  var_j0 += var_j1;
  var_i1 = var_l6;
  i32_store(origin, (u64)(var_j0), var_i1);
  var_j0 = var_p0;
  var_j1 = 4ull;
  var_j0 += var_j1;
  var_i1 = var_l5;
  i32_store(origin, (u64)(var_j0), var_i1);
  var_j0 = var_p0;
  var_j1 = 20ull;
  var_j0 += var_j1;
  var_j1 = 0ull;
  i64_store(origin, (u64)(var_j0), var_j1);
  var_j0 = var_p0;
  var_j1 = 28ull;
  var_j0 += var_j1;
  var_j1 = 0ull;
  i64_store(origin, (u64)(var_j0), var_j1);
  var_j0 = var_p0;
  var_j1 = 36ull;
  var_j0 += var_j1;
  var_j1 = 0ull;
  i64_store(origin, (u64)(var_j0), var_j1);
  var_j0 = var_p0;
  var_j1 = 44ull;
  var_j0 += var_j1;
  var_i1 = 0u;
  i32_store(origin, (u64)(var_j0), var_i1);
  goto var_B1;
  var_B2:;
  var_j0 = var_l4;
  var_i0 = i32_load16_u(origin, (u64)(var_j0) + 25u);
  var_l5 = var_i0;
  var_j0 = var_l4;
  var_i0 = i32_load8_u(origin, (u64)(var_j0) + 27u);
  var_l9 = var_i0;
  var_j0 = var_l4;
  var_i1 = 0u;
  i32_store(origin, (u64)(var_j0) + 44, var_i1);
  var_j0 = var_l4;
  var_i1 = var_l6;
  var_i2 = 1u;
  var_i1 += var_i2;
  var_l10 = var_i1;
  i32_store(origin, (u64)(var_j0) + 40, var_i1);
  var_j0 = var_l4;
  var_j1 = var_l8;
  i64_store(origin, (u64)(var_j0) + 32, var_j1);
  var_j0 = var_l4;
  var_j1 = var_p1;
  i64_store(origin, (u64)(var_j0) + 24, var_j1);
  var_j0 = var_l4;
  var_j1 = 0ull;
  i64_store(origin, (u64)(var_j0) + 16, var_j1);
  var_j0 = var_l4;
  var_j1 = 0ull;
  i64_store(origin, (u64)(var_j0) + 8, var_j1);
  var_j0 = var_l4;
  var_j1 = 8ull;
  var_j0 += var_j1;
  var_j1 = var_l4;
  var_j2 = 24ull;
  var_j1 += var_j2;
  var_j2 = 0ull;
  w2c_lockreplay_lk_replay0x3A0x3Aschedule0x3A0x3Aread_move(instance, var_j0, var_j1, var_j2);
  var_j0 = var_l4;
  var_i0 = i32_load8_u(origin, (u64)(var_j0) + 12u);
  var_l6 = var_i0;
  var_j0 = var_l4;
  var_i0 = i32_load8_u(origin, (u64)(var_j0) + 8u);
  if (var_i0) {goto var_B12;}
  var_i0 = var_l5;
  var_i1 = var_l9;
  var_i2 = 16u;
  var_i1 <<= (var_i2 & 31);
  var_i0 |= var_i1;
  var_l9 = var_i0;
  var_i0 = 0u;
  var_l5 = var_i0;
  var_L13:
    var_i0 = var_l6;
    var_i1 = 255u;
    var_i0 &= var_i1;
    var_i1 = 1u;
    var_i0 = var_i0 != var_i1;
    if (var_i0) {goto var_B11;}
    var_j0 = var_l4;
    var_j1 = 8ull;
    var_j0 += var_j1;
    var_j1 = var_l4;
    var_j2 = 24ull;
    var_j1 += var_j2;
    var_i2 = var_l5;
    var_i3 = 1u;
    var_i2 += var_i3;
    var_l5 = var_i2;
    var_j2 = (u64)(var_i2);
    w2c_lockreplay_lk_replay0x3A0x3Aschedule0x3A0x3Aread_move(instance, var_j0, var_j1, var_j2);
    var_j0 = var_l4;
    var_i0 = i32_load8_u(origin, (u64)(var_j0) + 12u);
    var_l6 = var_i0;
    var_j0 = var_l4;
    var_i0 = i32_load8_u(origin, (u64)(var_j0) + 8u);
    var_i0 = !(var_i0);
    if (var_i0) {goto var_L13;}
  var_B12:;
  var_j0 = var_l4;
  var_i0 = i32_load(origin, (u64)(var_j0) + 16u);
  var_l5 = var_i0;
  var_j0 = var_p0;
  var_j1 = 12ull;
  var_j0 += var_j1;
  var_j1 = 0ull;
  i64_store(origin, (u64)(var_j0), var_j1);
  var_j0 = var_p0;
  var_j1 = 8ull;
  var_j0 += var_j1;
  var_i1 = var_l5;
  i32_store(origin, (u64)(var_j0), var_i1);
  var_j0 = var_p0;
  var_j1 = 4ull;
  var_j0 += var_j1;
  var_i1 = var_l6;
  var_i2 = 255u;
  var_i1 &= var_i2;
  i32_store(origin, (u64)(var_j0), var_i1);
  var_j0 = var_p0;
  var_i1 = 1u;
  i32_store(origin, (u64)(var_j0), var_i1);
  var_j0 = var_p0;
  var_j1 = 20ull;
  var_j0 += var_j1;
  var_j1 = 0ull;
  i64_store(origin, (u64)(var_j0), var_j1);
  var_j0 = var_p0;
  var_j1 = 28ull;
  var_j0 += var_j1;
  var_j1 = 0ull;
  i64_store(origin, (u64)(var_j0), var_j1);
  var_j0 = var_p0;
  var_j1 = 36ull;
  var_j0 += var_j1;
  var_j1 = 0ull;
  i64_store(origin, (u64)(var_j0), var_j1);
  var_j0 = var_p0;
  var_j1 = 44ull;
  var_j0 += var_j1;
  var_i1 = 0u;
  i32_store(origin, (u64)(var_j0), var_i1);
  goto var_B1;
  var_B11:;
  var_j0 = var_p0;
  var_j1 = 44ull;
  var_j0 += var_j1;
  var_i1 = 0u;
  i32_store(origin, (u64)(var_j0), var_i1);
  var_j0 = var_p0;
  var_j1 = 40ull;
  var_j0 += var_j1;
  var_i1 = var_l5;
  i32_store(origin, (u64)(var_j0), var_i1);
  var_j0 = var_p0;
  var_j1 = 36ull;
  var_j0 += var_j1;
  var_i1 = 0u;
  i32_store(origin, (u64)(var_j0), var_i1);
  var_j0 = var_p0;
  var_j1 = 32ull;
  var_j0 += var_j1;
  var_i1 = var_l10;
  i32_store(origin, (u64)(var_j0), var_i1);
  var_j0 = var_p0;
  var_j1 = 24ull;
  var_j0 += var_j1;
  var_j1 = var_l8;
  i64_store(origin, (u64)(var_j0), var_j1);
  var_j0 = var_p0;
  var_j1 = 16ull;
  var_j0 += var_j1;
  var_j1 = var_p1;
  i64_store(origin, (u64)(var_j0), var_j1);
  var_j0 = var_p0;
  var_j1 = 12ull;
  var_j0 += var_j1;
  var_i1 = 0u;
  i32_store(origin, (u64)(var_j0), var_i1);
  var_j0 = var_p0;
  var_j1 = 8ull;
  var_j0 += var_j1;
  var_i1 = var_l9;
  var_i2 = 16777215u;
  var_i1 &= var_i2;
  i32_store(origin, (u64)(var_j0), var_i1);
  var_j0 = var_p0;
  var_j1 = 0ull;
  i64_store(origin, (u64)(var_j0), var_j1);
  var_B1:;
  var_j0 = var_l4;
  var_j1 = 48ull;
  var_j0 += var_j1;
  instance->w2c_0x5F_stack_pointer = var_j0;
  goto var_Bfunc;
  var_B0:;
  UNREACHABLE;
  var_Bfunc:;
  FUNC_EPILOGUE;
}

static void w2c_lockreplay_lk_lines0x3A0x3Aheader0x3A0x3Aheader_of(w2c_lockreplay* instance, u64 var_p0, u64 var_p1, u64 var_p2, u32 var_p3) {
  u32 var_l16 = 0, var_l17 = 0, var_l18 = 0, var_l19 = 0, var_l20 = 0;
  u64 var_l4 = 0, var_l5 = 0, var_l6 = 0, var_l7 = 0, var_l8 = 0, var_l9 = 0, var_l10 = 0, var_l11 = 0,
      var_l12 = 0, var_l13 = 0, var_l14 = 0, var_l15 = 0;
  FUNC_PROLOGUE;
  u32 var_i0, var_i1, var_i3, var_i4;
  u64 var_j0, var_j1, var_j2;
  var_j0 = instance->w2c_0x5F_stack_pointer;
  var_j1 = 32ull;
  var_j0 -= var_j1;
  var_l4 = var_j0;
  instance->w2c_0x5F_stack_pointer = var_j0;
  var_j0 = var_l4;
  var_l5 = var_j0;
  var_j1 = 16ull;
  var_i0 = (u64)((s64)var_j0 < (s64)var_j1);
  if (var_i0) {goto var_B3;}
  var_j0 = var_p2;
  var_i0 = !(var_j0);
  if (var_i0) {goto var_B1;}
  var_j0 = 0ull;
  var_l4 = var_j0;
  var_j0 = 0ull;
  var_j1 = var_p2;
  var_j0 -= var_j1;
  var_l6 = var_j0;
  var_L5:
    var_j0 = var_p1;
    var_j1 = var_l4;
    var_j0 += var_j1;
    var_l7 = var_j0;
    var_i0 = i32_load8_u(origin, (u64)(var_j0));
    var_i1 = 32u;
    var_i0 = var_i0 == var_i1;
    if (var_i0) {goto var_B4;}
    var_j0 = var_l6;
    var_j1 = var_l4;
    var_j2 = 1ull;
    var_j1 += var_j2;
    var_l4 = var_j1;
    var_j0 += var_j1;
    var_i0 = !(var_j0);
    var_i0 = !(var_i0);
    if (var_i0) {goto var_L5;}
    goto var_B1;
  var_B4:;
  var_j0 = var_l4;
  var_j1 = var_p2;
  var_j0 -= var_j1;
  var_l8 = var_j0;
  var_j1 = 18446744073709551615ull;
  var_i0 = var_j0 == var_j1;
  if (var_i0) {goto var_B1;}
  var_j0 = var_l7;
  var_j1 = 1ull;
  var_j0 += var_j1;
  var_l9 = var_j0;
  var_j0 = 0ull;
  var_l6 = var_j0;
  var_j0 = 0ull;
  var_j1 = var_p2;
  var_j0 -= var_j1;
  var_l10 = var_j0;
  var_L7:
    var_j0 = var_l7;
    var_j1 = var_l6;
    var_j0 += var_j1;
    var_l11 = var_j0;
    var_j1 = 1ull;
    var_j0 += var_j1;
    var_i0 = i32_load8_u(origin, (u64)(var_j0));
    var_i1 = 32u;
    var_i0 = var_i0 == var_i1;
    if (var_i0) {goto var_B6;}
    var_j0 = var_l8;
    var_j1 = var_l6;
    var_j0 += var_j1;
    var_l11 = var_j0;
    var_j0 = var_l6;
    var_j1 = 1ull;
    var_j0 += var_j1;
    var_l6 = var_j0;
    var_j0 = var_l11;
    var_j1 = 18446744073709551614ull;
    var_i0 = var_j0 == var_j1;
    if (var_i0) {goto var_B1;}
    goto var_L7;
  var_B6:;
  var_j0 = var_l4;
  var_j1 = var_l6;
  var_j0 += var_j1;
  var_l7 = var_j0;
  var_j1 = var_l10;
  var_j0 += var_j1;
  var_l8 = var_j0;
  var_j1 = 18446744073709551614ull;
  var_i0 = var_j0 == var_j1;
  if (var_i0) {goto var_B1;}
  var_j0 = var_l7;
  var_j1 = var_p1;
  var_j0 += var_j1;
  var_l12 = var_j0;
  var_j1 = 5ull;
  var_j0 += var_j1;
  var_l10 = var_j0;
  var_j0 = var_l8;
  var_j1 = 3ull;
  var_j0 += var_j1;
  var_l13 = var_j0;
  var_j0 = var_l12;
  var_j1 = 2ull;
  var_j0 += var_j1;
  var_l14 = var_j0;
  var_j0 = var_p2;
  var_j1 = 18446744073709551614ull;
  var_j0 += var_j1;
  var_l12 = var_j0;
  var_j0 = 7ull;
  var_l8 = var_j0;
  var_L9:
    var_j0 = var_p1;
    var_j1 = var_l7;
    var_j0 += var_j1;
    var_l15 = var_j0;
    var_j1 = 2ull;
    var_j0 += var_j1;
    var_i0 = i32_load8_u(origin, (u64)(var_j0));
    var_i1 = 32u;
    var_i0 = var_i0 == var_i1;
    if (var_i0) {goto var_B8;}
    var_j0 = var_l8;
    var_j1 = 18446744073709551615ull;
    var_j0 += var_j1;
    var_l8 = var_j0;
    var_j0 = var_l13;
    var_j1 = 1ull;
    var_j0 += var_j1;
    var_l13 = var_j0;
    var_j0 = var_l10;
    var_j1 = 1ull;
    var_j0 += var_j1;
    var_l10 = var_j0;
    var_j0 = var_l12;
    var_j1 = var_l7;
    var_j2 = 1ull;
    var_j1 += var_j2;
    var_l7 = var_j1;
    var_i0 = var_j0 == var_j1;
    if (var_i0) {goto var_B1;}
    goto var_L9;
  var_B8:;
  var_j0 = var_l4;
  var_j1 = 4ull;
  var_i0 = var_j0 != var_j1;
  if (var_i0) {goto var_B1;}
  var_j0 = var_p1;
  var_i0 = i32_load8_u(origin, (u64)(var_j0));
  var_i1 = 108u;
  var_i0 = var_i0 != var_i1;
  if (var_i0) {goto var_B1;}
  var_j0 = var_p1;
  var_j1 = 1ull;
  var_j0 += var_j1;
  var_i0 = i32_load8_u(origin, (u64)(var_j0));
  var_i1 = 255u;
  var_i0 &= var_i1;
  var_i1 = 111u;
  var_i0 = var_i0 != var_i1;
  if (var_i0) {goto var_B1;}
  var_j0 = var_p1;
  var_j1 = 2ull;
  var_j0 += var_j1;
  var_i0 = i32_load8_u(origin, (u64)(var_j0));
  var_i1 = 255u;
  var_i0 &= var_i1;
  var_i1 = 99u;
  var_i0 = var_i0 != var_i1;
  if (var_i0) {goto var_B1;}
  var_j0 = var_p1;
  var_j1 = 3ull;
  var_j0 += var_j1;
  var_i0 = i32_load8_u(origin, (u64)(var_j0));
  var_i1 = 255u;
  var_i0 &= var_i1;
  var_i1 = 107u;
  var_i0 = var_i0 != var_i1;
  if (var_i0) {goto var_B1;}
  var_j0 = var_p1;
  var_j1 = 4ull;
  var_j2 = 1057645ull;
  var_i0 = w2c_lockreplay_core0x3A0x3Acmp0x3A0x3Aslices0x3A0x3Agroups_equal0x3A0x3A0x3Ci80x2C310x27core0x3A0x3Acmp0x3A0x3Anumbers0x3A0x3AU8PartialEq0x7B0x7D0x3E(instance, var_j0, var_j1, var_j2);
  var_l16 = var_i0;
  var_j0 = var_l8;
  var_j1 = 0ull;
  var_i0 = var_j0 != var_j1;
  if (var_i0) {goto var_B1;}
  var_i0 = var_l16;
  var_i0 = !(var_i0);
  if (var_i0) {goto var_B1;}
  var_j0 = var_l14;
  var_i0 = i32_load8_u(origin, (u64)(var_j0));
  var_i1 = 116u;
  var_i0 = var_i0 != var_i1;
  if (var_i0) {goto var_B1;}
  var_j0 = var_l11;
  var_j1 = 3ull;
  var_j0 += var_j1;
  var_i0 = i32_load8_u(origin, (u64)(var_j0));
  var_i1 = 255u;
  var_i0 &= var_i1;
  var_i1 = 104u;
  var_i0 = var_i0 != var_i1;
  if (var_i0) {goto var_B1;}
  var_j0 = var_l11;
  var_j1 = 4ull;
  var_j0 += var_j1;
  var_i0 = i32_load8_u(origin, (u64)(var_j0));
  var_i1 = 255u;
  var_i0 &= var_i1;
  var_i1 = 114u;
  var_i0 = var_i0 != var_i1;
  if (var_i0) {goto var_B1;}
  var_j0 = var_l11;
  var_j1 = 5ull;
  var_j0 += var_j1;
  var_i0 = i32_load8_u(origin, (u64)(var_j0));
  var_i1 = 255u;
  var_i0 &= var_i1;
  var_i1 = 101u;
  var_i0 = var_i0 != var_i1;
  if (var_i0) {goto var_B1;}
  var_j0 = var_l14;
  var_j1 = 7ull;
  var_j2 = 1057649ull;
  var_i0 = w2c_lockreplay_core0x3A0x3Acmp0x3A0x3Aslices0x3A0x3Agroups_equal0x3A0x3A0x3Ci80x2C310x27core0x3A0x3Acmp0x3A0x3Anumbers0x3A0x3AU8PartialEq0x7B0x7D0x3E(instance, var_j0, var_j1, var_j2);
  var_i0 = !(var_i0);
  if (var_i0) {goto var_B1;}
  var_j0 = var_l5;
  var_j1 = 24ull;
  var_j0 += var_j1;
  var_j1 = var_l9;
  var_j2 = var_l6;
  w2c_lockreplay_lk_lines0x3A0x3Avocabulary0x3A0x3Alock_named(instance, var_j0, var_j1, var_j2);
  var_j0 = var_l5;
  var_i0 = i32_load8_u(origin, (u64)(var_j0) + 24u);
  var_i1 = 1u;
  var_i0 &= var_i1;
  var_i0 = !(var_i0);
  if (var_i0) {goto var_B1;}
  var_j0 = var_p2;
  var_j1 = 18446744073709551613ull;
  var_j0 += var_j1;
  var_j1 = var_l7;
  var_i0 = var_j0 == var_j1;
  if (var_i0) {goto var_B12;}
  var_j0 = var_l5;
  var_i0 = i32_load8_u(origin, (u64)(var_j0) + 25u);
  var_l17 = var_i0;
  var_j0 = 0ull;
  var_l6 = var_j0;
  var_j0 = var_l15;
  var_j1 = 3ull;
  var_j0 += var_j1;
  var_p1 = var_j0;
  var_l4 = var_j0;
  var_j0 = var_p2;
  var_j1 = var_l7;
  var_j0 -= var_j1;
  var_j1 = 18446744073709551613ull;
  var_j0 += var_j1;
  var_l8 = var_j0;
  var_l7 = var_j0;
  var_L15:
    var_j0 = var_l4;
    var_i0 = i32_load8_u(origin, (u64)(var_j0));
    var_i1 = 32u;
    var_i0 = var_i0 == var_i1;
    if (var_i0) {goto var_B14;}
    var_j0 = var_l4;
    var_j1 = 1ull;
    var_j0 += var_j1;
    var_l4 = var_j0;
    var_j0 = var_l6;
    var_j1 = 18446744073709551615ull;
    var_j0 += var_j1;
    var_l6 = var_j0;
    var_j0 = var_l7;
    var_j1 = 18446744073709551615ull;
    var_j0 += var_j1;
    var_l7 = var_j0;
    var_i0 = !(var_j0);
    var_i0 = !(var_i0);
    if (var_i0) {goto var_L15;}
  var_i0 = 64u;
  var_l18 = var_i0;
  goto var_B13;
  var_B14:;
  var_j0 = var_l7;
  var_j1 = 1ull;
  var_i0 = var_j0 == var_j1;
  if (var_i0) {goto var_B2;}
  var_j0 = var_l10;
  var_j1 = var_l6;
  var_j0 -= var_j1;
  var_l7 = var_j0;
  var_j0 = 0ull;
  var_j1 = var_l6;
  var_j0 -= var_j1;
  var_l8 = var_j0;
  var_j0 = var_l4;
  var_j1 = 1ull;
  var_j0 += var_j1;
  var_p2 = var_j0;
  var_j0 = var_l13;
  var_j1 = var_l6;
  var_j0 -= var_j1;
  var_j1 = 3ull;
  var_j0 += var_j1;
  var_l6 = var_j0;
  var_j0 = 4ull;
  var_l11 = var_j0;
  var_L17:
    var_j0 = var_l7;
    var_j1 = 18446744073709551615ull;
    var_j0 += var_j1;
    var_i0 = i32_load8_u(origin, (u64)(var_j0));
    var_i1 = 32u;
    var_i0 = var_i0 == var_i1;
    if (var_i0) {goto var_B16;}
    var_j0 = var_l11;
    var_j1 = 18446744073709551615ull;
    var_j0 += var_j1;
    var_l11 = var_j0;
    var_j0 = var_l7;
    var_j1 = 1ull;
    var_j0 += var_j1;
    var_l7 = var_j0;
    var_j0 = var_l6;
    var_j1 = 1ull;
    var_j0 += var_j1;
    var_l6 = var_j0;
    var_j1 = 2ull;
    var_i0 = var_j0 != var_j1;
    if (var_i0) {goto var_L17;}
    goto var_B2;
  var_B16:;
  var_j0 = var_l11;
  var_j1 = 0ull;
  var_i0 = var_j0 != var_j1;
  if (var_i0) {goto var_B2;}
  var_j0 = var_l4;
  var_j1 = 1ull;
  var_j0 += var_j1;
  var_i0 = i32_load8_u(origin, (u64)(var_j0));
  var_i1 = 98u;
  var_i0 = var_i0 != var_i1;
  if (var_i0) {goto var_B2;}
  var_j0 = var_l4;
  var_j1 = 2ull;
  var_j0 += var_j1;
  var_i0 = i32_load8_u(origin, (u64)(var_j0));
  var_i1 = 255u;
  var_i0 &= var_i1;
  var_i1 = 105u;
  var_i0 = var_i0 != var_i1;
  if (var_i0) {goto var_B2;}
  var_j0 = var_l4;
  var_j1 = 3ull;
  var_j0 += var_j1;
  var_i0 = i32_load8_u(origin, (u64)(var_j0));
  var_i1 = 255u;
  var_i0 &= var_i1;
  var_i1 = 116u;
  var_i0 = var_i0 != var_i1;
  if (var_i0) {goto var_B2;}
  var_j0 = var_l4;
  var_j1 = 4ull;
  var_j0 += var_j1;
  var_i0 = i32_load8_u(origin, (u64)(var_j0));
  var_i1 = 255u;
  var_i0 &= var_i1;
  var_i1 = 115u;
  var_i0 = var_i0 != var_i1;
  if (var_i0) {goto var_B2;}
  var_j0 = var_p2;
  var_j1 = 4ull;
  var_j2 = 1057678ull;
  var_i0 = w2c_lockreplay_core0x3A0x3Acmp0x3A0x3Aslices0x3A0x3Agroups_equal0x3A0x3A0x3Ci80x2C310x27core0x3A0x3Acmp0x3A0x3Anumbers0x3A0x3AU8PartialEq0x7B0x7D0x3E(instance, var_j0, var_j1, var_j2);
  var_i0 = !(var_i0);
  if (var_i0) {goto var_B2;}
  var_j0 = var_l6;
  var_j1 = 1ull;
  var_i0 = var_j0 == var_j1;
  if (var_i0) {goto var_B2;}
  var_j0 = var_l6;
  var_j1 = 18446744073709551615ull;
  var_j0 += var_j1;
  var_p2 = var_j0;
  var_j0 = 0ull;
  var_l4 = var_j0;
  var_L18:
    var_j0 = var_l7;
    var_j1 = var_l4;
    var_j0 += var_j1;
    var_i0 = i32_load8_u(origin, (u64)(var_j0));
    var_i1 = 32u;
    var_i0 = var_i0 == var_i1;
    if (var_i0) {goto var_B2;}
    var_j0 = var_l6;
    var_j1 = var_l4;
    var_j0 += var_j1;
    var_l11 = var_j0;
    var_j0 = var_l4;
    var_j1 = 1ull;
    var_j0 += var_j1;
    var_l4 = var_j0;
    var_j0 = var_l11;
    var_j1 = 0ull;
    var_i0 = var_j0 != var_j1;
    if (var_i0) {goto var_L18;}
  var_j0 = var_l6;
  var_i0 = !(var_j0);
  if (var_i0) {goto var_B19;}
  var_j0 = var_l7;
  var_i0 = i32_load8_u(origin, (u64)(var_j0));
  var_i1 = 48u;
  var_i0 = var_i0 == var_i1;
  if (var_i0) {goto var_B2;}
  var_B19:;
  var_j0 = 0ull;
  var_l4 = var_j0;
  var_L20:
    var_j0 = var_l4;
    var_j1 = 1844674407370955161ull;
    var_i0 = var_j0 > var_j1;
    if (var_i0) {goto var_B2;}
    var_j0 = var_l7;
    var_i0 = i32_load8_u(origin, (u64)(var_j0));
    var_i1 = 4294967248u;
    var_i0 += var_i1;
    var_l16 = var_i0;
    var_i1 = 255u;
    var_i0 &= var_i1;
    var_i1 = 9u;
    var_i0 = var_i0 > var_i1;
    if (var_i0) {goto var_B2;}
    var_j0 = var_l4;
    var_j1 = 10ull;
    var_j0 *= var_j1;
    var_l4 = var_j0;
    var_i1 = var_l16;
    var_j1 = (u64)(var_i1);
    var_j2 = 255ull;
    var_j1 &= var_j2;
    var_l6 = var_j1;
    var_j2 = 18446744073709551615ull;
    var_j1 ^= var_j2;
    var_i0 = var_j0 > var_j1;
    if (var_i0) {goto var_B2;}
    var_j0 = var_l7;
    var_j1 = 1ull;
    var_j0 += var_j1;
    var_l7 = var_j0;
    var_j0 = var_l4;
    var_j1 = var_l6;
    var_j0 += var_j1;
    var_l4 = var_j0;
    var_j0 = var_p2;
    var_j1 = 1ull;
    var_j0 += var_j1;
    var_p2 = var_j0;
    var_j1 = 0ull;
    var_i0 = var_j0 != var_j1;
    if (var_i0) {goto var_L20;}
  var_j0 = var_l4;
  var_j1 = 18446744073709551614ull;
  var_j0 += var_j1;
  var_j1 = 62ull;
  var_i0 = var_j0 > var_j1;
  if (var_i0) {goto var_B2;}
  var_j0 = var_l4;
  var_i0 = (u32)(var_j0);
  var_l18 = var_i0;
  var_B13:;
  var_j0 = var_l8;
  var_j1 = 1ull;
  var_i0 = var_j0 > var_j1;
  if (var_i0) {goto var_B22;}
  var_j0 = var_l8;
  var_i0 = (u32)(var_j0);
  switch (var_i0) {
    case 0: goto var_B12;
    case 1: goto var_B21;
    default: goto var_B12;
  }
  var_B22:;
  var_j0 = var_l15;
  var_j1 = 3ull;
  var_j0 += var_j1;
  var_i0 = i32_load8_u(origin, (u64)(var_j0));
  var_i1 = 48u;
  var_i0 = var_i0 == var_i1;
  if (var_i0) {goto var_B12;}
  var_B21:;
  var_j0 = 0ull;
  var_l4 = var_j0;
  var_L23:
    var_j0 = var_l4;
    var_j1 = 1844674407370955161ull;
    var_i0 = var_j0 > var_j1;
    if (var_i0) {goto var_B12;}
    var_j0 = var_p1;
    var_i0 = i32_load8_u(origin, (u64)(var_j0));
    var_i1 = 4294967248u;
    var_i0 += var_i1;
    var_l16 = var_i0;
    var_i1 = 255u;
    var_i0 &= var_i1;
    var_i1 = 9u;
    var_i0 = var_i0 > var_i1;
    if (var_i0) {goto var_B12;}
    var_j0 = var_l4;
    var_j1 = 10ull;
    var_j0 *= var_j1;
    var_l4 = var_j0;
    var_i1 = var_l16;
    var_j1 = (u64)(var_i1);
    var_j2 = 255ull;
    var_j1 &= var_j2;
    var_l7 = var_j1;
    var_j2 = 18446744073709551615ull;
    var_j1 ^= var_j2;
    var_i0 = var_j0 > var_j1;
    if (var_i0) {goto var_B12;}
    var_j0 = var_p1;
    var_j1 = 1ull;
    var_j0 += var_j1;
    var_p1 = var_j0;
    var_j0 = var_l4;
    var_j1 = var_l7;
    var_j0 += var_j1;
    var_l4 = var_j0;
    var_j0 = var_l8;
    var_j1 = 18446744073709551615ull;
    var_j0 += var_j1;
    var_l8 = var_j0;
    var_j1 = 0ull;
    var_i0 = var_j0 != var_j1;
    if (var_i0) {goto var_L23;}
  var_j0 = var_l4;
  var_i0 = !(var_j0);
  if (var_i0) {goto var_B12;}
  var_j0 = var_l4;
  var_j1 = 65ull;
  var_i0 = var_j0 >= var_j1;
  if (var_i0) {goto var_B12;}
  var_j0 = var_l5;
  var_j1 = var_l4;
  var_j2 = 0ull;
  var_i3 = var_l18;
  var_i4 = 255u;
  var_i3 &= var_i4;
  w2c_lockreplay_0x5F_lshrti3(instance, var_j0, var_j1, var_j2, var_i3);
  var_j0 = var_l5;
  var_j0 = i64_load(origin, (u64)(var_j0));
  var_j1 = var_l5;
  var_j1 = i64_load(origin, (u64)(var_j1) + 8u);
  var_j0 |= var_j1;
  var_i0 = !(var_j0);
  if (var_i0) {goto var_B11;}
  var_i0 = 7u;
  var_l16 = var_i0;
  var_i0 = 1u;
  var_l19 = var_i0;
  var_i0 = 0u;
  var_l17 = var_i0;
  var_i0 = 0u;
  var_l20 = var_i0;
  var_i0 = 0u;
  var_l18 = var_i0;
  goto var_B10;
  var_B12:;
  var_j0 = var_p0;
  var_j1 = 12884901889ull;
  i64_store(origin, (u64)(var_j0), var_j1);
  var_j0 = var_p0;
  var_j1 = 8ull;
  var_j0 += var_j1;
  var_i1 = var_p3;
  i32_store(origin, (u64)(var_j0), var_i1);
  goto var_B0;
  var_B11:;
  var_j0 = var_l4;
  var_i0 = (u32)(var_j0);
  var_l20 = var_i0;
  var_i0 = 0u;
  var_l16 = var_i0;
  var_i0 = 0u;
  var_l19 = var_i0;
  var_i0 = 0u;
  var_p3 = var_i0;
  var_B10:;
  var_j0 = var_p0;
  var_i1 = var_l19;
  i32_store8(origin, (u64)(var_j0), var_i1);
  var_j0 = var_p0;
  var_j1 = 8ull;
  var_j0 += var_j1;
  var_i1 = var_p3;
  i32_store(origin, (u64)(var_j0), var_i1);
  var_j0 = var_p0;
  var_j1 = 4ull;
  var_j0 += var_j1;
  var_i1 = var_l16;
  i32_store(origin, (u64)(var_j0), var_i1);
  var_j0 = var_p0;
  var_j1 = 3ull;
  var_j0 += var_j1;
  var_i1 = var_l18;
  i32_store8(origin, (u64)(var_j0), var_i1);
  var_j0 = var_p0;
  var_j1 = 2ull;
  var_j0 += var_j1;
  var_i1 = var_l20;
  i32_store8(origin, (u64)(var_j0), var_i1);
  var_j0 = var_p0;
  var_j1 = 1ull;
  var_j0 += var_j1;
  var_i1 = var_l17;
  i32_store8(origin, (u64)(var_j0), var_i1);
  goto var_B0;
  var_B3:;
  UNREACHABLE;
  var_B2:;
  var_j0 = var_p0;
  var_j1 = 8589934593ull;
  i64_store(origin, (u64)(var_j0), var_j1);
  var_j0 = var_p0;
  var_j1 = 8ull;
  var_j0 += var_j1;
  var_i1 = var_p3;
  i32_store(origin, (u64)(var_j0), var_i1);
  goto var_B0;
  var_B1:;
  var_j0 = var_p0;
  var_j1 = 8589934593ull;
  i64_store(origin, (u64)(var_j0), var_j1);
  var_j0 = var_p0;
  var_j1 = 8ull;
  var_j0 += var_j1;
  var_i1 = var_p3;
  i32_store(origin, (u64)(var_j0), var_i1);
  var_B0:;
  var_j0 = var_l5;
  var_j1 = 32ull;
  var_j0 += var_j1;
  instance->w2c_0x5F_stack_pointer = var_j0;
  FUNC_EPILOGUE;
}

static void w2c_lockreplay_lk_replay0x3A0x3Aschedule0x3A0x3Aread_move(w2c_lockreplay* instance, u64 var_p0, u64 var_p1, u64 var_p2) {
  u32 var_l7 = 0, var_l8 = 0, var_l10 = 0, var_l11 = 0, var_l12 = 0, var_l13 = 0, var_l14 = 0;
  u64 var_l3 = 0, var_l4 = 0, var_l5 = 0, var_l6 = 0, var_l9 = 0, var_l15 = 0, var_l16 = 0;
  FUNC_PROLOGUE;
  u32 var_i0, var_i1, var_i2, var_i3, var_i4;
  u64 var_j0, var_j1, var_j2, var_j3, var_j4;
  var_j0 = instance->w2c_0x5F_stack_pointer;
  var_j1 = 32ull;
  var_j0 -= var_j1;
  var_l3 = var_j0;
  instance->w2c_0x5F_stack_pointer = var_j0;
  var_j0 = var_l3;
  var_l4 = var_j0;
  var_j1 = 16ull;
  var_i0 = (u64)((s64)var_j0 < (s64)var_j1);
  if (var_i0) {goto var_B2;}
  var_j0 = var_p1;
  var_j0 = i64_load(origin, (u64)(var_j0));
  var_l5 = var_j0;
  var_j0 = var_p1;
  var_j0 = i64_load(origin, (u64)(var_j0) + 8u);
  var_l6 = var_j0;
  var_j1 = 3ull;
  var_i0 = var_j0 < var_j1;
  if (var_i0) {goto var_B7;}
  var_j0 = var_l5;
  var_i0 = i32_load8_u(origin, (u64)(var_j0));
  var_i1 = 4294967248u;
  var_i0 += var_i1;
  var_l7 = var_i0;
  var_i1 = 255u;
  var_i0 &= var_i1;
  var_i1 = 9u;
  var_i0 = var_i0 > var_i1;
  if (var_i0) {goto var_B9;}
  var_j0 = var_l5;
  var_i0 = i32_load8_u(origin, (u64)(var_j0) + 1u);
  var_l8 = var_i0;
  var_i1 = 32u;
  var_i0 = var_i0 != var_i1;
  if (var_i0) {goto var_B11;}
  var_j0 = var_l6;
  var_j1 = 18446744073709551614ull;
  var_j0 += var_j1;
  var_l9 = var_j0;
  var_j0 = var_l5;
  var_j1 = 2ull;
  var_j0 += var_j1;
  var_l3 = var_j0;
  goto var_B10;
  var_B11:;
  var_i0 = var_l7;
  var_i1 = 255u;
  var_i0 &= var_i1;
  var_i0 = !(var_i0);
  if (var_i0) {goto var_B9;}
  var_i0 = var_l8;
  var_i1 = 4294967248u;
  var_i0 += var_i1;
  var_l8 = var_i0;
  var_i1 = 255u;
  var_i0 &= var_i1;
  var_i1 = 9u;
  var_i0 = var_i0 > var_i1;
  if (var_i0) {goto var_B9;}
  var_j0 = var_l5;
  var_i0 = i32_load8_u(origin, (u64)(var_j0) + 2u);
  var_i1 = 32u;
  var_i0 = var_i0 != var_i1;
  if (var_i0) {goto var_B9;}
  var_j0 = var_l6;
  var_j1 = 18446744073709551613ull;
  var_j0 += var_j1;
  var_l9 = var_j0;
  var_j0 = var_l5;
  var_j1 = 3ull;
  var_j0 += var_j1;
  var_l3 = var_j0;
  var_i0 = var_l8;
  var_i1 = var_l7;
  var_i2 = 10u;
  var_i1 *= var_i2;
  var_i0 += var_i1;
  var_l7 = var_i0;
  var_B10:;
  var_j0 = var_l9;
  var_j1 = 4ull;
  var_i0 = var_j0 < var_j1;
  if (var_i0) {goto var_B9;}
  var_j0 = var_l9;
  var_j1 = 18446744073709551612ull;
  var_j0 += var_j1;
  var_l9 = var_j0;
  var_j0 = var_l3;
  var_j1 = 1ull;
  var_j0 += var_j1;
  var_i0 = i32_load8_u(origin, (u64)(var_j0));
  var_l10 = var_i0;
  var_i1 = 101u;
  var_i0 = var_i0 != var_i1;
  var_l11 = var_i0;
  var_j1 = var_l3;
  var_j2 = 2ull;
  var_j1 += var_j2;
  var_i1 = i32_load8_u(origin, (u64)(var_j1));
  var_l8 = var_i1;
  var_i2 = 97u;
  var_i1 = var_i1 != var_i2;
  var_j2 = var_l3;
  var_i2 = i32_load8_u(origin, (u64)(var_j2));
  var_l12 = var_i2;
  var_i3 = 114u;
  var_i2 = var_i2 != var_i3;
  var_j3 = var_l3;
  var_j4 = 3ull;
  var_j3 += var_j4;
  var_i3 = i32_load8_u(origin, (u64)(var_j3));
  var_l13 = var_i3;
  var_i4 = 100u;
  var_i3 = var_i3 != var_i4;
  var_i2 |= var_i3;
  var_i1 |= var_i2;
  var_i0 |= var_i1;
  var_l14 = var_i0;
  if (var_i0) {goto var_B13;}
  var_j0 = 0ull;
  var_j1 = var_l9;
  var_i2 = var_l14;
  var_j0 = var_i2 ? var_j0 : var_j1;
  var_l15 = var_j0;
  var_i0 = !(var_j0);
  if (var_i0) {goto var_B13;}
  var_j0 = var_l3;
  var_j1 = 4ull;
  var_j0 += var_j1;
  var_i0 = i32_load8_u(origin, (u64)(var_j0));
  var_i1 = 10u;
  var_i0 = var_i0 != var_i1;
  if (var_i0) {goto var_B13;}
  var_j0 = var_l15;
  var_j1 = 18446744073709551615ull;
  var_j0 += var_j1;
  var_l9 = var_j0;
  var_j0 = var_l3;
  var_j1 = 5ull;
  var_j0 += var_j1;
  var_l3 = var_j0;
  var_i0 = 0u;
  var_l12 = var_i0;
  var_i0 = 1u;
  var_l13 = var_i0;
  goto var_B12;
  var_B13:;
  var_i0 = var_l12;
  var_i1 = 115u;
  var_i0 = var_i0 != var_i1;
  var_i1 = var_l11;
  var_i2 = var_l8;
  var_i3 = 99u;
  var_i2 = var_i2 != var_i3;
  var_i3 = var_l13;
  var_i4 = 116u;
  var_i3 = var_i3 != var_i4;
  var_l14 = var_i3;
  var_i2 |= var_i3;
  var_i1 |= var_i2;
  var_i0 |= var_i1;
  var_l11 = var_i0;
  if (var_i0) {goto var_B14;}
  var_j0 = 0ull;
  var_j1 = var_l9;
  var_i2 = var_l11;
  var_j0 = var_i2 ? var_j0 : var_j1;
  var_l15 = var_j0;
  var_j1 = 4ull;
  var_i0 = var_j0 < var_j1;
  if (var_i0) {goto var_B14;}
  var_j0 = var_l3;
  var_j1 = 4ull;
  var_j0 += var_j1;
  var_i0 = i32_load8_u(origin, (u64)(var_j0));
  var_i1 = 105u;
  var_i0 = var_i0 != var_i1;
  if (var_i0) {goto var_B14;}
  var_j0 = var_l3;
  var_j1 = 5ull;
  var_j0 += var_j1;
  var_i0 = i32_load8_u(origin, (u64)(var_j0));
  var_i1 = 255u;
  var_i0 &= var_i1;
  var_i1 = 111u;
  var_i0 = var_i0 != var_i1;
  if (var_i0) {goto var_B14;}
  var_j0 = var_l3;
  var_j1 = 6ull;
  var_j0 += var_j1;
  var_i0 = i32_load8_u(origin, (u64)(var_j0));
  var_i1 = 255u;
  var_i0 &= var_i1;
  var_i1 = 110u;
  var_i0 = var_i0 != var_i1;
  if (var_i0) {goto var_B14;}
  var_j0 = var_l3;
  var_j1 = 7ull;
  var_j0 += var_j1;
  var_i0 = i32_load8_u(origin, (u64)(var_j0));
  var_i1 = 255u;
  var_i0 &= var_i1;
  var_i1 = 10u;
  var_i0 = var_i0 != var_i1;
  if (var_i0) {goto var_B14;}
  var_j0 = var_l15;
  var_j1 = 18446744073709551612ull;
  var_j0 += var_j1;
  var_l9 = var_j0;
  var_j0 = var_l3;
  var_j1 = 8ull;
  var_j0 += var_j1;
  var_l3 = var_j0;
  var_i0 = 5u;
  var_l12 = var_i0;
  var_i0 = 1u;
  var_l13 = var_i0;
  goto var_B12;
  var_B14:;
  var_i0 = var_l12;
  var_i1 = 119u;
  var_i0 = var_i0 != var_i1;
  var_i1 = var_l10;
  var_i2 = 114u;
  var_i1 = var_i1 != var_i2;
  var_i2 = var_l8;
  var_i3 = 105u;
  var_i2 = var_i2 != var_i3;
  var_i1 |= var_i2;
  var_i2 = var_l14;
  var_i1 |= var_i2;
  var_i0 |= var_i1;
  var_l11 = var_i0;
  if (var_i0) {goto var_B15;}
  var_j0 = 0ull;
  var_j1 = var_l9;
  var_i2 = var_l11;
  var_j0 = var_i2 ? var_j0 : var_j1;
  var_l15 = var_j0;
  var_j1 = 2ull;
  var_i0 = var_j0 < var_j1;
  if (var_i0) {goto var_B15;}
  var_j0 = var_l3;
  var_j1 = 4ull;
  var_j0 += var_j1;
  var_i0 = i32_load8_u(origin, (u64)(var_j0));
  var_i1 = 101u;
  var_i0 = var_i0 != var_i1;
  if (var_i0) {goto var_B15;}
  var_j0 = var_l3;
  var_j1 = 5ull;
  var_j0 += var_j1;
  var_i0 = i32_load8_u(origin, (u64)(var_j0));
  var_i1 = 255u;
  var_i0 &= var_i1;
  var_i1 = 10u;
  var_i0 = var_i0 != var_i1;
  if (var_i0) {goto var_B15;}
  var_j0 = var_l15;
  var_j1 = 18446744073709551614ull;
  var_j0 += var_j1;
  var_l9 = var_j0;
  var_j0 = var_l3;
  var_j1 = 6ull;
  var_j0 += var_j1;
  var_l3 = var_j0;
  var_i0 = 1u;
  var_l13 = var_i0;
  var_i0 = 1u;
  var_l12 = var_i0;
  goto var_B12;
  var_B15:;
  var_i0 = var_l12;
  var_i1 = 115u;
  var_i0 = var_i0 != var_i1;
  var_i1 = var_l8;
  var_i2 = 97u;
  var_i1 = var_i1 != var_i2;
  var_i2 = var_l10;
  var_i3 = 119u;
  var_i2 = var_i2 != var_i3;
  var_i3 = var_l13;
  var_i4 = 112u;
  var_i3 = var_i3 != var_i4;
  var_i2 |= var_i3;
  var_i1 |= var_i2;
  var_i0 |= var_i1;
  var_l11 = var_i0;
  if (var_i0) {goto var_B16;}
  var_j0 = 0ull;
  var_j1 = var_l9;
  var_i2 = var_l11;
  var_j0 = var_i2 ? var_j0 : var_j1;
  var_l15 = var_j0;
  var_i0 = !(var_j0);
  if (var_i0) {goto var_B16;}
  var_j0 = var_l3;
  var_j1 = 4ull;
  var_j0 += var_j1;
  var_i0 = i32_load8_u(origin, (u64)(var_j0));
  var_i1 = 10u;
  var_i0 = var_i0 != var_i1;
  if (var_i0) {goto var_B16;}
  var_j0 = var_l15;
  var_j1 = 18446744073709551615ull;
  var_j0 += var_j1;
  var_l9 = var_j0;
  var_j0 = var_l3;
  var_j1 = 5ull;
  var_j0 += var_j1;
  var_l3 = var_j0;
  var_i0 = 2u;
  var_l12 = var_i0;
  var_i0 = 1u;
  var_l13 = var_i0;
  goto var_B12;
  var_B16:;
  var_i0 = var_l12;
  var_i1 = 99u;
  var_i0 = var_i0 != var_i1;
  if (var_i0) {goto var_B17;}
  var_i0 = var_l10;
  var_i1 = 97u;
  var_i0 = var_i0 != var_i1;
  if (var_i0) {goto var_B17;}
  var_i0 = var_l8;
  var_i1 = 115u;
  var_i0 = var_i0 != var_i1;
  if (var_i0) {goto var_B17;}
  var_i0 = var_l13;
  var_i1 = 10u;
  var_i0 = var_i0 != var_i1;
  if (var_i0) {goto var_B17;}
  var_j0 = var_l3;
  var_j1 = 4ull;
  var_j0 += var_j1;
  var_l3 = var_j0;
  var_i0 = 3u;
  var_l12 = var_i0;
  var_i0 = 1u;
  var_l13 = var_i0;
  goto var_B12;
  var_B17:;
  var_i0 = var_l12;
  var_i1 = 97u;
  var_i0 = var_i0 != var_i1;
  var_l11 = var_i0;
  if (var_i0) {goto var_B18;}
  var_i0 = var_l10;
  var_i1 = 100u;
  var_i0 = var_i0 != var_i1;
  if (var_i0) {goto var_B18;}
  var_i0 = var_l8;
  var_i1 = 100u;
  var_i0 = var_i0 != var_i1;
  if (var_i0) {goto var_B18;}
  var_i0 = var_l13;
  var_i1 = 10u;
  var_i0 = var_i0 != var_i1;
  if (var_i0) {goto var_B18;}
  var_j0 = var_l3;
  var_j1 = 4ull;
  var_j0 += var_j1;
  var_l3 = var_j0;
  var_i0 = 4u;
  var_l12 = var_i0;
  var_i0 = 1u;
  var_l13 = var_i0;
  goto var_B12;
  var_B18:;
  var_i0 = var_l11;
  var_i1 = var_l10;
  var_i2 = 99u;
  var_i1 = var_i1 != var_i2;
  var_i0 |= var_i1;
  var_i1 = var_l8;
  var_i2 = 113u;
  var_i1 = var_i1 != var_i2;
  var_i2 = var_l13;
  var_i3 = 117u;
  var_i2 = var_i2 != var_i3;
  var_i1 |= var_i2;
  var_i0 |= var_i1;
  var_l11 = var_i0;
  if (var_i0) {goto var_B19;}
  var_j0 = 0ull;
  var_j1 = var_l9;
  var_i2 = var_l11;
  var_j0 = var_i2 ? var_j0 : var_j1;
  var_l15 = var_j0;
  var_j1 = 4ull;
  var_i0 = var_j0 < var_j1;
  if (var_i0) {goto var_B19;}
  var_j0 = var_l3;
  var_j1 = 4ull;
  var_j0 += var_j1;
  var_i0 = i32_load8_u(origin, (u64)(var_j0));
  var_i1 = 105u;
  var_i0 = var_i0 != var_i1;
  if (var_i0) {goto var_B19;}
  var_j0 = var_l3;
  var_j1 = 5ull;
  var_j0 += var_j1;
  var_i0 = i32_load8_u(origin, (u64)(var_j0));
  var_i1 = 255u;
  var_i0 &= var_i1;
  var_i1 = 114u;
  var_i0 = var_i0 != var_i1;
  if (var_i0) {goto var_B19;}
  var_j0 = var_l3;
  var_j1 = 6ull;
  var_j0 += var_j1;
  var_i0 = i32_load8_u(origin, (u64)(var_j0));
  var_i1 = 255u;
  var_i0 &= var_i1;
  var_i1 = 101u;
  var_i0 = var_i0 != var_i1;
  if (var_i0) {goto var_B19;}
  var_j0 = var_l3;
  var_j1 = 7ull;
  var_j0 += var_j1;
  var_i0 = i32_load8_u(origin, (u64)(var_j0));
  var_i1 = 255u;
  var_i0 &= var_i1;
  var_i1 = 10u;
  var_i0 = var_i0 != var_i1;
  if (var_i0) {goto var_B19;}
  var_j0 = var_l15;
  var_j1 = 18446744073709551612ull;
  var_j0 += var_j1;
  var_l9 = var_j0;
  var_j0 = var_l3;
  var_j1 = 8ull;
  var_j0 += var_j1;
  var_l3 = var_j0;
  var_i0 = 0u;
  var_l13 = var_i0;
  var_i0 = 0u;
  var_l12 = var_i0;
  goto var_B12;
  var_B19:;
  var_i0 = var_l12;
  var_i1 = 114u;
  var_i0 = var_i0 != var_i1;
  var_l11 = var_i0;
  var_i1 = var_l10;
  var_i2 = 101u;
  var_i1 = var_i1 != var_i2;
  var_i2 = var_l8;
  var_i3 = 108u;
  var_i2 = var_i2 != var_i3;
  var_i3 = var_l13;
  var_i4 = 101u;
  var_i3 = var_i3 != var_i4;
  var_i2 |= var_i3;
  var_i1 |= var_i2;
  var_i0 |= var_i1;
  var_l14 = var_i0;
  if (var_i0) {goto var_B21;}
  var_j0 = 0ull;
  var_j1 = var_l9;
  var_i2 = var_l14;
  var_j0 = var_i2 ? var_j0 : var_j1;
  var_l15 = var_j0;
  var_j1 = 4ull;
  var_i0 = var_j0 < var_j1;
  if (var_i0) {goto var_B21;}
  var_j0 = var_l3;
  var_j1 = 4ull;
  var_j0 += var_j1;
  var_i0 = i32_load8_u(origin, (u64)(var_j0));
  var_i1 = 97u;
  var_i0 = var_i0 != var_i1;
  if (var_i0) {goto var_B21;}
  var_j0 = var_l3;
  var_j1 = 5ull;
  var_j0 += var_j1;
  var_i0 = i32_load8_u(origin, (u64)(var_j0));
  var_i1 = 255u;
  var_i0 &= var_i1;
  var_i1 = 115u;
  var_i0 = var_i0 != var_i1;
  if (var_i0) {goto var_B21;}
  var_j0 = var_l3;
  var_j1 = 6ull;
  var_j0 += var_j1;
  var_i0 = i32_load8_u(origin, (u64)(var_j0));
  var_i1 = 255u;
  var_i0 &= var_i1;
  var_i1 = 101u;
  var_i0 = var_i0 != var_i1;
  if (var_i0) {goto var_B21;}
  var_j0 = var_l3;
  var_j1 = 7ull;
  var_j0 += var_j1;
  var_i0 = i32_load8_u(origin, (u64)(var_j0));
  var_i1 = 255u;
  var_i0 &= var_i1;
  var_i1 = 10u;
  var_i0 = var_i0 != var_i1;
  if (var_i0) {goto var_B21;}
  var_j0 = var_l15;
  var_j1 = 18446744073709551612ull;
  var_j0 += var_j1;
  var_l9 = var_j0;
  var_j0 = var_l3;
  var_j1 = 8ull;
  var_j0 += var_j1;
  var_l3 = var_j0;
  var_i0 = 1u;
  var_l12 = var_i0;
  goto var_B20;
  var_B21:;
  var_i0 = var_l11;
  var_i1 = var_l10;
  var_i2 = 108u;
  var_i1 = var_i1 != var_i2;
  var_i0 |= var_i1;
  var_i1 = var_l8;
  var_i2 = 111u;
  var_i1 = var_i1 != var_i2;
  var_i2 = var_l13;
  var_i3 = 99u;
  var_i2 = var_i2 != var_i3;
  var_i1 |= var_i2;
  var_l14 = var_i1;
  var_i0 |= var_i1;
  var_l11 = var_i0;
  if (var_i0) {goto var_B22;}
  var_j0 = 0ull;
  var_j1 = var_l9;
  var_i2 = var_l11;
  var_j0 = var_i2 ? var_j0 : var_j1;
  var_l15 = var_j0;
  var_j1 = 2ull;
  var_i0 = var_j0 < var_j1;
  if (var_i0) {goto var_B22;}
  var_j0 = var_l3;
  var_j1 = 4ull;
  var_j0 += var_j1;
  var_i0 = i32_load8_u(origin, (u64)(var_j0));
  var_i1 = 107u;
  var_i0 = var_i0 != var_i1;
  if (var_i0) {goto var_B22;}
  var_j0 = var_l3;
  var_j1 = 5ull;
  var_j0 += var_j1;
  var_i0 = i32_load8_u(origin, (u64)(var_j0));
  var_i1 = 255u;
  var_i0 &= var_i1;
  var_i1 = 10u;
  var_i0 = var_i0 != var_i1;
  if (var_i0) {goto var_B22;}
  var_j0 = var_l15;
  var_j1 = 18446744073709551614ull;
  var_j0 += var_j1;
  var_l9 = var_j0;
  var_j0 = var_l3;
  var_j1 = 6ull;
  var_j0 += var_j1;
  var_l3 = var_j0;
  var_i0 = 2u;
  var_l12 = var_i0;
  goto var_B20;
  var_B22:;
  var_i0 = var_l12;
  var_i1 = 114u;
  var_i0 = var_i0 != var_i1;
  var_i1 = var_l10;
  var_i2 = 117u;
  var_i1 = var_i1 != var_i2;
  var_i0 |= var_i1;
  var_i1 = var_l8;
  var_i2 = 110u;
  var_i1 = var_i1 != var_i2;
  var_i2 = var_l13;
  var_i3 = 108u;
  var_i2 = var_i2 != var_i3;
  var_i1 |= var_i2;
  var_l13 = var_i1;
  var_i0 |= var_i1;
  var_l8 = var_i0;
  if (var_i0) {goto var_B24;}
  var_j0 = 0ull;
  var_j1 = var_l9;
  var_i2 = var_l8;
  var_j0 = var_i2 ? var_j0 : var_j1;
  var_l15 = var_j0;
  var_j1 = 4ull;
  var_i0 = var_j0 < var_j1;
  if (var_i0) {goto var_B24;}
  var_j0 = var_l3;
  var_j1 = 4ull;
  var_j0 += var_j1;
  var_i0 = i32_load8_u(origin, (u64)(var_j0));
  var_i1 = 111u;
  var_i0 = var_i0 != var_i1;
  if (var_i0) {goto var_B23;}
  var_j0 = var_l3;
  var_j1 = 5ull;
  var_j0 += var_j1;
  var_i0 = i32_load8_u(origin, (u64)(var_j0));
  var_i1 = 255u;
  var_i0 &= var_i1;
  var_i1 = 99u;
  var_i0 = var_i0 != var_i1;
  if (var_i0) {goto var_B23;}
  var_j0 = var_l3;
  var_j1 = 6ull;
  var_j0 += var_j1;
  var_i0 = i32_load8_u(origin, (u64)(var_j0));
  var_i1 = 255u;
  var_i0 &= var_i1;
  var_i1 = 107u;
  var_i0 = var_i0 != var_i1;
  if (var_i0) {goto var_B23;}
  var_j0 = var_l3;
  var_j1 = 7ull;
  var_j0 += var_j1;
  var_i0 = i32_load8_u(origin, (u64)(var_j0));
  var_i1 = 255u;
  var_i0 &= var_i1;
  var_i1 = 10u;
  var_i0 = var_i0 != var_i1;
  if (var_i0) {goto var_B23;}
  var_j0 = var_l15;
  var_j1 = 18446744073709551612ull;
  var_j0 += var_j1;
  var_l9 = var_j0;
  var_j0 = var_l3;
  var_j1 = 8ull;
  var_j0 += var_j1;
  var_l3 = var_j0;
  var_i0 = 3u;
  var_l12 = var_i0;
  goto var_B20;
  var_B24:;
  var_i0 = var_l12;
  var_i1 = 119u;
  var_i0 = var_i0 != var_i1;
  var_l12 = var_i0;
  var_i1 = var_l10;
  var_i2 = 108u;
  var_i1 = var_i1 != var_i2;
  var_i0 |= var_i1;
  var_i1 = var_l14;
  var_i0 |= var_i1;
  var_l8 = var_i0;
  if (var_i0) {goto var_B25;}
  var_j0 = 0ull;
  var_j1 = var_l9;
  var_i2 = var_l8;
  var_j0 = var_i2 ? var_j0 : var_j1;
  var_l15 = var_j0;
  var_j1 = 2ull;
  var_i0 = var_j0 < var_j1;
  if (var_i0) {goto var_B25;}
  var_j0 = var_l3;
  var_j1 = 4ull;
  var_j0 += var_j1;
  var_i0 = i32_load8_u(origin, (u64)(var_j0));
  var_i1 = 107u;
  var_i0 = var_i0 != var_i1;
  if (var_i0) {goto var_B23;}
  var_j0 = var_l3;
  var_j1 = 5ull;
  var_j0 += var_j1;
  var_i0 = i32_load8_u(origin, (u64)(var_j0));
  var_i1 = 255u;
  var_i0 &= var_i1;
  var_i1 = 10u;
  var_i0 = var_i0 != var_i1;
  if (var_i0) {goto var_B23;}
  var_j0 = var_l15;
  var_j1 = 18446744073709551614ull;
  var_j0 += var_j1;
  var_l9 = var_j0;
  var_j0 = var_l3;
  var_j1 = 6ull;
  var_j0 += var_j1;
  var_l3 = var_j0;
  var_i0 = 4u;
  var_l12 = var_i0;
  goto var_B20;
  var_B25:;
  var_i0 = var_l12;
  var_i1 = var_l10;
  var_i2 = 117u;
  var_i1 = var_i1 != var_i2;
  var_i0 |= var_i1;
  var_i1 = var_l13;
  var_i0 |= var_i1;
  var_l8 = var_i0;
  if (var_i0) {goto var_B23;}
  var_j0 = 0ull;
  var_j1 = var_l9;
  var_i2 = var_l8;
  var_j0 = var_i2 ? var_j0 : var_j1;
  var_l15 = var_j0;
  var_j1 = 4ull;
  var_i0 = var_j0 < var_j1;
  if (var_i0) {goto var_B23;}
  var_j0 = var_l3;
  var_j1 = 4ull;
  var_j0 += var_j1;
  var_j1 = 4ull;
  var_j2 = 1057686ull;
  var_j3 = 4ull;
  var_i0 = w2c_lockreplay_core0x3A0x3Acmp0x3A0x3Aslices0x3A0x3Aparts_equal0x3A0x3A0x3Ci80x2C310x27core0x3A0x3Acmp0x3A0x3Anumbers0x3A0x3AU8PartialEq0x7B0x7D0x3E(instance, var_j0, var_j1, var_j2, var_j3);
  var_i0 = !(var_i0);
  if (var_i0) {goto var_B23;}
  var_j0 = var_l15;
  var_j1 = 18446744073709551612ull;
  var_j0 += var_j1;
  var_l9 = var_j0;
  var_j0 = var_l3;
  var_j1 = 8ull;
  var_j0 += var_j1;
  var_l3 = var_j0;
  var_i0 = 5u;
  var_l12 = var_i0;
  goto var_B20;
  var_B23:;
  var_j0 = var_l4;
  var_j1 = 0ull;
  i64_store(origin, (u64)(var_j0) + 24, var_j1);
  var_j0 = var_l4;
  var_j1 = 0ull;
  i64_store(origin, (u64)(var_j0) + 16, var_j1);
  var_j0 = var_l4;
  var_j1 = 0ull;
  i64_store(origin, (u64)(var_j0) + 8, var_j1);
  var_j0 = var_l3;
  var_j1 = 4ull;
  var_j2 = 1057690ull;
  var_j3 = 4ull;
  var_i0 = w2c_lockreplay_core0x3A0x3Acmp0x3A0x3Aslices0x3A0x3Aparts_equal0x3A0x3A0x3Ci80x2C310x27core0x3A0x3Acmp0x3A0x3Anumbers0x3A0x3AU8PartialEq0x7B0x7D0x3E(instance, var_j0, var_j1, var_j2, var_j3);
  var_i0 = !(var_i0);
  if (var_i0) {goto var_B9;}
  var_j0 = var_l4;
  var_j1 = 8ull;
  var_j0 += var_j1;
  var_j1 = var_l3;
  var_j2 = 4ull;
  var_j1 += var_j2;
  var_j2 = var_l9;
  var_j3 = 1057694ull;
  var_j4 = 6ull;
  w2c_lockreplay_core0x3A0x3Aslice0x3A0x3Aparts0x3A0x3Aslice0x2BT0x3A0x3Astrip_prefix0x3A0x3A0x3Ci80x2C310x27core0x3A0x3Acmp0x3A0x3Anumbers0x3A0x3AU8PartialEq0x7B0x7D0x3E(instance, var_j0, var_j1, var_j2, var_j3, var_j4);
  var_j0 = var_l4;
  var_i0 = i32_load8_u(origin, (u64)(var_j0) + 8u);
  var_i1 = 1u;
  var_i0 = var_i0 != var_i1;
  if (var_i0) {goto var_B8;}
  var_j0 = var_l4;
  var_j0 = i64_load(origin, (u64)(var_j0) + 24u);
  var_l9 = var_j0;
  var_j0 = var_l4;
  var_j0 = i64_load(origin, (u64)(var_j0) + 16u);
  var_l3 = var_j0;
  var_i0 = 6u;
  var_l12 = var_i0;
  var_B20:;
  var_i0 = 0u;
  var_l13 = var_i0;
  var_B12:;
  var_j0 = var_p1;
  var_j1 = var_l9;
  i64_store(origin, (u64)(var_j0) + 8, var_j1);
  var_j0 = var_p1;
  var_j1 = var_l3;
  i64_store(origin, (u64)(var_j0), var_j1);
  var_j0 = var_p1;
  var_j1 = 16ull;
  var_j0 += var_j1;
  var_l3 = var_j0;
  var_j1 = var_l3;
  var_i1 = i32_load(origin, (u64)(var_j1));
  var_l8 = var_i1;
  var_i2 = 1u;
  var_i1 += var_i2;
  i32_store(origin, (u64)(var_j0), var_i1);
  goto var_B3;
  var_B9:;
  var_j0 = var_p1;
  var_j1 = 16ull;
  var_j0 += var_j1;
  var_i0 = i32_load(origin, (u64)(var_j0));
  var_l8 = var_i0;
  goto var_B6;
  var_B8:;
  var_j0 = var_p1;
  var_j0 = i64_load(origin, (u64)(var_j0));
  var_l5 = var_j0;
  var_j0 = var_p1;
  var_j0 = i64_load(origin, (u64)(var_j0) + 8u);
  var_l6 = var_j0;
  var_B7:;
  var_j0 = var_p1;
  var_j1 = 16ull;
  var_j0 += var_j1;
  var_i0 = i32_load(origin, (u64)(var_j0));
  var_l8 = var_i0;
  var_j0 = var_l6;
  var_i0 = !(var_j0);
  if (var_i0) {goto var_B5;}
  var_B6:;
  var_L26:
    var_j0 = var_l5;
    var_l9 = var_j0;
    var_j0 = 0ull;
    var_l3 = var_j0;
    var_L30:
      var_j0 = var_l9;
      var_j1 = var_l3;
      var_j0 += var_j1;
      var_l5 = var_j0;
      var_i0 = i32_load8_u(origin, (u64)(var_j0));
      var_i1 = 10u;
      var_i0 = var_i0 == var_i1;
      if (var_i0) {goto var_B29;}
      var_j0 = var_l6;
      var_j1 = var_l3;
      var_j2 = 1ull;
      var_j1 += var_j2;
      var_l3 = var_j1;
      var_i0 = var_j0 != var_j1;
      if (var_i0) {goto var_L30;}
    var_j0 = 1058584ull;
    var_l5 = var_j0;
    var_j0 = 0ull;
    var_l15 = var_j0;
    var_j0 = var_l6;
    var_l3 = var_j0;
    goto var_B28;
    var_B29:;
    var_j0 = var_l5;
    var_j1 = 1ull;
    var_j0 += var_j1;
    var_l5 = var_j0;
    var_j0 = var_l3;
    var_j1 = 18446744073709551615ull;
    var_j0 ^= var_j1;
    var_j1 = var_l6;
    var_j0 += var_j1;
    var_l15 = var_j0;
    var_l6 = var_j0;
    var_j0 = var_l3;
    var_i0 = !(var_j0);
    if (var_i0) {goto var_B27;}
    var_B28:;
    var_j0 = var_l9;
    var_i0 = i32_load8_u(origin, (u64)(var_j0));
    var_i1 = 35u;
    var_i0 = var_i0 != var_i1;
    if (var_i0) {goto var_B4;}
    var_j0 = var_l15;
    var_l6 = var_j0;
    var_B27:;
    var_i0 = var_l8;
    var_i1 = 1u;
    var_i0 += var_i1;
    var_l8 = var_i0;
    var_j0 = var_l6;
    var_i0 = !(var_j0);
    var_i0 = !(var_i0);
    if (var_i0) {goto var_L26;}
  var_B5:;
  var_j0 = var_p1;
  var_j1 = 0ull;
  i64_store(origin, (u64)(var_j0) + 8, var_j1);
  var_j0 = var_p1;
  var_j1 = var_l5;
  i64_store(origin, (u64)(var_j0), var_j1);
  var_j0 = var_p1;
  var_j1 = 16ull;
  var_j0 += var_j1;
  var_i1 = var_l8;
  i32_store(origin, (u64)(var_j0), var_i1);
  var_j0 = var_p0;
  var_j1 = 0ull;
  i64_store(origin, (u64)(var_j0) + 7, var_j1);
  var_j0 = var_p0;
  var_j1 = 0ull;
  i64_store(origin, (u64)(var_j0), var_j1);
  goto var_B0;
  var_B4:;
  var_j0 = var_p1;
  var_j1 = var_l15;
  i64_store(origin, (u64)(var_j0) + 8, var_j1);
  var_j0 = var_p1;
  var_j1 = var_l5;
  i64_store(origin, (u64)(var_j0), var_j1);
  var_j0 = var_p1;
  var_j1 = 16ull;
  var_j0 += var_j1;
  var_i1 = var_l8;
  var_i2 = 1u;
  var_i1 += var_i2;
  i32_store(origin, (u64)(var_j0), var_i1);
  var_j0 = var_l4;
  var_i1 = 0u;
  i32_store8(origin, (u64)(var_j0) + 10, var_i1);
  var_j0 = var_l4;
  var_i1 = 0u;
  i32_store16(origin, (u64)(var_j0) + 8, var_i1);
  var_j0 = 0ull;
  var_l6 = var_j0;
  var_L32:
    var_j0 = var_l9;
    var_j1 = var_l6;
    var_j0 += var_j1;
    var_l5 = var_j0;
    var_i0 = i32_load8_u(origin, (u64)(var_j0));
    var_i1 = 32u;
    var_i0 = var_i0 == var_i1;
    if (var_i0) {goto var_B31;}
    var_j0 = var_l3;
    var_j1 = var_l6;
    var_j2 = 1ull;
    var_j1 += var_j2;
    var_l6 = var_j1;
    var_i0 = var_j0 != var_j1;
    if (var_i0) {goto var_L32;}
    goto var_B1;
  var_B31:;
  var_j0 = var_l6;
  var_j1 = 1ull;
  var_i0 = var_j0 > var_j1;
  if (var_i0) {goto var_B34;}
  var_j0 = var_l6;
  var_i0 = (u32)(var_j0);
  switch (var_i0) {
    case 0: goto var_B1;
    case 1: goto var_B33;
    default: goto var_B1;
  }
  var_B34:;
  var_j0 = var_l9;
  var_i0 = i32_load8_u(origin, (u64)(var_j0));
  var_i1 = 48u;
  var_i0 = var_i0 == var_i1;
  if (var_i0) {goto var_B1;}
  var_B33:;
  var_j0 = var_l6;
  var_j1 = 18446744073709551615ull;
  var_j0 ^= var_j1;
  var_j1 = var_l3;
  var_j0 += var_j1;
  var_p1 = var_j0;
  var_j0 = var_l5;
  var_j1 = 1ull;
  var_j0 += var_j1;
  var_l16 = var_j0;
  var_j0 = 0ull;
  var_l3 = var_j0;
  var_j0 = 0ull;
  var_l5 = var_j0;
  var_L35:
    var_j0 = var_l3;
    var_j1 = 1844674407370955161ull;
    var_i0 = var_j0 > var_j1;
    if (var_i0) {goto var_B1;}
    var_j0 = var_l9;
    var_j1 = var_l5;
    var_j0 += var_j1;
    var_i0 = i32_load8_u(origin, (u64)(var_j0));
    var_i1 = 4294967248u;
    var_i0 += var_i1;
    var_l7 = var_i0;
    var_i1 = 255u;
    var_i0 &= var_i1;
    var_i1 = 9u;
    var_i0 = var_i0 > var_i1;
    if (var_i0) {goto var_B1;}
    var_j0 = var_l3;
    var_j1 = 10ull;
    var_j0 *= var_j1;
    var_l3 = var_j0;
    var_i1 = var_l7;
    var_j1 = (u64)(var_i1);
    var_j2 = 255ull;
    var_j1 &= var_j2;
    var_l15 = var_j1;
    var_j2 = 18446744073709551615ull;
    var_j1 ^= var_j2;
    var_i0 = var_j0 > var_j1;
    if (var_i0) {goto var_B1;}
    var_j0 = var_l3;
    var_j1 = var_l15;
    var_j0 += var_j1;
    var_l3 = var_j0;
    var_j0 = var_l6;
    var_j1 = var_l5;
    var_j2 = 1ull;
    var_j1 += var_j2;
    var_l5 = var_j1;
    var_i0 = var_j0 != var_j1;
    if (var_i0) {goto var_L35;}
  var_j0 = var_l3;
  var_j1 = 255ull;
  var_i0 = var_j0 > var_j1;
  if (var_i0) {goto var_B1;}
  var_j0 = var_l4;
  var_j1 = 8ull;
  var_j0 += var_j1;
  var_j1 = var_l16;
  var_j2 = var_p1;
  w2c_lockreplay_lk_lines0x3A0x3Avocabulary0x3A0x3Amove_named(instance, var_j0, var_j1, var_j2);
  var_j0 = var_l4;
  var_i0 = i32_load8_u(origin, (u64)(var_j0) + 8u);
  var_i1 = 1u;
  var_i0 = var_i0 != var_i1;
  if (var_i0) {goto var_B1;}
  var_j0 = var_l3;
  var_j1 = 256ull;
  var_j2 = var_l3;
  var_j3 = 256ull;
  var_i2 = var_j2 < var_j3;
  var_j0 = var_i2 ? var_j0 : var_j1;
  var_i0 = (u32)(var_j0);
  var_l7 = var_i0;
  var_j0 = var_l4;
  var_i0 = i32_load8_u(origin, (u64)(var_j0) + 9u);
  var_l13 = var_i0;
  var_j0 = var_l4;
  var_i0 = i32_load8_u(origin, (u64)(var_j0) + 10u);
  var_l12 = var_i0;
  var_B3:;
  var_j0 = var_p2;
  var_j1 = 65536ull;
  var_i0 = var_j0 != var_j1;
  if (var_i0) {goto var_B36;}
  var_j0 = var_p0;
  var_j1 = 21474836481ull;
  i64_store(origin, (u64)(var_j0), var_j1);
  var_j0 = var_p0;
  var_j1 = 14ull;
  var_j0 += var_j1;
  var_i1 = 0u;
  i32_store8(origin, (u64)(var_j0), var_i1);
  var_j0 = var_p0;
  var_j1 = 12ull;
  var_j0 += var_j1;
  var_i1 = 0u;
  i32_store16(origin, (u64)(var_j0), var_i1);
  var_j0 = var_p0;
  var_j1 = 8ull;
  var_j0 += var_j1;
  var_i1 = var_l8;
  i32_store(origin, (u64)(var_j0), var_i1);
  goto var_B0;
  var_B36:;
  var_j0 = var_p0;
  var_j1 = 4294967296ull;
  i64_store(origin, (u64)(var_j0), var_j1);
  var_j0 = var_p0;
  var_j1 = 14ull;
  var_j0 += var_j1;
  var_i1 = var_l12;
  i32_store8(origin, (u64)(var_j0), var_i1);
  var_j0 = var_p0;
  var_j1 = 13ull;
  var_j0 += var_j1;
  var_i1 = var_l13;
  i32_store8(origin, (u64)(var_j0), var_i1);
  var_j0 = var_p0;
  var_j1 = 12ull;
  var_j0 += var_j1;
  var_i1 = var_l7;
  i32_store8(origin, (u64)(var_j0), var_i1);
  var_j0 = var_p0;
  var_j1 = 8ull;
  var_j0 += var_j1;
  var_i1 = var_l8;
  i32_store(origin, (u64)(var_j0), var_i1);
  goto var_B0;
  var_B2:;
  UNREACHABLE;
  var_B1:;
  var_j0 = var_p0;
  var_j1 = 17179869185ull;
  i64_store(origin, (u64)(var_j0), var_j1);
  var_j0 = var_p0;
  var_j1 = 14ull;
  var_j0 += var_j1;
  var_i1 = 0u;
  i32_store8(origin, (u64)(var_j0), var_i1);
  var_j0 = var_p0;
  var_j1 = 12ull;
  var_j0 += var_j1;
  var_i1 = 0u;
  i32_store16(origin, (u64)(var_j0), var_i1);
  var_j0 = var_p0;
  var_j1 = 8ull;
  var_j0 += var_j1;
  var_i1 = var_l8;
  i32_store(origin, (u64)(var_j0), var_i1);
  var_B0:;
  var_j0 = var_l4;
  var_j1 = 32ull;
  var_j0 += var_j1;
  instance->w2c_0x5F_stack_pointer = var_j0;
  FUNC_EPILOGUE;
}

static u32 w2c_lockreplay_core0x3A0x3Acmp0x3A0x3Aslices0x3A0x3Agroups_equal0x3A0x3A0x3Ci80x2C310x27core0x3A0x3Acmp0x3A0x3Anumbers0x3A0x3AU8PartialEq0x7B0x7D0x3E(w2c_lockreplay* instance, u64 var_p0, u64 var_p1, u64 var_p2) {
  u32 var_l4 = 0;
  u64 var_l3 = 0, var_l5 = 0, var_l6 = 0, var_l7 = 0, var_l8 = 0, var_l9 = 0, var_l10 = 0;
  FUNC_PROLOGUE;
  u32 var_i0, var_i1, var_i2, var_i3, var_i4, var_i5, var_i6;
  u64 var_j0, var_j1, var_j2, var_j3, var_j4, var_j5, var_j6, var_j7;
  var_j0 = instance->w2c_0x5F_stack_pointer;
  var_j1 = 16ull;
  var_i0 = (u64)((s64)var_j0 < (s64)var_j1);
  if (var_i0) {goto var_B2;}
  var_j0 = var_p1;
  var_j1 = 8ull;
  var_i0 = var_j0 > var_j1;
  if (var_i0) {goto var_B3;}
  var_j0 = var_p0;
  var_i0 = i32_load8_u(origin, (u64)(var_j0));
  var_j1 = var_p2;
  var_i1 = i32_load8_u(origin, (u64)(var_j1));
  var_i0 = var_i0 != var_i1;
  var_j1 = var_p0;
  var_j2 = 1ull;
  var_j1 += var_j2;
  var_i1 = i32_load8_u(origin, (u64)(var_j1));
  var_j2 = var_p2;
  var_j3 = 1ull;
  var_j2 += var_j3;
  var_i2 = i32_load8_u(origin, (u64)(var_j2));
  var_i1 = var_i1 != var_i2;
  var_i0 |= var_i1;
  var_j1 = var_p0;
  var_j2 = 2ull;
  var_j1 += var_j2;
  var_i1 = i32_load8_u(origin, (u64)(var_j1));
  var_j2 = var_p2;
  var_j3 = 2ull;
  var_j2 += var_j3;
  var_i2 = i32_load8_u(origin, (u64)(var_j2));
  var_i1 = var_i1 != var_i2;
  var_i0 |= var_i1;
  var_j1 = var_p0;
  var_j2 = 3ull;
  var_j1 += var_j2;
  var_i1 = i32_load8_u(origin, (u64)(var_j1));
  var_j2 = var_p2;
  var_j3 = 3ull;
  var_j2 += var_j3;
  var_i2 = i32_load8_u(origin, (u64)(var_j2));
  var_i1 = var_i1 != var_i2;
  var_i0 |= var_i1;
  var_j1 = var_p0;
  var_j2 = var_p1;
  var_j3 = 18446744073709551612ull;
  var_j2 += var_j3;
  var_l3 = var_j2;
  var_j1 += var_j2;
  var_i1 = i32_load8_u(origin, (u64)(var_j1));
  var_j2 = var_p2;
  var_j3 = var_l3;
  var_j2 += var_j3;
  var_i2 = i32_load8_u(origin, (u64)(var_j2));
  var_i1 = var_i1 != var_i2;
  var_j2 = var_p0;
  var_j3 = var_p1;
  var_j4 = 18446744073709551613ull;
  var_j3 += var_j4;
  var_l3 = var_j3;
  var_j2 += var_j3;
  var_i2 = i32_load8_u(origin, (u64)(var_j2));
  var_j3 = var_p2;
  var_j4 = var_l3;
  var_j3 += var_j4;
  var_i3 = i32_load8_u(origin, (u64)(var_j3));
  var_i2 = var_i2 != var_i3;
  var_i1 |= var_i2;
  var_j2 = var_p0;
  var_j3 = var_p1;
  var_j4 = 18446744073709551614ull;
  var_j3 += var_j4;
  var_l3 = var_j3;
  var_j2 += var_j3;
  var_i2 = i32_load8_u(origin, (u64)(var_j2));
  var_j3 = var_p2;
  var_j4 = var_l3;
  var_j3 += var_j4;
  var_i3 = i32_load8_u(origin, (u64)(var_j3));
  var_i2 = var_i2 != var_i3;
  var_i1 |= var_i2;
  var_j2 = var_p0;
  var_j3 = var_p1;
  var_j4 = 18446744073709551615ull;
  var_j3 += var_j4;
  var_l3 = var_j3;
  var_j2 += var_j3;
  var_i2 = i32_load8_u(origin, (u64)(var_j2));
  var_j3 = var_p2;
  var_j4 = var_l3;
  var_j3 += var_j4;
  var_i3 = i32_load8_u(origin, (u64)(var_j3));
  var_i2 = var_i2 != var_i3;
  var_i1 |= var_i2;
  var_i0 |= var_i1;
  var_l4 = var_i0;
  goto var_B0;
  var_B3:;
  var_j0 = var_p1;
  var_j1 = 32ull;
  var_i0 = var_j0 > var_j1;
  if (var_i0) {goto var_B4;}
  var_j0 = var_p0;
  var_j1 = var_p1;
  var_j2 = 18446744073709551608ull;
  var_j1 += var_j2;
  var_p1 = var_j1;
  var_j2 = 8ull;
  var_j3 = var_p1;
  var_j4 = 8ull;
  var_i3 = var_j3 < var_j4;
  var_j1 = var_i3 ? var_j1 : var_j2;
  var_l5 = var_j1;
  var_j0 += var_j1;
  var_l3 = var_j0;
  var_i0 = i32_load8_u(origin, (u64)(var_j0));
  var_j1 = var_p2;
  var_j2 = var_l5;
  var_j1 += var_j2;
  var_l5 = var_j1;
  var_i1 = i32_load8_u(origin, (u64)(var_j1));
  var_i0 = var_i0 != var_i1;
  var_j1 = var_p0;
  var_j2 = var_p1;
  var_j3 = 16ull;
  var_j4 = var_p1;
  var_j5 = 16ull;
  var_i4 = var_j4 < var_j5;
  var_j2 = var_i4 ? var_j2 : var_j3;
  var_l6 = var_j2;
  var_j1 += var_j2;
  var_l7 = var_j1;
  var_i1 = i32_load8_u(origin, (u64)(var_j1));
  var_j2 = var_p2;
  var_j3 = var_l6;
  var_j2 += var_j3;
  var_l6 = var_j2;
  var_i2 = i32_load8_u(origin, (u64)(var_j2));
  var_i1 = var_i1 != var_i2;
  var_i0 |= var_i1;
  var_j1 = var_p0;
  var_j2 = var_p1;
  var_j1 += var_j2;
  var_l8 = var_j1;
  var_i1 = i32_load8_u(origin, (u64)(var_j1));
  var_j2 = var_p2;
  var_j3 = var_p1;
  var_j2 += var_j3;
  var_p1 = var_j2;
  var_i2 = i32_load8_u(origin, (u64)(var_j2));
  var_i1 = var_i1 != var_i2;
  var_i0 |= var_i1;
  var_j1 = var_l3;
  var_i1 = i32_load8_u(origin, (u64)(var_j1) + 1u);
  var_j2 = var_l5;
  var_i2 = i32_load8_u(origin, (u64)(var_j2) + 1u);
  var_i1 = var_i1 != var_i2;
  var_j2 = var_l7;
  var_i2 = i32_load8_u(origin, (u64)(var_j2) + 1u);
  var_j3 = var_l6;
  var_i3 = i32_load8_u(origin, (u64)(var_j3) + 1u);
  var_i2 = var_i2 != var_i3;
  var_i1 |= var_i2;
  var_j2 = var_l8;
  var_i2 = i32_load8_u(origin, (u64)(var_j2) + 1u);
  var_j3 = var_p1;
  var_i3 = i32_load8_u(origin, (u64)(var_j3) + 1u);
  var_i2 = var_i2 != var_i3;
  var_i1 |= var_i2;
  var_i2 = 1u;
  var_i1 <<= (var_i2 & 31);
  var_i0 |= var_i1;
  var_j1 = var_l3;
  var_i1 = i32_load8_u(origin, (u64)(var_j1) + 3u);
  var_j2 = var_l5;
  var_i2 = i32_load8_u(origin, (u64)(var_j2) + 3u);
  var_i1 = var_i1 != var_i2;
  var_j2 = var_l7;
  var_i2 = i32_load8_u(origin, (u64)(var_j2) + 3u);
  var_j3 = var_l6;
  var_i3 = i32_load8_u(origin, (u64)(var_j3) + 3u);
  var_i2 = var_i2 != var_i3;
  var_i1 |= var_i2;
  var_j2 = var_l8;
  var_i2 = i32_load8_u(origin, (u64)(var_j2) + 3u);
  var_j3 = var_p1;
  var_i3 = i32_load8_u(origin, (u64)(var_j3) + 3u);
  var_i2 = var_i2 != var_i3;
  var_i1 |= var_i2;
  var_i2 = 3u;
  var_i1 <<= (var_i2 & 31);
  var_j2 = var_l3;
  var_i2 = i32_load8_u(origin, (u64)(var_j2) + 2u);
  var_j3 = var_l5;
  var_i3 = i32_load8_u(origin, (u64)(var_j3) + 2u);
  var_i2 = var_i2 != var_i3;
  var_j3 = var_l7;
  var_i3 = i32_load8_u(origin, (u64)(var_j3) + 2u);
  var_j4 = var_l6;
  var_i4 = i32_load8_u(origin, (u64)(var_j4) + 2u);
  var_i3 = var_i3 != var_i4;
  var_i2 |= var_i3;
  var_j3 = var_l8;
  var_i3 = i32_load8_u(origin, (u64)(var_j3) + 2u);
  var_j4 = var_p1;
  var_i4 = i32_load8_u(origin, (u64)(var_j4) + 2u);
  var_i3 = var_i3 != var_i4;
  var_i2 |= var_i3;
  var_i3 = 2u;
  var_i2 <<= (var_i3 & 31);
  var_i1 |= var_i2;
  var_i0 |= var_i1;
  var_j1 = var_l3;
  var_i1 = i32_load8_u(origin, (u64)(var_j1) + 4u);
  var_j2 = var_l5;
  var_i2 = i32_load8_u(origin, (u64)(var_j2) + 4u);
  var_i1 = var_i1 != var_i2;
  var_j2 = var_l7;
  var_i2 = i32_load8_u(origin, (u64)(var_j2) + 4u);
  var_j3 = var_l6;
  var_i3 = i32_load8_u(origin, (u64)(var_j3) + 4u);
  var_i2 = var_i2 != var_i3;
  var_i1 |= var_i2;
  var_j2 = var_l8;
  var_i2 = i32_load8_u(origin, (u64)(var_j2) + 4u);
  var_j3 = var_p1;
  var_i3 = i32_load8_u(origin, (u64)(var_j3) + 4u);
  var_i2 = var_i2 != var_i3;
  var_i1 |= var_i2;
  var_j2 = var_l3;
  var_i2 = i32_load8_u(origin, (u64)(var_j2) + 5u);
  var_j3 = var_l5;
  var_i3 = i32_load8_u(origin, (u64)(var_j3) + 5u);
  var_i2 = var_i2 != var_i3;
  var_j3 = var_l7;
  var_i3 = i32_load8_u(origin, (u64)(var_j3) + 5u);
  var_j4 = var_l6;
  var_i4 = i32_load8_u(origin, (u64)(var_j4) + 5u);
  var_i3 = var_i3 != var_i4;
  var_i2 |= var_i3;
  var_j3 = var_l8;
  var_i3 = i32_load8_u(origin, (u64)(var_j3) + 5u);
  var_j4 = var_p1;
  var_i4 = i32_load8_u(origin, (u64)(var_j4) + 5u);
  var_i3 = var_i3 != var_i4;
  var_i2 |= var_i3;
  var_i3 = 1u;
  var_i2 <<= (var_i3 & 31);
  var_i1 |= var_i2;
  var_j2 = var_l3;
  var_i2 = i32_load8_u(origin, (u64)(var_j2) + 7u);
  var_j3 = var_l5;
  var_i3 = i32_load8_u(origin, (u64)(var_j3) + 7u);
  var_i2 = var_i2 != var_i3;
  var_j3 = var_l7;
  var_i3 = i32_load8_u(origin, (u64)(var_j3) + 7u);
  var_j4 = var_l6;
  var_i4 = i32_load8_u(origin, (u64)(var_j4) + 7u);
  var_i3 = var_i3 != var_i4;
  var_i2 |= var_i3;
  var_j3 = var_l8;
  var_i3 = i32_load8_u(origin, (u64)(var_j3) + 7u);
  var_j4 = var_p1;
  var_i4 = i32_load8_u(origin, (u64)(var_j4) + 7u);
  var_i3 = var_i3 != var_i4;
  var_i2 |= var_i3;
  var_i3 = 3u;
  var_i2 <<= (var_i3 & 31);
  var_j3 = var_l3;
  var_i3 = i32_load8_u(origin, (u64)(var_j3) + 6u);
  var_j4 = var_l5;
  var_i4 = i32_load8_u(origin, (u64)(var_j4) + 6u);
  var_i3 = var_i3 != var_i4;
  var_j4 = var_l7;
  var_i4 = i32_load8_u(origin, (u64)(var_j4) + 6u);
  var_j5 = var_l6;
  var_i5 = i32_load8_u(origin, (u64)(var_j5) + 6u);
  var_i4 = var_i4 != var_i5;
  var_i3 |= var_i4;
  var_j4 = var_l8;
  var_i4 = i32_load8_u(origin, (u64)(var_j4) + 6u);
  var_j5 = var_p1;
  var_i5 = i32_load8_u(origin, (u64)(var_j5) + 6u);
  var_i4 = var_i4 != var_i5;
  var_i3 |= var_i4;
  var_i4 = 2u;
  var_i3 <<= (var_i4 & 31);
  var_i2 |= var_i3;
  var_i1 |= var_i2;
  var_i2 = 4u;
  var_i1 <<= (var_i2 & 31);
  var_i0 |= var_i1;
  var_i1 = 255u;
  var_i0 &= var_i1;
  var_i1 = 0u;
  var_i0 = var_i0 != var_i1;
  var_j1 = var_p0;
  var_i1 = i32_load8_u(origin, (u64)(var_j1));
  var_j2 = var_p2;
  var_i2 = i32_load8_u(origin, (u64)(var_j2));
  var_i1 = var_i1 != var_i2;
  var_i0 |= var_i1;
  var_j1 = var_p0;
  var_j2 = 1ull;
  var_j1 += var_j2;
  var_i1 = i32_load8_u(origin, (u64)(var_j1));
  var_j2 = var_p2;
  var_j3 = 1ull;
  var_j2 += var_j3;
  var_i2 = i32_load8_u(origin, (u64)(var_j2));
  var_i1 = var_i1 != var_i2;
  var_j2 = var_p0;
  var_j3 = 2ull;
  var_j2 += var_j3;
  var_i2 = i32_load8_u(origin, (u64)(var_j2));
  var_j3 = var_p2;
  var_j4 = 2ull;
  var_j3 += var_j4;
  var_i3 = i32_load8_u(origin, (u64)(var_j3));
  var_i2 = var_i2 != var_i3;
  var_i1 |= var_i2;
  var_i0 |= var_i1;
  var_j1 = var_p0;
  var_j2 = 3ull;
  var_j1 += var_j2;
  var_i1 = i32_load8_u(origin, (u64)(var_j1));
  var_j2 = var_p2;
  var_j3 = 3ull;
  var_j2 += var_j3;
  var_i2 = i32_load8_u(origin, (u64)(var_j2));
  var_i1 = var_i1 != var_i2;
  var_j2 = var_p0;
  var_j3 = 4ull;
  var_j2 += var_j3;
  var_i2 = i32_load8_u(origin, (u64)(var_j2));
  var_j3 = var_p2;
  var_j4 = 4ull;
  var_j3 += var_j4;
  var_i3 = i32_load8_u(origin, (u64)(var_j3));
  var_i2 = var_i2 != var_i3;
  var_i1 |= var_i2;
  var_j2 = var_p0;
  var_j3 = 5ull;
  var_j2 += var_j3;
  var_i2 = i32_load8_u(origin, (u64)(var_j2));
  var_j3 = var_p2;
  var_j4 = 5ull;
  var_j3 += var_j4;
  var_i3 = i32_load8_u(origin, (u64)(var_j3));
  var_i2 = var_i2 != var_i3;
  var_j3 = var_p0;
  var_j4 = 6ull;
  var_j3 += var_j4;
  var_i3 = i32_load8_u(origin, (u64)(var_j3));
  var_j4 = var_p2;
  var_j5 = 6ull;
  var_j4 += var_j5;
  var_i4 = i32_load8_u(origin, (u64)(var_j4));
  var_i3 = var_i3 != var_i4;
  var_i2 |= var_i3;
  var_i1 |= var_i2;
  var_i0 |= var_i1;
  var_j1 = var_p0;
  var_j2 = 7ull;
  var_j1 += var_j2;
  var_i1 = i32_load8_u(origin, (u64)(var_j1));
  var_j2 = var_p2;
  var_j3 = 7ull;
  var_j2 += var_j3;
  var_i2 = i32_load8_u(origin, (u64)(var_j2));
  var_i1 = var_i1 != var_i2;
  var_i0 |= var_i1;
  var_l4 = var_i0;
  goto var_B0;
  var_B4:;
  var_j0 = var_p1;
  var_j1 = 65ull;
  var_i0 = var_j0 < var_j1;
  if (var_i0) {goto var_B1;}
  var_j0 = var_p1;
  var_j1 = 18446744073709551552ull;
  var_j0 &= var_j1;
  var_l9 = var_j0;
  var_j0 = 0ull;
  var_l10 = var_j0;
  var_j0 = var_p0;
  var_l6 = var_j0;
  var_j0 = var_p2;
  var_l8 = var_j0;
  var_L6:
    var_i0 = 0u;
    var_l4 = var_i0;
    var_j0 = 0ull;
    var_l3 = var_j0;
    var_L7:
      var_i0 = var_l4;
      var_j1 = var_l6;
      var_j2 = var_l3;
      var_j1 += var_j2;
      var_l5 = var_j1;
      var_i1 = i32_load8_u(origin, (u64)(var_j1));
      var_j2 = var_l8;
      var_j3 = var_l3;
      var_j2 += var_j3;
      var_l7 = var_j2;
      var_i2 = i32_load8_u(origin, (u64)(var_j2));
      var_i1 = var_i1 != var_i2;
      var_i0 |= var_i1;
      var_j1 = var_l5;
      var_j2 = 1ull;
      var_j1 += var_j2;
      var_i1 = i32_load8_u(origin, (u64)(var_j1));
      var_j2 = var_l7;
      var_j3 = 1ull;
      var_j2 += var_j3;
      var_i2 = i32_load8_u(origin, (u64)(var_j2));
      var_i1 = var_i1 != var_i2;
      var_i0 |= var_i1;
      var_l4 = var_i0;
      var_j0 = var_l3;
      var_j1 = 2ull;
      var_j0 += var_j1;
      var_l3 = var_j0;
      var_j1 = 64ull;
      var_i0 = var_j0 != var_j1;
      if (var_i0) {goto var_L7;}
    var_i0 = var_l4;
    var_i1 = 1u;
    var_i0 &= var_i1;
    if (var_i0) {goto var_B5;}
    var_j0 = var_l6;
    var_j1 = 64ull;
    var_j0 += var_j1;
    var_l6 = var_j0;
    var_j0 = var_l8;
    var_j1 = 64ull;
    var_j0 += var_j1;
    var_l8 = var_j0;
    var_j0 = var_p1;
    var_j1 = var_l10;
    var_j2 = 64ull;
    var_j1 += var_j2;
    var_l10 = var_j1;
    var_j0 -= var_j1;
    var_j1 = 63ull;
    var_i0 = var_j0 > var_j1;
    if (var_i0) {goto var_L6;}
  var_j0 = var_l9;
  var_l10 = var_j0;
  var_B5:;
  var_j0 = var_p1;
  var_j1 = var_l10;
  var_j0 -= var_j1;
  var_l7 = var_j0;
  var_j1 = 32ull;
  var_i0 = var_j0 < var_j1;
  if (var_i0) {goto var_B8;}
  var_j0 = var_p2;
  var_j1 = var_l10;
  var_j0 += var_j1;
  var_l3 = var_j0;
  var_j0 = var_p0;
  var_j1 = var_l10;
  var_j0 += var_j1;
  var_l5 = var_j0;
  var_L10:
    var_i0 = 1u;
    var_l4 = var_i0;
    var_j0 = var_l5;
    var_i0 = i32_load8_u(origin, (u64)(var_j0));
    var_j1 = var_l3;
    var_i1 = i32_load8_u(origin, (u64)(var_j1));
    var_i0 = var_i0 != var_i1;
    var_j1 = var_l5;
    var_i1 = i32_load8_u(origin, (u64)(var_j1) + 1u);
    var_j2 = var_l3;
    var_i2 = i32_load8_u(origin, (u64)(var_j2) + 1u);
    var_i1 = var_i1 != var_i2;
    var_i2 = 1u;
    var_i1 <<= (var_i2 & 31);
    var_i0 |= var_i1;
    var_j1 = var_l5;
    var_i1 = i32_load8_u(origin, (u64)(var_j1) + 3u);
    var_j2 = var_l3;
    var_i2 = i32_load8_u(origin, (u64)(var_j2) + 3u);
    var_i1 = var_i1 != var_i2;
    var_i2 = 3u;
    var_i1 <<= (var_i2 & 31);
    var_j2 = var_l5;
    var_i2 = i32_load8_u(origin, (u64)(var_j2) + 2u);
    var_j3 = var_l3;
    var_i3 = i32_load8_u(origin, (u64)(var_j3) + 2u);
    var_i2 = var_i2 != var_i3;
    var_i3 = 2u;
    var_i2 <<= (var_i3 & 31);
    var_i1 |= var_i2;
    var_i0 |= var_i1;
    var_j1 = var_l5;
    var_i1 = i32_load8_u(origin, (u64)(var_j1) + 4u);
    var_j2 = var_l3;
    var_i2 = i32_load8_u(origin, (u64)(var_j2) + 4u);
    var_i1 = var_i1 != var_i2;
    var_j2 = var_l5;
    var_i2 = i32_load8_u(origin, (u64)(var_j2) + 5u);
    var_j3 = var_l3;
    var_i3 = i32_load8_u(origin, (u64)(var_j3) + 5u);
    var_i2 = var_i2 != var_i3;
    var_i3 = 1u;
    var_i2 <<= (var_i3 & 31);
    var_i1 |= var_i2;
    var_j2 = var_l5;
    var_i2 = i32_load8_u(origin, (u64)(var_j2) + 7u);
    var_j3 = var_l3;
    var_i3 = i32_load8_u(origin, (u64)(var_j3) + 7u);
    var_i2 = var_i2 != var_i3;
    var_i3 = 3u;
    var_i2 <<= (var_i3 & 31);
    var_j3 = var_l5;
    var_i3 = i32_load8_u(origin, (u64)(var_j3) + 6u);
    var_j4 = var_l3;
    var_i4 = i32_load8_u(origin, (u64)(var_j4) + 6u);
    var_i3 = var_i3 != var_i4;
    var_i4 = 2u;
    var_i3 <<= (var_i4 & 31);
    var_i2 |= var_i3;
    var_i1 |= var_i2;
    var_i2 = 4u;
    var_i1 <<= (var_i2 & 31);
    var_i0 |= var_i1;
    var_j1 = var_l5;
    var_i1 = i32_load8_u(origin, (u64)(var_j1) + 12u);
    var_j2 = var_l3;
    var_i2 = i32_load8_u(origin, (u64)(var_j2) + 12u);
    var_i1 = var_i1 != var_i2;
    var_j2 = var_l5;
    var_i2 = i32_load8_u(origin, (u64)(var_j2) + 13u);
    var_j3 = var_l3;
    var_i3 = i32_load8_u(origin, (u64)(var_j3) + 13u);
    var_i2 = var_i2 != var_i3;
    var_i3 = 1u;
    var_i2 <<= (var_i3 & 31);
    var_i1 |= var_i2;
    var_j2 = var_l5;
    var_i2 = i32_load8_u(origin, (u64)(var_j2) + 15u);
    var_j3 = var_l3;
    var_i3 = i32_load8_u(origin, (u64)(var_j3) + 15u);
    var_i2 = var_i2 != var_i3;
    var_i3 = 3u;
    var_i2 <<= (var_i3 & 31);
    var_j3 = var_l5;
    var_i3 = i32_load8_u(origin, (u64)(var_j3) + 14u);
    var_j4 = var_l3;
    var_i4 = i32_load8_u(origin, (u64)(var_j4) + 14u);
    var_i3 = var_i3 != var_i4;
    var_i4 = 2u;
    var_i3 <<= (var_i4 & 31);
    var_i2 |= var_i3;
    var_i1 |= var_i2;
    var_i2 = 12u;
    var_i1 <<= (var_i2 & 31);
    var_j2 = var_l5;
    var_i2 = i32_load8_u(origin, (u64)(var_j2) + 8u);
    var_j3 = var_l3;
    var_i3 = i32_load8_u(origin, (u64)(var_j3) + 8u);
    var_i2 = var_i2 != var_i3;
    var_j3 = var_l5;
    var_i3 = i32_load8_u(origin, (u64)(var_j3) + 9u);
    var_j4 = var_l3;
    var_i4 = i32_load8_u(origin, (u64)(var_j4) + 9u);
    var_i3 = var_i3 != var_i4;
    var_i4 = 1u;
    var_i3 <<= (var_i4 & 31);
    var_i2 |= var_i3;
    var_j3 = var_l5;
    var_i3 = i32_load8_u(origin, (u64)(var_j3) + 11u);
    var_j4 = var_l3;
    var_i4 = i32_load8_u(origin, (u64)(var_j4) + 11u);
    var_i3 = var_i3 != var_i4;
    var_i4 = 3u;
    var_i3 <<= (var_i4 & 31);
    var_j4 = var_l5;
    var_i4 = i32_load8_u(origin, (u64)(var_j4) + 10u);
    var_j5 = var_l3;
    var_i5 = i32_load8_u(origin, (u64)(var_j5) + 10u);
    var_i4 = var_i4 != var_i5;
    var_i5 = 2u;
    var_i4 <<= (var_i5 & 31);
    var_i3 |= var_i4;
    var_i2 |= var_i3;
    var_i3 = 8u;
    var_i2 <<= (var_i3 & 31);
    var_i1 |= var_i2;
    var_i0 |= var_i1;
    var_j1 = var_l5;
    var_i1 = i32_load8_u(origin, (u64)(var_j1) + 16u);
    var_j2 = var_l3;
    var_i2 = i32_load8_u(origin, (u64)(var_j2) + 16u);
    var_i1 = var_i1 != var_i2;
    var_j2 = var_l5;
    var_i2 = i32_load8_u(origin, (u64)(var_j2) + 17u);
    var_j3 = var_l3;
    var_i3 = i32_load8_u(origin, (u64)(var_j3) + 17u);
    var_i2 = var_i2 != var_i3;
    var_i3 = 1u;
    var_i2 <<= (var_i3 & 31);
    var_i1 |= var_i2;
    var_j2 = var_l5;
    var_i2 = i32_load8_u(origin, (u64)(var_j2) + 19u);
    var_j3 = var_l3;
    var_i3 = i32_load8_u(origin, (u64)(var_j3) + 19u);
    var_i2 = var_i2 != var_i3;
    var_i3 = 3u;
    var_i2 <<= (var_i3 & 31);
    var_j3 = var_l5;
    var_i3 = i32_load8_u(origin, (u64)(var_j3) + 18u);
    var_j4 = var_l3;
    var_i4 = i32_load8_u(origin, (u64)(var_j4) + 18u);
    var_i3 = var_i3 != var_i4;
    var_i4 = 2u;
    var_i3 <<= (var_i4 & 31);
    var_i2 |= var_i3;
    var_i1 |= var_i2;
    var_j2 = var_l5;
    var_i2 = i32_load8_u(origin, (u64)(var_j2) + 20u);
    var_j3 = var_l3;
    var_i3 = i32_load8_u(origin, (u64)(var_j3) + 20u);
    var_i2 = var_i2 != var_i3;
    var_j3 = var_l5;
    var_i3 = i32_load8_u(origin, (u64)(var_j3) + 21u);
    var_j4 = var_l3;
    var_i4 = i32_load8_u(origin, (u64)(var_j4) + 21u);
    var_i3 = var_i3 != var_i4;
    var_i4 = 1u;
    var_i3 <<= (var_i4 & 31);
    var_i2 |= var_i3;
    var_j3 = var_l5;
    var_i3 = i32_load8_u(origin, (u64)(var_j3) + 23u);
    var_j4 = var_l3;
    var_i4 = i32_load8_u(origin, (u64)(var_j4) + 23u);
    var_i3 = var_i3 != var_i4;
    var_i4 = 3u;
    var_i3 <<= (var_i4 & 31);
    var_j4 = var_l5;
    var_i4 = i32_load8_u(origin, (u64)(var_j4) + 22u);
    var_j5 = var_l3;
    var_i5 = i32_load8_u(origin, (u64)(var_j5) + 22u);
    var_i4 = var_i4 != var_i5;
    var_i5 = 2u;
    var_i4 <<= (var_i5 & 31);
    var_i3 |= var_i4;
    var_i2 |= var_i3;
    var_i3 = 4u;
    var_i2 <<= (var_i3 & 31);
    var_i1 |= var_i2;
    var_j2 = var_l5;
    var_i2 = i32_load8_u(origin, (u64)(var_j2) + 28u);
    var_j3 = var_l3;
    var_i3 = i32_load8_u(origin, (u64)(var_j3) + 28u);
    var_i2 = var_i2 != var_i3;
    var_j3 = var_l5;
    var_i3 = i32_load8_u(origin, (u64)(var_j3) + 29u);
    var_j4 = var_l3;
    var_i4 = i32_load8_u(origin, (u64)(var_j4) + 29u);
    var_i3 = var_i3 != var_i4;
    var_i4 = 1u;
    var_i3 <<= (var_i4 & 31);
    var_i2 |= var_i3;
    var_j3 = var_l5;
    var_i3 = i32_load8_u(origin, (u64)(var_j3) + 31u);
    var_j4 = var_l3;
    var_i4 = i32_load8_u(origin, (u64)(var_j4) + 31u);
    var_i3 = var_i3 != var_i4;
    var_i4 = 3u;
    var_i3 <<= (var_i4 & 31);
    var_j4 = var_l5;
    var_i4 = i32_load8_u(origin, (u64)(var_j4) + 30u);
    var_j5 = var_l3;
    var_i5 = i32_load8_u(origin, (u64)(var_j5) + 30u);
    var_i4 = var_i4 != var_i5;
    var_i5 = 2u;
    var_i4 <<= (var_i5 & 31);
    var_i3 |= var_i4;
    var_i2 |= var_i3;
    var_i3 = 12u;
    var_i2 <<= (var_i3 & 31);
    var_j3 = var_l5;
    var_i3 = i32_load8_u(origin, (u64)(var_j3) + 24u);
    var_j4 = var_l3;
    var_i4 = i32_load8_u(origin, (u64)(var_j4) + 24u);
    var_i3 = var_i3 != var_i4;
    var_j4 = var_l5;
    var_i4 = i32_load8_u(origin, (u64)(var_j4) + 25u);
    var_j5 = var_l3;
    var_i5 = i32_load8_u(origin, (u64)(var_j5) + 25u);
    var_i4 = var_i4 != var_i5;
    var_i5 = 1u;
    var_i4 <<= (var_i5 & 31);
    var_i3 |= var_i4;
    var_j4 = var_l5;
    var_i4 = i32_load8_u(origin, (u64)(var_j4) + 27u);
    var_j5 = var_l3;
    var_i5 = i32_load8_u(origin, (u64)(var_j5) + 27u);
    var_i4 = var_i4 != var_i5;
    var_i5 = 3u;
    var_i4 <<= (var_i5 & 31);
    var_j5 = var_l5;
    var_i5 = i32_load8_u(origin, (u64)(var_j5) + 26u);
    var_j6 = var_l3;
    var_i6 = i32_load8_u(origin, (u64)(var_j6) + 26u);
    var_i5 = var_i5 != var_i6;
    var_i6 = 2u;
    var_i5 <<= (var_i6 & 31);
    var_i4 |= var_i5;
    var_i3 |= var_i4;
    var_i4 = 8u;
    var_i3 <<= (var_i4 & 31);
    var_i2 |= var_i3;
    var_i1 |= var_i2;
    var_i0 |= var_i1;
    var_i1 = 65535u;
    var_i0 &= var_i1;
    if (var_i0) {goto var_B9;}
    var_j0 = var_l3;
    var_j1 = 32ull;
    var_j0 += var_j1;
    var_l3 = var_j0;
    var_j0 = var_l5;
    var_j1 = 32ull;
    var_j0 += var_j1;
    var_l5 = var_j0;
    var_j0 = var_l7;
    var_j1 = 18446744073709551584ull;
    var_j0 += var_j1;
    var_l7 = var_j0;
    var_j1 = 31ull;
    var_i0 = var_j0 > var_j1;
    if (var_i0) {goto var_L10;}
    goto var_B8;
  var_B9:;
  var_j0 = var_l7;
  var_j1 = 31ull;
  var_i0 = var_j0 > var_j1;
  if (var_i0) {goto var_B0;}
  var_B8:;
  var_j0 = var_p0;
  var_j1 = var_p1;
  var_j2 = 18446744073709551584ull;
  var_j1 += var_j2;
  var_l5 = var_j1;
  var_j0 += var_j1;
  var_l3 = var_j0;
  var_i0 = i32_load8_u(origin, (u64)(var_j0));
  var_j1 = var_p2;
  var_j2 = var_l5;
  var_j1 += var_j2;
  var_l5 = var_j1;
  var_i1 = i32_load8_u(origin, (u64)(var_j1));
  var_i0 = var_i0 != var_i1;
  var_j1 = var_l3;
  var_i1 = i32_load8_u(origin, (u64)(var_j1) + 1u);
  var_j2 = var_l5;
  var_i2 = i32_load8_u(origin, (u64)(var_j2) + 1u);
  var_i1 = var_i1 != var_i2;
  var_i2 = 1u;
  var_i1 <<= (var_i2 & 31);
  var_i0 |= var_i1;
  var_j1 = var_l3;
  var_i1 = i32_load8_u(origin, (u64)(var_j1) + 3u);
  var_j2 = var_l5;
  var_i2 = i32_load8_u(origin, (u64)(var_j2) + 3u);
  var_i1 = var_i1 != var_i2;
  var_i2 = 3u;
  var_i1 <<= (var_i2 & 31);
  var_j2 = var_l3;
  var_i2 = i32_load8_u(origin, (u64)(var_j2) + 2u);
  var_j3 = var_l5;
  var_i3 = i32_load8_u(origin, (u64)(var_j3) + 2u);
  var_i2 = var_i2 != var_i3;
  var_i3 = 2u;
  var_i2 <<= (var_i3 & 31);
  var_i1 |= var_i2;
  var_i0 |= var_i1;
  var_j1 = var_l3;
  var_i1 = i32_load8_u(origin, (u64)(var_j1) + 4u);
  var_j2 = var_l5;
  var_i2 = i32_load8_u(origin, (u64)(var_j2) + 4u);
  var_i1 = var_i1 != var_i2;
  var_j2 = var_l3;
  var_i2 = i32_load8_u(origin, (u64)(var_j2) + 5u);
  var_j3 = var_l5;
  var_i3 = i32_load8_u(origin, (u64)(var_j3) + 5u);
  var_i2 = var_i2 != var_i3;
  var_i3 = 1u;
  var_i2 <<= (var_i3 & 31);
  var_i1 |= var_i2;
  var_j2 = var_l3;
  var_i2 = i32_load8_u(origin, (u64)(var_j2) + 7u);
  var_j3 = var_l5;
  var_i3 = i32_load8_u(origin, (u64)(var_j3) + 7u);
  var_i2 = var_i2 != var_i3;
  var_i3 = 3u;
  var_i2 <<= (var_i3 & 31);
  var_j3 = var_l3;
  var_i3 = i32_load8_u(origin, (u64)(var_j3) + 6u);
  var_j4 = var_l5;
  var_i4 = i32_load8_u(origin, (u64)(var_j4) + 6u);
  var_i3 = var_i3 != var_i4;
  var_i4 = 2u;
  var_i3 <<= (var_i4 & 31);
  var_i2 |= var_i3;
  var_i1 |= var_i2;
  var_i2 = 4u;
  var_i1 <<= (var_i2 & 31);
  var_i0 |= var_i1;
  var_j1 = var_l3;
  var_i1 = i32_load8_u(origin, (u64)(var_j1) + 12u);
  var_j2 = var_l5;
  var_i2 = i32_load8_u(origin, (u64)(var_j2) + 12u);
  var_i1 = var_i1 != var_i2;
  var_j2 = var_l3;
  var_i2 = i32_load8_u(origin, (u64)(var_j2) + 13u);
  var_j3 = var_l5;
  var_i3 = i32_load8_u(origin, (u64)(var_j3) + 13u);
  var_i2 = var_i2 != var_i3;
  var_i3 = 1u;
  var_i2 <<= (var_i3 & 31);
  var_i1 |= var_i2;
  var_j2 = var_l3;
  var_i2 = i32_load8_u(origin, (u64)(var_j2) + 15u);
  var_j3 = var_l5;
  var_i3 = i32_load8_u(origin, (u64)(var_j3) + 15u);
  var_i2 = var_i2 != var_i3;
  var_i3 = 3u;
  var_i2 <<= (var_i3 & 31);
  var_j3 = var_l3;
  var_i3 = i32_load8_u(origin, (u64)(var_j3) + 14u);
  var_j4 = var_l5;
  var_i4 = i32_load8_u(origin, (u64)(var_j4) + 14u);
  var_i3 = var_i3 != var_i4;
  var_i4 = 2u;
  var_i3 <<= (var_i4 & 31);
  var_i2 |= var_i3;
  var_i1 |= var_i2;
  var_i2 = 12u;
  var_i1 <<= (var_i2 & 31);
  var_j2 = var_l3;
  var_i2 = i32_load8_u(origin, (u64)(var_j2) + 8u);
  var_j3 = var_l5;
  var_i3 = i32_load8_u(origin, (u64)(var_j3) + 8u);
  var_i2 = var_i2 != var_i3;
  var_j3 = var_l3;
  var_i3 = i32_load8_u(origin, (u64)(var_j3) + 9u);
  var_j4 = var_l5;
  var_i4 = i32_load8_u(origin, (u64)(var_j4) + 9u);
  var_i3 = var_i3 != var_i4;
  var_i4 = 1u;
  var_i3 <<= (var_i4 & 31);
  var_i2 |= var_i3;
  var_j3 = var_l3;
  var_i3 = i32_load8_u(origin, (u64)(var_j3) + 11u);
  var_j4 = var_l5;
  var_i4 = i32_load8_u(origin, (u64)(var_j4) + 11u);
  var_i3 = var_i3 != var_i4;
  var_i4 = 3u;
  var_i3 <<= (var_i4 & 31);
  var_j4 = var_l3;
  var_i4 = i32_load8_u(origin, (u64)(var_j4) + 10u);
  var_j5 = var_l5;
  var_i5 = i32_load8_u(origin, (u64)(var_j5) + 10u);
  var_i4 = var_i4 != var_i5;
  var_i5 = 2u;
  var_i4 <<= (var_i5 & 31);
  var_i3 |= var_i4;
  var_i2 |= var_i3;
  var_i3 = 8u;
  var_i2 <<= (var_i3 & 31);
  var_i1 |= var_i2;
  var_i0 |= var_i1;
  var_j1 = var_l3;
  var_i1 = i32_load8_u(origin, (u64)(var_j1) + 16u);
  var_j2 = var_l5;
  var_i2 = i32_load8_u(origin, (u64)(var_j2) + 16u);
  var_i1 = var_i1 != var_i2;
  var_j2 = var_l3;
  var_i2 = i32_load8_u(origin, (u64)(var_j2) + 17u);
  var_j3 = var_l5;
  var_i3 = i32_load8_u(origin, (u64)(var_j3) + 17u);
  var_i2 = var_i2 != var_i3;
  var_i3 = 1u;
  var_i2 <<= (var_i3 & 31);
  var_i1 |= var_i2;
  var_j2 = var_l3;
  var_i2 = i32_load8_u(origin, (u64)(var_j2) + 19u);
  var_j3 = var_l5;
  var_i3 = i32_load8_u(origin, (u64)(var_j3) + 19u);
  var_i2 = var_i2 != var_i3;
  var_i3 = 3u;
  var_i2 <<= (var_i3 & 31);
  var_j3 = var_l3;
  var_i3 = i32_load8_u(origin, (u64)(var_j3) + 18u);
  var_j4 = var_l5;
  var_i4 = i32_load8_u(origin, (u64)(var_j4) + 18u);
  var_i3 = var_i3 != var_i4;
  var_i4 = 2u;
  var_i3 <<= (var_i4 & 31);
  var_i2 |= var_i3;
  var_i1 |= var_i2;
  var_j2 = var_l3;
  var_i2 = i32_load8_u(origin, (u64)(var_j2) + 20u);
  var_j3 = var_l5;
  var_i3 = i32_load8_u(origin, (u64)(var_j3) + 20u);
  var_i2 = var_i2 != var_i3;
  var_j3 = var_l3;
  var_i3 = i32_load8_u(origin, (u64)(var_j3) + 21u);
  var_j4 = var_l5;
  var_i4 = i32_load8_u(origin, (u64)(var_j4) + 21u);
  var_i3 = var_i3 != var_i4;
  var_i4 = 1u;
  var_i3 <<= (var_i4 & 31);
  var_i2 |= var_i3;
  var_j3 = var_l3;
  var_i3 = i32_load8_u(origin, (u64)(var_j3) + 23u);
  var_j4 = var_l5;
  var_i4 = i32_load8_u(origin, (u64)(var_j4) + 23u);
  var_i3 = var_i3 != var_i4;
  var_i4 = 3u;
  var_i3 <<= (var_i4 & 31);
  var_j4 = var_l3;
  var_i4 = i32_load8_u(origin, (u64)(var_j4) + 22u);
  var_j5 = var_l5;
  var_i5 = i32_load8_u(origin, (u64)(var_j5) + 22u);
  var_i4 = var_i4 != var_i5;
  var_i5 = 2u;
  var_i4 <<= (var_i5 & 31);
  var_i3 |= var_i4;
  var_i2 |= var_i3;
  var_i3 = 4u;
  var_i2 <<= (var_i3 & 31);
  var_i1 |= var_i2;
  var_j2 = var_l3;
  var_i2 = i32_load8_u(origin, (u64)(var_j2) + 28u);
  var_j3 = var_l5;
  var_i3 = i32_load8_u(origin, (u64)(var_j3) + 28u);
  var_i2 = var_i2 != var_i3;
  var_j3 = var_l3;
  var_i3 = i32_load8_u(origin, (u64)(var_j3) + 29u);
  var_j4 = var_l5;
  var_i4 = i32_load8_u(origin, (u64)(var_j4) + 29u);
  var_i3 = var_i3 != var_i4;
  var_i4 = 1u;
  var_i3 <<= (var_i4 & 31);
  var_i2 |= var_i3;
  var_j3 = var_l3;
  var_i3 = i32_load8_u(origin, (u64)(var_j3) + 31u);
  var_j4 = var_l5;
  var_i4 = i32_load8_u(origin, (u64)(var_j4) + 31u);
  var_i3 = var_i3 != var_i4;
  var_i4 = 3u;
  var_i3 <<= (var_i4 & 31);
  var_j4 = var_l3;
  var_i4 = i32_load8_u(origin, (u64)(var_j4) + 30u);
  var_j5 = var_l5;
  var_i5 = i32_load8_u(origin, (u64)(var_j5) + 30u);
  var_i4 = var_i4 != var_i5;
  var_i5 = 2u;
  var_i4 <<= (var_i5 & 31);
  var_i3 |= var_i4;
  var_i2 |= var_i3;
  var_i3 = 12u;
  var_i2 <<= (var_i3 & 31);
  var_j3 = var_l3;
  var_i3 = i32_load8_u(origin, (u64)(var_j3) + 24u);
  var_j4 = var_l5;
  var_i4 = i32_load8_u(origin, (u64)(var_j4) + 24u);
  var_i3 = var_i3 != var_i4;
  var_j4 = var_l3;
  var_i4 = i32_load8_u(origin, (u64)(var_j4) + 25u);
  var_j5 = var_l5;
  var_i5 = i32_load8_u(origin, (u64)(var_j5) + 25u);
  var_i4 = var_i4 != var_i5;
  var_i5 = 1u;
  var_i4 <<= (var_i5 & 31);
  var_i3 |= var_i4;
  var_j4 = var_l3;
  var_i4 = i32_load8_u(origin, (u64)(var_j4) + 27u);
  var_j5 = var_l5;
  var_i5 = i32_load8_u(origin, (u64)(var_j5) + 27u);
  var_i4 = var_i4 != var_i5;
  var_i5 = 3u;
  var_i4 <<= (var_i5 & 31);
  var_j5 = var_l3;
  var_i5 = i32_load8_u(origin, (u64)(var_j5) + 26u);
  var_j6 = var_l5;
  var_i6 = i32_load8_u(origin, (u64)(var_j6) + 26u);
  var_i5 = var_i5 != var_i6;
  var_i6 = 2u;
  var_i5 <<= (var_i6 & 31);
  var_i4 |= var_i5;
  var_i3 |= var_i4;
  var_i4 = 8u;
  var_i3 <<= (var_i4 & 31);
  var_i2 |= var_i3;
  var_i1 |= var_i2;
  var_i0 |= var_i1;
  var_i1 = 65535u;
  var_i0 &= var_i1;
  var_i1 = 0u;
  var_i0 = var_i0 != var_i1;
  var_l4 = var_i0;
  goto var_B0;
  var_B2:;
  UNREACHABLE;
  var_B1:;
  var_j0 = var_p0;
  var_j1 = var_p1;
  var_j2 = 18446744073709551584ull;
  var_j1 += var_j2;
  var_l5 = var_j1;
  var_j0 += var_j1;
  var_l3 = var_j0;
  var_i0 = i32_load8_u(origin, (u64)(var_j0));
  var_j1 = var_p2;
  var_j2 = var_l5;
  var_j1 += var_j2;
  var_l5 = var_j1;
  var_i1 = i32_load8_u(origin, (u64)(var_j1));
  var_i0 = var_i0 != var_i1;
  var_j1 = var_l3;
  var_i1 = i32_load8_u(origin, (u64)(var_j1) + 1u);
  var_j2 = var_l5;
  var_i2 = i32_load8_u(origin, (u64)(var_j2) + 1u);
  var_i1 = var_i1 != var_i2;
  var_i2 = 1u;
  var_i1 <<= (var_i2 & 31);
  var_i0 |= var_i1;
  var_j1 = var_l3;
  var_i1 = i32_load8_u(origin, (u64)(var_j1) + 3u);
  var_j2 = var_l5;
  var_i2 = i32_load8_u(origin, (u64)(var_j2) + 3u);
  var_i1 = var_i1 != var_i2;
  var_i2 = 3u;
  var_i1 <<= (var_i2 & 31);
  var_j2 = var_l3;
  var_i2 = i32_load8_u(origin, (u64)(var_j2) + 2u);
  var_j3 = var_l5;
  var_i3 = i32_load8_u(origin, (u64)(var_j3) + 2u);
  var_i2 = var_i2 != var_i3;
  var_i3 = 2u;
  var_i2 <<= (var_i3 & 31);
  var_i1 |= var_i2;
  var_i0 |= var_i1;
  var_j1 = var_l3;
  var_i1 = i32_load8_u(origin, (u64)(var_j1) + 4u);
  var_j2 = var_l5;
  var_i2 = i32_load8_u(origin, (u64)(var_j2) + 4u);
  var_i1 = var_i1 != var_i2;
  var_j2 = var_l3;
  var_i2 = i32_load8_u(origin, (u64)(var_j2) + 5u);
  var_j3 = var_l5;
  var_i3 = i32_load8_u(origin, (u64)(var_j3) + 5u);
  var_i2 = var_i2 != var_i3;
  var_i3 = 1u;
  var_i2 <<= (var_i3 & 31);
  var_i1 |= var_i2;
  var_j2 = var_l3;
  var_i2 = i32_load8_u(origin, (u64)(var_j2) + 7u);
  var_j3 = var_l5;
  var_i3 = i32_load8_u(origin, (u64)(var_j3) + 7u);
  var_i2 = var_i2 != var_i3;
  var_i3 = 3u;
  var_i2 <<= (var_i3 & 31);
  var_j3 = var_l3;
  var_i3 = i32_load8_u(origin, (u64)(var_j3) + 6u);
  var_j4 = var_l5;
  var_i4 = i32_load8_u(origin, (u64)(var_j4) + 6u);
  var_i3 = var_i3 != var_i4;
  var_i4 = 2u;
  var_i3 <<= (var_i4 & 31);
  var_i2 |= var_i3;
  var_i1 |= var_i2;
  var_i2 = 4u;
  var_i1 <<= (var_i2 & 31);
  var_i0 |= var_i1;
  var_j1 = var_l3;
  var_i1 = i32_load8_u(origin, (u64)(var_j1) + 12u);
  var_j2 = var_l5;
  var_i2 = i32_load8_u(origin, (u64)(var_j2) + 12u);
  var_i1 = var_i1 != var_i2;
  var_j2 = var_l3;
  var_i2 = i32_load8_u(origin, (u64)(var_j2) + 13u);
  var_j3 = var_l5;
  var_i3 = i32_load8_u(origin, (u64)(var_j3) + 13u);
  var_i2 = var_i2 != var_i3;
  var_i3 = 1u;
  var_i2 <<= (var_i3 & 31);
  var_i1 |= var_i2;
  var_j2 = var_l3;
  var_i2 = i32_load8_u(origin, (u64)(var_j2) + 15u);
  var_j3 = var_l5;
  var_i3 = i32_load8_u(origin, (u64)(var_j3) + 15u);
  var_i2 = var_i2 != var_i3;
  var_i3 = 3u;
  var_i2 <<= (var_i3 & 31);
  var_j3 = var_l3;
  var_i3 = i32_load8_u(origin, (u64)(var_j3) + 14u);
  var_j4 = var_l5;
  var_i4 = i32_load8_u(origin, (u64)(var_j4) + 14u);
  var_i3 = var_i3 != var_i4;
  var_i4 = 2u;
  var_i3 <<= (var_i4 & 31);
  var_i2 |= var_i3;
  var_i1 |= var_i2;
  var_i2 = 12u;
  var_i1 <<= (var_i2 & 31);
  var_j2 = var_l3;
  var_i2 = i32_load8_u(origin, (u64)(var_j2) + 8u);
  var_j3 = var_l5;
  var_i3 = i32_load8_u(origin, (u64)(var_j3) + 8u);
  var_i2 = var_i2 != var_i3;
  var_j3 = var_l3;
  var_i3 = i32_load8_u(origin, (u64)(var_j3) + 9u);
  var_j4 = var_l5;
  var_i4 = i32_load8_u(origin, (u64)(var_j4) + 9u);
  var_i3 = var_i3 != var_i4;
  var_i4 = 1u;
  var_i3 <<= (var_i4 & 31);
  var_i2 |= var_i3;
  var_j3 = var_l3;
  var_i3 = i32_load8_u(origin, (u64)(var_j3) + 11u);
  var_j4 = var_l5;
  var_i4 = i32_load8_u(origin, (u64)(var_j4) + 11u);
  var_i3 = var_i3 != var_i4;
  var_i4 = 3u;
  var_i3 <<= (var_i4 & 31);
  var_j4 = var_l3;
  var_i4 = i32_load8_u(origin, (u64)(var_j4) + 10u);
  var_j5 = var_l5;
  var_i5 = i32_load8_u(origin, (u64)(var_j5) + 10u);
  var_i4 = var_i4 != var_i5;
  var_i5 = 2u;
  var_i4 <<= (var_i5 & 31);
  var_i3 |= var_i4;
  var_i2 |= var_i3;
  var_i3 = 8u;
  var_i2 <<= (var_i3 & 31);
  var_i1 |= var_i2;
  var_i0 |= var_i1;
  var_j1 = var_l3;
  var_i1 = i32_load8_u(origin, (u64)(var_j1) + 16u);
  var_j2 = var_l5;
  var_i2 = i32_load8_u(origin, (u64)(var_j2) + 16u);
  var_i1 = var_i1 != var_i2;
  var_j2 = var_l3;
  var_i2 = i32_load8_u(origin, (u64)(var_j2) + 17u);
  var_j3 = var_l5;
  var_i3 = i32_load8_u(origin, (u64)(var_j3) + 17u);
  var_i2 = var_i2 != var_i3;
  var_i3 = 1u;
  var_i2 <<= (var_i3 & 31);
  var_i1 |= var_i2;
  var_j2 = var_l3;
  var_i2 = i32_load8_u(origin, (u64)(var_j2) + 19u);
  var_j3 = var_l5;
  var_i3 = i32_load8_u(origin, (u64)(var_j3) + 19u);
  var_i2 = var_i2 != var_i3;
  var_i3 = 3u;
  var_i2 <<= (var_i3 & 31);
  var_j3 = var_l3;
  var_i3 = i32_load8_u(origin, (u64)(var_j3) + 18u);
  var_j4 = var_l5;
  var_i4 = i32_load8_u(origin, (u64)(var_j4) + 18u);
  var_i3 = var_i3 != var_i4;
  var_i4 = 2u;
  var_i3 <<= (var_i4 & 31);
  var_i2 |= var_i3;
  var_i1 |= var_i2;
  var_j2 = var_l3;
  var_i2 = i32_load8_u(origin, (u64)(var_j2) + 20u);
  var_j3 = var_l5;
  var_i3 = i32_load8_u(origin, (u64)(var_j3) + 20u);
  var_i2 = var_i2 != var_i3;
  var_j3 = var_l3;
  var_i3 = i32_load8_u(origin, (u64)(var_j3) + 21u);
  var_j4 = var_l5;
  var_i4 = i32_load8_u(origin, (u64)(var_j4) + 21u);
  var_i3 = var_i3 != var_i4;
  var_i4 = 1u;
  var_i3 <<= (var_i4 & 31);
  var_i2 |= var_i3;
  var_j3 = var_l3;
  var_i3 = i32_load8_u(origin, (u64)(var_j3) + 23u);
  var_j4 = var_l5;
  var_i4 = i32_load8_u(origin, (u64)(var_j4) + 23u);
  var_i3 = var_i3 != var_i4;
  var_i4 = 3u;
  var_i3 <<= (var_i4 & 31);
  var_j4 = var_l3;
  var_i4 = i32_load8_u(origin, (u64)(var_j4) + 22u);
  var_j5 = var_l5;
  var_i5 = i32_load8_u(origin, (u64)(var_j5) + 22u);
  var_i4 = var_i4 != var_i5;
  var_i5 = 2u;
  var_i4 <<= (var_i5 & 31);
  var_i3 |= var_i4;
  var_i2 |= var_i3;
  var_i3 = 4u;
  var_i2 <<= (var_i3 & 31);
  var_i1 |= var_i2;
  var_j2 = var_l3;
  var_i2 = i32_load8_u(origin, (u64)(var_j2) + 28u);
  var_j3 = var_l5;
  var_i3 = i32_load8_u(origin, (u64)(var_j3) + 28u);
  var_i2 = var_i2 != var_i3;
  var_j3 = var_l3;
  var_i3 = i32_load8_u(origin, (u64)(var_j3) + 29u);
  var_j4 = var_l5;
  var_i4 = i32_load8_u(origin, (u64)(var_j4) + 29u);
  var_i3 = var_i3 != var_i4;
  var_i4 = 1u;
  var_i3 <<= (var_i4 & 31);
  var_i2 |= var_i3;
  var_j3 = var_l3;
  var_i3 = i32_load8_u(origin, (u64)(var_j3) + 31u);
  var_j4 = var_l5;
  var_i4 = i32_load8_u(origin, (u64)(var_j4) + 31u);
  var_i3 = var_i3 != var_i4;
  var_i4 = 3u;
  var_i3 <<= (var_i4 & 31);
  var_j4 = var_l3;
  var_i4 = i32_load8_u(origin, (u64)(var_j4) + 30u);
  var_j5 = var_l5;
  var_i5 = i32_load8_u(origin, (u64)(var_j5) + 30u);
  var_i4 = var_i4 != var_i5;
  var_i5 = 2u;
  var_i4 <<= (var_i5 & 31);
  var_i3 |= var_i4;
  var_i2 |= var_i3;
  var_i3 = 12u;
  var_i2 <<= (var_i3 & 31);
  var_j3 = var_l3;
  var_i3 = i32_load8_u(origin, (u64)(var_j3) + 24u);
  var_j4 = var_l5;
  var_i4 = i32_load8_u(origin, (u64)(var_j4) + 24u);
  var_i3 = var_i3 != var_i4;
  var_j4 = var_l3;
  var_i4 = i32_load8_u(origin, (u64)(var_j4) + 25u);
  var_j5 = var_l5;
  var_i5 = i32_load8_u(origin, (u64)(var_j5) + 25u);
  var_i4 = var_i4 != var_i5;
  var_i5 = 1u;
  var_i4 <<= (var_i5 & 31);
  var_i3 |= var_i4;
  var_j4 = var_l3;
  var_i4 = i32_load8_u(origin, (u64)(var_j4) + 27u);
  var_j5 = var_l5;
  var_i5 = i32_load8_u(origin, (u64)(var_j5) + 27u);
  var_i4 = var_i4 != var_i5;
  var_i5 = 3u;
  var_i4 <<= (var_i5 & 31);
  var_j5 = var_l3;
  var_i5 = i32_load8_u(origin, (u64)(var_j5) + 26u);
  var_j6 = var_l5;
  var_i6 = i32_load8_u(origin, (u64)(var_j6) + 26u);
  var_i5 = var_i5 != var_i6;
  var_i6 = 2u;
  var_i5 <<= (var_i6 & 31);
  var_i4 |= var_i5;
  var_i3 |= var_i4;
  var_i4 = 8u;
  var_i3 <<= (var_i4 & 31);
  var_i2 |= var_i3;
  var_i1 |= var_i2;
  var_i0 |= var_i1;
  var_i1 = 65535u;
  var_i0 &= var_i1;
  var_i1 = 0u;
  var_i0 = var_i0 != var_i1;
  var_j1 = var_p0;
  var_i1 = i32_load8_u(origin, (u64)(var_j1));
  var_j2 = var_p2;
  var_i2 = i32_load8_u(origin, (u64)(var_j2));
  var_i1 = var_i1 != var_i2;
  var_i0 |= var_i1;
  var_j1 = var_p0;
  var_j2 = 1ull;
  var_j1 += var_j2;
  var_i1 = i32_load8_u(origin, (u64)(var_j1));
  var_j2 = var_p2;
  var_j3 = 1ull;
  var_j2 += var_j3;
  var_i2 = i32_load8_u(origin, (u64)(var_j2));
  var_i1 = var_i1 != var_i2;
  var_j2 = var_p0;
  var_j3 = 2ull;
  var_j2 += var_j3;
  var_i2 = i32_load8_u(origin, (u64)(var_j2));
  var_j3 = var_p2;
  var_j4 = 2ull;
  var_j3 += var_j4;
  var_i3 = i32_load8_u(origin, (u64)(var_j3));
  var_i2 = var_i2 != var_i3;
  var_i1 |= var_i2;
  var_i0 |= var_i1;
  var_j1 = var_p0;
  var_j2 = 3ull;
  var_j1 += var_j2;
  var_i1 = i32_load8_u(origin, (u64)(var_j1));
  var_j2 = var_p2;
  var_j3 = 3ull;
  var_j2 += var_j3;
  var_i2 = i32_load8_u(origin, (u64)(var_j2));
  var_i1 = var_i1 != var_i2;
  var_j2 = var_p0;
  var_j3 = 4ull;
  var_j2 += var_j3;
  var_i2 = i32_load8_u(origin, (u64)(var_j2));
  var_j3 = var_p2;
  var_j4 = 4ull;
  var_j3 += var_j4;
  var_i3 = i32_load8_u(origin, (u64)(var_j3));
  var_i2 = var_i2 != var_i3;
  var_i1 |= var_i2;
  var_j2 = var_p0;
  var_j3 = 5ull;
  var_j2 += var_j3;
  var_i2 = i32_load8_u(origin, (u64)(var_j2));
  var_j3 = var_p2;
  var_j4 = 5ull;
  var_j3 += var_j4;
  var_i3 = i32_load8_u(origin, (u64)(var_j3));
  var_i2 = var_i2 != var_i3;
  var_j3 = var_p0;
  var_j4 = 6ull;
  var_j3 += var_j4;
  var_i3 = i32_load8_u(origin, (u64)(var_j3));
  var_j4 = var_p2;
  var_j5 = 6ull;
  var_j4 += var_j5;
  var_i4 = i32_load8_u(origin, (u64)(var_j4));
  var_i3 = var_i3 != var_i4;
  var_i2 |= var_i3;
  var_i1 |= var_i2;
  var_i0 |= var_i1;
  var_j1 = var_p0;
  var_j2 = 7ull;
  var_j1 += var_j2;
  var_i1 = i32_load8_u(origin, (u64)(var_j1));
  var_j2 = var_p2;
  var_j3 = 7ull;
  var_j2 += var_j3;
  var_i2 = i32_load8_u(origin, (u64)(var_j2));
  var_i1 = var_i1 != var_i2;
  var_j2 = var_p0;
  var_j3 = 8ull;
  var_j2 += var_j3;
  var_i2 = i32_load8_u(origin, (u64)(var_j2));
  var_j3 = var_p2;
  var_j4 = 8ull;
  var_j3 += var_j4;
  var_i3 = i32_load8_u(origin, (u64)(var_j3));
  var_i2 = var_i2 != var_i3;
  var_i1 |= var_i2;
  var_j2 = var_p0;
  var_j3 = 9ull;
  var_j2 += var_j3;
  var_i2 = i32_load8_u(origin, (u64)(var_j2));
  var_j3 = var_p2;
  var_j4 = 9ull;
  var_j3 += var_j4;
  var_i3 = i32_load8_u(origin, (u64)(var_j3));
  var_i2 = var_i2 != var_i3;
  var_j3 = var_p0;
  var_j4 = 10ull;
  var_j3 += var_j4;
  var_i3 = i32_load8_u(origin, (u64)(var_j3));
  var_j4 = var_p2;
  var_j5 = 10ull;
  var_j4 += var_j5;
  var_i4 = i32_load8_u(origin, (u64)(var_j4));
  var_i3 = var_i3 != var_i4;
  var_i2 |= var_i3;
  var_i1 |= var_i2;
  var_j2 = var_p0;
  var_j3 = 11ull;
  var_j2 += var_j3;
  var_i2 = i32_load8_u(origin, (u64)(var_j2));
  var_j3 = var_p2;
  var_j4 = 11ull;
  var_j3 += var_j4;
  var_i3 = i32_load8_u(origin, (u64)(var_j3));
  var_i2 = var_i2 != var_i3;
  var_j3 = var_p0;
  var_j4 = 12ull;
  var_j3 += var_j4;
  var_i3 = i32_load8_u(origin, (u64)(var_j3));
  var_j4 = var_p2;
  var_j5 = 12ull;
  var_j4 += var_j5;
  var_i4 = i32_load8_u(origin, (u64)(var_j4));
  var_i3 = var_i3 != var_i4;
  var_i2 |= var_i3;
  var_j3 = var_p0;
  var_j4 = 13ull;
  var_j3 += var_j4;
  var_i3 = i32_load8_u(origin, (u64)(var_j3));
  var_j4 = var_p2;
  var_j5 = 13ull;
  var_j4 += var_j5;
  var_i4 = i32_load8_u(origin, (u64)(var_j4));
  var_i3 = var_i3 != var_i4;
  var_j4 = var_p0;
  var_j5 = 14ull;
  var_j4 += var_j5;
  var_i4 = i32_load8_u(origin, (u64)(var_j4));
  var_j5 = var_p2;
  var_j6 = 14ull;
  var_j5 += var_j6;
  var_i5 = i32_load8_u(origin, (u64)(var_j5));
  var_i4 = var_i4 != var_i5;
  var_i3 |= var_i4;
  var_i2 |= var_i3;
  var_i1 |= var_i2;
  var_i0 |= var_i1;
  var_j1 = var_p0;
  var_j2 = 15ull;
  var_j1 += var_j2;
  var_i1 = i32_load8_u(origin, (u64)(var_j1));
  var_j2 = var_p2;
  var_j3 = 15ull;
  var_j2 += var_j3;
  var_i2 = i32_load8_u(origin, (u64)(var_j2));
  var_i1 = var_i1 != var_i2;
  var_j2 = var_p0;
  var_j3 = 16ull;
  var_j2 += var_j3;
  var_i2 = i32_load8_u(origin, (u64)(var_j2));
  var_j3 = var_p2;
  var_j4 = 16ull;
  var_j3 += var_j4;
  var_i3 = i32_load8_u(origin, (u64)(var_j3));
  var_i2 = var_i2 != var_i3;
  var_i1 |= var_i2;
  var_j2 = var_p0;
  var_j3 = 17ull;
  var_j2 += var_j3;
  var_i2 = i32_load8_u(origin, (u64)(var_j2));
  var_j3 = var_p2;
  var_j4 = 17ull;
  var_j3 += var_j4;
  var_i3 = i32_load8_u(origin, (u64)(var_j3));
  var_i2 = var_i2 != var_i3;
  var_j3 = var_p0;
  var_j4 = 18ull;
  var_j3 += var_j4;
  var_i3 = i32_load8_u(origin, (u64)(var_j3));
  var_j4 = var_p2;
  var_j5 = 18ull;
  var_j4 += var_j5;
  var_i4 = i32_load8_u(origin, (u64)(var_j4));
  var_i3 = var_i3 != var_i4;
  var_i2 |= var_i3;
  var_i1 |= var_i2;
  var_j2 = var_p0;
  var_j3 = 19ull;
  var_j2 += var_j3;
  var_i2 = i32_load8_u(origin, (u64)(var_j2));
  var_j3 = var_p2;
  var_j4 = 19ull;
  var_j3 += var_j4;
  var_i3 = i32_load8_u(origin, (u64)(var_j3));
  var_i2 = var_i2 != var_i3;
  var_j3 = var_p0;
  var_j4 = 20ull;
  var_j3 += var_j4;
  var_i3 = i32_load8_u(origin, (u64)(var_j3));
  var_j4 = var_p2;
  var_j5 = 20ull;
  var_j4 += var_j5;
  var_i4 = i32_load8_u(origin, (u64)(var_j4));
  var_i3 = var_i3 != var_i4;
  var_i2 |= var_i3;
  var_j3 = var_p0;
  var_j4 = 21ull;
  var_j3 += var_j4;
  var_i3 = i32_load8_u(origin, (u64)(var_j3));
  var_j4 = var_p2;
  var_j5 = 21ull;
  var_j4 += var_j5;
  var_i4 = i32_load8_u(origin, (u64)(var_j4));
  var_i3 = var_i3 != var_i4;
  var_j4 = var_p0;
  var_j5 = 22ull;
  var_j4 += var_j5;
  var_i4 = i32_load8_u(origin, (u64)(var_j4));
  var_j5 = var_p2;
  var_j6 = 22ull;
  var_j5 += var_j6;
  var_i5 = i32_load8_u(origin, (u64)(var_j5));
  var_i4 = var_i4 != var_i5;
  var_i3 |= var_i4;
  var_i2 |= var_i3;
  var_i1 |= var_i2;
  var_j2 = var_p0;
  var_j3 = 23ull;
  var_j2 += var_j3;
  var_i2 = i32_load8_u(origin, (u64)(var_j2));
  var_j3 = var_p2;
  var_j4 = 23ull;
  var_j3 += var_j4;
  var_i3 = i32_load8_u(origin, (u64)(var_j3));
  var_i2 = var_i2 != var_i3;
  var_j3 = var_p0;
  var_j4 = 24ull;
  var_j3 += var_j4;
  var_i3 = i32_load8_u(origin, (u64)(var_j3));
  var_j4 = var_p2;
  var_j5 = 24ull;
  var_j4 += var_j5;
  var_i4 = i32_load8_u(origin, (u64)(var_j4));
  var_i3 = var_i3 != var_i4;
  var_i2 |= var_i3;
  var_j3 = var_p0;
  var_j4 = 25ull;
  var_j3 += var_j4;
  var_i3 = i32_load8_u(origin, (u64)(var_j3));
  var_j4 = var_p2;
  var_j5 = 25ull;
  var_j4 += var_j5;
  var_i4 = i32_load8_u(origin, (u64)(var_j4));
  var_i3 = var_i3 != var_i4;
  var_j4 = var_p0;
  var_j5 = 26ull;
  var_j4 += var_j5;
  var_i4 = i32_load8_u(origin, (u64)(var_j4));
  var_j5 = var_p2;
  var_j6 = 26ull;
  var_j5 += var_j6;
  var_i5 = i32_load8_u(origin, (u64)(var_j5));
  var_i4 = var_i4 != var_i5;
  var_i3 |= var_i4;
  var_i2 |= var_i3;
  var_j3 = var_p0;
  var_j4 = 27ull;
  var_j3 += var_j4;
  var_i3 = i32_load8_u(origin, (u64)(var_j3));
  var_j4 = var_p2;
  var_j5 = 27ull;
  var_j4 += var_j5;
  var_i4 = i32_load8_u(origin, (u64)(var_j4));
  var_i3 = var_i3 != var_i4;
  var_j4 = var_p0;
  var_j5 = 28ull;
  var_j4 += var_j5;
  var_i4 = i32_load8_u(origin, (u64)(var_j4));
  var_j5 = var_p2;
  var_j6 = 28ull;
  var_j5 += var_j6;
  var_i5 = i32_load8_u(origin, (u64)(var_j5));
  var_i4 = var_i4 != var_i5;
  var_i3 |= var_i4;
  var_j4 = var_p0;
  var_j5 = 29ull;
  var_j4 += var_j5;
  var_i4 = i32_load8_u(origin, (u64)(var_j4));
  var_j5 = var_p2;
  var_j6 = 29ull;
  var_j5 += var_j6;
  var_i5 = i32_load8_u(origin, (u64)(var_j5));
  var_i4 = var_i4 != var_i5;
  var_j5 = var_p0;
  var_j6 = 30ull;
  var_j5 += var_j6;
  var_i5 = i32_load8_u(origin, (u64)(var_j5));
  var_j6 = var_p2;
  var_j7 = 30ull;
  var_j6 += var_j7;
  var_i6 = i32_load8_u(origin, (u64)(var_j6));
  var_i5 = var_i5 != var_i6;
  var_i4 |= var_i5;
  var_i3 |= var_i4;
  var_i2 |= var_i3;
  var_i1 |= var_i2;
  var_i0 |= var_i1;
  var_j1 = var_p0;
  var_j2 = 31ull;
  var_j1 += var_j2;
  var_i1 = i32_load8_u(origin, (u64)(var_j1));
  var_j2 = var_p2;
  var_j3 = 31ull;
  var_j2 += var_j3;
  var_i2 = i32_load8_u(origin, (u64)(var_j2));
  var_i1 = var_i1 != var_i2;
  var_i0 |= var_i1;
  var_l4 = var_i0;
  var_B0:;
  var_i0 = var_l4;
  var_i1 = 4294967295u;
  var_i0 ^= var_i1;
  var_i1 = 1u;
  var_i0 &= var_i1;
  FUNC_EPILOGUE;
  return var_i0;
}

static void w2c_lockreplay_lk_lines0x3A0x3Avocabulary0x3A0x3Alock_named(w2c_lockreplay* instance, u64 var_p0, u64 var_p1, u64 var_p2) {
  u32 var_l5 = 0, var_l6 = 0;
  u64 var_l3 = 0, var_l4 = 0;
  FUNC_PROLOGUE;
  u32 var_i0, var_i1;
  u64 var_j0, var_j1, var_j2;
  var_j0 = instance->w2c_0x5F_stack_pointer;
  var_l3 = var_j0;
  var_j1 = 16ull;
  var_i0 = (u64)((s64)var_j0 < (s64)var_j1);
  if (var_i0) {goto var_B0;}
  var_j0 = var_p2;
  var_j1 = 18446744073709551613ull;
  var_j0 += var_j1;
  var_l4 = var_j0;
  var_j1 = 6ull;
  var_i0 = var_j0 > var_j1;
  if (var_i0) {goto var_B2;}
  var_j0 = var_l4;
  var_i0 = (u32)(var_j0);
  switch (var_i0) {
    case 0: goto var_B5;
    case 1: goto var_B2;
    case 2: goto var_B2;
    case 3: goto var_B6;
    case 4: goto var_B3;
    case 5: goto var_B2;
    case 6: goto var_B4;
    default: goto var_B5;
  }
  var_B6:;
  var_j0 = var_p1;
  var_i0 = i32_load8_u(origin, (u64)(var_j0));
  var_i1 = 116u;
  var_i0 = var_i0 != var_i1;
  if (var_i0) {goto var_B2;}
  var_j0 = var_p1;
  var_j1 = 1ull;
  var_j0 += var_j1;
  var_i0 = i32_load8_u(origin, (u64)(var_j0));
  var_i1 = 255u;
  var_i0 &= var_i1;
  var_i1 = 105u;
  var_i0 = var_i0 != var_i1;
  if (var_i0) {goto var_B2;}
  var_j0 = var_p1;
  var_j1 = 2ull;
  var_j0 += var_j1;
  var_i0 = i32_load8_u(origin, (u64)(var_j0));
  var_i1 = 255u;
  var_i0 &= var_i1;
  var_i1 = 99u;
  var_i0 = var_i0 != var_i1;
  if (var_i0) {goto var_B2;}
  var_j0 = var_p1;
  var_j1 = 3ull;
  var_j0 += var_j1;
  var_i0 = i32_load8_u(origin, (u64)(var_j0));
  var_i1 = 255u;
  var_i0 &= var_i1;
  var_i1 = 107u;
  var_i0 = var_i0 != var_i1;
  if (var_i0) {goto var_B2;}
  var_j0 = var_p1;
  var_j1 = 6ull;
  var_j2 = 1057656ull;
  var_i0 = w2c_lockreplay_core0x3A0x3Acmp0x3A0x3Aslices0x3A0x3Agroups_equal0x3A0x3A0x3Ci80x2C310x27core0x3A0x3Acmp0x3A0x3Anumbers0x3A0x3AU8PartialEq0x7B0x7D0x3E(instance, var_j0, var_j1, var_j2);
  var_i0 = !(var_i0);
  if (var_i0) {goto var_B2;}
  var_i0 = 1u;
  var_l5 = var_i0;
  var_i0 = 0u;
  var_l6 = var_i0;
  goto var_B1;
  var_B5:;
  var_j0 = var_p1;
  var_i0 = i32_load8_u(origin, (u64)(var_j0));
  var_i1 = 109u;
  var_i0 = var_i0 != var_i1;
  if (var_i0) {goto var_B2;}
  var_j0 = var_p1;
  var_j1 = 1ull;
  var_j0 += var_j1;
  var_i0 = i32_load8_u(origin, (u64)(var_j0));
  var_i1 = 99u;
  var_i0 = var_i0 != var_i1;
  if (var_i0) {goto var_B2;}
  var_j0 = var_p1;
  var_j1 = 2ull;
  var_j0 += var_j1;
  var_i0 = i32_load8_u(origin, (u64)(var_j0));
  var_i1 = 115u;
  var_i0 = var_i0 != var_i1;
  if (var_i0) {goto var_B2;}
  var_i0 = 1u;
  var_l6 = var_i0;
  var_i0 = 1u;
  var_l5 = var_i0;
  goto var_B1;
  var_B4:;
  var_j0 = var_p1;
  var_i0 = i32_load8_u(origin, (u64)(var_j0));
  var_i1 = 114u;
  var_i0 = var_i0 != var_i1;
  if (var_i0) {goto var_B2;}
  var_j0 = var_p1;
  var_j1 = 1ull;
  var_j0 += var_j1;
  var_i0 = i32_load8_u(origin, (u64)(var_j0));
  var_i1 = 255u;
  var_i0 &= var_i1;
  var_i1 = 119u;
  var_i0 = var_i0 != var_i1;
  if (var_i0) {goto var_B2;}
  var_j0 = var_p1;
  var_j1 = 2ull;
  var_j0 += var_j1;
  var_i0 = i32_load8_u(origin, (u64)(var_j0));
  var_i1 = 255u;
  var_i0 &= var_i1;
  var_i1 = 45u;
  var_i0 = var_i0 != var_i1;
  if (var_i0) {goto var_B2;}
  var_j0 = var_p1;
  var_j1 = 3ull;
  var_j0 += var_j1;
  var_i0 = i32_load8_u(origin, (u64)(var_j0));
  var_i1 = 255u;
  var_i0 &= var_i1;
  var_i1 = 115u;
  var_i0 = var_i0 != var_i1;
  if (var_i0) {goto var_B2;}
  var_j0 = var_p1;
  var_j1 = var_p2;
  var_j2 = 1057662ull;
  var_i0 = w2c_lockreplay_core0x3A0x3Acmp0x3A0x3Aslices0x3A0x3Agroups_equal0x3A0x3A0x3Ci80x2C310x27core0x3A0x3Acmp0x3A0x3Anumbers0x3A0x3AU8PartialEq0x7B0x7D0x3E(instance, var_j0, var_j1, var_j2);
  var_i0 = !(var_i0);
  if (var_i0) {goto var_B2;}
  var_i0 = 1u;
  var_l5 = var_i0;
  var_i0 = 2u;
  var_l6 = var_i0;
  goto var_B1;
  var_B3:;
  var_j0 = var_p1;
  var_i0 = i32_load8_u(origin, (u64)(var_j0));
  var_i1 = 114u;
  var_i0 = var_i0 != var_i1;
  if (var_i0) {goto var_B2;}
  var_j0 = var_p1;
  var_j1 = 1ull;
  var_j0 += var_j1;
  var_i0 = i32_load8_u(origin, (u64)(var_j0));
  var_i1 = 255u;
  var_i0 &= var_i1;
  var_i1 = 119u;
  var_i0 = var_i0 != var_i1;
  if (var_i0) {goto var_B2;}
  var_j0 = var_p1;
  var_j1 = 2ull;
  var_j0 += var_j1;
  var_i0 = i32_load8_u(origin, (u64)(var_j0));
  var_i1 = 255u;
  var_i0 &= var_i1;
  var_i1 = 45u;
  var_i0 = var_i0 != var_i1;
  if (var_i0) {goto var_B2;}
  var_j0 = var_p1;
  var_j1 = 3ull;
  var_j0 += var_j1;
  var_i0 = i32_load8_u(origin, (u64)(var_j0));
  var_i1 = 255u;
  var_i0 &= var_i1;
  var_i1 = 102u;
  var_i0 = var_i0 != var_i1;
  if (var_i0) {goto var_B2;}
  var_j0 = var_p1;
  var_j1 = var_p2;
  var_j2 = 1057671ull;
  var_i0 = w2c_lockreplay_core0x3A0x3Acmp0x3A0x3Aslices0x3A0x3Agroups_equal0x3A0x3A0x3Ci80x2C310x27core0x3A0x3Acmp0x3A0x3Anumbers0x3A0x3AU8PartialEq0x7B0x7D0x3E(instance, var_j0, var_j1, var_j2);
  var_i0 = !(var_i0);
  if (var_i0) {goto var_B2;}
  var_i0 = 1u;
  var_l5 = var_i0;
  var_i0 = 3u;
  var_l6 = var_i0;
  goto var_B1;
  var_B2:;
  var_i0 = 0u;
  var_l6 = var_i0;
  var_i0 = 0u;
  var_l5 = var_i0;
  var_B1:;
  var_j0 = var_p0;
  var_i1 = var_l6;
  i32_store8(origin, (u64)(var_j0) + 1, var_i1);
  var_j0 = var_p0;
  var_i1 = var_l5;
  i32_store8(origin, (u64)(var_j0), var_i1);
  var_j0 = var_l3;
  instance->w2c_0x5F_stack_pointer = var_j0;
  goto var_Bfunc;
  var_B0:;
  UNREACHABLE;
  var_Bfunc:;
  FUNC_EPILOGUE;
}

static u32 w2c_lockreplay_core0x3A0x3Acmp0x3A0x3Aslices0x3A0x3Aparts_equal0x3A0x3A0x3Ci80x2C310x27core0x3A0x3Acmp0x3A0x3Anumbers0x3A0x3AU8PartialEq0x7B0x7D0x3E(w2c_lockreplay* instance, u64 var_p0, u64 var_p1, u64 var_p2, u64 var_p3) {
  u32 var_l4 = 0;
  u64 var_l5 = 0, var_l6 = 0, var_l7 = 0, var_l8 = 0, var_l9 = 0, var_l10 = 0;
  FUNC_PROLOGUE;
  u32 var_i0, var_i1, var_i2, var_i3, var_i4, var_i5, var_i6;
  u64 var_j0, var_j1, var_j2, var_j3, var_j4, var_j5, var_j6, var_j7;
  var_j0 = instance->w2c_0x5F_stack_pointer;
  var_j1 = 16ull;
  var_i0 = (u64)((s64)var_j0 < (s64)var_j1);
  if (var_i0) {goto var_B3;}
  var_i0 = 0u;
  var_l4 = var_i0;
  var_j0 = var_p1;
  var_j1 = var_p3;
  var_i0 = var_j0 != var_j1;
  if (var_i0) {goto var_B0;}
  var_j0 = var_p1;
  var_j1 = 3ull;
  var_i0 = var_j0 > var_j1;
  if (var_i0) {goto var_B4;}
  var_j0 = var_p1;
  var_i0 = !(var_j0);
  var_i0 = !(var_i0);
  if (var_i0) {goto var_B5;}
  var_i0 = 0u;
  var_l4 = var_i0;
  goto var_B1;
  var_B5:;
  var_j0 = var_p0;
  var_i0 = i32_load8_u(origin, (u64)(var_j0));
  var_j1 = var_p2;
  var_i1 = i32_load8_u(origin, (u64)(var_j1));
  var_i0 = var_i0 != var_i1;
  var_j1 = var_p0;
  var_j2 = var_p1;
  var_j3 = 1ull;
  var_j2 >>= (var_j3 & 63);
  var_p3 = var_j2;
  var_j1 += var_j2;
  var_i1 = i32_load8_u(origin, (u64)(var_j1));
  var_j2 = var_p2;
  var_j3 = var_p3;
  var_j2 += var_j3;
  var_i2 = i32_load8_u(origin, (u64)(var_j2));
  var_i1 = var_i1 != var_i2;
  var_i0 |= var_i1;
  var_j1 = var_p0;
  var_j2 = var_p1;
  var_j3 = 18446744073709551615ull;
  var_j2 += var_j3;
  var_p3 = var_j2;
  var_j1 += var_j2;
  var_i1 = i32_load8_u(origin, (u64)(var_j1));
  var_j2 = var_p2;
  var_j3 = var_p3;
  var_j2 += var_j3;
  var_i2 = i32_load8_u(origin, (u64)(var_j2));
  var_i1 = var_i1 != var_i2;
  var_i0 |= var_i1;
  var_l4 = var_i0;
  goto var_B1;
  var_B4:;
  var_j0 = var_p1;
  var_j1 = 8ull;
  var_i0 = var_j0 > var_j1;
  if (var_i0) {goto var_B6;}
  var_j0 = var_p0;
  var_i0 = i32_load8_u(origin, (u64)(var_j0));
  var_j1 = var_p2;
  var_i1 = i32_load8_u(origin, (u64)(var_j1));
  var_i0 = var_i0 != var_i1;
  var_j1 = var_p0;
  var_j2 = 1ull;
  var_j1 += var_j2;
  var_i1 = i32_load8_u(origin, (u64)(var_j1));
  var_j2 = var_p2;
  var_j3 = 1ull;
  var_j2 += var_j3;
  var_i2 = i32_load8_u(origin, (u64)(var_j2));
  var_i1 = var_i1 != var_i2;
  var_i0 |= var_i1;
  var_j1 = var_p0;
  var_j2 = 2ull;
  var_j1 += var_j2;
  var_i1 = i32_load8_u(origin, (u64)(var_j1));
  var_j2 = var_p2;
  var_j3 = 2ull;
  var_j2 += var_j3;
  var_i2 = i32_load8_u(origin, (u64)(var_j2));
  var_i1 = var_i1 != var_i2;
  var_i0 |= var_i1;
  var_j1 = var_p0;
  var_j2 = 3ull;
  var_j1 += var_j2;
  var_i1 = i32_load8_u(origin, (u64)(var_j1));
  var_j2 = var_p2;
  var_j3 = 3ull;
  var_j2 += var_j3;
  var_i2 = i32_load8_u(origin, (u64)(var_j2));
  var_i1 = var_i1 != var_i2;
  var_i0 |= var_i1;
  var_j1 = var_p0;
  var_j2 = var_p1;
  var_j3 = 18446744073709551612ull;
  var_j2 += var_j3;
  var_p3 = var_j2;
  var_j1 += var_j2;
  var_i1 = i32_load8_u(origin, (u64)(var_j1));
  var_j2 = var_p2;
  var_j3 = var_p3;
  var_j2 += var_j3;
  var_i2 = i32_load8_u(origin, (u64)(var_j2));
  var_i1 = var_i1 != var_i2;
  var_j2 = var_p0;
  var_j3 = var_p1;
  var_j4 = 18446744073709551613ull;
  var_j3 += var_j4;
  var_p3 = var_j3;
  var_j2 += var_j3;
  var_i2 = i32_load8_u(origin, (u64)(var_j2));
  var_j3 = var_p2;
  var_j4 = var_p3;
  var_j3 += var_j4;
  var_i3 = i32_load8_u(origin, (u64)(var_j3));
  var_i2 = var_i2 != var_i3;
  var_i1 |= var_i2;
  var_j2 = var_p0;
  var_j3 = var_p1;
  var_j4 = 18446744073709551614ull;
  var_j3 += var_j4;
  var_p3 = var_j3;
  var_j2 += var_j3;
  var_i2 = i32_load8_u(origin, (u64)(var_j2));
  var_j3 = var_p2;
  var_j4 = var_p3;
  var_j3 += var_j4;
  var_i3 = i32_load8_u(origin, (u64)(var_j3));
  var_i2 = var_i2 != var_i3;
  var_i1 |= var_i2;
  var_j2 = var_p0;
  var_j3 = var_p1;
  var_j4 = 18446744073709551615ull;
  var_j3 += var_j4;
  var_p3 = var_j3;
  var_j2 += var_j3;
  var_i2 = i32_load8_u(origin, (u64)(var_j2));
  var_j3 = var_p2;
  var_j4 = var_p3;
  var_j3 += var_j4;
  var_i3 = i32_load8_u(origin, (u64)(var_j3));
  var_i2 = var_i2 != var_i3;
  var_i1 |= var_i2;
  var_i0 |= var_i1;
  var_l4 = var_i0;
  goto var_B1;
  var_B6:;
  var_j0 = var_p1;
  var_j1 = 32ull;
  var_i0 = var_j0 > var_j1;
  if (var_i0) {goto var_B7;}
  var_j0 = var_p0;
  var_j1 = var_p1;
  var_j2 = 18446744073709551608ull;
  var_j1 += var_j2;
  var_p1 = var_j1;
  var_j2 = 8ull;
  var_j3 = var_p1;
  var_j4 = 8ull;
  var_i3 = var_j3 < var_j4;
  var_j1 = var_i3 ? var_j1 : var_j2;
  var_l5 = var_j1;
  var_j0 += var_j1;
  var_p3 = var_j0;
  var_i0 = i32_load8_u(origin, (u64)(var_j0));
  var_j1 = var_p2;
  var_j2 = var_l5;
  var_j1 += var_j2;
  var_l5 = var_j1;
  var_i1 = i32_load8_u(origin, (u64)(var_j1));
  var_i0 = var_i0 != var_i1;
  var_j1 = var_p0;
  var_j2 = var_p1;
  var_j3 = 16ull;
  var_j4 = var_p1;
  var_j5 = 16ull;
  var_i4 = var_j4 < var_j5;
  var_j2 = var_i4 ? var_j2 : var_j3;
  var_l6 = var_j2;
  var_j1 += var_j2;
  var_l7 = var_j1;
  var_i1 = i32_load8_u(origin, (u64)(var_j1));
  var_j2 = var_p2;
  var_j3 = var_l6;
  var_j2 += var_j3;
  var_l6 = var_j2;
  var_i2 = i32_load8_u(origin, (u64)(var_j2));
  var_i1 = var_i1 != var_i2;
  var_i0 |= var_i1;
  var_j1 = var_p0;
  var_j2 = var_p1;
  var_j1 += var_j2;
  var_l8 = var_j1;
  var_i1 = i32_load8_u(origin, (u64)(var_j1));
  var_j2 = var_p2;
  var_j3 = var_p1;
  var_j2 += var_j3;
  var_p1 = var_j2;
  var_i2 = i32_load8_u(origin, (u64)(var_j2));
  var_i1 = var_i1 != var_i2;
  var_i0 |= var_i1;
  var_j1 = var_p3;
  var_i1 = i32_load8_u(origin, (u64)(var_j1) + 1u);
  var_j2 = var_l5;
  var_i2 = i32_load8_u(origin, (u64)(var_j2) + 1u);
  var_i1 = var_i1 != var_i2;
  var_j2 = var_l7;
  var_i2 = i32_load8_u(origin, (u64)(var_j2) + 1u);
  var_j3 = var_l6;
  var_i3 = i32_load8_u(origin, (u64)(var_j3) + 1u);
  var_i2 = var_i2 != var_i3;
  var_i1 |= var_i2;
  var_j2 = var_l8;
  var_i2 = i32_load8_u(origin, (u64)(var_j2) + 1u);
  var_j3 = var_p1;
  var_i3 = i32_load8_u(origin, (u64)(var_j3) + 1u);
  var_i2 = var_i2 != var_i3;
  var_i1 |= var_i2;
  var_i2 = 1u;
  var_i1 <<= (var_i2 & 31);
  var_i0 |= var_i1;
  var_j1 = var_p3;
  var_i1 = i32_load8_u(origin, (u64)(var_j1) + 3u);
  var_j2 = var_l5;
  var_i2 = i32_load8_u(origin, (u64)(var_j2) + 3u);
  var_i1 = var_i1 != var_i2;
  var_j2 = var_l7;
  var_i2 = i32_load8_u(origin, (u64)(var_j2) + 3u);
  var_j3 = var_l6;
  var_i3 = i32_load8_u(origin, (u64)(var_j3) + 3u);
  var_i2 = var_i2 != var_i3;
  var_i1 |= var_i2;
  var_j2 = var_l8;
  var_i2 = i32_load8_u(origin, (u64)(var_j2) + 3u);
  var_j3 = var_p1;
  var_i3 = i32_load8_u(origin, (u64)(var_j3) + 3u);
  var_i2 = var_i2 != var_i3;
  var_i1 |= var_i2;
  var_i2 = 3u;
  var_i1 <<= (var_i2 & 31);
  var_j2 = var_p3;
  var_i2 = i32_load8_u(origin, (u64)(var_j2) + 2u);
  var_j3 = var_l5;
  var_i3 = i32_load8_u(origin, (u64)(var_j3) + 2u);
  var_i2 = var_i2 != var_i3;
  var_j3 = var_l7;
  var_i3 = i32_load8_u(origin, (u64)(var_j3) + 2u);
  var_j4 = var_l6;
  var_i4 = i32_load8_u(origin, (u64)(var_j4) + 2u);
  var_i3 = var_i3 != var_i4;
  var_i2 |= var_i3;
  var_j3 = var_l8;
  var_i3 = i32_load8_u(origin, (u64)(var_j3) + 2u);
  var_j4 = var_p1;
  var_i4 = i32_load8_u(origin, (u64)(var_j4) + 2u);
  var_i3 = var_i3 != var_i4;
  var_i2 |= var_i3;
  var_i3 = 2u;
  var_i2 <<= (var_i3 & 31);
  var_i1 |= var_i2;
  var_i0 |= var_i1;
  var_j1 = var_p3;
  var_i1 = i32_load8_u(origin, (u64)(var_j1) + 4u);
  var_j2 = var_l5;
  var_i2 = i32_load8_u(origin, (u64)(var_j2) + 4u);
  var_i1 = var_i1 != var_i2;
  var_j2 = var_l7;
  var_i2 = i32_load8_u(origin, (u64)(var_j2) + 4u);
  var_j3 = var_l6;
  var_i3 = i32_load8_u(origin, (u64)(var_j3) + 4u);
  var_i2 = var_i2 != var_i3;
  var_i1 |= var_i2;
  var_j2 = var_l8;
  var_i2 = i32_load8_u(origin, (u64)(var_j2) + 4u);
  var_j3 = var_p1;
  var_i3 = i32_load8_u(origin, (u64)(var_j3) + 4u);
  var_i2 = var_i2 != var_i3;
  var_i1 |= var_i2;
  var_j2 = var_p3;
  var_i2 = i32_load8_u(origin, (u64)(var_j2) + 5u);
  var_j3 = var_l5;
  var_i3 = i32_load8_u(origin, (u64)(var_j3) + 5u);
  var_i2 = var_i2 != var_i3;
  var_j3 = var_l7;
  var_i3 = i32_load8_u(origin, (u64)(var_j3) + 5u);
  var_j4 = var_l6;
  var_i4 = i32_load8_u(origin, (u64)(var_j4) + 5u);
  var_i3 = var_i3 != var_i4;
  var_i2 |= var_i3;
  var_j3 = var_l8;
  var_i3 = i32_load8_u(origin, (u64)(var_j3) + 5u);
  var_j4 = var_p1;
  var_i4 = i32_load8_u(origin, (u64)(var_j4) + 5u);
  var_i3 = var_i3 != var_i4;
  var_i2 |= var_i3;
  var_i3 = 1u;
  var_i2 <<= (var_i3 & 31);
  var_i1 |= var_i2;
  var_j2 = var_p3;
  var_i2 = i32_load8_u(origin, (u64)(var_j2) + 7u);
  var_j3 = var_l5;
  var_i3 = i32_load8_u(origin, (u64)(var_j3) + 7u);
  var_i2 = var_i2 != var_i3;
  var_j3 = var_l7;
  var_i3 = i32_load8_u(origin, (u64)(var_j3) + 7u);
  var_j4 = var_l6;
  var_i4 = i32_load8_u(origin, (u64)(var_j4) + 7u);
  var_i3 = var_i3 != var_i4;
  var_i2 |= var_i3;
  var_j3 = var_l8;
  var_i3 = i32_load8_u(origin, (u64)(var_j3) + 7u);
  var_j4 = var_p1;
  var_i4 = i32_load8_u(origin, (u64)(var_j4) + 7u);
  var_i3 = var_i3 != var_i4;
  var_i2 |= var_i3;
  var_i3 = 3u;
  var_i2 <<= (var_i3 & 31);
  var_j3 = var_p3;
  var_i3 = i32_load8_u(origin, (u64)(var_j3) + 6u);
  var_j4 = var_l5;
  var_i4 = i32_load8_u(origin, (u64)(var_j4) + 6u);
  var_i3 = var_i3 != var_i4;
  var_j4 = var_l7;
  var_i4 = i32_load8_u(origin, (u64)(var_j4) + 6u);
  var_j5 = var_l6;
  var_i5 = i32_load8_u(origin, (u64)(var_j5) + 6u);
  var_i4 = var_i4 != var_i5;
  var_i3 |= var_i4;
  var_j4 = var_l8;
  var_i4 = i32_load8_u(origin, (u64)(var_j4) + 6u);
  var_j5 = var_p1;
  var_i5 = i32_load8_u(origin, (u64)(var_j5) + 6u);
  var_i4 = var_i4 != var_i5;
  var_i3 |= var_i4;
  var_i4 = 2u;
  var_i3 <<= (var_i4 & 31);
  var_i2 |= var_i3;
  var_i1 |= var_i2;
  var_i2 = 4u;
  var_i1 <<= (var_i2 & 31);
  var_i0 |= var_i1;
  var_i1 = 255u;
  var_i0 &= var_i1;
  var_i1 = 0u;
  var_i0 = var_i0 != var_i1;
  var_j1 = var_p0;
  var_i1 = i32_load8_u(origin, (u64)(var_j1));
  var_j2 = var_p2;
  var_i2 = i32_load8_u(origin, (u64)(var_j2));
  var_i1 = var_i1 != var_i2;
  var_i0 |= var_i1;
  var_j1 = var_p0;
  var_j2 = 1ull;
  var_j1 += var_j2;
  var_i1 = i32_load8_u(origin, (u64)(var_j1));
  var_j2 = var_p2;
  var_j3 = 1ull;
  var_j2 += var_j3;
  var_i2 = i32_load8_u(origin, (u64)(var_j2));
  var_i1 = var_i1 != var_i2;
  var_j2 = var_p0;
  var_j3 = 2ull;
  var_j2 += var_j3;
  var_i2 = i32_load8_u(origin, (u64)(var_j2));
  var_j3 = var_p2;
  var_j4 = 2ull;
  var_j3 += var_j4;
  var_i3 = i32_load8_u(origin, (u64)(var_j3));
  var_i2 = var_i2 != var_i3;
  var_i1 |= var_i2;
  var_i0 |= var_i1;
  var_j1 = var_p0;
  var_j2 = 3ull;
  var_j1 += var_j2;
  var_i1 = i32_load8_u(origin, (u64)(var_j1));
  var_j2 = var_p2;
  var_j3 = 3ull;
  var_j2 += var_j3;
  var_i2 = i32_load8_u(origin, (u64)(var_j2));
  var_i1 = var_i1 != var_i2;
  var_j2 = var_p0;
  var_j3 = 4ull;
  var_j2 += var_j3;
  var_i2 = i32_load8_u(origin, (u64)(var_j2));
  var_j3 = var_p2;
  var_j4 = 4ull;
  var_j3 += var_j4;
  var_i3 = i32_load8_u(origin, (u64)(var_j3));
  var_i2 = var_i2 != var_i3;
  var_i1 |= var_i2;
  var_j2 = var_p0;
  var_j3 = 5ull;
  var_j2 += var_j3;
  var_i2 = i32_load8_u(origin, (u64)(var_j2));
  var_j3 = var_p2;
  var_j4 = 5ull;
  var_j3 += var_j4;
  var_i3 = i32_load8_u(origin, (u64)(var_j3));
  var_i2 = var_i2 != var_i3;
  var_j3 = var_p0;
  var_j4 = 6ull;
  var_j3 += var_j4;
  var_i3 = i32_load8_u(origin, (u64)(var_j3));
  var_j4 = var_p2;
  var_j5 = 6ull;
  var_j4 += var_j5;
  var_i4 = i32_load8_u(origin, (u64)(var_j4));
  var_i3 = var_i3 != var_i4;
  var_i2 |= var_i3;
  var_i1 |= var_i2;
  var_i0 |= var_i1;
  var_j1 = var_p0;
  var_j2 = 7ull;
  var_j1 += var_j2;
  var_i1 = i32_load8_u(origin, (u64)(var_j1));
  var_j2 = var_p2;
  var_j3 = 7ull;
  var_j2 += var_j3;
  var_i2 = i32_load8_u(origin, (u64)(var_j2));
  var_i1 = var_i1 != var_i2;
  var_i0 |= var_i1;
  var_l4 = var_i0;
  goto var_B1;
  var_B7:;
  var_j0 = var_p1;
  var_j1 = 65ull;
  var_i0 = var_j0 < var_j1;
  if (var_i0) {goto var_B2;}
  var_j0 = var_p1;
  var_j1 = 18446744073709551552ull;
  var_j0 &= var_j1;
  var_l9 = var_j0;
  var_j0 = 0ull;
  var_l10 = var_j0;
  var_j0 = var_p0;
  var_l6 = var_j0;
  var_j0 = var_p2;
  var_l8 = var_j0;
  var_L9:
    var_i0 = 0u;
    var_l4 = var_i0;
    var_j0 = 0ull;
    var_p3 = var_j0;
    var_L10:
      var_i0 = var_l4;
      var_j1 = var_l6;
      var_j2 = var_p3;
      var_j1 += var_j2;
      var_l5 = var_j1;
      var_i1 = i32_load8_u(origin, (u64)(var_j1));
      var_j2 = var_l8;
      var_j3 = var_p3;
      var_j2 += var_j3;
      var_l7 = var_j2;
      var_i2 = i32_load8_u(origin, (u64)(var_j2));
      var_i1 = var_i1 != var_i2;
      var_i0 |= var_i1;
      var_j1 = var_l5;
      var_j2 = 1ull;
      var_j1 += var_j2;
      var_i1 = i32_load8_u(origin, (u64)(var_j1));
      var_j2 = var_l7;
      var_j3 = 1ull;
      var_j2 += var_j3;
      var_i2 = i32_load8_u(origin, (u64)(var_j2));
      var_i1 = var_i1 != var_i2;
      var_i0 |= var_i1;
      var_l4 = var_i0;
      var_j0 = var_p3;
      var_j1 = 2ull;
      var_j0 += var_j1;
      var_p3 = var_j0;
      var_j1 = 64ull;
      var_i0 = var_j0 != var_j1;
      if (var_i0) {goto var_L10;}
    var_i0 = var_l4;
    var_i1 = 1u;
    var_i0 &= var_i1;
    if (var_i0) {goto var_B8;}
    var_j0 = var_l6;
    var_j1 = 64ull;
    var_j0 += var_j1;
    var_l6 = var_j0;
    var_j0 = var_l8;
    var_j1 = 64ull;
    var_j0 += var_j1;
    var_l8 = var_j0;
    var_j0 = var_p1;
    var_j1 = var_l10;
    var_j2 = 64ull;
    var_j1 += var_j2;
    var_l10 = var_j1;
    var_j0 -= var_j1;
    var_j1 = 63ull;
    var_i0 = var_j0 > var_j1;
    if (var_i0) {goto var_L9;}
  var_j0 = var_l9;
  var_l10 = var_j0;
  var_B8:;
  var_j0 = var_p1;
  var_j1 = var_l10;
  var_j0 -= var_j1;
  var_l7 = var_j0;
  var_j1 = 32ull;
  var_i0 = var_j0 < var_j1;
  if (var_i0) {goto var_B11;}
  var_j0 = var_p2;
  var_j1 = var_l10;
  var_j0 += var_j1;
  var_p3 = var_j0;
  var_j0 = var_p0;
  var_j1 = var_l10;
  var_j0 += var_j1;
  var_l5 = var_j0;
  var_L13:
    var_i0 = 1u;
    var_l4 = var_i0;
    var_j0 = var_l5;
    var_i0 = i32_load8_u(origin, (u64)(var_j0));
    var_j1 = var_p3;
    var_i1 = i32_load8_u(origin, (u64)(var_j1));
    var_i0 = var_i0 != var_i1;
    var_j1 = var_l5;
    var_i1 = i32_load8_u(origin, (u64)(var_j1) + 1u);
    var_j2 = var_p3;
    var_i2 = i32_load8_u(origin, (u64)(var_j2) + 1u);
    var_i1 = var_i1 != var_i2;
    var_i2 = 1u;
    var_i1 <<= (var_i2 & 31);
    var_i0 |= var_i1;
    var_j1 = var_l5;
    var_i1 = i32_load8_u(origin, (u64)(var_j1) + 3u);
    var_j2 = var_p3;
    var_i2 = i32_load8_u(origin, (u64)(var_j2) + 3u);
    var_i1 = var_i1 != var_i2;
    var_i2 = 3u;
    var_i1 <<= (var_i2 & 31);
    var_j2 = var_l5;
    var_i2 = i32_load8_u(origin, (u64)(var_j2) + 2u);
    var_j3 = var_p3;
    var_i3 = i32_load8_u(origin, (u64)(var_j3) + 2u);
    var_i2 = var_i2 != var_i3;
    var_i3 = 2u;
    var_i2 <<= (var_i3 & 31);
    var_i1 |= var_i2;
    var_i0 |= var_i1;
    var_j1 = var_l5;
    var_i1 = i32_load8_u(origin, (u64)(var_j1) + 4u);
    var_j2 = var_p3;
    var_i2 = i32_load8_u(origin, (u64)(var_j2) + 4u);
    var_i1 = var_i1 != var_i2;
    var_j2 = var_l5;
    var_i2 = i32_load8_u(origin, (u64)(var_j2) + 5u);
    var_j3 = var_p3;
    var_i3 = i32_load8_u(origin, (u64)(var_j3) + 5u);
    var_i2 = var_i2 != var_i3;
    var_i3 = 1u;
    var_i2 <<= (var_i3 & 31);
    var_i1 |= var_i2;
    var_j2 = var_l5;
    var_i2 = i32_load8_u(origin, (u64)(var_j2) + 7u);
    var_j3 = var_p3;
    var_i3 = i32_load8_u(origin, (u64)(var_j3) + 7u);
    var_i2 = var_i2 != var_i3;
    var_i3 = 3u;
    var_i2 <<= (var_i3 & 31);
    var_j3 = var_l5;
    var_i3 = i32_load8_u(origin, (u64)(var_j3) + 6u);
    var_j4 = var_p3;
    var_i4 = i32_load8_u(origin, (u64)(var_j4) + 6u);
    var_i3 = var_i3 != var_i4;
    var_i4 = 2u;
    var_i3 <<= (var_i4 & 31);
    var_i2 |= var_i3;
    var_i1 |= var_i2;
    var_i2 = 4u;
    var_i1 <<= (var_i2 & 31);
    var_i0 |= var_i1;
    var_j1 = var_l5;
    var_i1 = i32_load8_u(origin, (u64)(var_j1) + 12u);
    var_j2 = var_p3;
    var_i2 = i32_load8_u(origin, (u64)(var_j2) + 12u);
    var_i1 = var_i1 != var_i2;
    var_j2 = var_l5;
    var_i2 = i32_load8_u(origin, (u64)(var_j2) + 13u);
    var_j3 = var_p3;
    var_i3 = i32_load8_u(origin, (u64)(var_j3) + 13u);
    var_i2 = var_i2 != var_i3;
    var_i3 = 1u;
    var_i2 <<= (var_i3 & 31);
    var_i1 |= var_i2;
    var_j2 = var_l5;
    var_i2 = i32_load8_u(origin, (u64)(var_j2) + 15u);
    var_j3 = var_p3;
    var_i3 = i32_load8_u(origin, (u64)(var_j3) + 15u);
    var_i2 = var_i2 != var_i3;
    var_i3 = 3u;
    var_i2 <<= (var_i3 & 31);
    var_j3 = var_l5;
    var_i3 = i32_load8_u(origin, (u64)(var_j3) + 14u);
    var_j4 = var_p3;
    var_i4 = i32_load8_u(origin, (u64)(var_j4) + 14u);
    var_i3 = var_i3 != var_i4;
    var_i4 = 2u;
    var_i3 <<= (var_i4 & 31);
    var_i2 |= var_i3;
    var_i1 |= var_i2;
    var_i2 = 12u;
    var_i1 <<= (var_i2 & 31);
    var_j2 = var_l5;
    var_i2 = i32_load8_u(origin, (u64)(var_j2) + 8u);
    var_j3 = var_p3;
    var_i3 = i32_load8_u(origin, (u64)(var_j3) + 8u);
    var_i2 = var_i2 != var_i3;
    var_j3 = var_l5;
    var_i3 = i32_load8_u(origin, (u64)(var_j3) + 9u);
    var_j4 = var_p3;
    var_i4 = i32_load8_u(origin, (u64)(var_j4) + 9u);
    var_i3 = var_i3 != var_i4;
    var_i4 = 1u;
    var_i3 <<= (var_i4 & 31);
    var_i2 |= var_i3;
    var_j3 = var_l5;
    var_i3 = i32_load8_u(origin, (u64)(var_j3) + 11u);
    var_j4 = var_p3;
    var_i4 = i32_load8_u(origin, (u64)(var_j4) + 11u);
    var_i3 = var_i3 != var_i4;
    var_i4 = 3u;
    var_i3 <<= (var_i4 & 31);
    var_j4 = var_l5;
    var_i4 = i32_load8_u(origin, (u64)(var_j4) + 10u);
    var_j5 = var_p3;
    var_i5 = i32_load8_u(origin, (u64)(var_j5) + 10u);
    var_i4 = var_i4 != var_i5;
    var_i5 = 2u;
    var_i4 <<= (var_i5 & 31);
    var_i3 |= var_i4;
    var_i2 |= var_i3;
    var_i3 = 8u;
    var_i2 <<= (var_i3 & 31);
    var_i1 |= var_i2;
    var_i0 |= var_i1;
    var_j1 = var_l5;
    var_i1 = i32_load8_u(origin, (u64)(var_j1) + 16u);
    var_j2 = var_p3;
    var_i2 = i32_load8_u(origin, (u64)(var_j2) + 16u);
    var_i1 = var_i1 != var_i2;
    var_j2 = var_l5;
    var_i2 = i32_load8_u(origin, (u64)(var_j2) + 17u);
    var_j3 = var_p3;
    var_i3 = i32_load8_u(origin, (u64)(var_j3) + 17u);
    var_i2 = var_i2 != var_i3;
    var_i3 = 1u;
    var_i2 <<= (var_i3 & 31);
    var_i1 |= var_i2;
    var_j2 = var_l5;
    var_i2 = i32_load8_u(origin, (u64)(var_j2) + 19u);
    var_j3 = var_p3;
    var_i3 = i32_load8_u(origin, (u64)(var_j3) + 19u);
    var_i2 = var_i2 != var_i3;
    var_i3 = 3u;
    var_i2 <<= (var_i3 & 31);
    var_j3 = var_l5;
    var_i3 = i32_load8_u(origin, (u64)(var_j3) + 18u);
    var_j4 = var_p3;
    var_i4 = i32_load8_u(origin, (u64)(var_j4) + 18u);
    var_i3 = var_i3 != var_i4;
    var_i4 = 2u;
    var_i3 <<= (var_i4 & 31);
    var_i2 |= var_i3;
    var_i1 |= var_i2;
    var_j2 = var_l5;
    var_i2 = i32_load8_u(origin, (u64)(var_j2) + 20u);
    var_j3 = var_p3;
    var_i3 = i32_load8_u(origin, (u64)(var_j3) + 20u);
    var_i2 = var_i2 != var_i3;
    var_j3 = var_l5;
    var_i3 = i32_load8_u(origin, (u64)(var_j3) + 21u);
    var_j4 = var_p3;
    var_i4 = i32_load8_u(origin, (u64)(var_j4) + 21u);
    var_i3 = var_i3 != var_i4;
    var_i4 = 1u;
    var_i3 <<= (var_i4 & 31);
    var_i2 |= var_i3;
    var_j3 = var_l5;
    var_i3 = i32_load8_u(origin, (u64)(var_j3) + 23u);
    var_j4 = var_p3;
    var_i4 = i32_load8_u(origin, (u64)(var_j4) + 23u);
    var_i3 = var_i3 != var_i4;
    var_i4 = 3u;
    var_i3 <<= (var_i4 & 31);
    var_j4 = var_l5;
    var_i4 = i32_load8_u(origin, (u64)(var_j4) + 22u);
    var_j5 = var_p3;
    var_i5 = i32_load8_u(origin, (u64)(var_j5) + 22u);
    var_i4 = var_i4 != var_i5;
    var_i5 = 2u;
    var_i4 <<= (var_i5 & 31);
    var_i3 |= var_i4;
    var_i2 |= var_i3;
    var_i3 = 4u;
    var_i2 <<= (var_i3 & 31);
    var_i1 |= var_i2;
    var_j2 = var_l5;
    var_i2 = i32_load8_u(origin, (u64)(var_j2) + 28u);
    var_j3 = var_p3;
    var_i3 = i32_load8_u(origin, (u64)(var_j3) + 28u);
    var_i2 = var_i2 != var_i3;
    var_j3 = var_l5;
    var_i3 = i32_load8_u(origin, (u64)(var_j3) + 29u);
    var_j4 = var_p3;
    var_i4 = i32_load8_u(origin, (u64)(var_j4) + 29u);
    var_i3 = var_i3 != var_i4;
    var_i4 = 1u;
    var_i3 <<= (var_i4 & 31);
    var_i2 |= var_i3;
    var_j3 = var_l5;
    var_i3 = i32_load8_u(origin, (u64)(var_j3) + 31u);
    var_j4 = var_p3;
    var_i4 = i32_load8_u(origin, (u64)(var_j4) + 31u);
    var_i3 = var_i3 != var_i4;
    var_i4 = 3u;
    var_i3 <<= (var_i4 & 31);
    var_j4 = var_l5;
    var_i4 = i32_load8_u(origin, (u64)(var_j4) + 30u);
    var_j5 = var_p3;
    var_i5 = i32_load8_u(origin, (u64)(var_j5) + 30u);
    var_i4 = var_i4 != var_i5;
    var_i5 = 2u;
    var_i4 <<= (var_i5 & 31);
    var_i3 |= var_i4;
    var_i2 |= var_i3;
    var_i3 = 12u;
    var_i2 <<= (var_i3 & 31);
    var_j3 = var_l5;
    var_i3 = i32_load8_u(origin, (u64)(var_j3) + 24u);
    var_j4 = var_p3;
    var_i4 = i32_load8_u(origin, (u64)(var_j4) + 24u);
    var_i3 = var_i3 != var_i4;
    var_j4 = var_l5;
    var_i4 = i32_load8_u(origin, (u64)(var_j4) + 25u);
    var_j5 = var_p3;
    var_i5 = i32_load8_u(origin, (u64)(var_j5) + 25u);
    var_i4 = var_i4 != var_i5;
    var_i5 = 1u;
    var_i4 <<= (var_i5 & 31);
    var_i3 |= var_i4;
    var_j4 = var_l5;
    var_i4 = i32_load8_u(origin, (u64)(var_j4) + 27u);
    var_j5 = var_p3;
    var_i5 = i32_load8_u(origin, (u64)(var_j5) + 27u);
    var_i4 = var_i4 != var_i5;
    var_i5 = 3u;
    var_i4 <<= (var_i5 & 31);
    var_j5 = var_l5;
    var_i5 = i32_load8_u(origin, (u64)(var_j5) + 26u);
    var_j6 = var_p3;
    var_i6 = i32_load8_u(origin, (u64)(var_j6) + 26u);
    var_i5 = var_i5 != var_i6;
    var_i6 = 2u;
    var_i5 <<= (var_i6 & 31);
    var_i4 |= var_i5;
    var_i3 |= var_i4;
    var_i4 = 8u;
    var_i3 <<= (var_i4 & 31);
    var_i2 |= var_i3;
    var_i1 |= var_i2;
    var_i0 |= var_i1;
    var_i1 = 65535u;
    var_i0 &= var_i1;
    if (var_i0) {goto var_B12;}
    var_j0 = var_p3;
    var_j1 = 32ull;
    var_j0 += var_j1;
    var_p3 = var_j0;
    var_j0 = var_l5;
    var_j1 = 32ull;
    var_j0 += var_j1;
    var_l5 = var_j0;
    var_j0 = var_l7;
    var_j1 = 18446744073709551584ull;
    var_j0 += var_j1;
    var_l7 = var_j0;
    var_j1 = 31ull;
    var_i0 = var_j0 > var_j1;
    if (var_i0) {goto var_L13;}
    goto var_B11;
  var_B12:;
  var_j0 = var_l7;
  var_j1 = 31ull;
  var_i0 = var_j0 > var_j1;
  if (var_i0) {goto var_B1;}
  var_B11:;
  var_j0 = var_p0;
  var_j1 = var_p1;
  var_j2 = 18446744073709551584ull;
  var_j1 += var_j2;
  var_l5 = var_j1;
  var_j0 += var_j1;
  var_p3 = var_j0;
  var_i0 = i32_load8_u(origin, (u64)(var_j0));
  var_j1 = var_p2;
  var_j2 = var_l5;
  var_j1 += var_j2;
  var_l5 = var_j1;
  var_i1 = i32_load8_u(origin, (u64)(var_j1));
  var_i0 = var_i0 != var_i1;
  var_j1 = var_p3;
  var_i1 = i32_load8_u(origin, (u64)(var_j1) + 1u);
  var_j2 = var_l5;
  var_i2 = i32_load8_u(origin, (u64)(var_j2) + 1u);
  var_i1 = var_i1 != var_i2;
  var_i2 = 1u;
  var_i1 <<= (var_i2 & 31);
  var_i0 |= var_i1;
  var_j1 = var_p3;
  var_i1 = i32_load8_u(origin, (u64)(var_j1) + 3u);
  var_j2 = var_l5;
  var_i2 = i32_load8_u(origin, (u64)(var_j2) + 3u);
  var_i1 = var_i1 != var_i2;
  var_i2 = 3u;
  var_i1 <<= (var_i2 & 31);
  var_j2 = var_p3;
  var_i2 = i32_load8_u(origin, (u64)(var_j2) + 2u);
  var_j3 = var_l5;
  var_i3 = i32_load8_u(origin, (u64)(var_j3) + 2u);
  var_i2 = var_i2 != var_i3;
  var_i3 = 2u;
  var_i2 <<= (var_i3 & 31);
  var_i1 |= var_i2;
  var_i0 |= var_i1;
  var_j1 = var_p3;
  var_i1 = i32_load8_u(origin, (u64)(var_j1) + 4u);
  var_j2 = var_l5;
  var_i2 = i32_load8_u(origin, (u64)(var_j2) + 4u);
  var_i1 = var_i1 != var_i2;
  var_j2 = var_p3;
  var_i2 = i32_load8_u(origin, (u64)(var_j2) + 5u);
  var_j3 = var_l5;
  var_i3 = i32_load8_u(origin, (u64)(var_j3) + 5u);
  var_i2 = var_i2 != var_i3;
  var_i3 = 1u;
  var_i2 <<= (var_i3 & 31);
  var_i1 |= var_i2;
  var_j2 = var_p3;
  var_i2 = i32_load8_u(origin, (u64)(var_j2) + 7u);
  var_j3 = var_l5;
  var_i3 = i32_load8_u(origin, (u64)(var_j3) + 7u);
  var_i2 = var_i2 != var_i3;
  var_i3 = 3u;
  var_i2 <<= (var_i3 & 31);
  var_j3 = var_p3;
  var_i3 = i32_load8_u(origin, (u64)(var_j3) + 6u);
  var_j4 = var_l5;
  var_i4 = i32_load8_u(origin, (u64)(var_j4) + 6u);
  var_i3 = var_i3 != var_i4;
  var_i4 = 2u;
  var_i3 <<= (var_i4 & 31);
  var_i2 |= var_i3;
  var_i1 |= var_i2;
  var_i2 = 4u;
  var_i1 <<= (var_i2 & 31);
  var_i0 |= var_i1;
  var_j1 = var_p3;
  var_i1 = i32_load8_u(origin, (u64)(var_j1) + 12u);
  var_j2 = var_l5;
  var_i2 = i32_load8_u(origin, (u64)(var_j2) + 12u);
  var_i1 = var_i1 != var_i2;
  var_j2 = var_p3;
  var_i2 = i32_load8_u(origin, (u64)(var_j2) + 13u);
  var_j3 = var_l5;
  var_i3 = i32_load8_u(origin, (u64)(var_j3) + 13u);
  var_i2 = var_i2 != var_i3;
  var_i3 = 1u;
  var_i2 <<= (var_i3 & 31);
  var_i1 |= var_i2;
  var_j2 = var_p3;
  var_i2 = i32_load8_u(origin, (u64)(var_j2) + 15u);
  var_j3 = var_l5;
  var_i3 = i32_load8_u(origin, (u64)(var_j3) + 15u);
  var_i2 = var_i2 != var_i3;
  var_i3 = 3u;
  var_i2 <<= (var_i3 & 31);
  var_j3 = var_p3;
  var_i3 = i32_load8_u(origin, (u64)(var_j3) + 14u);
  var_j4 = var_l5;
  var_i4 = i32_load8_u(origin, (u64)(var_j4) + 14u);
  var_i3 = var_i3 != var_i4;
  var_i4 = 2u;
  var_i3 <<= (var_i4 & 31);
  var_i2 |= var_i3;
  var_i1 |= var_i2;
  var_i2 = 12u;
  var_i1 <<= (var_i2 & 31);
  var_j2 = var_p3;
  var_i2 = i32_load8_u(origin, (u64)(var_j2) + 8u);
  var_j3 = var_l5;
  var_i3 = i32_load8_u(origin, (u64)(var_j3) + 8u);
  var_i2 = var_i2 != var_i3;
  var_j3 = var_p3;
  var_i3 = i32_load8_u(origin, (u64)(var_j3) + 9u);
  var_j4 = var_l5;
  var_i4 = i32_load8_u(origin, (u64)(var_j4) + 9u);
  var_i3 = var_i3 != var_i4;
  var_i4 = 1u;
  var_i3 <<= (var_i4 & 31);
  var_i2 |= var_i3;
  var_j3 = var_p3;
  var_i3 = i32_load8_u(origin, (u64)(var_j3) + 11u);
  var_j4 = var_l5;
  var_i4 = i32_load8_u(origin, (u64)(var_j4) + 11u);
  var_i3 = var_i3 != var_i4;
  var_i4 = 3u;
  var_i3 <<= (var_i4 & 31);
  var_j4 = var_p3;
  var_i4 = i32_load8_u(origin, (u64)(var_j4) + 10u);
  var_j5 = var_l5;
  var_i5 = i32_load8_u(origin, (u64)(var_j5) + 10u);
  var_i4 = var_i4 != var_i5;
  var_i5 = 2u;
  var_i4 <<= (var_i5 & 31);
  var_i3 |= var_i4;
  var_i2 |= var_i3;
  var_i3 = 8u;
  var_i2 <<= (var_i3 & 31);
  var_i1 |= var_i2;
  var_i0 |= var_i1;
  var_j1 = var_p3;
  var_i1 = i32_load8_u(origin, (u64)(var_j1) + 16u);
  var_j2 = var_l5;
  var_i2 = i32_load8_u(origin, (u64)(var_j2) + 16u);
  var_i1 = var_i1 != var_i2;
  var_j2 = var_p3;
  var_i2 = i32_load8_u(origin, (u64)(var_j2) + 17u);
  var_j3 = var_l5;
  var_i3 = i32_load8_u(origin, (u64)(var_j3) + 17u);
  var_i2 = var_i2 != var_i3;
  var_i3 = 1u;
  var_i2 <<= (var_i3 & 31);
  var_i1 |= var_i2;
  var_j2 = var_p3;
  var_i2 = i32_load8_u(origin, (u64)(var_j2) + 19u);
  var_j3 = var_l5;
  var_i3 = i32_load8_u(origin, (u64)(var_j3) + 19u);
  var_i2 = var_i2 != var_i3;
  var_i3 = 3u;
  var_i2 <<= (var_i3 & 31);
  var_j3 = var_p3;
  var_i3 = i32_load8_u(origin, (u64)(var_j3) + 18u);
  var_j4 = var_l5;
  var_i4 = i32_load8_u(origin, (u64)(var_j4) + 18u);
  var_i3 = var_i3 != var_i4;
  var_i4 = 2u;
  var_i3 <<= (var_i4 & 31);
  var_i2 |= var_i3;
  var_i1 |= var_i2;
  var_j2 = var_p3;
  var_i2 = i32_load8_u(origin, (u64)(var_j2) + 20u);
  var_j3 = var_l5;
  var_i3 = i32_load8_u(origin, (u64)(var_j3) + 20u);
  var_i2 = var_i2 != var_i3;
  var_j3 = var_p3;
  var_i3 = i32_load8_u(origin, (u64)(var_j3) + 21u);
  var_j4 = var_l5;
  var_i4 = i32_load8_u(origin, (u64)(var_j4) + 21u);
  var_i3 = var_i3 != var_i4;
  var_i4 = 1u;
  var_i3 <<= (var_i4 & 31);
  var_i2 |= var_i3;
  var_j3 = var_p3;
  var_i3 = i32_load8_u(origin, (u64)(var_j3) + 23u);
  var_j4 = var_l5;
  var_i4 = i32_load8_u(origin, (u64)(var_j4) + 23u);
  var_i3 = var_i3 != var_i4;
  var_i4 = 3u;
  var_i3 <<= (var_i4 & 31);
  var_j4 = var_p3;
  var_i4 = i32_load8_u(origin, (u64)(var_j4) + 22u);
  var_j5 = var_l5;
  var_i5 = i32_load8_u(origin, (u64)(var_j5) + 22u);
  var_i4 = var_i4 != var_i5;
  var_i5 = 2u;
  var_i4 <<= (var_i5 & 31);
  var_i3 |= var_i4;
  var_i2 |= var_i3;
  var_i3 = 4u;
  var_i2 <<= (var_i3 & 31);
  var_i1 |= var_i2;
  var_j2 = var_p3;
  var_i2 = i32_load8_u(origin, (u64)(var_j2) + 28u);
  var_j3 = var_l5;
  var_i3 = i32_load8_u(origin, (u64)(var_j3) + 28u);
  var_i2 = var_i2 != var_i3;
  var_j3 = var_p3;
  var_i3 = i32_load8_u(origin, (u64)(var_j3) + 29u);
  var_j4 = var_l5;
  var_i4 = i32_load8_u(origin, (u64)(var_j4) + 29u);
  var_i3 = var_i3 != var_i4;
  var_i4 = 1u;
  var_i3 <<= (var_i4 & 31);
  var_i2 |= var_i3;
  var_j3 = var_p3;
  var_i3 = i32_load8_u(origin, (u64)(var_j3) + 31u);
  var_j4 = var_l5;
  var_i4 = i32_load8_u(origin, (u64)(var_j4) + 31u);
  var_i3 = var_i3 != var_i4;
  var_i4 = 3u;
  var_i3 <<= (var_i4 & 31);
  var_j4 = var_p3;
  var_i4 = i32_load8_u(origin, (u64)(var_j4) + 30u);
  var_j5 = var_l5;
  var_i5 = i32_load8_u(origin, (u64)(var_j5) + 30u);
  var_i4 = var_i4 != var_i5;
  var_i5 = 2u;
  var_i4 <<= (var_i5 & 31);
  var_i3 |= var_i4;
  var_i2 |= var_i3;
  var_i3 = 12u;
  var_i2 <<= (var_i3 & 31);
  var_j3 = var_p3;
  var_i3 = i32_load8_u(origin, (u64)(var_j3) + 24u);
  var_j4 = var_l5;
  var_i4 = i32_load8_u(origin, (u64)(var_j4) + 24u);
  var_i3 = var_i3 != var_i4;
  var_j4 = var_p3;
  var_i4 = i32_load8_u(origin, (u64)(var_j4) + 25u);
  var_j5 = var_l5;
  var_i5 = i32_load8_u(origin, (u64)(var_j5) + 25u);
  var_i4 = var_i4 != var_i5;
  var_i5 = 1u;
  var_i4 <<= (var_i5 & 31);
  var_i3 |= var_i4;
  var_j4 = var_p3;
  var_i4 = i32_load8_u(origin, (u64)(var_j4) + 27u);
  var_j5 = var_l5;
  var_i5 = i32_load8_u(origin, (u64)(var_j5) + 27u);
  var_i4 = var_i4 != var_i5;
  var_i5 = 3u;
  var_i4 <<= (var_i5 & 31);
  var_j5 = var_p3;
  var_i5 = i32_load8_u(origin, (u64)(var_j5) + 26u);
  var_j6 = var_l5;
  var_i6 = i32_load8_u(origin, (u64)(var_j6) + 26u);
  var_i5 = var_i5 != var_i6;
  var_i6 = 2u;
  var_i5 <<= (var_i6 & 31);
  var_i4 |= var_i5;
  var_i3 |= var_i4;
  var_i4 = 8u;
  var_i3 <<= (var_i4 & 31);
  var_i2 |= var_i3;
  var_i1 |= var_i2;
  var_i0 |= var_i1;
  var_i1 = 65535u;
  var_i0 &= var_i1;
  var_i1 = 0u;
  var_i0 = var_i0 != var_i1;
  var_l4 = var_i0;
  goto var_B1;
  var_B3:;
  UNREACHABLE;
  var_B2:;
  var_j0 = var_p0;
  var_j1 = var_p1;
  var_j2 = 18446744073709551584ull;
  var_j1 += var_j2;
  var_l5 = var_j1;
  var_j0 += var_j1;
  var_p3 = var_j0;
  var_i0 = i32_load8_u(origin, (u64)(var_j0));
  var_j1 = var_p2;
  var_j2 = var_l5;
  var_j1 += var_j2;
  var_l5 = var_j1;
  var_i1 = i32_load8_u(origin, (u64)(var_j1));
  var_i0 = var_i0 != var_i1;
  var_j1 = var_p3;
  var_i1 = i32_load8_u(origin, (u64)(var_j1) + 1u);
  var_j2 = var_l5;
  var_i2 = i32_load8_u(origin, (u64)(var_j2) + 1u);
  var_i1 = var_i1 != var_i2;
  var_i2 = 1u;
  var_i1 <<= (var_i2 & 31);
  var_i0 |= var_i1;
  var_j1 = var_p3;
  var_i1 = i32_load8_u(origin, (u64)(var_j1) + 3u);
  var_j2 = var_l5;
  var_i2 = i32_load8_u(origin, (u64)(var_j2) + 3u);
  var_i1 = var_i1 != var_i2;
  var_i2 = 3u;
  var_i1 <<= (var_i2 & 31);
  var_j2 = var_p3;
  var_i2 = i32_load8_u(origin, (u64)(var_j2) + 2u);
  var_j3 = var_l5;
  var_i3 = i32_load8_u(origin, (u64)(var_j3) + 2u);
  var_i2 = var_i2 != var_i3;
  var_i3 = 2u;
  var_i2 <<= (var_i3 & 31);
  var_i1 |= var_i2;
  var_i0 |= var_i1;
  var_j1 = var_p3;
  var_i1 = i32_load8_u(origin, (u64)(var_j1) + 4u);
  var_j2 = var_l5;
  var_i2 = i32_load8_u(origin, (u64)(var_j2) + 4u);
  var_i1 = var_i1 != var_i2;
  var_j2 = var_p3;
  var_i2 = i32_load8_u(origin, (u64)(var_j2) + 5u);
  var_j3 = var_l5;
  var_i3 = i32_load8_u(origin, (u64)(var_j3) + 5u);
  var_i2 = var_i2 != var_i3;
  var_i3 = 1u;
  var_i2 <<= (var_i3 & 31);
  var_i1 |= var_i2;
  var_j2 = var_p3;
  var_i2 = i32_load8_u(origin, (u64)(var_j2) + 7u);
  var_j3 = var_l5;
  var_i3 = i32_load8_u(origin, (u64)(var_j3) + 7u);
  var_i2 = var_i2 != var_i3;
  var_i3 = 3u;
  var_i2 <<= (var_i3 & 31);
  var_j3 = var_p3;
  var_i3 = i32_load8_u(origin, (u64)(var_j3) + 6u);
  var_j4 = var_l5;
  var_i4 = i32_load8_u(origin, (u64)(var_j4) + 6u);
  var_i3 = var_i3 != var_i4;
  var_i4 = 2u;
  var_i3 <<= (var_i4 & 31);
  var_i2 |= var_i3;
  var_i1 |= var_i2;
  var_i2 = 4u;
  var_i1 <<= (var_i2 & 31);
  var_i0 |= var_i1;
  var_j1 = var_p3;
  var_i1 = i32_load8_u(origin, (u64)(var_j1) + 12u);
  var_j2 = var_l5;
  var_i2 = i32_load8_u(origin, (u64)(var_j2) + 12u);
  var_i1 = var_i1 != var_i2;
  var_j2 = var_p3;
  var_i2 = i32_load8_u(origin, (u64)(var_j2) + 13u);
  var_j3 = var_l5;
  var_i3 = i32_load8_u(origin, (u64)(var_j3) + 13u);
  var_i2 = var_i2 != var_i3;
  var_i3 = 1u;
  var_i2 <<= (var_i3 & 31);
  var_i1 |= var_i2;
  var_j2 = var_p3;
  var_i2 = i32_load8_u(origin, (u64)(var_j2) + 15u);
  var_j3 = var_l5;
  var_i3 = i32_load8_u(origin, (u64)(var_j3) + 15u);
  var_i2 = var_i2 != var_i3;
  var_i3 = 3u;
  var_i2 <<= (var_i3 & 31);
  var_j3 = var_p3;
  var_i3 = i32_load8_u(origin, (u64)(var_j3) + 14u);
  var_j4 = var_l5;
  var_i4 = i32_load8_u(origin, (u64)(var_j4) + 14u);
  var_i3 = var_i3 != var_i4;
  var_i4 = 2u;
  var_i3 <<= (var_i4 & 31);
  var_i2 |= var_i3;
  var_i1 |= var_i2;
  var_i2 = 12u;
  var_i1 <<= (var_i2 & 31);
  var_j2 = var_p3;
  var_i2 = i32_load8_u(origin, (u64)(var_j2) + 8u);
  var_j3 = var_l5;
  var_i3 = i32_load8_u(origin, (u64)(var_j3) + 8u);
  var_i2 = var_i2 != var_i3;
  var_j3 = var_p3;
  var_i3 = i32_load8_u(origin, (u64)(var_j3) + 9u);
  var_j4 = var_l5;
  var_i4 = i32_load8_u(origin, (u64)(var_j4) + 9u);
  var_i3 = var_i3 != var_i4;
  var_i4 = 1u;
  var_i3 <<= (var_i4 & 31);
  var_i2 |= var_i3;
  var_j3 = var_p3;
  var_i3 = i32_load8_u(origin, (u64)(var_j3) + 11u);
  var_j4 = var_l5;
  var_i4 = i32_load8_u(origin, (u64)(var_j4) + 11u);
  var_i3 = var_i3 != var_i4;
  var_i4 = 3u;
  var_i3 <<= (var_i4 & 31);
  var_j4 = var_p3;
  var_i4 = i32_load8_u(origin, (u64)(var_j4) + 10u);
  var_j5 = var_l5;
  var_i5 = i32_load8_u(origin, (u64)(var_j5) + 10u);
  var_i4 = var_i4 != var_i5;
  var_i5 = 2u;
  var_i4 <<= (var_i5 & 31);
  var_i3 |= var_i4;
  var_i2 |= var_i3;
  var_i3 = 8u;
  var_i2 <<= (var_i3 & 31);
  var_i1 |= var_i2;
  var_i0 |= var_i1;
  var_j1 = var_p3;
  var_i1 = i32_load8_u(origin, (u64)(var_j1) + 16u);
  var_j2 = var_l5;
  var_i2 = i32_load8_u(origin, (u64)(var_j2) + 16u);
  var_i1 = var_i1 != var_i2;
  var_j2 = var_p3;
  var_i2 = i32_load8_u(origin, (u64)(var_j2) + 17u);
  var_j3 = var_l5;
  var_i3 = i32_load8_u(origin, (u64)(var_j3) + 17u);
  var_i2 = var_i2 != var_i3;
  var_i3 = 1u;
  var_i2 <<= (var_i3 & 31);
  var_i1 |= var_i2;
  var_j2 = var_p3;
  var_i2 = i32_load8_u(origin, (u64)(var_j2) + 19u);
  var_j3 = var_l5;
  var_i3 = i32_load8_u(origin, (u64)(var_j3) + 19u);
  var_i2 = var_i2 != var_i3;
  var_i3 = 3u;
  var_i2 <<= (var_i3 & 31);
  var_j3 = var_p3;
  var_i3 = i32_load8_u(origin, (u64)(var_j3) + 18u);
  var_j4 = var_l5;
  var_i4 = i32_load8_u(origin, (u64)(var_j4) + 18u);
  var_i3 = var_i3 != var_i4;
  var_i4 = 2u;
  var_i3 <<= (var_i4 & 31);
  var_i2 |= var_i3;
  var_i1 |= var_i2;
  var_j2 = var_p3;
  var_i2 = i32_load8_u(origin, (u64)(var_j2) + 20u);
  var_j3 = var_l5;
  var_i3 = i32_load8_u(origin, (u64)(var_j3) + 20u);
  var_i2 = var_i2 != var_i3;
  var_j3 = var_p3;
  var_i3 = i32_load8_u(origin, (u64)(var_j3) + 21u);
  var_j4 = var_l5;
  var_i4 = i32_load8_u(origin, (u64)(var_j4) + 21u);
  var_i3 = var_i3 != var_i4;
  var_i4 = 1u;
  var_i3 <<= (var_i4 & 31);
  var_i2 |= var_i3;
  var_j3 = var_p3;
  var_i3 = i32_load8_u(origin, (u64)(var_j3) + 23u);
  var_j4 = var_l5;
  var_i4 = i32_load8_u(origin, (u64)(var_j4) + 23u);
  var_i3 = var_i3 != var_i4;
  var_i4 = 3u;
  var_i3 <<= (var_i4 & 31);
  var_j4 = var_p3;
  var_i4 = i32_load8_u(origin, (u64)(var_j4) + 22u);
  var_j5 = var_l5;
  var_i5 = i32_load8_u(origin, (u64)(var_j5) + 22u);
  var_i4 = var_i4 != var_i5;
  var_i5 = 2u;
  var_i4 <<= (var_i5 & 31);
  var_i3 |= var_i4;
  var_i2 |= var_i3;
  var_i3 = 4u;
  var_i2 <<= (var_i3 & 31);
  var_i1 |= var_i2;
  var_j2 = var_p3;
  var_i2 = i32_load8_u(origin, (u64)(var_j2) + 28u);
  var_j3 = var_l5;
  var_i3 = i32_load8_u(origin, (u64)(var_j3) + 28u);
  var_i2 = var_i2 != var_i3;
  var_j3 = var_p3;
  var_i3 = i32_load8_u(origin, (u64)(var_j3) + 29u);
  var_j4 = var_l5;
  var_i4 = i32_load8_u(origin, (u64)(var_j4) + 29u);
  var_i3 = var_i3 != var_i4;
  var_i4 = 1u;
  var_i3 <<= (var_i4 & 31);
  var_i2 |= var_i3;
  var_j3 = var_p3;
  var_i3 = i32_load8_u(origin, (u64)(var_j3) + 31u);
  var_j4 = var_l5;
  var_i4 = i32_load8_u(origin, (u64)(var_j4) + 31u);
  var_i3 = var_i3 != var_i4;
  var_i4 = 3u;
  var_i3 <<= (var_i4 & 31);
  var_j4 = var_p3;
  var_i4 = i32_load8_u(origin, (u64)(var_j4) + 30u);
  var_j5 = var_l5;
  var_i5 = i32_load8_u(origin, (u64)(var_j5) + 30u);
  var_i4 = var_i4 != var_i5;
  var_i5 = 2u;
  var_i4 <<= (var_i5 & 31);
  var_i3 |= var_i4;
  var_i2 |= var_i3;
  var_i3 = 12u;
  var_i2 <<= (var_i3 & 31);
  var_j3 = var_p3;
  var_i3 = i32_load8_u(origin, (u64)(var_j3) + 24u);
  var_j4 = var_l5;
  var_i4 = i32_load8_u(origin, (u64)(var_j4) + 24u);
  var_i3 = var_i3 != var_i4;
  var_j4 = var_p3;
  var_i4 = i32_load8_u(origin, (u64)(var_j4) + 25u);
  var_j5 = var_l5;
  var_i5 = i32_load8_u(origin, (u64)(var_j5) + 25u);
  var_i4 = var_i4 != var_i5;
  var_i5 = 1u;
  var_i4 <<= (var_i5 & 31);
  var_i3 |= var_i4;
  var_j4 = var_p3;
  var_i4 = i32_load8_u(origin, (u64)(var_j4) + 27u);
  var_j5 = var_l5;
  var_i5 = i32_load8_u(origin, (u64)(var_j5) + 27u);
  var_i4 = var_i4 != var_i5;
  var_i5 = 3u;
  var_i4 <<= (var_i5 & 31);
  var_j5 = var_p3;
  var_i5 = i32_load8_u(origin, (u64)(var_j5) + 26u);
  var_j6 = var_l5;
  var_i6 = i32_load8_u(origin, (u64)(var_j6) + 26u);
  var_i5 = var_i5 != var_i6;
  var_i6 = 2u;
  var_i5 <<= (var_i6 & 31);
  var_i4 |= var_i5;
  var_i3 |= var_i4;
  var_i4 = 8u;
  var_i3 <<= (var_i4 & 31);
  var_i2 |= var_i3;
  var_i1 |= var_i2;
  var_i0 |= var_i1;
  var_i1 = 65535u;
  var_i0 &= var_i1;
  var_i1 = 0u;
  var_i0 = var_i0 != var_i1;
  var_j1 = var_p0;
  var_i1 = i32_load8_u(origin, (u64)(var_j1));
  var_j2 = var_p2;
  var_i2 = i32_load8_u(origin, (u64)(var_j2));
  var_i1 = var_i1 != var_i2;
  var_i0 |= var_i1;
  var_j1 = var_p0;
  var_j2 = 1ull;
  var_j1 += var_j2;
  var_i1 = i32_load8_u(origin, (u64)(var_j1));
  var_j2 = var_p2;
  var_j3 = 1ull;
  var_j2 += var_j3;
  var_i2 = i32_load8_u(origin, (u64)(var_j2));
  var_i1 = var_i1 != var_i2;
  var_j2 = var_p0;
  var_j3 = 2ull;
  var_j2 += var_j3;
  var_i2 = i32_load8_u(origin, (u64)(var_j2));
  var_j3 = var_p2;
  var_j4 = 2ull;
  var_j3 += var_j4;
  var_i3 = i32_load8_u(origin, (u64)(var_j3));
  var_i2 = var_i2 != var_i3;
  var_i1 |= var_i2;
  var_i0 |= var_i1;
  var_j1 = var_p0;
  var_j2 = 3ull;
  var_j1 += var_j2;
  var_i1 = i32_load8_u(origin, (u64)(var_j1));
  var_j2 = var_p2;
  var_j3 = 3ull;
  var_j2 += var_j3;
  var_i2 = i32_load8_u(origin, (u64)(var_j2));
  var_i1 = var_i1 != var_i2;
  var_j2 = var_p0;
  var_j3 = 4ull;
  var_j2 += var_j3;
  var_i2 = i32_load8_u(origin, (u64)(var_j2));
  var_j3 = var_p2;
  var_j4 = 4ull;
  var_j3 += var_j4;
  var_i3 = i32_load8_u(origin, (u64)(var_j3));
  var_i2 = var_i2 != var_i3;
  var_i1 |= var_i2;
  var_j2 = var_p0;
  var_j3 = 5ull;
  var_j2 += var_j3;
  var_i2 = i32_load8_u(origin, (u64)(var_j2));
  var_j3 = var_p2;
  var_j4 = 5ull;
  var_j3 += var_j4;
  var_i3 = i32_load8_u(origin, (u64)(var_j3));
  var_i2 = var_i2 != var_i3;
  var_j3 = var_p0;
  var_j4 = 6ull;
  var_j3 += var_j4;
  var_i3 = i32_load8_u(origin, (u64)(var_j3));
  var_j4 = var_p2;
  var_j5 = 6ull;
  var_j4 += var_j5;
  var_i4 = i32_load8_u(origin, (u64)(var_j4));
  var_i3 = var_i3 != var_i4;
  var_i2 |= var_i3;
  var_i1 |= var_i2;
  var_i0 |= var_i1;
  var_j1 = var_p0;
  var_j2 = 7ull;
  var_j1 += var_j2;
  var_i1 = i32_load8_u(origin, (u64)(var_j1));
  var_j2 = var_p2;
  var_j3 = 7ull;
  var_j2 += var_j3;
  var_i2 = i32_load8_u(origin, (u64)(var_j2));
  var_i1 = var_i1 != var_i2;
  var_j2 = var_p0;
  var_j3 = 8ull;
  var_j2 += var_j3;
  var_i2 = i32_load8_u(origin, (u64)(var_j2));
  var_j3 = var_p2;
  var_j4 = 8ull;
  var_j3 += var_j4;
  var_i3 = i32_load8_u(origin, (u64)(var_j3));
  var_i2 = var_i2 != var_i3;
  var_i1 |= var_i2;
  var_j2 = var_p0;
  var_j3 = 9ull;
  var_j2 += var_j3;
  var_i2 = i32_load8_u(origin, (u64)(var_j2));
  var_j3 = var_p2;
  var_j4 = 9ull;
  var_j3 += var_j4;
  var_i3 = i32_load8_u(origin, (u64)(var_j3));
  var_i2 = var_i2 != var_i3;
  var_j3 = var_p0;
  var_j4 = 10ull;
  var_j3 += var_j4;
  var_i3 = i32_load8_u(origin, (u64)(var_j3));
  var_j4 = var_p2;
  var_j5 = 10ull;
  var_j4 += var_j5;
  var_i4 = i32_load8_u(origin, (u64)(var_j4));
  var_i3 = var_i3 != var_i4;
  var_i2 |= var_i3;
  var_i1 |= var_i2;
  var_j2 = var_p0;
  var_j3 = 11ull;
  var_j2 += var_j3;
  var_i2 = i32_load8_u(origin, (u64)(var_j2));
  var_j3 = var_p2;
  var_j4 = 11ull;
  var_j3 += var_j4;
  var_i3 = i32_load8_u(origin, (u64)(var_j3));
  var_i2 = var_i2 != var_i3;
  var_j3 = var_p0;
  var_j4 = 12ull;
  var_j3 += var_j4;
  var_i3 = i32_load8_u(origin, (u64)(var_j3));
  var_j4 = var_p2;
  var_j5 = 12ull;
  var_j4 += var_j5;
  var_i4 = i32_load8_u(origin, (u64)(var_j4));
  var_i3 = var_i3 != var_i4;
  var_i2 |= var_i3;
  var_j3 = var_p0;
  var_j4 = 13ull;
  var_j3 += var_j4;
  var_i3 = i32_load8_u(origin, (u64)(var_j3));
  var_j4 = var_p2;
  var_j5 = 13ull;
  var_j4 += var_j5;
  var_i4 = i32_load8_u(origin, (u64)(var_j4));
  var_i3 = var_i3 != var_i4;
  var_j4 = var_p0;
  var_j5 = 14ull;
  var_j4 += var_j5;
  var_i4 = i32_load8_u(origin, (u64)(var_j4));
  var_j5 = var_p2;
  var_j6 = 14ull;
  var_j5 += var_j6;
  var_i5 = i32_load8_u(origin, (u64)(var_j5));
  var_i4 = var_i4 != var_i5;
  var_i3 |= var_i4;
  var_i2 |= var_i3;
  var_i1 |= var_i2;
  var_i0 |= var_i1;
  var_j1 = var_p0;
  var_j2 = 15ull;
  var_j1 += var_j2;
  var_i1 = i32_load8_u(origin, (u64)(var_j1));
  var_j2 = var_p2;
  var_j3 = 15ull;
  var_j2 += var_j3;
  var_i2 = i32_load8_u(origin, (u64)(var_j2));
  var_i1 = var_i1 != var_i2;
  var_j2 = var_p0;
  var_j3 = 16ull;
  var_j2 += var_j3;
  var_i2 = i32_load8_u(origin, (u64)(var_j2));
  var_j3 = var_p2;
  var_j4 = 16ull;
  var_j3 += var_j4;
  var_i3 = i32_load8_u(origin, (u64)(var_j3));
  var_i2 = var_i2 != var_i3;
  var_i1 |= var_i2;
  var_j2 = var_p0;
  var_j3 = 17ull;
  var_j2 += var_j3;
  var_i2 = i32_load8_u(origin, (u64)(var_j2));
  var_j3 = var_p2;
  var_j4 = 17ull;
  var_j3 += var_j4;
  var_i3 = i32_load8_u(origin, (u64)(var_j3));
  var_i2 = var_i2 != var_i3;
  var_j3 = var_p0;
  var_j4 = 18ull;
  var_j3 += var_j4;
  var_i3 = i32_load8_u(origin, (u64)(var_j3));
  var_j4 = var_p2;
  var_j5 = 18ull;
  var_j4 += var_j5;
  var_i4 = i32_load8_u(origin, (u64)(var_j4));
  var_i3 = var_i3 != var_i4;
  var_i2 |= var_i3;
  var_i1 |= var_i2;
  var_j2 = var_p0;
  var_j3 = 19ull;
  var_j2 += var_j3;
  var_i2 = i32_load8_u(origin, (u64)(var_j2));
  var_j3 = var_p2;
  var_j4 = 19ull;
  var_j3 += var_j4;
  var_i3 = i32_load8_u(origin, (u64)(var_j3));
  var_i2 = var_i2 != var_i3;
  var_j3 = var_p0;
  var_j4 = 20ull;
  var_j3 += var_j4;
  var_i3 = i32_load8_u(origin, (u64)(var_j3));
  var_j4 = var_p2;
  var_j5 = 20ull;
  var_j4 += var_j5;
  var_i4 = i32_load8_u(origin, (u64)(var_j4));
  var_i3 = var_i3 != var_i4;
  var_i2 |= var_i3;
  var_j3 = var_p0;
  var_j4 = 21ull;
  var_j3 += var_j4;
  var_i3 = i32_load8_u(origin, (u64)(var_j3));
  var_j4 = var_p2;
  var_j5 = 21ull;
  var_j4 += var_j5;
  var_i4 = i32_load8_u(origin, (u64)(var_j4));
  var_i3 = var_i3 != var_i4;
  var_j4 = var_p0;
  var_j5 = 22ull;
  var_j4 += var_j5;
  var_i4 = i32_load8_u(origin, (u64)(var_j4));
  var_j5 = var_p2;
  var_j6 = 22ull;
  var_j5 += var_j6;
  var_i5 = i32_load8_u(origin, (u64)(var_j5));
  var_i4 = var_i4 != var_i5;
  var_i3 |= var_i4;
  var_i2 |= var_i3;
  var_i1 |= var_i2;
  var_j2 = var_p0;
  var_j3 = 23ull;
  var_j2 += var_j3;
  var_i2 = i32_load8_u(origin, (u64)(var_j2));
  var_j3 = var_p2;
  var_j4 = 23ull;
  var_j3 += var_j4;
  var_i3 = i32_load8_u(origin, (u64)(var_j3));
  var_i2 = var_i2 != var_i3;
  var_j3 = var_p0;
  var_j4 = 24ull;
  var_j3 += var_j4;
  var_i3 = i32_load8_u(origin, (u64)(var_j3));
  var_j4 = var_p2;
  var_j5 = 24ull;
  var_j4 += var_j5;
  var_i4 = i32_load8_u(origin, (u64)(var_j4));
  var_i3 = var_i3 != var_i4;
  var_i2 |= var_i3;
  var_j3 = var_p0;
  var_j4 = 25ull;
  var_j3 += var_j4;
  var_i3 = i32_load8_u(origin, (u64)(var_j3));
  var_j4 = var_p2;
  var_j5 = 25ull;
  var_j4 += var_j5;
  var_i4 = i32_load8_u(origin, (u64)(var_j4));
  var_i3 = var_i3 != var_i4;
  var_j4 = var_p0;
  var_j5 = 26ull;
  var_j4 += var_j5;
  var_i4 = i32_load8_u(origin, (u64)(var_j4));
  var_j5 = var_p2;
  var_j6 = 26ull;
  var_j5 += var_j6;
  var_i5 = i32_load8_u(origin, (u64)(var_j5));
  var_i4 = var_i4 != var_i5;
  var_i3 |= var_i4;
  var_i2 |= var_i3;
  var_j3 = var_p0;
  var_j4 = 27ull;
  var_j3 += var_j4;
  var_i3 = i32_load8_u(origin, (u64)(var_j3));
  var_j4 = var_p2;
  var_j5 = 27ull;
  var_j4 += var_j5;
  var_i4 = i32_load8_u(origin, (u64)(var_j4));
  var_i3 = var_i3 != var_i4;
  var_j4 = var_p0;
  var_j5 = 28ull;
  var_j4 += var_j5;
  var_i4 = i32_load8_u(origin, (u64)(var_j4));
  var_j5 = var_p2;
  var_j6 = 28ull;
  var_j5 += var_j6;
  var_i5 = i32_load8_u(origin, (u64)(var_j5));
  var_i4 = var_i4 != var_i5;
  var_i3 |= var_i4;
  var_j4 = var_p0;
  var_j5 = 29ull;
  var_j4 += var_j5;
  var_i4 = i32_load8_u(origin, (u64)(var_j4));
  var_j5 = var_p2;
  var_j6 = 29ull;
  var_j5 += var_j6;
  var_i5 = i32_load8_u(origin, (u64)(var_j5));
  var_i4 = var_i4 != var_i5;
  var_j5 = var_p0;
  var_j6 = 30ull;
  var_j5 += var_j6;
  var_i5 = i32_load8_u(origin, (u64)(var_j5));
  var_j6 = var_p2;
  var_j7 = 30ull;
  var_j6 += var_j7;
  var_i6 = i32_load8_u(origin, (u64)(var_j6));
  var_i5 = var_i5 != var_i6;
  var_i4 |= var_i5;
  var_i3 |= var_i4;
  var_i2 |= var_i3;
  var_i1 |= var_i2;
  var_i0 |= var_i1;
  var_j1 = var_p0;
  var_j2 = 31ull;
  var_j1 += var_j2;
  var_i1 = i32_load8_u(origin, (u64)(var_j1));
  var_j2 = var_p2;
  var_j3 = 31ull;
  var_j2 += var_j3;
  var_i2 = i32_load8_u(origin, (u64)(var_j2));
  var_i1 = var_i1 != var_i2;
  var_i0 |= var_i1;
  var_l4 = var_i0;
  var_B1:;
  var_i0 = var_l4;
  var_i1 = 1u;
  var_i0 ^= var_i1;
  var_l4 = var_i0;
  var_B0:;
  var_i0 = var_l4;
  var_i1 = 1u;
  var_i0 &= var_i1;
  FUNC_EPILOGUE;
  return var_i0;
}

static void w2c_lockreplay_core0x3A0x3Aslice0x3A0x3Aparts0x3A0x3Aslice0x2BT0x3A0x3Astrip_prefix0x3A0x3A0x3Ci80x2C310x27core0x3A0x3Acmp0x3A0x3Anumbers0x3A0x3AU8PartialEq0x7B0x7D0x3E(w2c_lockreplay* instance, u64 var_p0, u64 var_p1, u64 var_p2, u64 var_p3, u64 var_p4) {
  u32 var_l9 = 0;
  u64 var_l5 = 0, var_l6 = 0, var_l7 = 0, var_l8 = 0;
  FUNC_PROLOGUE;
  u32 var_i0, var_i2;
  u64 var_j0, var_j1, var_j2, var_j3, var_j4, var_j5;
  var_j0 = instance->w2c_0x5F_stack_pointer;
  var_l5 = var_j0;
  var_j1 = 16ull;
  var_i0 = (u64)((s64)var_j0 < (s64)var_j1);
  if (var_i0) {goto var_B0;}
  var_j0 = 0ull;
  var_l6 = var_j0;
  var_j0 = 0ull;
  var_l7 = var_j0;
  var_j0 = 0ull;
  var_l8 = var_j0;
  var_j0 = var_p2;
  var_j1 = var_p4;
  var_i0 = var_j0 < var_j1;
  if (var_i0) {goto var_B1;}
  var_j0 = var_p2;
  var_j1 = var_p4;
  var_j0 -= var_j1;
  var_j1 = 0ull;
  var_j2 = var_p1;
  var_j3 = var_p4;
  var_j4 = var_p3;
  var_j5 = var_p4;
  var_i2 = w2c_lockreplay_core0x3A0x3Acmp0x3A0x3Aslices0x3A0x3Aparts_equal0x3A0x3A0x3Ci80x2C310x27core0x3A0x3Acmp0x3A0x3Anumbers0x3A0x3AU8PartialEq0x7B0x7D0x3E(instance, var_j2, var_j3, var_j4, var_j5);
  var_l9 = var_i2;
  var_j0 = var_i2 ? var_j0 : var_j1;
  var_l8 = var_j0;
  var_j0 = var_p1;
  var_j1 = var_p4;
  var_j0 += var_j1;
  var_j1 = 0ull;
  var_i2 = var_l9;
  var_j0 = var_i2 ? var_j0 : var_j1;
  var_l7 = var_j0;
  var_i0 = var_l9;
  var_j0 = (u64)(var_i0);
  var_l6 = var_j0;
  var_B1:;
  var_j0 = var_p0;
  var_j1 = var_l6;
  i64_store(origin, (u64)(var_j0), var_j1);
  var_j0 = var_p0;
  var_j1 = 16ull;
  var_j0 += var_j1;
  var_j1 = var_l8;
  i64_store(origin, (u64)(var_j0), var_j1);
  var_j0 = var_p0;
  var_j1 = 8ull;
  var_j0 += var_j1;
  var_j1 = var_l7;
  i64_store(origin, (u64)(var_j0), var_j1);
  var_j0 = var_l5;
  instance->w2c_0x5F_stack_pointer = var_j0;
  goto var_Bfunc;
  var_B0:;
  UNREACHABLE;
  var_Bfunc:;
  FUNC_EPILOGUE;
}

static void w2c_lockreplay_lk_lines0x3A0x3Avocabulary0x3A0x3Amove_named(w2c_lockreplay* instance, u64 var_p0, u64 var_p1, u64 var_p2) {
  u32 var_l5 = 0, var_l6 = 0, var_l7 = 0, var_l8 = 0;
  u64 var_l3 = 0, var_l4 = 0;
  FUNC_PROLOGUE;
  u32 var_i0, var_i1;
  u64 var_j0, var_j1, var_j2;
  var_j0 = instance->w2c_0x5F_stack_pointer;
  var_l3 = var_j0;
  var_j1 = 16ull;
  var_i0 = (u64)((s64)var_j0 < (s64)var_j1);
  if (var_i0) {goto var_B3;}
  var_j0 = var_p2;
  var_j1 = 18446744073709551613ull;
  var_j0 += var_j1;
  var_l4 = var_j0;
  var_j1 = 6ull;
  var_i0 = var_j0 > var_j1;
  if (var_i0) {goto var_B1;}
  var_j0 = var_l4;
  var_i0 = (u32)(var_j0);
  switch (var_i0) {
    case 0: goto var_B8;
    case 1: goto var_B9;
    case 2: goto var_B11;
    case 3: goto var_B1;
    case 4: goto var_B10;
    case 5: goto var_B1;
    case 6: goto var_B4;
    default: goto var_B8;
  }
  var_B11:;
  var_j0 = var_p1;
  var_j1 = 3ull;
  var_j0 += var_j1;
  var_i0 = i32_load8_u(origin, (u64)(var_j0));
  var_l5 = var_i0;
  var_j0 = var_p1;
  var_j1 = 2ull;
  var_j0 += var_j1;
  var_i0 = i32_load8_u(origin, (u64)(var_j0));
  var_l6 = var_i0;
  var_j0 = var_p1;
  var_j1 = 1ull;
  var_j0 += var_j1;
  var_i0 = i32_load8_u(origin, (u64)(var_j0));
  var_l7 = var_i0;
  var_j0 = var_p1;
  var_i0 = i32_load8_u(origin, (u64)(var_j0));
  var_l8 = var_i0;
  var_i1 = 119u;
  var_i0 = var_i0 != var_i1;
  if (var_i0) {goto var_B6;}
  var_i0 = var_l7;
  var_i1 = 255u;
  var_i0 &= var_i1;
  var_i1 = 114u;
  var_i0 = var_i0 != var_i1;
  if (var_i0) {goto var_B6;}
  var_i0 = var_l6;
  var_i1 = 255u;
  var_i0 &= var_i1;
  var_i1 = 105u;
  var_i0 = var_i0 != var_i1;
  if (var_i0) {goto var_B6;}
  var_i0 = var_l5;
  var_i1 = 255u;
  var_i0 &= var_i1;
  var_i1 = 116u;
  var_i0 = var_i0 != var_i1;
  if (var_i0) {goto var_B6;}
  var_j0 = var_p1;
  var_j1 = 5ull;
  var_j2 = 1057711ull;
  var_i0 = w2c_lockreplay_core0x3A0x3Acmp0x3A0x3Aslices0x3A0x3Agroups_equal0x3A0x3A0x3Ci80x2C310x27core0x3A0x3Acmp0x3A0x3Anumbers0x3A0x3AU8PartialEq0x7B0x7D0x3E(instance, var_j0, var_j1, var_j2);
  var_i0 = !(var_i0);
  if (var_i0) {goto var_B6;}
  var_i0 = 1u;
  var_l7 = var_i0;
  var_i0 = 1u;
  var_l6 = var_i0;
  var_i0 = 1u;
  var_l5 = var_i0;
  goto var_B0;
  var_B10:;
  var_j0 = var_p1;
  var_j1 = 3ull;
  var_j0 += var_j1;
  var_i0 = i32_load8_u(origin, (u64)(var_j0));
  var_l5 = var_i0;
  var_j0 = var_p1;
  var_j1 = 2ull;
  var_j0 += var_j1;
  var_i0 = i32_load8_u(origin, (u64)(var_j0));
  var_l7 = var_i0;
  var_j0 = var_p1;
  var_j1 = 1ull;
  var_j0 += var_j1;
  var_i0 = i32_load8_u(origin, (u64)(var_j0));
  var_l6 = var_i0;
  var_j0 = var_p1;
  var_i0 = i32_load8_u(origin, (u64)(var_j0));
  var_l8 = var_i0;
  var_i1 = 115u;
  var_i0 = var_i0 != var_i1;
  if (var_i0) {goto var_B7;}
  var_i0 = var_l7;
  var_i1 = 255u;
  var_i0 &= var_i1;
  var_i1 = 99u;
  var_i0 = var_i0 != var_i1;
  if (var_i0) {goto var_B7;}
  var_i0 = var_l5;
  var_i1 = 255u;
  var_i0 &= var_i1;
  var_i1 = 116u;
  var_i0 = var_i0 != var_i1;
  if (var_i0) {goto var_B7;}
  var_i0 = var_l6;
  var_i1 = 255u;
  var_i0 &= var_i1;
  var_i1 = 101u;
  var_i0 = var_i0 != var_i1;
  if (var_i0) {goto var_B7;}
  var_j0 = var_p1;
  var_j1 = 7ull;
  var_j2 = 1057704ull;
  var_i0 = w2c_lockreplay_core0x3A0x3Acmp0x3A0x3Aslices0x3A0x3Agroups_equal0x3A0x3A0x3Ci80x2C310x27core0x3A0x3Acmp0x3A0x3Anumbers0x3A0x3AU8PartialEq0x7B0x7D0x3E(instance, var_j0, var_j1, var_j2);
  var_i0 = !(var_i0);
  if (var_i0) {goto var_B7;}
  var_i0 = 1u;
  var_l6 = var_i0;
  var_i0 = 5u;
  var_l7 = var_i0;
  var_i0 = 1u;
  var_l5 = var_i0;
  goto var_B0;
  var_B9:;
  var_j0 = var_p1;
  var_j1 = 3ull;
  var_j0 += var_j1;
  var_i0 = i32_load8_u(origin, (u64)(var_j0));
  var_l6 = var_i0;
  var_j0 = var_p1;
  var_j1 = 2ull;
  var_j0 += var_j1;
  var_i0 = i32_load8_u(origin, (u64)(var_j0));
  var_l5 = var_i0;
  var_j0 = var_p1;
  var_j1 = 1ull;
  var_j0 += var_j1;
  var_i0 = i32_load8_u(origin, (u64)(var_j0));
  var_l7 = var_i0;
  var_j0 = var_p1;
  var_i0 = i32_load8_u(origin, (u64)(var_j0));
  var_l8 = var_i0;
  var_i1 = 114u;
  var_i0 = var_i0 != var_i1;
  if (var_i0) {goto var_B12;}
  var_i0 = var_l7;
  var_i1 = 255u;
  var_i0 &= var_i1;
  var_i1 = 101u;
  var_i0 = var_i0 != var_i1;
  if (var_i0) {goto var_B12;}
  var_i0 = var_l6;
  var_i1 = 255u;
  var_i0 &= var_i1;
  var_i1 = 100u;
  var_i0 = var_i0 != var_i1;
  if (var_i0) {goto var_B12;}
  var_i0 = var_l5;
  var_i1 = 255u;
  var_i0 &= var_i1;
  var_i1 = 97u;
  var_i0 = var_i0 != var_i1;
  if (var_i0) {goto var_B12;}
  var_j0 = var_p1;
  var_j1 = 4ull;
  var_j2 = 1057700ull;
  var_i0 = w2c_lockreplay_core0x3A0x3Acmp0x3A0x3Aslices0x3A0x3Agroups_equal0x3A0x3A0x3Ci80x2C310x27core0x3A0x3Acmp0x3A0x3Anumbers0x3A0x3AU8PartialEq0x7B0x7D0x3E(instance, var_j0, var_j1, var_j2);
  var_i0 = !(var_i0);
  if (var_i0) {goto var_B1;}
  var_i0 = 1u;
  var_l6 = var_i0;
  var_i0 = 0u;
  var_l7 = var_i0;
  var_i0 = 1u;
  var_l5 = var_i0;
  goto var_B0;
  var_B12:;
  var_i0 = var_l8;
  var_i1 = 115u;
  var_i0 = var_i0 != var_i1;
  if (var_i0) {goto var_B1;}
  var_i0 = var_l7;
  var_i1 = 255u;
  var_i0 &= var_i1;
  var_i1 = 119u;
  var_i0 = var_i0 != var_i1;
  if (var_i0) {goto var_B1;}
  var_i0 = var_l6;
  var_i1 = 255u;
  var_i0 &= var_i1;
  var_i1 = 112u;
  var_i0 = var_i0 != var_i1;
  if (var_i0) {goto var_B1;}
  var_i0 = var_l5;
  var_i1 = 255u;
  var_i0 &= var_i1;
  var_i1 = 97u;
  var_i0 = var_i0 != var_i1;
  if (var_i0) {goto var_B1;}
  var_j0 = var_p1;
  var_j1 = 4ull;
  var_j2 = 1057716ull;
  var_i0 = w2c_lockreplay_core0x3A0x3Acmp0x3A0x3Aslices0x3A0x3Agroups_equal0x3A0x3A0x3Ci80x2C310x27core0x3A0x3Acmp0x3A0x3Anumbers0x3A0x3AU8PartialEq0x7B0x7D0x3E(instance, var_j0, var_j1, var_j2);
  var_i0 = !(var_i0);
  if (var_i0) {goto var_B1;}
  var_i0 = 1u;
  var_l6 = var_i0;
  var_i0 = 2u;
  var_l7 = var_i0;
  var_i0 = 1u;
  var_l5 = var_i0;
  goto var_B0;
  var_B8:;
  var_j0 = var_p1;
  var_i0 = i32_load8_u(origin, (u64)(var_j0));
  var_i1 = 99u;
  var_i0 = var_i0 != var_i1;
  if (var_i0) {goto var_B13;}
  var_j0 = var_p1;
  var_j1 = 1ull;
  var_j0 += var_j1;
  var_i0 = i32_load8_u(origin, (u64)(var_j0));
  var_i1 = 97u;
  var_i0 = var_i0 != var_i1;
  if (var_i0) {goto var_B13;}
  var_j0 = var_p1;
  var_j1 = 2ull;
  var_j0 += var_j1;
  var_i0 = i32_load8_u(origin, (u64)(var_j0));
  var_i1 = 115u;
  var_i0 = var_i0 != var_i1;
  if (var_i0) {goto var_B13;}
  var_i0 = 1u;
  var_l6 = var_i0;
  var_i0 = 3u;
  var_l7 = var_i0;
  var_i0 = 1u;
  var_l5 = var_i0;
  goto var_B0;
  var_B13:;
  var_j0 = var_p1;
  var_i0 = i32_load8_u(origin, (u64)(var_j0));
  var_i1 = 97u;
  var_i0 = var_i0 != var_i1;
  if (var_i0) {goto var_B5;}
  var_j0 = var_p1;
  var_j1 = 1ull;
  var_j0 += var_j1;
  var_i0 = i32_load8_u(origin, (u64)(var_j0));
  var_i1 = 100u;
  var_i0 = var_i0 != var_i1;
  if (var_i0) {goto var_B5;}
  var_j0 = var_p1;
  var_j1 = 2ull;
  var_j0 += var_j1;
  var_i0 = i32_load8_u(origin, (u64)(var_j0));
  var_i1 = 100u;
  var_i0 = var_i0 != var_i1;
  if (var_i0) {goto var_B5;}
  var_i0 = 1u;
  var_l6 = var_i0;
  var_i0 = 4u;
  var_l7 = var_i0;
  var_i0 = 1u;
  var_l5 = var_i0;
  goto var_B0;
  var_B7:;
  var_i0 = var_l8;
  var_i1 = 97u;
  var_i0 = var_i0 != var_i1;
  if (var_i0) {goto var_B14;}
  var_i0 = var_l6;
  var_i1 = 255u;
  var_i0 &= var_i1;
  var_i1 = 99u;
  var_i0 = var_i0 != var_i1;
  if (var_i0) {goto var_B14;}
  var_i0 = var_l7;
  var_i1 = 255u;
  var_i0 &= var_i1;
  var_i1 = 113u;
  var_i0 = var_i0 != var_i1;
  if (var_i0) {goto var_B14;}
  var_i0 = var_l5;
  var_i1 = 255u;
  var_i0 &= var_i1;
  var_i1 = 117u;
  var_i0 = var_i0 != var_i1;
  if (var_i0) {goto var_B14;}
  var_j0 = var_p1;
  var_j1 = 7ull;
  var_j2 = 1057726ull;
  var_i0 = w2c_lockreplay_core0x3A0x3Acmp0x3A0x3Aslices0x3A0x3Agroups_equal0x3A0x3A0x3Ci80x2C310x27core0x3A0x3Acmp0x3A0x3Anumbers0x3A0x3AU8PartialEq0x7B0x7D0x3E(instance, var_j0, var_j1, var_j2);
  if (var_i0) {goto var_B15;}
  var_i0 = 97u;
  var_l8 = var_i0;
  var_i0 = 99u;
  var_l6 = var_i0;
  var_i0 = 113u;
  var_l7 = var_i0;
  var_i0 = 117u;
  var_l5 = var_i0;
  goto var_B2;
  var_B15:;
  var_i0 = 1u;
  var_l5 = var_i0;
  var_i0 = 0u;
  var_l7 = var_i0;
  var_i0 = 0u;
  var_l6 = var_i0;
  goto var_B0;
  var_B14:;
  var_i0 = var_l8;
  var_i1 = 114u;
  var_i0 = var_i0 != var_i1;
  if (var_i0) {goto var_B2;}
  var_i0 = var_l7;
  var_i1 = 255u;
  var_i0 &= var_i1;
  var_i1 = 108u;
  var_i0 = var_i0 != var_i1;
  if (var_i0) {goto var_B2;}
  var_i0 = var_l5;
  var_i1 = 255u;
  var_i0 &= var_i1;
  var_i1 = 101u;
  var_i0 = var_i0 != var_i1;
  if (var_i0) {goto var_B2;}
  var_i0 = var_l6;
  var_i1 = 255u;
  var_i0 &= var_i1;
  var_i1 = 101u;
  var_i0 = var_i0 != var_i1;
  if (var_i0) {goto var_B2;}
  var_j0 = var_p1;
  var_j1 = 7ull;
  var_j2 = 1057733ull;
  var_i0 = w2c_lockreplay_core0x3A0x3Acmp0x3A0x3Aslices0x3A0x3Agroups_equal0x3A0x3A0x3Ci80x2C310x27core0x3A0x3Acmp0x3A0x3Anumbers0x3A0x3AU8PartialEq0x7B0x7D0x3E(instance, var_j0, var_j1, var_j2);
  if (var_i0) {goto var_B16;}
  var_i0 = 114u;
  var_l8 = var_i0;
  var_i0 = 108u;
  var_l7 = var_i0;
  var_i0 = 101u;
  var_l5 = var_i0;
  var_i0 = 101u;
  var_l6 = var_i0;
  goto var_B2;
  var_B16:;
  var_i0 = 0u;
  var_l6 = var_i0;
  var_i0 = 1u;
  var_l7 = var_i0;
  var_i0 = 1u;
  var_l5 = var_i0;
  goto var_B0;
  var_B6:;
  var_i0 = var_l8;
  var_i1 = 114u;
  var_i0 = var_i0 != var_i1;
  if (var_i0) {goto var_B17;}
  var_i0 = var_l7;
  var_i1 = 255u;
  var_i0 &= var_i1;
  var_i1 = 108u;
  var_i0 = var_i0 != var_i1;
  if (var_i0) {goto var_B17;}
  var_i0 = var_l6;
  var_i1 = 255u;
  var_i0 &= var_i1;
  var_i1 = 111u;
  var_i0 = var_i0 != var_i1;
  if (var_i0) {goto var_B17;}
  var_i0 = var_l5;
  var_i1 = 255u;
  var_i0 &= var_i1;
  var_i1 = 99u;
  var_i0 = var_i0 != var_i1;
  if (var_i0) {goto var_B17;}
  var_j0 = var_p1;
  var_j1 = 5ull;
  var_j2 = 1057740ull;
  var_i0 = w2c_lockreplay_core0x3A0x3Acmp0x3A0x3Aslices0x3A0x3Agroups_equal0x3A0x3A0x3Ci80x2C310x27core0x3A0x3Acmp0x3A0x3Anumbers0x3A0x3AU8PartialEq0x7B0x7D0x3E(instance, var_j0, var_j1, var_j2);
  var_i0 = !(var_i0);
  if (var_i0) {goto var_B17;}
  var_i0 = 1u;
  var_l5 = var_i0;
  var_i0 = 0u;
  var_l6 = var_i0;
  var_i0 = 2u;
  var_l7 = var_i0;
  goto var_B0;
  var_B17:;
  var_i0 = var_l8;
  var_i1 = 119u;
  var_i0 = var_i0 != var_i1;
  if (var_i0) {goto var_B1;}
  var_i0 = var_l7;
  var_i1 = 255u;
  var_i0 &= var_i1;
  var_i1 = 108u;
  var_i0 = var_i0 != var_i1;
  if (var_i0) {goto var_B1;}
  var_i0 = var_l6;
  var_i1 = 255u;
  var_i0 &= var_i1;
  var_i1 = 111u;
  var_i0 = var_i0 != var_i1;
  if (var_i0) {goto var_B1;}
  var_i0 = var_l5;
  var_i1 = 255u;
  var_i0 &= var_i1;
  var_i1 = 99u;
  var_i0 = var_i0 != var_i1;
  if (var_i0) {goto var_B1;}
  var_j0 = var_p1;
  var_j1 = var_p2;
  var_j2 = 1057752ull;
  var_i0 = w2c_lockreplay_core0x3A0x3Acmp0x3A0x3Aslices0x3A0x3Agroups_equal0x3A0x3A0x3Ci80x2C310x27core0x3A0x3Acmp0x3A0x3Anumbers0x3A0x3AU8PartialEq0x7B0x7D0x3E(instance, var_j0, var_j1, var_j2);
  var_i0 = !(var_i0);
  if (var_i0) {goto var_B1;}
  var_i0 = 1u;
  var_l5 = var_i0;
  var_i0 = 0u;
  var_l6 = var_i0;
  var_i0 = 4u;
  var_l7 = var_i0;
  goto var_B0;
  var_B5:;
  var_j0 = var_p2;
  var_j1 = 9ull;
  var_i0 = var_j0 != var_j1;
  if (var_i0) {goto var_B1;}
  var_B4:;
  var_j0 = var_p1;
  var_i0 = i32_load8_u(origin, (u64)(var_j0));
  var_i1 = 100u;
  var_i0 = var_i0 != var_i1;
  if (var_i0) {goto var_B1;}
  var_j0 = var_p1;
  var_j1 = 1ull;
  var_j0 += var_j1;
  var_i0 = i32_load8_u(origin, (u64)(var_j0));
  var_i1 = 255u;
  var_i0 &= var_i1;
  var_i1 = 111u;
  var_i0 = var_i0 != var_i1;
  if (var_i0) {goto var_B1;}
  var_j0 = var_p1;
  var_j1 = 2ull;
  var_j0 += var_j1;
  var_i0 = i32_load8_u(origin, (u64)(var_j0));
  var_i1 = 255u;
  var_i0 &= var_i1;
  var_i1 = 119u;
  var_i0 = var_i0 != var_i1;
  if (var_i0) {goto var_B1;}
  var_j0 = var_p1;
  var_j1 = 3ull;
  var_j0 += var_j1;
  var_i0 = i32_load8_u(origin, (u64)(var_j0));
  var_i1 = 255u;
  var_i0 &= var_i1;
  var_i1 = 110u;
  var_i0 = var_i0 != var_i1;
  if (var_i0) {goto var_B1;}
  var_j0 = var_p1;
  var_j1 = var_p2;
  var_j2 = 1057764ull;
  var_i0 = w2c_lockreplay_core0x3A0x3Acmp0x3A0x3Aslices0x3A0x3Agroups_equal0x3A0x3A0x3Ci80x2C310x27core0x3A0x3Acmp0x3A0x3Anumbers0x3A0x3AU8PartialEq0x7B0x7D0x3E(instance, var_j0, var_j1, var_j2);
  var_i0 = !(var_i0);
  if (var_i0) {goto var_B1;}
  var_i0 = 1u;
  var_l5 = var_i0;
  var_i0 = 0u;
  var_l6 = var_i0;
  var_i0 = 6u;
  var_l7 = var_i0;
  goto var_B0;
  var_B3:;
  UNREACHABLE;
  var_B2:;
  var_i0 = var_l8;
  var_i1 = 114u;
  var_i0 = var_i0 != var_i1;
  if (var_i0) {goto var_B18;}
  var_i0 = var_l6;
  var_i1 = 255u;
  var_i0 &= var_i1;
  var_i1 = 117u;
  var_i0 = var_i0 != var_i1;
  if (var_i0) {goto var_B18;}
  var_i0 = var_l7;
  var_i1 = 255u;
  var_i0 &= var_i1;
  var_i1 = 110u;
  var_i0 = var_i0 != var_i1;
  if (var_i0) {goto var_B18;}
  var_i0 = var_l5;
  var_i1 = 255u;
  var_i0 &= var_i1;
  var_i1 = 108u;
  var_i0 = var_i0 != var_i1;
  if (var_i0) {goto var_B18;}
  var_j0 = var_p1;
  var_j1 = var_p2;
  var_j2 = 1057745ull;
  var_i0 = w2c_lockreplay_core0x3A0x3Acmp0x3A0x3Aslices0x3A0x3Agroups_equal0x3A0x3A0x3Ci80x2C310x27core0x3A0x3Acmp0x3A0x3Anumbers0x3A0x3AU8PartialEq0x7B0x7D0x3E(instance, var_j0, var_j1, var_j2);
  var_i0 = !(var_i0);
  if (var_i0) {goto var_B18;}
  var_i0 = 1u;
  var_l5 = var_i0;
  var_i0 = 0u;
  var_l6 = var_i0;
  var_i0 = 3u;
  var_l7 = var_i0;
  goto var_B0;
  var_B18:;
  var_i0 = var_l8;
  var_i1 = 119u;
  var_i0 = var_i0 != var_i1;
  if (var_i0) {goto var_B1;}
  var_i0 = var_l6;
  var_i1 = 255u;
  var_i0 &= var_i1;
  var_i1 = 117u;
  var_i0 = var_i0 != var_i1;
  if (var_i0) {goto var_B1;}
  var_i0 = var_l7;
  var_i1 = 255u;
  var_i0 &= var_i1;
  var_i1 = 110u;
  var_i0 = var_i0 != var_i1;
  if (var_i0) {goto var_B1;}
  var_i0 = var_l5;
  var_i1 = 255u;
  var_i0 &= var_i1;
  var_i1 = 108u;
  var_i0 = var_i0 != var_i1;
  if (var_i0) {goto var_B1;}
  var_j0 = var_p1;
  var_j1 = var_p2;
  var_j2 = 1057757ull;
  var_i0 = w2c_lockreplay_core0x3A0x3Acmp0x3A0x3Aslices0x3A0x3Agroups_equal0x3A0x3A0x3Ci80x2C310x27core0x3A0x3Acmp0x3A0x3Anumbers0x3A0x3AU8PartialEq0x7B0x7D0x3E(instance, var_j0, var_j1, var_j2);
  var_i0 = !(var_i0);
  if (var_i0) {goto var_B1;}
  var_i0 = 1u;
  var_l5 = var_i0;
  var_i0 = 0u;
  var_l6 = var_i0;
  var_i0 = 5u;
  var_l7 = var_i0;
  goto var_B0;
  var_B1:;
  var_i0 = 0u;
  var_l7 = var_i0;
  var_i0 = 0u;
  var_l6 = var_i0;
  var_i0 = 0u;
  var_l5 = var_i0;
  var_B0:;
  var_j0 = var_p0;
  var_i1 = var_l5;
  i32_store8(origin, (u64)(var_j0), var_i1);
  var_j0 = var_p0;
  var_j1 = 2ull;
  var_j0 += var_j1;
  var_i1 = var_l7;
  i32_store8(origin, (u64)(var_j0), var_i1);
  var_j0 = var_p0;
  var_j1 = 1ull;
  var_j0 += var_j1;
  var_i1 = var_l6;
  i32_store8(origin, (u64)(var_j0), var_i1);
  var_j0 = var_l3;
  instance->w2c_0x5F_stack_pointer = var_j0;
  FUNC_EPILOGUE;
}

static void w2c_lockreplay_itoa0x3A0x3ABuffer0x3A0x3Aformat0x3A0x3A0x3C0x23a27d2209050c8f1b0x3E(w2c_lockreplay* instance, u64 var_p0, u64 var_p1, u32 var_p2) {
  u32 var_l7 = 0;
  u64 var_l3 = 0, var_l4 = 0, var_l5 = 0, var_l6 = 0;
  FUNC_PROLOGUE;
  u32 var_i0, var_i1, var_i2, var_i3;
  u64 var_j0, var_j1, var_j2, var_j3;
  var_j0 = instance->w2c_0x5F_stack_pointer;
  var_j1 = 16ull;
  var_i0 = (u64)((s64)var_j0 < (s64)var_j1);
  if (var_i0) {goto var_B0;}
  var_i0 = var_p2;
  var_j0 = (u64)(var_i0);
  var_l3 = var_j0;
  var_j0 = 40ull;
  var_l4 = var_j0;
  var_i0 = var_p2;
  var_i1 = 10000u;
  var_i0 = var_i0 < var_i1;
  if (var_i0) {goto var_B1;}
  var_j0 = 40ull;
  var_l4 = var_j0;
  var_L2:
    var_j0 = var_p1;
    var_j1 = var_l4;
    var_j0 += var_j1;
    var_l5 = var_j0;
    var_j1 = 18446744073709551612ull;
    var_j0 += var_j1;
    var_j1 = var_l3;
    var_l6 = var_j1;
    var_j2 = var_l6;
    var_j3 = 10000ull;
    var_j2 = DIV_U(var_j2, var_j3);
    var_l3 = var_j2;
    var_j3 = 10000ull;
    var_j2 *= var_j3;
    var_j1 -= var_j2;
    var_i1 = (u32)(var_j1);
    var_p2 = var_i1;
    var_i2 = 65535u;
    var_i1 &= var_i2;
    var_i2 = 100u;
    var_i1 = DIV_U(var_i1, var_i2);
    var_l7 = var_i1;
    var_j1 = (u64)(var_i1);
    var_j2 = 1ull;
    var_j1 <<= (var_j2 & 63);
    var_i1 = i32_load16_u(origin, (u64)(var_j1) + 1057858u);
    i32_store16(origin, (u64)(var_j0), var_i1);
    var_j0 = var_l5;
    var_j1 = 18446744073709551614ull;
    var_j0 += var_j1;
    var_i1 = var_p2;
    var_i2 = var_l7;
    var_i3 = 100u;
    var_i2 *= var_i3;
    var_i1 -= var_i2;
    var_j1 = (u64)(var_i1);
    var_j2 = 65535ull;
    var_j1 &= var_j2;
    var_j2 = 1ull;
    var_j1 <<= (var_j2 & 63);
    var_i1 = i32_load16_u(origin, (u64)(var_j1) + 1057858u);
    i32_store16(origin, (u64)(var_j0), var_i1);
    var_j0 = var_l4;
    var_j1 = 18446744073709551612ull;
    var_j0 += var_j1;
    var_l4 = var_j0;
    var_j0 = var_l6;
    var_j1 = 99999999ull;
    var_i0 = var_j0 > var_j1;
    if (var_i0) {goto var_L2;}
  var_B1:;
  var_j0 = var_l3;
  var_j1 = 99ull;
  var_i0 = var_j0 > var_j1;
  if (var_i0) {goto var_B4;}
  var_j0 = var_l3;
  var_j1 = 9ull;
  var_i0 = var_j0 > var_j1;
  if (var_i0) {goto var_B5;}
  var_j0 = var_p1;
  var_j1 = var_l4;
  var_j2 = 18446744073709551615ull;
  var_j1 += var_j2;
  var_l4 = var_j1;
  var_j0 += var_j1;
  var_j1 = var_l3;
  var_i1 = (u32)(var_j1);
  var_i2 = 48u;
  var_i1 |= var_i2;
  i32_store8(origin, (u64)(var_j0), var_i1);
  goto var_B3;
  var_B5:;
  var_j0 = var_p1;
  var_j1 = var_l4;
  var_j2 = 18446744073709551614ull;
  var_j1 += var_j2;
  var_l4 = var_j1;
  var_j0 += var_j1;
  var_j1 = var_l3;
  var_j2 = 1ull;
  var_j1 <<= (var_j2 & 63);
  var_i1 = i32_load16_u(origin, (u64)(var_j1) + 1057858u);
  i32_store16(origin, (u64)(var_j0), var_i1);
  goto var_B3;
  var_B4:;
  var_j0 = var_p1;
  var_j1 = var_l4;
  var_j0 += var_j1;
  var_j1 = 18446744073709551614ull;
  var_j0 += var_j1;
  var_j1 = var_l3;
  var_i1 = (u32)(var_j1);
  var_p2 = var_i1;
  var_i2 = var_p2;
  var_i3 = 65535u;
  var_i2 &= var_i3;
  var_i3 = 100u;
  var_i2 = DIV_U(var_i2, var_i3);
  var_p2 = var_i2;
  var_i3 = 100u;
  var_i2 *= var_i3;
  var_i1 -= var_i2;
  var_j1 = (u64)(var_i1);
  var_j2 = 65535ull;
  var_j1 &= var_j2;
  var_j2 = 1ull;
  var_j1 <<= (var_j2 & 63);
  var_i1 = i32_load16_u(origin, (u64)(var_j1) + 1057858u);
  i32_store16(origin, (u64)(var_j0), var_i1);
  var_j0 = var_l3;
  var_j1 = 999ull;
  var_i0 = var_j0 > var_j1;
  if (var_i0) {goto var_B6;}
  var_j0 = var_p1;
  var_j1 = var_l4;
  var_j2 = 18446744073709551613ull;
  var_j1 += var_j2;
  var_l4 = var_j1;
  var_j0 += var_j1;
  var_i1 = var_p2;
  var_i2 = 48u;
  var_i1 |= var_i2;
  i32_store8(origin, (u64)(var_j0), var_i1);
  goto var_B3;
  var_B6:;
  var_j0 = var_p1;
  var_j1 = var_l4;
  var_j2 = 18446744073709551612ull;
  var_j1 += var_j2;
  var_l4 = var_j1;
  var_j0 += var_j1;
  var_i1 = var_p2;
  var_j1 = (u64)(var_i1);
  var_j2 = 1ull;
  var_j1 <<= (var_j2 & 63);
  var_i1 = i32_load16_u(origin, (u64)(var_j1) + 1057858u);
  i32_store16(origin, (u64)(var_j0), var_i1);
  var_B3:;
  var_j0 = var_p0;
  var_j1 = 40ull;
  var_j2 = var_l4;
  var_j1 -= var_j2;
  i64_store(origin, (u64)(var_j0) + 8, var_j1);
  var_j0 = var_p0;
  var_j1 = var_p1;
  var_j2 = var_l4;
  var_j1 += var_j2;
  i64_store(origin, (u64)(var_j0), var_j1);
  goto var_Bfunc;
  var_B0:;
  UNREACHABLE;
  var_Bfunc:;
  FUNC_EPILOGUE;
}

static void w2c_lockreplay_lk_locks0x3A0x3Amachine0x3A0x3AMachine0x3A0x3Aplay0x3A0x3A0x3C0x23e396818bfda329340x3E(w2c_lockreplay* instance, u64 var_p0, u64 var_p1, u32 var_p2, u32 var_p3, u32 var_p4) {
  u32 var_l5 = 0, var_l6 = 0, var_l7 = 0, var_l10 = 0, var_l13 = 0, var_l14 = 0, var_l15 = 0, var_l16 = 0,
      var_l17 = 0;
  u64 var_l8 = 0, var_l9 = 0, var_l11 = 0, var_l12 = 0, var_l18 = 0, var_l19 = 0, var_l20 = 0, var_l21 = 0;
  FUNC_PROLOGUE;
  u32 var_i0, var_i1, var_i2, var_i3;
  u64 var_j0, var_j1, var_j2, var_j3;
  var_j0 = instance->w2c_0x5F_stack_pointer;
  var_j1 = 16ull;
  var_i0 = (u64)((s64)var_j0 < (s64)var_j1);
  if (var_i0) {goto var_B3;}
  var_i0 = 0u;
  var_l5 = var_i0;
  var_i0 = 0u;
  var_l6 = var_i0;
  var_j0 = var_p1;
  var_j1 = 1ull;
  var_j0 += var_j1;
  var_i0 = i32_load8_u(origin, (u64)(var_j0));
  var_i1 = var_p2;
  var_i2 = 255u;
  var_i1 &= var_i2;
  var_i0 = var_i0 <= var_i1;
  if (var_i0) {goto var_B0;}
  var_j0 = var_p1;
  var_i0 = i32_load8_u(origin, (u64)(var_j0));
  var_l7 = var_i0;
  var_i0 = var_p3;
  var_i1 = 255u;
  var_i0 &= var_i1;
  if (var_i0) {goto var_B30;}
  var_i0 = 1u;
  var_l5 = var_i0;
  var_i0 = 0u;
  var_l6 = var_i0;
  var_i0 = var_p4;
  var_i1 = 255u;
  var_i0 &= var_i1;
  var_i1 = 2u;
  var_i0 = var_i0 < var_i1;
  var_i1 = var_l7;
  var_i2 = 1u;
  var_i1 = var_i1 > var_i2;
  var_i0 ^= var_i1;
  if (var_i0) {goto var_B29;}
  goto var_B0;
  var_B30:;
  var_i0 = var_l7;
  switch (var_i0) {
    case 0: goto var_B33;
    case 1: goto var_B32;
    case 2: goto var_B31;
    case 3: goto var_B31;
    default: goto var_B33;
  }
  var_B33:;
  var_i0 = 1u;
  var_l5 = var_i0;
  var_i0 = 0u;
  var_l6 = var_i0;
  var_i0 = 1u;
  var_i1 = var_p4;
  var_i2 = 255u;
  var_i1 &= var_i2;
  var_i0 <<= (var_i1 & 31);
  var_i1 = 19u;
  var_i0 &= var_i1;
  var_i0 = !(var_i0);
  if (var_i0) {goto var_B0;}
  var_j0 = var_p1;
  var_i1 = var_p2;
  var_j1 = (u64)(var_i1);
  var_j2 = 255ull;
  var_j1 &= var_j2;
  var_j2 = 4ull;
  var_j1 <<= (var_j2 & 63);
  var_j0 += var_j1;
  var_l8 = var_j0;
  var_j1 = 1064ull;
  var_j0 += var_j1;
  var_j0 = i64_load(origin, (u64)(var_j0));
  var_l9 = var_j0;
  var_j0 = var_l8;
  var_j1 = 1057ull;
  var_j0 += var_j1;
  var_i0 = i32_load8_u(origin, (u64)(var_j0));
  var_l10 = var_i0;
  var_j0 = var_l8;
  var_j1 = 1056ull;
  var_j0 += var_j1;
  var_i0 = i32_load8_u(origin, (u64)(var_j0));
  var_l5 = var_i0;
  goto var_B23;
  var_B32:;
  var_i0 = var_p4;
  var_i1 = 255u;
  var_i0 &= var_i1;
  var_i1 = 3u;
  var_i0 = var_i0 <= var_i1;
  if (var_i0) {goto var_B28;}
  goto var_B24;
  var_B31:;
  var_i0 = var_p4;
  var_i1 = 255u;
  var_i0 &= var_i1;
  var_i1 = 5u;
  var_i0 = var_i0 != var_i1;
  if (var_i0) {goto var_B24;}
  var_B29:;
  var_j0 = var_p1;
  var_i1 = var_p2;
  var_j1 = (u64)(var_i1);
  var_j2 = 255ull;
  var_j1 &= var_j2;
  var_l11 = var_j1;
  var_j2 = 4ull;
  var_j1 <<= (var_j2 & 63);
  var_j0 += var_j1;
  var_l8 = var_j0;
  var_j1 = 1064ull;
  var_j0 += var_j1;
  var_j0 = i64_load(origin, (u64)(var_j0));
  var_l9 = var_j0;
  var_j0 = var_l8;
  var_j1 = 1057ull;
  var_j0 += var_j1;
  var_i0 = i32_load8_u(origin, (u64)(var_j0));
  var_l10 = var_i0;
  var_j0 = var_l8;
  var_j1 = 1056ull;
  var_j0 += var_j1;
  var_i0 = i32_load8_u(origin, (u64)(var_j0));
  var_l5 = var_i0;
  var_i0 = var_l7;
  switch (var_i0) {
    case 0: goto var_B23;
    case 1: goto var_B27;
    case 2: goto var_B26;
    case 3: goto var_B26;
    default: goto var_B23;
  }
  var_B28:;
  var_j0 = var_p1;
  var_i1 = var_p2;
  var_j1 = (u64)(var_i1);
  var_j2 = 255ull;
  var_j1 &= var_j2;
  var_l11 = var_j1;
  var_j2 = 4ull;
  var_j1 <<= (var_j2 & 63);
  var_j0 += var_j1;
  var_l8 = var_j0;
  var_j1 = 1064ull;
  var_j0 += var_j1;
  var_j0 = i64_load(origin, (u64)(var_j0));
  var_l9 = var_j0;
  var_j0 = var_l8;
  var_j1 = 1057ull;
  var_j0 += var_j1;
  var_i0 = i32_load8_u(origin, (u64)(var_j0));
  var_l10 = var_i0;
  var_j0 = var_l8;
  var_j1 = 1056ull;
  var_j0 += var_j1;
  var_i0 = i32_load8_u(origin, (u64)(var_j0));
  var_l5 = var_i0;
  var_B27:;
  var_j0 = var_l11;
  var_j1 = 1ull;
  var_j0 += var_j1;
  var_l12 = var_j0;
  var_j0 = 0ull;
  var_l8 = var_j0;
  var_i0 = 1u;
  var_l13 = var_i0;
  var_i0 = 2u;
  var_l6 = var_i0;
  var_i0 = 2u;
  var_l14 = var_i0;
  var_i0 = var_l5;
  var_j0 = (u64)(var_i0);
  var_j1 = 255ull;
  var_j0 &= var_j1;
  var_i0 = (u32)(var_j0);
  switch (var_i0) {
    case 0: goto var_B19;
    case 1: goto var_B19;
    case 2: goto var_B19;
    case 3: goto var_B19;
    case 4: goto var_B19;
    case 5: goto var_B19;
    case 6: goto var_B39;
    case 7: goto var_B18;
    case 8: goto var_B25;
    case 9: goto var_B38;
    case 10: goto var_B37;
    case 11: goto var_B19;
    case 12: goto var_B36;
    case 13: goto var_B35;
    case 14: goto var_B36;
    case 15: goto var_B34;
    case 16: goto var_B19;
    case 17: goto var_B19;
    case 18: goto var_B19;
    case 19: goto var_B19;
    case 20: goto var_B19;
    case 21: goto var_B19;
    case 22: goto var_B19;
    case 23: goto var_B19;
    default: goto var_B19;
  }
  var_B39:;
  var_j0 = var_l11;
  var_j1 = 1ull;
  var_j0 <<= (var_j1 & 63);
  var_j1 = 1ull;
  var_j0 |= var_j1;
  var_l8 = var_j0;
  var_j0 = 0ull;
  var_l12 = var_j0;
  var_i0 = 1u;
  var_l6 = var_i0;
  var_i0 = 6u;
  var_l5 = var_i0;
  goto var_B20;
  var_B38:;
  var_i0 = var_l10;
  var_j0 = (u64)(var_i0);
  var_j1 = 255ull;
  var_j0 &= var_j1;
  var_j1 = 1ull;
  var_j0 <<= (var_j1 & 63);
  var_j1 = 1ull;
  var_j0 |= var_j1;
  var_l8 = var_j0;
  var_i0 = 1u;
  var_l6 = var_i0;
  var_i0 = 9u;
  var_l5 = var_i0;
  goto var_B20;
  var_B37:;
  var_j0 = var_l11;
  var_j1 = 1ull;
  var_j0 <<= (var_j1 & 63);
  var_j1 = 2ull;
  var_j0 += var_j1;
  var_l8 = var_j0;
  var_j0 = 0ull;
  var_l12 = var_j0;
  var_i0 = 10u;
  var_l5 = var_i0;
  goto var_B22;
  var_B36:;
  var_j0 = var_l11;
  var_j1 = 1ull;
  var_j0 <<= (var_j1 & 63);
  var_j1 = 1ull;
  var_j0 |= var_j1;
  var_l8 = var_j0;
  var_j0 = 0ull;
  var_l12 = var_j0;
  goto var_B22;
  var_B35:;
  var_i0 = 3u;
  var_l6 = var_i0;
  var_i0 = 3u;
  var_l14 = var_i0;
  goto var_B18;
  var_B34:;
  var_i0 = var_l10;
  var_j0 = (u64)(var_i0);
  var_j1 = 255ull;
  var_j0 &= var_j1;
  var_j1 = 1ull;
  var_j0 <<= (var_j1 & 63);
  var_j1 = 2ull;
  var_j0 += var_j1;
  var_l8 = var_j0;
  var_j0 = 0ull;
  var_l12 = var_j0;
  var_i0 = 1u;
  var_l6 = var_i0;
  var_i0 = 15u;
  var_l5 = var_i0;
  goto var_B20;
  var_B26:;
  var_j0 = 0ull;
  var_l8 = var_j0;
  var_i0 = 0u;
  var_l13 = var_i0;
  var_i0 = 5u;
  var_l6 = var_i0;
  var_i0 = var_l5;
  var_i1 = 4294967295u;
  var_i0 += var_i1;
  var_i1 = 16u;
  var_i0 = var_i0 >= var_i1;
  if (var_i0) {goto var_B40;}
  var_i0 = 0u;
  var_l14 = var_i0;
  var_j0 = 0ull;
  var_l12 = var_j0;
  goto var_B18;
  var_B40:;
  var_i0 = 0u;
  var_l14 = var_i0;
  var_j0 = 0ull;
  var_l12 = var_j0;
  var_i0 = 1u;
  var_i1 = var_l5;
  var_i0 <<= (var_i1 & 31);
  var_i1 = 14417920u;
  var_i0 &= var_i1;
  if (var_i0) {goto var_B18;}
  goto var_B19;
  var_B25:;
  var_j0 = var_l11;
  var_j1 = 1ull;
  var_j0 <<= (var_j1 & 63);
  var_j1 = 2ull;
  var_j0 += var_j1;
  var_l8 = var_j0;
  var_i0 = 1u;
  var_l6 = var_i0;
  var_i0 = 8u;
  var_l5 = var_i0;
  var_i0 = 1u;
  var_l13 = var_i0;
  var_i0 = 1u;
  var_l14 = var_i0;
  var_j0 = 1ull;
  var_l12 = var_j0;
  goto var_B18;
  var_B24:;
  var_i0 = 1u;
  var_l5 = var_i0;
  goto var_B1;
  var_B23:;
  var_i0 = var_l5;
  var_i1 = 255u;
  var_i0 &= var_i1;
  var_l15 = var_i0;
  var_i1 = 4294967290u;
  var_i0 += var_i1;
  var_i1 = 18u;
  var_i0 = var_i0 < var_i1;
  if (var_i0) {goto var_B19;}
  var_j0 = 1ull;
  var_l12 = var_j0;
  var_j0 = 0ull;
  var_l8 = var_j0;
  var_i0 = 1u;
  var_l13 = var_i0;
  var_i0 = 4u;
  var_l6 = var_i0;
  var_i0 = 4u;
  var_l14 = var_i0;
  var_i0 = var_l15;
  switch (var_i0) {
    case 0: goto var_B19;
    case 1: goto var_B18;
    case 2: goto var_B41;
    case 3: goto var_B19;
    case 4: goto var_B41;
    case 5: goto var_B21;
    default: goto var_B19;
  }
  var_B41:;
  var_j0 = 0ull;
  var_l12 = var_j0;
  var_j0 = 1ull;
  var_l8 = var_j0;
  var_B22:;
  var_i0 = 0u;
  var_l6 = var_i0;
  var_i0 = 0u;
  var_l14 = var_i0;
  goto var_B18;
  var_B21:;
  var_j0 = 1ull;
  var_l8 = var_j0;
  var_j0 = 2ull;
  var_j1 = var_p1;
  var_j2 = 1048ull;
  var_j1 += var_j2;
  var_i1 = i32_load8_u(origin, (u64)(var_j1));
  var_i2 = 4294967295u;
  var_i1 += var_i2;
  var_j1 = (u64)(var_i1);
  var_j2 = 255ull;
  var_j1 &= var_j2;
  var_j0 <<= (var_j1 & 63);
  var_j1 = 18446744073709551615ull;
  var_j0 += var_j1;
  var_j1 = var_l9;
  var_j2 = 1ull;
  var_j1 += var_j2;
  var_j0 &= var_j1;
  var_l12 = var_j0;
  var_i0 = 1u;
  var_l6 = var_i0;
  var_i0 = 5u;
  var_l5 = var_i0;
  var_B20:;
  var_i0 = 1u;
  var_l13 = var_i0;
  var_i0 = 1u;
  var_l14 = var_i0;
  goto var_B18;
  var_B19:;
  var_i0 = var_p3;
  var_i1 = 255u;
  var_i0 &= var_i1;
  var_i0 = !(var_i0);
  if (var_i0) {goto var_B42;}
  var_i0 = 5u;
  var_l5 = var_i0;
  goto var_B1;
  var_B42:;
  var_i0 = var_l7;
  switch (var_i0) {
    case 0: goto var_B49;
    case 1: goto var_B48;
    case 2: goto var_B47;
    case 3: goto var_B47;
    default: goto var_B49;
  }
  var_B49:;
  var_i0 = var_l5;
  var_i1 = 255u;
  var_i0 &= var_i1;
  var_l6 = var_i0;
  var_i1 = 4294967292u;
  var_i0 += var_i1;
  var_i1 = 20u;
  var_i0 = var_i0 < var_i1;
  if (var_i0) {goto var_B45;}
  var_i0 = var_l6;
  switch (var_i0) {
    case 0: goto var_B51;
    case 1: goto var_B45;
    case 2: goto var_B45;
    case 3: goto var_B50;
    default: goto var_B51;
  }
  var_B51:;
  var_i0 = var_p4;
  var_i1 = 255u;
  var_i0 &= var_i1;
  var_i0 = !(var_i0);
  if (var_i0) {goto var_B16;}
  goto var_B2;
  var_B50:;
  var_i0 = 4u;
  var_l13 = var_i0;
  var_i0 = 3u;
  var_l5 = var_i0;
  var_j0 = var_l9;
  var_l11 = var_j0;
  var_i0 = 0u;
  var_l6 = var_i0;
  var_i0 = var_p4;
  var_j0 = (u64)(var_i0);
  var_j1 = 255ull;
  var_j0 &= var_j1;
  var_i0 = (u32)(var_j0);
  switch (var_i0) {
    case 0: goto var_B43;
    case 1: goto var_B5;
    default: goto var_B0;
  }
  var_B48:;
  var_i0 = 1u;
  var_i1 = var_l5;
  var_i2 = 255u;
  var_i1 &= var_i2;
  var_l6 = var_i1;
  var_i0 <<= (var_i1 & 31);
  var_i1 = 16775166u;
  var_i0 &= var_i1;
  if (var_i0) {goto var_B44;}
  var_i0 = var_l6;
  if (var_i0) {goto var_B46;}
  var_i0 = var_p4;
  var_i1 = 255u;
  var_i0 &= var_i1;
  if (var_i0) {goto var_B2;}
  var_j0 = 0ull;
  var_l11 = var_j0;
  var_i0 = 6u;
  var_l13 = var_i0;
  goto var_B5;
  var_B47:;
  var_i0 = var_l5;
  var_i1 = 255u;
  var_i0 &= var_i1;
  var_l6 = var_i0;
  var_i1 = 4294967295u;
  var_i0 += var_i1;
  var_i1 = 16u;
  var_i0 = var_i0 < var_i1;
  if (var_i0) {goto var_B13;}
  var_i0 = var_l6;
  switch (var_i0) {
    case 0: goto var_B52;
    case 1: goto var_B3;
    case 2: goto var_B3;
    case 3: goto var_B3;
    case 4: goto var_B3;
    case 5: goto var_B3;
    case 6: goto var_B3;
    case 7: goto var_B3;
    case 8: goto var_B3;
    case 9: goto var_B3;
    case 10: goto var_B3;
    case 11: goto var_B3;
    case 12: goto var_B3;
    case 13: goto var_B3;
    case 14: goto var_B3;
    case 15: goto var_B3;
    case 16: goto var_B3;
    case 17: goto var_B14;
    case 18: goto var_B13;
    case 19: goto var_B13;
    case 20: goto var_B13;
    case 21: goto var_B17;
    case 22: goto var_B13;
    case 23: goto var_B13;
    default: goto var_B52;
  }
  var_B52:;
  var_i0 = 1u;
  var_i1 = var_p4;
  var_i2 = 255u;
  var_i1 &= var_i2;
  var_i0 <<= (var_i1 & 31);
  var_i1 = 107u;
  var_i0 &= var_i1;
  var_i0 = !(var_i0);
  if (var_i0) {goto var_B6;}
  goto var_B13;
  var_B46:;
  var_j0 = 0ull;
  var_l11 = var_j0;
  var_i0 = 12u;
  var_l13 = var_i0;
  var_i0 = 3u;
  var_l5 = var_i0;
  var_i0 = 0u;
  var_l6 = var_i0;
  var_i0 = var_p4;
  var_j0 = (u64)(var_i0);
  var_j1 = 255ull;
  var_j0 &= var_j1;
  var_i0 = (u32)(var_j0);
  switch (var_i0) {
    case 0: goto var_B43;
    case 1: goto var_B5;
    default: goto var_B0;
  }
  var_B45:;
  var_i0 = var_p4;
  var_i1 = 255u;
  var_i0 &= var_i1;
  if (var_i0) {goto var_B2;}
  goto var_B43;
  var_B44:;
  var_i0 = var_p4;
  var_i1 = 255u;
  var_i0 &= var_i1;
  if (var_i0) {goto var_B2;}
  var_B43:;
  var_i0 = 4u;
  var_l5 = var_i0;
  goto var_B1;
  var_B18:;
  var_i0 = var_p3;
  var_i1 = 255u;
  var_i0 &= var_i1;
  if (var_i0) {goto var_B53;}
  var_i0 = 2u;
  var_l5 = var_i0;
  goto var_B1;
  var_B53:;
  var_i0 = var_l6;
  var_i1 = var_p4;
  var_i2 = 255u;
  var_i1 &= var_i2;
  var_i0 = var_i0 == var_i1;
  if (var_i0) {goto var_B15;}
  var_i0 = 6u;
  var_l5 = var_i0;
  goto var_B0;
  var_B17:;
  var_i0 = var_p4;
  var_i1 = 4294967291u;
  var_i0 += var_i1;
  var_i1 = 255u;
  var_i0 &= var_i1;
  var_i1 = 2u;
  var_i0 = var_i0 >= var_i1;
  if (var_i0) {goto var_B13;}
  goto var_B6;
  var_B16:;
  var_j0 = 0ull;
  var_l11 = var_j0;
  var_i0 = 1u;
  var_l13 = var_i0;
  goto var_B5;
  var_B15:;
  var_j0 = var_p1;
  var_j1 = 8ull;
  var_j0 += var_j1;
  var_l11 = var_j0;
  var_j0 = var_l8;
  var_j1 = 3ull;
  var_j0 <<= (var_j1 & 63);
  var_l8 = var_j0;
  var_i0 = var_l7;
  switch (var_i0) {
    case 0: goto var_B57;
    case 1: goto var_B56;
    case 2: goto var_B55;
    case 3: goto var_B54;
    default: goto var_B57;
  }
  var_B57:;
  var_i0 = 2u;
  var_l6 = var_i0;
  var_i0 = var_l13;
  var_i0 = !(var_i0);
  if (var_i0) {goto var_B9;}
  var_j0 = var_l11;
  var_j1 = var_l8;
  var_j0 += var_j1;
  var_l8 = var_j0;
  var_i0 = var_l14;
  switch (var_i0) {
    case 0: goto var_B64;
    case 1: goto var_B63;
    case 2: goto var_B62;
    case 3: goto var_B61;
    case 4: goto var_B60;
    default: goto var_B64;
  }
  var_B64:;
  var_j0 = var_l8;
  var_j0 = i64_load(origin, (u64)(var_j0));
  var_l11 = var_j0;
  goto var_B59;
  var_B63:;
  var_j0 = var_l8;
  var_j1 = var_l12;
  i64_store(origin, (u64)(var_j0), var_j1);
  var_i0 = 0u;
  var_l15 = var_i0;
  var_j0 = 0ull;
  var_l11 = var_j0;
  goto var_B58;
  var_B62:;
  var_j0 = var_l8;
  var_j0 = i64_load(origin, (u64)(var_j0));
  var_l11 = var_j0;
  var_j0 = var_l8;
  var_j1 = var_l12;
  i64_store(origin, (u64)(var_j0), var_j1);
  goto var_B59;
  var_B61:;
  var_i0 = 0u;
  var_l15 = var_i0;
  var_j0 = 0ull;
  var_l11 = var_j0;
  var_j0 = var_l8;
  var_j0 = i64_load(origin, (u64)(var_j0));
  var_j1 = var_l12;
  var_i0 = var_j0 != var_j1;
  if (var_i0) {goto var_B58;}
  var_j0 = 0ull;
  var_l11 = var_j0;
  var_j0 = var_l8;
  var_j1 = 0ull;
  i64_store(origin, (u64)(var_j0), var_j1);
  goto var_B58;
  var_B60:;
  var_j0 = var_l8;
  var_j1 = 2ull;
  var_j2 = var_p1;
  var_j3 = 1048ull;
  var_j2 += var_j3;
  var_i2 = i32_load8_u(origin, (u64)(var_j2));
  var_i3 = 4294967295u;
  var_i2 += var_i3;
  var_j2 = (u64)(var_i2);
  var_j3 = 255ull;
  var_j2 &= var_j3;
  var_j1 <<= (var_j2 & 63);
  var_j2 = 18446744073709551615ull;
  var_j1 += var_j2;
  var_j2 = var_l8;
  var_j2 = i64_load(origin, (u64)(var_j2));
  var_l11 = var_j2;
  var_j3 = var_l12;
  var_j2 += var_j3;
  var_j1 &= var_j2;
  i64_store(origin, (u64)(var_j0), var_j1);
  var_B59:;
  var_i0 = 1u;
  var_l15 = var_i0;
  var_B58:;
  var_i0 = var_l5;
  var_i1 = 255u;
  var_i0 &= var_i1;
  var_l13 = var_i0;
  var_i1 = 4294967290u;
  var_i0 += var_i1;
  var_i1 = 18u;
  var_i0 = var_i0 < var_i1;
  if (var_i0) {goto var_B65;}
  var_i0 = 1u;
  var_p4 = var_i0;
  var_i0 = 4u;
  var_l6 = var_i0;
  var_j0 = 0ull;
  var_l8 = var_j0;
  var_i0 = 0u;
  var_p3 = var_i0;
  var_i0 = 0u;
  var_l7 = var_i0;
  var_i0 = var_l5;
  var_l14 = var_i0;
  var_i0 = var_l13;
  var_i1 = 4294967295u;
  var_i0 += var_i1;
  switch (var_i0) {
    case 0: goto var_B68;
    case 1: goto var_B67;
    case 2: goto var_B65;
    case 3: goto var_B66;
    case 4: goto var_B4;
    default: goto var_B68;
  }
  var_B68:;
  var_i0 = var_l15;
  var_i0 = !(var_i0);
  if (var_i0) {goto var_B65;}
  var_i0 = 3u;
  var_l14 = var_i0;
  var_i0 = 1u;
  var_l6 = var_i0;
  var_i0 = 0u;
  var_l7 = var_i0;
  var_i0 = 2u;
  var_p3 = var_i0;
  var_j0 = var_l11;
  var_l8 = var_j0;
  var_i0 = 0u;
  var_p4 = var_i0;
  goto var_B4;
  var_B67:;
  var_i0 = var_l15;
  var_j1 = var_l11;
  var_j2 = var_l9;
  var_i1 = var_j1 == var_j2;
  var_i0 &= var_i1;
  var_i0 = !(var_i0);
  if (var_i0) {goto var_B65;}
  var_i0 = 4u;
  var_l14 = var_i0;
  var_i0 = 0u;
  var_l7 = var_i0;
  var_i0 = 3u;
  var_p3 = var_i0;
  var_j0 = var_l9;
  var_l8 = var_j0;
  var_i0 = 3u;
  var_l6 = var_i0;
  var_i0 = 0u;
  var_p4 = var_i0;
  goto var_B4;
  var_B66:;
  var_i0 = var_l15;
  var_i0 = !(var_i0);
  if (var_i0) {goto var_B65;}
  var_i0 = 1u;
  var_l6 = var_i0;
  var_i0 = 0u;
  var_l7 = var_i0;
  var_i0 = 5u;
  var_p3 = var_i0;
  var_j0 = var_l11;
  var_l8 = var_j0;
  var_i0 = 0u;
  var_l14 = var_i0;
  var_i0 = 0u;
  var_p4 = var_i0;
  goto var_B4;
  var_B65:;
  var_i0 = 0u;
  var_l14 = var_i0;
  var_i0 = var_l5;
  var_p3 = var_i0;
  var_i0 = var_l10;
  var_l7 = var_i0;
  var_j0 = var_l9;
  var_l8 = var_j0;
  var_i0 = 2u;
  var_l6 = var_i0;
  var_i0 = 0u;
  var_p4 = var_i0;
  goto var_B4;
  var_B56:;
  var_i0 = 2u;
  var_l6 = var_i0;
  var_i0 = var_l13;
  var_i0 = !(var_i0);
  if (var_i0) {goto var_B9;}
  var_j0 = var_l11;
  var_j1 = var_l8;
  var_j0 += var_j1;
  var_l8 = var_j0;
  var_i0 = var_l14;
  switch (var_i0) {
    case 0: goto var_B75;
    case 1: goto var_B74;
    case 2: goto var_B73;
    case 3: goto var_B72;
    case 4: goto var_B71;
    default: goto var_B75;
  }
  var_B75:;
  var_j0 = var_l8;
  var_j0 = i64_load(origin, (u64)(var_j0));
  var_l11 = var_j0;
  goto var_B70;
  var_B74:;
  var_j0 = var_l8;
  var_j1 = var_l12;
  i64_store(origin, (u64)(var_j0), var_j1);
  var_i0 = 1u;
  var_l15 = var_i0;
  var_j0 = 0ull;
  var_l11 = var_j0;
  var_i0 = 0u;
  var_l16 = var_i0;
  var_i0 = 0u;
  var_l17 = var_i0;
  var_i0 = 0u;
  var_l13 = var_i0;
  goto var_B69;
  var_B73:;
  var_j0 = var_l8;
  var_j0 = i64_load(origin, (u64)(var_j0));
  var_l11 = var_j0;
  var_j0 = var_l8;
  var_j1 = var_l12;
  i64_store(origin, (u64)(var_j0), var_j1);
  goto var_B70;
  var_B72:;
  var_i0 = 0u;
  var_l13 = var_i0;
  var_j0 = var_l8;
  var_j0 = i64_load(origin, (u64)(var_j0));
  var_j1 = var_l12;
  var_i0 = var_j0 == var_j1;
  if (var_i0) {goto var_B76;}
  var_i0 = 1u;
  var_l17 = var_i0;
  var_j0 = 0ull;
  var_l11 = var_j0;
  var_i0 = 0u;
  var_l16 = var_i0;
  var_i0 = 1u;
  var_l15 = var_i0;
  goto var_B69;
  var_B76:;
  var_j0 = 0ull;
  var_l11 = var_j0;
  var_j0 = var_l8;
  var_j1 = 0ull;
  i64_store(origin, (u64)(var_j0), var_j1);
  var_i0 = 1u;
  var_l16 = var_i0;
  var_i0 = 1u;
  var_l17 = var_i0;
  var_i0 = 1u;
  var_l15 = var_i0;
  goto var_B69;
  var_B71:;
  var_j0 = var_l8;
  var_j1 = 2ull;
  var_j2 = var_p1;
  var_j3 = 1048ull;
  var_j2 += var_j3;
  var_i2 = i32_load8_u(origin, (u64)(var_j2));
  var_i3 = 4294967295u;
  var_i2 += var_i3;
  var_j2 = (u64)(var_i2);
  var_j3 = 255ull;
  var_j2 &= var_j3;
  var_j1 <<= (var_j2 & 63);
  var_j2 = 18446744073709551615ull;
  var_j1 += var_j2;
  var_j2 = var_l8;
  var_j2 = i64_load(origin, (u64)(var_j2));
  var_l11 = var_j2;
  var_j3 = var_l12;
  var_j2 += var_j3;
  var_j1 &= var_j2;
  i64_store(origin, (u64)(var_j0), var_j1);
  var_B70:;
  var_i0 = 1u;
  var_l13 = var_i0;
  var_i0 = 0u;
  var_l16 = var_i0;
  var_i0 = 0u;
  var_l17 = var_i0;
  var_i0 = 0u;
  var_l15 = var_i0;
  var_B69:;
  var_i0 = 1u;
  var_l6 = var_i0;
  var_j0 = 0ull;
  var_l8 = var_j0;
  var_i0 = 0u;
  var_p4 = var_i0;
  var_i0 = 7u;
  var_p3 = var_i0;
  var_i0 = 0u;
  var_l7 = var_i0;
  var_i0 = 0u;
  var_l14 = var_i0;
  var_i0 = var_l5;
  var_i1 = 255u;
  var_i0 &= var_i1;
  var_i1 = 4294967295u;
  var_i0 += var_i1;
  switch (var_i0) {
    case 0: goto var_B77;
    case 1: goto var_B77;
    case 2: goto var_B77;
    case 3: goto var_B77;
    case 4: goto var_B77;
    case 5: goto var_B4;
    case 6: goto var_B85;
    case 7: goto var_B84;
    case 8: goto var_B83;
    case 9: goto var_B82;
    case 10: goto var_B77;
    case 11: goto var_B81;
    case 12: goto var_B80;
    case 13: goto var_B78;
    case 14: goto var_B79;
    case 15: goto var_B77;
    case 16: goto var_B77;
    case 17: goto var_B77;
    case 18: goto var_B77;
    case 19: goto var_B77;
    case 20: goto var_B77;
    case 21: goto var_B77;
    case 22: goto var_B77;
    default: goto var_B77;
  }
  var_B85:;
  var_i0 = var_l13;
  var_i0 = !(var_i0);
  if (var_i0) {goto var_B77;}
  var_j0 = var_l11;
  var_i0 = !(var_j0);
  var_i0 = !(var_i0);
  if (var_i0) {goto var_B86;}
  var_i0 = 5u;
  var_l14 = var_i0;
  goto var_B10;
  var_B86:;
  var_j0 = var_l11;
  var_i0 = (u32)(var_j0);
  var_i1 = 4294967295u;
  var_i0 += var_i1;
  var_l7 = var_i0;
  var_i0 = 3u;
  var_l14 = var_i0;
  var_i0 = 8u;
  var_p3 = var_i0;
  goto var_B4;
  var_B84:;
  var_i0 = 9u;
  var_p3 = var_i0;
  var_i0 = var_l10;
  var_l7 = var_i0;
  var_i0 = 0u;
  var_l14 = var_i0;
  goto var_B4;
  var_B83:;
  var_i0 = 10u;
  var_p3 = var_i0;
  goto var_B11;
  var_B82:;
  var_j0 = var_l11;
  var_i0 = !(var_j0);
  var_i1 = var_l13;
  var_i0 &= var_i1;
  var_i0 = !(var_i0);
  if (var_i0) {goto var_B77;}
  var_i0 = 4u;
  var_l14 = var_i0;
  goto var_B10;
  var_B81:;
  var_i0 = var_l13;
  var_i0 = !(var_i0);
  if (var_i0) {goto var_B77;}
  var_j0 = var_l11;
  var_i0 = !(var_j0);
  var_i0 = !(var_i0);
  if (var_i0) {goto var_B12;}
  var_i0 = 13u;
  var_p3 = var_i0;
  goto var_B11;
  var_B80:;
  var_i0 = var_l17;
  var_i0 = !(var_i0);
  if (var_i0) {goto var_B77;}
  var_i0 = var_l16;
  if (var_i0) {goto var_B79;}
  var_i0 = 14u;
  var_p3 = var_i0;
  goto var_B11;
  var_B79:;
  var_i0 = 1u;
  var_p4 = var_i0;
  var_i0 = 5u;
  var_l14 = var_i0;
  var_i0 = 4u;
  var_l6 = var_i0;
  var_i0 = 0u;
  var_p3 = var_i0;
  var_i0 = 0u;
  var_l7 = var_i0;
  goto var_B4;
  var_B78:;
  var_j0 = var_l11;
  var_i0 = !(var_j0);
  var_i1 = var_l15;
  var_i0 |= var_i1;
  var_i0 = !(var_i0);
  if (var_i0) {goto var_B12;}
  var_B77:;
  var_i0 = var_l5;
  var_p3 = var_i0;
  var_i0 = var_l10;
  var_l7 = var_i0;
  var_j0 = var_l9;
  var_l8 = var_j0;
  var_i0 = 2u;
  var_l6 = var_i0;
  var_i0 = 0u;
  var_l14 = var_i0;
  goto var_B4;
  var_B55:;
  var_j0 = var_p1;
  var_j1 = 16ull;
  var_j0 += var_j1;
  var_l18 = var_j0;
  var_j0 = i64_load(origin, (u64)(var_j0));
  var_l19 = var_j0;
  var_j0 = var_l11;
  var_j0 = i64_load(origin, (u64)(var_j0));
  var_l20 = var_j0;
  var_j0 = var_p1;
  var_j1 = 1048ull;
  var_j0 += var_j1;
  var_i0 = i32_load8_u(origin, (u64)(var_j0));
  var_l16 = var_i0;
  var_i0 = 2u;
  var_l6 = var_i0;
  var_i0 = 4u;
  var_l13 = var_i0;
  var_i0 = 0u;
  var_l14 = var_i0;
  var_j0 = 0ull;
  var_l12 = var_j0;
  var_i0 = 0u;
  var_l15 = var_i0;
  var_i0 = 5u;
  var_l17 = var_i0;
  var_i0 = var_l5;
  var_p3 = var_i0;
  var_i0 = var_l10;
  var_l7 = var_i0;
  var_j0 = var_l9;
  var_l8 = var_j0;
  var_i0 = 0u;
  var_p4 = var_i0;
  var_i0 = var_l5;
  var_i1 = 255u;
  var_i0 &= var_i1;
  var_i1 = 4294967295u;
  var_i0 += var_i1;
  switch (var_i0) {
    case 0: goto var_B4;
    case 1: goto var_B4;
    case 2: goto var_B4;
    case 3: goto var_B4;
    case 4: goto var_B4;
    case 5: goto var_B4;
    case 6: goto var_B4;
    case 7: goto var_B4;
    case 8: goto var_B4;
    case 9: goto var_B4;
    case 10: goto var_B4;
    case 11: goto var_B4;
    case 12: goto var_B4;
    case 13: goto var_B4;
    case 14: goto var_B4;
    case 15: goto var_B93;
    case 16: goto var_B4;
    case 17: goto var_B92;
    case 18: goto var_B91;
    case 19: goto var_B4;
    case 20: goto var_B4;
    case 21: goto var_B87;
    case 22: goto var_B88;
    default: goto var_B4;
  }
  var_B93:;
  var_j0 = var_l19;
  var_j1 = 0ull;
  var_i0 = var_j0 == var_j1;
  if (var_i0) {goto var_B90;}
  var_i0 = 16u;
  var_p3 = var_i0;
  goto var_B7;
  var_B92:;
  var_j0 = 2ull;
  var_i1 = var_l16;
  var_i2 = 4294967295u;
  var_i1 += var_i2;
  var_j1 = (u64)(var_i1);
  var_j2 = 255ull;
  var_j1 &= var_j2;
  var_j0 <<= (var_j1 & 63);
  var_j1 = 18446744073709551615ull;
  var_j0 += var_j1;
  var_l8 = var_j0;
  var_j1 = var_l20;
  var_j0 += var_j1;
  var_j1 = var_l8;
  var_j0 &= var_j1;
  var_l8 = var_j0;
  var_i0 = 3u;
  var_p4 = var_i0;
  var_i0 = 4u;
  var_l6 = var_i0;
  var_i0 = 0u;
  var_p3 = var_i0;
  goto var_B89;
  var_B91:;
  var_j0 = var_l19;
  var_j1 = var_l20;
  var_j0 |= var_j1;
  var_i0 = !(var_j0);
  if (var_i0) {goto var_B94;}
  var_i0 = 19u;
  var_p3 = var_i0;
  goto var_B7;
  var_B94:;
  var_i0 = 4u;
  var_l17 = var_i0;
  var_i0 = 3u;
  var_l13 = var_i0;
  var_i0 = 21u;
  var_l15 = var_i0;
  var_j0 = 1ull;
  var_l12 = var_j0;
  goto var_B87;
  var_B90:;
  var_j0 = 2ull;
  var_i1 = var_l16;
  var_i2 = 4294967295u;
  var_i1 += var_i2;
  var_j1 = (u64)(var_i1);
  var_j2 = 255ull;
  var_j1 &= var_j2;
  var_j0 <<= (var_j1 & 63);
  var_j1 = 18446744073709551615ull;
  var_j0 += var_j1;
  var_j1 = var_l20;
  var_j2 = 1ull;
  var_j1 += var_j2;
  var_j0 &= var_j1;
  var_l8 = var_j0;
  var_i0 = 2u;
  var_p4 = var_i0;
  var_i0 = 3u;
  var_l6 = var_i0;
  var_i0 = 17u;
  var_p3 = var_i0;
  var_B89:;
  var_j0 = var_l11;
  var_j1 = var_l8;
  i64_store(origin, (u64)(var_j0), var_j1);
  var_i0 = 0u;
  var_l7 = var_i0;
  var_j0 = 0ull;
  var_l8 = var_j0;
  var_i0 = 5u;
  var_l14 = var_i0;
  goto var_B4;
  var_B88:;
  var_j0 = var_l11;
  var_j1 = 2ull;
  var_i2 = var_l16;
  var_i3 = 4294967295u;
  var_i2 += var_i3;
  var_j2 = (u64)(var_i2);
  var_j3 = 255ull;
  var_j2 &= var_j3;
  var_j1 <<= (var_j2 & 63);
  var_j2 = 18446744073709551615ull;
  var_j1 += var_j2;
  var_j2 = var_l20;
  var_j3 = 1ull;
  var_j2 += var_j3;
  var_j1 &= var_j2;
  i64_store(origin, (u64)(var_j0), var_j1);
  var_i0 = 6u;
  var_l17 = var_i0;
  var_i0 = 3u;
  var_l13 = var_i0;
  var_i0 = 17u;
  var_l15 = var_i0;
  var_j0 = 0ull;
  var_l12 = var_j0;
  var_B87:;
  var_j0 = var_l18;
  var_j1 = var_l12;
  i64_store(origin, (u64)(var_j0), var_j1);
  var_i0 = var_l15;
  var_p3 = var_i0;
  var_i0 = 0u;
  var_l7 = var_i0;
  var_j0 = 0ull;
  var_l8 = var_j0;
  var_i0 = var_l13;
  var_l6 = var_i0;
  var_i0 = 5u;
  var_l14 = var_i0;
  var_i0 = var_l17;
  var_p4 = var_i0;
  goto var_B4;
  var_B54:;
  var_j0 = var_p1;
  var_j1 = 24ull;
  var_j0 += var_j1;
  var_j0 = i64_load(origin, (u64)(var_j0));
  var_l21 = var_j0;
  var_j0 = 16ull;
  var_l20 = var_j0;
  var_j0 = var_p1;
  var_j1 = 16ull;
  var_j0 += var_j1;
  var_j0 = i64_load(origin, (u64)(var_j0));
  var_l19 = var_j0;
  var_j0 = var_l11;
  var_j0 = i64_load(origin, (u64)(var_j0));
  var_l18 = var_j0;
  var_j0 = var_p1;
  var_j1 = 1048ull;
  var_j0 += var_j1;
  var_i0 = i32_load8_u(origin, (u64)(var_j0));
  var_l13 = var_i0;
  var_i0 = 5u;
  var_l14 = var_i0;
  var_i0 = 4u;
  var_l6 = var_i0;
  var_i0 = 0u;
  var_l7 = var_i0;
  var_j0 = 0ull;
  var_l8 = var_j0;
  var_j0 = 0ull;
  var_l12 = var_j0;
  var_i0 = 0u;
  var_p3 = var_i0;
  var_i0 = 5u;
  var_p4 = var_i0;
  var_i0 = var_l5;
  var_i1 = 255u;
  var_i0 &= var_i1;
  var_i1 = 4294967295u;
  var_i0 += var_i1;
  switch (var_i0) {
    case 0: goto var_B98;
    case 1: goto var_B98;
    case 2: goto var_B98;
    case 3: goto var_B98;
    case 4: goto var_B98;
    case 5: goto var_B98;
    case 6: goto var_B98;
    case 7: goto var_B98;
    case 8: goto var_B98;
    case 9: goto var_B98;
    case 10: goto var_B98;
    case 11: goto var_B98;
    case 12: goto var_B98;
    case 13: goto var_B98;
    case 14: goto var_B98;
    case 15: goto var_B99;
    case 16: goto var_B98;
    case 17: goto var_B96;
    case 18: goto var_B102;
    case 19: goto var_B101;
    case 20: goto var_B98;
    case 21: goto var_B95;
    case 22: goto var_B100;
    default: goto var_B98;
  }
  var_B102:;
  var_i0 = 0u;
  var_p4 = var_i0;
  var_j0 = 1ull;
  var_l12 = var_j0;
  var_j0 = var_l18;
  var_j1 = var_l19;
  var_i0 = var_j0 != var_j1;
  if (var_i0) {goto var_B103;}
  var_j0 = var_l21;
  var_i0 = !(var_j0);
  var_i0 = !(var_i0);
  if (var_i0) {goto var_B103;}
  var_i0 = 6u;
  var_l14 = var_i0;
  var_i0 = 3u;
  var_l6 = var_i0;
  var_i0 = 21u;
  var_p3 = var_i0;
  goto var_B95;
  var_B103:;
  var_j0 = var_l21;
  var_j1 = 0ull;
  var_i0 = var_j0 != var_j1;
  if (var_i0) {goto var_B98;}
  var_i0 = 2u;
  var_l14 = var_i0;
  var_i0 = 1u;
  var_l6 = var_i0;
  var_i0 = 20u;
  var_p3 = var_i0;
  goto var_B95;
  var_B101:;
  var_j0 = var_l18;
  var_j1 = var_l19;
  var_i0 = var_j0 != var_j1;
  if (var_i0) {goto var_B98;}
  var_i0 = 4u;
  var_p4 = var_i0;
  var_i0 = 5u;
  var_l14 = var_i0;
  var_i0 = 3u;
  var_l6 = var_i0;
  var_j0 = 0ull;
  var_l8 = var_j0;
  var_i0 = 0u;
  var_l7 = var_i0;
  var_i0 = 21u;
  var_p3 = var_i0;
  goto var_B4;
  var_B100:;
  var_j0 = var_l11;
  var_j1 = 2ull;
  var_i2 = var_l13;
  var_i3 = 4294967295u;
  var_i2 += var_i3;
  var_j2 = (u64)(var_i2);
  var_j3 = 255ull;
  var_j2 &= var_j3;
  var_j1 <<= (var_j2 & 63);
  var_j2 = 18446744073709551615ull;
  var_j1 += var_j2;
  var_j2 = var_l18;
  var_j3 = 1ull;
  var_j2 += var_j3;
  var_j1 &= var_j2;
  i64_store(origin, (u64)(var_j0), var_j1);
  var_i0 = 6u;
  var_p4 = var_i0;
  var_i0 = 3u;
  var_l6 = var_i0;
  var_i0 = 17u;
  var_p3 = var_i0;
  var_j0 = 0ull;
  var_l12 = var_j0;
  goto var_B95;
  var_B99:;
  var_j0 = var_l21;
  var_i0 = !(var_j0);
  if (var_i0) {goto var_B97;}
  var_B98:;
  var_i0 = 0u;
  var_l14 = var_i0;
  var_i0 = 2u;
  var_l6 = var_i0;
  goto var_B8;
  var_B97:;
  var_j0 = var_l11;
  var_j1 = 2ull;
  var_i2 = var_l13;
  var_i3 = 4294967295u;
  var_i2 += var_i3;
  var_j2 = (u64)(var_i2);
  var_j3 = 255ull;
  var_j2 &= var_j3;
  var_j1 <<= (var_j2 & 63);
  var_j2 = 18446744073709551615ull;
  var_j1 += var_j2;
  var_j2 = var_l18;
  var_j3 = 1ull;
  var_j2 += var_j3;
  var_j1 &= var_j2;
  i64_store(origin, (u64)(var_j0), var_j1);
  var_i0 = 2u;
  var_p4 = var_i0;
  var_i0 = 5u;
  var_l14 = var_i0;
  var_i0 = 3u;
  var_l6 = var_i0;
  var_i0 = 17u;
  var_p3 = var_i0;
  goto var_B4;
  var_B96:;
  var_j0 = 2ull;
  var_i1 = var_l13;
  var_i2 = 4294967295u;
  var_i1 += var_i2;
  var_j1 = (u64)(var_i1);
  var_j2 = 255ull;
  var_j1 &= var_j2;
  var_j0 <<= (var_j1 & 63);
  var_j1 = 18446744073709551615ull;
  var_j0 += var_j1;
  var_j1 = var_l19;
  var_j2 = 1ull;
  var_j1 += var_j2;
  var_j0 &= var_j1;
  var_l12 = var_j0;
  var_i0 = 3u;
  var_p4 = var_i0;
  var_j0 = 8ull;
  var_l20 = var_j0;
  var_i0 = 0u;
  var_p3 = var_i0;
  var_B95:;
  var_j0 = var_l11;
  var_j1 = var_l20;
  var_j0 += var_j1;
  var_j1 = var_l12;
  i64_store(origin, (u64)(var_j0), var_j1);
  goto var_B4;
  var_B14:;
  var_i0 = var_p4;
  var_i1 = 255u;
  var_i0 &= var_i1;
  var_i1 = 3u;
  var_i0 = var_i0 == var_i1;
  if (var_i0) {goto var_B6;}
  var_B13:;
  var_j0 = 847740695479043ull;
  var_i1 = var_p4;
  var_j1 = (u64)(var_i1);
  var_j2 = 255ull;
  var_j1 &= var_j2;
  var_j2 = 3ull;
  var_j1 <<= (var_j2 & 63);
  var_j0 >>= (var_j1 & 63);
  var_i0 = (u32)(var_j0);
  var_l5 = var_i0;
  goto var_B1;
  var_B12:;
  var_j0 = var_l11;
  var_i0 = (u32)(var_j0);
  var_i1 = 4294967295u;
  var_i0 += var_i1;
  var_l7 = var_i0;
  var_i0 = 15u;
  var_p3 = var_i0;
  var_i0 = 0u;
  var_l14 = var_i0;
  goto var_B4;
  var_B11:;
  var_i0 = 0u;
  var_l7 = var_i0;
  var_i0 = 0u;
  var_l14 = var_i0;
  goto var_B4;
  var_B10:;
  var_i0 = 3u;
  var_l6 = var_i0;
  var_i0 = 11u;
  var_p3 = var_i0;
  var_i0 = 0u;
  var_l7 = var_i0;
  goto var_B4;
  var_B9:;
  var_i0 = 0u;
  var_l14 = var_i0;
  var_B8:;
  var_i0 = var_l5;
  var_p3 = var_i0;
  var_B7:;
  var_i0 = var_l10;
  var_l7 = var_i0;
  var_j0 = var_l9;
  var_l8 = var_j0;
  var_i0 = 0u;
  var_p4 = var_i0;
  goto var_B4;
  var_B6:;
  var_i0 = 1u;
  var_l14 = var_i0;
  var_i0 = 0u;
  var_l6 = var_i0;
  var_i0 = var_l5;
  var_i1 = 255u;
  var_i0 &= var_i1;
  var_l13 = var_i0;
  var_i1 = 4294967295u;
  var_i0 += var_i1;
  var_i1 = 16u;
  var_i0 = var_i0 >= var_i1;
  if (var_i0) {goto var_B104;}
  var_i0 = var_l5;
  var_p3 = var_i0;
  var_i0 = var_l10;
  var_l7 = var_i0;
  var_j0 = var_l9;
  var_l8 = var_j0;
  goto var_B4;
  var_B104:;
  var_i0 = var_l5;
  var_p3 = var_i0;
  var_i0 = var_l10;
  var_l7 = var_i0;
  var_j0 = var_l9;
  var_l8 = var_j0;
  var_i0 = var_l13;
  switch (var_i0) {
    case 0: goto var_B107;
    case 1: goto var_B3;
    case 2: goto var_B3;
    case 3: goto var_B3;
    case 4: goto var_B3;
    case 5: goto var_B3;
    case 6: goto var_B3;
    case 7: goto var_B3;
    case 8: goto var_B3;
    case 9: goto var_B3;
    case 10: goto var_B3;
    case 11: goto var_B3;
    case 12: goto var_B3;
    case 13: goto var_B3;
    case 14: goto var_B3;
    case 15: goto var_B3;
    case 16: goto var_B3;
    case 17: goto var_B106;
    case 18: goto var_B4;
    case 19: goto var_B4;
    case 20: goto var_B4;
    case 21: goto var_B105;
    default: goto var_B107;
  }
  var_B107:;
  var_i0 = 0u;
  var_p3 = var_i0;
  var_j0 = 0ull;
  var_l11 = var_j0;
  var_i0 = 16u;
  var_l13 = var_i0;
  var_i0 = var_l10;
  var_l7 = var_i0;
  var_j0 = var_l9;
  var_l8 = var_j0;
  var_i0 = 0u;
  var_l6 = var_i0;
  var_i0 = var_p4;
  var_i1 = 255u;
  var_i0 &= var_i1;
  var_i1 = 4294967294u;
  var_i0 += var_i1;
  switch (var_i0) {
    case 0: goto var_B5;
    case 1: goto var_B4;
    case 2: goto var_B108;
    case 3: goto var_B4;
    case 4: goto var_B4;
    default: goto var_B5;
  }
  var_B108:;
  var_i0 = 19u;
  var_l13 = var_i0;
  goto var_B5;
  var_B106:;
  var_i0 = 18u;
  var_i1 = var_l5;
  var_i2 = var_p4;
  var_i3 = 255u;
  var_i2 &= var_i3;
  var_i3 = 3u;
  var_i2 = var_i2 == var_i3;
  var_p3 = var_i2;
  var_i0 = var_i2 ? var_i0 : var_i1;
  var_l13 = var_i0;
  var_j0 = 0ull;
  var_j1 = var_l9;
  var_i2 = var_p3;
  var_j0 = var_i2 ? var_j0 : var_j1;
  var_l11 = var_j0;
  var_i0 = var_p3;
  if (var_i0) {goto var_B5;}
  var_i0 = var_l13;
  var_p3 = var_i0;
  var_i0 = var_l10;
  var_l7 = var_i0;
  var_j0 = var_l11;
  var_l8 = var_j0;
  goto var_B4;
  var_B105:;
  var_i0 = 21u;
  var_p3 = var_i0;
  var_j0 = 0ull;
  var_l11 = var_j0;
  var_i0 = 22u;
  var_l13 = var_i0;
  var_i0 = var_l10;
  var_l7 = var_i0;
  var_j0 = var_l9;
  var_l8 = var_j0;
  var_i0 = var_p4;
  var_i1 = 255u;
  var_i0 &= var_i1;
  var_i1 = 4294967294u;
  var_i0 += var_i1;
  switch (var_i0) {
    case 0: goto var_B4;
    case 1: goto var_B4;
    case 2: goto var_B4;
    case 3: goto var_B5;
    case 4: goto var_B109;
    default: goto var_B4;
  }
  var_B109:;
  var_i0 = 23u;
  var_l13 = var_i0;
  var_B5:;
  var_i0 = 1u;
  var_l14 = var_i0;
  var_i0 = 0u;
  var_l7 = var_i0;
  var_i0 = var_l13;
  var_p3 = var_i0;
  var_j0 = var_l11;
  var_l8 = var_j0;
  var_i0 = 0u;
  var_l6 = var_i0;
  var_B4:;
  var_j0 = var_p1;
  var_i1 = var_p2;
  var_j1 = (u64)(var_i1);
  var_j2 = 255ull;
  var_j1 &= var_j2;
  var_j2 = 4ull;
  var_j1 <<= (var_j2 & 63);
  var_j0 += var_j1;
  var_p1 = var_j0;
  var_j1 = 1064ull;
  var_j0 += var_j1;
  var_j1 = var_l8;
  i64_store(origin, (u64)(var_j0), var_j1);
  var_j0 = var_p1;
  var_j1 = 1057ull;
  var_j0 += var_j1;
  var_i1 = var_l7;
  i32_store8(origin, (u64)(var_j0), var_i1);
  var_j0 = var_p1;
  var_j1 = 1056ull;
  var_j0 += var_j1;
  var_i1 = var_p3;
  i32_store8(origin, (u64)(var_j0), var_i1);
  var_j0 = var_p0;
  var_j1 = 3ull;
  var_j0 += var_j1;
  var_i1 = var_p4;
  i32_store8(origin, (u64)(var_j0), var_i1);
  var_j0 = var_p0;
  var_j1 = 2ull;
  var_j0 += var_j1;
  var_i1 = var_l14;
  i32_store8(origin, (u64)(var_j0), var_i1);
  var_j0 = var_p0;
  var_j1 = 1ull;
  var_j0 += var_j1;
  var_i1 = var_l6;
  i32_store8(origin, (u64)(var_j0), var_i1);
  var_j0 = var_p0;
  var_i1 = 0u;
  i32_store8(origin, (u64)(var_j0), var_i1);
  goto var_Bfunc;
  var_B3:;
  UNREACHABLE;
  var_B2:;
  var_i0 = 3u;
  var_l5 = var_i0;
  var_B1:;
  var_i0 = 0u;
  var_l6 = var_i0;
  var_B0:;
  var_j0 = var_p0;
  var_i1 = 1u;
  i32_store8(origin, (u64)(var_j0), var_i1);
  var_j0 = var_p0;
  var_j1 = 3ull;
  var_j0 += var_j1;
  var_i1 = 0u;
  i32_store8(origin, (u64)(var_j0), var_i1);
  var_j0 = var_p0;
  var_j1 = 2ull;
  var_j0 += var_j1;
  var_i1 = var_l6;
  i32_store8(origin, (u64)(var_j0), var_i1);
  var_j0 = var_p0;
  var_j1 = 1ull;
  var_j0 += var_j1;
  var_i1 = var_l5;
  i32_store8(origin, (u64)(var_j0), var_i1);
  var_Bfunc:;
  FUNC_EPILOGUE;
}

static void w2c_lockreplay_lk_replay0x3A0x3Areport0x3A0x3Aoccupancy0x3A0x3AOccupancyText0x3A0x3Aact(w2c_lockreplay* instance, u64 var_p0, u32 var_p1, u32 var_p2) {
  u32 var_l5 = 0, var_l6 = 0;
  u64 var_l3 = 0, var_l4 = 0, var_l7 = 0, var_l8 = 0, var_l9 = 0, var_l10 = 0, var_l11 = 0, var_l12 = 0,
      var_l13 = 0, var_l14 = 0, var_l15 = 0, var_l16 = 0;
  FUNC_PROLOGUE;
  u32 var_i0, var_i1, var_i2, var_i3, var_i4, var_i5, var_i6;
  u64 var_j0, var_j1, var_j2, var_j3, var_j4;
  var_j0 = instance->w2c_0x5F_stack_pointer;
  var_l3 = var_j0;
  var_j1 = 16ull;
  var_i0 = (u64)((s64)var_j0 < (s64)var_j1);
  if (var_i0) {goto var_B0;}
  var_i0 = var_p2;
  var_j0 = (u64)(var_i0);
  var_j1 = 255ull;
  var_j0 &= var_j1;
  var_i0 = (u32)(var_j0);
  switch (var_i0) {
    case 0: goto var_B7;
    case 1: goto var_B6;
    case 2: goto var_B5;
    case 3: goto var_B4;
    case 4: goto var_B3;
    case 5: goto var_B2;
    case 6: goto var_B1;
    default: goto var_B7;
  }
  var_B7:;
  var_j0 = var_p0;
  var_j1 = 8ull;
  var_j0 += var_j1;
  var_l4 = var_j0;
  var_i0 = var_p1;
  var_i1 = 255u;
  var_i0 &= var_i1;
  var_p2 = var_i0;
  var_i1 = 99u;
  var_i0 = var_i0 > var_i1;
  if (var_i0) {goto var_B9;}
  var_i0 = var_p2;
  var_i1 = 9u;
  var_i0 = var_i0 > var_i1;
  if (var_i0) {goto var_B10;}
  var_i0 = var_p1;
  var_i1 = 48u;
  var_i0 |= var_i1;
  var_p2 = var_i0;
  var_i0 = 738197504u;
  var_l5 = var_i0;
  var_i0 = 44u;
  var_l6 = var_i0;
  goto var_B8;
  var_B10:;
  var_i0 = var_p1;
  var_j0 = (u64)(var_i0);
  var_j1 = 255ull;
  var_j0 &= var_j1;
  var_j1 = 1ull;
  var_j0 <<= (var_j1 & 63);
  var_l7 = var_j0;
  var_i0 = i32_load8_u(origin, (u64)(var_j0) + 1057859u);
  var_l6 = var_i0;
  var_j0 = var_l7;
  var_i0 = i32_load8_u(origin, (u64)(var_j0) + 1057858u);
  var_p2 = var_i0;
  var_i0 = 738197504u;
  var_l5 = var_i0;
  goto var_B8;
  var_B9:;
  var_i0 = var_p2;
  var_i1 = 100u;
  var_i0 = DIV_U(var_i0, var_i1);
  var_l5 = var_i0;
  var_i1 = 48u;
  var_i0 |= var_i1;
  var_p2 = var_i0;
  var_i0 = var_p1;
  var_i1 = var_l5;
  var_i2 = 100u;
  var_i1 *= var_i2;
  var_i0 -= var_i1;
  var_j0 = (u64)(var_i0);
  var_j1 = 255ull;
  var_j0 &= var_j1;
  var_j1 = 1ull;
  var_j0 <<= (var_j1 & 63);
  var_l7 = var_j0;
  var_i0 = i32_load8_u(origin, (u64)(var_j0) + 1057859u);
  var_i1 = 24u;
  var_i0 <<= (var_i1 & 31);
  var_l5 = var_i0;
  var_j0 = var_l7;
  var_i0 = i32_load8_u(origin, (u64)(var_j0) + 1057858u);
  var_l6 = var_i0;
  var_B8:;
  var_j0 = var_l4;
  var_j1 = var_p0;
  var_j2 = 328ull;
  var_j1 += var_j2;
  var_p0 = var_j1;
  var_j1 = i64_load(origin, (u64)(var_j1));
  var_l7 = var_j1;
  var_j0 += var_j1;
  var_i1 = var_l6;
  var_i2 = 255u;
  var_i1 &= var_i2;
  var_i2 = 16u;
  var_i1 <<= (var_i2 & 31);
  var_i2 = var_l5;
  var_i1 |= var_i2;
  var_i2 = var_p2;
  var_i3 = 255u;
  var_i2 &= var_i3;
  var_i3 = 8u;
  var_i2 <<= (var_i3 & 31);
  var_i1 |= var_i2;
  var_i2 = 44u;
  var_i1 |= var_i2;
  i32_store(origin, (u64)(var_j0), var_i1);
  var_j0 = var_p0;
  var_j1 = var_l7;
  var_j2 = 4ull;
  var_j3 = 3ull;
  var_j4 = 2ull;
  var_i5 = var_p1;
  var_i6 = 255u;
  var_i5 &= var_i6;
  var_p1 = var_i5;
  var_i6 = 9u;
  var_i5 = var_i5 > var_i6;
  var_j3 = var_i5 ? var_j3 : var_j4;
  var_i4 = var_p1;
  var_i5 = 99u;
  var_i4 = var_i4 > var_i5;
  var_j2 = var_i4 ? var_j2 : var_j3;
  var_j1 += var_j2;
  i64_store(origin, (u64)(var_j0), var_j1);
  var_j0 = var_l3;
  instance->w2c_0x5F_stack_pointer = var_j0;
  goto var_Bfunc;
  var_B6:;
  var_j0 = 4ull;
  var_j1 = 3ull;
  var_j2 = 2ull;
  var_i3 = var_p1;
  var_i4 = 255u;
  var_i3 &= var_i4;
  var_p1 = var_i3;
  var_i4 = 9u;
  var_i3 = var_i3 > var_i4;
  var_j1 = var_i3 ? var_j1 : var_j2;
  var_i2 = var_p1;
  var_i3 = 99u;
  var_i2 = var_i2 > var_i3;
  var_j0 = var_i2 ? var_j0 : var_j1;
  var_l8 = var_j0;
  var_l4 = var_j0;
  var_j0 = var_p0;
  var_j1 = 328ull;
  var_j0 += var_j1;
  var_l9 = var_j0;
  var_j0 = i64_load(origin, (u64)(var_j0));
  var_l10 = var_j0;
  var_j1 = var_l8;
  var_i0 = var_j0 == var_j1;
  if (var_i0) {goto var_B11;}
  var_j0 = var_l10;
  var_j1 = var_l8;
  var_j0 -= var_j1;
  var_l11 = var_j0;
  var_j1 = 3ull;
  var_j0 &= var_j1;
  var_l7 = var_j0;
  var_j0 = 0ull;
  var_l4 = var_j0;
  var_j0 = var_l8;
  var_j1 = var_l10;
  var_j0 -= var_j1;
  var_j1 = 18446744073709551612ull;
  var_i0 = var_j0 > var_j1;
  if (var_i0) {goto var_B13;}
  var_j0 = var_p0;
  var_j1 = var_l8;
  var_j0 += var_j1;
  var_l10 = var_j0;
  var_j0 = var_l11;
  var_j1 = 18446744073709551612ull;
  var_j0 &= var_j1;
  var_l11 = var_j0;
  var_j0 = 0ull;
  var_l4 = var_j0;
  var_L14:
    var_j0 = var_p0;
    var_j1 = var_l4;
    var_j0 += var_j1;
    var_j1 = 8ull;
    var_j0 += var_j1;
    var_j1 = var_l10;
    var_j2 = var_l4;
    var_j1 += var_j2;
    var_j2 = 8ull;
    var_j1 += var_j2;
    var_i1 = i32_load(origin, (u64)(var_j1));
    i32_store(origin, (u64)(var_j0), var_i1);
    var_j0 = var_l11;
    var_j1 = var_l4;
    var_j2 = 4ull;
    var_j1 += var_j2;
    var_l4 = var_j1;
    var_i0 = var_j0 != var_j1;
    if (var_i0) {goto var_L14;}
  var_j0 = var_l7;
  var_i0 = !(var_j0);
  if (var_i0) {goto var_B12;}
  var_B13:;
  var_j0 = var_l4;
  var_j1 = var_p0;
  var_j0 += var_j1;
  var_j1 = 8ull;
  var_j0 += var_j1;
  var_l4 = var_j0;
  var_L15:
    var_j0 = var_l4;
    var_j1 = var_l4;
    var_j2 = var_l8;
    var_j1 += var_j2;
    var_i1 = i32_load8_u(origin, (u64)(var_j1));
    i32_store8(origin, (u64)(var_j0), var_i1);
    var_j0 = var_l4;
    var_j1 = 1ull;
    var_j0 += var_j1;
    var_l4 = var_j0;
    var_j0 = var_l7;
    var_j1 = 18446744073709551615ull;
    var_j0 += var_j1;
    var_l7 = var_j0;
    var_j1 = 0ull;
    var_i0 = var_j0 != var_j1;
    if (var_i0) {goto var_L15;}
  var_B12:;
  var_j0 = var_p0;
  var_j1 = 328ull;
  var_j0 += var_j1;
  var_j0 = i64_load(origin, (u64)(var_j0));
  var_l4 = var_j0;
  var_B11:;
  var_j0 = var_p0;
  var_j1 = 1ull;
  var_j0 += var_j1;
  var_i1 = 0u;
  i32_store16(origin, (u64)(var_j0), var_i1);
  var_j0 = var_l9;
  var_j1 = var_l4;
  var_j2 = var_l8;
  var_j1 -= var_j2;
  i64_store(origin, (u64)(var_j0), var_j1);
  var_j0 = var_l3;
  instance->w2c_0x5F_stack_pointer = var_j0;
  goto var_Bfunc;
  var_B5:;
  var_j0 = var_p0;
  var_j1 = 336ull;
  var_j0 += var_j1;
  var_i1 = var_p1;
  w2c_lockreplay_lk_replay0x3A0x3Areport0x3A0x3Alists0x3A0x3AReaders0x3A0x3Ajoin(instance, var_j0, var_i1);
  var_j0 = var_l3;
  instance->w2c_0x5F_stack_pointer = var_j0;
  goto var_Bfunc;
  var_B4:;
  var_j0 = var_p0;
  var_j1 = 656ull;
  var_j0 += var_j1;
  var_j0 = i64_load(origin, (u64)(var_j0));
  var_l7 = var_j0;
  var_j1 = var_p0;
  var_j2 = 664ull;
  var_j1 += var_j2;
  var_j1 = i64_load(origin, (u64)(var_j1));
  var_j2 = 18446744073709551615ull;
  var_i3 = var_p1;
  var_j3 = (u64)(var_i3);
  var_j4 = 255ull;
  var_j3 &= var_j4;
  var_j2 <<= (var_j3 & 63);
  var_l12 = var_j2;
  var_j3 = 18446744073709551615ull;
  var_j2 ^= var_j3;
  var_j1 &= var_j2;
  var_l4 = var_j1;
  var_j1 = I64_POPCNT(var_j1);
  var_j2 = 3ull;
  var_j1 *= var_j2;
  var_l13 = var_j1;
  var_j2 = var_l4;
  var_j3 = 1023ull;
  var_j2 &= var_j3;
  var_j2 = I64_POPCNT(var_j2);
  var_l14 = var_j2;
  var_j1 -= var_j2;
  var_l11 = var_j1;
  var_j2 = 4ull;
  var_j3 = 3ull;
  var_j4 = 2ull;
  var_i5 = var_p1;
  var_i6 = 255u;
  var_i5 &= var_i6;
  var_p1 = var_i5;
  var_i6 = 9u;
  var_i5 = var_i5 > var_i6;
  var_j3 = var_i5 ? var_j3 : var_j4;
  var_i4 = var_p1;
  var_i5 = 99u;
  var_i4 = var_i4 > var_i5;
  var_j2 = var_i4 ? var_j2 : var_j3;
  var_l15 = var_j2;
  var_j1 += var_j2;
  var_l9 = var_j1;
  var_j0 -= var_j1;
  var_l8 = var_j0;
  var_j0 = var_l9;
  var_j1 = var_l11;
  var_i0 = var_j0 < var_j1;
  if (var_i0) {goto var_B17;}
  var_j0 = var_l7;
  var_j1 = var_l9;
  var_i0 = var_j0 == var_j1;
  if (var_i0) {goto var_B16;}
  var_j0 = var_l8;
  var_j1 = 3ull;
  var_j0 &= var_j1;
  var_l10 = var_j0;
  var_j0 = 0ull;
  var_l4 = var_j0;
  var_j0 = var_l15;
  var_j1 = var_l14;
  var_j2 = var_l7;
  var_j1 += var_j2;
  var_j0 -= var_j1;
  var_j1 = var_l13;
  var_j0 += var_j1;
  var_j1 = 18446744073709551612ull;
  var_i0 = var_j0 > var_j1;
  if (var_i0) {goto var_B18;}
  var_j0 = var_p0;
  var_j1 = var_l11;
  var_j0 += var_j1;
  var_l11 = var_j0;
  var_j0 = var_p0;
  var_j1 = var_l9;
  var_j0 += var_j1;
  var_l9 = var_j0;
  var_j0 = var_l8;
  var_j1 = 18446744073709551612ull;
  var_j0 &= var_j1;
  var_l16 = var_j0;
  var_j0 = 0ull;
  var_l4 = var_j0;
  var_L19:
    var_j0 = var_l11;
    var_j1 = var_l4;
    var_j0 += var_j1;
    var_l7 = var_j0;
    var_j1 = 336ull;
    var_j0 += var_j1;
    var_j1 = var_l9;
    var_j2 = var_l4;
    var_j1 += var_j2;
    var_l8 = var_j1;
    var_j2 = 336ull;
    var_j1 += var_j2;
    var_i1 = i32_load8_u(origin, (u64)(var_j1));
    i32_store8(origin, (u64)(var_j0), var_i1);
    var_j0 = var_l7;
    var_j1 = 337ull;
    var_j0 += var_j1;
    var_j1 = var_l8;
    var_j2 = 337ull;
    var_j1 += var_j2;
    var_i1 = i32_load8_u(origin, (u64)(var_j1));
    i32_store8(origin, (u64)(var_j0), var_i1);
    var_j0 = var_l7;
    var_j1 = 338ull;
    var_j0 += var_j1;
    var_j1 = var_l8;
    var_j2 = 338ull;
    var_j1 += var_j2;
    var_i1 = i32_load8_u(origin, (u64)(var_j1));
    i32_store8(origin, (u64)(var_j0), var_i1);
    var_j0 = var_l7;
    var_j1 = 339ull;
    var_j0 += var_j1;
    var_j1 = var_l8;
    var_j2 = 339ull;
    var_j1 += var_j2;
    var_i1 = i32_load8_u(origin, (u64)(var_j1));
    i32_store8(origin, (u64)(var_j0), var_i1);
    var_j0 = var_l16;
    var_j1 = var_l4;
    var_j2 = 4ull;
    var_j1 += var_j2;
    var_l4 = var_j1;
    var_i0 = var_j0 != var_j1;
    if (var_i0) {goto var_L19;}
  var_j0 = var_l10;
  var_i0 = !(var_j0);
  if (var_i0) {goto var_B16;}
  var_B18:;
  var_j0 = var_l4;
  var_j1 = var_l13;
  var_j0 += var_j1;
  var_j1 = var_l14;
  var_j0 -= var_j1;
  var_j1 = var_p0;
  var_j0 += var_j1;
  var_j1 = 336ull;
  var_j0 += var_j1;
  var_l4 = var_j0;
  var_L20:
    var_j0 = var_l4;
    var_j1 = var_l4;
    var_j2 = var_l15;
    var_j1 += var_j2;
    var_i1 = i32_load8_u(origin, (u64)(var_j1));
    i32_store8(origin, (u64)(var_j0), var_i1);
    var_j0 = var_l4;
    var_j1 = 1ull;
    var_j0 += var_j1;
    var_l4 = var_j0;
    var_j0 = var_l10;
    var_j1 = 18446744073709551615ull;
    var_j0 += var_j1;
    var_l10 = var_j0;
    var_j1 = 0ull;
    var_i0 = var_j0 != var_j1;
    if (var_i0) {goto var_L20;}
    goto var_B16;
  var_B17:;
  var_j0 = var_l8;
  var_i0 = !(var_j0);
  if (var_i0) {goto var_B16;}
  var_j0 = var_l14;
  var_j1 = var_l7;
  var_j0 += var_j1;
  var_l16 = var_j0;
  var_j0 = var_l8;
  var_j1 = 3ull;
  var_j0 &= var_j1;
  var_l10 = var_j0;
  var_i0 = !(var_j0);
  if (var_i0) {goto var_B21;}
  var_j0 = 0ull;
  var_j1 = var_l15;
  var_j0 -= var_j1;
  var_l8 = var_j0;
  var_j0 = var_l7;
  var_j1 = var_p0;
  var_j0 += var_j1;
  var_j1 = 335ull;
  var_j0 += var_j1;
  var_l4 = var_j0;
  var_j0 = var_l13;
  var_j1 = var_l16;
  var_j0 -= var_j1;
  var_l7 = var_j0;
  var_L22:
    var_j0 = var_l4;
    var_j1 = var_l8;
    var_j0 += var_j1;
    var_j1 = var_l4;
    var_i1 = i32_load8_u(origin, (u64)(var_j1));
    i32_store8(origin, (u64)(var_j0), var_i1);
    var_j0 = var_l4;
    var_j1 = 18446744073709551615ull;
    var_j0 += var_j1;
    var_l4 = var_j0;
    var_j0 = var_l7;
    var_j1 = 1ull;
    var_j0 += var_j1;
    var_l7 = var_j0;
    var_j0 = var_l10;
    var_j1 = 18446744073709551615ull;
    var_j0 += var_j1;
    var_l10 = var_j0;
    var_j1 = 0ull;
    var_i0 = var_j0 != var_j1;
    if (var_i0) {goto var_L22;}
  var_j0 = 0ull;
  var_j1 = var_l15;
  var_j2 = var_l7;
  var_j1 += var_j2;
  var_j0 -= var_j1;
  var_l8 = var_j0;
  var_B21:;
  var_j0 = var_l15;
  var_j1 = var_l16;
  var_j0 -= var_j1;
  var_j1 = var_l13;
  var_j0 += var_j1;
  var_j1 = 18446744073709551612ull;
  var_i0 = var_j0 > var_j1;
  if (var_i0) {goto var_B16;}
  var_j0 = var_p0;
  var_j1 = var_l9;
  var_j0 += var_j1;
  var_l10 = var_j0;
  var_j0 = var_p0;
  var_j1 = var_l11;
  var_j0 += var_j1;
  var_l11 = var_j0;
  var_j0 = 0ull;
  var_l9 = var_j0;
  var_L23:
    var_j0 = var_l11;
    var_j1 = var_l8;
    var_j0 += var_j1;
    var_l4 = var_j0;
    var_j1 = 335ull;
    var_j0 += var_j1;
    var_j1 = var_l10;
    var_j2 = var_l8;
    var_j1 += var_j2;
    var_l7 = var_j1;
    var_j2 = 335ull;
    var_j1 += var_j2;
    var_i1 = i32_load8_u(origin, (u64)(var_j1));
    i32_store8(origin, (u64)(var_j0), var_i1);
    var_j0 = var_l4;
    var_j1 = 334ull;
    var_j0 += var_j1;
    var_j1 = var_l7;
    var_j2 = 334ull;
    var_j1 += var_j2;
    var_i1 = i32_load8_u(origin, (u64)(var_j1));
    i32_store8(origin, (u64)(var_j0), var_i1);
    var_j0 = var_l4;
    var_j1 = 333ull;
    var_j0 += var_j1;
    var_j1 = var_l7;
    var_j2 = 333ull;
    var_j1 += var_j2;
    var_i1 = i32_load8_u(origin, (u64)(var_j1));
    i32_store8(origin, (u64)(var_j0), var_i1);
    var_j0 = var_l4;
    var_j1 = 332ull;
    var_j0 += var_j1;
    var_j1 = var_l7;
    var_j2 = 332ull;
    var_j1 += var_j2;
    var_i1 = i32_load8_u(origin, (u64)(var_j1));
    i32_store8(origin, (u64)(var_j0), var_i1);
    var_j0 = var_l10;
    var_j1 = 18446744073709551612ull;
    var_j0 += var_j1;
    var_l10 = var_j0;
    var_j0 = var_l11;
    var_j1 = 18446744073709551612ull;
    var_j0 += var_j1;
    var_l11 = var_j0;
    var_j0 = var_l8;
    var_j1 = var_l9;
    var_j2 = 4ull;
    var_j1 += var_j2;
    var_l9 = var_j1;
    var_i0 = var_j0 != var_j1;
    if (var_i0) {goto var_L23;}
  var_B16:;
  var_j0 = var_p0;
  var_j1 = 656ull;
  var_j0 += var_j1;
  var_l4 = var_j0;
  var_j1 = var_l4;
  var_j1 = i64_load(origin, (u64)(var_j1));
  var_j2 = var_l15;
  var_j1 -= var_j2;
  i64_store(origin, (u64)(var_j0), var_j1);
  var_j0 = var_p0;
  var_j1 = 664ull;
  var_j0 += var_j1;
  var_l4 = var_j0;
  var_j1 = var_l4;
  var_j1 = i64_load(origin, (u64)(var_j1));
  var_j2 = var_l12;
  var_j1 += var_j2;
  i64_store(origin, (u64)(var_j0), var_j1);
  var_j0 = var_l3;
  instance->w2c_0x5F_stack_pointer = var_j0;
  goto var_Bfunc;
  var_B3:;
  var_j0 = var_p0;
  var_j1 = 675ull;
  var_j0 += var_j1;
  var_i1 = var_p1;
  i32_store8(origin, (u64)(var_j0), var_i1);
  var_j0 = var_p0;
  var_j1 = 674ull;
  var_j0 += var_j1;
  var_i1 = 0u;
  i32_store8(origin, (u64)(var_j0), var_i1);
  var_j0 = var_p0;
  var_j1 = 673ull;
  var_j0 += var_j1;
  var_i1 = var_p1;
  i32_store8(origin, (u64)(var_j0), var_i1);
  var_j0 = var_p0;
  var_j1 = 672ull;
  var_j0 += var_j1;
  var_i1 = 1u;
  i32_store8(origin, (u64)(var_j0), var_i1);
  var_j0 = var_l3;
  instance->w2c_0x5F_stack_pointer = var_j0;
  goto var_Bfunc;
  var_B2:;
  var_j0 = var_p0;
  var_j1 = 672ull;
  var_j0 += var_j1;
  var_i1 = 0u;
  i32_store16(origin, (u64)(var_j0), var_i1);
  var_j0 = var_l3;
  instance->w2c_0x5F_stack_pointer = var_j0;
  goto var_Bfunc;
  var_B1:;
  var_j0 = var_p0;
  var_j1 = 336ull;
  var_j0 += var_j1;
  var_i1 = var_p1;
  w2c_lockreplay_lk_replay0x3A0x3Areport0x3A0x3Alists0x3A0x3AReaders0x3A0x3Ajoin(instance, var_j0, var_i1);
  var_j0 = var_p0;
  var_j1 = 672ull;
  var_j0 += var_j1;
  var_i1 = 0u;
  i32_store16(origin, (u64)(var_j0), var_i1);
  var_j0 = var_l3;
  instance->w2c_0x5F_stack_pointer = var_j0;
  goto var_Bfunc;
  var_B0:;
  UNREACHABLE;
  var_Bfunc:;
  FUNC_EPILOGUE;
}

static void w2c_lockreplay_lk_replay0x3A0x3Areport0x3A0x3Alists0x3A0x3AReaders0x3A0x3Ajoin(w2c_lockreplay* instance, u64 var_p0, u32 var_p1) {
  u32 var_l9 = 0, var_l10 = 0, var_l11 = 0;
  u64 var_l2 = 0, var_l3 = 0, var_l4 = 0, var_l5 = 0, var_l6 = 0, var_l7 = 0, var_l8 = 0, var_l12 = 0,
      var_l13 = 0, var_l14 = 0, var_l15 = 0, var_l16 = 0, var_l17 = 0;
  FUNC_PROLOGUE;
  u32 var_i0, var_i1, var_i2, var_i3, var_i4;
  u64 var_j0, var_j1, var_j2, var_j3;
  var_j0 = instance->w2c_0x5F_stack_pointer;
  var_j1 = 16ull;
  var_j0 -= var_j1;
  var_l2 = var_j0;
  var_j1 = 16ull;
  var_i0 = (u64)((s64)var_j0 < (s64)var_j1);
  if (var_i0) {goto var_B0;}
  var_j0 = var_p0;
  var_j1 = 328ull;
  var_j0 += var_j1;
  var_j0 = i64_load(origin, (u64)(var_j0));
  var_j1 = 18446744073709551615ull;
  var_i2 = var_p1;
  var_j2 = (u64)(var_i2);
  var_l3 = var_j2;
  var_j3 = 255ull;
  var_j2 &= var_j3;
  var_l4 = var_j2;
  var_j1 <<= (var_j2 & 63);
  var_j2 = 18446744073709551615ull;
  var_j1 ^= var_j2;
  var_j0 &= var_j1;
  var_l5 = var_j0;
  var_j0 = I64_POPCNT(var_j0);
  var_j1 = 3ull;
  var_j0 *= var_j1;
  var_l6 = var_j0;
  var_j1 = var_l5;
  var_j2 = 1023ull;
  var_j1 &= var_j2;
  var_j1 = I64_POPCNT(var_j1);
  var_l7 = var_j1;
  var_j0 -= var_j1;
  var_l8 = var_j0;
  var_j0 = 3ull;
  var_j1 = 2ull;
  var_i2 = var_p1;
  var_i3 = 255u;
  var_i2 &= var_i3;
  var_l9 = var_i2;
  var_i3 = 9u;
  var_i2 = var_i2 > var_i3;
  var_l10 = var_i2;
  var_j0 = var_i2 ? var_j0 : var_j1;
  var_l5 = var_j0;
  var_i0 = var_l9;
  var_i1 = 99u;
  var_i0 = var_i0 > var_i1;
  if (var_i0) {goto var_B2;}
  var_i0 = var_l10;
  if (var_i0) {goto var_B3;}
  var_i0 = var_p1;
  var_i1 = 48u;
  var_i0 |= var_i1;
  var_l9 = var_i0;
  var_i0 = 738197504u;
  var_l10 = var_i0;
  var_i0 = 44u;
  var_l11 = var_i0;
  goto var_B1;
  var_B3:;
  var_j0 = var_l3;
  var_j1 = 255ull;
  var_j0 &= var_j1;
  var_j1 = 1ull;
  var_j0 <<= (var_j1 & 63);
  var_l3 = var_j0;
  var_i0 = i32_load8_u(origin, (u64)(var_j0) + 1057859u);
  var_l11 = var_i0;
  var_j0 = var_l3;
  var_i0 = i32_load8_u(origin, (u64)(var_j0) + 1057858u);
  var_l9 = var_i0;
  var_i0 = 738197504u;
  var_l10 = var_i0;
  goto var_B1;
  var_B2:;
  var_i0 = var_l9;
  var_i1 = 100u;
  var_i0 = DIV_U(var_i0, var_i1);
  var_l10 = var_i0;
  var_i1 = 48u;
  var_i0 |= var_i1;
  var_l9 = var_i0;
  var_i0 = var_p1;
  var_i1 = var_l10;
  var_i2 = 100u;
  var_i1 *= var_i2;
  var_i0 -= var_i1;
  var_j0 = (u64)(var_i0);
  var_j1 = 255ull;
  var_j0 &= var_j1;
  var_j1 = 1ull;
  var_j0 <<= (var_j1 & 63);
  var_l3 = var_j0;
  var_i0 = i32_load8_u(origin, (u64)(var_j0) + 1057859u);
  var_i1 = 24u;
  var_i0 <<= (var_i1 & 31);
  var_l10 = var_i0;
  var_j0 = var_l3;
  var_i0 = i32_load8_u(origin, (u64)(var_j0) + 1057858u);
  var_l11 = var_i0;
  var_B1:;
  var_j0 = var_l2;
  var_i1 = var_l11;
  var_i2 = 255u;
  var_i1 &= var_i2;
  var_i2 = 16u;
  var_i1 <<= (var_i2 & 31);
  var_i2 = var_l10;
  var_i1 |= var_i2;
  var_i2 = var_l9;
  var_i3 = 255u;
  var_i2 &= var_i3;
  var_i3 = 8u;
  var_i2 <<= (var_i3 & 31);
  var_i1 |= var_i2;
  var_i2 = 44u;
  var_i1 |= var_i2;
  i32_store(origin, (u64)(var_j0) + 12, var_i1);
  var_j0 = var_p0;
  var_j1 = 320ull;
  var_j0 += var_j1;
  var_j0 = i64_load(origin, (u64)(var_j0));
  var_l12 = var_j0;
  var_j1 = var_l8;
  var_j0 -= var_j1;
  var_l3 = var_j0;
  var_j0 = var_l8;
  var_j1 = 4ull;
  var_j2 = var_l5;
  var_i3 = var_p1;
  var_i4 = 255u;
  var_i3 &= var_i4;
  var_i4 = 99u;
  var_i3 = var_i3 > var_i4;
  var_j1 = var_i3 ? var_j1 : var_j2;
  var_l13 = var_j1;
  var_j0 += var_j1;
  var_j1 = var_l8;
  var_i0 = var_j0 > var_j1;
  if (var_i0) {goto var_B5;}
  var_j0 = var_l12;
  var_j1 = var_l8;
  var_i0 = var_j0 == var_j1;
  if (var_i0) {goto var_B4;}
  var_j0 = var_l3;
  var_j1 = 3ull;
  var_j0 &= var_j1;
  var_l14 = var_j0;
  var_j0 = 0ull;
  var_l5 = var_j0;
  var_j0 = var_l6;
  var_j1 = var_l7;
  var_j2 = var_l12;
  var_j1 += var_j2;
  var_j0 -= var_j1;
  var_j1 = 18446744073709551612ull;
  var_i0 = var_j0 > var_j1;
  if (var_i0) {goto var_B6;}
  var_j0 = var_p0;
  var_j1 = var_l8;
  var_j0 += var_j1;
  var_l12 = var_j0;
  var_j1 = var_l13;
  var_j0 += var_j1;
  var_l15 = var_j0;
  var_j0 = var_l3;
  var_j1 = 18446744073709551612ull;
  var_j0 &= var_j1;
  var_l16 = var_j0;
  var_j0 = 0ull;
  var_l5 = var_j0;
  var_L7:
    var_j0 = var_l15;
    var_j1 = var_l5;
    var_j0 += var_j1;
    var_l3 = var_j0;
    var_j1 = var_l12;
    var_j2 = var_l5;
    var_j1 += var_j2;
    var_l17 = var_j1;
    var_i1 = i32_load8_u(origin, (u64)(var_j1));
    i32_store8(origin, (u64)(var_j0), var_i1);
    var_j0 = var_l3;
    var_j1 = 1ull;
    var_j0 += var_j1;
    var_j1 = var_l17;
    var_j2 = 1ull;
    var_j1 += var_j2;
    var_i1 = i32_load8_u(origin, (u64)(var_j1));
    i32_store8(origin, (u64)(var_j0), var_i1);
    var_j0 = var_l3;
    var_j1 = 2ull;
    var_j0 += var_j1;
    var_j1 = var_l17;
    var_j2 = 2ull;
    var_j1 += var_j2;
    var_i1 = i32_load8_u(origin, (u64)(var_j1));
    i32_store8(origin, (u64)(var_j0), var_i1);
    var_j0 = var_l3;
    var_j1 = 3ull;
    var_j0 += var_j1;
    var_j1 = var_l17;
    var_j2 = 3ull;
    var_j1 += var_j2;
    var_i1 = i32_load8_u(origin, (u64)(var_j1));
    i32_store8(origin, (u64)(var_j0), var_i1);
    var_j0 = var_l16;
    var_j1 = var_l5;
    var_j2 = 4ull;
    var_j1 += var_j2;
    var_l5 = var_j1;
    var_i0 = var_j0 != var_j1;
    if (var_i0) {goto var_L7;}
  var_j0 = var_l14;
  var_i0 = !(var_j0);
  if (var_i0) {goto var_B4;}
  var_B6:;
  var_j0 = var_p0;
  var_j1 = var_l5;
  var_j2 = var_l6;
  var_j1 += var_j2;
  var_j2 = var_l7;
  var_j1 -= var_j2;
  var_j0 += var_j1;
  var_l5 = var_j0;
  var_L8:
    var_j0 = var_l5;
    var_j1 = var_l13;
    var_j0 += var_j1;
    var_j1 = var_l5;
    var_i1 = i32_load8_u(origin, (u64)(var_j1));
    i32_store8(origin, (u64)(var_j0), var_i1);
    var_j0 = var_l5;
    var_j1 = 1ull;
    var_j0 += var_j1;
    var_l5 = var_j0;
    var_j0 = var_l14;
    var_j1 = 18446744073709551615ull;
    var_j0 += var_j1;
    var_l14 = var_j0;
    var_j1 = 0ull;
    var_i0 = var_j0 != var_j1;
    if (var_i0) {goto var_L8;}
    goto var_B4;
  var_B5:;
  var_j0 = var_l3;
  var_i0 = !(var_j0);
  if (var_i0) {goto var_B4;}
  var_j0 = var_l7;
  var_j1 = var_l12;
  var_j0 += var_j1;
  var_l14 = var_j0;
  var_j0 = var_l3;
  var_j1 = 3ull;
  var_j0 &= var_j1;
  var_l17 = var_j0;
  var_i0 = !(var_j0);
  if (var_i0) {goto var_B9;}
  var_j0 = var_l12;
  var_j1 = var_p0;
  var_j0 += var_j1;
  var_j1 = 18446744073709551615ull;
  var_j0 += var_j1;
  var_l5 = var_j0;
  var_L10:
    var_j0 = var_l5;
    var_j1 = var_l13;
    var_j0 += var_j1;
    var_j1 = var_l5;
    var_i1 = i32_load8_u(origin, (u64)(var_j1));
    i32_store8(origin, (u64)(var_j0), var_i1);
    var_j0 = var_l5;
    var_j1 = 18446744073709551615ull;
    var_j0 += var_j1;
    var_l5 = var_j0;
    var_j0 = var_l3;
    var_j1 = 18446744073709551615ull;
    var_j0 += var_j1;
    var_l3 = var_j0;
    var_j0 = var_l17;
    var_j1 = 18446744073709551615ull;
    var_j0 += var_j1;
    var_l17 = var_j0;
    var_j1 = 0ull;
    var_i0 = var_j0 != var_j1;
    if (var_i0) {goto var_L10;}
  var_B9:;
  var_j0 = var_l6;
  var_j1 = var_l14;
  var_j0 -= var_j1;
  var_j1 = 18446744073709551612ull;
  var_i0 = var_j0 > var_j1;
  if (var_i0) {goto var_B4;}
  var_j0 = var_l3;
  var_j1 = var_l6;
  var_j0 += var_j1;
  var_j1 = var_l7;
  var_j0 -= var_j1;
  var_j1 = var_p0;
  var_j0 += var_j1;
  var_j1 = 18446744073709551612ull;
  var_j0 += var_j1;
  var_l5 = var_j0;
  var_L11:
    var_j0 = var_l5;
    var_j1 = var_l13;
    var_j0 += var_j1;
    var_l17 = var_j0;
    var_j1 = 3ull;
    var_j0 += var_j1;
    var_j1 = var_l5;
    var_j2 = 3ull;
    var_j1 += var_j2;
    var_i1 = i32_load8_u(origin, (u64)(var_j1));
    i32_store8(origin, (u64)(var_j0), var_i1);
    var_j0 = var_l5;
    var_j1 = 1ull;
    var_j0 += var_j1;
    var_i0 = i32_load16_u(origin, (u64)(var_j0));
    var_p1 = var_i0;
    var_j0 = var_l17;
    var_j1 = var_l5;
    var_i1 = i32_load8_u(origin, (u64)(var_j1));
    i32_store8(origin, (u64)(var_j0), var_i1);
    var_j0 = var_l17;
    var_j1 = 1ull;
    var_j0 += var_j1;
    var_i1 = var_p1;
    i32_store16(origin, (u64)(var_j0), var_i1);
    var_j0 = var_l5;
    var_j1 = 18446744073709551612ull;
    var_j0 += var_j1;
    var_l5 = var_j0;
    var_j0 = var_l3;
    var_j1 = 18446744073709551612ull;
    var_j0 += var_j1;
    var_l3 = var_j0;
    var_i0 = !(var_j0);
    var_i0 = !(var_i0);
    if (var_i0) {goto var_L11;}
  var_B4:;
  var_j0 = var_l13;
  var_i0 = !(var_j0);
  if (var_i0) {goto var_B12;}
  var_j0 = var_p0;
  var_j1 = var_l8;
  var_j0 += var_j1;
  var_j1 = var_l2;
  var_j2 = 12ull;
  var_j1 += var_j2;
  var_j2 = var_l13;
  memory_copy(origin, origin, var_j0, var_j1, var_j2);
  var_B12:;
  var_j0 = var_p0;
  var_j1 = 320ull;
  var_j0 += var_j1;
  var_l5 = var_j0;
  var_j1 = var_l5;
  var_j1 = i64_load(origin, (u64)(var_j1));
  var_j2 = var_l13;
  var_j1 += var_j2;
  i64_store(origin, (u64)(var_j0), var_j1);
  var_j0 = var_p0;
  var_j1 = 328ull;
  var_j0 += var_j1;
  var_l5 = var_j0;
  var_j1 = var_l5;
  var_j1 = i64_load(origin, (u64)(var_j1));
  var_j2 = 1ull;
  var_j3 = var_l4;
  var_j2 <<= (var_j3 & 63);
  var_j1 += var_j2;
  i64_store(origin, (u64)(var_j0), var_j1);
  goto var_Bfunc;
  var_B0:;
  UNREACHABLE;
  var_Bfunc:;
  FUNC_EPILOGUE;
}

static u64 w2c_lockreplay_lk_replay0x3A0x3Areport0x3A0x3Atext0x3A0x3AText0x3A0x3Aput_rest(w2c_lockreplay* instance, u64 var_p0, u64 var_p1, u64 var_p2) {
  u64 var_l3 = 0, var_l4 = 0, var_l5 = 0, var_l6 = 0, var_l7 = 0, var_l8 = 0, var_l9 = 0;
  FUNC_PROLOGUE;
  u32 var_i0, var_i1;
  u64 var_j0, var_j1, var_j2;
  var_j0 = instance->w2c_0x5F_stack_pointer;
  var_j1 = 16ull;
  var_i0 = (u64)((s64)var_j0 < (s64)var_j1);
  if (var_i0) {goto var_B3;}
  var_j0 = var_p1;
  var_j1 = var_p2;
  var_j0 += var_j1;
  var_l3 = var_j0;
  var_j1 = var_p0;
  var_j2 = 1ull;
  var_j1 += var_j2;
  var_l4 = var_j1;
  var_j0 -= var_j1;
  var_l5 = var_j0;
  var_j0 = var_p0;
  var_j1 = 320ull;
  var_j0 += var_j1;
  var_j0 = i64_load(origin, (u64)(var_j0));
  var_l6 = var_j0;
  var_j1 = 18446744073709551615ull;
  var_j0 += var_j1;
  var_l7 = var_j0;
  var_j1 = 33ull;
  var_i0 = var_j0 >= var_j1;
  if (var_i0) {goto var_B4;}
  var_j0 = var_l5;
  var_j1 = 31ull;
  var_i0 = var_j0 > var_j1;
  if (var_i0) {goto var_B5;}
  var_j0 = var_l3;
  var_j1 = var_p0;
  var_j2 = 1ull;
  var_j1 += var_j2;
  var_i1 = i32_load8_u(origin, (u64)(var_j1));
  i32_store8(origin, (u64)(var_j0), var_i1);
  var_j0 = var_l3;
  var_j1 = var_p0;
  var_j2 = 2ull;
  var_j1 += var_j2;
  var_i1 = i32_load8_u(origin, (u64)(var_j1));
  i32_store8(origin, (u64)(var_j0) + 1, var_i1);
  var_j0 = var_l3;
  var_j1 = var_p0;
  var_j2 = 3ull;
  var_j1 += var_j2;
  var_i1 = i32_load8_u(origin, (u64)(var_j1));
  i32_store8(origin, (u64)(var_j0) + 2, var_i1);
  var_j0 = var_l3;
  var_j1 = var_p0;
  var_j2 = 4ull;
  var_j1 += var_j2;
  var_i1 = i32_load8_u(origin, (u64)(var_j1));
  i32_store8(origin, (u64)(var_j0) + 3, var_i1);
  var_j0 = var_l3;
  var_j1 = var_p0;
  var_j2 = 5ull;
  var_j1 += var_j2;
  var_i1 = i32_load8_u(origin, (u64)(var_j1));
  i32_store8(origin, (u64)(var_j0) + 4, var_i1);
  var_j0 = var_l3;
  var_j1 = var_p0;
  var_j2 = 6ull;
  var_j1 += var_j2;
  var_i1 = i32_load8_u(origin, (u64)(var_j1));
  i32_store8(origin, (u64)(var_j0) + 5, var_i1);
  var_j0 = var_l3;
  var_j1 = var_p0;
  var_j2 = 7ull;
  var_j1 += var_j2;
  var_i1 = i32_load8_u(origin, (u64)(var_j1));
  i32_store8(origin, (u64)(var_j0) + 6, var_i1);
  var_j0 = var_l3;
  var_j1 = var_p0;
  var_j2 = 8ull;
  var_j1 += var_j2;
  var_i1 = i32_load8_u(origin, (u64)(var_j1));
  i32_store8(origin, (u64)(var_j0) + 7, var_i1);
  var_j0 = var_l3;
  var_j1 = var_p0;
  var_j2 = 9ull;
  var_j1 += var_j2;
  var_i1 = i32_load8_u(origin, (u64)(var_j1));
  i32_store8(origin, (u64)(var_j0) + 8, var_i1);
  var_j0 = var_l3;
  var_j1 = var_p0;
  var_j2 = 10ull;
  var_j1 += var_j2;
  var_i1 = i32_load8_u(origin, (u64)(var_j1));
  i32_store8(origin, (u64)(var_j0) + 9, var_i1);
  var_j0 = var_l3;
  var_j1 = var_p0;
  var_j2 = 11ull;
  var_j1 += var_j2;
  var_i1 = i32_load8_u(origin, (u64)(var_j1));
  i32_store8(origin, (u64)(var_j0) + 10, var_i1);
  var_j0 = var_l3;
  var_j1 = var_p0;
  var_j2 = 12ull;
  var_j1 += var_j2;
  var_i1 = i32_load8_u(origin, (u64)(var_j1));
  i32_store8(origin, (u64)(var_j0) + 11, var_i1);
  var_j0 = var_l3;
  var_j1 = var_p0;
  var_j2 = 13ull;
  var_j1 += var_j2;
  var_i1 = i32_load8_u(origin, (u64)(var_j1));
  i32_store8(origin, (u64)(var_j0) + 12, var_i1);
  var_j0 = var_l3;
  var_j1 = var_p0;
  var_j2 = 14ull;
  var_j1 += var_j2;
  var_i1 = i32_load8_u(origin, (u64)(var_j1));
  i32_store8(origin, (u64)(var_j0) + 13, var_i1);
  var_j0 = var_l3;
  var_j1 = var_p0;
  var_j2 = 15ull;
  var_j1 += var_j2;
  var_i1 = i32_load8_u(origin, (u64)(var_j1));
  i32_store8(origin, (u64)(var_j0) + 14, var_i1);
  var_j0 = var_l3;
  var_j1 = var_p0;
  var_j2 = 16ull;
  var_j1 += var_j2;
  var_i1 = i32_load8_u(origin, (u64)(var_j1));
  i32_store8(origin, (u64)(var_j0) + 15, var_i1);
  var_j0 = var_l3;
  var_j1 = var_p0;
  var_j2 = 17ull;
  var_j1 += var_j2;
  var_i1 = i32_load8_u(origin, (u64)(var_j1));
  i32_store8(origin, (u64)(var_j0) + 16, var_i1);
  var_j0 = var_l3;
  var_j1 = var_p0;
  var_j2 = 18ull;
  var_j1 += var_j2;
  var_i1 = i32_load8_u(origin, (u64)(var_j1));
  i32_store8(origin, (u64)(var_j0) + 17, var_i1);
  var_j0 = var_l3;
  var_j1 = var_p0;
  var_j2 = 19ull;
  var_j1 += var_j2;
  var_i1 = i32_load8_u(origin, (u64)(var_j1));
  i32_store8(origin, (u64)(var_j0) + 18, var_i1);
  var_j0 = var_l3;
  var_j1 = var_p0;
  var_j2 = 20ull;
  var_j1 += var_j2;
  var_i1 = i32_load8_u(origin, (u64)(var_j1));
  i32_store8(origin, (u64)(var_j0) + 19, var_i1);
  var_j0 = var_l3;
  var_j1 = var_p0;
  var_j2 = 21ull;
  var_j1 += var_j2;
  var_i1 = i32_load8_u(origin, (u64)(var_j1));
  i32_store8(origin, (u64)(var_j0) + 20, var_i1);
  var_j0 = var_l3;
  var_j1 = var_p0;
  var_j2 = 22ull;
  var_j1 += var_j2;
  var_i1 = i32_load8_u(origin, (u64)(var_j1));
  i32_store8(origin, (u64)(var_j0) + 21, var_i1);
  var_j0 = var_l3;
  var_j1 = var_p0;
  var_j2 = 23ull;
  var_j1 += var_j2;
  var_i1 = i32_load8_u(origin, (u64)(var_j1));
  i32_store8(origin, (u64)(var_j0) + 22, var_i1);
  var_j0 = var_l3;
  var_j1 = var_p0;
  var_j2 = 24ull;
  var_j1 += var_j2;
  var_i1 = i32_load8_u(origin, (u64)(var_j1));
  i32_store8(origin, (u64)(var_j0) + 23, var_i1);
  var_j0 = var_l3;
  var_j1 = var_p0;
  var_j2 = 25ull;
  var_j1 += var_j2;
  var_i1 = i32_load8_u(origin, (u64)(var_j1));
  i32_store8(origin, (u64)(var_j0) + 24, var_i1);
  var_j0 = var_l3;
  var_j1 = var_p0;
  var_j2 = 26ull;
  var_j1 += var_j2;
  var_i1 = i32_load8_u(origin, (u64)(var_j1));
  i32_store8(origin, (u64)(var_j0) + 25, var_i1);
  var_j0 = var_l3;
  var_j1 = var_p0;
  var_j2 = 27ull;
  var_j1 += var_j2;
  var_i1 = i32_load8_u(origin, (u64)(var_j1));
  i32_store8(origin, (u64)(var_j0) + 26, var_i1);
  var_j0 = var_l3;
  var_j1 = var_p0;
  var_j2 = 28ull;
  var_j1 += var_j2;
  var_i1 = i32_load8_u(origin, (u64)(var_j1));
  i32_store8(origin, (u64)(var_j0) + 27, var_i1);
  var_j0 = var_l3;
  var_j1 = var_p0;
  var_j2 = 29ull;
  var_j1 += var_j2;
  var_i1 = i32_load8_u(origin, (u64)(var_j1));
  i32_store8(origin, (u64)(var_j0) + 28, var_i1);
  var_j0 = var_l3;
  var_j1 = var_p0;
  var_j2 = 30ull;
  var_j1 += var_j2;
  var_i1 = i32_load8_u(origin, (u64)(var_j1));
  i32_store8(origin, (u64)(var_j0) + 29, var_i1);
  var_j0 = var_l3;
  var_j1 = var_p0;
  var_j2 = 31ull;
  var_j1 += var_j2;
  var_i1 = i32_load8_u(origin, (u64)(var_j1));
  i32_store8(origin, (u64)(var_j0) + 30, var_i1);
  var_j0 = var_l3;
  var_j1 = var_p0;
  var_j2 = 32ull;
  var_j1 += var_j2;
  var_i1 = i32_load8_u(origin, (u64)(var_j1));
  i32_store8(origin, (u64)(var_j0) + 31, var_i1);
  var_j0 = var_l7;
  var_j1 = var_p2;
  var_j0 += var_j1;
  goto var_Bfunc;
  var_B5:;
  var_j0 = var_l4;
  var_j0 = i64_load(origin, (u64)(var_j0));
  var_l5 = var_j0;
  var_j0 = var_l4;
  var_j0 = i64_load(origin, (u64)(var_j0) + 8u);
  var_l6 = var_j0;
  var_j0 = var_l4;
  var_j0 = i64_load(origin, (u64)(var_j0) + 16u);
  var_p0 = var_j0;
  var_j0 = var_l3;
  var_j1 = var_l4;
  var_j1 = i64_load(origin, (u64)(var_j1) + 24u);
  i64_store(origin, (u64)(var_j0) + 24, var_j1);
  var_j0 = var_l3;
  var_j1 = var_p0;
  i64_store(origin, (u64)(var_j0) + 16, var_j1);
  var_j0 = var_l3;
  var_j1 = var_l6;
  i64_store(origin, (u64)(var_j0) + 8, var_j1);
  var_j0 = var_l3;
  var_j1 = var_l5;
  i64_store(origin, (u64)(var_j0), var_j1);
  var_j0 = var_l7;
  var_j1 = var_p2;
  var_j0 += var_j1;
  goto var_Bfunc;
  var_B4:;
  var_j0 = var_l5;
  var_j1 = var_l7;
  var_i0 = var_j0 >= var_j1;
  if (var_i0) {goto var_B6;}
  var_j0 = var_l7;
  var_j1 = 3ull;
  var_j0 &= var_j1;
  var_l8 = var_j0;
  var_j0 = 0ull;
  var_l5 = var_j0;
  var_j0 = var_l6;
  var_j1 = 18446744073709551614ull;
  var_j0 += var_j1;
  var_j1 = 3ull;
  var_i0 = var_j0 < var_j1;
  if (var_i0) {goto var_B1;}
  var_j0 = var_l7;
  var_j1 = 18446744073709551612ull;
  var_j0 &= var_j1;
  var_l9 = var_j0;
  var_j0 = 0ull;
  var_l5 = var_j0;
  var_L7:
    var_j0 = var_l3;
    var_j1 = var_l5;
    var_j0 += var_j1;
    var_l4 = var_j0;
    var_j1 = var_p0;
    var_j2 = var_l5;
    var_j1 += var_j2;
    var_l6 = var_j1;
    var_j2 = 1ull;
    var_j1 += var_j2;
    var_i1 = i32_load8_u(origin, (u64)(var_j1));
    i32_store8(origin, (u64)(var_j0), var_i1);
    var_j0 = var_l4;
    var_j1 = 1ull;
    var_j0 += var_j1;
    var_j1 = var_l6;
    var_j2 = 2ull;
    var_j1 += var_j2;
    var_i1 = i32_load8_u(origin, (u64)(var_j1));
    i32_store8(origin, (u64)(var_j0), var_i1);
    var_j0 = var_l4;
    var_j1 = 2ull;
    var_j0 += var_j1;
    var_j1 = var_l6;
    var_j2 = 3ull;
    var_j1 += var_j2;
    var_i1 = i32_load8_u(origin, (u64)(var_j1));
    i32_store8(origin, (u64)(var_j0), var_i1);
    var_j0 = var_l4;
    var_j1 = 3ull;
    var_j0 += var_j1;
    var_j1 = var_l6;
    var_j2 = 4ull;
    var_j1 += var_j2;
    var_i1 = i32_load8_u(origin, (u64)(var_j1));
    i32_store8(origin, (u64)(var_j0), var_i1);
    var_j0 = var_l9;
    var_j1 = var_l5;
    var_j2 = 4ull;
    var_j1 += var_j2;
    var_l5 = var_j1;
    var_i0 = var_j0 != var_j1;
    if (var_i0) {goto var_L7;}
    goto var_B2;
  var_B6:;
  var_j0 = var_l7;
  var_i0 = !(var_j0);
  if (var_i0) {goto var_B0;}
  var_j0 = var_l3;
  var_j1 = var_l4;
  var_j2 = var_l7;
  memory_copy(origin, origin, var_j0, var_j1, var_j2);
  var_j0 = var_l7;
  var_j1 = var_p2;
  var_j0 += var_j1;
  goto var_Bfunc;
  var_B3:;
  UNREACHABLE;
  var_B2:;
  var_j0 = var_l8;
  var_i0 = !(var_j0);
  if (var_i0) {goto var_B0;}
  var_B1:;
  var_j0 = var_p1;
  var_j1 = var_l5;
  var_j2 = var_p2;
  var_j1 += var_j2;
  var_j0 += var_j1;
  var_l4 = var_j0;
  var_j0 = var_l5;
  var_j1 = var_p0;
  var_j0 += var_j1;
  var_j1 = 1ull;
  var_j0 += var_j1;
  var_l5 = var_j0;
  var_L8:
    var_j0 = var_l4;
    var_j1 = var_l5;
    var_i1 = i32_load8_u(origin, (u64)(var_j1));
    i32_store8(origin, (u64)(var_j0), var_i1);
    var_j0 = var_l4;
    var_j1 = 1ull;
    var_j0 += var_j1;
    var_l4 = var_j0;
    var_j0 = var_l5;
    var_j1 = 1ull;
    var_j0 += var_j1;
    var_l5 = var_j0;
    var_j0 = var_l8;
    var_j1 = 18446744073709551615ull;
    var_j0 += var_j1;
    var_l8 = var_j0;
    var_j1 = 0ull;
    var_i0 = var_j0 != var_j1;
    if (var_i0) {goto var_L8;}
  var_B0:;
  var_j0 = var_l7;
  var_j1 = var_p2;
  var_j0 += var_j1;
  var_Bfunc:;
  FUNC_EPILOGUE;
  return var_j0;
}

static u64 w2c_lockreplay_lk_replay0x3A0x3Areport0x3A0x3Aclosings0x3A0x3Aput_last(w2c_lockreplay* instance, u64 var_p0, u32 var_p1, u64 var_p2) {
  u32 var_l4 = 0, var_l6 = 0, var_l7 = 0;
  u64 var_l3 = 0, var_l5 = 0, var_l8 = 0, var_l9 = 0;
  FUNC_PROLOGUE;
  u32 var_i0, var_i1, var_i2;
  u64 var_j0, var_j1, var_j2;
  var_j0 = instance->w2c_0x5F_stack_pointer;
  var_j1 = 1104ull;
  var_j0 -= var_j1;
  var_l3 = var_j0;
  instance->w2c_0x5F_stack_pointer = var_j0;
  var_j0 = var_l3;
  var_l3 = var_j0;
  var_j1 = 16ull;
  var_i0 = (u64)((s64)var_j0 < (s64)var_j1);
  if (var_i0) {goto var_B0;}
  var_j0 = var_p2;
  var_j1 = 8ull;
  var_j0 += var_j1;
  var_i0 = i32_load8_u(origin, (u64)(var_j0));
  var_l4 = var_i0;
  var_j0 = var_p2;
  var_j1 = 9ull;
  var_j0 += var_j1;
  var_j0 = i64_load8_u(origin, (u64)(var_j0));
  var_l5 = var_j0;
  var_j0 = var_p2;
  var_j1 = 4ull;
  var_j0 += var_j1;
  var_i0 = i32_load(origin, (u64)(var_j0));
  var_l6 = var_i0;
  var_j0 = var_l3;
  var_j1 = 0ull;
  i64_store(origin, (u64)(var_j0) + 696, var_j1);
  var_j0 = var_l3;
  var_j1 = 0ull;
  i64_store(origin, (u64)(var_j0) + 704, var_j1);
  var_j0 = var_l3;
  var_j1 = 0ull;
  i64_store(origin, (u64)(var_j0) + 712, var_j1);
  var_j0 = var_l3;
  var_j1 = 0ull;
  i64_store(origin, (u64)(var_j0) + 720, var_j1);
  var_j0 = var_l3;
  var_j1 = 0ull;
  i64_store(origin, (u64)(var_j0) + 728, var_j1);
  var_j0 = var_p2;
  var_i0 = i32_load8_u(origin, (u64)(var_j0));
  var_l7 = var_i0;
  var_j0 = var_l3;
  var_j1 = 368ull;
  var_j0 += var_j1;
  var_i1 = 32u;
  var_j2 = 320ull;
  memory_fill(origin, var_j0, var_i1, var_j2);
  var_i0 = var_l7;
  var_i1 = 1u;
  var_i0 = var_i0 != var_i1;
  if (var_i0) {goto var_B2;}
  var_i0 = var_l4;
  var_j0 = (u64)(var_i0);
  var_j1 = 255ull;
  var_j0 &= var_j1;
  var_l8 = var_j0;
  var_j0 = var_l3;
  var_j1 = 0ull;
  i64_store(origin, (u64)(var_j0) + 1064, var_j1);
  var_j0 = var_l3;
  var_j1 = 0ull;
  i64_store(origin, (u64)(var_j0) + 1072, var_j1);
  var_j0 = var_l3;
  var_j1 = 0ull;
  i64_store(origin, (u64)(var_j0) + 1080, var_j1);
  var_j0 = var_l3;
  var_j1 = 0ull;
  i64_store(origin, (u64)(var_j0) + 1088, var_j1);
  var_j0 = var_l3;
  var_j1 = 0ull;
  i64_store(origin, (u64)(var_j0) + 1096, var_j1);
  var_j0 = var_l3;
  var_j1 = 0ull;
  var_i1 = i32_load(origin, (u64)(var_j1) + 1058488u);
  i32_store(origin, (u64)(var_j0) + 736, var_i1);
  var_j0 = var_l3;
  var_j1 = 0ull;
  var_i1 = i32_load(origin, (u64)(var_j1) + 1058491u);
  i32_store(origin, (u64)(var_j0) + 739, var_i1);
  var_j0 = var_l3;
  var_j1 = 736ull;
  var_j0 += var_j1;
  var_j1 = 13ull;
  var_j0 += var_j1;
  var_l9 = var_j0;
  var_i1 = 32u;
  var_j2 = 307ull;
  memory_fill(origin, var_j0, var_i1, var_j2);
  var_j0 = var_l3;
  var_j1 = 0ull;
  var_i1 = i32_load16_u(origin, (u64)(var_j1) + 1057855u);
  i32_store16(origin, (u64)(var_j0) + 747, var_i1);
  var_j0 = var_l3;
  var_j1 = 0ull;
  var_i1 = i32_load(origin, (u64)(var_j1) + 1057851u);
  i32_store(origin, (u64)(var_j0) + 743, var_i1);
  var_j0 = var_l3;
  var_j1 = 8ull;
  var_j0 += var_j1;
  var_j1 = var_l3;
  var_j2 = 1064ull;
  var_j1 += var_j2;
  var_i2 = var_l6;
  w2c_lockreplay_itoa0x3A0x3ABuffer0x3A0x3Aformat0x3A0x3A0x3C0x23a27d2209050c8f1b0x3E(instance, var_j0, var_j1, var_i2);
  var_j0 = var_l3;
  var_j0 = i64_load(origin, (u64)(var_j0) + 16u);
  var_p2 = var_j0;
  var_i0 = !(var_j0);
  if (var_i0) {goto var_B3;}
  var_j0 = var_l9;
  var_j1 = var_l3;
  var_j1 = i64_load(origin, (u64)(var_j1) + 8u);
  var_j2 = var_p2;
  memory_copy(origin, origin, var_j0, var_j1, var_j2);
  var_B3:;
  var_j0 = var_l3;
  var_j1 = 736ull;
  var_j0 += var_j1;
  var_j1 = var_p2;
  var_j0 += var_j1;
  var_j1 = 13ull;
  var_j0 += var_j1;
  var_i1 = 32u;
  i32_store8(origin, (u64)(var_j0), var_i1);
  var_j0 = var_l3;
  var_j1 = var_p2;
  var_j2 = 14ull;
  var_j1 += var_j2;
  i64_store(origin, (u64)(var_j0) + 1056, var_j1);
  var_j0 = var_l3;
  var_j1 = 40ull;
  var_j0 += var_j1;
  var_j1 = var_l3;
  var_j2 = 736ull;
  var_j1 += var_j2;
  var_j2 = 328ull;
  memory_copy(origin, origin, var_j0, var_j1, var_j2);
  var_j0 = var_l3;
  var_j1 = 368ull;
  var_j0 += var_j1;
  var_j1 = var_l3;
  var_j2 = 40ull;
  var_j1 += var_j2;
  var_j2 = 328ull;
  memory_copy(origin, origin, var_j0, var_j1, var_j2);
  var_j0 = var_l3;
  var_j0 = i64_load(origin, (u64)(var_j0) + 688u);
  var_p2 = var_j0;
  var_j0 = var_l8;
  var_j1 = 3ull;
  var_j0 <<= (var_j1 & 63);
  var_l9 = var_j0;
  var_j0 = i64_load(origin, (u64)(var_j0) + 1058584u);
  var_l8 = var_j0;
  var_i0 = !(var_j0);
  if (var_i0) {goto var_B4;}
  var_j0 = var_l3;
  var_j1 = 368ull;
  var_j0 += var_j1;
  var_j1 = var_p2;
  var_j0 += var_j1;
  var_j1 = var_l9;
  var_j1 = i64_load(origin, (u64)(var_j1) + 1058640u);
  var_j2 = var_l8;
  memory_copy(origin, origin, var_j0, var_j1, var_j2);
  var_B4:;
  var_j0 = var_p2;
  var_j1 = var_l8;
  var_j0 += var_j1;
  var_p2 = var_j0;
  var_i0 = var_l4;
  var_i1 = 255u;
  var_i0 &= var_i1;
  var_i1 = 6u;
  var_i0 = var_i0 != var_i1;
  if (var_i0) {goto var_B1;}
  var_j0 = var_l3;
  var_j1 = 368ull;
  var_j0 += var_j1;
  var_j1 = var_p2;
  var_j0 += var_j1;
  var_l8 = var_j0;
  var_j1 = 1058495ull;
  var_j0 -= var_j1;
  var_j1 = 5ull;
  var_i0 = var_j0 > var_j1;
  if (var_i0) {goto var_B6;}
  var_j0 = var_l8;
  var_i1 = 8308u;
  i32_store16(origin, (u64)(var_j0) + 4, var_i1);
  var_j0 = var_l8;
  var_i1 = 2019913248u;
  i32_store(origin, (u64)(var_j0), var_i1);
  goto var_B5;
  var_B6:;
  var_j0 = var_l8;
  var_j1 = 0ull;
  var_i1 = i32_load16_u(origin, (u64)(var_j1) + 1058499u);
  i32_store16(origin, (u64)(var_j0) + 4, var_i1);
  var_j0 = var_l8;
  var_j1 = 0ull;
  var_i1 = i32_load(origin, (u64)(var_j1) + 1058495u);
  i32_store(origin, (u64)(var_j0), var_i1);
  var_B5:;
  var_j0 = var_p2;
  var_j1 = 6ull;
  var_j0 += var_j1;
  var_p2 = var_j0;
  var_j0 = var_l5;
  var_j1 = 3ull;
  var_j0 <<= (var_j1 & 63);
  var_l8 = var_j0;
  var_j0 = i64_load(origin, (u64)(var_j0) + 1058696u);
  var_l5 = var_j0;
  var_i0 = !(var_j0);
  if (var_i0) {goto var_B7;}
  var_j0 = var_l3;
  var_j1 = 368ull;
  var_j0 += var_j1;
  var_j1 = var_p2;
  var_j0 += var_j1;
  var_j1 = var_l8;
  var_j1 = i64_load(origin, (u64)(var_j1) + 1058744u);
  var_j2 = var_l5;
  memory_copy(origin, origin, var_j0, var_j1, var_j2);
  var_B7:;
  var_j0 = var_l5;
  var_j1 = var_p2;
  var_j0 += var_j1;
  var_p2 = var_j0;
  goto var_B1;
  var_B2:;
  var_j0 = var_l3;
  var_i1 = 543452773u;
  i32_store(origin, (u64)(var_j0) + 368, var_i1);
  var_j0 = var_l3;
  var_j1 = 4ull;
  i64_store(origin, (u64)(var_j0) + 688, var_j1);
  var_j0 = var_l3;
  var_j1 = 24ull;
  var_j0 += var_j1;
  var_j1 = var_l3;
  var_j2 = 696ull;
  var_j1 += var_j2;
  var_i2 = var_p1;
  w2c_lockreplay_itoa0x3A0x3ABuffer0x3A0x3Aformat0x3A0x3A0x3C0x23a27d2209050c8f1b0x3E(instance, var_j0, var_j1, var_i2);
  var_j0 = var_l3;
  var_j0 = i64_load(origin, (u64)(var_j0) + 32u);
  var_p2 = var_j0;
  var_i0 = !(var_j0);
  if (var_i0) {goto var_B8;}
  var_j0 = var_l3;
  var_j1 = 368ull;
  var_j0 += var_j1;
  var_j1 = 4ull;
  var_j0 |= var_j1;
  var_j1 = var_l3;
  var_j1 = i64_load(origin, (u64)(var_j1) + 24u);
  var_j2 = var_p2;
  memory_copy(origin, origin, var_j0, var_j1, var_j2);
  var_B8:;
  var_j0 = var_p2;
  var_j1 = 4ull;
  var_j0 += var_j1;
  var_p2 = var_j0;
  var_B1:;
  var_j0 = var_l3;
  var_j1 = 368ull;
  var_j0 += var_j1;
  var_j1 = var_p2;
  var_j0 += var_j1;
  var_i1 = 10u;
  i32_store8(origin, (u64)(var_j0), var_i1);
  var_j0 = var_l3;
  var_j1 = var_p2;
  var_j2 = 1ull;
  var_j1 += var_j2;
  var_p2 = var_j1;
  i64_store(origin, (u64)(var_j0) + 688, var_j1);
  var_j0 = var_p2;
  var_i0 = !(var_j0);
  if (var_i0) {goto var_B9;}
  var_j0 = var_p0;
  var_j1 = var_l3;
  var_j2 = 368ull;
  var_j1 += var_j2;
  var_j2 = var_p2;
  memory_copy(origin, origin, var_j0, var_j1, var_j2);
  var_B9:;
  var_j0 = var_l3;
  var_j1 = 1104ull;
  var_j0 += var_j1;
  instance->w2c_0x5F_stack_pointer = var_j0;
  var_j0 = var_p2;
  goto var_Bfunc;
  var_B0:;
  UNREACHABLE;
  var_Bfunc:;
  FUNC_EPILOGUE;
  return var_j0;
}

static u64 w2c_lockreplay_report_0(w2c_lockreplay* instance, u64 var_p0, u64 var_p1, u64 var_p2, u64 var_p3, u64 var_p4) {
  FUNC_PROLOGUE;
  u32 var_i0;
  u64 var_j0, var_j1, var_j2, var_j3, var_j4;
  var_i0 = w2c_lockreplay_0x5F_rattle_enter(instance);
  var_i0 = !(var_i0);
  if (var_i0) {goto var_B0;}
  w2c_lockreplay_0x5F_rattle_trap(instance);
  UNREACHABLE;
  var_B0:;
  var_j0 = var_p0;
  var_j1 = var_p1;
  var_j2 = var_p2;
  var_j3 = var_p3;
  var_j4 = var_p4;
  var_j0 = w2c_lockreplay_rattle0x3A0x3Aexport0x20report(instance, var_j0, var_j1, var_j2, var_j3, var_j4);
  var_p4 = var_j0;
  w2c_lockreplay_0x5F_rattle_leave(instance);
  var_j0 = var_p4;
  FUNC_EPILOGUE;
  return var_j0;
}

static u64 w2c_lockreplay_rattle0x3A0x3Aexport0x20report(w2c_lockreplay* instance, u64 var_p0, u64 var_p1, u64 var_p2, u64 var_p3, u64 var_p4) {
  u32 var_l7 = 0, var_l8 = 0, var_l9 = 0, var_l16 = 0, var_l17 = 0, var_l18 = 0, var_l19 = 0;
  u64 var_l5 = 0, var_l6 = 0, var_l10 = 0, var_l11 = 0, var_l12 = 0, var_l13 = 0, var_l14 = 0, var_l15 = 0,
      var_l20 = 0, var_l21 = 0;
  FUNC_PROLOGUE;
  u32 var_i0, var_i1, var_i2, var_i3, var_i4, var_i5;
  u64 var_j0, var_j1, var_j2, var_j3, var_j4, var_j5, var_j6;
  var_j0 = instance->w2c_0x5F_stack_pointer;
  var_j1 = 4448ull;
  var_j0 -= var_j1;
  var_l5 = var_j0;
  instance->w2c_0x5F_stack_pointer = var_j0;
  var_j0 = var_l5;
  var_l5 = var_j0;
  var_j1 = 16ull;
  var_i0 = (u64)((s64)var_j0 < (s64)var_j1);
  if (var_i0) {goto var_B2;}
  var_j0 = var_p3;
  var_j1 = 4096ull;
  var_j2 = 0ull;
  var_j3 = var_p3;
  var_i3 = !(var_j3);
  var_j1 = var_i3 ? var_j1 : var_j2;
  var_j0 += var_j1;
  var_l6 = var_j0;
  var_j0 = var_l5;
  var_j1 = 488ull;
  var_j0 += var_j1;
  var_i1 = 0u;
  var_j2 = 328ull;
  memory_fill(origin, var_j0, var_i1, var_j2);
  var_j0 = var_l5;
  var_j1 = 0ull;
  i64_store(origin, (u64)(var_j0) + 480, var_j1);
  var_j0 = var_l5;
  var_j1 = 0ull;
  i64_store(origin, (u64)(var_j0) + 472, var_j1);
  var_j0 = var_l5;
  var_j1 = 0ull;
  i64_store(origin, (u64)(var_j0) + 464, var_j1);
  var_j0 = var_l5;
  var_j1 = 0ull;
  i64_store(origin, (u64)(var_j0) + 456, var_j1);
  var_j0 = var_l5;
  var_j1 = 0ull;
  i64_store(origin, (u64)(var_j0) + 448, var_j1);
  var_j0 = var_l5;
  var_j1 = 0ull;
  i64_store(origin, (u64)(var_j0) + 440, var_j1);
  var_j0 = var_l5;
  var_j1 = 105ull;
  var_j0 += var_j1;
  var_i1 = 0u;
  var_j2 = 335ull;
  memory_fill(origin, var_j0, var_i1, var_j2);
  var_j0 = var_l5;
  var_j1 = 440ull;
  var_j0 += var_j1;
  var_j1 = var_p0;
  var_j2 = 4096ull;
  var_j3 = 0ull;
  var_j4 = var_p0;
  var_i4 = !(var_j4);
  var_j2 = var_i4 ? var_j2 : var_j3;
  var_j1 += var_j2;
  var_j2 = var_p1;
  w2c_lockreplay_lk_replay0x3A0x3Aschedule0x3A0x3Aopen_schedule(instance, var_j0, var_j1, var_j2);
  var_j0 = var_l5;
  var_i0 = i32_load8_u(origin, (u64)(var_j0) + 440u);
  if (var_i0) {goto var_B3;}
  var_j0 = var_l5;
  var_i0 = i32_load8_u(origin, (u64)(var_j0) + 449u);
  var_l7 = var_i0;
  var_j0 = var_l5;
  var_i0 = i32_load8_u(origin, (u64)(var_j0) + 450u);
  var_l8 = var_i0;
  var_j0 = var_l5;
  var_j1 = 456ull;
  var_j0 += var_j1;
  var_p3 = var_j0;
  var_j0 = 2ull;
  var_p0 = var_j0;
  var_j0 = var_l5;
  var_i0 = i32_load8_u(origin, (u64)(var_j0) + 448u);
  var_l9 = var_i0;
  var_j0 = (u64)(var_i0);
  var_j1 = 255ull;
  var_j0 &= var_j1;
  var_i0 = (u32)(var_j0);
  switch (var_i0) {
    case 0: goto var_B4;
    case 1: goto var_B6;
    case 2: goto var_B4;
    case 3: goto var_B5;
    default: goto var_B4;
  }
  var_B6:;
  var_i0 = var_l7;
  var_j0 = (u64)(var_i0);
  var_j1 = 255ull;
  var_j0 &= var_j1;
  var_j1 = 1ull;
  var_j0 <<= (var_j1 & 63);
  var_j1 = 1ull;
  var_j0 |= var_j1;
  var_p0 = var_j0;
  goto var_B4;
  var_B5:;
  var_j0 = 3ull;
  var_p0 = var_j0;
  var_B4:;
  var_j0 = var_l5;
  var_i1 = 0u;
  i32_store(origin, (u64)(var_j0) + 4032, var_i1);
  var_j0 = var_l5;
  var_i1 = 0u;
  i32_store8(origin, (u64)(var_j0) + 4036, var_i1);
  var_j0 = var_l5;
  var_j1 = 816ull;
  var_j0 += var_j1;
  var_i1 = 32u;
  var_j2 = 320ull;
  memory_fill(origin, var_j0, var_i1, var_j2);
  var_j0 = var_l5;
  var_j1 = 0ull;
  i64_store(origin, (u64)(var_j0) + 1144, var_j1);
  var_j0 = var_l5;
  var_j1 = 0ull;
  i64_store(origin, (u64)(var_j0) + 1136, var_j1);
  var_j0 = var_l5;
  var_j1 = 4037ull;
  var_j0 += var_j1;
  var_i1 = 32u;
  var_j2 = 320ull;
  memory_fill(origin, var_j0, var_i1, var_j2);
  var_j0 = var_l5;
  var_j1 = 3355ull;
  var_j0 += var_j1;
  var_j1 = var_l5;
  var_j2 = 4032ull;
  var_j1 += var_j2;
  var_j2 = 325ull;
  memory_copy(origin, origin, var_j0, var_j1, var_j2);
  var_j0 = var_l5;
  var_j1 = 3688ull;
  var_j0 += var_j1;
  var_l10 = var_j0;
  var_j1 = var_l5;
  var_j2 = 816ull;
  var_j1 += var_j2;
  var_j2 = 336ull;
  memory_copy(origin, origin, var_j0, var_j1, var_j2);
  var_j0 = var_l5;
  var_i1 = var_l7;
  i32_store8(origin, (u64)(var_j0) + 1273, var_i1);
  var_j0 = var_l5;
  var_i1 = var_l9;
  i32_store8(origin, (u64)(var_j0) + 1272, var_i1);
  var_j0 = var_l5;
  var_j1 = 0ull;
  i64_store(origin, (u64)(var_j0) + 1264, var_j1);
  var_j0 = var_l5;
  var_j1 = 1274ull;
  var_j0 += var_j1;
  var_i1 = 0u;
  var_j2 = 1038ull;
  memory_fill(origin, var_j0, var_i1, var_j2);
  var_j0 = var_l5;
  var_i1 = var_l8;
  i32_store8(origin, (u64)(var_j0) + 2320, var_i1);
  var_j0 = var_l5;
  var_j1 = var_p0;
  i64_store(origin, (u64)(var_j0) + 2312, var_j1);
  var_j0 = var_l5;
  var_j1 = 2321ull;
  var_j0 += var_j1;
  var_i1 = 0u;
  var_j2 = 1031ull;
  memory_fill(origin, var_j0, var_i1, var_j2);
  var_j0 = var_l5;
  var_j1 = 0ull;
  i64_store(origin, (u64)(var_j0) + 4024, var_j1);
  var_j0 = var_l5;
  var_j1 = 0ull;
  i64_store(origin, (u64)(var_j0) + 3680, var_j1);
  var_j0 = var_l5;
  var_i1 = 0u;
  i32_store16(origin, (u64)(var_j0) + 3353, var_i1);
  var_j0 = var_l5;
  var_i1 = var_l9;
  i32_store8(origin, (u64)(var_j0) + 3352, var_i1);
  var_j0 = var_l5;
  var_j1 = var_p3;
  var_j1 = i64_load(origin, (u64)(var_j1));
  i64_store(origin, (u64)(var_j0) + 4408, var_j1);
  var_j0 = var_l5;
  var_j1 = var_p3;
  var_j1 = i64_load(origin, (u64)(var_j1) + 8u);
  i64_store(origin, (u64)(var_j0) + 4416, var_j1);
  var_j0 = var_l5;
  var_j1 = var_p3;
  var_j1 = i64_load(origin, (u64)(var_j1) + 16u);
  i64_store(origin, (u64)(var_j0) + 4424, var_j1);
  var_j0 = var_l5;
  var_j1 = 816ull;
  var_j0 += var_j1;
  var_i1 = 0u;
  var_j2 = 448ull;
  memory_fill(origin, var_j0, var_i1, var_j2);
  var_j0 = var_p4;
  var_j1 = 1ull;
  var_j0 += var_j1;
  var_l11 = var_j0;
  var_j0 = var_l5;
  var_j1 = 3360ull;
  var_j0 += var_j1;
  var_l12 = var_j0;
  var_j0 = var_l5;
  var_j1 = 3352ull;
  var_j0 += var_j1;
  var_l13 = var_j0;
  var_j0 = var_l5;
  var_j1 = 1272ull;
  var_j0 += var_j1;
  var_l14 = var_j0;
  var_j0 = 0ull;
  var_l15 = var_j0;
  var_L7:
    var_j0 = var_l5;
    var_j1 = 0ull;
    i64_store(origin, (u64)(var_j0) + 4384, var_j1);
    var_j0 = var_l5;
    var_j1 = 0ull;
    i64_store(origin, (u64)(var_j0) + 4392, var_j1);
    var_j0 = var_l5;
    var_j1 = 0ull;
    i64_store(origin, (u64)(var_j0) + 4376, var_j1);
    var_j0 = var_l5;
    var_i1 = 0u;
    i32_store(origin, (u64)(var_j0) + 4368, var_i1);
    var_j0 = var_l5;
    var_j1 = 4384ull;
    var_j0 += var_j1;
    var_j1 = var_l5;
    var_j2 = 4408ull;
    var_j1 += var_j2;
    var_j2 = var_l5;
    var_i2 = i32_load(origin, (u64)(var_j2) + 1264u);
    var_l7 = var_i2;
    var_j2 = (u64)(var_i2);
    w2c_lockreplay_lk_replay0x3A0x3Aschedule0x3A0x3Aread_move(instance, var_j0, var_j1, var_j2);
    var_j0 = var_l5;
    var_i0 = i32_load8_u(origin, (u64)(var_j0) + 4384u);
    if (var_i0) {goto var_B10;}
    var_j0 = var_l5;
    var_i0 = i32_load8_u(origin, (u64)(var_j0) + 4388u);
    var_i1 = 255u;
    var_i0 &= var_i1;
    var_i1 = 1u;
    var_i0 = var_i0 != var_i1;
    if (var_i0) {goto var_B10;}
    var_j0 = var_l5;
    var_i0 = i32_load(origin, (u64)(var_j0) + 4392u);
    var_l16 = var_i0;
    var_j0 = var_l5;
    var_i0 = i32_load8_u(origin, (u64)(var_j0) + 4398u);
    var_l17 = var_i0;
    var_j0 = var_l5;
    var_i0 = i32_load8_u(origin, (u64)(var_j0) + 4397u);
    var_l18 = var_i0;
    var_j0 = var_l5;
    var_i0 = i32_load8_u(origin, (u64)(var_j0) + 4396u);
    var_l8 = var_i0;
    var_j0 = var_l5;
    var_i1 = 0u;
    i32_store(origin, (u64)(var_j0) + 4404, var_i1);
    var_j0 = var_l5;
    var_j1 = 4404ull;
    var_j0 += var_j1;
    var_j1 = var_l14;
    var_i2 = var_l8;
    var_i3 = var_l18;
    var_i4 = var_l17;
    w2c_lockreplay_lk_locks0x3A0x3Amachine0x3A0x3AMachine0x3A0x3Aplay0x3A0x3A0x3C0x23e396818bfda329340x3E(instance, var_j0, var_j1, var_i2, var_i3, var_i4);
    var_j0 = var_l5;
    var_i0 = i32_load8_u(origin, (u64)(var_j0) + 4405u);
    var_l19 = var_i0;
    var_j0 = var_l5;
    var_i0 = i32_load8_u(origin, (u64)(var_j0) + 4406u);
    var_l9 = var_i0;
    var_j0 = var_l5;
    var_i0 = i32_load8_u(origin, (u64)(var_j0) + 4404u);
    if (var_i0) {goto var_B9;}
    var_j0 = var_l5;
    var_i0 = i32_load8_u(origin, (u64)(var_j0) + 4407u);
    var_l7 = var_i0;
    var_i0 = var_l9;
    switch (var_i0) {
      case 0: goto var_B11;
      case 1: goto var_B11;
      case 2: goto var_B16;
      case 3: goto var_B15;
      case 4: goto var_B14;
      case 5: goto var_B13;
      case 6: goto var_B12;
      default: goto var_B11;
    }
    var_B16:;
    var_j0 = var_l5;
    var_i1 = var_l8;
    i32_store8(origin, (u64)(var_j0) + 4027, var_i1);
    var_j0 = var_l5;
    var_i1 = 1u;
    i32_store8(origin, (u64)(var_j0) + 4026, var_i1);
    goto var_B11;
    var_B15:;
    var_j0 = var_l13;
    var_i1 = var_l8;
    var_i2 = var_l7;
    w2c_lockreplay_lk_replay0x3A0x3Areport0x3A0x3Aoccupancy0x3A0x3AOccupancyText0x3A0x3Aact(instance, var_j0, var_i1, var_i2);
    goto var_B11;
    var_B14:;
    var_i0 = var_l7;
    var_i1 = 255u;
    var_i0 &= var_i1;
    if (var_i0) {goto var_B11;}
    var_j0 = var_l5;
    var_i1 = var_l8;
    i32_store8(origin, (u64)(var_j0) + 3354, var_i1);
    var_j0 = var_l5;
    var_i1 = 1u;
    i32_store8(origin, (u64)(var_j0) + 3353, var_i1);
    goto var_B11;
    var_B13:;
    var_j0 = var_l13;
    var_i1 = var_l8;
    var_i2 = var_l7;
    w2c_lockreplay_lk_replay0x3A0x3Areport0x3A0x3Aoccupancy0x3A0x3AOccupancyText0x3A0x3Aact(instance, var_j0, var_i1, var_i2);
    var_i0 = var_l7;
    var_i1 = 255u;
    var_i0 &= var_i1;
    if (var_i0) {goto var_B11;}
    var_j0 = var_l5;
    var_i1 = var_l8;
    i32_store8(origin, (u64)(var_j0) + 3354, var_i1);
    var_j0 = var_l5;
    var_i1 = 1u;
    i32_store8(origin, (u64)(var_j0) + 3353, var_i1);
    goto var_B11;
    var_B12:;
    var_j0 = var_l5;
    var_i1 = var_l8;
    i32_store8(origin, (u64)(var_j0) + 4027, var_i1);
    var_j0 = var_l5;
    var_i1 = 0u;
    i32_store8(origin, (u64)(var_j0) + 4026, var_i1);
    var_j0 = var_l5;
    var_i1 = var_l8;
    i32_store8(origin, (u64)(var_j0) + 4025, var_i1);
    var_j0 = var_l5;
    var_i1 = 1u;
    i32_store8(origin, (u64)(var_j0) + 4024, var_i1);
    var_B11:;
    var_j0 = var_l5;
    var_j1 = var_l5;
    var_i1 = i32_load(origin, (u64)(var_j1) + 1264u);
    var_i2 = 1u;
    var_i1 += var_i2;
    var_l9 = var_i1;
    i32_store(origin, (u64)(var_j0) + 1264, var_i1);
    var_j0 = var_l5;
    var_j1 = 0ull;
    i64_store(origin, (u64)(var_j0) + 4056, var_j1);
    var_j0 = var_l5;
    var_j1 = 0ull;
    i64_store(origin, (u64)(var_j0) + 4048, var_j1);
    var_j0 = var_l5;
    var_j1 = 0ull;
    i64_store(origin, (u64)(var_j0) + 4040, var_j1);
    var_j0 = var_l5;
    var_j1 = 0ull;
    i64_store(origin, (u64)(var_j0) + 4032, var_j1);
    var_i0 = var_l9;
    var_j0 = (u64)(var_i0);
    var_p1 = var_j0;
    var_j0 = 16ull;
    var_p3 = var_j0;
    var_i0 = var_l9;
    var_i1 = 10000u;
    var_i0 = var_i0 < var_i1;
    if (var_i0) {goto var_B17;}
    var_j0 = 16ull;
    var_p3 = var_j0;
    var_L18:
      var_j0 = var_l5;
      var_j1 = 4032ull;
      var_j0 += var_j1;
      var_j1 = var_p3;
      var_j0 += var_j1;
      var_l20 = var_j0;
      var_j1 = 18446744073709551612ull;
      var_j0 += var_j1;
      var_j1 = var_p1;
      var_p0 = var_j1;
      var_j2 = var_p0;
      var_j3 = 10000ull;
      var_j2 = DIV_U(var_j2, var_j3);
      var_p1 = var_j2;
      var_j3 = 10000ull;
      var_j2 *= var_j3;
      var_j1 -= var_j2;
      var_i1 = (u32)(var_j1);
      var_l9 = var_i1;
      var_i2 = 65535u;
      var_i1 &= var_i2;
      var_i2 = 100u;
      var_i1 = DIV_U(var_i1, var_i2);
      var_l7 = var_i1;
      var_j1 = (u64)(var_i1);
      var_j2 = 1ull;
      var_j1 <<= (var_j2 & 63);
      var_i1 = i32_load16_u(origin, (u64)(var_j1) + 1057858u);
      i32_store16(origin, (u64)(var_j0), var_i1);
      var_j0 = var_l20;
      var_j1 = 18446744073709551614ull;
      var_j0 += var_j1;
      var_i1 = var_l9;
      var_i2 = var_l7;
      var_i3 = 100u;
      var_i2 *= var_i3;
      var_i1 -= var_i2;
      var_j1 = (u64)(var_i1);
      var_j2 = 65535ull;
      var_j1 &= var_j2;
      var_j2 = 1ull;
      var_j1 <<= (var_j2 & 63);
      var_i1 = i32_load16_u(origin, (u64)(var_j1) + 1057858u);
      i32_store16(origin, (u64)(var_j0), var_i1);
      var_j0 = var_p3;
      var_j1 = 18446744073709551612ull;
      var_j0 += var_j1;
      var_p3 = var_j0;
      var_j0 = var_p0;
      var_j1 = 99999999ull;
      var_i0 = var_j0 > var_j1;
      if (var_i0) {goto var_L18;}
    var_B17:;
    var_i0 = var_l17;
    var_j0 = (u64)(var_i0);
    var_p0 = var_j0;
    var_i0 = var_l19;
    var_j0 = (u64)(var_i0);
    var_l20 = var_j0;
    var_j0 = var_p1;
    var_j1 = 99ull;
    var_i0 = var_j0 > var_j1;
    if (var_i0) {goto var_B20;}
    var_j0 = var_p1;
    var_j1 = 9ull;
    var_i0 = var_j0 > var_j1;
    if (var_i0) {goto var_B21;}
    var_j0 = var_l5;
    var_j1 = 4032ull;
    var_j0 += var_j1;
    var_j1 = var_p3;
    var_j2 = 18446744073709551615ull;
    var_j1 += var_j2;
    var_p3 = var_j1;
    var_j0 += var_j1;
    var_j1 = var_p1;
    var_i1 = (u32)(var_j1);
    var_i2 = 48u;
    var_i1 |= var_i2;
    i32_store8(origin, (u64)(var_j0), var_i1);
    goto var_B19;
    var_B21:;
    var_j0 = var_l5;
    var_j1 = 4032ull;
    var_j0 += var_j1;
    var_j1 = var_p3;
    var_j2 = 18446744073709551614ull;
    var_j1 += var_j2;
    var_p3 = var_j1;
    var_j0 += var_j1;
    var_j1 = var_p1;
    var_j2 = 1ull;
    var_j1 <<= (var_j2 & 63);
    var_i1 = i32_load16_u(origin, (u64)(var_j1) + 1057858u);
    i32_store16(origin, (u64)(var_j0), var_i1);
    goto var_B19;
    var_B20:;
    var_j0 = var_l5;
    var_j1 = 4032ull;
    var_j0 += var_j1;
    var_j1 = var_p3;
    var_j0 += var_j1;
    var_j1 = 18446744073709551614ull;
    var_j0 += var_j1;
    var_j1 = var_p1;
    var_i1 = (u32)(var_j1);
    var_l9 = var_i1;
    var_i2 = var_l9;
    var_i3 = 65535u;
    var_i2 &= var_i3;
    var_i3 = 100u;
    var_i2 = DIV_U(var_i2, var_i3);
    var_l9 = var_i2;
    var_i3 = 100u;
    var_i2 *= var_i3;
    var_i1 -= var_i2;
    var_j1 = (u64)(var_i1);
    var_j2 = 65535ull;
    var_j1 &= var_j2;
    var_j2 = 1ull;
    var_j1 <<= (var_j2 & 63);
    var_i1 = i32_load16_u(origin, (u64)(var_j1) + 1057858u);
    i32_store16(origin, (u64)(var_j0), var_i1);
    var_j0 = var_p1;
    var_j1 = 999ull;
    var_i0 = var_j0 > var_j1;
    if (var_i0) {goto var_B22;}
    var_j0 = var_l5;
    var_j1 = 4032ull;
    var_j0 += var_j1;
    var_j1 = var_p3;
    var_j2 = 18446744073709551613ull;
    var_j1 += var_j2;
    var_p3 = var_j1;
    var_j0 += var_j1;
    var_i1 = var_l9;
    var_i2 = 48u;
    var_i1 |= var_i2;
    i32_store8(origin, (u64)(var_j0), var_i1);
    goto var_B19;
    var_B22:;
    var_j0 = var_l5;
    var_j1 = 4032ull;
    var_j0 += var_j1;
    var_j1 = var_p3;
    var_j2 = 18446744073709551612ull;
    var_j1 += var_j2;
    var_p3 = var_j1;
    var_j0 += var_j1;
    var_i1 = var_l9;
    var_j1 = (u64)(var_i1);
    var_j2 = 1ull;
    var_j1 <<= (var_j2 & 63);
    var_i1 = i32_load16_u(origin, (u64)(var_j1) + 1057858u);
    i32_store16(origin, (u64)(var_j0), var_i1);
    var_B19:;
    var_j0 = var_p0;
    var_j1 = 255ull;
    var_j0 &= var_j1;
    var_p0 = var_j0;
    var_j0 = var_l20;
    var_j1 = 255ull;
    var_j0 &= var_j1;
    var_p1 = var_j0;
    var_j0 = var_l5;
    var_j1 = var_l5;
    var_j2 = 4032ull;
    var_j1 += var_j2;
    var_j2 = var_p3;
    var_j1 += var_j2;
    var_l20 = var_j1;
    var_j1 = i64_load(origin, (u64)(var_j1) + 8u);
    i64_store(origin, (u64)(var_j0) + 824, var_j1);
    var_j0 = var_l5;
    var_j1 = var_l20;
    var_j1 = i64_load(origin, (u64)(var_j1));
    i64_store(origin, (u64)(var_j0) + 816, var_j1);
    var_j0 = var_l5;
    var_j1 = 816ull;
    var_j0 += var_j1;
    var_j1 = var_p3;
    var_j0 -= var_j1;
    var_j1 = 16ull;
    var_j0 += var_j1;
    var_i1 = 32u;
    i32_store8(origin, (u64)(var_j0), var_i1);
    var_j0 = 3ull;
    var_j1 = 2ull;
    var_j2 = 1ull;
    var_i3 = var_l8;
    var_i4 = 255u;
    var_i3 &= var_i4;
    var_l9 = var_i3;
    var_i4 = 9u;
    var_i3 = var_i3 > var_i4;
    var_l17 = var_i3;
    var_j1 = var_i3 ? var_j1 : var_j2;
    var_i2 = var_l9;
    var_i3 = 99u;
    var_i2 = var_i2 > var_i3;
    var_l7 = var_i2;
    var_j0 = var_i2 ? var_j0 : var_j1;
    var_j1 = var_p3;
    var_j0 -= var_j1;
    var_l20 = var_j0;
    var_j1 = 17ull;
    var_j0 += var_j1;
    var_p3 = var_j0;
    var_i0 = var_l7;
    if (var_i0) {goto var_B24;}
    var_i0 = var_l17;
    if (var_i0) {goto var_B25;}
    var_j0 = var_l5;
    var_j1 = 816ull;
    var_j0 += var_j1;
    var_j1 = var_p3;
    var_j0 += var_j1;
    var_j1 = 18446744073709551615ull;
    var_j0 += var_j1;
    var_i1 = var_l8;
    var_i2 = 48u;
    var_i1 |= var_i2;
    i32_store8(origin, (u64)(var_j0), var_i1);
    goto var_B23;
    var_B25:;
    var_j0 = var_l5;
    var_j1 = 816ull;
    var_j0 += var_j1;
    var_j1 = var_p3;
    var_j0 += var_j1;
    var_j1 = 18446744073709551614ull;
    var_j0 += var_j1;
    var_i1 = var_l8;
    var_j1 = (u64)(var_i1);
    var_j2 = 255ull;
    var_j1 &= var_j2;
    var_j2 = 1ull;
    var_j1 <<= (var_j2 & 63);
    var_i1 = i32_load16_u(origin, (u64)(var_j1) + 1057858u);
    i32_store16(origin, (u64)(var_j0), var_i1);
    goto var_B23;
    var_B24:;
    var_j0 = var_l5;
    var_j1 = 816ull;
    var_j0 += var_j1;
    var_j1 = var_p3;
    var_j0 += var_j1;
    var_l21 = var_j0;
    var_j1 = 18446744073709551613ull;
    var_j0 += var_j1;
    var_i1 = var_l9;
    var_i2 = 100u;
    var_i1 = DIV_U(var_i1, var_i2);
    var_l9 = var_i1;
    var_i2 = 48u;
    var_i1 |= var_i2;
    i32_store8(origin, (u64)(var_j0), var_i1);
    var_j0 = var_l21;
    var_j1 = 18446744073709551614ull;
    var_j0 += var_j1;
    var_i1 = var_l8;
    var_i2 = var_l9;
    var_i3 = 100u;
    var_i2 *= var_i3;
    var_i1 -= var_i2;
    var_j1 = (u64)(var_i1);
    var_j2 = 255ull;
    var_j1 &= var_j2;
    var_j2 = 1ull;
    var_j1 <<= (var_j2 & 63);
    var_i1 = i32_load16_u(origin, (u64)(var_j1) + 1057858u);
    i32_store16(origin, (u64)(var_j0), var_i1);
    var_B23:;
    var_j0 = var_l5;
    var_j1 = 816ull;
    var_j0 += var_j1;
    var_j1 = var_p3;
    var_j0 += var_j1;
    var_i1 = 32u;
    i32_store8(origin, (u64)(var_j0), var_i1);
    var_j0 = var_l5;
    var_j1 = 816ull;
    var_j0 += var_j1;
    var_j1 = var_l20;
    var_j2 = 18ull;
    var_j1 += var_j2;
    var_l20 = var_j1;
    var_j0 += var_j1;
    var_l21 = var_j0;
    var_j1 = var_p0;
    var_j2 = 3ull;
    var_j1 <<= (var_j2 & 63);
    var_p3 = var_j1;
    var_j2 = 1059424ull;
    var_j1 += var_j2;
    var_j2 = var_p3;
    var_j3 = 1059528ull;
    var_j2 += var_j3;
    var_i3 = var_l18;
    var_i4 = 255u;
    var_i3 &= var_i4;
    var_i4 = 1u;
    var_i3 = var_i3 == var_i4;
    var_l9 = var_i3;
    var_j1 = var_i3 ? var_j1 : var_j2;
    var_j1 = i64_load(origin, (u64)(var_j1));
    var_p0 = var_j1;
    var_j1 = i64_load(origin, (u64)(var_j1) + 8u);
    i64_store(origin, (u64)(var_j0) + 8, var_j1);
    var_j0 = var_l21;
    var_j1 = var_p0;
    var_j1 = i64_load(origin, (u64)(var_j1));
    i64_store(origin, (u64)(var_j0), var_j1);
    var_j0 = var_l5;
    var_j1 = 816ull;
    var_j0 += var_j1;
    var_j1 = var_p3;
    var_j2 = 1059376ull;
    var_j1 += var_j2;
    var_j2 = var_p3;
    var_j3 = 1059472ull;
    var_j2 += var_j3;
    var_i3 = var_l9;
    var_j1 = var_i3 ? var_j1 : var_j2;
    var_j1 = i64_load(origin, (u64)(var_j1));
    var_j2 = var_l20;
    var_j1 += var_j2;
    var_p3 = var_j1;
    var_j0 += var_j1;
    var_p0 = var_j0;
    var_j1 = var_p1;
    var_j2 = 3ull;
    var_j1 <<= (var_j2 & 63);
    var_p1 = var_j1;
    var_j1 = i64_load(origin, (u64)(var_j1) + 1059624u);
    var_l20 = var_j1;
    var_j1 = i64_load(origin, (u64)(var_j1) + 8u);
    i64_store(origin, (u64)(var_j0) + 8, var_j1);
    var_j0 = var_p0;
    var_j1 = var_l20;
    var_j1 = i64_load(origin, (u64)(var_j1));
    i64_store(origin, (u64)(var_j0), var_j1);
    var_j0 = var_l5;
    var_j1 = 816ull;
    var_j0 += var_j1;
    var_j1 = var_p1;
    var_j1 = i64_load(origin, (u64)(var_j1) + 1059584u);
    var_j2 = var_p3;
    var_j1 += var_j2;
    var_p3 = var_j1;
    var_j0 += var_j1;
    var_p0 = var_j0;
    var_j1 = 0ull;
    var_i1 = i32_load8_u(origin, (u64)(var_j1) + 1058062u);
    i32_store8(origin, (u64)(var_j0) + 4, var_i1);
    var_j0 = var_p0;
    var_j1 = 0ull;
    var_i1 = i32_load(origin, (u64)(var_j1) + 1058058u);
    i32_store(origin, (u64)(var_j0), var_i1);
    var_j0 = var_p3;
    var_j1 = 5ull;
    var_j0 += var_j1;
    var_p0 = var_j0;
    var_j0 = var_l5;
    var_j0 = i64_load8_u(origin, (u64)(var_j0) + 3352u);
    var_i0 = (u32)(var_j0);
    switch (var_i0) {
      case 0: goto var_B28;
      case 1: goto var_B28;
      case 2: goto var_B27;
      case 3: goto var_B26;
      default: goto var_B28;
    }
    var_B28:;
    var_j0 = var_l5;
    var_i0 = i32_load8_u(origin, (u64)(var_j0) + 3353u);
    var_i1 = 1u;
    var_i0 = var_i0 != var_i1;
    if (var_i0) {goto var_B30;}
    var_j0 = 3ull;
    var_j1 = 2ull;
    var_j2 = 1ull;
    var_j3 = var_l5;
    var_i3 = i32_load8_u(origin, (u64)(var_j3) + 3354u);
    var_l7 = var_i3;
    var_i4 = 255u;
    var_i3 &= var_i4;
    var_l9 = var_i3;
    var_i4 = 9u;
    var_i3 = var_i3 > var_i4;
    var_l17 = var_i3;
    var_j1 = var_i3 ? var_j1 : var_j2;
    var_i2 = var_l9;
    var_i3 = 99u;
    var_i2 = var_i2 > var_i3;
    var_l8 = var_i2;
    var_j0 = var_i2 ? var_j0 : var_j1;
    var_j1 = var_p0;
    var_j0 += var_j1;
    var_p3 = var_j0;
    var_i0 = var_l8;
    if (var_i0) {goto var_B31;}
    var_i0 = var_l17;
    if (var_i0) {goto var_B32;}
    var_j0 = var_l5;
    var_j1 = 816ull;
    var_j0 += var_j1;
    var_j1 = var_p3;
    var_j0 += var_j1;
    var_j1 = 18446744073709551615ull;
    var_j0 += var_j1;
    var_i1 = var_l7;
    var_i2 = 48u;
    var_i1 |= var_i2;
    i32_store8(origin, (u64)(var_j0), var_i1);
    goto var_B29;
    var_B32:;
    var_j0 = var_l5;
    var_j1 = 816ull;
    var_j0 += var_j1;
    var_j1 = var_p3;
    var_j0 += var_j1;
    var_j1 = 18446744073709551614ull;
    var_j0 += var_j1;
    var_i1 = var_l7;
    var_j1 = (u64)(var_i1);
    var_j2 = 255ull;
    var_j1 &= var_j2;
    var_j2 = 1ull;
    var_j1 <<= (var_j2 & 63);
    var_i1 = i32_load16_u(origin, (u64)(var_j1) + 1057858u);
    i32_store16(origin, (u64)(var_j0), var_i1);
    goto var_B29;
    var_B31:;
    var_j0 = var_l5;
    var_j1 = 816ull;
    var_j0 += var_j1;
    var_j1 = var_p3;
    var_j0 += var_j1;
    var_p0 = var_j0;
    var_j1 = 18446744073709551613ull;
    var_j0 += var_j1;
    var_i1 = var_l9;
    var_i2 = 100u;
    var_i1 = DIV_U(var_i1, var_i2);
    var_l9 = var_i1;
    var_i2 = 48u;
    var_i1 |= var_i2;
    i32_store8(origin, (u64)(var_j0), var_i1);
    var_j0 = var_p0;
    var_j1 = 18446744073709551614ull;
    var_j0 += var_j1;
    var_i1 = var_l7;
    var_i2 = var_l9;
    var_i3 = 100u;
    var_i2 *= var_i3;
    var_i1 -= var_i2;
    var_j1 = (u64)(var_i1);
    var_j2 = 255ull;
    var_j1 &= var_j2;
    var_j2 = 1ull;
    var_j1 <<= (var_j2 & 63);
    var_i1 = i32_load16_u(origin, (u64)(var_j1) + 1057858u);
    i32_store16(origin, (u64)(var_j0), var_i1);
    goto var_B29;
    var_B30:;
    var_j0 = var_l5;
    var_j1 = 816ull;
    var_j0 += var_j1;
    var_j1 = var_p0;
    var_j0 += var_j1;
    var_i1 = 45u;
    i32_store8(origin, (u64)(var_j0), var_i1);
    var_j0 = var_p3;
    var_j1 = 6ull;
    var_j0 += var_j1;
    var_p3 = var_j0;
    var_B29:;
    var_j0 = var_l5;
    var_j1 = 816ull;
    var_j0 += var_j1;
    var_j1 = var_p3;
    var_j0 += var_j1;
    var_p0 = var_j0;
    var_j1 = 0ull;
    var_i1 = i32_load(origin, (u64)(var_j1) + 1058475u);
    i32_store(origin, (u64)(var_j0) + 3, var_i1);
    var_j0 = var_p0;
    var_j1 = 0ull;
    var_i1 = i32_load(origin, (u64)(var_j1) + 1058472u);
    i32_store(origin, (u64)(var_j0), var_i1);
    var_j0 = var_p3;
    var_j1 = 7ull;
    var_j0 += var_j1;
    var_p0 = var_j0;
    var_j0 = var_l5;
    var_j0 = i64_load(origin, (u64)(var_j0) + 3680u);
    var_j1 = 0ull;
    var_i0 = var_j0 != var_j1;
    if (var_i0) {goto var_B34;}
    var_j0 = var_l5;
    var_j1 = 816ull;
    var_j0 += var_j1;
    var_j1 = var_p0;
    var_j0 += var_j1;
    var_i1 = 45u;
    i32_store8(origin, (u64)(var_j0), var_i1);
    var_j0 = var_p3;
    var_j1 = 8ull;
    var_j0 += var_j1;
    var_p3 = var_j0;
    goto var_B33;
    var_B34:;
    var_j0 = var_l12;
    var_j1 = var_l5;
    var_j2 = 816ull;
    var_j1 += var_j2;
    var_j2 = var_p0;
    var_j0 = w2c_lockreplay_lk_replay0x3A0x3Areport0x3A0x3Atext0x3A0x3AText0x3A0x3Aput_rest(instance, var_j0, var_j1, var_j2);
    var_p3 = var_j0;
    var_B33:;
    var_j0 = var_l5;
    var_j1 = 816ull;
    var_j0 += var_j1;
    var_j1 = var_p3;
    var_j0 += var_j1;
    var_i1 = 10u;
    i32_store8(origin, (u64)(var_j0), var_i1);
    var_j0 = var_p3;
    var_j1 = 1ull;
    var_j0 += var_j1;
    var_p3 = var_j0;
    var_i0 = 0u;
    var_l9 = var_i0;
    goto var_B8;
    var_B27:;
    var_j0 = var_l5;
    var_i0 = i32_load8_u(origin, (u64)(var_j0) + 4024u);
    var_i1 = 1u;
    var_i0 = var_i0 != var_i1;
    if (var_i0) {goto var_B36;}
    var_j0 = var_l5;
    var_i0 = i32_load8_u(origin, (u64)(var_j0) + 4025u);
    var_l9 = var_i0;
    var_j0 = var_l5;
    var_j1 = 816ull;
    var_j0 += var_j1;
    var_j1 = var_p0;
    var_j0 += var_j1;
    var_i1 = 119u;
    i32_store8(origin, (u64)(var_j0), var_i1);
    var_j0 = var_p3;
    var_j1 = 3ull;
    var_j2 = 2ull;
    var_j3 = 1ull;
    var_i4 = var_l9;
    var_i5 = 255u;
    var_i4 &= var_i5;
    var_l7 = var_i4;
    var_i5 = 9u;
    var_i4 = var_i4 > var_i5;
    var_l17 = var_i4;
    var_j2 = var_i4 ? var_j2 : var_j3;
    var_i3 = var_l7;
    var_i4 = 99u;
    var_i3 = var_i3 > var_i4;
    var_l8 = var_i3;
    var_j1 = var_i3 ? var_j1 : var_j2;
    var_j0 += var_j1;
    var_j1 = 6ull;
    var_j0 += var_j1;
    var_p3 = var_j0;
    var_i0 = var_l8;
    if (var_i0) {goto var_B37;}
    var_i0 = var_l17;
    if (var_i0) {goto var_B38;}
    var_j0 = var_l5;
    var_j1 = 816ull;
    var_j0 += var_j1;
    var_j1 = var_p3;
    var_j0 += var_j1;
    var_j1 = 18446744073709551615ull;
    var_j0 += var_j1;
    var_i1 = var_l9;
    var_i2 = 48u;
    var_i1 |= var_i2;
    i32_store8(origin, (u64)(var_j0), var_i1);
    goto var_B35;
    var_B38:;
    var_j0 = var_l5;
    var_j1 = 816ull;
    var_j0 += var_j1;
    var_j1 = var_p3;
    var_j0 += var_j1;
    var_j1 = 18446744073709551614ull;
    var_j0 += var_j1;
    var_i1 = var_l9;
    var_j1 = (u64)(var_i1);
    var_j2 = 255ull;
    var_j1 &= var_j2;
    var_j2 = 1ull;
    var_j1 <<= (var_j2 & 63);
    var_i1 = i32_load16_u(origin, (u64)(var_j1) + 1057858u);
    i32_store16(origin, (u64)(var_j0), var_i1);
    goto var_B35;
    var_B37:;
    var_j0 = var_l5;
    var_j1 = 816ull;
    var_j0 += var_j1;
    var_j1 = var_p3;
    var_j0 += var_j1;
    var_p0 = var_j0;
    var_j1 = 18446744073709551613ull;
    var_j0 += var_j1;
    var_i1 = var_l7;
    var_i2 = 100u;
    var_i1 = DIV_U(var_i1, var_i2);
    var_l7 = var_i1;
    var_i2 = 48u;
    var_i1 |= var_i2;
    i32_store8(origin, (u64)(var_j0), var_i1);
    var_j0 = var_p0;
    var_j1 = 18446744073709551614ull;
    var_j0 += var_j1;
    var_i1 = var_l9;
    var_i2 = var_l7;
    var_i3 = 100u;
    var_i2 *= var_i3;
    var_i1 -= var_i2;
    var_j1 = (u64)(var_i1);
    var_j2 = 255ull;
    var_j1 &= var_j2;
    var_j2 = 1ull;
    var_j1 <<= (var_j2 & 63);
    var_i1 = i32_load16_u(origin, (u64)(var_j1) + 1057858u);
    i32_store16(origin, (u64)(var_j0), var_i1);
    goto var_B35;
    var_B36:;
    var_j0 = var_p3;
    var_j1 = 6ull;
    var_j0 += var_j1;
    var_p3 = var_j0;
    var_j0 = var_l5;
    var_j1 = 816ull;
    var_j0 += var_j1;
    var_j1 = var_p0;
    var_j0 += var_j1;
    var_p0 = var_j0;
    var_j0 = var_l5;
    var_j0 = i64_load(origin, (u64)(var_j0) + 4008u);
    var_j1 = 0ull;
    var_i0 = var_j0 != var_j1;
    if (var_i0) {goto var_B39;}
    var_j0 = var_p0;
    var_i1 = 45u;
    i32_store8(origin, (u64)(var_j0), var_i1);
    goto var_B35;
    var_B39:;
    var_j0 = var_p0;
    var_i1 = 114u;
    i32_store8(origin, (u64)(var_j0), var_i1);
    var_j0 = var_l10;
    var_j1 = var_l5;
    var_j2 = 816ull;
    var_j1 += var_j2;
    var_j2 = var_p3;
    var_j0 = w2c_lockreplay_lk_replay0x3A0x3Areport0x3A0x3Atext0x3A0x3AText0x3A0x3Aput_rest(instance, var_j0, var_j1, var_j2);
    var_p3 = var_j0;
    var_B35:;
    var_j0 = var_l5;
    var_j1 = 816ull;
    var_j0 += var_j1;
    var_j1 = var_p3;
    var_j0 += var_j1;
    var_p0 = var_j0;
    var_j1 = 0ull;
    var_i1 = i32_load8_u(origin, (u64)(var_j1) + 1058487u);
    i32_store8(origin, (u64)(var_j0) + 8, var_i1);
    var_j0 = var_p0;
    var_j1 = 0ull;
    var_j1 = i64_load(origin, (u64)(var_j1) + 1058479u);
    i64_store(origin, (u64)(var_j0), var_j1);
    var_j0 = var_p3;
    var_j1 = 9ull;
    var_j0 += var_j1;
    var_p3 = var_j0;
    var_i0 = 0u;
    var_l9 = var_i0;
    goto var_B8;
    var_B26:;
    var_j0 = var_l5;
    var_i0 = i32_load8_u(origin, (u64)(var_j0) + 4024u);
    var_i1 = 1u;
    var_i0 = var_i0 != var_i1;
    if (var_i0) {goto var_B41;}
    var_j0 = var_l5;
    var_i0 = i32_load8_u(origin, (u64)(var_j0) + 4025u);
    var_l9 = var_i0;
    var_j0 = var_l5;
    var_j1 = 816ull;
    var_j0 += var_j1;
    var_j1 = var_p0;
    var_j0 += var_j1;
    var_i1 = 119u;
    i32_store8(origin, (u64)(var_j0), var_i1);
    var_j0 = var_p3;
    var_j1 = 3ull;
    var_j2 = 2ull;
    var_j3 = 1ull;
    var_i4 = var_l9;
    var_i5 = 255u;
    var_i4 &= var_i5;
    var_l7 = var_i4;
    var_i5 = 9u;
    var_i4 = var_i4 > var_i5;
    var_l17 = var_i4;
    var_j2 = var_i4 ? var_j2 : var_j3;
    var_i3 = var_l7;
    var_i4 = 99u;
    var_i3 = var_i3 > var_i4;
    var_l8 = var_i3;
    var_j1 = var_i3 ? var_j1 : var_j2;
    var_j0 += var_j1;
    var_j1 = 6ull;
    var_j0 += var_j1;
    var_p3 = var_j0;
    var_i0 = var_l8;
    if (var_i0) {goto var_B42;}
    var_i0 = var_l17;
    if (var_i0) {goto var_B43;}
    var_j0 = var_l5;
    var_j1 = 816ull;
    var_j0 += var_j1;
    var_j1 = var_p3;
    var_j0 += var_j1;
    var_j1 = 18446744073709551615ull;
    var_j0 += var_j1;
    var_i1 = var_l9;
    var_i2 = 48u;
    var_i1 |= var_i2;
    i32_store8(origin, (u64)(var_j0), var_i1);
    goto var_B40;
    var_B43:;
    var_j0 = var_l5;
    var_j1 = 816ull;
    var_j0 += var_j1;
    var_j1 = var_p3;
    var_j0 += var_j1;
    var_j1 = 18446744073709551614ull;
    var_j0 += var_j1;
    var_i1 = var_l9;
    var_j1 = (u64)(var_i1);
    var_j2 = 255ull;
    var_j1 &= var_j2;
    var_j2 = 1ull;
    var_j1 <<= (var_j2 & 63);
    var_i1 = i32_load16_u(origin, (u64)(var_j1) + 1057858u);
    i32_store16(origin, (u64)(var_j0), var_i1);
    goto var_B40;
    var_B42:;
    var_j0 = var_l5;
    var_j1 = 816ull;
    var_j0 += var_j1;
    var_j1 = var_p3;
    var_j0 += var_j1;
    var_p0 = var_j0;
    var_j1 = 18446744073709551613ull;
    var_j0 += var_j1;
    var_i1 = var_l7;
    var_i2 = 100u;
    var_i1 = DIV_U(var_i1, var_i2);
    var_l7 = var_i1;
    var_i2 = 48u;
    var_i1 |= var_i2;
    i32_store8(origin, (u64)(var_j0), var_i1);
    var_j0 = var_p0;
    var_j1 = 18446744073709551614ull;
    var_j0 += var_j1;
    var_i1 = var_l9;
    var_i2 = var_l7;
    var_i3 = 100u;
    var_i2 *= var_i3;
    var_i1 -= var_i2;
    var_j1 = (u64)(var_i1);
    var_j2 = 255ull;
    var_j1 &= var_j2;
    var_j2 = 1ull;
    var_j1 <<= (var_j2 & 63);
    var_i1 = i32_load16_u(origin, (u64)(var_j1) + 1057858u);
    i32_store16(origin, (u64)(var_j0), var_i1);
    goto var_B40;
    var_B41:;
    var_j0 = var_p3;
    var_j1 = 6ull;
    var_j0 += var_j1;
    var_p3 = var_j0;
    var_j0 = var_l5;
    var_j1 = 816ull;
    var_j0 += var_j1;
    var_j1 = var_p0;
    var_j0 += var_j1;
    var_p0 = var_j0;
    var_j0 = var_l5;
    var_j0 = i64_load(origin, (u64)(var_j0) + 4008u);
    var_j1 = 0ull;
    var_i0 = var_j0 != var_j1;
    if (var_i0) {goto var_B44;}
    var_j0 = var_p0;
    var_i1 = 45u;
    i32_store8(origin, (u64)(var_j0), var_i1);
    goto var_B40;
    var_B44:;
    var_j0 = var_p0;
    var_i1 = 114u;
    i32_store8(origin, (u64)(var_j0), var_i1);
    var_j0 = var_l10;
    var_j1 = var_l5;
    var_j2 = 816ull;
    var_j1 += var_j2;
    var_j2 = var_p3;
    var_j0 = w2c_lockreplay_lk_replay0x3A0x3Areport0x3A0x3Atext0x3A0x3AText0x3A0x3Aput_rest(instance, var_j0, var_j1, var_j2);
    var_p3 = var_j0;
    var_B40:;
    var_j0 = var_l5;
    var_j1 = 816ull;
    var_j0 += var_j1;
    var_j1 = var_p3;
    var_j0 += var_j1;
    var_p0 = var_j0;
    var_j1 = 0ull;
    var_i1 = i32_load(origin, (u64)(var_j1) + 1058475u);
    i32_store(origin, (u64)(var_j0) + 3, var_i1);
    var_j0 = var_p0;
    var_j1 = 0ull;
    var_i1 = i32_load(origin, (u64)(var_j1) + 1058472u);
    i32_store(origin, (u64)(var_j0), var_i1);
    var_j0 = var_p3;
    var_j1 = 7ull;
    var_j0 += var_j1;
    var_p0 = var_j0;
    var_j0 = var_l5;
    var_i0 = i32_load8_u(origin, (u64)(var_j0) + 4026u);
    var_i1 = 1u;
    var_i0 = var_i0 != var_i1;
    if (var_i0) {goto var_B46;}
    var_j0 = 3ull;
    var_j1 = 2ull;
    var_j2 = 1ull;
    var_j3 = var_l5;
    var_i3 = i32_load8_u(origin, (u64)(var_j3) + 4027u);
    var_l7 = var_i3;
    var_i4 = 255u;
    var_i3 &= var_i4;
    var_l9 = var_i3;
    var_i4 = 9u;
    var_i3 = var_i3 > var_i4;
    var_l17 = var_i3;
    var_j1 = var_i3 ? var_j1 : var_j2;
    var_i2 = var_l9;
    var_i3 = 99u;
    var_i2 = var_i2 > var_i3;
    var_l8 = var_i2;
    var_j0 = var_i2 ? var_j0 : var_j1;
    var_j1 = var_p0;
    var_j0 += var_j1;
    var_p3 = var_j0;
    var_i0 = var_l8;
    if (var_i0) {goto var_B47;}
    var_i0 = var_l17;
    if (var_i0) {goto var_B48;}
    var_j0 = var_l5;
    var_j1 = 816ull;
    var_j0 += var_j1;
    var_j1 = var_p3;
    var_j0 += var_j1;
    var_j1 = 18446744073709551615ull;
    var_j0 += var_j1;
    var_i1 = var_l7;
    var_i2 = 48u;
    var_i1 |= var_i2;
    i32_store8(origin, (u64)(var_j0), var_i1);
    goto var_B45;
    var_B48:;
    var_j0 = var_l5;
    var_j1 = 816ull;
    var_j0 += var_j1;
    var_j1 = var_p3;
    var_j0 += var_j1;
    var_j1 = 18446744073709551614ull;
    var_j0 += var_j1;
    var_i1 = var_l7;
    var_j1 = (u64)(var_i1);
    var_j2 = 255ull;
    var_j1 &= var_j2;
    var_j2 = 1ull;
    var_j1 <<= (var_j2 & 63);
    var_i1 = i32_load16_u(origin, (u64)(var_j1) + 1057858u);
    i32_store16(origin, (u64)(var_j0), var_i1);
    goto var_B45;
    var_B47:;
    var_j0 = var_l5;
    var_j1 = 816ull;
    var_j0 += var_j1;
    var_j1 = var_p3;
    var_j0 += var_j1;
    var_p0 = var_j0;
    var_j1 = 18446744073709551613ull;
    var_j0 += var_j1;
    var_i1 = var_l9;
    var_i2 = 100u;
    var_i1 = DIV_U(var_i1, var_i2);
    var_l9 = var_i1;
    var_i2 = 48u;
    var_i1 |= var_i2;
    i32_store8(origin, (u64)(var_j0), var_i1);
    var_j0 = var_p0;
    var_j1 = 18446744073709551614ull;
    var_j0 += var_j1;
    var_i1 = var_l7;
    var_i2 = var_l9;
    var_i3 = 100u;
    var_i2 *= var_i3;
    var_i1 -= var_i2;
    var_j1 = (u64)(var_i1);
    var_j2 = 255ull;
    var_j1 &= var_j2;
    var_j2 = 1ull;
    var_j1 <<= (var_j2 & 63);
    var_i1 = i32_load16_u(origin, (u64)(var_j1) + 1057858u);
    i32_store16(origin, (u64)(var_j0), var_i1);
    goto var_B45;
    var_B46:;
    var_j0 = var_l5;
    var_j1 = 816ull;
    var_j0 += var_j1;
    var_j1 = var_p0;
    var_j0 += var_j1;
    var_i1 = 45u;
    i32_store8(origin, (u64)(var_j0), var_i1);
    var_j0 = var_p3;
    var_j1 = 8ull;
    var_j0 += var_j1;
    var_p3 = var_j0;
    var_B45:;
    var_j0 = var_l5;
    var_j1 = 816ull;
    var_j0 += var_j1;
    var_j1 = var_p3;
    var_j0 += var_j1;
    var_i1 = 10u;
    i32_store8(origin, (u64)(var_j0), var_i1);
    var_j0 = var_p3;
    var_j1 = 1ull;
    var_j0 += var_j1;
    var_p3 = var_j0;
    var_i0 = 0u;
    var_l9 = var_i0;
    goto var_B8;
    var_B10:;
    var_j0 = var_l5;
    var_i1 = 0u;
    i32_store(origin, (u64)(var_j0) + 4372, var_i1);
    var_i0 = 1u;
    var_l9 = var_i0;
    var_j0 = var_l5;
    var_j1 = 816ull;
    var_j0 += var_j1;
    var_i1 = var_l7;
    var_j2 = var_l5;
    var_j3 = 4372ull;
    var_j2 += var_j3;
    var_j0 = w2c_lockreplay_lk_replay0x3A0x3Areport0x3A0x3Aclosings0x3A0x3Aput_last(instance, var_j0, var_i1, var_j2);
    var_p3 = var_j0;
    goto var_B8;
    var_B9:;
    var_j0 = var_l5;
    var_i1 = var_l9;
    i32_store8(origin, (u64)(var_j0) + 4369, var_i1);
    var_j0 = var_l5;
    var_i1 = var_l19;
    i32_store8(origin, (u64)(var_j0) + 4368, var_i1);
    var_j0 = var_l5;
    var_i1 = var_l16;
    i32_store(origin, (u64)(var_j0) + 4364, var_i1);
    var_i0 = 1u;
    var_l9 = var_i0;
    var_j0 = var_l5;
    var_i1 = 1u;
    i32_store(origin, (u64)(var_j0) + 4360, var_i1);
    var_j0 = var_l5;
    var_j1 = 816ull;
    var_j0 += var_j1;
    var_i1 = var_l7;
    var_j2 = var_l5;
    var_j3 = 4360ull;
    var_j2 += var_j3;
    var_j0 = w2c_lockreplay_lk_replay0x3A0x3Areport0x3A0x3Aclosings0x3A0x3Aput_last(instance, var_j0, var_i1, var_j2);
    var_p3 = var_j0;
    var_B8:;
    var_j0 = var_p4;
    var_j1 = var_p4;
    var_j2 = 0ull;
    var_j3 = var_l15;
    var_j4 = var_p2;
    var_j3 -= var_j4;
    var_p0 = var_j3;
    var_j4 = var_p0;
    var_j5 = var_l15;
    var_i4 = var_j4 > var_j5;
    var_j2 = var_i4 ? var_j2 : var_j3;
    var_p0 = var_j2;
    var_j3 = var_p4;
    var_j4 = var_p0;
    var_i3 = var_j3 < var_j4;
    var_j1 = var_i3 ? var_j1 : var_j2;
    var_l20 = var_j1;
    var_j0 -= var_j1;
    var_p0 = var_j0;
    var_j1 = var_p3;
    var_j2 = var_p3;
    var_j3 = 0ull;
    var_j4 = var_p2;
    var_j5 = var_l15;
    var_j4 -= var_j5;
    var_p1 = var_j4;
    var_j5 = var_p1;
    var_j6 = var_p2;
    var_i5 = var_j5 > var_j6;
    var_j3 = var_i5 ? var_j3 : var_j4;
    var_p1 = var_j3;
    var_j4 = var_p3;
    var_j5 = var_p1;
    var_i4 = var_j4 < var_j5;
    var_j2 = var_i4 ? var_j2 : var_j3;
    var_l21 = var_j2;
    var_j1 -= var_j2;
    var_p1 = var_j1;
    var_j2 = var_p0;
    var_j3 = var_p1;
    var_i2 = var_j2 < var_j3;
    var_j0 = var_i2 ? var_j0 : var_j1;
    var_p0 = var_j0;
    var_i0 = !(var_j0);
    if (var_i0) {goto var_B49;}
    var_j0 = var_l6;
    var_j1 = var_l20;
    var_j0 += var_j1;
    var_j1 = var_l5;
    var_j2 = 816ull;
    var_j1 += var_j2;
    var_j2 = var_l21;
    var_j1 += var_j2;
    var_j2 = var_p0;
    memory_copy(origin, origin, var_j0, var_j1, var_j2);
    var_B49:;
    var_j0 = var_l11;
    var_j1 = 0ull;
    var_j2 = var_p3;
    var_j3 = var_l15;
    var_j2 += var_j3;
    var_l15 = var_j2;
    var_j3 = var_p2;
    var_j2 -= var_j3;
    var_p3 = var_j2;
    var_j3 = var_p3;
    var_j4 = var_l15;
    var_i3 = var_j3 > var_j4;
    var_j1 = var_i3 ? var_j1 : var_j2;
    var_p3 = var_j1;
    var_j2 = var_l11;
    var_j3 = var_p3;
    var_i2 = var_j2 < var_j3;
    var_j0 = var_i2 ? var_j0 : var_j1;
    var_p3 = var_j0;
    var_i0 = var_l9;
    if (var_i0) {goto var_B0;}
    var_j0 = var_p4;
    var_j1 = var_p3;
    var_i0 = var_j0 >= var_j1;
    if (var_i0) {goto var_L7;}
    goto var_B0;
  var_B3:;
  var_j0 = var_l5;
  var_i0 = i32_load(origin, (u64)(var_j0) + 448u);
  var_l9 = var_i0;
  var_j0 = var_l5;
  var_j0 = i64_load8_u(origin, (u64)(var_j0) + 444u);
  var_i0 = (u32)(var_j0);
  switch (var_i0) {
    case 0: goto var_B51;
    case 1: goto var_B57;
    case 2: goto var_B56;
    case 3: goto var_B55;
    case 4: goto var_B54;
    case 5: goto var_B53;
    case 6: goto var_B1;
    case 7: goto var_B52;
    default: goto var_B51;
  }
  var_B57:;
  var_j0 = var_l5;
  var_j1 = 0ull;
  i64_store(origin, (u64)(var_j0) + 4408, var_j1);
  var_j0 = var_l5;
  var_j1 = 0ull;
  i64_store(origin, (u64)(var_j0) + 4416, var_j1);
  var_j0 = var_l5;
  var_j1 = 0ull;
  i64_store(origin, (u64)(var_j0) + 4424, var_j1);
  var_j0 = var_l5;
  var_j1 = 0ull;
  i64_store(origin, (u64)(var_j0) + 4432, var_j1);
  var_j0 = var_l5;
  var_j1 = 0ull;
  i64_store(origin, (u64)(var_j0) + 4440, var_j1);
  var_j0 = var_l5;
  var_j1 = 0ull;
  var_i1 = i32_load(origin, (u64)(var_j1) + 1057773u);
  i32_store(origin, (u64)(var_j0) + 1264, var_i1);
  var_j0 = var_l5;
  var_j1 = 0ull;
  var_i1 = i32_load8_u(origin, (u64)(var_j1) + 1057777u);
  i32_store8(origin, (u64)(var_j0) + 1268, var_i1);
  var_j0 = var_l5;
  var_j1 = 1264ull;
  var_j0 += var_j1;
  var_j1 = 11ull;
  var_j0 += var_j1;
  var_p0 = var_j0;
  var_i1 = 32u;
  var_j2 = 309ull;
  memory_fill(origin, var_j0, var_i1, var_j2);
  var_j0 = var_l5;
  var_j1 = 0ull;
  var_i1 = i32_load16_u(origin, (u64)(var_j1) + 1057855u);
  i32_store16(origin, (u64)(var_j0) + 1273, var_i1);
  var_j0 = var_l5;
  var_j1 = 0ull;
  var_i1 = i32_load(origin, (u64)(var_j1) + 1057851u);
  i32_store(origin, (u64)(var_j0) + 1269, var_i1);
  var_j0 = var_l5;
  var_j1 = 8ull;
  var_j0 += var_j1;
  var_j1 = var_l5;
  var_j2 = 4408ull;
  var_j1 += var_j2;
  var_i2 = var_l9;
  w2c_lockreplay_itoa0x3A0x3ABuffer0x3A0x3Aformat0x3A0x3A0x3C0x23a27d2209050c8f1b0x3E(instance, var_j0, var_j1, var_i2);
  var_j0 = var_l5;
  var_j0 = i64_load(origin, (u64)(var_j0) + 16u);
  var_p3 = var_j0;
  var_i0 = !(var_j0);
  if (var_i0) {goto var_B58;}
  var_j0 = var_p0;
  var_j1 = var_l5;
  var_j1 = i64_load(origin, (u64)(var_j1) + 8u);
  var_j2 = var_p3;
  memory_copy(origin, origin, var_j0, var_j1, var_j2);
  var_B58:;
  var_j0 = var_l5;
  var_j1 = 1264ull;
  var_j0 += var_j1;
  var_j1 = var_p3;
  var_j0 += var_j1;
  var_j1 = 11ull;
  var_j0 += var_j1;
  var_i1 = 32u;
  i32_store8(origin, (u64)(var_j0), var_i1);
  var_j0 = var_l5;
  var_j1 = 4032ull;
  var_j0 += var_j1;
  var_j1 = var_l5;
  var_j2 = 1264ull;
  var_j1 += var_j2;
  var_j2 = 320ull;
  memory_copy(origin, origin, var_j0, var_j1, var_j2);
  var_j0 = var_p3;
  var_j1 = 12ull;
  var_j0 += var_j1;
  var_p0 = var_j0;
  var_j0 = 1057778ull;
  var_p1 = var_j0;
  var_j0 = 8ull;
  var_p3 = var_j0;
  goto var_B50;
  var_B56:;
  var_j0 = var_l5;
  var_j1 = 0ull;
  i64_store(origin, (u64)(var_j0) + 4408, var_j1);
  var_j0 = var_l5;
  var_j1 = 0ull;
  i64_store(origin, (u64)(var_j0) + 4416, var_j1);
  var_j0 = var_l5;
  var_j1 = 0ull;
  i64_store(origin, (u64)(var_j0) + 4424, var_j1);
  var_j0 = var_l5;
  var_j1 = 0ull;
  i64_store(origin, (u64)(var_j0) + 4432, var_j1);
  var_j0 = var_l5;
  var_j1 = 0ull;
  i64_store(origin, (u64)(var_j0) + 4440, var_j1);
  var_j0 = var_l5;
  var_j1 = 0ull;
  var_i1 = i32_load(origin, (u64)(var_j1) + 1057773u);
  i32_store(origin, (u64)(var_j0) + 1264, var_i1);
  var_j0 = var_l5;
  var_j1 = 0ull;
  var_i1 = i32_load8_u(origin, (u64)(var_j1) + 1057777u);
  i32_store8(origin, (u64)(var_j0) + 1268, var_i1);
  var_j0 = var_l5;
  var_j1 = 1264ull;
  var_j0 += var_j1;
  var_j1 = 11ull;
  var_j0 += var_j1;
  var_p0 = var_j0;
  var_i1 = 32u;
  var_j2 = 309ull;
  memory_fill(origin, var_j0, var_i1, var_j2);
  var_j0 = var_l5;
  var_j1 = 0ull;
  var_i1 = i32_load16_u(origin, (u64)(var_j1) + 1057855u);
  i32_store16(origin, (u64)(var_j0) + 1273, var_i1);
  var_j0 = var_l5;
  var_j1 = 0ull;
  var_i1 = i32_load(origin, (u64)(var_j1) + 1057851u);
  i32_store(origin, (u64)(var_j0) + 1269, var_i1);
  var_j0 = var_l5;
  var_j1 = 24ull;
  var_j0 += var_j1;
  var_j1 = var_l5;
  var_j2 = 4408ull;
  var_j1 += var_j2;
  var_i2 = var_l9;
  w2c_lockreplay_itoa0x3A0x3ABuffer0x3A0x3Aformat0x3A0x3A0x3C0x23a27d2209050c8f1b0x3E(instance, var_j0, var_j1, var_i2);
  var_j0 = var_l5;
  var_j0 = i64_load(origin, (u64)(var_j0) + 32u);
  var_p3 = var_j0;
  var_i0 = !(var_j0);
  if (var_i0) {goto var_B59;}
  var_j0 = var_p0;
  var_j1 = var_l5;
  var_j1 = i64_load(origin, (u64)(var_j1) + 24u);
  var_j2 = var_p3;
  memory_copy(origin, origin, var_j0, var_j1, var_j2);
  var_B59:;
  var_j0 = var_l5;
  var_j1 = 1264ull;
  var_j0 += var_j1;
  var_j1 = var_p3;
  var_j0 += var_j1;
  var_j1 = 11ull;
  var_j0 += var_j1;
  var_i1 = 32u;
  i32_store8(origin, (u64)(var_j0), var_i1);
  var_j0 = var_l5;
  var_j1 = 4032ull;
  var_j0 += var_j1;
  var_j1 = var_l5;
  var_j2 = 1264ull;
  var_j1 += var_j2;
  var_j2 = 320ull;
  memory_copy(origin, origin, var_j0, var_j1, var_j2);
  var_j0 = var_p3;
  var_j1 = 12ull;
  var_j0 += var_j1;
  var_p0 = var_j0;
  var_j0 = 1057786ull;
  var_p1 = var_j0;
  var_j0 = 9ull;
  var_p3 = var_j0;
  goto var_B50;
  var_B55:;
  var_j0 = var_l5;
  var_j1 = 0ull;
  i64_store(origin, (u64)(var_j0) + 4408, var_j1);
  var_j0 = var_l5;
  var_j1 = 0ull;
  i64_store(origin, (u64)(var_j0) + 4416, var_j1);
  var_j0 = var_l5;
  var_j1 = 0ull;
  i64_store(origin, (u64)(var_j0) + 4424, var_j1);
  var_j0 = var_l5;
  var_j1 = 0ull;
  i64_store(origin, (u64)(var_j0) + 4432, var_j1);
  var_j0 = var_l5;
  var_j1 = 0ull;
  i64_store(origin, (u64)(var_j0) + 4440, var_j1);
  var_j0 = var_l5;
  var_j1 = 0ull;
  var_i1 = i32_load(origin, (u64)(var_j1) + 1057773u);
  i32_store(origin, (u64)(var_j0) + 1264, var_i1);
  var_j0 = var_l5;
  var_j1 = 0ull;
  var_i1 = i32_load8_u(origin, (u64)(var_j1) + 1057777u);
  i32_store8(origin, (u64)(var_j0) + 1268, var_i1);
  var_j0 = var_l5;
  var_j1 = 1264ull;
  var_j0 += var_j1;
  var_j1 = 11ull;
  var_j0 += var_j1;
  var_p0 = var_j0;
  var_i1 = 32u;
  var_j2 = 309ull;
  memory_fill(origin, var_j0, var_i1, var_j2);
  var_j0 = var_l5;
  var_j1 = 0ull;
  var_i1 = i32_load16_u(origin, (u64)(var_j1) + 1057855u);
  i32_store16(origin, (u64)(var_j0) + 1273, var_i1);
  var_j0 = var_l5;
  var_j1 = 0ull;
  var_i1 = i32_load(origin, (u64)(var_j1) + 1057851u);
  i32_store(origin, (u64)(var_j0) + 1269, var_i1);
  var_j0 = var_l5;
  var_j1 = 40ull;
  var_j0 += var_j1;
  var_j1 = var_l5;
  var_j2 = 4408ull;
  var_j1 += var_j2;
  var_i2 = var_l9;
  w2c_lockreplay_itoa0x3A0x3ABuffer0x3A0x3Aformat0x3A0x3A0x3C0x23a27d2209050c8f1b0x3E(instance, var_j0, var_j1, var_i2);
  var_j0 = var_l5;
  var_j0 = i64_load(origin, (u64)(var_j0) + 48u);
  var_p3 = var_j0;
  var_i0 = !(var_j0);
  if (var_i0) {goto var_B60;}
  var_j0 = var_p0;
  var_j1 = var_l5;
  var_j1 = i64_load(origin, (u64)(var_j1) + 40u);
  var_j2 = var_p3;
  memory_copy(origin, origin, var_j0, var_j1, var_j2);
  var_B60:;
  var_j0 = var_l5;
  var_j1 = 1264ull;
  var_j0 += var_j1;
  var_j1 = var_p3;
  var_j0 += var_j1;
  var_j1 = 11ull;
  var_j0 += var_j1;
  var_i1 = 32u;
  i32_store8(origin, (u64)(var_j0), var_i1);
  var_j0 = var_l5;
  var_j1 = 4032ull;
  var_j0 += var_j1;
  var_j1 = var_l5;
  var_j2 = 1264ull;
  var_j1 += var_j2;
  var_j2 = 320ull;
  memory_copy(origin, origin, var_j0, var_j1, var_j2);
  var_j0 = var_p3;
  var_j1 = 12ull;
  var_j0 += var_j1;
  var_p0 = var_j0;
  var_j0 = 1057795ull;
  var_p1 = var_j0;
  var_j0 = 10ull;
  var_p3 = var_j0;
  goto var_B50;
  var_B54:;
  var_j0 = var_l5;
  var_j1 = 0ull;
  i64_store(origin, (u64)(var_j0) + 4408, var_j1);
  var_j0 = var_l5;
  var_j1 = 0ull;
  i64_store(origin, (u64)(var_j0) + 4416, var_j1);
  var_j0 = var_l5;
  var_j1 = 0ull;
  i64_store(origin, (u64)(var_j0) + 4424, var_j1);
  var_j0 = var_l5;
  var_j1 = 0ull;
  i64_store(origin, (u64)(var_j0) + 4432, var_j1);
  var_j0 = var_l5;
  var_j1 = 0ull;
  i64_store(origin, (u64)(var_j0) + 4440, var_j1);
  var_j0 = var_l5;
  var_j1 = 0ull;
  var_i1 = i32_load(origin, (u64)(var_j1) + 1057773u);
  i32_store(origin, (u64)(var_j0) + 1264, var_i1);
  var_j0 = var_l5;
  var_j1 = 0ull;
  var_i1 = i32_load8_u(origin, (u64)(var_j1) + 1057777u);
  i32_store8(origin, (u64)(var_j0) + 1268, var_i1);
  var_j0 = var_l5;
  var_j1 = 1264ull;
  var_j0 += var_j1;
  var_j1 = 11ull;
  var_j0 += var_j1;
  var_p0 = var_j0;
  var_i1 = 32u;
  var_j2 = 309ull;
  memory_fill(origin, var_j0, var_i1, var_j2);
  var_j0 = var_l5;
  var_j1 = 0ull;
  var_i1 = i32_load16_u(origin, (u64)(var_j1) + 1057855u);
  i32_store16(origin, (u64)(var_j0) + 1273, var_i1);
  var_j0 = var_l5;
  var_j1 = 0ull;
  var_i1 = i32_load(origin, (u64)(var_j1) + 1057851u);
  i32_store(origin, (u64)(var_j0) + 1269, var_i1);
  var_j0 = var_l5;
  var_j1 = 56ull;
  var_j0 += var_j1;
  var_j1 = var_l5;
  var_j2 = 4408ull;
  var_j1 += var_j2;
  var_i2 = var_l9;
  w2c_lockreplay_itoa0x3A0x3ABuffer0x3A0x3Aformat0x3A0x3A0x3C0x23a27d2209050c8f1b0x3E(instance, var_j0, var_j1, var_i2);
  var_j0 = var_l5;
  var_j0 = i64_load(origin, (u64)(var_j0) + 64u);
  var_p3 = var_j0;
  var_i0 = !(var_j0);
  if (var_i0) {goto var_B61;}
  var_j0 = var_p0;
  var_j1 = var_l5;
  var_j1 = i64_load(origin, (u64)(var_j1) + 56u);
  var_j2 = var_p3;
  memory_copy(origin, origin, var_j0, var_j1, var_j2);
  var_B61:;
  var_j0 = var_l5;
  var_j1 = 1264ull;
  var_j0 += var_j1;
  var_j1 = var_p3;
  var_j0 += var_j1;
  var_j1 = 11ull;
  var_j0 += var_j1;
  var_i1 = 32u;
  i32_store8(origin, (u64)(var_j0), var_i1);
  var_j0 = var_l5;
  var_j1 = 4032ull;
  var_j0 += var_j1;
  var_j1 = var_l5;
  var_j2 = 1264ull;
  var_j1 += var_j2;
  var_j2 = 320ull;
  memory_copy(origin, origin, var_j0, var_j1, var_j2);
  var_j0 = var_p3;
  var_j1 = 12ull;
  var_j0 += var_j1;
  var_p0 = var_j0;
  var_j0 = 1057805ull;
  var_p1 = var_j0;
  var_j0 = 7ull;
  var_p3 = var_j0;
  goto var_B50;
  var_B53:;
  var_j0 = var_l5;
  var_j1 = 0ull;
  i64_store(origin, (u64)(var_j0) + 4408, var_j1);
  var_j0 = var_l5;
  var_j1 = 0ull;
  i64_store(origin, (u64)(var_j0) + 4416, var_j1);
  var_j0 = var_l5;
  var_j1 = 0ull;
  i64_store(origin, (u64)(var_j0) + 4424, var_j1);
  var_j0 = var_l5;
  var_j1 = 0ull;
  i64_store(origin, (u64)(var_j0) + 4432, var_j1);
  var_j0 = var_l5;
  var_j1 = 0ull;
  i64_store(origin, (u64)(var_j0) + 4440, var_j1);
  var_j0 = var_l5;
  var_j1 = 0ull;
  var_i1 = i32_load(origin, (u64)(var_j1) + 1057773u);
  i32_store(origin, (u64)(var_j0) + 1264, var_i1);
  var_j0 = var_l5;
  var_j1 = 0ull;
  var_i1 = i32_load8_u(origin, (u64)(var_j1) + 1057777u);
  i32_store8(origin, (u64)(var_j0) + 1268, var_i1);
  var_j0 = var_l5;
  var_j1 = 1264ull;
  var_j0 += var_j1;
  var_j1 = 11ull;
  var_j0 += var_j1;
  var_p3 = var_j0;
  var_i1 = 32u;
  var_j2 = 309ull;
  memory_fill(origin, var_j0, var_i1, var_j2);
  var_j0 = var_l5;
  var_j1 = 0ull;
  var_i1 = i32_load16_u(origin, (u64)(var_j1) + 1057855u);
  i32_store16(origin, (u64)(var_j0) + 1273, var_i1);
  var_j0 = var_l5;
  var_j1 = 0ull;
  var_i1 = i32_load(origin, (u64)(var_j1) + 1057851u);
  i32_store(origin, (u64)(var_j0) + 1269, var_i1);
  var_j0 = var_l5;
  var_j1 = 72ull;
  var_j0 += var_j1;
  var_j1 = var_l5;
  var_j2 = 4408ull;
  var_j1 += var_j2;
  var_i2 = var_l9;
  w2c_lockreplay_itoa0x3A0x3ABuffer0x3A0x3Aformat0x3A0x3A0x3C0x23a27d2209050c8f1b0x3E(instance, var_j0, var_j1, var_i2);
  var_j0 = var_l5;
  var_j0 = i64_load(origin, (u64)(var_j0) + 80u);
  var_p0 = var_j0;
  var_i0 = !(var_j0);
  if (var_i0) {goto var_B62;}
  var_j0 = var_p3;
  var_j1 = var_l5;
  var_j1 = i64_load(origin, (u64)(var_j1) + 72u);
  var_j2 = var_p0;
  memory_copy(origin, origin, var_j0, var_j1, var_j2);
  var_B62:;
  var_j0 = var_l5;
  var_j1 = 1264ull;
  var_j0 += var_j1;
  var_j1 = var_p0;
  var_j0 += var_j1;
  var_j1 = 11ull;
  var_j0 += var_j1;
  var_i1 = 32u;
  i32_store8(origin, (u64)(var_j0), var_i1);
  var_j0 = var_l5;
  var_j1 = 4032ull;
  var_j0 += var_j1;
  var_j1 = var_l5;
  var_j2 = 1264ull;
  var_j1 += var_j2;
  var_j2 = 320ull;
  memory_copy(origin, origin, var_j0, var_j1, var_j2);
  var_j0 = 12ull;
  var_p3 = var_j0;
  var_j0 = var_p0;
  var_j1 = 12ull;
  var_j0 += var_j1;
  var_p0 = var_j0;
  var_j0 = 1057812ull;
  var_p1 = var_j0;
  goto var_B50;
  var_B52:;
  var_j0 = var_l5;
  var_j1 = 0ull;
  i64_store(origin, (u64)(var_j0) + 4408, var_j1);
  var_j0 = var_l5;
  var_j1 = 0ull;
  i64_store(origin, (u64)(var_j0) + 4416, var_j1);
  var_j0 = var_l5;
  var_j1 = 0ull;
  i64_store(origin, (u64)(var_j0) + 4424, var_j1);
  var_j0 = var_l5;
  var_j1 = 0ull;
  i64_store(origin, (u64)(var_j0) + 4432, var_j1);
  var_j0 = var_l5;
  var_j1 = 0ull;
  i64_store(origin, (u64)(var_j0) + 4440, var_j1);
  var_j0 = var_l5;
  var_j1 = 0ull;
  var_i1 = i32_load(origin, (u64)(var_j1) + 1057773u);
  i32_store(origin, (u64)(var_j0) + 1264, var_i1);
  var_j0 = var_l5;
  var_j1 = 0ull;
  var_i1 = i32_load8_u(origin, (u64)(var_j1) + 1057777u);
  i32_store8(origin, (u64)(var_j0) + 1268, var_i1);
  var_j0 = var_l5;
  var_j1 = 1264ull;
  var_j0 += var_j1;
  var_j1 = 11ull;
  var_j0 += var_j1;
  var_p0 = var_j0;
  var_i1 = 32u;
  var_j2 = 309ull;
  memory_fill(origin, var_j0, var_i1, var_j2);
  var_j0 = var_l5;
  var_j1 = 0ull;
  var_i1 = i32_load16_u(origin, (u64)(var_j1) + 1057855u);
  i32_store16(origin, (u64)(var_j0) + 1273, var_i1);
  var_j0 = var_l5;
  var_j1 = 0ull;
  var_i1 = i32_load(origin, (u64)(var_j1) + 1057851u);
  i32_store(origin, (u64)(var_j0) + 1269, var_i1);
  var_j0 = var_l5;
  var_j1 = 88ull;
  var_j0 += var_j1;
  var_j1 = var_l5;
  var_j2 = 4408ull;
  var_j1 += var_j2;
  var_i2 = var_l9;
  w2c_lockreplay_itoa0x3A0x3ABuffer0x3A0x3Aformat0x3A0x3A0x3C0x23a27d2209050c8f1b0x3E(instance, var_j0, var_j1, var_i2);
  var_j0 = var_l5;
  var_j0 = i64_load(origin, (u64)(var_j0) + 96u);
  var_p3 = var_j0;
  var_i0 = !(var_j0);
  if (var_i0) {goto var_B63;}
  var_j0 = var_p0;
  var_j1 = var_l5;
  var_j1 = i64_load(origin, (u64)(var_j1) + 88u);
  var_j2 = var_p3;
  memory_copy(origin, origin, var_j0, var_j1, var_j2);
  var_B63:;
  var_j0 = var_l5;
  var_j1 = 1264ull;
  var_j0 += var_j1;
  var_j1 = var_p3;
  var_j0 += var_j1;
  var_j1 = 11ull;
  var_j0 += var_j1;
  var_i1 = 32u;
  i32_store8(origin, (u64)(var_j0), var_i1);
  var_j0 = var_l5;
  var_j1 = 4032ull;
  var_j0 += var_j1;
  var_j1 = var_l5;
  var_j2 = 1264ull;
  var_j1 += var_j2;
  var_j2 = 320ull;
  memory_copy(origin, origin, var_j0, var_j1, var_j2);
  var_j0 = var_p3;
  var_j1 = 12ull;
  var_j0 += var_j1;
  var_p0 = var_j0;
  var_j0 = 1057824ull;
  var_p1 = var_j0;
  var_j0 = 14ull;
  var_p3 = var_j0;
  goto var_B50;
  var_B51:;
  var_j0 = var_l5;
  var_j1 = 4032ull;
  var_j0 += var_j1;
  var_i1 = 32u;
  var_j2 = 320ull;
  memory_fill(origin, var_j0, var_i1, var_j2);
  var_j0 = 1057838ull;
  var_p1 = var_j0;
  var_j0 = 13ull;
  var_p3 = var_j0;
  var_j0 = 0ull;
  var_p0 = var_j0;
  var_B50:;
  var_j0 = var_l5;
  var_j1 = 816ull;
  var_j0 += var_j1;
  var_j1 = var_l5;
  var_j2 = 4032ull;
  var_j1 += var_j2;
  var_j2 = 320ull;
  memory_copy(origin, origin, var_j0, var_j1, var_j2);
  var_j0 = var_p3;
  var_i0 = !(var_j0);
  if (var_i0) {goto var_B64;}
  var_j0 = var_l5;
  var_j1 = 816ull;
  var_j0 += var_j1;
  var_j1 = var_p0;
  var_j0 += var_j1;
  var_j1 = var_p1;
  var_j2 = var_p3;
  memory_copy(origin, origin, var_j0, var_j1, var_j2);
  var_B64:;
  var_j0 = var_l5;
  var_j1 = 816ull;
  var_j0 += var_j1;
  var_j1 = var_p3;
  var_j2 = var_p0;
  var_j1 += var_j2;
  var_p3 = var_j1;
  var_j0 += var_j1;
  var_i1 = 10u;
  i32_store8(origin, (u64)(var_j0), var_i1);
  var_j0 = var_l5;
  var_j1 = var_p3;
  var_j2 = 1ull;
  var_j1 += var_j2;
  i64_store(origin, (u64)(var_j0) + 1136, var_j1);
  var_j0 = var_l5;
  var_j1 = 112ull;
  var_j0 += var_j1;
  var_p3 = var_j0;
  var_j1 = var_l5;
  var_j2 = 816ull;
  var_j1 += var_j2;
  var_j2 = 328ull;
  memory_copy(origin, origin, var_j0, var_j1, var_j2);
  var_j0 = var_l5;
  var_j1 = 488ull;
  var_j0 += var_j1;
  var_j1 = var_p3;
  var_j2 = 328ull;
  memory_copy(origin, origin, var_j0, var_j1, var_j2);
  var_j0 = var_p4;
  var_j1 = var_l5;
  var_j1 = i64_load(origin, (u64)(var_j1) + 808u);
  var_p3 = var_j1;
  var_j2 = var_p3;
  var_j3 = var_p2;
  var_j4 = var_p3;
  var_j5 = var_p2;
  var_i4 = var_j4 < var_j5;
  var_j2 = var_i4 ? var_j2 : var_j3;
  var_p1 = var_j2;
  var_j1 -= var_j2;
  var_p0 = var_j1;
  var_j2 = var_p4;
  var_j3 = var_p0;
  var_i2 = var_j2 < var_j3;
  var_j0 = var_i2 ? var_j0 : var_j1;
  var_p0 = var_j0;
  var_i0 = !(var_j0);
  if (var_i0) {goto var_B65;}
  var_j0 = var_l6;
  var_j1 = var_l5;
  var_j2 = 488ull;
  var_j1 += var_j2;
  var_j2 = var_p1;
  var_j1 += var_j2;
  var_j2 = var_p0;
  memory_copy(origin, origin, var_j0, var_j1, var_j2);
  var_B65:;
  var_j0 = var_p4;
  var_j1 = 1ull;
  var_j0 += var_j1;
  var_p0 = var_j0;
  var_j1 = 0ull;
  var_j2 = var_p3;
  var_j3 = var_p2;
  var_j2 -= var_j3;
  var_p1 = var_j2;
  var_j3 = var_p1;
  var_j4 = var_p3;
  var_i3 = var_j3 > var_j4;
  var_j1 = var_i3 ? var_j1 : var_j2;
  var_p3 = var_j1;
  var_j2 = var_p0;
  var_j3 = var_p3;
  var_i2 = var_j2 < var_j3;
  var_j0 = var_i2 ? var_j0 : var_j1;
  var_p3 = var_j0;
  goto var_B0;
  var_B2:;
  UNREACHABLE;
  var_B1:;
  var_j0 = 0ull;
  var_p3 = var_j0;
  var_B0:;
  var_j0 = var_l5;
  var_j1 = 4448ull;
  var_j0 += var_j1;
  instance->w2c_0x5F_stack_pointer = var_j0;
  var_j0 = var_p3;
  FUNC_EPILOGUE;
  return var_j0;
}
/* The end of the machine. */

/* A call of the module has an instance of its own: the globals, and a room with the stack and a copy
   of the data, since there they follow one another. So calls share only constants. */

#if defined __GNUC__
#pragma GCC diagnostic pop
#endif

/* A room has place for SHIFTS more steps of 16 bytes: to these addresses are aligned. */
enum { LT_STACK = (LT_DEEPEST + 31) / 16 * 16, LT_SHIFTS = 3 };

typedef struct lt_call {
    w2c_lockreplay instance;
    _Alignas(16) u8 room[LT_STACK + sizeof lt_data + 16 * LT_SHIFTS];
} lt_call;

/* Makes an instance ready for a call to which up to three pointers are lent. None of them gets the
   address 0, which the module takes for no slice. */
static void lt_begin(lt_call *call, const void *one, const void *two, const void *three)
{
    uintptr_t origin = (uintptr_t)(call->room + LT_STACK) - LT_DATA_AT;
    while (origin == (uintptr_t)one || origin == (uintptr_t)two || origin == (uintptr_t)three)
        origin += 16;
    memcpy((u8 *)(origin + LT_DATA_AT), lt_data, sizeof lt_data);
    init_globals(&call->instance);
    LT_HIDE(origin);
    call->instance.w2c_memory.origin = origin;
}

/* Returns the address of what a caller lends. */
static u64 lt_lent(const lt_call *call, const void *pointer)
{
    uintptr_t lent = (uintptr_t)pointer;
    LT_HIDE(lent);
    return (u64)lent - call->instance.w2c_memory.origin;
}

/* The report of a text, by the module's `report`, and how it ends. */

typedef struct lt_text {
    uint8_t *bytes;
    size_t size;
} lt_text;

/* Makes the report of a text, in memory of its own. Returns 0 if memory is refused. A line of a
   report has at most 211 bytes more than its move, and no move has less than 7 bytes but an `add` or
   `cas`, before which comes a call of 10 bytes. So a report has less than 32 bytes for each one of
   its text; room that it does not use costs nothing. */
static int lt_report(const lt_text *text, lt_text *report)
{
    size_t room = 32 * text->size + 4096;
    lt_call call;
    report->bytes = malloc(room);
    if (!report->bytes) return 0;
    lt_begin(&call, text->bytes, report->bytes, NULL);
    report->size = w2c_lockreplay_report_0(&call.instance, lt_lent(&call, text->bytes), text->size,
                                           0, lt_lent(&call, report->bytes), room);
    if (report->size > room) abort();
    report->bytes = realloc(report->bytes, report->size);
    return report->bytes != NULL;
}

/* Whether the last line of a report says that all moves were accepted. */
static int lt_is_accepted(const lt_text *report)
{
    size_t last = report->size - 1;
    while (last && report->bytes[last - 1] != '\n') last--;
    return report->size - last > 4 && !memcmp(report->bytes + last, "end ", 4);
}

/* The command line of lockreplay. It has no part in what a report says. */

enum { MOST_BYTES = 1048577, MOST_FILES = 65536, MOST_WORKERS = 8, WAITING = 65536 };
enum { ACCEPTED, REFUSED, MISUSED, FAILED }; /* the statuses */

static const char usage[] = "Usage: lockreplay <COMMAND>\n\n"
                            "  lockreplay replay                         reads standard input\n"
                            "  lockreplay batch --workers <N> <FILE>...  N from 1 to 8\n";
static const char wrong[] = "error: the words have to be those of one command\n\n";

static lt_text *texts, *reports;
static size_t count;        /* of both */
static atomic_size_t drawn; /* the number of the next text of a worker */
static atomic_int lacks_memory;
static char waiting[WAITING]; /* to be written, as many as waits */
static size_t waits;

static _Noreturn void end(int status, const char *message, const char *more)
{
    fprintf(stderr, "%s%s\n", message, more);
    exit(status);
}

/* Writes bytes to standard output. A write that takes none fails too. */
static void write_all(const void *bytes, size_t size)
{
    const char *at = bytes;
    for (ssize_t taken; size; at += taken, size -= (size_t)taken)
        if ((taken = write(1, at, size)) <= 0) end(FAILED, "lockreplay: cannot write", "");
}

/* Appends bytes to those that wait, and writes these before if there is no room. */
static void pass(const void *bytes, size_t size)
{
    if (size > WAITING - waits) write_all(waiting, waits), waits = 0;
    if (size > WAITING) write_all(bytes, size), size = 0;
    memcpy(waiting + waits, bytes, size);
    waits += size;
}

/* Reads a file, or standard input if it has no name, up to a byte more than a text may have. */
static void read_text(lt_text *text, uint8_t *input, const char *name)
{
    int device = name ? open(name, O_RDONLY) : 0;
    ssize_t got = device < 0 ? -1 : 1;
    size_t size = 0;
    char file[32];
    snprintf(file, sizeof file, "file %td", text - texts + 1);
    while (got > 0 && size < MOST_BYTES) {
        got = read(device, input + size, MOST_BYTES - size);
        size += got > 0 ? (size_t)got : 0;
    }
    if (got < 0) end(FAILED, "lockreplay: cannot read ", name ? file : "standard input");
    if (name) close(device);
    *text = (lt_text){malloc(size + 1), size};
    if (!text->bytes) end(FAILED, "lockreplay: out of memory", "");
    memcpy(text->bytes, input, size);
}

static void *work(void *unused)
{
    for (size_t k; (k = atomic_fetch_add(&drawn, 1)) < count;)
        if (!lt_report(&texts[k], &reports[k])) atomic_store(&lacks_memory, 1);
    return unused;
}

/* Makes all reports. The caller is a worker too; there are fewer if no thread can be started. */
static void make_reports(int workers)
{
    pthread_t ids[MOST_WORKERS];
    int started = 0;
#ifdef M_ARENA_MAX
    mallopt(M_ARENA_MAX, 1); /* those of all workers could take what a limit leaves for reports */
#endif
    while (started + 1 < workers && !pthread_create(&ids[started], NULL, work, NULL)) started++;
    work(NULL);
    while (started) pthread_join(ids[--started], NULL);
    if (lacks_memory) end(FAILED, "lockreplay: out of memory", "");
}

/* Replays the schedules of files, or the one on standard input. Returns the status. */
static int replay(int workers, char **files)
{
    int status = ACCEPTED;
    uint8_t *input = malloc(MOST_BYTES);
    texts = malloc(count * sizeof *texts), reports = malloc(count * sizeof *reports);
    if (!input || !texts || !reports) end(FAILED, "lockreplay: out of memory", "");
    for (size_t k = 0; k < count; k++) read_text(&texts[k], input, files ? files[k] : NULL);
    make_reports(workers);
    for (size_t k = 0; k < count; k++) {
        char head[32];
        if (files) pass(head, (size_t)snprintf(head, sizeof head, "file %zu\n", k + 1));
        pass(reports[k].bytes, reports[k].size);
        if (!lt_is_accepted(&reports[k])) status = REFUSED;
    }
    write_all(waiting, waits);
    return status;
}

static int is_utf8(const char *word)
{
    static const unsigned long least[] = {0, 0x80, 0x800, 0x10000};
    for (const unsigned char *at = (const unsigned char *)word; *at;) {
        int more = (*at >= 0xC0) + (*at >= 0xE0) + (*at >= 0xF0) + (*at >= 0xF8);
        unsigned long code = more ? *at & 0x3F >> more : *at < 0x80 ? *at : ~0UL;
        at++;
        for (int i = 0; i < more; i++) code = *at >> 6 == 2 ? code << 6 | (*at++ & 0x3F) : ~0UL;
        if (more > 3 || code < least[more] || code > 0x10FFFF || code >> 11 == 0x1B) return 0;
    }
    return 1;
}

/* Moves names to the front. Returns how many workers are asked for, or 0; ends for help. */
static int read_words(char **words)
{
    int workers = 0;
    char **at = words;
    for (; *at && strcmp(*at, "--"); at++) {
        if ((*at)[0] != '-' || !(*at)[1]) {
            words[count++] = *at;
            continue;
        }
        if (!strcmp(*at, "--help") || !strcmp(*at, "-h"))
            write_all(usage, sizeof usage - 1), exit(ACCEPTED);
        const char *number = strncmp(*at, "--workers=", 10) ? "" : *at + 10;
        if (!strcmp(*at, "--workers") && at[1]) number = *++at;
        number += *number == '+';
        number += strspn(number, "0");
        if (workers || *number < '1' || *number > '0' + MOST_WORKERS || number[1])
            end(MISUSED, wrong, usage);
        workers = *number - '0';
    }
    while (*at && *++at) words[count++] = *at;
    return workers;
}

int main(int size, char **words)
{
    const char *command = size > 1 ? words[1] : "";
    int is_batch = !strcmp(command, "batch");
    char **names = words + 1 + is_batch;
    signal(SIGPIPE, SIG_IGN); /* a write says that its reader left */
    for (int i = 1; i < size; i++)
        if (!is_utf8(words[i])) end(MISUSED, "lockreplay: the words are not UTF-8 text", "");
    int workers = size > 1 ? read_words(names) : 0;
    if (is_batch ? !workers || !count : workers || count != 1 || strcmp(command, "replay"))
        end(MISUSED, wrong, usage);
    if (count > MOST_FILES) end(MISUSED, "lockreplay: too many files", "");
    return replay(is_batch ? workers : 1, is_batch ? names : NULL);
}
