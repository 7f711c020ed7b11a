/* locktrace.c: the check of a trace (docs/FORMATS.md) that locktrace.h declares, for a C compiler.
   SPDX-License-Identifier: Apache-2.0 OR MIT

   Compile it with your program: nothing else is needed. It is made by `make c-files`, and not
   edited. Its functions are the proved ones of crates/lk_page, compiled to WebAssembly, and that to
   C by wasm2c of the WebAssembly Binary Toolkit. That they are proved says nothing of the two
   translations, nor of the lines before and after them, which are written by hand. */
#if defined __clang__
#pragma clang diagnostic ignored "-Wunused-function"
#endif
#include <stdint.h>
#include <stdlib.h>
#include <string.h>

#include "notices of thiserror, itoa, arrayvec, wasm2c"

#include "../record/src/locktrace.h"

#include "runtime.h"

#include "machine"

#include "call.h"

uint32_t lt_check(const uint8_t *text, size_t length, struct lt_step *steps, size_t room,
                  struct lt_answer *answer)
{
    lt_call call;
    lt_begin(&call, text, steps, answer);
    return w2c_lockreplay_lt_check_0(&call.instance, lt_lent(&call, text), length,
                                     lt_lent(&call, steps), room, lt_lent(&call, answer));
}

size_t lt_fault_text(uint32_t fault, uint8_t *text, size_t room)
{
    lt_call call;
    lt_begin(&call, text, NULL, NULL);
    return w2c_lockreplay_lt_fault_text_0(&call.instance, fault, lt_lent(&call, text), room);
}
