/* lockreplay.c: replays schedules of four locks (docs/FORMATS.md), as the program lockreplay does.
   SPDX-License-Identifier: Apache-2.0 OR MIT

       cc -O2 -pthread lockreplay.c -o lockreplay && ./lockreplay replay < one.schedule

   One file, for a C compiler and POSIX threads. It is made by `make c-files`, and not edited. What
   reads a schedule, replays it and writes the report are the proved functions of crates/lk_page,
   compiled to WebAssembly, and that to C by wasm2c of the WebAssembly Binary Toolkit. That they are
   proved says nothing of the two translations, nor of the command line after them, which is written
   by hand. */
#if defined __clang__
#pragma clang diagnostic ignored "-Wunused-function"
#endif
#define _POSIX_C_SOURCE 200809L
#include <fcntl.h>
#ifdef __linux__
#include <malloc.h>
#endif
#include <pthread.h>
#include <signal.h>
#include <stdatomic.h>
#include <stdint.h>
#include <stdio.h>
#include <stdlib.h>
#include <string.h>
#include <unistd.h>

#include "notices of thiserror, itoa, arrayvec, wasm2c"

#include "runtime.h"

#include "machine"

#include "call.h"

#include "report.h"

#include "main.c"
