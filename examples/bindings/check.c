// check.c: checks the trace on standard input, and says each move and the first fault.
// SPDX-License-Identifier: Apache-2.0 OR MIT
//
//     cc -Ibuilt examples/bindings/check.c built/locktrace.c -o check && ./check < run.trace
#include <inttypes.h>
#include <stdio.h>

#include <locktrace.h>

static char text[1 << 20];
static struct lt_step steps[1 << 16];

int main(void)
{
    struct lt_run run;
    struct lt_step step;
    size_t length = fread(text, 1, sizeof text, stdin);
    if (length == sizeof text) return 2; // there may be more of it
    lt_open(&run, text, length, steps, sizeof steps / sizeof steps[0]);
    while (lt_next(&run, &step))
        printf("%" PRIu32 " %s %s\n", step.thread, lt_move_text(step.action),
               lt_outcome_text(step.outcome));
    if (!run.answer.fault) return 0;
    uint8_t why[128];
    int size = (int)lt_fault_text(run.answer.fault, why, sizeof why);
    printf("line %" PRIu64 ": %.*s\n", run.answer.line, size, (const char *)why);
    return 1;
}
