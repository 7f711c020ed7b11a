/* Checks the text on standard input with text, records and answer at each place around the address
   0 of a call, where its numbers wrap: the answer has to be the one of other places. */
#include "../../built/locktrace.c"

#include <stdio.h>

enum { ROOM = 64, LARGE = 1 << 24 };

static struct lt_step due[ROOM];
static struct lt_answer due_answer;
static uint8_t around[LARGE], text[1 << 16];
static int failed;

/* Checks with a call whose address 0 is in `around`, and compares with the answer elsewhere. */
static void check_at(const uint8_t *from, size_t length, struct lt_step *steps,
                     struct lt_answer *answer, const char *what)
{
    lt_call *call = (lt_call *)(around + LARGE / 2);
    memset(steps, 0, ROOM * sizeof *steps);
    lt_begin(call, from, steps, answer);
    w2c_lockreplay_lt_check_0(&call->instance, lt_lent(call, from), length, lt_lent(call, steps),
                              ROOM, lt_lent(call, answer));
    if (!memcmp(steps, due, sizeof due) && !memcmp(answer, &due_answer, sizeof due_answer)) return;
    printf("%s\n", what);
    failed = 1;
}

int main(void)
{
    static struct lt_step steps[ROOM];
    struct lt_answer answer;
    size_t length = fread(text, 1, sizeof text, stdin);
    uint8_t *zero = ((lt_call *)(around + LARGE / 2))->room + LT_STACK - LT_DATA_AT;
    lt_check(text, length, due, ROOM, &due_answer);
    for (size_t before = 0; before <= length; before++) {
        memcpy(zero - before, text, length);
        check_at(zero - before, length, steps, &answer, "the text");
    }
    for (size_t before = 0; before <= sizeof due; before += 8)
        check_at(text, length, (struct lt_step *)(zero - before), &answer, "the records");
    for (size_t before = 0; before <= sizeof answer; before += 8)
        check_at(text, length, steps, (struct lt_answer *)(zero - before), "the answer");
    return failed;
}
