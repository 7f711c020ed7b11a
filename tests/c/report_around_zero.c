/* Makes the report of the text on standard input, with the text and the report at each place around
   the address 0 of a call, where its numbers wrap: it has to be the report of other places. */
#define main lockreplay_main
#include "../../built/lockreplay.c"
#undef main

enum { LARGE = 1 << 24, ROOM = 1 << 16 };

static uint8_t around[LARGE], input[ROOM], made[ROOM];
static int failed;

static void report_at(const uint8_t *from, size_t size, uint8_t *to, const lt_text *due,
                      const char *what)
{
    lt_call *call = (lt_call *)(around + LARGE / 2);
    memset(to, 0, due->size);
    lt_begin(call, from, to, NULL);
    u64 length = w2c_lockreplay_report_0(&call->instance, lt_lent(call, from), size, 0,
                                         lt_lent(call, to), due->size);
    if (length == due->size && !memcmp(to, due->bytes, due->size)) return;
    printf("%s\n", what);
    failed = 1;
}

int main(void)
{
    lt_text text = {input, fread(input, 1, sizeof input, stdin)}, due;
    uint8_t *zero = ((lt_call *)(around + LARGE / 2))->room + LT_STACK - LT_DATA_AT;
    if (!lt_report(&text, &due)) return 3;
    for (size_t before = 0; before <= text.size; before++) {
        memcpy(zero - before, input, text.size);
        report_at(zero - before, text.size, made, &due, "the text");
    }
    for (size_t before = 0; before <= due.size; before++)
        report_at(input, text.size, zero - before, &due, "the report");
    return failed;
}
