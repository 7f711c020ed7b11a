/* Makes the report of the text on standard input in pieces of each size: they have to be parts of
   the whole, nothing may be written after them, and each call has to say how much is left, or that
   it is more than there was room for. */
#define main lockreplay_main
#include "../../built/lockreplay.c"
#undef main

enum { ROOM = 1 << 16 };

static uint8_t input[ROOM], piece[ROOM];

/* Whether a call that skips some bytes answers as it has to, with this room. */
static int is_right(const lt_text *text, const lt_text *whole, size_t skip, size_t room)
{
    size_t rest = skip < whole->size ? whole->size - skip : 0, some = rest < room ? rest : room;
    lt_call call;
    memset(piece, 0xA5, room + 1);
    lt_begin(&call, text->bytes, piece, NULL);
    u64 said = w2c_lockreplay_report_0(&call.instance, lt_lent(&call, text->bytes), text->size,
                                       skip, lt_lent(&call, piece), room);
    if (said != (rest < room + 1 ? rest : room + 1)) return 0;
    if (some && memcmp(piece, whole->bytes + skip, some)) return 0;
    for (size_t k = some; k <= room; k++)
        if (piece[k] != 0xA5) return 0;
    return 1;
}

int main(void)
{
    lt_text text = {input, fread(input, 1, sizeof input, stdin)}, whole;
    if (!lt_report(&text, &whole)) return 3;
    for (size_t skip = 0; skip <= whole.size + 2; skip++)
        for (size_t room = 0; room <= 70; room++)
            if (!is_right(&text, &whole, skip, room)) {
                printf("skip %zu, room %zu\n", skip, room);
                return 1;
            }
    return 0;
}
