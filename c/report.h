/* The report of a text, by the module's `report`, and how it ends. */

typedef struct lt_text {
    uint8_t *bytes;
    size_t size;
} lt_text;

/* Makes the report of a text, in memory of its own. Returns 0 if memory is refused. A line of a
   report has at most 211 bytes more than its move, and no move has less than 7 bytes but an `add` or
   `cas`, before which comes a call of 10 bytes. So a report has less than 32 bytes for each one of
   its text; room that it does not use costs nothing. */
static int lt_report(const lt_text *text, lt_text *report)
{
    size_t room = 32 * text->size + 4096;
    lt_call call;
    report->bytes = malloc(room);
    if (!report->bytes) return 0;
    lt_begin(&call, text->bytes, report->bytes, NULL);
    report->size = w2c_lockreplay_report_0(&call.instance, lt_lent(&call, text->bytes), text->size,
                                           0, lt_lent(&call, report->bytes), room);
    if (report->size > room) abort();
    report->bytes = realloc(report->bytes, report->size);
    return report->bytes != NULL;
}

/* Whether the last line of a report says that all moves were accepted. */
static int lt_is_accepted(const lt_text *report)
{
    size_t last = report->size - 1;
    while (last && report->bytes[last - 1] != '\n') last--;
    return report->size - last > 4 && !memcmp(report->bytes + last, "end ", 4);
}
