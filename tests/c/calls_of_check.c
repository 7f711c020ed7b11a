/* Calls the check on a trace that it accepts, a trace that it refuses, and texts that are no traces,
   and names what the answers have. Ends with status 0 if all is as worked out by hand. */
#include <stdio.h>
#include <string.h>

#include "../../built/locktrace.h"

#if LT_VERSION_NUMBER < 20000
#error "the version cannot be tested by #if"
#endif

static int failed;

static void expect(int holds, const char *what)
{
    if (holds) return;
    failed = 1;
    printf("FAILED %s\n", what);
}

static const char late_link[] = "lock mcs threads 2\n"
                                "0 acquire\n0 write next left 0\n0 swap tail found 0 left 1\n"
                                "1 acquire\n1 write next left 0\n1 swap tail found 1\n"
                                "0 release\n0 read next found 0\n0 cas tail failed\n";

static uint32_t fault_of(const char *text)
{
    struct lt_run run;
    return lt_open(&run, text, strlen(text), NULL, 0);
}

static int is_word(const char *lock, uint32_t word, const char *name, uint32_t owner)
{
    uint32_t found = 77;
    return !strcmp(lt_word_text(lt_lock_of(lock), word, &found), name) && found == owner;
}

static void expect_names(void)
{
    expect(!strcmp(lt_move_text(LT_DOWNGRADE), "downgrade"), "the word of a call");
    expect(!strcmp(lt_move_text(LT_CAS), "cas"), "the word of a step");
    expect(!*lt_move_text(7) && !*lt_move_text(22), "no word of no action");
    expect(!strcmp(lt_outcome_text(LT_LEFT), "left") && !*lt_outcome_text(5), "an outcome");
    expect(is_word("ticket", 1, "now_serving", LT_NO_WORD), "a word of the ticket lock");
    expect(is_word("ticket", 2, "", LT_NO_WORD), "the ticket lock has two words");
    expect(is_word("mcs", 0, "tail", LT_NO_WORD), "the tail");
    expect(is_word("mcs", 7, "next", 3) && is_word("mcs", 8, "locked", 3), "a record's words");
    expect(is_word("mcs", LT_NO_WORD, "", LT_NO_WORD), "no word");
    expect(is_word("rw-fifo", 0, "", LT_NO_WORD), "no word of a monitor");
    expect(!lt_lock_of("clh") && !lt_lock_of(NULL), "no such lock");
}

int main(void)
{
    struct lt_step steps[16], step;
    struct lt_run run;
    uint8_t text[64];
    int moves = 0;

    expect(lt_open(&run, late_link, strlen(late_link), steps, 16) == LT_ACCEPTED, "accepted");
    while (lt_next(&run, &step)) {
        moves++;
        if (moves == 3) {
            expect(step.action == LT_SWAP && step.outcome == LT_ENTERED, "the swap enters");
            expect(step.word == 0 && step.found == 0 && step.left == 1, "the tail from 0 to 1");
        }
        if (moves == 9) {
            expect(step.action == LT_CAS, "a compare-and-swap");
            expect(step.found == 2 && step.left == 2, "the tail stays 2");
        }
    }
    expect(moves == 9 && run.answer.moves == 9, "nine moves");
    expect(run.answer.threads == 2, "two threads");

    expect(fault_of("lock ticket threads 1\n0 add\n") == LT_NO_CALL, "no call");
    expect(fault_of("lock mcs threads 1\n0 acquire\n0 write next\n0 swap tail found 1\n") ==
               LT_FOUND_OTHER,
           "found another");
    expect(fault_of("lock mcs threads 1\n0 acquire\n0 write locked left 0\n") == LT_OTHER_WORD,
           "another word");
    expect(fault_of("# nothing\n") == LT_NO_HEADER, "no header");
    expect(fault_of("lock ticket threads 1\n0 add \n") == LT_BAD_LINE, "a bad line");

    expect_names();
    size_t length = lt_fault_text(LT_BUSY, text, sizeof text);
    expect(length < sizeof text && !memcmp(text, "Busy: ", 6), "the text of a fault");
    expect(lt_fault_text(LT_BUSY, text, 0) == length, "the length of a text without room");
    return failed;
}
