"""Functions of the recorder in C, called with values: tables, for which no thread has to run.

Each row is the BODY of calls.c, which has a run of two threads, and what it prints.
"""
import pytest

from recorders import HERE
from tree import answer, cases

pytestmark = pytest.mark.slow

READ = "lr_move one = {{{value}, LR_STEP_read}}, other = {{0, LR_STEP_read}}; "
HEADER = ('char lock[16]; unsigned threads, bits; '
          'printf("%d", lr_read_header("{}", lock, &threads, &bits));')
RECORDS = ("for (int t = 0; t < 2; t++) { run->logs[t].record.first = (uintptr_t)&woken; "
           "run->logs[t].record.length = sizeof woken; }")
WAITERS = ("run = lr_open(\"rw-fifo\", 4, 64, 9, 1, NULL); lr_self = &run->logs[0]; "
           "run->parked = 14; "
           "for (int t = 0; t < 4; t++) { run->logs[t].turn.awaits = &condition; } "
           "run->logs[2].turn.awaits = &woken; ")
END = "puts(lr_end_of(run, &run->logs[0]));"
TABLE = {
    "the same value": ("SEED", READ.format(value=0) + 'printf("%d", lr_is_same(one, &other));',
                       "1"),
    **{f"byte {byte} of a value": (
        "SEED", READ.format(value=f"UINT64_C(1) << {8 * byte}")
        + 'printf("%d", lr_is_same(one, &other));', "0") for byte in range(8)},
    **{f"header '{text}'": ("FOLLOW", HEADER.format(text), due) for text, due in (
        ("lock mcs threads 2", "1"), ("lock mcs threads 2 bits 8", "1"),
        ("lock mcs threads 2 bits 8 x", "0"), ("lock mcs threads 2 bits 8 8", "0"),
        ("lock mcs threads 2 x", "0"), ("lock mcs threads 2 bits", "0"),
        ("lock mcs threads", "0"), ("lock mcs thread 2", "0"))},
    **{f"own record of {thread}": (
        "VALUES", RECORDS + f'printf("%u", lr_thread_at(&run->logs[{thread}], '
        '(uintptr_t)&woken));', str(thread)) for thread in range(2)},
    "a record's end": ("VALUES", RECORDS + 'printf("%u", lr_thread_at(&run->logs[0], '
                       '(uintptr_t)(&woken + 1)));', "255"),
    "broadcast": ("SEED", WAITERS + "LR_BROADCAST(&condition, (void)0); "
                  'printf("%d", (int)run->parked);', "4"),
    "broadcast of another condition": ("SEED", WAITERS + "LR_BROADCAST(&woken, (void)0); "
                                       'printf("%d", (int)run->parked);', "10"),
    "signal of another condition": ("SEED", WAITERS + "LR_SIGNAL(&woken, (void)0); "
                                    'printf("%d", (int)run->parked);', "10"),
    **{f"end of {fields}": (mode, "".join(f"run->{field} = 1; " for field in fields.split()) + END,
                            f"{due}\n")
       for mode, fields, due in (
           ("VALUES", "", "has not ended"), ("SEED", "", "was stopped"),
           ("SEED", "hangs", "has not ended"), ("SEED", "hangs is_cut", "was stopped"),
           ("VALUES", "is_cut", "was stopped"), ("VALUES", "is_crashed", "was stopped"),
           ("VALUES", "logs[0].dropped", "was stopped"), ("VALUES", "logs[1].dropped",
                                                          "has not ended"),
           ("SEED", "hangs is_cut logs[0].ended", "has ended"))},
}


@cases("mode, body, due", TABLE)
def test_function(built, mode, body, due):
    program = built(HERE / "calls.c", mode, "-O1", "-Wno-unused", f"-DBODY={body}")
    assert answer(program) == (due, "", 0)
