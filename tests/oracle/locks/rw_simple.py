"""The simple read-write lock, `SimpleReadWriteLock` of Herlihy and Shavit; read_write.py has
what it shares with the FIFO lock.

Different here: a writer waits while there are readers or the flag is set, and only then sets the
flag.
"""
from locks.lock import Lock
from locks.read_write import ENDS, ENTRIES, PHASES, calls, has_no_writer
from locks.steps import section


def count_in(words):
    words.put("readers", words["readers"] + 1)


def count_out(words):
    words.put("readers", words["readers"] - 1)


def is_free(words):
    return words["readers"] == 0 and has_no_writer(words)


def set_flag(words):
    words.put("flag", 1)


def wlock(me):
    yield section(set_flag, when=is_free)


LOCK = Lock("rw-simple", calls(count_in, count_out, wlock), {"section"},
            words=("readers", "flag"), phases=PHASES, changes=ENTRIES + ENDS)
