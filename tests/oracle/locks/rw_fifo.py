"""The FIFO read-write lock, `FifoReadWriteLock` of Herlihy and Shavit; read_write.py has what
it shares with the simple lock.

Different here: the counts wrap. A writer that sets the flag while readers are inside is announced,
and is alone in the queue until it enters.
"""
from locks.lock import Lock
from locks.read_write import ENDS, ENTRIES, PHASES, calls, has_no_writer
from locks.steps import in_line, section


def count_in(words):
    words.put("readAcquires", words["readAcquires"] + 1)


def count_out(words):
    words.put("readReleases", words["readReleases"] + 1)


def has_no_reader(words):
    return words["readAcquires"] == words["readReleases"]


def set_flag(words):
    words.put("flag", 1)
    return has_no_reader(words)


def wlock(me):
    may_enter = yield in_line(section(set_flag, when=has_no_writer))
    if not may_enter:
        yield section(has_no_reader, when=has_no_reader)


OWN = [
    "TryWrite, if it writes nothing before it enters",
    "AwaitReaders, if it does not look at the readers",
]
LOCK = Lock("rw-fifo", calls(count_in, count_out, wlock), {"section"},
            words=("readAcquires", "readReleases", "flag"),
            phases=PHASES, changes=ENTRIES + OWN + ENDS)
