"""The code that both read-write locks share, after Herlihy and Shavit, The Art of Multiprocessor
Programming, chapter 8: a monitor's flag, which is set while a writer is inside or announced.

Different here: a thread waits for the flag before it counts itself or sets the flag. `downgrade`,
by which a writer becomes a reader in one section, is this project's own.
"""
from locks.steps import section

PHASES = {
    "rlock": ["TryRead", "Reading"], "runlock": ["LeaveRead"],
    "wlock": ["TryWrite", "AwaitReaders", "Writing"], "wunlock": ["LeaveWrite"],
    "downgrade": ["TryDowngrade", "Reading"],
}
# The changes before and after those that only one of the locks has.
ENTRIES = [
    "TryRead, if it does not look at the flag",
    "TryRead, if its write is left out",
    "LeaveRead, if its write is left out",
    "TryWrite, if it does not look at the flag",
    "TryWrite, if it does not look at the readers",
    "TryWrite, if its write is left out",
]
ENDS = [
    "LeaveWrite, if its write is left out",
    "TryDowngrade, if the counts are not written",
    "TryDowngrade, if the flag is not written",
]


def has_no_writer(words):
    return not words["flag"]


def clear_flag(words):
    words.put("flag", 0)


def calls(count_in, count_out, wlock):
    """The calls of a lock that counts readers in and out, and lets writers enter, in this way."""
    def rlock(me):
        yield section(count_in, when=has_no_writer)

    def runlock(me):
        yield section(count_out)

    def wunlock(me):
        yield section(clear_flag)

    def become_reader(words):
        count_in(words)
        clear_flag(words)

    def downgrade(me):
        yield section(become_reader)

    return rlock, runlock, wlock, wunlock, downgrade
