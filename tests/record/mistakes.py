"""The mutants of the recorders' suite: where each mistake shows, and how often.

`git apply` takes the patch of a mistake, mistakes/RECORDER/EXAMPLE/NAME.patch. The mistake shows in
the trace of a seeded run, at a line that a function of signs.py finds, or the run hangs.
"""
from pathlib import Path
from typing import Callable, NamedTuple

import signs

PATCHES = Path(__file__).with_name("mistakes")
EACH = range(50, 51)


class Mistake(NamedTuple):
    recorder: str
    example: str
    name: str
    sign: Callable  # None if the run hangs
    shown: range  # in how many of the 50 seeded runs it shows
    explored: int  # how many preemptions show it in 3 threads with a round each. None: only a
    #                wrap of counters shows it, or nobody tried it
    followed: bool  # whether a tour notices it. A tour does not if only a wrap of counters shows
    #                 it, or if the mistake is in signals or inside an operation

    def __str__(self):
        return f"{self.recorder}-{self.example}-{self.name}"

    @property
    def patch(self):
        return PATCHES / self.recorder / self.example / f"{self.name}.patch"


MOST = range(40, 51)
IN_C = [Mistake("c", *of) for of in (
    ("ticket", "less-than", signs.enters_at_another_ticket, MOST, None, False),
    ("ticket", "serves-the-next-ticket", signs.serves_another_ticket(4), MOST, None, True),
    ("mcs", "link-before-locked", signs.links_unlocked, MOST, None, True),
    ("mcs", "grant-to-the-last", signs.grants_to_another, MOST, None, True),
    ("rw_simple", "ignores-readers", signs.writes_beside_another, MOST, None, True),
    ("rw_fifo", "passes-announced-writer", signs.passes_a_writer, MOST, None, True),
)]
# A reader that wakes nobody rarely shows: a spurious wakeup hides it, and so does the unlock of
# another writer, which wakes all.
IN_RUST = [Mistake("rust", *of) for of in (
    ("ticket", "waits-while-less", signs.enters_at_another_ticket, EACH, None, False),
    ("ticket", "serves-the-next-ticket", signs.serves_another_ticket(8), EACH, 1, True),
    ("ticket", "masks-its-ticket", signs.polls_again, EACH, None, False),
    ("ticket", "adds-in-two-steps", signs.makes("read", "next_ticket"), EACH, 0, True),
    ("ticket", "notes-two-steps-as-an-add", signs.loses_a_write("next_ticket"), EACH, 1, False),
    ("mcs", "links-before-locked", signs.links_unlocked, EACH, 1, True),
    ("mcs", "grants-to-the-last", signs.grants_to_another, EACH, 1, True),
    ("mcs", "swaps-in-two-steps", signs.makes("read", "tail"), EACH, 0, True),
    ("mcs", "releases-without-comparing", signs.makes("write", "tail"), EACH, 0, True),
    ("mcs", "keeps-its-next", signs.clears_nothing, EACH, 0, True),
    ("rw_simple", "writes-beside-readers", signs.writes_beside_another, EACH, 1, True),
    ("rw_simple", "waits-once", signs.writes_beside_another, EACH, 1, True),
    ("rw_simple", "tells-nobody", None, range(7, 8), 1, False),
    ("rw_fifo", "passes-a-writer", signs.passes_a_writer, EACH, 1, True),
    ("rw_fifo", "reader-does-not-wait", signs.reads_beside_a_writer, EACH, 1, True),
    ("rw_fifo", "wakes-one", None, EACH, 1, False),
)]
