"""The MCS lock, after Mellor-Crummey and Scott, ACM TOCS 9(1), 1991, section 2.4, with the release
that uses compare-and-swap.

Different here: each thread has one record, which it uses again. A pointer to thread i's record is
the number i + 1, and 0 is nil.
"""
from locks.lock import Lock
from locks.steps import cas, in_line, poll, read, swap, write

NIL = 0


def record(thread):
    return thread + 1


def owner(pointer):
    return pointer - 1


def acquire(me):
    yield write(("next", me), NIL)
    before = yield in_line(swap("tail", record(me)))
    if before != NIL:
        yield write(("locked", me), 1)
        yield write(("next", owner(before)), record(me))
        yield poll(("locked", me), lambda locked: not locked)


def release(me):
    after = yield read(("next", me))
    if after == NIL:
        if (yield cas("tail", record(me), NIL)):
            return
        after = yield poll(("next", me), lambda linked: linked != NIL)
    yield write(("locked", owner(after)), 0)


PHASES = {"acquire": ["ClearNext", "SwapTail", "SetLocked", "LinkTo", "AwaitGrant", "McsInside"],
          "release": ["ReadNext", "CasTail", "AwaitLink", "Grant"]}
CHANGES = [
    "ClearNext, if its write is left out",
    "ClearNext, if the step after it comes first",
    "SwapTail, if its write is left out",
    "SwapTail, if it is a load and then a store",
    "SetLocked, if its write is left out",
    "SetLocked, if the step after it comes first",
    "LinkTo, if its write is left out",
    "AwaitGrant, if it finds 0, whatever is there",
    "ReadNext, if it finds 0, whatever is there",
    "CasTail, if its write is left out",
    "CasTail, if it is a load and then a store",
    "CasTail, if it finds the thread's own, whatever is there",
    "CasTail, if it finds 0, whatever is there",
    "AwaitLink, if the release returns in its place",
    "Grant, if its write is left out",
]
LOCK = Lock("mcs", (acquire, release), {"read", "write", "swap", "cas"},
            words=("tail",), record=("next", "locked"), is_holder_in_line=True,
            phases=PHASES, kept={"SetLocked": 1, "LinkTo": 1, "Grant": -1}, changes=CHANGES)
