"""A lock as the oracle knows it: its name, its words, its calls and steps."""
from typing import NamedTuple


class Holding(NamedTuple):
    sign: str  # how a report marks such a holder
    ended_by: tuple  # the calls that give the lock back


# How a thread holds the lock after each of these calls.
HOLDING = {
    "acquire": Holding("", ("release",)),
    "rlock": Holding("r", ("runlock",)),
    "wlock": Holding("w", ("wunlock", "downgrade")),
    "downgrade": Holding("r", ("runlock",)),
}
GIVING_BACK = {call for holding in HOLDING.values() for call in holding.ended_by}
TAKING = HOLDING.keys() - GIVING_BACK
CALLS = TAKING | GIVING_BACK
STEPS = {"read", "write", "swap", "cas", "add", "section"}


class Lock:
    """`calls` are generators, one for the code of each call; `steps` are the kinds of their steps.
    `words` names the words of the lock, and `record` the words that each thread has. In a queue
    lock the holder is the head of the queue; in other locks a thread leaves the queue to enter.

    `phases` names the phases of each call as docs/LOCKS.md does, in the order of its code; a call
    that enters ends with the phase inside. `kept` has the phases that keep an answer, each with the
    answer's index among those of the call's steps; in those of `recalled` a thread still knows what
    the phase before kept. `changes` has changed steps, which no paper has, in the order of the
    code: a step, and how it changes (a key of HOWS in changed_locks.py)."""

    def __init__(self, name, calls, steps, words, *, phases, changes, kept=(), recalled=(),
                 record=(), is_holder_in_line=False):
        self.name, self.steps, self.words, self.record = name, steps, words, record
        self.calls = {call.__name__: call for call in calls}
        self.taking = tuple(call for call in self.calls if call in TAKING)
        self.is_holder_in_line = is_holder_in_line
        self.phases, self.changes = phases, changes
        self.kept, self.recalled = dict(kept), recalled

    def all_words(self, threads):
        return [*self.words, *((word, t) for t in range(threads) for word in self.record)]
