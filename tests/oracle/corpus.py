"""The stored texts, which the fuzzer replays before any random text: the texts of corpus.txt, 64
readers of each read-write lock in the narrowest words, and the two of examples/limits.sh.
"""
from pathlib import Path

from locks import LOCKS
from worked_rows import lines_of, pieces_of, too_large

FAULTS = ["TooLong", "NoHeader", "BadHeader", "BadThreads", "WordsTooNarrow", "BadLine",
          "TooManyMoves"]
REFUSALS = ["NoSuchThread", "WrongLock", "Busy", "NotHolder", "AlreadyHolds", "NoCall"]
# Some text has a name with each of these fronts. A lock with one kind of step has no WrongStep.
DUE = [*(f"fault-{fault}" for fault in FAULTS),
       *(f"refused-{refusal}-{lock}" for refusal in REFUSALS for lock in LOCKS),
       *(f"refused-WrongStep-{lock}" for lock in LOCKS if len(LOCKS[lock].steps) > 1),
       *(f"end-{lock}" for lock in LOCKS)]


def stored():
    """A map from the name of each text to the text."""
    texts = {name: b"".join(piece * times for piece, times in pieces_of(text))
             for _, name, text in lines_of(Path(__file__).with_suffix(".txt"))}
    for lock in ("rw-simple", "rw-fifo"):
        texts[f"end-{lock}-64-readers"] = f"lock {lock} threads 64 bits 7\n".encode() + b"".join(
            b"%d rlock\n%d section\n" % (thread, thread) for thread in reversed(range(64)))
    return {**texts, "fault-TooLong": too_large("fault-too-long"),
            "fault-TooManyMoves": too_large("fault-too-many-moves")}


TEXTS = stored()


def is_named_rightly(name, report):
    """Whether a report ends as the text's name says: at the end, or with that fault or refusal."""
    kind, what = (name + "-").split("-")[:2]
    words = report.decode().splitlines()[-1].split(" ")
    return words[0] == kind and (kind == "end" or what in words)
