"""Reads the tables of searches: spaces.txt, kinds.txt, sketches.txt and endless.txt of tests/rows.
The head of each table describes its format.
"""
from pathlib import Path
from typing import NamedTuple

ANY = "any"  # rounds without a bound
ROWS = Path(__file__).resolve().parents[1] / "rows"


class Space(NamedTuple):
    lock: str
    threads: int
    rounds: int | str  # a number, or ANY
    bits: int

    def __str__(self):
        return f"{self.lock} threads {self.threads} rounds {self.rounds} bits {self.bits}"


class Counts(NamedTuple):
    states: int
    transitions: int
    depth: int  # the length of a shortest run to the farthest state


class Sketch(NamedTuple):
    space: Space
    lines: list
    length: int  # None if no run has the lines
    states: int  # None if a run has the lines
    run: list  # (thread, word) of each move of a shortest run

    def __str__(self):
        return f"{self.space}: {'; '.join(self.lines)}"

    @property
    def measure(self):
        """The answer of `measured` that is due for a shortest run."""
        occur = sum(not line.startswith("not ") for line in self.lines)
        return self.length, self.length, occur, self.length


def rows(name):
    """The parts of each row. A line that begins with two spaces continues the row above it."""
    text = (ROWS / f"{name}.txt").read_text().replace("\n  ", " | ")
    for line in text.splitlines():
        if line and not line.startswith("//"):
            yield line.split(" | ")


def space(written):
    lock, threads, rounds, bits = written.split()
    return Space(lock, int(threads), rounds if rounds == ANY else int(rounds), int(bits))


def run(written):
    """The moves of a run: a table writes a thread once before the moves that it makes in a row."""
    for part in written.split("; "):
        thread, *words = part.split()
        yield from ((int(thread), word) for word in words)


def spaces():
    """Each space with its counts, and how many kinds of transition it has."""
    for written, counts in rows("spaces"):
        *numbers, kinds = map(int, counts.split())
        yield space(written), Counts(*numbers), kinds


def kinds(lock):
    """The kinds of a lock's transitions, each with the length of a shortest run that takes it."""
    return {tuple(kind.split()): int(length) for name, kind, _, length, *_ in rows("kinds")
            if name == lock}


def sketches():
    for written, lines, end, *runs in rows("sketches"):
        nowhere, number = end.startswith("nowhere "), int(end.split()[-1])
        if bool(runs) == nowhere:
            raise ValueError(f"{written} | {lines}: a run, or `nowhere`")
        length, states = (None, number) if nowhere else (number, None)
        yield Sketch(space(written), lines.split("; "), length, states,
                     [move for written in runs for move in run(written)])


class Endless(NamedTuple):
    space: Space
    lines: list
    length: int  # None if no run goes on so

    def __str__(self):
        return f"{self.space}: {'; '.join(self.lines)}"


def endless():
    for written, lines, end in rows("endless"):
        yield Endless(space(written), lines.split("; "), None if end == "never" else int(end))


def names():
    """A map from each lock to the names of its kinds of transition."""
    named = {}
    for lock, kind, name, *_ in rows("kinds"):
        named.setdefault(lock, {})[tuple(kind.split())] = name
    return named


def moves_of(schedule):
    """The moves of a schedule's text: (thread, word)."""
    lines = [line for line in schedule.splitlines() if line and not line.startswith("#")]
    return [(int(thread), word) for thread, word in map(str.split, lines[1:])]
