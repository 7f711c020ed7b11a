"""Random runs of the locks for tests of traces and logs, made by the oracle's machine.

A run's moves are pairs of a thread and the line of its log. A log leaves out each poll that finds
what the last poll found.
"""
from itertools import islice
from typing import NamedTuple

from locks import LOCKS
from machine import Machine


class Run(NamedTuple):
    lock: str
    threads: int
    bits: int
    moves: list = ()

    @property
    def header(self):
        width = "" if self.bits == 64 else f" bits {self.bits}"
        return f"lock {self.lock} threads {self.threads}{width}"

    @property
    def places(self):
        """How many values a word has."""
        return 1 << self.bits

    def machine(self):
        """The lock at the start of the run."""
        return Machine(self.lock, self.threads, self.bits)


def line_of(machine, thread, count):
    """Makes the step that is due, and returns its line. `count` is the count of a section."""
    made = machine.make(thread)
    if made.kind == "section":
        return f"section {count} {made.outcome}"
    name, owner = made.word if isinstance(made.word, tuple) else (made.word, thread)
    place = name if owner == thread else f"{name} of {owner}"
    if made.kind == "cas":
        return f"cas {place} {'failed' if made.found == made.left else 'done'}"
    value = f"left {made.left}" if made.kind == "write" else f"found {made.found}"
    return f"{made.kind} {place} {value}"


def is_in_vain(line, last):
    """Whether a poll found what the thread's last move, the same poll, found."""
    return line == last and line.startswith("read") or \
        line.endswith("waits") and last.endswith("waits")


def turns(dice, threads):
    """Yields, without end, whose turn it is and whether the thread may take the lock then. Some
    threads are slow. In some runs a thread makes several moves in a row, or rests before it takes
    the lock again. So the queue never empties in some runs, and empties often in others."""
    pace = [dice.choice([1, 4, 20]) for _ in range(threads)]
    longest, rest = dice.choice([1, 1, 4, 12]), dice.choice([0, 0, 0.7, 0.95])
    while True:
        for thread in dice.choices(range(threads), pace) * dice.randint(1, longest):
            yield thread, dice.random() >= rest


def random_run(dice, most_threads=4, most_turns=120):
    name, threads = dice.choice(list(LOCKS)), dice.randint(1, most_threads)
    bits = dice.choice([bits for bits in (2, 3, 4, 64) if threads < 1 << bits])
    run = Run(name, threads, bits, [])
    machine, last, sections = run.machine(), [""] * threads, 0
    for thread, may_take in islice(turns(dice, threads), dice.randint(4, most_turns)):
        if machine.due[thread]:
            line = line_of(machine, thread, sections + 1)
            if is_in_vain(line, last[thread]):
                continue
            sections += line.startswith("section")
        elif not may_take and thread not in machine.held:
            continue
        else:
            line = dice.choice(machine.calls(thread))
            machine.play(thread, line)
        last[thread] = line
        run.moves.append((thread, line))
    return run


def has_value(line):
    return any(word.isdigit() for word in line.split(" "))


def changed_value(dice, line, sums, values):
    """Adds one of the `sums` to one of the numbers in a line, modulo `values`."""
    words = line.split(" ")
    at = dice.choice([i for i, word in enumerate(words) if word.isdigit()])
    words[at] = str((int(words[at]) + dice.choice(sums)) % values)
    return " ".join(words)
