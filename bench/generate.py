#!/usr/bin/env python3
"""Writes a schedule of 65,536 moves, the most that a schedule may have: generate.py KIND

    contention       64 threads in one queue of a ticket lock: the longest report, about 14 MB
    mcs-contention   64 threads in one queue of an MCS lock, links that come late among them
    simple-readers   64 readers of a simple read-write lock that come and go
    fifo-readers     the same on a FIFO read-write lock
    spinning         two threads of a ticket lock, the second polls and fails
    mcs-spinning, simple-spinning, fifo-spinning   the same on the other locks
    alone            one thread of a ticket lock enters and leaves
    mcs-alone, simple-alone, fifo-alone   the same on the other locks
    alone-of-64      one thread of a ticket lock for 64 threads enters and leaves
    simple-crowd     64 readers of a simple read-write lock, one of which goes and comes back
    fifo-crowd       the same on a FIFO read-write lock
    none             a header and no move: what it costs to start

The same kind always gives the same text. tests/oracle/machine.py says which step is due.
"""
import pathlib
import random
import sys

sys.path.append(str(pathlib.Path(__file__).resolve().parents[1] / "tests" / "oracle"))
from machine import Machine

MOVES = 65_536


def next_move(machine, thread):
    """The step that is due, or the first call that gives back what is held, or that takes it."""
    return machine.due[thread] or machine.calls(thread)[0]


def contend(machine, chance):
    """A thread outside queues up at once. Else the oldest moves, or one that waits polls."""
    outside = list(range(machine.threads))
    while True:
        requests = machine.queue
        outside = [thread for thread in outside if thread not in requests]
        if outside:
            thread = outside[0]
        else:
            thread = requests[0] if chance.random() < 0.5 else chance.choice(requests)
        yield thread, next_move(machine, thread)
        if thread not in requests and thread not in outside:
            outside.append(thread)


def come_and_go(machine, chance):
    while True:
        thread = chance.randrange(machine.threads)
        yield thread, next_move(machine, thread)


def crowd(machine, chance):
    """All threads read, and one after another stops and begins again."""
    for thread in range(machine.threads):
        for _ in range(2):
            yield thread, next_move(machine, thread)
    while True:
        thread = chance.randrange(machine.threads)
        for _ in range(4):
            yield thread, next_move(machine, thread)


def spin(machine, chance):
    """Thread 0 holds, the second does what it can, and then polls and fails."""
    taking = machine.lock.taking[-1]  # of a read-write lock the writer's
    for thread in (0, 1):
        yield thread, taking
        while machine.due[thread]:
            yield thread, machine.due[thread]


def alone(machine, chance):
    while True:
        yield 0, next_move(machine, 0)


KINDS = {
    "contention": ("ticket", 64, contend),
    "mcs-contention": ("mcs", 64, contend),
    "simple-readers": ("rw-simple", 64, come_and_go),
    "fifo-readers": ("rw-fifo", 64, come_and_go),
    "spinning": ("ticket", 2, spin),
    "mcs-spinning": ("mcs", 2, spin),
    "simple-spinning": ("rw-simple", 2, spin),
    "fifo-spinning": ("rw-fifo", 2, spin),
    "alone": ("ticket", 1, alone),
    "mcs-alone": ("mcs", 1, alone),
    "simple-alone": ("rw-simple", 1, alone),
    "fifo-alone": ("rw-fifo", 1, alone),
    "alone-of-64": ("ticket", 64, alone),
    "simple-crowd": ("rw-simple", 64, crowd),
    "fifo-crowd": ("rw-fifo", 64, crowd),
    "none": ("ticket", 1, None),
}


def schedule_of(kind, moves=MOVES):
    name, threads, who = KINDS[kind]
    lines = [f"lock {name} threads {threads}\n"]
    machine = Machine(name, threads)
    walk = who(machine, random.Random(kind)) if who else iter(())
    for thread, word in walk:
        lines.append(f"{thread} {word}\n")
        machine.play(thread, word)
        if len(lines) > moves:
            break
    return "".join(lines).encode()


if __name__ == "__main__":
    if len(sys.argv) != 2 or sys.argv[1] not in KINDS:
        sys.exit(__doc__)
    sys.stdout.buffer.write(schedule_of(sys.argv[1]))
