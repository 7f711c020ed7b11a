#!/usr/bin/env python3
"""A second replayer of lock schedules, plain and slow, written for checking alone.

    oracle.py replay < SCHEDULE
    oracle.py batch --workers N FILE...

It takes the command lines of `lockreplay` and must print the same bytes and end with the same
status (0: every move accepted, 1: some report ends with a refusal or a fault).

It follows the published algorithms, and works in another way than the program on purpose. The
program's machines have a phase for each place in a call, a table of steps by phase, and a history
from which holders and queue follow. Here a call is the code that the books print, as a generator
that stops before each atomic step (locks/), and the outcomes of calls update holders and queue
(machine.py). So a result on which both agree was found in two ways.

Sources: ticket lock and MCS lock, Mellor-Crummey and Scott, ACM TOCS 9(1), 1991; read-write locks
after Herlihy and Shavit, The Art of Multiprocessor Programming, chapter 8. The texts of schedules
and reports, the limits and the refusals are this project's own.
"""
import re
import sys
from functools import lru_cache

from locks import LOCKS
from locks.lock import CALLS, STEPS
from machine import Machine

MOST_BYTES = 1_048_576
MOST_MOVES = 65_536
MOST_THREADS = 64
WORDS = CALLS | STEPS
LONGEST_MOVE = len("255 ") + max(map(len, WORDS))


class Fault(Exception):
    """The reason why a text is no schedule."""


def decimal(word, least, most):
    """The number that the word spells without leading zeros, or None."""
    if not re.fullmatch(rb"0|[1-9][0-9]{0,2}", word):
        return None
    return int(word) if least <= int(word) <= most else None


def header_of(line, number):
    words = line.split(b" ")
    if len(words) not in (4, 6) or words[0] != b"lock" or words[2] != b"threads":
        raise Fault(f"line {number} BadHeader")
    name = words[1].decode("latin-1")
    bits = 64
    if len(words) == 6:
        bits = decimal(words[5], 2, 64) if words[4] == b"bits" else None
    if name not in LOCKS or bits is None:
        raise Fault(f"line {number} BadHeader")
    threads = decimal(words[3], 1, MOST_THREADS)
    if threads is None:
        raise Fault(f"line {number} BadThreads")
    if not threads < 2 ** bits:
        raise Fault(f"line {number} WordsTooNarrow")
    return name, threads, bits


@lru_cache(maxsize=20_000)
def move_of(line):
    """The thread and the word of a move, or None. Cached, since schedules repeat a few lines."""
    words = line.split(b" ")
    thread = decimal(words[0], 0, 255)
    word = words[-1].decode("latin-1")
    return (thread, word) if len(words) == 2 and thread is not None and word in WORDS else None


def read_schedule(text):
    """The lock's name, the threads, the bits of a word, and the moves as (line, thread, word)."""
    if len(text) > MOST_BYTES:
        raise Fault("TooLong")
    lines = text.split(b"\n")
    if lines[-1] == b"":
        lines.pop()
    told = [(number, line) for number, line in enumerate(lines, 1) if line and line[:1] != b"#"]
    if not told:
        raise Fault(f"line {len(lines) + 1} NoHeader")
    header = header_of(told[0][1], told[0][0])
    moves = []
    for number, line in told[1:]:
        move = move_of(line) if len(line) <= LONGEST_MOVE else None
        if move is None:
            raise Fault(f"line {number} BadLine")
        if len(moves) == MOST_MOVES:
            raise Fault(f"line {number} TooManyMoves")
        moves.append((number, *move))
    return *header, moves


def report_of(text):
    try:
        name, threads, bits, moves = read_schedule(text)
    except Fault as fault:
        return f"fault {fault}\n".encode()
    machine = Machine(name, threads, bits)
    report = []
    for number, thread, word in moves:
        refusal = machine.refusal(thread, word)
        if refusal:
            report.append(f"refused line {number} {refusal}\n")
            break
        outcome = machine.play(thread, word)
        report.append(f"{len(report) + 1} {thread} {word} {outcome} {machine.state()}\n")
    else:
        report.append(f"end {len(report)}\n")
    return "".join(report).encode()


def is_accepted(report):
    return report.splitlines()[-1].startswith(b"end ")


def batch_of(reports):
    return b"".join(b"file %d\n" % k + report for k, report in enumerate(reports, 1))


def main(words):
    if words == ["replay"]:
        reports = [report_of(sys.stdin.buffer.read())]
        sys.stdout.buffer.write(reports[0])
    elif words[:2] == ["batch", "--workers"] and len(words) > 3:
        reports = []
        for name in words[3:]:
            with open(name, "rb") as file:
                reports.append(report_of(file.read()))
        sys.stdout.buffer.write(batch_of(reports))
    else:
        sys.exit(__doc__)
    return 0 if all(map(is_accepted, reports)) else 1


if __name__ == "__main__":
    sys.exit(main(sys.argv[1:]))
