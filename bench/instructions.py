#!/usr/bin/env python3
"""Counts the instructions that a move takes: instructions.py PROGRAM [KIND]...

For each kind of bench/generate.py it counts those of `PROGRAM replay`, of the replayer of
handwritten.c, and of what `cc -O2` makes of built/lockreplay.c, by `valgrind --tool=callgrind`. It
takes off those of a schedule without a move, and divides by the moves. Other work of the machine
changes nothing, so this shows changes of the code that are too small for times. The status is 1 if
the program in C takes more than MOST times the instructions of the program.
"""
import pathlib
import re
import subprocess
import sys
import tempfile

import generate
from measuring import by_hand

MOVES, MOST = 4_000, 3
TOP = pathlib.Path(__file__).resolve().parents[1]


def instructions(program, kind):
    """Those of a whole run."""
    counting = ["valgrind", "--tool=callgrind", "--callgrind-out-file=/dev/null"]
    ran = subprocess.run([*counting, program, "replay"], input=generate.schedule_of(kind, MOVES),
                         capture_output=True, check=True)
    return int(re.search(rb"Collected : (\d+)", ran.stderr)[1])


def in_c(folder):
    """The program in C."""
    program = pathlib.Path(folder) / "in_c"
    subprocess.run(["cc", "-O2", "-pthread", TOP / "built" / "lockreplay.c", "-o", program],
                   check=True)
    return program


def main(program, kinds):
    is_well = True
    with tempfile.TemporaryDirectory() as folder:
        programs = [pathlib.Path(program).resolve(), by_hand(folder), in_c(folder)]
        starts = [instructions(one, "none") for one in programs]
        print(f"{'kind':15}{'program':>10}{'by hand':>10}{'ratio':>8}{'in C':>10}{'ratio':>8}")
        for kind in kinds or [kind for kind in generate.KINDS if kind != "none"]:
            own, hand, c = [(instructions(one, kind) - start) / MOVES
                            for one, start in zip(programs, starts)]
            print(f"{kind:15}{own:10.0f}{hand:10.0f}{own / hand:8.2f}{c:10.0f}{c / own:8.2f}",
                  flush=True)
            is_well = is_well and c <= MOST * own
    return 0 if is_well else 1


if __name__ == "__main__":
    if len(sys.argv) < 2 or not set(sys.argv[2:]) <= set(generate.KINDS):
        sys.exit(__doc__)
    sys.exit(main(sys.argv[1], sys.argv[2:]))
