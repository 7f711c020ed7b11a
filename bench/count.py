#!/usr/bin/env python3
"""Counts the states and transitions of spaces of schedules with SPIN, by the models in bench/spin.

    count.py                               each space of tests/rows/spaces.txt
    count.py LOCK THREADS ROUNDS [BITS]    one space, which need not be there; words of 64 bits.
                                           ROUNDS is a number, or any

It prints the states, the transitions, the depth, which is the longest of the shortest runs, and the
seconds of the search. If tests/rows/spaces.txt has a space, its numbers have to agree. The
last line counts these; the status is 1 if one failed. pan.py says how SPIN is told to count all.
"""
import pathlib
import subprocess
import sys
import tempfile
import time

import pan

sys.path.append(str(pathlib.Path(__file__).resolve().parents[1] / "tests" / "oracle"))
import search_rows


def counted(space):
    """The counts of a space, and the seconds of the search."""
    with tempfile.TemporaryDirectory() as folder:
        program = pan.build(space, folder, "-DBFS")
        began = time.perf_counter()
        output = subprocess.run(pan.command(program), cwd=folder, capture_output=True, text=True,
                                check=True).stdout
        took = time.perf_counter() - began
    return search_rows.Counts(*pan.figures(output)), took


def main(words):
    passed = failed = 0
    due = {space: counts for space, counts, _ in search_rows.spaces()}
    chosen = [search_rows.space(" ".join([*words, "64"][:4]))] if words else due
    print(f"{'space':40}{'states':>10}{'transitions':>13}{'depth':>7}{'seconds':>9}")
    for space in chosen:
        counts, took = counted(space)
        cells = f"{counts.states:10}{counts.transitions:13}{counts.depth:7}{took:9.2f}"
        print(f"{str(space):40}{cells}", flush=True)
        if space in due and counts != due[space]:
            print(f"FAILED {space}: due are {due[space]}")
            failed += 1
        passed += counts == due.get(space)
    print(f"{passed} passed, {failed} failed")
    return 1 if failed else 0


if __name__ == "__main__":
    if len(sys.argv) not in (1, 4, 5):
        sys.exit(__doc__)
    sys.exit(main(sys.argv[1:]))
