#!/usr/bin/env python3
"""How other tools notice the planted mistakes of the MCS lock: Relacy, and ThreadSanitizer.

    finders.py RELACY

RELACY is the folder with Relacy's headers, as /usr/include with Debian's relacy-dev. Each mistake
of tests/record/mistakes/c/mcs is planted in examples/recording/mcs.c, whose threads add one to a
plain counter while they have the lock.

Prints a row of a table for the right lock and for each mistake: what Relacy finds with three
threads of two rounds each, in which of 10,000 random runs, and how many lines it prints; and in how
many of RUNS runs GCC's ThreadSanitizer reports a data race of four threads with 100 rounds each.
Such a run may last SECONDS, since a wrong lock may hang.
"""
import re
import subprocess
import sys
import tempfile
from pathlib import Path

TOP = Path(__file__).resolve().parent.parent
sys.path += [str(TOP / "tests"), str(TOP / "tests" / "record")]
from mistakes import PATCHES  # noqa: E402
from recorders import copied  # noqa: E402
from tree import ran  # noqa: E402

RUNS, SECONDS = 3, 2
EXAMPLE = Path("examples", "recording", "mcs.c")


def compiled(*words):
    done = ran(*words)
    assert done.returncode == 0, done.stderr
    return words[words.index("-o") + 1]


def by_relacy(folder, headers):
    text = re.sub(r"#include .*\n|static void open_lock.*\n", "", (folder / EXAMPLE).read_text())
    (folder / "mcs.inc").write_text(re.sub(r"_Atomic (\w+)", r"_Atomic(\1)", text))
    program = compiled("g++", "-std=c++11", "-O1", "-w", "-I", headers, "-I", folder, "-x", "c++",
                       TOP / "bench" / "finders.h", "-o", folder / "relacy")
    said = ran(program).stdout
    what, iteration = re.search(r"found: (.*) in iteration (\d+)$", said, re.MULTILINE).groups()
    lines = len(said.splitlines()) - 1
    return "-" if what == "SUCCESS" else f"{what}, {iteration}, {lines}"


def has_race(program, folder):
    try:
        return "data race" in ran(program, 4, 100, 1, folder, timeout=SECONDS).stderr
    except subprocess.TimeoutExpired as error:
        return b"data race" in (error.stderr or b"")


def by_sanitizer(folder):
    driver = (TOP / EXAMPLE).with_name("driver.h").read_text()
    (folder / EXAMPLE).with_name("driver.h").write_text(driver.replace(
        "static void inside(", "static unsigned visits;\nstatic void inside(").replace(
        "    LR_SWITCH();\n", "    LR_SWITCH();\n    visits++;\n"))
    program = compiled("gcc", "-std=c11", "-O1", "-g", "-w", "-fsanitize=thread", "-pthread",
                       folder / EXAMPLE, "-o", folder / "races")
    return sum(has_race(program, folder) for _ in range(RUNS))


def main(headers):
    for patch in (None, *sorted((PATCHES / "c" / "mcs").glob("*.patch"))):
        with tempfile.TemporaryDirectory() as name:
            folder = Path(name)
            copied(folder, EXAMPLE.stem, patch and patch.stem)
            print(f"| `{patch.stem if patch else 'none'}` | {by_relacy(folder, headers)} | "
                  f"{by_sanitizer(folder)} |", flush=True)


if __name__ == "__main__":
    if len(sys.argv) != 2:
        sys.exit(__doc__)
    main(sys.argv[1])
