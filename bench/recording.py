#!/usr/bin/env python3
"""Costs of recording: a note of the C header, 1,000 runs of a search, followed schedules.

    recording.py LOCKTRACE [--before COMMIT] [--check]

Builds `recording.c` without a mode and with VALUES, as it is in this tree and as it was at a
commit, with the header of each, and lets them take turns; `file` has its notes in a file, in the
folder for temporary files. Figures are nanoseconds for one acquire and release of one thread,
medians of ROUNDS. A note costs the further time of a round with notes over one without, divided by
its notes, again the median. Then, for the MCS lock in C and each example of record/rust, 1,000 runs
of a search of two threads with two rounds each and at most 5 preemptions; and for those in Rust
LOCKTRACE's tour of three threads with a round each, which `Mode::Follow` follows. All of them are
checked in the process. Each is done ROUNDS times on the processors that this script may use, and on
the first of them alone; it prints the medians, in seconds.

With --check the status is 1 if a note costs more than LIMIT nanoseconds, or 1,000 runs take more
than SECONDS. A quiet machine is needed.
"""
import argparse
import math
import os
import statistics
import subprocess
import sys
import tempfile
import time
from pathlib import Path

TOP = Path(__file__).resolve().parent.parent
ROUNDS, LOOPS = 15, 300000
LIMIT, SECONDS, RUNS = 2.5, 2.0, 1000
FIGURES = {"ticket": 6, "mcs": 7, "note": 1}  # how many notes a round has
FLAGS = ("-std=c11", "-O2", "-Wall", "-Wextra", "-pthread")
EXAMPLES = {"ticket": "ticket", "mcs": "mcs", "rw_simple": "rw-simple", "rw_fifo": "rw-fifo"}


def ran(*words, **options):
    return subprocess.run([str(word) for word in words], check=True, capture_output=True,
                          text=True, **options).stdout


def tree_of(commit, folder):
    """The header as it was, one file or one with parts, and the program."""
    for path in ran("git", "-C", TOP, "ls-tree", "-r", "--name-only", commit, "record", "built",
                    "bench/recording.c").split():
        file = folder / path
        file.parent.mkdir(parents=True, exist_ok=True)
        file.write_text(ran("git", "-C", TOP, "show", f"{commit}:{path}"))
    return folder


def built(folder, name, tree, mode):
    program = folder / name
    ran("gcc", *FLAGS, f"-DLR_MODE={mode}", "-I", tree / "built", "-I", tree / "record", "-o",
        program, tree / "bench" / "recording.c")
    return program


def figures(*words):
    program, *folder = words
    return [float(word) for word in ran(program, LOOPS, *folder).split()]


def notes(folder, before):
    """Prints medians of each build, and answers what a note of this tree's header costs."""
    now = built(folder, "now", TOP, "VALUES")
    builds = {"off": [built(folder, "off", TOP, "OFF")], "now": [now], "file": [now, folder]}
    if before:
        builds["before"] = [built(folder, "before", tree_of(before, folder / "old"), "VALUES")]
    rounds = [{name: figures(*words) for name, words in builds.items()} for _ in range(ROUNDS)]
    costs = {name: [] for name in builds}
    for place, (figure, count) in enumerate(FIGURES.items()):
        for name in builds:
            costs[name].append(statistics.median(
                (it[name][place] - it["off"][place]) / count for it in rounds))
        print(figure, " ".join(
            f"{name} {statistics.median(it[name][place] for it in rounds):.1f} ns, a note "
            f"{costs[name][place]:.2f} ns" for name in builds))
    return costs["now"] + costs["file"]


def commands(folder, locktrace):
    """Commands, with how what they say begins and how long each may take."""
    ran("gcc", *FLAGS, "-DLR_MODE=EXPLORE", "-o", folder / "search",
        TOP / "examples" / "recording" / "mcs.c", TOP / "built" / "locktrace.c")
    more = {"CARGO_TARGET_DIR": str(folder), "PATH": "/usr/bin:/bin"}
    ran("/usr/bin/cargo", "build", "--release", "--examples", "--offline", "--features", "check",
        cwd=TOP / "record" / "rust", env={**os.environ, **more})
    yield [folder / "search", 2, 2, 5, folder, RUNS], f"{RUNS} runs", SECONDS
    for example, lock in EXAMPLES.items():
        program, tour = folder / "release" / "examples" / example, folder / lock
        ran(locktrace, "tour", lock, "3", "-o", tour)
        count = len(list(tour.glob("*.schedule")))
        yield [program, "explore-all", 2, 2, 5, folder / "traces", RUNS], f"{RUNS} runs", SECONDS
        yield [program, "follow", tour, folder / "traces"], f"{count} schedules", math.inf


def seconds(on, words, begin):
    """The median time of a command on some processors."""
    taken = []
    for _ in range(ROUNDS):
        begun = time.monotonic()
        said = ran("taskset", "-c", on, *words)
        taken.append(time.monotonic() - begun)
        assert said.startswith(begin), said
    took = statistics.median(taken)
    print(f"processors {on}: {words[0].name} {begin} {took:.2f} s", flush=True)
    return took


def main():
    words = argparse.ArgumentParser(usage=__doc__)
    words.add_argument("locktrace", type=Path)
    words.add_argument("--before")
    words.add_argument("--check", action="store_true")
    given = words.parse_args()
    cores = sorted(map(str, os.sched_getaffinity(0)), key=int)
    with tempfile.TemporaryDirectory() as name:
        is_well = max(notes(Path(name), given.before)) <= LIMIT
        for command, begin, most in commands(Path(name), given.locktrace.resolve()):
            for on in (",".join(cores), cores[0]):
                is_well = seconds(on, command, begin) <= most and is_well
    return 0 if is_well or not given.check else 1


if __name__ == "__main__":
    sys.exit(main())
