"""Recorded locks follow every schedule of a tour, and a tour notices their mistakes.

A tour takes every transition of the lock, by --threads threads with --rounds rounds each. The
script conform.sh of examples/recording checks each trace with all its values: built/locktrace.c
does it for a lock in C, and `locktrace` for a lock in Rust.
"""
import re

import pytest

from mistakes import IN_C, IN_RUST
from recorders import RECORDERS, SOURCES, words_of
from tree import environment, ran

pytestmark = pytest.mark.slow

# Concurrency Kit's ticket lock takes its ticket and reads the served ticket in one operation, so it
# cannot follow a schedule in which another thread moves between the two steps.
JOINS = {"ck_ticket"}
LOCKS = [pytest.param(name, example, id=f"{name}-{example}")
         for name, recorder in RECORDERS.items() for example in recorder.examples
         if example not in JOINS]


def mistakes(of):
    return pytest.mark.parametrize("recorder, mistake", [
        pytest.param(it.recorder, it, id=str(it)) for it in of], indirect=["recorder"])


def counts_of(said):
    """How many schedules the script tried, and how many the lock did not follow."""
    found = re.search(r"^(\d+) schedules of \d+ moves, (\d+) not followed$", said, re.MULTILINE)
    return tuple(map(int, found.groups()))


def conform(recorder, example, folder, mistake=None):
    """Runs the script, and returns its status and the counts that it prints."""
    lock, script = f"{example}.rs", SOURCES / "conform.sh"
    if recorder.name == "c":
        lock, script = example, recorder.source(example, mistake).with_name("conform.sh")
    done = ran(script, lock, folder, timeout=600, env=environment(
        LOCKTRACE=str(recorder.locktrace), CARGO_HOME=str(recorder.folder / "cargo"),
        CARGO_TARGET_DIR=str(recorder.folder / "conform")))
    assert counts_of(done.stdout), done.stderr
    return done.returncode, *counts_of(done.stdout)


@pytest.mark.parametrize("recorder, example", LOCKS, indirect=["recorder"])
def test_right_lock(recorder, tour, example):
    folder = tour(example)
    count = len(list(folder.glob("*.schedule")))
    assert count and conform(recorder, example, folder) == (0, count, 0)


@mistakes(IN_C)
def test_mistake_in_c(recorder, tour, mistake):
    folder = tour(mistake.example)
    status, count, refused = conform(recorder, mistake.example, folder, mistake)
    assert count == len(list(folder.glob("*.schedule")))
    assert (status, refused > 0) == (int(mistake.followed), mistake.followed)


@mistakes(IN_RUST)
def test_mistake_in_rust(recorder, tour, locktrace, tmp_path, mistake):
    done = recorder.search([tour(mistake.example)], tmp_path, mistake.example, "follow", mistake)
    assert counts_of(done.stdout), done.stderr
    refused = ran(locktrace, "check", *tmp_path.glob("*.trace")).returncode != 0
    assert (done.returncode == 1 or refused) == mistake.followed


@pytest.mark.parametrize("recorder, example", [of for of in LOCKS if of.values[0] == "rust"],
                         indirect=["recorder"])
def test_trace_of_a_followed_schedule(recorder, judge, tour, tmp_path, example):
    """The trace of a followed schedule has the moves of the schedule."""
    done = recorder.search([tour(example)], tmp_path, example, "follow")
    schedules = [words_of(path.read_text()) for path in sorted(tour(example).glob("*.schedule"))]
    said = f"{len(schedules)} schedules of {sum(map(len, schedules))} moves, 0 not followed\n"
    assert (done.stdout, done.stderr, done.returncode) == (said, "", 0)
    traces = sorted(tmp_path.glob("*.trace"))
    assert [words_of(trace.read_text()) for trace in traces] == schedules
    assert judge.accepts(traces)
