"""Planted mistakes in the recorded locks in C: how many runs of each mode notice each mistake.

The results of deterministic modes have to equal the tables of mistakes/README.md, and no mode may
refuse a right lock. --write-planted also tries the modes of real threads, and writes the tables.
"""
import re

import pytest

import planted
from mistakes import PATCHES
from planted import EXPLORED, LOCKS, MISTAKES, MODES, REAL_MODES, RUNS
from tree import TOP, ran

REAL = ("4", "100")  # threads and rounds
SEEDED = ("3", "30")
SHORT = ("3", "4")  # for PCT, which is meant for short runs
MOST = "3000"  # the most runs that a search explores
ENOUGH = 70  # so many mistakes have a mode in which all runs notice them


def test_tables_have_every_patch():
    found = {(path.parent.name, path.stem) for lock in LOCKS
             for path in (PATCHES / "c" / lock).glob("*.patch")}
    assert {(lock, name) for lock, name in planted.read() if name != "none"} == found


def test_most_mistakes_are_noticed_in_all_runs_of_a_mode():
    rows = planted.read()
    assert sum(planted.is_in_all(row) for row in rows.values()) >= ENOUGH


def test_document_counts_what_the_tables_have():
    rows = planted.read().values()
    counted = {mode: str(sum(planted.is_in_all(row, [mode]) for row in rows)) for mode in MODES}
    text = planted.TABLES.read_text().split(planted.BEGIN)[0]
    assert dict(re.findall(r"^\| (\w+) \| .* \| (\d+) \|$", text, re.MULTILINE)) == counted
    recording = " ".join((TOP / "docs" / "RECORDING.md").read_text().split())
    assert f"notices {counted['EXPLORE']} in one search, and `SEED` {counted['SEED']}" in recording


def is_noticed(locktrace, program, seed, logs):
    """Whether a run of real threads hangs or crashes, or its logs have no order."""
    status = ran(program, *REAL, seed, logs).returncode
    assert status != 3, "memory, a thread or a write was refused"
    if status != 0:
        return True
    status = ran(locktrace, "order", "-q", *sorted(logs.glob("thread-*.log")), "-o",
                 logs).returncode
    assert status in (0, 1)
    return status == 1


def explored(said):
    """The cell of a search: the number of the refused run and its preemptions, or `none` with the
    limit of runs if the search reached it."""
    runs, preemptions = re.match(r"(\d+) runs? with up to (\d+)", said).groups()
    if "refused" in said:
        return f"{runs}, {preemptions}"
    return f"none/{MOST}" if "and there are more" in said else "none"


def followed(said):
    """The cell of a tour: how many schedules the lock did not follow, of how many."""
    schedules, refused = re.match(r"(\d+) schedules of \d+ moves, (\d+) not", said).groups()
    return f"{refused}/{schedules}"


@pytest.mark.planted
@pytest.mark.parametrize("mode", MODES)
@pytest.mark.parametrize("lock, name", [
    (lock, name) for lock, named in MISTAKES.items() for name, _ in named])
def test_planted(library, locktrace, tour, tmp_path, pytestconfig, record_property, lock, name,
                 mode):
    is_written = pytestconfig.getoption("write_planted")
    if mode in REAL_MODES and not is_written:
        pytest.skip("what real threads do differs from run to run")
    logs, program = tmp_path / "logs", planted.build(lock, name, mode, library, tmp_path)
    logs.mkdir()
    on_one = planted.on_one_core(name, program)
    if mode in REAL_MODES:
        said = str(sum(is_noticed(locktrace, program, seed, logs) for seed in range(1, RUNS + 1)))
    elif mode == "EXPLORE":
        said = explored(ran(*on_one, *EXPLORED, logs, MOST).stdout)
    elif mode == "FOLLOW":
        said = followed(ran(*on_one, tour(lock), logs).stdout)
    else:
        said = ran(*on_one, *(SHORT if mode == "PCT" else SEEDED), RUNS).stdout.strip()
    record_property("planted", (lock, name, mode, said))
    assert name != "none" or re.match(r"(0|none)(/\d+)?$", said), "a right lock is blamed"
    assert is_written or said == planted.read()[lock, name].get(mode)
