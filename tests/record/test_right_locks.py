"""No mode refuses any of 100 runs of a right lock in C, C++ or Rust.

If one thread runs at a time, the trace is checked; the logs of free threads have to have an order.
A lock follows the first 100 schedules of its tour, or all if the tour has fewer.
"""
import re
import shutil

import pytest

from planted import MODES, REAL_MODES, on_one_core
from recorders import HERE, IN_C_PLUS_PLUS, RECORDERS, SOURCES, compile_c
from tree import ran

pytestmark = pytest.mark.planted

RUNS = 100
REAL, SEEDED, EXPLORED = (4, 300), (3, 30), (3, 2, 2)  # threads and rounds, and preemptions
SOURCES_OF = {
    "gcc": [*(SOURCES / f"{name}.c" for name in RECORDERS["c"].examples), HERE / "noted.c"],
    "g++": [*(SOURCES / f"{name}.c" for name in IN_C_PLUS_PLUS), HERE / "noted.cc"],
}
FREE = (*REAL_MODES, "free", "noise")
RUST_MODES = ("free", "noise", "ordered", "seed", "wakes", "pct", "EXPLORE", "FOLLOW")
# ck_ticket makes two published steps in one operation, and noted has no calls to follow.
FOLLOWS_NOTHING = ("ck_ticket", "noted")
LOCKS = [
    *(pytest.param("c", (compiler, source), mode, id=f"{compiler}-{source.name}-{mode}")
      for compiler, sources in SOURCES_OF.items() for source in sources for mode in MODES),
    *(pytest.param("rust", example, mode, id=f"rust-{example}-{mode}")
      for example in RECORDERS["rust"].examples for mode in RUST_MODES),
]


def program_in_c(library, target, compiler, source, mode):
    assert compile_c(compiler, source, target, *MODES[mode],
                     library=None if mode in FREE else library) == ""
    return [target] if mode in FREE else on_one_core(mode + source.name, target)


def first_schedules(tour, lock, folder):
    """Copies the first schedules of a lock's tour to a folder, and counts them."""
    paths = sorted(tour(lock).glob("*.schedule"))[:RUNS]
    (folder / "schedules").mkdir()
    for path in paths:
        shutil.copy(path, folder / "schedules")
    return folder / "schedules", len(paths)


def is_well(judge, folder, words, is_free):
    """Whether a run ends well, and the logs of free threads have an order."""
    if is_free:
        shutil.rmtree(folder, ignore_errors=True)
    folder.mkdir(exist_ok=True)
    return ran(*words, folder).returncode == 0 and (not is_free or judge.order(folder)[1] == 0)


@pytest.mark.parametrize("recorder, lock, mode", LOCKS, indirect=["recorder"])
def test_right_lock(recorder, judge, tour, tmp_path, record_property, lock, mode):
    in_rust, logs, count = recorder.name == "rust", tmp_path / "logs", RUNS
    name = lock if in_rust else lock[1].stem
    if mode == "FOLLOW" and name in FOLLOWS_NOTHING:
        pytest.skip("it follows no schedule")
    command = (recorder.command(lock, mode) if in_rust else
               program_in_c(recorder.library, tmp_path / "program", *lock, mode))
    logs.mkdir()
    if mode == "EXPLORE":
        done = ran(*command, *EXPLORED, logs, RUNS)
        due = "not all of them" if in_rust else "all of them accepted, and there are more"
        assert re.match(f"{RUNS} runs with up to .*, {due}\n$", done.stdout), done.stdout
    elif mode == "FOLLOW":
        schedules, count = first_schedules(tour, name, tmp_path)
        done = ran(*command, schedules, logs)
        assert re.match(f"{count} schedules of .* moves, 0 not followed\n$", done.stdout)
    else:
        counts = REAL if mode in FREE or mode == "ordered" else SEEDED
        assert [number for number in range(1, RUNS + 1) if not is_well(
            judge, logs / str(number if in_rust and mode not in FREE else 0),
            [*command, *counts, number], mode in FREE)] == []
    if in_rust and mode not in FREE:
        traces = list(logs.glob("**/*.trace"))
        assert len(traces) == count and judge.accepts(traces)
    record_property("tried", f"{count} runs")
