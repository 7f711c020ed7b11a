"""Recorded runs of right and wrong locks, in C and in Rust.

Every run of a right lock has to be accepted: its trace, if the run has one, the order of its logs,
and each schedule of the order. Some thread has to have waited. The trace of a wrong lock has to be
refused at the line where the mistake first shows, which signs.py finds by itself, and its logs have
no order.
"""
import pytest

from mistakes import IN_C, IN_RUST
from recorders import RECORDERS, schedule_of
from signs import moves_of
from tree import answer

pytestmark = pytest.mark.slow

MOST_TRIES = 20  # of free threads, until one waits
HANGS = 1  # the status of a run that hangs
RIGHT = [pytest.param(name, example, mode, id=f"{name}-{example}-{mode}")
         for name, recorder in RECORDERS.items() for example in recorder.examples
         for mode in recorder.runs]
ONE_BY_ONE = [pytest.param(*of.values, number, id=f"{of.id}-{number}") for of in RIGHT
              for number in RECORDERS[of.values[0]].runs[of.values[2]][2] if of.values[2] != "pct"]
EXAMPLES = [pytest.param(name, example, id=f"{name}-{example}")
            for name, recorder in RECORDERS.items() for example in recorder.examples]
MISTAKES = [pytest.param(mistake.recorder, mistake, id=str(mistake)) for mistake in IN_C + IN_RUST]


def waits(recorder, judge, target, example, mode, number):
    """How many moves of a run wait, in its trace or in the order of its logs: the smaller count."""
    assert recorder.run(target, example, mode, number).returncode == 0
    trace = target / "run.trace"
    assert trace.exists() == (mode in recorder.traced)
    found = judge.waits_in_order(target)
    if trace.exists():
        judge.accepts([trace])
        found = min(found, judge.waits(schedule_of(trace.read_text())))
    return found


@pytest.mark.parametrize("recorder, example, mode, number", ONE_BY_ONE, indirect=["recorder"])
def test_right_lock(recorder, judge, tmp_path, example, mode, number):
    """A thread waits in some try. Free threads may run one after another, so they have 20 tries."""
    tries = range(MOST_TRIES if mode in recorder.free else 1)
    assert any(waits(recorder, judge, tmp_path / str(attempt), example, mode,
                     number + 100 * attempt) for attempt in tries)


@pytest.mark.parametrize("recorder, example", [of for of in EXAMPLES if of.values[0] == "rust"],
                         indirect=["recorder"])
def test_right_lock_by_priorities(recorder, judge, tmp_path, example):
    """A thread waits in some of the runs. With priorities a thread goes on as long as it can."""
    found = [waits(recorder, judge, tmp_path / str(seed), example, "pct", seed)
             for seed in recorder.runs["pct"][2]]
    assert any(found)


@pytest.mark.parametrize("seed", range(1, 21))
@pytest.mark.parametrize("example", RECORDERS["c"].examples)
def test_right_lock_in_c_by_priorities(in_c, tmp_path, example, seed):
    """Whoever has the greatest priority waits for others, and is passed over meanwhile."""
    assert answer(*in_c.command(example, "PCT"), 3, 9, seed, tmp_path)[1:] == ("", 0)


@pytest.mark.parametrize("recorder, example", EXAMPLES, indirect=["recorder"])
def test_seed_again(recorder, tmp_path, example):
    """The same seed gives the same run, and another seed gives another run."""
    texts = []
    for number in ("7", "07", "8"):
        recorder.run(tmp_path / number, example, recorder.seeded, number)
        texts.append(moves_of((tmp_path / number / "run.trace").read_text()))
    assert texts[0] == texts[1] != texts[2]


@pytest.mark.parametrize("recorder, example, mode", RIGHT, indirect=["recorder"])
def test_logs_of_two_runs(recorder, tracer, tmp_path, example, mode):
    """`order` refuses to merge logs of two runs."""
    for number in (901, 902):
        recorder.run(tmp_path / str(number), example, mode, number)
    logs = ["901/thread-0.log", *sorted(str(path.relative_to(tmp_path)) for path in
                                        (tmp_path / "902").glob("thread-*.log"))[1:]]
    said = "".join(f"{log}: of another run than the first log's\n" for log in logs[1:])
    assert len(logs) > 1 and tracer.run("order", *logs, "-o", "mixed") == ("", said, 4)


def shows(recorder, judge, mistake, target, seed):
    """Whether a mistake shows in a seeded run. The programs have to say so as signs.py does."""
    status = recorder.run(target, mistake.example, recorder.seeded, seed, mistake).returncode
    trace = target / "run.trace"
    refused = judge.refused_line(trace)
    if mistake.sign is None:
        assert refused is None, f"seed {seed}"
        return status == HANGS
    due = mistake.sign(moves_of(trace.read_text()))
    assert refused == due, f"seed {seed}"
    assert judge.order(target)[1] == (0 if due is None else 1), f"seed {seed}"
    return due is not None


@pytest.mark.parametrize("recorder, mistake", MISTAKES, indirect=["recorder"])
def test_mistake_by_seeds(recorder, judge, tmp_path, mistake):
    seeds = recorder.runs[recorder.seeded][2]
    shown = sum(shows(recorder, judge, mistake, tmp_path / str(seed), seed) for seed in seeds)
    assert shown in mistake.shown


@pytest.mark.parametrize("number", range(3))
@pytest.mark.parametrize("recorder, mistake", [of for of in MISTAKES if of.values[0] == "c"],
                         indirect=["recorder"])
def test_mistake_by_free_threads(recorder, judge, tmp_path, mistake, number):
    """The logs of a wrong lock have no order, or an order in which the mistake does not show."""
    recorder.run(tmp_path, mistake.example, "VALUES", number, mistake, seconds=3)
    ordered, status = judge.order(tmp_path)
    shown = [mistake.sign(moves_of(trace.read_text())) for trace in ordered.glob("*.trace")]
    assert status == 1 or status == 0 and not any(shown)
