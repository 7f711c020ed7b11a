"""A note of the header in C costs a free thread little, in memory and in a file.

`bench/recording.py` measures the cost in nanoseconds, for which it needs a quiet machine. This test
compares it with the round of a ticket lock: the four operations of a round take about 12 ns, and a
note may take the 3 ns of docs/GUIDE.md. Nothing delayed the shortest of many rounds.
"""
import pytest

from recorders import WARNINGS
from tree import TOP, output

pytestmark = pytest.mark.slow

FIGURES = {"ticket": 6, "mcs": 7, "bare": 1}  # the number of notes in a round
LOOPS, ROUNDS, MOST = 20000, 200, 0.25


@pytest.fixture
def build(tmp_path):
    def built(mode):
        assert output("gcc", "-std=c11", "-O2", *WARNINGS, "-pthread", f"-DLR_MODE={mode}",
                      "-I", TOP / "built", "-o", tmp_path / mode,
                      TOP / "bench" / "recording.c") == ""
        return tmp_path / mode
    return built


def shorter(best, *words):
    """The shortest rounds so far, after one more measurement."""
    return [min(pair) for pair in zip(best, map(float, output(*words).split()))]


@pytest.mark.parametrize("is_file", [False, True], ids=["memory", "file"])
def test_note(build, tmp_path, is_file):
    off, on = build("OFF"), build("VALUES")
    folder = [tmp_path / "logs"] if is_file else []
    without = with_notes = [float("inf")] * len(FIGURES)
    for _ in range(ROUNDS):
        without, with_notes = shorter(without, off, LOOPS), shorter(with_notes, on, LOOPS, *folder)
        costs = [(more - less) / count / without[0]
                 for less, more, count in zip(without, with_notes, FIGURES.values())]
        if max(costs) <= MOST:
            return
    pytest.fail(f"a note takes {costs} of a ticket lock's round of {without[0]} ns")
