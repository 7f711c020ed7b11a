"""The advice of `locktrace check` after a refused move fits the lock and the step that was due.

The rows of tests/rows/advice.txt are written by hand, from docs/LOCKS.md.
"""
import pytest

from tree import ROWS


def rows():
    """The lock, moves and advice of each row. A name stands for the moves that it defines."""
    runs = {}
    for line in (ROWS / "advice.txt").read_text().splitlines():
        name, _, moves = line.partition(" = ")
        if moves:
            runs[name] = moves
        elif line and not line.startswith("//"):
            lock, moves, advice = line.split(" | ")
            moves = "; ".join(runs.get(move, move) for move in moves.split("; "))
            yield pytest.param(lock, moves.split("; "), advice, id=f"{lock}: {moves}")


@pytest.mark.parametrize("lock, moves, advice", rows())
def test_advice(tracer, lock, moves, advice):
    """The last move is the refused one, and the advice is the last line of the report."""
    texts = [f"lock {lock} threads 2", *moves]
    output, *more = tracer.run("check", stdin="\n".join(texts) + "\n")
    assert more == ["", 1]
    assert output.startswith(f"-:{len(texts)}: refused: ")
    assert output.splitlines()[-1] == f"-:{len(texts)}: help: {advice}"
