"""FOLLOW without a function that makes calls, without a schedule, and without a folder for traces.

test_modes.py has what a schedule says, and test_conform.py the schedules of tours.
"""
import pytest

from recorders import SOURCES, refusal
from tree import answer

pytestmark = pytest.mark.slow

NOTHING = "0 schedules of 0 moves, 0 not followed\n"
ONE = "lock ticket threads 1 bits 4\n0 acquire\n0 add\n0 read\n"


@pytest.fixture
def program(built, tmp_path):
    """Builds the ticket lock of the examples, which saves the trace of each schedule."""
    (tmp_path / "tour").mkdir()
    return built(SOURCES / "ticket.c", "FOLLOW")


def test_driver_without_calls(noting, tmp_path):
    """The driver of notes.c, like that of the guide, makes only whole rounds."""
    (tmp_path / "one.schedule").write_text("lock ticket threads 1\n0 acquire\n")
    program = noting("ticket", "LR_CALL(acquire)", mode="FOLLOW")
    assert answer(program, ".", "logs", cwd=tmp_path) == refusal(
        "FOLLOW makes calls by the driver's last function, `call`, which is NULL", status=2)


def test_no_schedule(program, tmp_path):
    """Nothing was followed, so nothing is said to be right. A trace is no schedule by its name."""
    (tmp_path / "tour" / "one.trace").write_text(ONE)
    (tmp_path / "tour" / ".schedule").write_text(ONE)
    assert answer(program, "tour", "logs", cwd=tmp_path) == refusal(
        "tour: no file there is named *.schedule", NOTHING)


def test_folder_of_traces_is_made(program, tmp_path):
    for name in "ab":
        (tmp_path / "tour" / f"{name}.schedule").write_text(ONE)
    assert answer(program, "tour", "logs", cwd=tmp_path) == (
        "2 schedules of 6 moves, 0 not followed\n", "", 0)
    assert sorted(path.name for path in (tmp_path / "logs").iterdir()) == ["a.trace", "b.trace"]


@pytest.mark.parametrize("folders, said", [
    (("tour", "it"), "it: Not a directory"), (("it", "logs"), "it: Not a directory"),
    (("no", "logs"), "no: No such file or directory"),
    (("tour", "./" * 2100), f"{'./' * 2100}: File name too long")],
    ids=["traces", "schedules", "none", "long"])
def test_wrong_folder(program, tmp_path, folders, said):
    """The one message is about the folder that cannot be used."""
    (tmp_path / "tour" / "one.schedule").write_text(ONE)
    assert answer(program, *folders, cwd=tmp_path) == refusal(said, NOTHING)
