"""built/lockreplay.c as a file to compile: warnings, time, threads, and memory around the address 0
of a call. tests/lockreplay runs the tests of the program over what it compiles to.
"""
import os
from pathlib import Path

import pytest

from oracle import batch_of, report_of
from recorders import WARNINGS
from tree import EXAMPLES, TOP, answer, output, ran

HERE, REPLAY = Path(__file__).parent, TOP / "built" / "lockreplay.c"
SECONDS = 10
LESSONS = sorted(EXAMPLES.glob("*.schedule"))


@pytest.mark.parametrize("compiler", ["gcc", "clang"])
@pytest.mark.parametrize("flags", [["-O2"], ["-std=c11", "-O1"], ["-std=c17", "-O3"]], ids=str)
def test_compiles(compiler, flags):
    assert output(compiler, *flags, *WARNINGS, "-pthread", "-c", "-o", "/dev/null", REPLAY) == ""


@pytest.mark.parametrize("compiler", ["gcc", "clang"])
def test_time_to_compile(compiler, tmp_path):
    """The documented command takes at most ten seconds of a processor."""
    before = os.times()
    assert output(compiler, "-O2", "-pthread", REPLAY, "-o", tmp_path / "it") == ""
    after = os.times()
    assert after.children_user + after.children_system \
        - before.children_user - before.children_system < SECONDS


def test_workers_with_sanitizer(tmp_path):
    """Workers have no data race, and each report is that of its text."""
    said = output("gcc", "-O1", "-g", "-fsanitize=thread", "-pthread", "-o", tmp_path / "it",
                  REPLAY)
    if "tsan" in said:
        pytest.skip("ThreadSanitizer is not installed")
    assert said == ""
    files = LESSONS * 4
    done = ran(tmp_path / "it", "batch", "--workers", 8, *files)
    due = batch_of([report_of(file.read_bytes()) for file in files])
    assert (done.stdout.encode(), done.stderr, done.returncode) == (due, "", 1)


@pytest.mark.parametrize("text", [
    *(pytest.param(file.read_bytes(), id=file.stem) for file in LESSONS[::4]),
    pytest.param(b"", id="nothing")])
def test_around_zero(tmp_path, text):
    """The addresses of a call wrap around 0, and the text and the report may lie there."""
    program = tmp_path / "it"
    assert output("gcc", "-O2", "-pthread", *WARNINGS, HERE / "report_around_zero.c", "-o",
                  program) == ""
    assert answer(program, input=text.decode()) == ("", "", 0)


def test_longest_report_for_its_text(tmp_path):
    """All threads are in the queue, and one whose number has one digit polls: almost 31 bytes for
    each byte of the text. The room of a report has 32."""
    enter = "".join(f"{thread} acquire\n{thread} add\n" for thread in range(64))
    text = f"lock ticket threads 64\n{enter}" + "1 read\n" * 65_408
    assert output("gcc", "-O2", "-pthread", REPLAY, "-o", tmp_path / "it") == ""
    assert output(tmp_path / "it", "replay", input=text) == report_of(text.encode()).decode()


def test_report_in_pieces(tmp_path):
    """Pieces of each size make the same report, and each call says how much is left."""
    program = tmp_path / "it"
    assert output("gcc", "-O2", "-pthread", *WARNINGS, HERE / "report_in_pieces.c", "-o",
                  program) == ""
    for text in (LESSONS[0].read_bytes(), b"", b"lock mcs threads 2\n0 release\n"):
        assert answer(program, input=text.decode()) == ("", "", 0)
