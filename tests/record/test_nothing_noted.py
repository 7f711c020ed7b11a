"""Runs in which nothing was noted, which are no success; and runs of more moves than a schedule may
have, which are checked whole.
"""
import re

import pytest

from recorders import NOTHING, SOURCES, compile_c
from tree import TOP, answer, ran

pytestmark = pytest.mark.slow


@pytest.mark.parametrize("compiler", ["gcc", "g++"])
@pytest.mark.parametrize("mode, notes, said", [
    ("EXPLORE", "(void)0", "2 runs with up to 0 preemptions, and nothing was noted in them\n"),
    ("SEED", "(void)0", "")])
def test_driver_that_notes_nothing(noting, tmp_path, compiler, mode, notes, said):
    checks = ["-DLR_CHECK"] if mode == "SEED" else []
    program = noting("ticket", notes, *checks, mode=mode, compiler=compiler)
    assert answer(program, 2, 1, 1, tmp_path / "logs") == (said, NOTHING, 1)


@pytest.mark.parametrize("flags", [[], ["-DLR_MODE=OFF"]], ids=str)
def test_lock_that_is_built_without_the_mode(library, tmp_path, flags):
    """The driver of a search is in another file than its lock."""
    (tmp_path / "lock.c").write_text(
        f'#include "{TOP}/tests/record/ticket.h"\n'
        "void take(void);\nvoid take(void) { acquire(); release(); }\n")
    (tmp_path / "main.c").write_text(
        f'#include "{TOP}/tests/record/main.h"\nvoid take(void);\n'
        "static void one_round(unsigned t, unsigned r) { (void)t, (void)r; take(); }\n"
        'MAIN("ticket", 8, NULL)\n')
    said = ran("gcc", "-std=c11", "-c", *flags, tmp_path / "lock.c", "-o", tmp_path / "lock.o")
    assert said.stderr == ""
    assert compile_c("gcc", tmp_path / "main.c", tmp_path / "it", "-DLR_MODE=EXPLORE",
                     tmp_path / "lock.o", library=library) == ""
    done = ran(tmp_path / "it", 2, 1, 1, tmp_path / "logs")
    assert done.stdout.endswith(", and nothing was noted in them\n")
    assert (done.stderr, done.returncode) == (NOTHING, 1)


def test_search_in_which_one_thread_notes(noting, tmp_path):
    """A thread that takes no lock may note nothing."""
    round_of_one = ("if (thread) { LR_CALL(acquire); LR_ADD(next_ticket, 0); "
                    "LR_READ(now_serving, 0); }")
    done = ran(noting("ticket", round_of_one, "-DLR_ATOMICS=0"), 2, 1, 1, tmp_path / "logs")
    assert done.stdout.endswith(", all of them accepted\n") and done.returncode == 0


def test_long_run(library, tmp_path):
    program, logs = tmp_path / "it", tmp_path / "logs"
    assert compile_c("gcc", SOURCES / "ticket.c", program, "-DLR_MODE=SEED", "-DLR_CHECK",
                     library=library) == ""
    assert answer(program, 3, 4000, 1, logs) == ("", "", 0)
    text = (logs / "run.trace").read_text()
    assert len(re.findall(r"^\d", text, re.MULTILINE)) > 65536 and "refused" not in text


def test_long_schedule(library, tmp_path):
    """10,923 rounds of six moves are more than 65,536; 16 values are enough for the tickets."""
    program, tour = tmp_path / "it", tmp_path / "tour"
    tour.mkdir()
    rounds = "".join(f"0 {word}\n" for word in "acquire add read release read write".split())
    (tour / "long.schedule").write_text(f"lock ticket threads 1 bits 4\n{rounds * 10_923}")
    assert compile_c("gcc", SOURCES / "ticket.c", program, "-DLR_MODE=FOLLOW", "-DLR_CHECK",
                     library=library) == ""
    assert answer(program, tour, tmp_path / "logs") == (
        "1 schedules of 65538 moves, 0 not followed\n", "", 0)


ROUND = ("LR_CALL(acquire); LR_ADD(next_ticket, round); LR_READ(now_serving, round); "
         "LR_CALL(release); LR_READ(now_serving, round); "
         "LR_WRITE(now_serving, round + 1 + (round == 10999))")


def test_late_mistake(noting, tmp_path):
    """The last of 66,000 moves is wrong. They begin in the fourth line of the trace."""
    done = ran(noting("ticket", ROUND, "-DLR_CHECK", mode="SEED"), 1, 11_000, 1, tmp_path / "logs")
    assert "refused at line 66003 of the trace" in done.stderr and done.returncode == 1
    assert "LeftOther: " in done.stderr and "the published lock leaves 11000" in done.stderr
