"""`locktrace explain`: sentences for chosen lines, names of threads, refusals and suggestions.

Expected texts are written by hand from packaging/man/locktrace.1 and docs/FORMATS.md; each sentence
is a row of tests/rows/locktrace/explain.txt.
"""
import re

import pytest

from tree import cases

REFUSED = ("9: refused: '1 write', but in the published algorithm {}'s next step is 'swap' "
           "(WrongStep)\n  held by 0; queue 0\n"
           "  help: swap the tail once next is nil, and set locked after the swap\n"
           "  due: 1 swap\n")


@cases("words, due", {
    "two moves by name": ("--moves 6..7 --names left,right good", (
        "6: 0 swap: entered, tail 0 to 1; left swaps the tail for its record; the tail was nil: "
        "it holds the lock; held by 0; queue 0\n"
        "7: 1 acquire: called; right calls acquire; a call changes no word; held by 0; queue 0\n",
        "", 0)),
    "a refusal": ("--moves 99..99 wrong", (REFUSED.format("thread 1"), "", 1)),
    "a refusal by name": ("--moves 99..99 --names left,right wrong", (
        REFUSED.format("right"), "", 1)),
})
def test_explained(tracer, words, due):
    assert tracer.run("explain", *words.split()) == due


@pytest.mark.parametrize("lines, due", [("9..", ["9", "10"]), ("8..9", ["8", "9"]), ("7", ["7"]),
                                        ("3", [])])
def test_moves_of_some_lines(tracer, lines, due):
    output = tracer.output("explain", "--moves", lines, "good")
    assert re.findall(r"(?m)^(\d+): ", output) == due


@pytest.mark.parametrize("thread, name, names", [
    (0, "left", ["--names", "left"]), (1, "thread 1", ["--names", "left"]), (0, "thread 0", [])])
def test_refused_call(tracer, thread, name, names):
    """The message calls a thread by its name, if `--names` gives it one."""
    assert tracer.run("explain", *names, stdin=f"lock mcs threads 2\n{thread} release\n") == (
        f"2: refused: '{thread} release', but {name} does not hold the lock in that mode "
        "(NotHolder)\n  held by nobody; queue empty\n"
        "  help: release a lock once, by the thread that took it, in the mode in which it did\n"
        f"  accepted would be: {thread} acquire\n", "", 1)


@pytest.mark.parametrize("line, column, word, near", [
    ("0 aquire", 3, "aquire", "acquire"), ("0 relase", 3, "relase", "release"),
    ("0 read now_serving fund 1", 20, "fund", "found"), ("0 swap tial", 8, "tial", "tail"),
    ("0 add next_ticket found x", 25, "x", ""), ("0 cas tail don", 12, "don", "done"),
    ("x acquire", 1, "x", ""), ("0 swap tail done", 13, "done", "")])
def test_line_that_is_no_move(tracer, line, column, word, near):
    output, *more = tracer.run("explain", stdin=f"lock mcs threads 2\n{line}\n")
    assert more == ["", 4]
    assert output.startswith(f"2: not a move (BadLine)\n  column {column}: '{word}', expected ")
    assert re.findall(r"; did you mean (.*)\?\n", output) == [f"'{near}'"] * bool(near)


@pytest.mark.parametrize("line, column, word, near", [
    ("lock tiket threads 2", 6, "tiket", "ticket"), ("lock mcs thread 2", 10, "thread", "threads"),
    ("lock mcs threads 99", 18, "99", ""), ("lok mcs threads 2", 1, "lok", "lock")])
def test_line_that_is_no_header(tracer, line, column, word, near):
    output, *more = tracer.run("explain", stdin=f"{line}\n")
    assert more == ["", 4]
    assert f"  column {column}: '{word}', expected " in output and near in output
