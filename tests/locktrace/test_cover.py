"""`locktrace cover` counts how often schedules take each kind of transition, and lists the rest.

tests/rows/kinds.txt has the names of the kinds, and the oracle says which kinds a schedule takes.
Expected texts are written by hand from packaging/man/locktrace.1.
"""
import json
import shlex
from collections import Counter

import pytest

import search_rows
from spaces import searched, walk
from tree import cases

FAILED, CALLED = "release: failed compare-and-swap", "acquire: called"
ROUND = "{0} acquire\n{0} add\n{0} read\n{0} release\n{0} read\n{0} write\n"
TICKET = """ticket: 6 of 7 kinds of transition, in 60 moves
        10  acquire: called
        10  acquire: took a ticket
        10  acquire: entered
         0  acquire: poll before its turn: locktrace find ticket 2 '0 add next_ticket found 1' \
'0 read now_serving found 0'
        10  release: called
        10  release: read the ticket served
        10  release: served the next ticket
         2  the counter wrapped around
"""
MCS = "lock mcs threads 2\n"
TEXTS = {"ticket": "lock ticket threads 1 bits 2\n" + 10 * ROUND.format(0), "none": MCS,
         "refused": MCS + "0 acquire\n0 swap\n",
         "differs": MCS + "0 acquire\n0 write\n0 swap tail found 1\n"}
ALL_MISSING = "".join(f"locktrace: missing in mcs: {name}\n"
                      for name in search_rows.names()["mcs"].values())


@pytest.fixture
def program(tracer):
    tracer.write(**TEXTS, late=tracer.run("find", "mcs", "2", "* cas failed")[0])
    return tracer


def test_rounds(program):
    assert program.run("cover", "ticket") == (TICKET, "", 0)
    assert json.loads(program.run("cover", "--format", "json", "ticket")[0])["wraps"] == 2
    output = program.output("cover", "late", "ticket", "late")
    assert output.startswith(TICKET + "mcs: 7 of 16 kinds of transition, in 18 ")
    assert f"         2  {FAILED}\n" in output


@cases("words, begin, error, status", {
    "required and there": (["--require", FAILED, "late"], "mcs: ", "", 0),
    "required and missing": (["--require", FAILED, "none"], "mcs: ",
                             f"locktrace: missing: {FAILED}\n", 1),
    "the last of four is missing": (
        ["--require", f"{CALLED},acquire: took a ticket,release: called,{FAILED}", "ticket"],
        "ticket: ", f"locktrace: missing: {FAILED}\n", 1),
    "four are missing": (["--require", f"{CALLED},{FAILED},{CALLED},{FAILED}", "none"], "mcs: ",
                         2 * f"locktrace: missing: {CALLED}\nlocktrace: missing: {FAILED}\n", 1),
    "all are required": (["--require", "all", "none"], "mcs: ", ALL_MISSING, 1),
    "another value": (["differs"], "mcs: 2 of 16 kinds of transition, in 2 moves\n",
                      "differs:4: refused: thread 0's swap found 1 in tail; "
                      "the published algorithm has 0\n"
                      "differs:2: note: before it: 0 acquire\n"
                      "differs:3: note: before it: 0 write\n"
                      "differs:4: note: held by nobody; queue empty\n"
                      "differs:4: help: swap the tail by one atomic operation: a load and a "
                      "store let two threads find one value\n", 1),
})
def test_required_kinds_and_status(program, words, begin, error, status):
    output, *more = program.run("cover", *words)
    assert more == [error, status]
    assert output.startswith(begin)


def test_refused_move(program):
    output, error, status = program.run("cover", "refused")
    assert output.startswith("mcs: 1 of 16 kinds of transition, in 1 move\n") and status == 1
    assert error.startswith("refused:3: refused: ")
    output, error, status = program.run("cover", "refused", "absent")  # the greatest status wins
    assert output and error.startswith("refused:3") and status == 3


def test_no_trace(program):
    assert program.run("cover", stdin="\nlock\n") == (
        "", "-:2: not a header (BadHeader)\n-:2: note: column 6: the end of the line, expected "
        "ticket, mcs, rw-simple or rw-fifo\n", 4)


def counted(program, schedule):
    """The count of each kind for a schedule, and the kinds with the commands that find them."""
    kinds = json.loads(program.output("cover", "--format", "json", stdin=schedule))["kinds"]
    return {kind["name"]: kind["count"] for kind in kinds}, [
        (kind["name"], kind.get("find")) for kind in kinds]


@pytest.mark.parametrize("lock", search_rows.names())
def test_command_for_each_kind(tracer, lock):
    """The command that `cover` names for a missing kind finds a schedule that takes the kind."""
    named = search_rows.names()[lock]
    counts, commands = counted(tracer, f"lock {lock} threads 2\n")
    assert counts == dict.fromkeys(named.values(), 0)
    space = searched(search_rows.Space(lock, 2, 1, 64))
    for name, command in commands:
        words = shlex.split(command)
        schedule, error, status = tracer.run(*words[1:])
        assert (words[0], error, status) == ("locktrace", "", 0)
        walked = Counter(named[each.kind] for each in walk(space, search_rows.moves_of(schedule)))
        assert walked[name] > 0, command
        assert counted(tracer, schedule)[0] == {it: walked[it] for it in named.values()}, command
