"""`locktrace order` finds an order for a run's logs, and writes a trace and schedules of it; or it
names the step that has no place.

Expected texts are worked out by hand from docs/FORMATS.md and packaging/man/locktrace.1.
"""
import socket

import pytest

from devices import Terminal, little_memory, short_files
from traces import LOGS, ROUND
from tree import cases

ORDERED = b"\r\x1b[Kordering 100000 moves\r\x1b[Kwriting 100000 moves\r\x1b[K"
MORE = ("{0}: warning: cut off, without its last line\n"
        "locktrace: note: ordered up to there: {1} steps\n")
# The message about a step that cannot be placed: the step and the cause, the next step of the other
# thread if there is one, the number of placed steps, and the holders and queue.
STUCK = "{0}: cannot be placed: {1}\n{4}{0}: note: {2} steps placed; {3}\n"
NEXT = "{0}.log:{1}: note: thread {0}'s next step is '{2}': {3}\n"
WAITS = "a step of another thread has to come before"
BAD_HEADER = "1.log:1: not a log's header: lock NAME threads N thread T (BadHeader)\n"
BAD_MOVE = "1.log:{}: not a move (BadLine)\n"
WHOLE = ["dropped 0"]

SWAPPED = ["acquire", "write next left 0", "swap tail found 0"]
AWAITED = ["acquire", "write next left 0", "swap tail found 1", "write locked left 1",
           "write next of 0 left 2", "read locked found 1", "read locked found 0"]
RETURNED = ["release", "read next found 0", "cas tail done", *SWAPPED[:2], "swap tail found 1"]

# The lock, the moves of threads 0 and 1 with the last lines of their logs, the status, and the
# message. A step that the lock cannot make, or that leaves another value, is surely wrong. Less
# certain are, in this order, another outcome, another value found, and a step that only waits.
ENDINGS = [
    ("a wrong step beside a cut log", "mcs", SWAPPED,
     ["acquire", "write next left 0", "swap tail found 1 left 1", *WHOLE], 1,
     STUCK.format("1.log:4", "thread 1's swap left 1 in tail; the published algorithm leaves 2", 5,
                  "held by 0; queue 0", "")),
    ("a value that a cut log may explain", "mcs", SWAPPED, [*AWAITED, *WHOLE], 0,
     MORE.format("0.log", 9)),
    ("a value that no log explains", "mcs", [*SWAPPED, *WHOLE], [*AWAITED, *WHOLE], 1,
     STUCK.format("1.log:8",
                  "thread 1's read found 0 in locked of 1; the published algorithm has 1", 9,
                  "held by 0; queue 0,1", "")),
    ("an outcome that a cut log may explain", "rw-simple", ["wlock", "section 1 entered"],
     ["rlock", "section 3 entered", *WHOLE], 0, MORE.format("0.log", 3)),
    ("an outcome that no log explains", "rw-simple", ["wlock", "section 1 entered", *WHOLE],
     ["rlock", "section 3 entered", *WHOLE], 1,
     STUCK.format("1.log:3",
                  "thread 1's section came to 'entered'; the published algorithm's to 'waits'", 3,
                  "written by 0", "")),
    ("a value is less certain than a step that waits", "mcs",
     [*SWAPPED, "release", "read next found 2", *WHOLE],
     ["acquire", "write next found 5 left 0", SWAPPED[2], *RETURNED, *WHOLE], 1,
     STUCK.format("1.log:3",
                  "thread 1's write found 5 in next of 1; the published algorithm has 0", 3,
                  "held by nobody; queue empty", NEXT.format(0, 4, "0 swap tail found 0", WAITS))),
]
# Two wrong steps, of which the message blames the second, whichever thread makes it. `{t}` is that
# thread, and `{o}` the other thread, whose line and next step end the row.
SUSPECTS = [
    ("a refused step and a value", "ticket", ["acquire", "add next_ticket found 5"],
     ["acquire", "read now_serving found 0"],
     "'{t} read', but in the published algorithm thread {t}'s next step is 'add' (WrongStep)", 2,
     "held by nobody; queue empty",
     (3, "{o} add next_ticket found 5",
      "thread {o}'s add found 5 in next_ticket; the published algorithm has 0")),
    ("an outcome and a count", "rw-simple",
     ["rlock", "section 1 entered", "runlock", "section 1 left"], ["wlock", "section 2 entered"],
     "thread {t}'s section came to 'entered'; the published algorithm's to 'waits'", 4,
     "read by {o}",
     (5, "{o} section 1 left", "thread {o}'s section has the count 1, after the count 1")),
    ("two outcomes", "rw-simple", ["wlock", "section 2 waits"], ["rlock", "section 1 waits"],
     "thread {t}'s section came to 'waits'; the published algorithm's to 'entered'", 2,
     "held by nobody",
     (3, "{o} section 2 waits",
      "thread {o}'s section came to 'waits'; the published algorithm's to 'entered'")),
]
TAKEN = "acquire\nadd next_ticket found 0\nread now_serving found 0\ndropped 0\n"
# The bytes after the header of thread 1's log, the status, and the message.
TEXTS = [
    ("a move without its end", "acquire\nadd next_ticket found 1", 0, MORE.format("1.log", 4)),
    ("half a move without its end", "acquire\nadd next_ti", 0, MORE.format("1.log", 4)),
    ("half a move", "acquire\nadd next_ti\n", 4, BAD_MOVE.format(3)),
    ("a last line without its end", "acquire\ndropped 0", 0, ""),
    ("a move with its thread", "1 acquire\n", 4, BAD_MOVE.format(2)),
    ("dropped moves", "acquire\ndropped 18446744073709551615\n", 0,
     "1.log: warning: 18,446,744,073,709,551,615 moves were dropped\n"
     "locktrace: note: ordered up to there: 4 steps\n"),
    ("too many dropped moves", "acquire\ndropped 18446744073709551616\n", 4, BAD_MOVE.format(3)),
]


def order(tracer, *texts):
    """Orders the logs of two threads."""
    tracer.write(**{f"{thread}.log": text for thread, text in enumerate(texts)})
    return tracer.run("order", "0.log", "1.log", "-o", "hand")


def log(lock, thread, lines, threads=2):
    return "\n".join([f"lock {lock} threads {threads} thread {thread}", *lines, ""])


@pytest.mark.parametrize("t", [0, 1])
@cases("row", {row[0]: row[1:] for row in SUSPECTS})
def test_step_that_is_named(tracer, row, t):
    lock, less, more, said, placed, standing, (at, step, wrong) = row
    logs = (less, more) if t else (more, less)
    done = order(tracer, *(log(lock, u, [*moves, *WHOLE]) for u, moves in enumerate(logs)))
    o = 1 - t
    assert done == ("", STUCK.format(
        f"{t}.log:{len(more) + 1}", said.format(t=t), placed, standing.format(o=o),
        NEXT.format(o, at, step.format(o=o), wrong.format(o=o))), 1)


HEADER = "lock ticket threads 2{} thread {}\n"
FIRST, SECOND = HEADER.format("", 0) + TAKEN, HEADER.format("", 1)
LONGEST = "lock rw-simple threads 64 bits 64 thread 63\ndropped 0\n"


@cases("first, second, status, error", {
    **{name: (log(lock, 0, moves), log(lock, 1, others), status, error)
       for name, lock, moves, others, status, error in ENDINGS},
    **{name: (FIRST, SECOND + text, status, error) for name, text, status, error in TEXTS},
    "other bits": (HEADER.format(" bits 8", 0) + TAKEN, HEADER.format(" bits 9", 1) + "dropped 0\n",
                   4, "1.log: of another lock than the first log's\n"),
    "the same bits": (FIRST, HEADER.format(" bits 64", 1) + "dropped 0\n", 0, ""),
    "long headers": (LONGEST, LONGEST.replace("63", "62"), 4, "locktrace: no log of thread 0\n"),
    # A line has more bytes than a header or a move may have, so its first words do not save it.
    **{f"{name} of {size} bytes": (FIRST, text.format(line.ljust(size)), 4, error)
       for size in (96, 97, 98, 200, 70_000) for name, text, line, error in (
           ("a header", "{}\ndropped 0\n", SECOND.rstrip(), BAD_HEADER),
           ("a move", SECOND + "{}\ndropped 0\n", "acquire", BAD_MOVE.format(2)),
           ("a last line", SECOND + "{}\n", "dropped 0", BAD_MOVE.format(2)))},
})
def test_text_of_a_log(tracer, first, second, status, error):
    assert order(tracer, first, second) == ("", error, status)


def test_order(tracer):
    made = tracer.folder / "made"
    assert tracer.run("order", *LOGS, "-o", "made") == ("", "", 0)
    assert tracer.run("check", "made/run.trace") == ("", "", 0)
    names = ["order.list", "run-0001.schedule", "run.trace"]
    assert sorted(path.name for path in made.iterdir()) == names
    assert (made / "order.list").read_text() == "run.trace\nrun-0001.schedule\n"
    assert tracer.run("schedule", "made/run.trace") == (
        (made / "run-0001.schedule").read_text(), "", 0)


CUT = "lock ticket threads 2 thread 1\nacquire\n"
SPOILT = LOGS["thread-1.log"].replace("found 1", "found 7", 1)


@cases("files, names, status, error", {
    "stuck": ({"thread-1.log": SPOILT}, "thread-0.log thread-1.log", 1,
              "thread-1.log:3: cannot be placed: thread 1's add found 7 in next_ticket; the "
              "published algorithm has 1\n"
              "thread-1.log:3: note: 7 steps placed; held by nobody; queue empty\n"),
    "an empty log": ({"empty.log": ""}, "empty.log", 4, "empty.log:1: no header (NoHeader)\n"),
})
def test_bad_logs(tracer, files, names, status, error):
    tracer.write(**files)
    assert tracer.run("order", *names.split(), "-o", "made") == ("", error, status)


FAULTY_LOG = {"faulty.log": log("ticket", 0, ["aquire"], 1)}
FAULT = "faulty.log:2: not a move (BadLine)\n"


@cases("files, names, status, begin, end", {
    "no such log": ({}, "absent thread-0.log", 3, "absent: ", "\n"),
    "no log": ({}, "faulty thread-0.log", 4, "faulty:1: not a log's header", "\n"),
    "cut off": ({"thread-1.log": CUT}, "thread-0.log thread-1.log", 0,
                "thread-1.log: warning: cut off", "ordered up to there: 7 steps\n"),
    # The greatest status wins, whichever log comes first, and a message names each log.
    "faulty, absent": (FAULTY_LOG, "faulty.log absent.log", 4, f"{FAULT}absent.log: ", "\n"),
    "absent, faulty": (FAULTY_LOG, "absent.log faulty.log", 4, "absent.log: ", f"\n{FAULT}"),
})
def test_logs_that_are_named(tracer, files, names, status, begin, end):
    tracer.write(**files)
    output, error, found = tracer.run("order", *names.split(), "-o", "made")
    assert (output, found) == ("", status)
    assert error.startswith(begin) and error.endswith(end)
    assert error.count("\n") == (1 if status == 3 or files == {} else 2)
    assert (tracer.folder / "made").exists() == (status == 0)


def test_log_of_the_last_thread(tracer):
    logs = {f"{t}.log": log("ticket", t, WHOLE, 64) for t in range(63)}
    logs["63.log"] = log("ticket", 63, ["read now_serving found 0", *WHOLE], 64)
    tracer.write(**logs)
    assert tracer.run("order", *logs, "-o", "made") == ("", STUCK.format(
        "63.log:2", "'63 read', but thread 63 has no pending call (NoCall)", 0,
        "held by nobody; queue empty", ""), 1)


def test_folder_that_cannot_be_made(tracer):
    assert tracer.run("order", *LOGS, "-o", "good/made") == (
        "", "locktrace: cannot write good/made: Not a directory (os error 20)\n", 3)


def test_ten_million_moves(tracer):
    """`order` places ten million moves; within 200 MB it says that it is out of memory."""
    tracer.write(**{"long.log": log("ticket", 0, ROUND * 1_666_667 + WHOLE, 1)})
    words = ["order", "long.log", "-o", "long"]
    assert tracer.run(*words) == ("", "", 0)
    with open(tracer.folder / "long" / "run.trace", "rb") as trace:
        assert sum(1 for _ in trace) == 10_000_003
    assert tracer.run(*words, preexec_fn=little_memory(200 << 20)) == (
        "", "locktrace: out of memory\n", 3)


def test_pieces_of_a_trace(tracer):
    """A trace is written in pieces of 64 KiB and a line, so that memory does not grow with it."""
    lines = [line for ticket in range(700) for line in (
        "acquire", f"add next_ticket found {ticket}", f"read now_serving found {ticket}",
        "release", f"read now_serving found {ticket}", f"write now_serving left {ticket + 1}")]
    tracer.write(**{"one.log": log("ticket", 0, [*lines, *WHOLE], 1)})
    # A socket of this kind keeps apart what each call writes, and the process is not to wait.
    ours, theirs = socket.socketpair(socket.AF_UNIX, socket.SOCK_SEQPACKET)
    with ours, theirs:
        assert tracer.run("order", "one.log", "-o", "-", stdout=theirs) == ("", "", 0)
        theirs.close()
        pieces = list(iter(lambda: ours.recv(1 << 20), b""))
    trace = "lock ticket threads 1\n" + "".join(f"0 {line}\n" for line in lines)
    assert b"".join(pieces) == trace.encode()
    assert [len(piece) // 65_536 for piece in pieces] == [1, 0]


MOST = 65_536  # moves of a schedule
PAIRS = 4_681  # rounds of each thread: a pair of rounds has 14 moves, the first pair a poll less
LEFT_OUT = ("locktrace: warning: {} in no schedule. A schedule has at most 65536 moves, and after "
            "those somebody was in a call\n")


def schedules_in(folder):
    """The moves of each schedule in a folder, by its name."""
    return {path.name: path.read_text().splitlines()[1:]
            for path in sorted(folder.glob("*.schedule"))}


def test_parts_of_a_run(tracer):
    """A long run of one thread is cut after some round, so its schedules keep every move."""
    lines = []
    for ticket in range(30_000):
        lines += ["acquire", f"add next_ticket found {ticket}", f"read now_serving found {ticket}",
                  "release", f"read now_serving found {ticket}", "write now_serving"]
    tracer.write(**{"thread-0.log": log("ticket", 0, [*lines, *WHOLE], 1)})
    assert tracer.run("order", "thread-0.log", "-o", "made") == ("", "", 0)
    made = schedules_in(tracer.folder / "made")
    assert list(made) == [f"run-{k:04}.schedule" for k in (1, 2, 3)]
    assert sum(made.values(), []) == [f"0 {word}" for word in ROUND] * 30_000
    assert all(len(part) % 6 == 0 and len(part) <= MOST for part in made.values())


def handed_over(polls):
    """The logs of two threads that hand the lock over to each other. Each thread makes a failed
    poll before the other one leaves, so somebody is in a call all the time. The last round has
    `polls` failed polls more."""
    logs = [[], []]
    for ticket in range(2 * PAIRS):
        moves = logs[ticket % 2]
        moves += ["acquire", f"add next_ticket found {ticket}"]
        last = polls if ticket == 2 * PAIRS - 1 else 0
        vain = 0 if ticket == 0 else 1 + last
        moves += [f"read now_serving found {ticket - 1}"] * vain
        moves += [f"read now_serving found {ticket}", "release",
                  f"read now_serving found {ticket}", f"write now_serving left {ticket + 1}"]
    return logs


@pytest.mark.parametrize("polls, said", [
    (3, ""), (4, LEFT_OUT.format("1 move is")), (5, LEFT_OUT.format("2 moves are")),
    (17, LEFT_OUT.format("14 moves are"))])
def test_moves_left_out(tracer, polls, said):
    """The run has 14 * PAIRS - 1 + polls moves, which is 65,533 + polls. The schedule has the first
    65,536, and a warning counts the others."""
    tracer.write(**{f"thread-{thread}.log": log("ticket", thread, [*moves, *WHOLE])
                    for thread, moves in enumerate(handed_over(polls))})
    assert tracer.run("order", *LOGS, "-o", "made") == ("", said, 0)
    made = schedules_in(tracer.folder / "made")
    assert {name: len(part) for name, part in made.items()} == {"run-0001.schedule": MOST}
    assert tracer.run("check", "made/run.trace") == ("", "", 0)


def test_files_of_an_earlier_order(tracer):
    """A new order removes the files of an earlier order, and nothing else in the folder."""
    made = tracer.folder / "again"
    made.mkdir()
    own = ["own.schedule", "run-0002.schedules", "run-0009.schedule"]
    tracer.write(**{f"again/{name}": "lock mcs threads 2\n" for name in own})
    # A schedule has at most 65,536 moves, which are 10,922 rounds of 6.
    for count, schedules in ((21_845, 3), (10_923, 2), (10_922, 1)):
        tracer.write(**{"one.log": log("ticket", 0, ROUND * count + WHOLE, 1)})
        assert tracer.run("order", "one.log", "-o", "again") == ("", "", 0)
        due = ["run.trace", *(f"run-{number:04}.schedule" for number in range(1, schedules + 1))]
        assert (made / "order.list").read_text() == "".join(f"{name}\n" for name in due)
        assert sorted(path.name for path in made.iterdir()) == sorted([*own, *due, "order.list"])


def test_write_that_fails(tracer):
    """Nothing of a trace that cannot be written whole is left, and no list."""
    assert tracer.run("order", *LOGS, "-o", "short", preexec_fn=short_files(100)) == (
        "", "locktrace: cannot write short/run.trace: File too large (os error 27)\n", 3)
    assert list((tracer.folder / "short").iterdir()) == []


@pytest.mark.parametrize("moves, said", [(99_998, b""), (100_000, ORDERED)])
def test_progress_on_a_terminal(tracer, moves, said):
    """From 100,000 moves on the terminal shows the progress, which is cleared at the end."""
    calls = [line for n in range(1, moves // 2 + 1)
             for line in (["runlock", "rlock"][n % 2], f"section {n}")]
    tracer.write(**{"one.log": log("rw-simple", 0, [*calls, *WHOLE], 1)})
    with Terminal() as terminal:
        output = tracer.run("order", "one.log", "-o", "-", stderr=terminal.writer)[0]
        assert terminal.written() == said
    with Terminal() as terminal:
        tracer.run("order", "-q", "one.log", "-o", "-", stderr=terminal.writer)
        assert terminal.written() == b""
    assert len(output.splitlines()) == moves + 1
    assert not (tracer.folder / "-").exists()
