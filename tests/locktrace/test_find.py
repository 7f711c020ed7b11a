"""`locktrace find`: how it reads a sketch, its messages, and the schedules that it finds.

Messages are written by hand from packaging/man/locktrace.1 and docs/FORMATS.md.
tests/rows/sketches.txt has the lengths of runs and the counts of states, and the oracle makes every
move of a schedule.
"""
import re
import shlex

import pytest

import search_rows
from endless import Endless
from spaces import measured, searched, walk
from tree import cases, ran

# The arguments of `find`, and its message that no run has the lines, or goes on for ever with them.
NOWHERE = [
    (["mcs", "2", "--rounds", "1", "0 cas done", "0 swap"],
     "no run of 2 threads with 1 round each has '0 swap' after '0 cas done': "
     "all 76 states were searched\n"),
    (["mcs", "3", "--rounds", "1", "0 write locked of 1", "1 write locked of 0"],
     "no run of 3 threads with 1 round each has '1 write locked of 0' after '0 write locked of 1': "
     "all 1,018 states were searched\n"),
    (["mcs", "2", "--rounds", "2", "0 swap tail found 1"],
     "no run of 2 threads with 2 rounds each has '0 swap tail found 1': "
     "all 325 states were searched\n"),
    (["mcs", "2", "0 swap tail found 1"],
     "no run of 2 threads with any number of rounds each has '0 swap tail found 1': "
     "all 89 states were searched\n"),
    (["ticket", "3", "--rounds", "1", "--bits", "2", "* write now_serving left 0"],
     "no run of 3 threads with 1 round each, on words of 2 bits, has '* write now_serving left 0': "
     "all 231 states were searched\n"),
    # Once, unless --rounds says else, if counters have more than 8 bits.
    (["rw-fifo", "1", "* section waits"],
     "no run of 1 thread with 1 round has '* section waits': all 10 states were searched\n"),
    (["ticket", "2", "--bits", "9", "0 write", "0 add"],
     "no run of 2 threads with 1 round each, on words of 9 bits, has '0 add' after '0 write': "
     "all 41 states were searched\n"),
    # Six states for each of the 256 values of 8 bits.
    (["ticket", "1", "--bits", "8", "0 add found 1", "not 0 add", "0 read found 0"],
     "no run of 1 thread with any number of rounds, on words of 8 bits, has '0 add found 1', "
     "then 'not 0 add', then '0 read found 0': all 1,536 states were searched\n"),
    (["rw-simple", "2", "--rounds", "1", "0 rlock", "0 section entered", "1 wlock",
      "1 section entered", "0 runlock"],
     "no run of 2 threads with 1 round each has '0 rlock', then '0 section entered', "
     "then '1 wlock', then '1 section entered', then '0 runlock': all 60 states were searched\n"),
    (["mcs", "2", "not 1 write", "0 cas failed"],
     "no run of 2 threads with any number of rounds each has 'not 1 write', then '0 cas failed': "
     "all 89 states were searched\n"),
    (["ticket", "2", "--bits", "2", "0 add", "again", "0 read waits", "not 0 read entered"],
     "no run of 2 threads with any number of rounds each, on words of 2 bits, goes on for ever "
     "with '0 read waits' and 'not 0 read entered' after '0 add': all 112 states were searched, "
     "and in a cycle each thread moves that is in a call or holds the lock\n"),
    (["mcs", "1", "--rounds", "1", "again", "0 cas done"],
     "no run of 1 thread with 1 round, on words of 64 bits, goes on for ever with '0 cas done': "
     "all 7 states were searched, and in a cycle each thread moves that is in a call or holds the "
     "lock\n"),
]

LINE = "not a line of a sketch (BadLine)"
OPEN = ("'next_ticket', 'now_serving', 'tail', 'next', 'locked', 'moved', 'waits', "
        "'entered', 'left'")
STEPS = "a call (acquire, rlock ..) or a step (read, write, swap, cas, add, section)"

# A line that is not one of a sketch, and its message: the column, the word there, the words
# expected.
FAULTS = [
    ("* caz failed", f"  column 3: 'caz', expected {STEPS}; did you mean 'cas'?\n"),
    ("x cas", "  column 1: 'x', expected '*', or a thread's number, from 0 to 255\n"),
    ("*", f"  column 3: the end of the line, expected {STEPS}\n"),
    ("* cas tail fund 3", "  column 12: 'fund', expected the end, 'found', 'left', 'done' or "
                          "'failed'; did you mean 'found'?\n"),
    ("* read done", f"  column 8: 'done', expected the end, {OPEN} or 'found'\n"),
    ("* cas fond 3", f"  column 7: 'fond', expected the end, {OPEN}, 'found', 'done' or 'failed'"
                     "; did you mean 'found'?\n"),
    ("* cas found x", "  column 13: 'x', expected a number of at most 64 bits\n"),
    ("0 cas found", "  column 13: the end of the line, expected a number of at most 64 bits\n"),
    ("0 write next of", "  column 17: the end of the line, expected a thread's number, "
                        "from 0 to 255\n"),
    ("* section done", "  column 11: 'done', expected the end, the section's count, or moved, "
                       "waits, entered or left\n"),
    ("* acquire now", "  column 11: 'now', expected the end\n"),
    ("not * caz failed", f"  column 7: 'caz', expected {STEPS}; did you mean 'cas'?\n"),
    ("not 1 cas tail fund", "  column 16: 'fund', expected the end, 'found', 'left', 'done' or "
                            "'failed'; did you mean 'found'?\n"),
    ("not", "  column 1: 'not', expected '*', or a thread's number, from 0 to 255\n"),
    ("not not 1 cas", "  column 5: 'not', expected '*', or a thread's number, from 0 to 255\n"),
]

# A line that no run of an MCS lock with two threads has, and the reason.
NEVER = [
    ("0 add", "the lock has no such operation or step (WrongLock)"),
    ("* section waits", "the lock has no such operation or step (WrongLock)"),
    ("1 wlock", "the lock has no such operation or step (WrongLock)"),
    ("2 acquire", "no such thread (NoSuchThread)"),
    ("255 read next found 0", "no such thread (NoSuchThread)"),
    ("not * add", "the lock has no such operation or step (WrongLock)"),
    ("not 2", "no such thread (NoSuchThread)"),
]

# A line that names no facts of a ticket lock with two threads.
NO_FACTS = ["is ", "is hold", "is hold 2", "is hold 0 1", "is 0 at", "is 2 at Idle",
            "is 0 at idle", "is 0 at AwaitTurn(0)", "is tail 0", "is now_serving",
            "is now_serving x", "is now_serving  1", "is hold 0,", "is hold 0,, hold 1",
            "is hold 0; hold 1", "is hold 0,hold 1", "is held 0", "is queue", "is queue 2",
            "is queue 0,", "is queue 0,1, -", "is queue 0, 1"]
NO_FACT = ("not facts of this lock: 'hold T', 'queue T,..', 'T at PHASE' or 'WORD V', with ', ' "
           "between them (BadFact)\n")
# A lock, a line that no sketch of it can have, and the message.
REFUSED = [*(("mcs", line, f"no run has this line: {why}\n") for line, why in NEVER),
           *(("mcs", line, f"{LINE}\n{said}") for line, said in FAULTS),
           *(("ticket", line, NO_FACT) for line in NO_FACTS)]

# The message for a `not` in the last line.
OPEN_NOT = "'not' holds up to the next line, and there is none (NoNextLine)\n"

# The message for a comment that begins as a remark and is none.
NO_REMARK = "not a remark of a sketch: '#! rounds R' (BadRemark)\n"

# Arguments of `space` that name no lock, and the message.
NO_LOCKS = [
    (["ms", "2"], "'lock ms threads 2': not a header (BadHeader)\n  column 6: 'ms', expected "
                  "ticket, mcs, rw-simple or rw-fifo; did you mean 'mcs'?\n"),
    (["mcs", "65"], "'lock mcs threads 65': not a number of threads (BadThreads)\n  column 18: "
                    "'65', expected a number of threads, from 1 to 64\n"),
    (["mcs", "4", "--bits", "2"],
     "'lock mcs threads 4 bits 2': words too narrow for the threads (WordsTooNarrow)\n"
     "  expected fewer threads than words of that many bits have values\n"),
]


@pytest.mark.parametrize("lock, line, said", REFUSED)
def test_line_that_is_refused(tracer, lock, line, said):
    """Arguments and texts with the line get the message, before any search."""
    assert tracer.run("find", lock, "2", "* release", line) == (
        "", f"locktrace: '{line}': {said}", 2)
    assert tracer.run("find", "-", stdin=f"lock {lock} threads 2\n\n{line}\n") == (
        "", f"-:3: {said}", 4)


@pytest.mark.parametrize("words, said", NO_LOCKS, ids=str)
def test_no_lock(tracer, words, said):
    assert tracer.run("space", *words) == ("", f"locktrace: {said}", 2)


SEARCHED = re.compile(r"; a search of ([\d,]+) states? found it:\n")


def without_count(schedule):
    """A schedule that does not say how many states were searched."""
    return SEARCHED.sub(":\n", schedule, count=1)


# The arguments, the input, whose run is found, the lines after that up to some move, and the number
# of moves. A comment names the line after which facts hold, at first the header, or before which
# a `not` holds; if a position meets the next line, the line after which it is there.
FOUND = {
    "positions": ("ticket 2 'is now_serving 0, queue -' '1 add' 'is hold 1, 0 at Idle' 'not 0' "
                  "'1 write'", "", "2 threads with 1 round each",
                  "# after line 7: is now_serving 0, queue -\n# line 9: 1 add\n"
                  "# after line 10: is hold 1, 0 at Idle\n# before line 13: not 0\n"
                  "# line 13: 1 write\nlock ticket threads 2\n1 acquire\n1 add\n1 read\n"
                  "1 release\n1 read\n1 write\n", 6),
    "not": ("mcs 2 '0 read next found 0' 'not * cas failed' 'not 1 read' '0 write locked of 1'", "",
            "2 threads with any number of rounds each",
            "# line 16: 0 read next found 0\n# before line 20: not * cas failed\n"
            "# before line 20: not 1 read\n# line 20: 0 write locked of 1\nlock mcs threads 2\n",
            14),
    "not before a position": ("ticket 2 '1 add' 'not 0' 'is hold 1'", "",
                              "2 threads with 1 round each",
                              "# line 7: 1 add\n# up to line 8: not 0\n# after line 8: is hold 1\n"
                              "lock ticket threads 2\n1 acquire\n1 add\n1 read\n", 3),
    "rounds of a text": ("-", "#! rounds 2\nlock mcs threads 2\n0 cas done\n\n"
                         "0 swap tail found 0\n", "2 threads with 2 rounds each",
                         "# line 10: 0 cas done\n# line 13: 0 swap tail found 0\n"
                         "lock mcs threads 2\n0 acquire\n", 9),
    "any rounds of a text": ("-", "#! rounds any\nlock mcs threads 1\n0 cas done\n0 cas done\n"
                             "0 swap\n", "1 thread with any number of rounds",
                             "# line 11: 0 cas done\n# line 17: 0 cas done\n"
                             "# line 20: 0 swap\n", 15),
}


@cases("words, stdin, whose, begin, moves", FOUND)
def test_schedule(tracer, words, stdin, whose, begin, moves):
    output = tracer.output("find", *shlex.split(words), stdin=stdin)
    assert without_count(output).startswith(
        f"# A shortest run of {whose} that has these lines, in this order:\n{begin}")
    assert len(search_rows.moves_of(output)) == moves


def test_not_without_a_next_line(tracer):
    assert tracer.run("find", "mcs", "2", "* cas", "not 1 swap") == (
        "", f"locktrace: 'not 1 swap': {OPEN_NOT}", 2)
    assert tracer.run("find", "-", stdin="lock mcs threads 2\n* cas\nnot 1\n# so\n") == (
        "", f"-:5: {OPEN_NOT}", 4)


@cases("text, said", {
    "256 lines": ("lock mcs threads 2\n" + 256 * "* acquire\n",
                  "-:257: a sketch has at most 255 lines (TooManyLines)\n"),
    "no header": ("# none\n", "-:2: no header (NoHeader)\n"),
    "no rounds": ("#! rounds 0\n",
                  "-:1: not a number of rounds, from 1 to 255, or any (BadRounds)\n"),
    "an unknown remark": ("#! rond 2\n", f"-:1: {NO_REMARK}"),
    "a remark without a blank": ("#!rounds 2\n", f"-:1: {NO_REMARK}"),
    "again after 255 lines": ("lock mcs threads 2\n" + 255 * "* acquire\n" + "again\n",
                              "-:257: a sketch has at most 255 lines (TooManyLines)\n"),
    "a long line": (f"lock mcs threads 2\n0 cas{92 * ' '}\n",
                    f"-:2: {LINE}\n  no header and no move has more than 96 bytes\n"),
})
def test_text_that_is_no_sketch(tracer, text, said):
    assert tracer.run("find", "-", stdin=text) == ("", said, 4)


@pytest.mark.parametrize("words, said", NOWHERE, ids=str)
def test_sketch_that_no_run_has(tracer, words, said):
    assert tracer.run("find", *words) == ("", said, 1)


def test_rounds_of_the_words(tracer):
    """They take the place of those of the text."""
    assert tracer.run("find", "--rounds", "1", "-", stdin="#! rounds 2\nlock mcs threads 2\n"
                      "0 cas done\n0 swap\n") == ("", NOWHERE[0][1], 1)


WIDE = (r"; in wide words the counts have no end, and narrow ones \(--bits {}\) make the space "
        "finite")
MORE = r" \(--limit allows more\)"


@pytest.mark.parametrize("words, states, more", [
    ("find mcs 3 --limit 100 '0 cas done' '0 swap'", r"1\d\d", MORE),
    ("space mcs 3 --limit 100", r"1\d\d", MORE),
    ("space mcs 3 --format dot --limit 9", r"1\d+", MORE),
    # The narrowest words for four threads have three bits; words have at least two.
    ("find ticket 4 --rounds any --limit 9 '0 release'", r"\d\d", WIDE.format(3)),
    ("find rw-fifo 4 --rounds any --limit 9 '0 runlock'", r"\d\d", WIDE.format(3)),
    ("find ticket 2 --limit 50 again", "51", WIDE.format(2)),
    ("find ticket 1 --rounds any --limit 3 '0 release'", "4", WIDE.format(2))])
def test_not_decided(tracer, words, states, more):
    """In wide words the counters grow without end, so the message proposes narrow ones."""
    output, error, status = tracer.run(*shlex.split(words))
    assert (output, status) == ("", 3)
    assert re.fullmatch(
        f"locktrace: not decided: the search stopped at {states} states{more}\n", error)


@pytest.mark.parametrize("sketch", list(search_rows.sketches()), ids=str)
def test_sketch(tracer, lockreplay, sketch):
    """The schedule is shortest, has the lines where its comments say, and is accepted."""
    lock, threads, rounds, bits = sketch.space
    output, error, status = tracer.run("find", lock, threads, "--rounds", rounds, "--bits", bits,
                                       *sketch.lines)
    if sketch.length is None:
        number = re.search(r"all ([\d,]+) states", error)
        assert (output, status, number[1].replace(",", "")) == ("", 1, str(sketch.states))
        return
    assert (error, status) == ("", 0)
    run, space = search_rows.moves_of(output), searched(sketch.space)
    states = int(SEARCHED.search(output)[1].replace(",", ""))
    assert len(run) < states <= len(space) * (len(sketch.lines) + 1)
    assert measured(space, sketch.lines, run) == sketch.measure
    assert ran(lockreplay, "replay", input=output).stdout.endswith(f"\nend {sketch.length}\n")
    said = re.findall(r"^# ((?:before |up to |after )?line) (\d+): (.*)$", output, re.MULTILINE)
    assert [line for _, _, line in said] == sketch.lines
    states = [0, *(transition.after for transition in walk(space, run))]
    for how, number, line in said:
        if how == "line":
            made = output.splitlines()[int(number) - 1].split()
            assert [line.split()[0] in ("*", made[0]), line.split()[1]] == [True, made[1]]
        elif how == "after line":
            state = states[int(number) - len(sketch.lines) - 2]
            facts = line.removeprefix("is ").split(", ")
            assert all(space.is_true(fact, state) for fact in facts)
        else:
            assert line.startswith("not ")


FROM = "# from line {} on, again and again"


@pytest.mark.parametrize("row", list(search_rows.endless()), ids=str)
def test_endless(tracer, lockreplay, row):
    """The schedule has a shortest way to a cycle, and a cycle that has all that is asked."""
    lock, threads, rounds, bits = row.space
    output, error, status = tracer.run("find", lock, threads, "--rounds", rounds, "--bits", bits,
                                       *row.lines)
    assert status == (row.length is None)
    if row.length is None:
        assert (output, "goes on for ever" in error) == ("", True)
        return
    lines, run = output.splitlines(), search_rows.moves_of(output)
    number = next(n for n in range(len(lines)) if lines[n] == FROM.format(n + 2))
    way = run[:row.length]
    assert lines[number + 1:] == [f"{thread} {word}" for thread, word in run[len(way):]]
    space = searched(row.space)
    made, states = list(walk(space, run)), [0]
    states += [transition.after for transition in made]
    assert len(made) == len(run)
    assert Endless(space, row.lines).is_cycle(states[len(way):-1], made[len(way):])
    assert ran(lockreplay, "replay", input=output).stdout.splitlines()[-1].startswith("end ")


def test_what_is_said_of_a_cycle(tracer):
    """Comments name the lines, the line after which the cycle may begin, and what repeats."""
    output = tracer.output("find", "rw-simple", "2", "0 rlock", "again", "0 section waits",
                           "not 0 section entered")
    assert without_count(output) == """\
# A run of 2 threads with any number of rounds each that has these lines, in this order, and \
goes on for ever:
# line 7: 0 rlock
# after line 7: again
# again and again: 0 section waits
# again and again: not 0 section entered
lock rw-simple threads 2
0 rlock
# from line 9 on, again and again
1 wlock
1 section
0 section
1 wunlock
1 section
"""


@pytest.mark.parametrize("lines, line", [
    (["again", "0 rlock", "again"], "again"), (["again", "rlock"], "rlock"),
    (["again", "not rlock"], "not rlock")])
def test_no_line_of_a_cycle(tracer, lines, line):
    _, error, status = tracer.run("find", "rw-simple", "2", *lines)
    assert status == 2 and error.startswith(f"locktrace: '{line}': {LINE}")


def test_a_bar_after_again_needs_no_next_line(tracer):
    """`not` holds in the whole cycle; before `again` it holds up to that line."""
    output, _, status = tracer.run("find", "-", stdin="lock mcs threads 2\nnot 0\nagain\nnot 1\n")
    assert status == 0 and "\n1 " not in output
    assert tracer.run("find", "mcs", "2", "again", "not 3 swap")[1:] == (
        "locktrace: 'not 3 swap': no run has this line: no such thread (NoSuchThread)\n", 2)
