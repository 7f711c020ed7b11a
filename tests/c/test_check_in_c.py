"""built/locktrace.c, the proved check of a trace translated to C, answers as the oracle and as
`locktrace check` do.

The texts are all worked rows, and traces of random runs with a changed value, word or line, or with
a line that is no move. The records of right runs are those of the oracle's machine.
"""
import ctypes
import json
import random
import re

import pytest

import worked_rows
from catalogue import between, read
from locktrace import NO_WORD, Answer, LockTrace, Step
from machine import Machine
from random_runs import random_run
from recorders import once
from tree import TOP, output, ran
from transcripts import text_of, transcripts

TEXTS, AT_ONCE = 10_000, 500
WORDS = """0 1 2 3 00 255 256 lock ticket mcs rw-simple rw-fifo threads bits acquire release rlock
    runlock wlock wunlock downgrade read write swap cas add section next_ticket now_serving tail
    next locked of found left done failed called moved waits entered
    18446744073709551615 18446744073709551616
    -1 # x""".split() + ["1" * 90]  # a word that makes a line too long
OTHERS = {"next": "locked", "locked": "next", "done": "failed", "failed": "done",
          "waits": "entered", "entered": "waits", "moved": "left", "left": "found"}
STEPS = {name: number for number, name in enumerate("read write swap cas add section".split(), 16)}
CALLS = {name: number for number, name in enumerate(
    "acquire release rlock runlock wlock wunlock downgrade".split())}
OUTCOMES = {name: number for number, name in enumerate("called moved waits entered left".split())}
OWN = {"ticket": {"next_ticket": 0, "now_serving": 1}, "mcs": {"tail": 0}}


@pytest.fixture(scope="session")
def check(shared):
    """The check as a shared library, through the binding for Python."""
    path = shared / "liblocktrace.so"
    once(path, lambda: output("cc", "-shared", "-fPIC", "-O2", "-o", path,
                              TOP / "built" / "locktrace.c"))
    return LockTrace(path)


def fields_of(record):
    return tuple(getattr(record, name) for name, _ in type(record)._fields_)


def answer_of(check, text, room):
    """The answer to a text as (line, moves, fault, threads), and all records for which there is
    room. Before the check these have bytes that no check writes."""
    steps, answer = (Step * room)(), Answer()
    ctypes.memset(steps, 0xA5, ctypes.sizeof(steps))
    fault = check.library.lt_check(text, len(text), steps, room, ctypes.byref(answer))
    assert fault == answer.fault
    return fields_of(answer), [fields_of(step) for step in steps]


def is_written(record):
    return record != fields_of(Step.from_buffer_copy(b"\xa5" * ctypes.sizeof(Step)))


def number_of(lock, word):
    """The number of a word in docs/LOCKS.md."""
    if not isinstance(word, tuple):
        return OWN[lock][word]
    return 1 + 2 * word[1] + (word[0] == "locked")


def record_of(machine, number, thread, line):
    """Makes a move by the oracle's machine, and returns the record that is due."""
    word = line.split(" ")[0]
    if word in CALLS:
        assert machine.play(thread, word) == "called"
        return number, 0, 0, thread, CALLS[word], OUTCOMES["called"], NO_WORD
    made = machine.make(thread)
    if made.kind == "section":
        return number, 0, 0, thread, STEPS["section"], OUTCOMES[made.outcome], NO_WORD
    return (number, made.found, made.left, thread, STEPS[made.kind], OUTCOMES[made.outcome],
            number_of(machine.lock.name, made.word))


def records_of(run, moves):
    """The records of the first moves of a run, whose header is the first line; and its machine."""
    machine = Machine(run.lock, run.threads, run.bits)
    return [record_of(machine, number, *move) for number, move in enumerate(
        run.moves[:moves], 2)], machine


def seeded(request):
    return random.Random(int(request.config.getoption("hypothesis_seed")))


def count_of(request):
    return TEXTS // 10 if request.config.getoption("quick") else TEXTS


def text_of_run(run, lines=None):
    moves = lines or [f"{thread} {line}" for thread, line in run.moves]
    return "\n".join([run.header, *moves, ""]).encode("latin-1")


def test_right_runs(check, request):
    """Each record is that of the oracle's machine, whose code of a lock is the books'."""
    dice = seeded(request)
    for _ in range(count_of(request) // 10):
        run = random_run(dice)
        due, _ = records_of(run, len(run.moves))
        answer, records = answer_of(check, text_of_run(run), len(due) + 1)
        assert answer == (len(due) + 1, len(due), 0, run.threads)
        assert records[:-1] == due and not is_written(records[-1])


@pytest.mark.parametrize("room", [0, 1, 5])
def test_less_room(check, room):
    """Moves for which there is no room are checked too."""
    run = random_run(random.Random(1))
    due, _ = records_of(run, len(run.moves))
    answer, records = answer_of(check, text_of_run(run), room)
    assert answer == (len(due) + 1, len(due), 0, run.threads) and records == due[:room]


def other_line(dice, line):
    """The move with another value, word or outcome. Most results are still moves."""
    words = line.split(" ")
    places = [at for at, word in enumerate(words) if at > 1 and (word.isdigit() or word in OTHERS)]
    if places:
        at = dice.choice(places)
        words[at] = OTHERS.get(words[at]) or str(int(words[at]) + dice.choice([1, 2]))
    return " ".join(words)


def test_step_in_place_of_a_wrong_one(check, request):
    """The record after those of the moves that were made is the oracle's own step at that place."""
    dice, faults = seeded(request), set()
    for _ in range(count_of(request) // 10):
        run = random_run(dice)
        if not run.moves:
            continue
        lines = [f"{thread} {line}" for thread, line in run.moves]
        at = dice.randrange(len(lines))
        lines[at] = other_line(dice, lines[at])
        (_, moves, fault, _), records = answer_of(check, text_of_run(run, lines), len(lines) + 1)
        due, machine = records_of(run, moves)
        faults.add(fault)
        if 8 <= fault < 16:
            due.append(record_of(machine, moves + 2, *run.moves[moves]))
        assert records[:len(due)] == due and not any(map(is_written, records[len(due):]))
    assert faults >= {0, 8, 9, 10, 11, 13, 20}


# A text, and the record after those of the moves: of the step that is due, or without one.
TICKET, RW, MCS = (f"lock {name} threads 2\n" for name in ("ticket", "rw-simple", "mcs"))
QUEUED = "0 acquire\n0 write\n0 swap\n1 acquire\n1 write\n1 swap\n1 write\n1 write\n"
NONE, NOT_WRITTEN = (0, 0, 0, 0, 0, 0, NO_WORD), (0xA5A5A5A5A5A5A5A5,) * 3 + (0xA5A5A5A5,) * 4


@pytest.mark.parametrize("text, fault, due", [
    (MCS + "# a comment\n0 acquire\n\n0 cas tail done", 7, (5, 0, 0, 0, 17, 1, 1)),
    (MCS + QUEUED + "1 cas\n0 release\n", 7, (10, 1, 1, 1, 16, 2, 4)),
    (MCS + QUEUED + "1 release\n1 read\n0 nothing\n", 3, (10, 1, 1, 1, 16, 2, 4)),
    (TICKET + "1 acquire\n1 acquire\n", 3, (3, 0, 1, 1, 20, 1, 0)),
    (TICKET + "0 acquire\n0 cas\n", 2, (3, 0, 1, 0, 20, 1, 0)),
    (RW + "0 rlock\n0 section\n1 wlock\n1 wunlock\n", 3, (5, 0, 0, 1, 21, 2, NO_WORD)),
    (RW + "0 rlock\n0 section 2\n1 rlock\n1 section 2\n", 12, (5, 0, 0, 1, 21, 3, NO_WORD)),
    (TICKET + "0 release\n", 4, NONE), (TICKET + "0 add\n", 6, NONE),
    (TICKET + "2 acquire\n", 1, NONE), (TICKET + "255 acquire\n", 1, NONE),
    (TICKET + "0 cas\n", 2, NONE), (RW + "0 rlock\n0 section\n0 wlock\n", 5, NONE),
    (TICKET + "0 acquire\n", 0, NOT_WRITTEN), (TICKET + "0 acquire\nx\n", 20, NOT_WRITTEN),
    (TICKET + "0 acquire\n0 add next\n0 add", 8, (3, 0, 1, 0, 20, 1, 0))])
def test_due_step(check, text, fault, due):
    """The step is written if there is room for it, and nothing after it."""
    for room in range(text.count("\n") + 2):
        (_, moves, found, _), records = answer_of(check, text.encode(), room)
        assert found == fault
        assert moves >= room or records[moves] == due
        assert not any(map(is_written, records[moves + 1:]))
    assert moves < room  # the last room has the record


# Two threads of a ticket lock, of which the second polls: twice as many moves as a schedule has.
POLLS = ["1 read now_serving found 0"] * 131_072
LONG = ["lock ticket threads 2", "0 acquire", "0 add", "1 acquire", "1 add", *POLLS]


@pytest.mark.parametrize("line, text, due", [
    (None, "", (131_077, 131_076, 0)),
    (131_077, "1 read now_serving found 1", (131_077, 131_075, 9)),
    (131_077, "1 write", (131_077, 131_075, 7)), (131_077, "1 wrote", (131_077, 131_075, 20)),
    (65_538, "1 read now_serving found 72057594037927936", (65_538, 65_536, 9))])
def test_long_text(check, line, text, due):
    lines = LONG[:]
    if line:
        lines[line - 1] = text
    assert answer_of(check, "\n".join(lines).encode(), 0)[0] == (*due, 2)


def changed_line(dice, line):
    """The line with one word replaced, dropped, doubled, or followed by another word."""
    words = line.split(" ")
    at = dice.randrange(len(words))
    words[at:at + 1] = dice.choice([[dice.choice(WORDS)], [], [words[at]] * 2,
                                    [words[at], dice.choice(WORDS)]])
    return " ".join(words)


def changed_text(dice):
    """The trace of a run, in most cases with one line changed, dropped or inserted."""
    run = random_run(dice)
    lines = [run.header, *(f"{thread} {line}" for thread, line in run.moves)]
    at = dice.randrange(len(lines))
    change = dice.randrange(10)
    if change < 3:
        lines[at] = changed_line(dice, lines[at])
    elif change == 3:
        del lines[at]
    elif change == 4:
        lines.insert(at, dice.choice(["", "# " + "x" * 200, " ", "\r", "0 read\0", lines[at],
                                      "0 acquire " + "x" * 100, run.header]))
    elif change < 7:
        lines[at] = other_line(dice, lines[at])
    return ("\n".join(lines) + dice.choice(["", "\n"])).encode("latin-1")


def worked_texts():
    """Each text in the rows of `locktrace`, and of each worked row."""
    for row in transcripts().values():
        for lines in row.files.values():
            yield text_of(lines).replace("; ", "\n").encode()
    for row in (*worked_rows.rows(), *worked_rows.short_rows()):
        yield row.text


def verdicts(locktrace, folder, texts):
    """What `locktrace check` says of each text: the name of its fault, or None, and the line."""
    for at in range(0, len(texts), AT_ONCE):
        files = [folder / f"{at + k}" for k in range(len(texts[at:at + AT_ONCE]))]
        for file, text in zip(files, texts[at:]):
            file.write_bytes(text)
        said = ran(locktrace, "check", "--format", "json", *files).stdout.splitlines()
        assert len(said) == len(files)
        for answer in map(json.loads, said):
            is_right = answer["ending"] in ("accepted", "hangs")
            yield (None, None) if is_right else (answer["code"], answer["line"])


def verdict_of(check, text):
    (line, _, fault, _), _ = answer_of(check, text, 0)
    return (check.fault_text(fault).split(":")[0], line) if fault else (None, None)


@pytest.mark.slow
@pytest.mark.parametrize("kind", ["worked", "random"])
def test_beside_the_program(check, locktrace, tmp_path, request, kind):
    """The proved program refuses the same texts at the same lines, for the same faults."""
    dice = seeded(request)
    texts = list(worked_texts()) if kind == "worked" else [
        changed_text(dice) for _ in range(count_of(request))]
    due = list(verdicts(locktrace, tmp_path, texts))
    for text, expected in zip(texts, due):
        assert verdict_of(check, text) == expected, text
    assert len({fault for fault, _ in due}) >= (19 if kind == "worked" else 12)


# The names of the faults, of built/locktrace.h.
NAMES = {int(number): name.title().replace("_", "") for name, number in re.findall(
    r"LT_(\w+) = (\d+)", between(read("built/locktrace.h"), "LT_ACCEPTED", "};"))}


@pytest.mark.parametrize("room", [0, 1, 20, 200])
@pytest.mark.parametrize("fault", [*range(21), 99])
def test_text_of_each_fault(check, fault, room):
    """The size is that of the whole text, also if there is room for a part of it."""
    text, whole = ctypes.create_string_buffer(b"\xa5" * 200), check.fault_text(fault).encode()
    assert check.library.lt_fault_text(fault, text, room) == len(whole) < 100
    written = min(room, len(whole))
    assert text.raw[:-1] == whole[:written] + b"\xa5" * (200 - written)
    due = NAMES.get(fault, "no fault has this number")
    assert whole.decode().split(":")[0] == (due if fault else "accepted")
