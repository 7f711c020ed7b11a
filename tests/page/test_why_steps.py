"""The dialog that says why each line is there plays a run of a changed lock move by move: memory
and the sequential object after each move, and the moment of harm."""
import pytest

from locks import LOCKS
from told_changes import STUCK, stops, told
from tree import cases

LATE_LINK = "#lesson=mcs-late-link&move="
FORBIDDEN = "✕ The sequential object does not allow this: "
# After a number of moves, by hand: the head, the words, those that the move wrote, what the object
# has, and what is said of the end. MCS: without its write SetLocked leaves locked at 0, so that the
# poll after it succeeds while thread 0 is inside.
BY_HAND = {
    "mcs": ("mcs", 4, 0, {
        0: ("Before the first move", ["nil", "nil", "0", "nil", "0"], [], "the queue is empty", []),
        3: ("Move 3 of 9: 0 SwapTail pred := swap(tail, me)",
            ["thread 0", "nil", "0", "nil", "0"], ["tail = thread 0"], "the queue is 0", []),
        6: ("Move 6 of 9: 1 SwapTail pred := swap(tail, me)",
            ["thread 1", "nil", "0", "nil", "0"], ["tail = thread 1"], "the queue is 0,1", []),
        7: ("Move 7 of 9: 1 SetLocked(0) me.locked := true changed",
            ["thread 1", "nil", "0", "nil", "0"], [], "the queue is 0,1", []),
        8: ("Move 8 of 9: 1 LinkTo(0) pred.next := me",
            ["thread 1", "thread 1", "0", "nil", "0"], ["next of 0 = thread 1"], "the queue is 0,1",
            []),
        9: ("Move 9 of 9: 1 AwaitGrant await not me.locked",
            ["thread 1", "thread 1", "0", "nil", "0"], [], "the queue is 0,1",
            [f"{FORBIDDEN}thread 1 enters while the queue is 0,1."]),
    }),
    # A writer announces itself behind a reader, and then ignores it.
    "rw-fifo": ("rw-fifo", 7, 0, {
        1: ("Move 1 of 5: 0 rlock", ["0", "0", "0"], [], "nobody is inside", []),
        2: ("Move 2 of 5: 0 TryRead await flag = 0; readAcquires := readAcquires + 1",
            ["1", "0", "0"], ["readAcquires = 1"], "inside are the readers 0", []),
        4: ("Move 4 of 5: 1 TryWrite await flag = 0; flag := 1", ["1", "0", "1"], ["flag = 1"],
            "inside are the readers 0, thread 1 is announced", []),
        5: ("Move 5 of 5: 1 AwaitReaders await readAcquires = readReleases changed",
            ["1", "0", "1"], [], "inside are the readers 0, thread 1 is announced",
            [f"{FORBIDDEN}thread 1 enters as a writer while inside are the readers 0, thread 1 is "
             "announced."]),
    }),
    # The read-modify-write of a ticket in two halves: both threads draw ticket 0.
    "ticket": ("ticket", 1, 1, {
        2: ("Move 2 of 7: 0 TakeTicket, its first half ticket := add(next_ticket, 1) changed",
            ["0", "0"], [], "the queue is empty", []),
    }),
}


def to_stop(page, lock, at):
    """Opens the dialog at a group of lines, counted from 0."""
    page.open().click(f"[data-why={lock}]").press(*["ArrowRight"] * at)


@cases("lock, at, number, steps", BY_HAND)
def test_steps_by_hand(page, lock, at, number, steps):
    """The words and the object after a move, the words that it wrote, and the harm."""
    to_stop(page, lock, at)
    for count, (head, values, wrote, has, ends) in steps.items():
        step = page.call("stepTo", number, count).js("step")
        assert step["number"] == number and step["at"] == count, step
        assert step["head"] == head
        assert [word.split(" = ")[1] for word in step["words"]] == values, (count, step)
        assert step["wrote"] == wrote, (count, step)
        assert step["object"] == f"The sequential object: {has}." and step["ends"] == ends, step


def test_names_of_words(page):
    """The words have the names of docs/LOCKS.md, those of a record with its thread's number."""
    for lock, names in [("mcs", "tail, next of 0, locked of 0, next of 1, locked of 1"),
                        ("ticket", "next_ticket, now_serving"),
                        ("rw-simple", "readers, flag"),
                        ("rw-fifo", "readAcquires, readReleases, flag")]:
        to_stop(page, lock, 1)
        assert [word.split(" = ")[0] for word in page.js("step")["words"]] == names.split(", ")


@pytest.mark.parametrize("lock", LOCKS)
def test_every_step(page, lock):
    """Each move of each run shows what the program says of it."""
    page.open().click(f"[data-why={lock}]")
    for _, name in stops(lock):
        changes = [change for change in told(lock) if change["step"] == name]
        runs = page.js("steps")
        assert [len(run) for run in runs] == [
            len(change["moves"]) for change in changes if change["moves"]]
        for change, run in zip((one for one in changes if one["moves"]), runs):
            check_steps(change, run)
        page.press("ArrowRight")


def check_steps(change, run):
    """The memory begins with zeros, and each move writes what the listing says."""
    memory = {}
    for at, (after, step) in enumerate(zip(change["after"], run), 1):
        wrote, _, has = after.rpartition("; ")
        written = dict(one.split(" = ") for one in wrote.split(", ") if one)
        memory.update(written)
        values = [plain_value(name, memory.get(name, "0")) for name in step["names"]]
        assert step["at"] == at and step["values"] == values, (change, step)
        assert sorted(step["wrote"]) == sorted(
            f"{name} = {plain_value(name, value)}" for name, value in written.items())
        assert step["object"] == f"The sequential object: {has}.", (change, step)
        is_last = at == len(run)
        assert len(step["ends"]) == is_last, (change, step)
        if is_last:
            verdict = change["verdict"]
            assert step["ends"][0] == (STUCK if "can come to rest" in verdict else
                                       FORBIDDEN + verdict.split(" moves, and ")[1] + ".")


def plain_value(name, value):
    """A value as the dialog shows it: tail and next have the number after a thread's, or 0."""
    if not name.startswith(("tail", "next of")):
        return value
    return "nil" if value == "0" else f"thread {int(value) - 1}"


def test_keys_of_steps(page):
    """N and P go from move to move of the run that is shown, and a line begins anew."""
    assert page.open(f"{LATE_LINK}9").press("y").js("at") == [0, 0]
    for key, at in [("p", 0), ("n", 1), ("n", 2), ("p", 1), ("N", 2), ("n", 3), ("n", 4), ("n", 5),
                    ("n", 6), ("n", 7), ("n", 7), ("P", 6)]:
        assert page.press(key).js("at") == [0, at], key
    assert page.press("ArrowRight").js("lines") == [13] and page.js("at") == [0, 0]
    assert page.press("n", "ArrowLeft").js("lines") == [12] and page.js("at") == [0, 0]
    assert not page.press("y").js("isOpen", "why")
    # Here the page's own keys act again.
    assert page.press("n").text("dialog[open] h2") == "Lesson plans"


def test_steps_by_mouse(page):
    """The buttons of a run and its list of moves choose a move, and the keys go on from there."""
    page.open(f"{LATE_LINK}9").press("y").click("[data-of='1'][data-step='1']")
    assert page.js("at") == [1, 1]
    assert page.press("n").js("at") == [1, 2]
    assert page.click("[data-of='1'][data-step='-1']").js("at") == [1, 1]
    page.click("[data-of='0'][data-count='6']")
    assert page.js("at") == [0, 6] and page.js("step")["head"].endswith(" changed")
    assert page.js("outlines") == ["solid"], "the current move alone has a frame"
    assert page.press("p").js("at") == [0, 5]


def test_a_screen_reader_follows(page):
    """One move is the current one, and what is said of it is a status."""
    assert page.open(f"{LATE_LINK}9").press("y").js("count", "#why li[aria-current]") == 0
    page.press("n", "n", "n")
    assert page.js("texts", "#why li[aria-current=step]") == ["0 SwapTail pred := swap(tail, me)"]
    assert page.js("attribute", ".stepped .why-step", "role") == "status"
    hint = page.js("texts", "#why .hint")[0]
    assert hint.endswith("Keys N and P go from move to move of a run.")
    assert "with 2 threads and 2 rounds each, is harmless: all 325 states were searched." in hint


def test_steps_in_german(page):
    page.open("#lang=de").click("[data-why=rw-fifo]").press(*["ArrowRight"] * 7)
    assert page.call("stepTo", 0, 0).js("step")["head"] == "Vor dem ersten Zug"
    assert page.js("step")["object"] == "Das sequentielle Objekt: niemand ist drinnen."
    assert page.press("n", "n", "n", "n").js("step")["object"] == (
        "Das sequentielle Objekt: drinnen sind die Leser 0, Thread 1 ist angekündigt.")
    assert page.press("n").js("step")["ends"] == [
        "✕ Das sequentielle Objekt erlaubt das nicht: Thread 1 tritt als Schreiber ein, während "
        "die Leser 0 drinnen sind und Thread 1 angekündigt ist."]
    page.open("#lang=de").click("[data-why=mcs]").press("ArrowRight", "n", "n", "n")
    assert page.js("step")["head"].startswith("Zug 3 von 22: 0 SwapTail")
    assert page.js("step")["wrote"] == ["tail = Thread 0"]
