"""Counts how often the page asks the machine. It reads steps, views, pictures, printed sheets and
Undo off the records without a replay, and a choice in Play takes one replay.
"""
import pytest

from reports import LESSONS

LATE_LINK = "#lesson=mcs-late-link&move=7"
SCHEDULE = "lock ticket threads 2\n0 acquire\n0 add\n"
OTHER = "lock mcs threads 3\n2 acquire\n"
UNDO, COMPARE, STEP_BACK, END = ("undo",), ("key", "c"), ("key", "ArrowLeft"), ("key", "End")
# Acts one after another, and how often the page asks the machine for each.
IN_PLAY = [
    ("the lesson's own next move", [("choose", 1, "swap")], 0),
    ("undo", [UNDO], 0),
    ("the first move of a branch", [("choose", 0, "cas")], 1),
    ("the next one", [("choose", 1, "swap")], 1),
    ("undo of it", [UNDO], 0),
    ("a step back, and every move", [STEP_BACK, ("click", "#every")], 0),
    ("the move that was made", [("choose", 0, "cas")], 0),
    ("a move that is refused", [("choose", 0, "read")], 1),
    ("undo of that", [UNDO], 0),
    ("the branch beside the lesson", [COMPARE], 0),
    ("a move beside the lesson", [("choose", 1, "swap")], 1),
    ("no lesson beside it", [COMPARE], 0),
    ("the lesson", [("lesson", "mcs-late-link")], 0),
    ("the same lesson", [("lesson", "mcs-late-link", 3)], 0),
    ("another one", [("lesson", "ticket-hand-over")], 1),
]
# A text that was played before, or the front of one, takes no replay.
IN_A_TEXT = [
    ("a new text", [("click", "#clear")], 1),
    ("another text", [("write", SCHEDULE)], 1),
    ("a line more", [("write", f"{SCHEDULE}0 read\n")], 1),
    ("a line less", [("write", SCHEDULE)], 0),
    ("half a line, which is a fault", [("write", f"{SCHEDULE}0 rea")], 1),
    ("the line that was meant", [("click", "[data-mend]")], 1),
    ("a paste", [("paste", OTHER)], 1),
    ("the same again", [("paste", OTHER)], 0),
    ("a paste that is no schedule", [("key", "g"), ("paste", "hello")], 1),
]
# Each of the two schedules takes one replay, and a wrong guess on the other lock one more.
WITH_THE_OTHER_LOCK = [
    ("the other lock", [COMPARE], 1),
    ("a step back", [STEP_BACK], 0),
    ("to the end", [END], 0),
    ("a move on both locks", [("choose", 1, "wunlock")], 2),
    ("undo on both", [UNDO], 0),
    ("a guess that is wrong", [("lesson", "fifo-reader-waits-behind-writer")], 3),
]


def test_no_play_for_what_is_known(page):
    page.open()
    known = [name for name, report in LESSONS.items() if not report.startswith("fault")]
    assert {name: page.js("playsOfLesson", name) for name in known} == {
        name: [1, 0] for name in known}


@pytest.mark.parametrize("link, key, acts", [
    (LATE_LINK, "g", IN_PLAY), (LATE_LINK, "e", IN_A_TEXT),
    ("#lesson=simple-second-writer&move=7", "g", WITH_THE_OTHER_LOCK)],
    ids=["play", "text", "two locks"])
def test_plays_of_acts(page, link, key, acts):
    """The number of replays after a click, a key or typing, when the page is at rest."""
    page.open(link).press(key)
    assert [(what, page.js("playsOf", act)) for what, act, _ in acts] == [
        (what, plays) for what, _, plays in acts]


def test_back_and_forward(page):
    """Back to the lesson, which the page still knows, takes no replay, and forward takes one."""
    assert page.open(LATE_LINK).press("g").js("playsOf", [("choose", 0, "cas")]) == 1
    page.until("addressBegins", "#schedule=")
    plays = page.js("playsNow")
    page.call("back").until("isLesson", "mcs-late-link")
    assert page.js("playsNow") == plays
    page.call("forward").until("isLesson", None)
    assert page.js("playsNow") == plays + 1
