"""*Let all finish* brings a schedule to rest by moves that one could choose, and *Why does nobody
move?* names the thread that is waited for. tests/page/finishing.mjs has the moves themselves."""
import re

import pytest

from tree import cases

IDLE = "All threads are idle: nobody is in a call or holds the lock."
# A lesson of each lock, how many moves it has, and the most that each thread needs to rest.
LESSONS = {"ticket-hand-over": (2, 5), "mcs-late-link": (2, 10),
           "simple-reader-passes-writer": (3, 5), "fifo-reader-waits-behind-writer": (3, 6)}
SAID = ("text", "#standstill-says")


@pytest.mark.parametrize("way", ["r", "#finish"])
@pytest.mark.parametrize("lesson", LESSONS)
def test_all_are_idle_then(page, lesson, way):
    """From each state: few moves, which are accepted and can be undone together."""
    threads, most = LESSONS[lesson]
    page.open(f"#lesson={lesson}&move=0").press("g").click("#standstill summary")
    last = page.shown()["moves"]
    for move in range(last + 1):
        before = page.lesson(lesson, move).shown()["text"]
        if way == "r":
            page.press("r")
        else:
            page.call("click", way)
        assert page.js(*SAID) == IDLE, f"after move {move}"
        shown = page.shown()
        taken = shown["moves"] - move if shown["lesson"] is None else 0
        assert taken <= threads * most and not shown["refused"], shown
        assert shown["place"] == move + taken, shown
        if taken:
            added = shown["held"].rstrip("\n").split("\n")[-taken:]
            assert all(re.fullmatch(r"\d \w+", line) for line in added), added
            assert page.press("u").shown()["text"] == before


# What threads of an MCS lock do until they wait for their predecessor.
ENTERS = "{0} acquire\n{0} write\n{0} swap\n"
WAITS = f"{ENTERS}{{0}} write\n{{0}} write\n"


@cases("lock, moves, said", {
    "the holder": ("mcs threads 3", ENTERS.format(0) + WAITS.format(1) + WAITS.format(2),
                   "Everybody waits for thread 0, whose next move is release. Waiting: thread 1, "
                   "thread 2."),
    "a late link": ("mcs threads 2", ENTERS.format(0) + ENTERS.format(1)
                    + "0 release\n0 read\n0 cas\n",
                    "Everybody waits for thread 1, whose next move is write. Waiting: thread 0."),
    "two readers": ("rw-simple threads 3", "0 rlock\n0 section\n1 rlock\n1 section\n2 wlock\n",
                    "Can go on: thread 0 (runlock), thread 1 (runlock). Waiting: thread 2."),
    "nobody waits": ("ticket threads 2", "0 acquire\n1 acquire\n",
                     "Nobody waits. Can go on: thread 0 (add), thread 1 (add)."),
    "nobody moves": ("ticket threads 2", "", IDLE)})
def test_who_is_waited_for(page, lock, moves, said):
    page.open().show(f"lock {lock}\n{moves}", moves.count("\n")).press("g")
    assert page.js(*SAID) == ""
    page.click("#standstill summary").becomes(said, *SAID)
    page.click("#standstill summary").becomes("", *SAID)


def test_names_and_german(page):
    """The names of a lesson are said, and the words are in the language of the page."""
    page.open("#lesson=mcs-late-link&move=10&lang=de").press("g").click("#standstill summary")
    page.becomes("Alle warten auf Bob: Der nächste Zug ist write. Es warten: Ann.", *SAID)
    assert page.press("r").js(*SAID) == "Niemand ist in einem Aufruf oder hält die Sperre."


def test_elsewhere(page):
    """Nothing is played outside of Play, and nothing is said of a text without a lock."""
    page.open("#lesson=mcs-late-link&move=6").press("r")
    assert page.shown()["lesson"] == "mcs-late-link"
    page.press("g").click("#standstill summary").until("text", "#standstill-says")
    page.call("write", "lock")
    assert page.js(*SAID) == ""
