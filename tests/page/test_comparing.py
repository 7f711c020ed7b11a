"""The page shows two compared runs in the same columns, with both memories, without scrolling."""
import pytest

SCREENS = [(1024, 768), (1280, 720), (1366, 768), (1920, 1080)]
LOOKS = ["", "&hall"]


def is_seen(shown):
    return shown["whole"] and not shown["scrolled"] and len(shown["different"]) == 1


@pytest.mark.parametrize("look", LOOKS)
@pytest.mark.parametrize("width, height", SCREENS)
def test_a_branch(page, width, height, look):
    """The branch makes the compare-and-swap one move earlier. The moves before it are aligned."""
    page.resize(width, height).open(f"#lesson=mcs-late-link&move=7&play=0+cas{look}")
    shown = page.js("compared")
    assert len(shown["here"]) == len(shown["there"]) == 8, shown
    assert sorted(shown["here"]) == sorted(shown["there"]) and is_seen(shown), shown
    assert shown["words"] == [5, 5] and "First difference: move 8" in shown["first"], shown
    seventh, eighth = sorted(shown["here"])[6:8]
    assert seventh < shown["different"][0] < eighth, shown
    # In a hall and in a narrow window the sentences on the move make room.
    assert shown["now"] == (width > 1024 and not look), shown


def test_in_play(page):
    """The comparison fits beside the panel of choices."""
    page.resize(1366, 768).open("#lesson=mcs-late-link&move=7").press("g", "0", "c")
    shown = page.js("compared")
    assert sorted(shown["here"]) == sorted(shown["there"]) and is_seen(shown), shown


@pytest.mark.parametrize("look", LOOKS)
@pytest.mark.parametrize("width, height", SCREENS)
def test_the_other_lock(page, width, height, look):
    """The same calls on the simple lock: at move 4 a writer polls there, and is announced here."""
    page.resize(width, height)
    page.open(f"#lesson=fifo-reader-waits-behind-writer&move=6&compare{look}")
    shown = page.js("compared")
    assert sorted(shown["here"]) == sorted(shown["there"]) and is_seen(shown), shown
    assert len(shown["here"]) == 6 and shown["words"] == [2, 3], shown
    assert shown["first"] == "Compared with: Simple read-write lock First difference: move 4"


def test_turns_without_a_move(page):
    """On the simple lock the reader enters at move 6, so the columns of its polls on this lock are
    empty there. Each move there is in a column of this run."""
    page.resize(1366, 768).open("#lesson=fifo-reader-waits-behind-writer&move=15&compare")
    shown = page.js("compared")
    here, there = set(shown["here"]), set(shown["there"])
    assert len(here) == 15 and there < here and len(there) == len(shown["there"]), shown
    assert sorted(here)[:6] == sorted(there)[:6] and sorted(here)[9] not in there, shown


def test_a_click_beside_this_run(page):
    """The reader skips its turn after move 9 on the other lock, so move 10 there is beside move 11
    here. The button goes to the first difference, move 4."""
    page.resize(1366, 768).open("#lesson=fifo-reader-waits-behind-writer&move=15&compare")
    page.click("#other [data-move='10']").shown(position="11 of 15")
    page.click("#other [data-first]").shown(position="4 of 15")
    page.click("#time [data-move='2']").shown(position="2 of 15")


def test_a_refused_move_has_no_turn(page):
    """The second rlock is refused here, so it is no turn of the other lock, which moved twice."""
    page.open("#lesson=refused-already-holds&move=3&compare")
    assert page.js("texts", "#other .compared code") == [
        "there: 2 0 section entered hold r0 queue -", "here: refused line 5 AlreadyHolds"]
    assert page.js("compared")["first"] == "Compared with: FIFO read-write lock No difference"


def test_no_run_gives_the_quiz_away(page):
    """Moves to come, which are drawn faintly, are hidden in both runs while the quiz asks."""
    page.open("#lesson=fifo-reader-waits-behind-writer&move=2&compare&future")
    later = [("count", f"{box} .move.future") for box in ("#other", "#lanes")]
    assert all(page.js(*one) > 0 for one in later)
    page.press("q")
    assert [page.js(*one) for one in later] == [0, 0]


@pytest.mark.parametrize("width, height", SCREENS)
def test_the_sign_is_whole(page, width, height):
    """The dashed line of the first difference begins below its sign, in both pictures."""
    page.resize(width, height).open("#lesson=mcs-late-link&move=7&play=0+cas")
    below = page.js("belowSigns")
    assert len(below) == 2 and min(below) >= 2, below


@pytest.mark.parametrize("look", LOOKS)
@pytest.mark.parametrize("width, height", SCREENS)
def test_no_sign_covers_a_word(page, width, height, look):
    page.resize(width, height)
    for run in ("mcs-late-link&move=7&play=0+cas",
                "fifo-reader-waits-behind-writer&move=6&compare"):
        assert page.open(f"#lesson={run}{look}").js("count", ".different") == 2
        assert page.js("wordsUnderSigns") == [], run


def test_what_it_needs(page):
    """Without another schedule the dialog says what a comparison needs, and offers each way: Play,
    a kept schedule of the reader's own, and the lessons of the same lock."""
    page.open("#lesson=ticket-hand-over&move=5")
    page.show("#! title Mine\nlock ticket threads 2\n0 acquire\n0 add\n", 2)
    page.show("#! title Another lock\nlock mcs threads 1\n", 0).lesson("ticket-hand-over", 5)
    page.press("Escape", "c")
    assert page.text("#choose-other .hint").startswith("Two schedules of one lock are shown")
    assert page.js("offered") == [
        "Play: choose another next move", "Your own: change the text, or open one", "Mine",
        "The order is that of tickets, not of calls", "Tickets wrap around"]
    page.click("#choose-other [data-way=play]")
    assert page.shown()["mode"] == "play" and page.js("offered") is None


def test_titles_in_german(page):
    """The dialog offers lessons by their German titles."""
    page.open("#lesson=ticket-hand-over&move=5&lang=de").press("c")
    assert page.js("offered")[2:] == ["Es gilt die Reihenfolge der Tickets, nicht die der Aufrufe",
                                      "Tickets beginnen wieder bei 0"]


def test_nothing_is_offered_to_itself(page):
    """The dialog offers only what is not shown. A schedule without a title has a name, too."""
    page.open("#lesson=ticket-hand-over&move=5")
    for title, thread in [("First", 0), ("Second", 1)]:
        page.show(f"#! title {title}\nlock ticket threads 2\n{thread} acquire\n")
    page.press("c")
    assert {"First", "Second"} & set(page.js("offered")) == {"First"}
    page.press("Escape").show("lock ticket threads 2\n").lesson("ticket-hand-over").press("c")
    assert page.js("offered")[2:5] == ["Your own schedule", "Second", "First"]


@pytest.mark.parametrize("look", LOOKS)
def test_a_chosen_schedule(page, look):
    """The chosen lesson is above this lesson in the same columns, until C is pressed again."""
    page.resize(1366, 768).open(f"#lesson=mcs-record-used-again&move=5{look}").press("c")
    shown = page.click("#choose-other [data-other='0']").js("compared")
    assert shown["first"].startswith("Compared with: The late link First difference: move 4"), shown
    assert len(shown["here"]) == len(shown["there"]) == 5 and is_seen(shown), shown
    assert max(abs(one - other) for one, other in zip(shown["here"], shown["there"])) <= 1, shown
    assert page.press("c").js("count", "#other:not([hidden])") == 0
    assert page.press("c").js("offered"), "the next time another one can be chosen"
    first = page.click("#choose-other [data-other='1']").js("compared")["first"]
    assert first.startswith("Compared with: The third is linked before the second"), first


def test_a_lecture_after_a_comparison(page):
    """A lecture shows no schedule that was compared before, and C lets one choose again."""
    page.open("#lesson=mcs-record-used-again&move=5").press("c")
    page.click("#choose-other [data-other='0']").press("g", "n")
    page.click("#plans [data-plan='mcs'][data-step='0']")
    page.shown(lesson="mcs-record-used-again", place=5, mode="lessons")
    assert page.press("c").js("offered")


REFUSED = "lock ticket threads 2\n0 acquire\n0 read\n"


def compared_with(page, text, other):
    """Shows a schedule beside another one, which was shown before and is chosen."""
    page.open("#lesson=ticket-hand-over&move=0&future").show(f"#! title Other\n{other}").show(text)
    page.call("leave").press("Escape", "c").call("click", "#choose-other [data-other='0']")


def test_a_first_move_that_differs(page):
    """Two schedules differ at move 1, which different threads make."""
    first = "lock ticket threads 2\n{} acquire\n"
    compared_with(page, first.format(0), first.format(1))
    assert page.go(1).js("compared")["first"] == "Compared with: Other First difference: move 1"


def test_a_refused_move_beside_an_accepted_one(page):
    """The other run's refused move is crossed out in its column; both lines are below the lanes."""
    compared_with(page, "lock ticket threads 2\n0 acquire\n0 add\n", REFUSED)
    shown = page.go(2).js("compared")
    assert shown["first"] == "Compared with: Other First difference: move 2", shown
    assert page.js("texts", "#other .compared code") == [
        "there: refused line 4 WrongStep next add", "here: 2 0 add moved hold - queue 0"]
    assert page.js("count", "#other [data-refused]") == 1 and page.js("count", "#other .differs")


def test_a_run_that_goes_on_until_it_is_refused(page):
    """Two runs differ at the move after the last of the shorter one, also if that is refused."""
    compared_with(page, "lock ticket threads 2\n0 acquire\n", REFUSED)
    assert page.js("compared")["first"] == "Compared with: Other First difference: move 2"
    for same in ("lock ticket threads 2\n0 acquire\n", REFUSED):
        compared_with(page, same, same)
        assert page.js("compared")["first"] == "Compared with: Other No difference"


def test_columns_for_the_longer_run(page):
    """Each move of the longer run has a column beside those of the shorter one."""
    turns = ["0 acquire", "0 add", "0 read", "0 release", "0 read", "0 write"]
    head = "lock ticket threads 2\n"
    compared_with(page, head + "\n".join(turns[:2]) + "\n", head + "\n".join(turns) + "\n")
    shown = page.go(2).js("compared")
    assert len(shown["there"]) == 6 and len(shown["here"]) == 2, shown
    assert sorted(shown["there"])[:2] == sorted(shown["here"]), shown
