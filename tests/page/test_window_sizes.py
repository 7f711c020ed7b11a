"""In the windows that readers have, the current line of code, the question and the variables of
threads are in view.

A laptop with large letters, a projector, a browser at 150 %, half a screen; and a phone.
"""
import pytest

from reports import LESSONS, MOVES, asked_in

in_windows = pytest.mark.parametrize("width, height", [
    (1920, 937), (1536, 730), (1366, 650), (1280, 720), (1024, 768), (960, 540), (960, 1040),
    (900, 700), (720, 900)])
# A lesson of each kind of picture, at moves with questions.
ASKED = [f"#lesson={lesson}&move={move}" for lesson, moves in [
    ("mcs-late-link", [7, 8, 9]), ("mcs-third-linked-before-second", [12]),
    ("ticket-hand-over", [5, 9]), ("simple-reader-passes-writer", [6]),
    ("fifo-reader-waits-behind-writer", [6])] for move in moves]
# States with Bob's pred up to his link, with Ann's succ, and with variables of three threads.
WITH_VARIABLES = [f"#lesson={lesson}&move={move}" for lesson, moves in [
    ("mcs-late-link", [8, 9, 10, 11, 12, 14]),
    ("mcs-third-linked-before-second", [6, 9, 12, 13])] for move in moves]


@in_windows
def test_the_line_and_the_question(page, width, height):
    assert page.resize(width, height).open(ASKED[0]).js("outOfView", ASKED) == []


@in_windows
def test_the_variables_of_threads(page, width, height):
    assert page.resize(width, height).open(WITH_VARIABLES[0]).js("variables", WITH_VARIABLES) == []


def test_how_far_lines_of_code_are_apart(page):
    """Lines are nearer to each other if all of them have room then, but never below 19 pixels."""
    page.open("#lesson=mcs-late-link&move=9")
    found = set()
    for height in range(560, 960, 20):
        apart, all_seen = page.resize(1440, height).js("lineHeight"), page.js("areAllLinesSeen")
        assert apart == 23 or 19 <= apart < 23 and all_seen, (height, apart)
        found.add((apart == 23, all_seen))
    assert found == {(True, False), (False, True), (True, True)}


def test_how_far_lines_of_code_are_indented(page):
    """Each line is as far from the edge as it is in the listing, in letters."""
    page.open("#lesson=mcs-late-link&move=9")
    assert page.js("indents") == [0, 2, 2, 2, 4, 4, 4, 2, 0, 2, 2, 4, 4, 2]


@pytest.mark.parametrize("width, height", [(1024, 600), (960, 540), (900, 600)])
def test_each_line_of_a_step(page, width, height):
    """Both lines of a section are in view at each move, if there is room for two."""
    page.resize(width, height).open("#lesson=fifo-downgrade&move=0")
    for name in ["fifo-downgrade", "simple-second-writer", "fifo-second-writer"]:
        assert page.js("linesOutOfView", name, len(MOVES[name])) == [], name


LESSON, THREE = "#lesson=mcs-late-link&move=9", "#lesson=mcs-third-linked-before-second&move=12"
# The window, the link, how the parts are arranged, which tools have room, and the size of letters:
# in a hall 2.5 % of the height for those of 14.5 pixels, and on a projector a quarter more.
ARRANGED = {
    "phone": (599, 900, LESSON, "phone", "none", 1),
    "narrow": (600, 900, LESSON, "tall", "few", 1),
    "square": (900, 900, LESSON, "medium", "few", 1),
    "upright": (900, 901, LESSON, "tall", "few", 1),
    "low": (800, 479, LESSON, "low", "few", 1),
    "not low": (800, 480, LESSON, "medium", "few", 1),
    "low with three parts": (800, 479, f"{LESSON}&show=time,memory,code", "column", "few", 1),
    "two beside each other": (820, 479, f"{LESSON}&show=time,memory,code", "row", "few", 1),
    "not wide": (1129, 700, LESSON, "medium", "few", 1),
    "wide": (1130, 700, LESSON, "wide", "few", 1),
    "some tools": (1180, 700, LESSON, "wide", "few", 1),
    "most tools": (1181, 700, LESSON, "wide", "most", 1),
    "not all tools": (1719, 899, LESSON, "wide", "most", 1),
    "all tools": (1720, 899, LESSON, "wide", "all", 1),
    "projector": (1700, 900, LESSON, "wide", "most", 1.25),
    "not a projector": (1699, 900, LESSON, "wide", "most", 1),
    "frame": (820, 480, f"{LESSON}&embed", "row", "few", 1),
    "narrow frame": (819, 480, f"{LESSON}&embed", "column", "few", 1),
    "hall": (1024, 768, f"{LESSON}&hall", "row", "few", 1.32),
    "hall with three records": (1024, 768, f"{THREE}&hall", "column", "few", 1.32),
    "narrow hall": (900, 768, f"{LESSON}&hall", "column", "few", 1.32),
}


def test_how_parts_are_arranged(page):
    page.open(LESSON).press("Escape")
    for name, (width, height, link, *arranged) in ARRANGED.items():
        page.resize(width, height).call("follow", link)
        page.wait(lambda: page.js("arranged") == arranged,
                  lambda: f"{name}: {page.js('arranged')} is not {arranged}")
    page.call("follow", LESSON).press("g")
    for width, layout in [(1459, "medium"), (1460, "wide")]:
        page.resize(width, 800).becomes([layout, "most", 1], "arranged")


def test_whose_variables(page):
    """The picture shows Bob's predecessor, which he found by the swap, and Ann's successor."""
    page.open("#lesson=mcs-late-link&move=12")
    own = "#memory-picture .record .own ~ text"
    assert page.js("texts", own) == ["pred = Ann", "Bob’s own variable"]
    assert page.go(14).js("texts", own) == ["succ = Bob", "Ann’s own variable"]


def test_how_large_memory_is(page):
    """Memory is drawn up to 1.3 times larger; that of many threads at one scale, folded."""
    for width, height, least, most in [(1920, 1080, 1.3, 1.3), (1440, 900, 1, 1.3),
                                       (1024, 600, 0.6, 1)]:
        scale, fits = page.resize(width, height).open(LESSON).js("scaleOfMemory")
        assert least <= round(scale, 2) <= most and fits, (width, scale)
    page.resize(1440, 900)
    for threads, large in [(12, False), (13, True), (64, True)]:
        page.show(f"lock ticket threads {threads}\n")
        assert (round(page.js("scaleOfMemory")[0], 2) == 0.8) == large, threads


def test_room_for_all_moves(page):
    """Columns are narrower if all moves have room then."""
    page.open("#lesson=ticket-wraps-at-2-bits&move=28")
    assert page.js("texts", "#numbers .number") == [str(move) for move in range(1, 29)]


@pytest.mark.parametrize("lesson, move", [("mcs-late-link", 12), ("fifo-second-writer", 13)])
def test_a_line_out_of_view(page, lesson, move):
    """A line that was out of view comes into the middle."""
    page.resize(1024, 600).open(f"#lesson={lesson}&move={move}").go(1)
    assert page.js("linesAround")[0] == 0
    before, after = page.go(move).js("linesAround")
    assert before > 0 and after > 0 and abs(before - after) <= 1, (before, after)


@pytest.mark.parametrize("width, height, look", [
    (1024, 768, ""), (1366, 650, ""), (390, 844, ""), (1024, 768, "&hall&show=time,now")])
def test_letters_of_another_move(page, width, height, look):
    """How large letters are does not depend on the move that was shown before."""
    page.resize(width, height).open(f"{LESSON}{look}")
    moves = list(range(17))
    forward, back = page.js("sizesAt", moves), page.js("sizesAt", moves[::-1])
    assert forward == back[::-1] and len({one[0] for one in forward}) > 1, forward


def test_memory_keeps_its_room(page):
    """Whatever is said below it at a move, memory has the same room."""
    page.open(LESSON)
    assert len(set(page.js("heightsOfMemory", 16))) == 1


def test_how_high_lanes_are(page):
    """Two lanes have 85 each and a foot of 6; on a phone 100 at least, in low windows 82."""
    for width, height, lanes in [(1440, 900, 176), (360, 640, 100), (844, 390, 82)]:
        page.resize(width, height).open(LESSON)
        assert page.js("heightOfLanes") == lanes, (width, height)


SIX = "lock ticket threads 6\n" + "".join(f"{thread} acquire\n" for thread in range(6))
# The share of the window's height that six lanes have in each arrangement.
SHARES = [
    (1440, 900, "", 0.29), (1366, 700, "", 0.26), (1024, 768, "", 0.245), (1024, 590, "", 0.2),
    (820, 1180, "", 0.2), (390, 844, "", 0.145), (1440, 900, "&show=time,code", 0.29),
    (700, 900, "&show=time,code", 0.24)]


def test_how_high_six_lanes_are(page):
    for width, height, look, share in SHARES:
        page.resize(width, height).open(f"{LESSON}{look}").show(SIX, 6).call("inMode", "lessons")
        assert page.js("heightOfLanes") == round(share * height), (width, height, look)


def test_the_line_in_the_lowest_window(page):
    """A phone on its side is too low for the page, but the line is in view all the same."""
    page.resize(844, 390)
    for link in ASKED:
        assert page.open(link).js("lowest") == [True, True], link


# The moves that have a question with an answer, for each lesson without a refusal or fault.
ASKED_IN = {name: sorted(asked_in(name) & asked_in(name, "answer"))
            for name, report in LESSONS.items() if not report.startswith(("fault", "refused"))}


@pytest.mark.parametrize("language", ["en", "de"])
@pytest.mark.parametrize("width, height", [(360, 780), (390, 844)])
def test_the_answer_on_a_phone(page, width, height, language):
    """In Play, with the choices below, "Answer" needs no scrolling."""
    page.resize(width, height).open(f"#lesson=mcs-late-link&move=9&lang={language}").press("g")
    assert sum(map(len, ASKED_IN.values())) > 20
    for name, moves in ASKED_IN.items():
        assert page.js("hidden", name, moves) == [], name


@pytest.mark.parametrize("width, height", [(683, 384), (844, 390)])
def test_the_answer_in_a_low_window(page, width, height):
    """At 200 % zoom and on a phone on its side, key A brings the answer into view, and the next
    move is seen from its beginning."""
    page.resize(width, height).open("#lesson=mcs-late-link&move=9")
    unseen = {name: page.js("answersOutOfView", name, moves) for name, moves in ASKED_IN.items()}
    assert not any(unseen.values()), unseen
    page.lesson("mcs-late-link", 9).press("a").go(10)
    assert page.js("isSeen", "#now .head", "#now")


@pytest.mark.parametrize("language", ["en", "de"])
def test_the_answer_fits(page, language):
    """On a small projector the move, its question and the answer need no scrolling."""
    page.resize(1024, 768).open(f"#lesson=mcs-late-link&move=9&lang={language}")
    assert sum(map(len, ASKED_IN.values())) > 20
    scrolled = {name: page.js("scrolledWithAnswer", name, moves)
                for name, moves in ASKED_IN.items()}
    assert not any(scrolled.values()), {name: it for name, it in scrolled.items() if it}
