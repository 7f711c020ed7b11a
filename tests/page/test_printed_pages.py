"""Printed pages have strips of moves, memory and code, and the table, in light colours in any
theme, with answers or with blanks, on at most twelve sheets."""
import re
import zlib

import pytest

from reports import MOVES
from tree import cases

MOST_SHEETS = 12
NAMES = ["Ann", "Bob", "Cem"]
LATE_LINK = "#lesson=mcs-late-link&move=9"


def test_a_lesson(page):
    name = "mcs-third-linked-before-second"
    assert page.open(f"#lesson={name}&move=12").pdf().startswith(b"%PDF")
    rows = page.js("rows")
    assert [row[:4] + row[5:] for row in rows] == [
        [str(number), f"{NAMES[thread]} ({thread})", word, outcome, hold, queue]
        for number, (thread, word, outcome, hold, queue) in enumerate(MOVES[name], 1)]
    assert all(row[4] for row in rows) and page.js("count", "#paper .strip") >= 2
    assert page.js("count", "#paper .future") == 0
    assert page.js("count", "#paper > p") == 0, "all moves are there"


# A trace as a recorder writes it.
TRACE = """lock ticket threads 2
0 acquire
0 add next_ticket found 0
0 read
# line 2 is mine.c:10
# line 3 is mine.c:13
"""


def test_a_trace(page):
    """A row of the table has the line as it was recorded, and where."""
    page.open(LATE_LINK).call("paste", TRACE).shown(moves=3)
    page.call("drawPaper")
    assert [row[2].split() for row in page.js("rows")] == [
        ["acquire", "mine.c:10"], ["add", "next_ticket", "found", "0", "mine.c:13"], ["read"]]


@cases("language, heads", {
    "en": ("en", ["Move", "Thread", "Call or step", "Outcome", "What it did", "Holds", "Queue"]),
    "de": ("de", ["Zug", "Thread", "Aufruf oder Schritt", "Ergebnis", "Was er tat", "Hält",
                  "Schlange"])})
def test_the_heads_of_columns(page, language, heads):
    page.open(f"{LATE_LINK}&lang={language}").call("drawPaper")
    assert page.js("texts", "#paper th") == heads


def test_only_paper_is_printed(page):
    page.open("#lesson=ticket-hand-over&move=5").call("drawPaper")
    assert page.js("onPaper") == [True, False, "rgb(255, 255, 255)", "rgb(0, 0, 0)"]


def test_no_explanation_is_printed(page):
    page.open("#lesson=ticket-hand-over&move=5").press("e").call("leave").press("l")
    page.until("text", "#notice")
    page.call("pointAt", "main .term").call("drawPaper")
    parts = ["tip-box", "notice", "side", "time"]
    assert page.js("screenAndPaper", parts) == [parts, []]


def test_no_warning_is_printed(page):
    """What is wrong with a link, here that it has no end, is not on the sheets."""
    page.open("#schedule=bG9jayBtY3MgdGhyZWFkcyAyCjAgYWNxdWlyZQo").call("drawPaper")
    assert page.js("screenAndPaper", ["damaged", "time"]) == [["damaged", "time"], []]


def sheets(data):
    """How many pages a PDF has. Some of its objects may be compressed."""
    packed = re.findall(rb"/ObjStm.*?stream\r?\n(.*?)endstream", data, re.DOTALL)
    parts = [data, *(zlib.decompressobj().decompress(part) for part in packed)]
    return sum(len(re.findall(rb"/Type\s*/Page[^s]", part)) for part in parts)


def turns(threads, count):
    """A schedule of the ticket lock: all threads draw a ticket, and all but 0 poll in turn."""
    lines = [f"lock ticket threads {threads}"]
    for thread in range(threads):
        lines += [f"{thread} acquire", f"{thread} add"]
    lines += [f"{1 + at % (threads - 1)} read" for at in range(count - len(lines) + 1)]
    return "\n".join(lines) + "\n"


@pytest.mark.parametrize("threads, count", [(2, 1500), (8, 60), (12, 60), (64, 381), (64, 65536)])
def test_a_long_schedule(page, threads, count):
    """A long schedule has as many moves around the current one as fit on twelve sheets."""
    page.open().show(turns(threads, count), count // 2)
    number = sheets(page.pdf())
    rows = [int(row[0]) for row in page.js("rows")]
    assert len(rows) >= 60 and rows[0] <= count // 2 <= rows[-1], rows
    assert 2 <= number <= MOST_SHEETS, number


# By hand: 133 moves need three sheets for 9 strips of 16 and seven for rows, 19 on each, beside the
# two for all else. One move more would need a row on a thirteenth sheet.
@pytest.mark.parametrize("move, first, last", [(0, 1, 133), (750, 684, 816), (1500, 1368, 1500)])
def test_which_part_is_printed(page, move, first, last):
    """Above a part it is said which it is. The shown move is in its middle."""
    page.open().show(turns(2, 1500), move).call("drawPaper")
    assert [int(row[0]) for row in page.js("rows")] == list(range(first, last + 1))
    assert page.text("#paper > p") == f"Moves {first} to {last} of 1500"


def test_a_long_queue(page):
    """The first of a long list, and how many. Nobody holds, since thread 0 never polls."""
    page.open().show(turns(64, 381), 381).call("drawPaper")
    assert page.js("rows")[-1][5:] == ["-", "0,1,2,3,4,5,6,7,… (64)"]


def test_questions_on_paper(page):
    """The questions of all moves with their answers, also before the first and at the last."""
    page.open()
    asked = "".join(f"#! ask {move} Number {move}?\n#! answer {move} It is.\n" for move in range(3))
    page.show(f"lock ticket threads 1\n{asked}0 acquire\n0 add\n").call("drawPaper")
    assert page.js("texts", "#paper .asked dt") == ["0", "1", "2"]
    assert page.js("texts", "#paper .asked .answer") == ["It is."] * 3


def test_a_refused_move_on_paper(page):
    """The strips have the refused move after the accepted ones, with its number crossed out."""
    page.open("#lesson=refused-already-holds&move=0").call("drawPaper")
    numbers = [str(number) for number in range(1, 3)]
    assert page.js("texts", "#paper .strip .number") == [*numbers, "✕"]
    assert page.js("count", "#paper .strip [data-refused] .refused-mark") == 1
    assert page.js("texts", "#paper .strip [data-refused] title") == ["Line 5: 0 rlock"]


def test_forty_moves_in_one_row(page):
    assert page.open().show(turns(8, 40), 40).call("drawPaper").js("movesOfStrips") == [40]


def test_memory_and_code(page):
    figure = page.open(LATE_LINK).call("drawPaper").js("words", "#paper .figure")
    for part in ["after move 9", "tail", "no link", "cas(tail, me, nil), or else:", "pred = Ann"]:
        assert part in figure
    assert page.js("words", "#paper td:nth-child(2)") == "Ann (0)"
    assert page.js("texts", "#paper .legend > span > span") == [
        "called", "moved: the call goes on", "waits: failed poll", "entered", "left", "cas fails",
        "in a call", "in the queue", "holds", "in the queue, not linked",
        "the write that ended a wait"]


@cases("lesson, moves", {
    "ticket": ("ticket-wraps-at-2-bits", [0, 5, 23]), "mcs": ("mcs-late-link", [3, 10, 14]),
    "simple": ("simple-second-writer", [2, 5]), "fifo": ("fifo-counts-wrap-at-2-bits", [7, 15])})
def test_memory_on_paper(page, lesson, moves):
    """A sheet has the memory and the line of code of the move that is shown on the page."""
    page.open(f"#lesson={lesson}")
    for move in moves:
        page.go(move).press("a").call("drawPaper")
        for there, here in [("#memory-picture text", "#paper .figure svg text"),
                            ("#code-lines .here code", "#paper .code .here code"),
                            ("#memory-says", "#paper .figure svg + p")]:
            said, printed = (sorted(one for one in page.js("texts", part)
                                    if "own variable" not in one) for part in (there, here))
            assert said == printed, (move, there)


def test_an_exercise_sheet(page):
    """An exercise sheet has the moves of threads, and blanks for the outcomes and the answers."""
    page.open(LATE_LINK)
    assert page.js("print", "exercise") == "exercise" and page.js("count", "#sheets[open]") == 0
    rows, said = page.js("rows"), page.js("words", "#paper")
    assert len(rows) == 16 and rows[8] == ["9", "Ann (0)", "cas", "", "", ""]
    # Each question has two lines to write on.
    assert page.js("drawn") == [0, 10]
    assert "record that nobody reads" not in said and "no link" not in said
    heads = ["Move", "Thread", "Call or step", "Outcome", "Holds", "Queue"]
    assert page.js("texts", "#paper th") == heads
    assert page.js("print", "worked") == "worked"
    assert "record that nobody reads" in page.js("words", "#paper")
    assert page.js("rows")[7][4].startswith("Bob swaps the tail and finds Ann; it is in the queue")


# Lessons of each lock, and the threads that have names in them.
GIVEN = {"ticket-wraps-at-2-bits": [0, 1, 2], "mcs-late-link": [0, 1], "simple-downgrade": [0, 1],
         "fifo-counts-wrap-at-2-bits": [0, 1]}


def test_marks_to_fill_in(page):
    """On an exercise sheet each mark is empty, on the line of its thread and below its word, and a
    thread with a name has its number too: the table names it by both."""
    page.open()
    for name, given in GIVEN.items():
        shown = page.lesson(name).call("print", "exercise").js("marksToFillIn")
        assert shown["askew"] == shown["overlaps"] == [], name
        words = [move[1] for move in MOVES[name]]
        assert shown["words"] == [[number, word] for number, word in enumerate(words, 1)], name
        assert shown["notes"] == [f"thread {thread}" for thread in given], name


@pytest.mark.parametrize("threads", [2, 5, 6, 14])
def test_marks_of_many_threads(page, threads):
    """Strips of few threads and of many have the same."""
    page.open()
    names = "".join(f"#! name {thread} Name{thread}\n" for thread in range(threads))
    calls = "".join(f"{thread} acquire\n" for thread in range(threads))
    page.show(f"{names}lock ticket threads {threads}\n{calls}").call("print", "exercise")
    shown = page.js("marksToFillIn")
    assert shown["askew"] == shown["overlaps"] == []
    assert shown["words"] == [[number, "acquire"] for number in range(1, threads + 1)]
    assert shown["notes"] == [f"thread {thread}" for thread in range(threads)]
    assert page.js("count", "#paper .strip.many") == (threads > 5), "whose letters are smaller"


def test_a_black_screen_on_paper(page):
    """The black screen of a hall changes nothing on paper."""
    page.open(f"{LATE_LINK}&hall").call("drawPaper")
    bodies = [page.js("bodyOnPaper")]
    assert page.press(".").js("count", "body.blank") == 1
    bodies.append(page.js("bodyOnPaper"))
    assert bodies[0] == bodies[1] and bodies[0][0] > 400, bodies


def test_after_an_exercise_sheet(page):
    """After an exercise sheet, the browser's own command prints the answers again."""
    page.open(LATE_LINK).call("print", "exercise").call("drawPaper")
    assert "record that nobody reads" in page.js("words", "#paper")


def test_a_link_asks_for_a_sheet(page):
    """A link offers a sheet, and Enter prints it."""
    assert page.open(f"{LATE_LINK}&sheet=exercise").js("offered") == "exercise"
    page.call("stubPrint").press("Enter")
    assert page.js("printed") == "exercise" and page.js("count", "dialog[open]") == 0


# By hand, in pixels: a sheet is 1040 wide, and a millimetre 3.78.
WORKED = {
    # The numbers of the moves, and two lanes of 78.
    ".strip svg": [[0, 1040, 30], [0, 1040, 156]],
    # Memory has 1.6 parts of the width and the code one, 8 mm apart.
    ".figure > div": [[0, 621], [652, 1040]], ".figure > div > svg": [[0, 621]],
    "table": [[0, 1040]], "caption": [[0, 1040]]}
# Two parts for the name and one for the date; two memories and the code; the table, which has 1.15
# parts, and the questions, 9 mm apart.
EXERCISE = {
    ".strip svg": [[0, 1040, 25], [0, 1040, 84]], ".name-line span": [[0, 673], [703, 1040]],
    ".figure > div > svg": [[0, 327], [357, 683]], ".answers > *": [[0, 538], [572, 1040]]}
UNSEEN = ".tools, footer, #work, #bar, #notice, dialog, #paper button"


@cases("sheet, wanted", {"worked": ("worked", WORKED), "exercise": ("exercise", EXERCISE)})
def test_where_parts_are_on_a_sheet(page, sheet, wanted):
    """Each part is as wide as its place, below the one before it, and nothing else is printed."""
    page.resize(1040, 700).open(LATE_LINK).call("print", sheet).press("?")
    parts = page.js("onSheet", [*(f"#paper {one}" for one in wanted), "#paper > *", UNSEEN])
    assert parts.pop(UNSEEN) == []
    shown = parts.pop("#paper > *")
    assert all(one[2] + one[3] <= other[2] for one, other in zip(shown, shown[1:])), shown
    assert shown[0][2] > 43 and {tuple(one[:2]) for one in shown} == {(0, 1040)}, shown
    for part, places in wanted.items():
        found = parts[f"#paper {part}"]
        assert [[*one[:2], one[3]][:len(places[0])] for one in found] == places, part
        assert part == ".strip svg" or len({top for _, _, top, _ in found}) == 1, part
    whole = [".strip", ".figure", ".asked", "#paper tr"]
    assert page.js("keptWhole", whole) == whole
    begins = ["#paper table", ".answers"]
    assert page.js("onNewSheets", begins) == [begins[sheet == "exercise"]]


def test_room_to_write(page):
    """Two lines of 7 mm below each question, and 5.7 mm for an answer, in equal columns."""
    page.resize(1040, 700).open(LATE_LINK).call("print", "exercise")
    lines, rows = page.js("onSheet", ["#paper p.blank", "#paper .blanks td:nth-child(n + 4)"]
                          ).values()
    assert [height for *_, height in lines] == [26] * 10
    assert len(rows) == 3 * 16 and all(height >= 21 for *_, height in rows), rows
    assert {right - left for left, right, *_ in rows} <= {102, 103}
    assert page.js("underlined", ["p.blank", ".name-line span"]) == [True, True]


# The longest word of a step, again and again: of few threads and of many.
POLLS = "0 wlock\n0 section\n1 rlock\n" + "1 section\n" * 28


@pytest.mark.parametrize("threads", [2, 6])
@pytest.mark.parametrize("sheet", ["worked", "exercise"])
def test_no_word_runs_into_the_next(page, sheet, threads):
    page.resize(1600, 900).open(LATE_LINK).show(f"lock rw-fifo threads {threads}\n{POLLS}")
    assert page.call("print", sheet).js("wordsOnWords") == [[], []]


def test_a_fault_on_paper(page):
    """The button that mends a line is not printed, and the lines around it are, to the left."""
    page.open(LATE_LINK).show("lock ticket threads 2\n0 aquire\n1 acquire\n").call("drawPaper")
    assert page.js("count", "#paper [data-mend]") == 1
    parts = page.js("onSheet", ["#paper button", "#paper .text-around", "#paper .wrong-part"])
    assert parts["#paper button"] == []
    [[left, right, *_]], [[edge, end, *_]] = list(parts.values())[1:]
    assert edge < left < right < end / 2
