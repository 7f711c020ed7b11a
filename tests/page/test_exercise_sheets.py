"""Exercise sheets for a class show no answer, and have places for writing and drawing. As PDF they
have one or two pages, whose text poppler reads."""
import re
import subprocess

import pytest

from reports import MOVES, SCHEDULES, remarks

LESSONS = [name for name in SCHEDULES if not name.startswith(("refused", "fault"))]
MOST_PAGES = 2


def test_marks_and_places(page):
    """The sheet has blanks for every mark, for words, holder and queue."""
    page.open()
    for name in LESSONS:
        shown = page.lesson(name).js("sheet")
        moves = len(MOVES[name])
        assert shown["waits"] == shown["spans"] == shown["values"] == 0, (name, shown)
        assert shown["blanks"] == moves and shown["lines"] == 2, (name, shown)
        assert shown["discs"] == 0, "no thread has a line before the first move"
        assert shown["words"] >= 2 and shown["places"] >= 2, (name, shown)
        # Arrows are between the places of the queue, of which one more is for the holder. The
        # queue has a place for each thread.
        assert shown["places"] - shown["arrows"] == 2 * shown["pictures"], (name, shown)
        assert shown["places"] == shown["pictures"] * (1 + shown["threads"]), (name, shown)


WORDS = {
    "ticket-hand-over": (["next_ticket", "now_serving"], []),
    "mcs-late-link": (["tail"], [["Ann", "next,locked", 2], ["Bob", "next,locked", 2]]),
    "mcs-third-linked-before-second": (
        ["tail"], [[one, "next,locked", 2] for one in ("Ann", "Bob", "Cem")]),
    "simple-downgrade": (["readers", "flag"], []),
    "fifo-downgrade": (["readAcquires", "readReleases", "flag"], [])}
# As wide as three records of 150 with gaps of 62, or 460. Words end at 90, records at 218, and two
# rows of places are below, of 44 and with an edge of 40.
SIZES = {name: "0 0 636 302" if name == "mcs-third-linked-before-second" else
         "0 0 460 302" if name == "mcs-late-link" else "0 0 460 174" for name in WORDS}


@pytest.mark.parametrize("name", WORDS)
def test_words_to_be_filled_in(page, name):
    """The blank memory has each word of the lock, and records with their fields."""
    page.open(f"#lesson={name}&move=0").call("sheet")
    words, records = WORDS[name]
    assert page.js("texts", "#paper .figure > div:first-child .note")[:2] == ["Holds", "Queue"]
    assert page.js("viewBoxes") == [SIZES[name]] * page.js("count", "#paper .figure svg")
    assert page.js("blankMemory") == [words, True, records]


def test_after_which_moves_memory_is_asked_for(page):
    """Memory is drawn after the moves whose questions hide it, at most two, or after any move. Of
    more the one after the first third and the one after the second are asked for."""
    page.open()
    asked = 0
    for name in LESSONS:
        moves = sorted({int(move) for move, parts in re.findall(
            r"^#! ask (\d+) hide ([a-z ]+) : ", SCHEDULES[name], re.M) if "memory" in parts})
        if len(moves) > 2:
            moves = [moves[len(moves) // 3], moves[2 * len(moves) // 3]]
        page.lesson(name).call("sheet")
        asked += len(moves)
        assert page.js("texts", "#paper .figure.blanks > div:not(.code) > h3") == [
            f"Memory after move {move}" for move in moves or ["____"]], name
    assert asked > 8
    page.show("#! ask 1 hide facts standing : Who?\n#! ask 2 hide facts memory : What?\n"
              "lock ticket threads 1\n0 acquire\n0 add\n0 read\n")
    assert page.call("sheet").js("texts", "#paper .figure.blanks > div:not(.code) > h3") == [
        "Memory after move 2"]


def test_the_mark_that_is_explained(page):
    """The legend explains the blank as it is drawn in the lanes."""
    explained, drawn = page.open("#lesson=mcs-late-link&move=0").call("sheet").js("blanks")
    assert len(explained) == len(drawn) == 1 and explained == drawn, (explained, drawn)
    assert page.js("texts", "#paper .legend > span > span") == [
        "to fill in", "called", "moved: the call goes on", "waits: failed poll", "entered", "left",
        "cas fails"]


@pytest.mark.parametrize("name, move", [
    ("ticket-hand-over", 6), ("mcs-late-link", 9), ("simple-downgrade", 4),
    ("fifo-reader-waits-behind-writer", 6)])
def test_it_is_the_same_at_each_move(page, name, move):
    """The sheet does not depend on the shown move: it marks no line of code and no thread."""
    assert page.open().lesson(name).js("sheetAt", move) == page.js("sheetAt", 0)


@pytest.mark.parametrize("name", LESSONS)
def test_as_a_pdf(page, name, tmp_path):
    """The pages of the PDF have the blanks and no answer, and no page is empty."""
    page.before("keepSheet").open(f"#lesson={name}&move=0").call("asExercise")
    path = tmp_path / "sheet.pdf"
    path.write_bytes(page.pdf())
    pages = subprocess.run(["pdftotext", "-layout", path, "-"], check=True, text=True,
                           capture_output=True).stdout.split("\f")[:-1]
    assert 1 <= len(pages) <= MOST_PAGES, len(pages)
    assert all(len(one.strip()) > 60 for one in pages), pages
    said = " ".join(" ".join(pages).split())
    assert "Name:" in said and "Date:" in said and "fill in" in said
    assert not [line for line in remarks(name, r"answer \d+") if line in said]


def dark(page, path):
    """The share of dark dots on each page that is printed."""
    path.write_bytes(page.pdf())
    pictures = subprocess.run(["pdftoppm", "-gray", "-r", "20", path], check=True,
                              capture_output=True).stdout
    # Each picture has a head with its width and height, and a byte for each dot.
    shares = []
    while pictures:
        width, height, rest = re.match(rb"P5\n(\d+) (\d+)\n255\n(.*)", pictures, re.DOTALL).groups()
        count = int(width) * int(height)
        shares.append(sum(one < 100 for one in rest[:count]) / count)
        pictures = rest[count:]
    return shares


def test_a_sheet_is_printed_on_white(page, tmp_path):
    page.before("keepSheet").open("#lesson=mcs-late-link&move=0").call("asExercise")
    shares = dark(page, tmp_path / "sheet.pdf")
    assert shares and all(share < 0.1 for share in shares), shares


def test_a_black_hall_is_printed_on_white(page, tmp_path):
    """In hall mode a full stop makes the screen black, but not what is printed."""
    page.open("#lesson=mcs-late-link&move=9&hall").press(".")
    shares = dark(page, tmp_path / "black.pdf")
    assert shares and all(share < 0.1 for share in shares), shares


def test_questions_of_the_first_moves(page):
    """The sheet has the questions before the first move, at it, and at the last move."""
    page.open()
    asked = "".join(f"#! ask {move} Number {move}?\n" for move in range(3))
    page.show(f"lock ticket threads 1\n{asked}0 acquire\n0 add\n").call("sheet")
    assert page.js("texts", "#paper .asked dt") == ["0", "1", "2"]
    assert page.js("texts", "#paper .asked dd") == ["Number 0?", "Number 1?", "Number 2?"]
    assert page.text("#now .question p") == "Question: Number 0?"
