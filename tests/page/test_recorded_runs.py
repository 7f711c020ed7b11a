"""For a trace, the page shows at each move the values of the recorded run and of the lock. The
values are worked out by hand from docs/LOCKS.md."""
import json

import pytest

import test_advice
from transcripts import transcripts

LESSON = "#lesson=ticket-hand-over&move=3"

# A run of each lock, and the values of the lock at each line that has more than its move.
AGREEING = {
    "ticket": ("lock ticket threads 2", [
        ("0 acquire", ""),
        ("0 add next_ticket found 0 left 1", "next_ticket found 0 left 1, moved"),
        ("0 read now_serving found 0", "now_serving found 0, entered"),
        ("1 acquire", ""),
        ("1 add next_ticket found 1", "next_ticket found 1 left 2, moved"),
        ("1 read now_serving found 0", "now_serving found 0, waits"),
        ("0 release", ""),
        ("0 read now_serving", "now_serving found 0, moved"),
        ("0 write now_serving left 1", "now_serving found 0 left 1, left"),
        ("1 read entered", "now_serving found 1, entered")]),
    "mcs": ("lock mcs threads 2 bits 8", [
        ("0 acquire", ""),
        ("0 write next left 0", "next of 0 found 0 left 0, moved"),
        ("0 swap tail found 0 left 1", "tail found 0 left 1, entered"),
        ("1 acquire", ""),
        ("1 write next of 1 left 0", "next of 1 found 0 left 0, moved"),
        ("1 swap tail found 1", "tail found 1 left 2, moved"),
        ("0 release", ""),
        ("0 read next found 0", "next of 0 found 0, moved"),
        ("0 cas tail failed", "tail found 2 failed, moved"),
        ("1 write locked left 1", "locked of 1 found 0 left 1, moved"),
        ("1 write next of 0 left 2", "next of 0 found 0 left 2, moved"),
        ("0 read next found 2", "next of 0 found 2, moved"),
        ("0 write locked of 1 left 0", "locked of 1 found 1 left 0, left"),
        ("1 read locked found 0", "locked of 1 found 0, entered"),
        ("1 release", ""),
        ("1 read next found 0", "next of 1 found 0, moved"),
        ("1 cas tail found 2 left 0 done", "tail found 2 left 0 done, left")]),
    "rw-simple": ("lock rw-simple threads 2", [
        ("0 rlock", ""), ("0 section 3 entered", "entered"), ("1 wlock", ""),
        ("1 section waits", "waits"), ("1 section 4 waits", "waits"), ("0 runlock", ""),
        ("0 section 18446744073709551615 left", "left"), ("1 section entered", "entered")]),
    "rw-fifo": ("lock rw-fifo threads 2", [
        ("0 rlock", ""), ("0 section 1 entered", "entered"), ("1 wlock", ""),
        ("1 section 2 moved", "moved"), ("1 section 3", "waits"), ("0 runlock", ""),
        ("0 section 4 left", "left"), ("1 section 5 entered", "entered")]),
}
# The beginnings of two runs.
SECOND = ("0 acquire; 0 write next left 0; 0 swap tail found 0 left 1; 1 acquire; "
          "1 write next left 0; ")
LINKED = "0 acquire; 0 write; 0 swap; 1 acquire; 1 write; 1 swap; "


def text_of(head, moves):
    return "\n".join([head, *moves, ""])


def moves_of(text):
    return text.split("; ")


def pasted(page, head, moves):
    """Pastes a trace whose moves are apart by `; `."""
    return page.call("paste", text_of(head, moves_of(moves)))


@pytest.mark.parametrize("lock", AGREEING)
def test_equal_values(page, lock):
    """Each line is beside the values of the lock, and all lines are accepted."""
    head, rows = AGREEING[lock]
    trace = text_of(head, [line for line, _ in rows])
    shown = page.resize(1280, 720).open(LESSON).call("paste", trace).shown(moves=len(rows))
    assert shown["held"] == shown["text"] == shown["area"] == trace
    assert shown["place"] == 0 and "This is a trace. Each move has" in page.text("#notice")
    assert page.js("underNotice") == []
    assert f"All {len(rows)} moves are accepted. Each word, value and outcome" in shown["verdict"]
    assert f"end {len(rows)}" in shown["verdict"]
    assert page.js("recordedAt", len(rows)) == [[line, own] if own else [] for line, own in rows]
    assert page.shown()["spoken"].endswith("The recorded run has the same.")


def test_missing_parts_are_not_compared(page):
    moves = ["0 acquire", "0 write", "0 swap tail", "0 release", "0 read next", "0 cas tail left 0"]
    page.open(LESSON).call("paste", text_of("lock mcs threads 1", moves))
    assert page.shown(moves=6, refused=False)["verdict"].startswith("All 6 moves are accepted.")
    assert page.js("recordedAt", 3) == [[], [], ["0 swap tail", "tail found 0 left 1, entered"]]


def test_in_german(page):
    pasted(page.open(f"{LESSON}&lang=de"), "lock mcs threads 2", SECOND + "1 swap tail found 0")
    shown = page.shown(refused=True)
    for said in ["Der aufgezeichnete Lauf: swap tail fand 0. Die Sperre hier: fand 1.",
                 "Thread 0 hat tail zuletzt geschrieben, in Zeile 4: den Wert 1.",
                 "Das Wort hatte 0 bis Zeile 4"]:
        assert said in shown["now"] and said in shown["spoken"], shown
    assert page.go(3).js("texts", "#now .recorded") == [
        "Aufgezeichnet", "0 swap tail found 0 left 1",
        "Sperre hier", "tail found 0 left 1, entered"]
    assert page.text("#notice") == "Das ist ein Trace. In Zeile 7 weicht er von der Sperre ab."
    pasted(page, "lock mcs threads 2",
           LINKED + "1 write next of 0 left 2; 0 release; 1 write locked left 1")
    assert ("Zeile 10 ist auf locked of 1: vielleicht sind beide Schritte vertauscht."
            in page.shown(refused=True)["now"])


WRONG = text_of("lock ticket threads 1", ["0 acquire", "0 add next_ticket found 1", "0 read"])
RIGHT = WRONG.replace("found 1", "found 0")


@pytest.mark.parametrize("way", ["drop", "dropFiles", "pasteIntoText", "open"])
def test_ways(page, tmp_path, way):
    page.open(f"{LESSON}&own")
    if way == "open":
        path = tmp_path / "run.trace"
        path.write_text(WRONG)
        page.choose_file("#file", path)
    else:
        page.call(way, [["run.trace", WRONG]] if way == "dropFiles" else WRONG)
    shown = page.shown(refused=True, moves=1)
    assert shown["held"] == WRONG and "add next_ticket found 1. The lock" in shown["now"]


def test_a_text_is_written_on_where_it_is_no_trace(page):
    assert not page.open(LESSON).press("e").js("pasteIntoText", RIGHT)
    assert page.js("pasteIntoText", "0 acquire\n")
    assert page.js("pasteIntoText", "lock mcs threads 2\n0 acquire\n")


def test_it_stays_a_trace(page):
    """A trace stays one in links, while it is edited, and in Play, and Undo brings it back."""
    address = page.open(LESSON).call("paste", WRONG).call("leave").js("address")
    assert address.endswith("&move=2")
    assert page.open(address).shown(refused=True)["held"] == WRONG
    shown = page.press("e").call("write", RIGHT).shown(moves=3, refused=False)
    assert shown["held"] == RIGHT and "All 3 moves are accepted. Each word" in shown["verdict"]
    assert page.undo().shown(refused=True)["held"] == WRONG
    page.undo().call("write", RIGHT).go(2).press("g")
    assert page.call("choose", 0, "read").shown(moves=3)["held"] == RIGHT
    page.go(2)
    assert page.js("recorded") == ["0 add next_ticket found 0", "next_ticket found 0 left 1, moved"]
    assert page.shown()["spoken"].endswith(" The recorded run has the same.")
    assert page.js("texts", "#now .facts dt") == [
        "Wrote", "Recorded", "Lock here", "Holds", "Queue"]


def test_a_trace_in_play_without_its_story(page):
    """A story that no longer holds is left out, and what is said of a line goes with the line."""
    noted = RIGHT.replace("0 read\n", "# line {} is lock.c:9\n0 read\n")
    page.open(LESSON).call("paste", f"# A run\n{noted.format(4)}0 release\n0 read\n").press("g")
    page.go(3).call("choose", 0, "release")
    assert page.shown(moves=4)["held"] == f"{noted.format(3)}0 release\n"
    assert page.go(2).js("recorded") == [
        "0 add next_ticket found 0 lock.c:9", "next_ticket found 0 left 1, moved"]


def told():
    """Each trace of a refusal in tests/rows, and the answer of `locktrace check` in JSON."""
    for name, row in transcripts().items():
        runs = [run for run in row.runs if run.words[:3] == ["check", "--format", "json"]]
        if name.startswith("refusals: ") and runs and len(row.files) == 1:
            [file] = row.files.values()
            yield "\n".join([*file, ""]).replace("; ", "\n"), json.loads(runs[0].lines["@out"][0])


def test_the_program_says_the_same(page):
    """The page refuses the line that the program refuses, with the same fault and values."""
    answers = list(told())
    assert len(answers) == 9
    page.open(LESSON)
    for trace, answer in answers:
        shown = page.call("paste", trace).shown(refused=True, held=trace)
        line, code = answer["line"], answer["code"]
        assert f"refused line {line} {code}" in shown["verdict"], answer
        # The page words the values of `Busy` and of a count in another way.
        if code not in ("Busy", "CountNotAbove"):
            assert f"{answer['found']}" in page.text("#now mark.bad"), answer
            assert f"{answer['expected']}" in shown["now"], answer


def test_the_program_refuses_the_same_line(page):
    """The page refuses the last line of each row of advice.txt, as the program does."""
    rows = [row.values for row in test_advice.rows()]
    assert len(rows) == 61
    page.open(LESSON)
    for lock, moves, _ in rows:
        trace = text_of(f"lock {lock} threads 2", moves)
        shown = page.call("paste", trace).shown(held=trace)
        assert f"refused line {len(moves) + 1} " in shown["verdict"], (trace, shown["verdict"])


@pytest.mark.parametrize("size", [(1440, 900), (1366, 768), (1024, 768), (390, 844)])
def test_all_of_it_is_seen(page, size):
    """Everything about a move is visible, at an accepted move and at the refused one."""
    page.resize(*size).open(LESSON).call("paste", NOTED).press("e")
    page.shown(refused=True, mode="lessons")
    assert page.js("wholeOf", ".refused-text", ".source", ".refusal") == [1, 1, 3]
    assert page.go(3).js("wholeOf", ".say", "dd.recorded") == [1, 2]


# A trace as a recorder writes it.
NOTED = """# run 0000000000000009
lock ticket threads 2 bits 8
1 acquire
0 acquire
0 add next_ticket found 0
1 add next_ticket found 0
# turns 12
# thread 0 has not ended
# line 3 is wrong.c:10
# line 4 is wrong.c:10
# line 5 is wrong.c:13
# line 6 is wrong.c:14
# way 1 1 0 0
"""


def test_lines_of_the_source(page):
    """The page names the source line of each move, and of the write that decided a refusal."""
    shown = page.open(LESSON).call("paste", NOTED).shown(refused=True, moves=3)
    assert page.text("#now .source") == page.text("#verdict .source") == "wrong.c:14"
    for said in ["Thread 0 wrote next_ticket last, in line 5 (wrong.c:13): it left 1.",
                 "The word had 0 until line 5: perhaps this add was a load and a store, or is "
                 "noted too late."]:
        assert said in shown["spoken"], shown
    assert page.js("recordedAt", 3) == [
        ["1 acquire wrong.c:10"], ["0 acquire wrong.c:10"],
        ["0 add next_ticket found 0 wrong.c:13", "next_ticket found 0 left 1, moved"]]


@pytest.mark.parametrize("text, said, count", [
    (f"# A run\n\n{WRONG}".replace("0 read", "# between\n0 read"), "refused line 5 FoundOther", 1),
    (f"{RIGHT}# thread 0 has ended\n", "end 3", 3),
    (RIGHT.removesuffix("\n"), "end 3", 3),
    (RIGHT.replace("\n", "\r\n"), "carriage return", 0),
    (RIGHT.replace("0 read\n", "0 read\r\n"), "carriage return", 2),
    (RIGHT.replace("lock ticket threads 1\n", ""), "fault line 1 BadHeader", 0),
    ("lock mcs threads 4 thread 2\nacquire\nwrite next left 0\ndropped 0\n",
     "fault line 1 BadHeader", 0),
    (RIGHT.replace("found 0", "found 00"), "fault line 3 BadLine", 1),
    (RIGHT.replace("found 0", "found 18446744073709551616"), "fault line 3 BadLine", 1),
    (RIGHT.replace("found 0", "found nil"), "fault line 3 BadLine", 1),
    (RIGHT.replace("found 0", "done"), "fault line 3 BadLine", 1),
    (RIGHT.replace("found 0", "left 18446744073709551616"), "fault line 3 BadLine", 1),
    ("lock mcs threads 2\n0 acquire\n0 write next of 256\n", "fault line 3 BadLine", 1),
    ("lock mcs threads 2\n0 acquire\n0 write\n0 swap tail of 1\n", "fault line 4 BadLine", 2),
    (f"{WRONG}0 looks\n", "refused line 3 FoundOther", 1),
    (f"{RIGHT}0 looks\n", "fault line 5 BadLine", 3),
], ids=["comments", "ended", "no end", "returns", "a return", "no header", "a log", "a zero",
        "too large", "nil", "a result", "too large to be left", "no such thread",
        "a word of no thread", "a fault after it", "a fault"])
def test_texts(page, text, said, count):
    """Comments, faults and texts that are no traces get their usual messages."""
    shown = page.open(LESSON).press("e").call("paste", text).shown(moves=count)
    assert said in shown["verdict"] and shown["text"] == text
