"""With many threads the moving thread and its neighbours are in view, and folds count the rest."""
import pytest

from reports import moves_replayed, numbers_of
from tree import cases

# Calls after which all threads wait for the holder; or all read, and the last waits to write.
CALLS = {
    "ticket": ("acquire", ["add", "read"]),
    "mcs": ("acquire", ["write", "swap", "write", "write"]),
    "rw-simple": ("wlock", ["section"]),
    "rw-fifo": ("rlock", ["section"]),
}


def schedule(lock, threads):
    call, steps = CALLS[lock]
    lines = [f"lock {lock} threads {threads}"]
    for thread in range(threads):
        last = lock == "rw-fifo" and thread == threads - 1
        lines.append(f"{thread} {'wlock' if last else call}")
        for step in ["section"] if last else steps[: 2 if lock == "mcs" and not thread else None]:
            lines.append(f"{thread} {step}")
    return "\n".join(lines) + "\n", len(lines) - 1


@pytest.mark.parametrize("lock", CALLS)
@pytest.mark.parametrize("threads", [6, 9, 16, 28, 64])
def test_what_moves_is_in_view(page, lockreplay, lock, threads):
    """The moving thread is in view at the end and in the middle, in lessons and in Play."""
    page.open()
    text, count = schedule(lock, threads)
    moves = moves_replayed(lockreplay, text)
    for mode, move in [("lessons", count), ("lessons", count // 2), ("play", count)]:
        shown = page.call("open", [text, mode, move]).js("drawn")
        where = (mode, move, shown)
        queue = numbers_of(moves[move - 1][4])
        assert not shown["cut"] and shown["laneInView"], where
        assert shown["pills"] + shown["listed"] == len(queue), where
        assert shown["pills"] <= 9 and not shown["overflows"], where
        if move == count:
            assert shown["moving"] and shown["threads"] == threads, where
        if threads > 8:
            assert any(letter.isdigit() for letter in shown["note"]), where


# A reader that leaves is drawn twice: inside, and at the monitor. A writer polls in no queue.
@cases("lock, move, drawn", {
    "ticket": ("ticket", "14 read", 28), "mcs": ("mcs", "14 read", 28),
    "rw-simple": ("rw-simple", "14 section", 28), "rw-fifo": ("rw-fifo", "14 runlock", 29)})
def test_what_moves_in_the_middle(page, lock, move, drawn):
    """A thread that would be folded is drawn, listed and in view while it moves."""
    page.open()
    text, count = schedule(lock, 28)
    shown = page.call("open", [f"{text}{move}\n", "lessons", count + 1]).js("drawn")
    assert shown["moving"] and shown["laneInView"] and shown["threads"] == drawn, shown
    assert page.js("count", "#now .pill[data-thread='14']") == (lock != "rw-simple")


@pytest.mark.parametrize("lock", CALLS)
def test_words_of_folds(page, lock):
    """How many threads are not drawn is said in the middle of their frame, and memory has room."""
    page.open()
    text, count = schedule(lock, 64)
    folds = page.call("open", [text, "lessons", count]).js("folds")
    assert folds and all(abs(left - right) < 2 and left > -1 for left, right in folds), folds
    assert page.js("memoryBeyond") <= 0
    assert page.js("besideColumn") == [0] * (lock == "rw-simple")


def test_who_is_not_linked(page):
    """The line that marks a thread as not linked is in the lower half of its own, low lane."""
    page.open()
    moves = [f"{thread} {word}\n" for thread in range(16) for word in ("acquire", "write", "swap")]
    page.call("open", [f"lock mcs threads 16\n{''.join(moves)}", "lessons", 48])
    shares = page.js("belowLines")
    assert len(shares) >= 5 and all(0 < one < 0.5 for one in shares), shares
    page.call("open", [f"lock mcs threads 6\n{''.join(moves[:18])}", "lessons", 18])
    # The tail's link to the last record is written, and the five between records are not.
    assert page.js("count", "#memory-picture .link.missing") == 5
    assert page.js("count", "#memory-picture .link:not(.missing)") == 1


def test_who_is_idle(page):
    """Records of threads that wait for nothing are folded, and a note below memory lists them."""
    page.open()
    for threads, idle in [(9, "Idle: T1, T2, T3, T4, T5, T6, T7, T8"), (16, "Idle: 15 threads")]:
        page.call("open", [f"lock mcs threads {threads}\n0 acquire\n", "lessons", 1])
        assert page.text("#memory-note") == idle


def test_choices_are_in_view(page):
    """Play shows the choices of the thread that moved last."""
    page.open().call("open", [schedule("ticket", 64)[0], "play", 999])
    assert page.js("choiceInView", 63) and not page.js("choiceInView", 0)
    assert page.go(3).js("choiceInView", 0) and not page.js("choiceInView", 63)
    assert page.js("count", "#lane-63") == 0
    page.call("scrollDown", "#lanes").becomes(1, "count", "#lane-63")


def test_the_chosen_lane_is_in_view(page):
    """The lanes are scrolled to the one that is chosen by key, and a text counts the others."""
    page.open().call("open", ["lock ticket threads 16\n0 acquire\n", "play", 0])
    assert page.text("#resting") == f"{16 - page.js('lanesInView')} lanes above or below"
    page.call("focus", "#lanes").press(*["ArrowDown"] * 16).until("isChosenInView", 15)
    chosen = ("attribute", "#lanes", "aria-activedescendant")
    assert page.js(*chosen) == "lane-15"
    assert page.press("g").js(*chosen) == "", "outside Play only thread 0 has a lane"
    assert page.press("g").js(*chosen) == "lane-15"
    page.call("focus", "#lanes").press(*["ArrowUp"] * 15).until("isChosenInView", 0)


def test_the_lane_of_a_refused_move_is_in_view(page):
    """Thread 19 makes the last move that is accepted, and thread 0 the one that is refused."""
    page.open()
    calls = "".join(f"{thread} acquire\n" for thread in range(20))
    page.call("open", [f"lock ticket threads 20\n{calls}0 acquire\n", "lessons", 20])
    assert page.js("markInView", 20) and page.js("count", "#lane-0") == 0
    assert page.go(21).js("markInView", 21)
    for move in (10, 11, 12, 11, 10, 9):
        page.go(move)
        assert page.js("lanesSeen", [move - 2, move - 1, move]) == [True] * 3, "with its neighbours"


# Twenty threads take the lock one after another, in six moves each.
ROUNDS = "".join(["lock ticket threads 20\n", *(
    f"{thread} {word}\n" for thread in range(20)
    for word in ("acquire", "add", "read", "release", "read", "write"))])


def test_idle_lanes_are_folded(page):
    """Only threads that move in the visible columns have lanes."""
    shown = page.open().call("open", [ROUNDS, "lessons", 120]).js("drawn")
    assert shown["lanes"] <= 6 and shown["note"].startswith(f"{20 - shown['lanes']} threads"), shown


def test_what_is_said_of_lanes(page):
    """How many threads have no lane, and how many lanes are out of view."""
    page.open()
    calls = "".join(f"{thread} acquire\n" for thread in range(30))
    page.call("open", [f"lock ticket threads 64\n{calls}", "lessons", 30])
    away = 30 - page.js("lanesInView")
    assert away > 9 and page.text("#resting") == (
        f"34 threads not drawn: no move at this time; {away} lanes above or below")


def test_who_waits_has_a_lane(page):
    """A thread that holds or waits has a lane, even if all of its moves are out of view."""
    page.open()
    before = ROUNDS[:ROUNDS.index("18 acquire")]
    waits = "18 acquire\n18 add\n18 read\n19 acquire\n19 add\n0 acquire\n0 add\n"
    page.call("open", [before + waits + 60 * "0 read\n", "lessons", 175])
    assert set(page.js("movesInView")[0]) <= set(range(116, 176))
    assert page.js("texts", "#lanes .lane-name title") == ["thread 0", "thread 18", "thread 19"]


def test_what_comes_is_in_view(page):
    """Of a long schedule more moves before the shown one are in view than after it, but not all."""
    numbered, _ = page.open().call("open", [ROUNDS, "lessons", 60]).js("movesInView")
    after = numbered[-1] - 60
    assert len(numbered) / 4 < after < len(numbered) / 2, numbered


def test_each_move_in_view_has_a_lane(page):
    """Each visible move has a lane, whichever part of a round is first or last in view."""
    page.open().call("open", [ROUNDS, "lessons", 0])
    for move in range(90, 97):
        numbered, drawn = page.go(move).js("movesInView")
        assert len(drawn) > 6 and drawn == [one for one in numbered if one <= move], (
            move, numbered, drawn)


# A writer of a read-write lock polls ten times.
POLLS = ["0 rlock", "0 section", "1 wlock", *["1 section"] * 10, "0 runlock", "0 section",
         "1 section", "0 rlock", *["0 section"] * 9]
# The widest numbers of the ticket lock.
NUMBERS = ["0 acquire", "0 add", "0 read", "1 acquire", "1 add", *["1 read"] * 20]


@pytest.mark.parametrize("mode", ["lessons", "play"])
@pytest.mark.parametrize("lock, moves", [
    ("rw-simple", POLLS), ("rw-fifo", POLLS), ("ticket", NUMBERS)], ids=lambda it: str(it)[:9])
def test_no_value_is_cut(page, lock, moves, mode):
    """No value is cut below the marks of many moves, or in memory beside the choices of Play."""
    page.open()
    text = "\n".join([f"lock {lock} threads 2", *moves]) + "\n"
    assert page.call("open", [text, mode, len(moves)]).js("cut") == []


@cases("polls, key, said", {
    "no such thread": (1, "7", "Choose who moves next. The machine plays what you choose."),
    "full": (65531, "0", "A schedule has at most 65,536 moves.")})
def test_a_digit_that_chooses_nothing(page, polls, key, said):
    """The key of a thread that the lock does not have, and any after the most moves."""
    page.open()
    before = "lock ticket threads 3\n0 acquire\n0 add\n0 read\n1 acquire\n1 add\n"
    shown = page.call("open", [before + polls * "1 read\n", "play", polls + 5]).press(key).shown()
    assert shown["place"] == shown["moves"] == polls + 5 and shown["mode"] == "play"
    assert page.text("#choices .hint") == said


def test_room_for_several_moves(page):
    """A transition that is three moves away is chosen if the schedule may have three more."""
    page.open()
    before = "lock ticket threads 3\n0 acquire\n0 add\n0 read\n1 acquire\n1 add\n"
    page.call("open", [before + 65529 * "1 read\n", "play", 65534]).click("#next-kinds summary")
    page.until("chooseIn", "in 3 moves")
    page.shown(moves=65534, place=65534)
    page.go(65533).until("chooseIn", "in 3 moves")
    page.shown(moves=65536, place=65536)


@cases("comment, said, moves", {
    "before": (0, "A schedule has at most 1,048,576 bytes.", 1),
    "after": (1, "Choose who moves next. The machine plays what you choose.", 2)})
def test_the_most_bytes(page, comment, said, moves):
    """A choice goes on from the text up to the move that is shown. So a long comment before that
    move leaves no room, and one after it takes none."""
    page.open().call("openLarge", "lock ticket threads 2\n", "0 acquire\n", comment, 1048570)
    assert page.press("g").text("#choices .hint") == said
    page.press("1").shown(moves=moves, place=moves)


@pytest.mark.parametrize("lock, call, line", [
    ("mcs", "acquire", "me.next := nil"), ("rw-fifo", "rlock", "await flag = 0")])
def test_the_line_a_thread_makes_next(page, lock, call, line):
    """A thread is marked at its next line, or at the first of several lines of one step."""
    page.open().show(f"lock {lock} threads 1\n0 {call}\n", 1)
    assert page.js("texts", "#code-lines .code-line:has(.disc) code") == [line]


def test_what_is_read_of_many_words(page):
    """Of 129 words of memory the first 33 are read out."""
    page.open().show("lock mcs threads 64\n0 acquire\n", 1)
    said = page.js("attribute", "#memory-picture svg", "aria-label")
    assert said.count(" = ") == 33 and said.endswith(", T15.locked = 0"), said


def test_who_is_folded_in_a_list(page):
    """A fold says how many threads it has, and its tip which."""
    page.open().call("open", [schedule("ticket", 16)[0], "lessons", 999])
    whole = page.js("texts", "#now [data-queue] .pill")
    [fold] = page.js("texts", "#now [data-queue] .folded")
    folded = page.js("attribute", "#now [data-queue] .folded", "title").split(", ")
    assert fold.startswith(f"{len(folded)} ") and len(whole) <= 9
    assert sorted(whole + folded) == sorted(f"thread {one}" for one in range(16))


def test_numbers_of_narrow_columns(page):
    """Of moves with three digits every second has its number, and the shown one its own."""
    page.open().call("open", [ROUNDS, "lessons", 101]).press(*"-" * 12)
    numbers = page.js("texts", "#numbers .number")
    assert page.js("numbersOnNumbers") == [] and "101" in numbers, numbers
    assert [int(one) % 2 for one in numbers if one != "101"] == [0] * (len(numbers) - 1), numbers
    assert not {"100", "102"} & set(numbers) and {"98", "104"} <= set(numbers), numbers


def test_marks_beside_a_line(page):
    """Of eight threads at one line of code, five have marks, and a number counts the rest."""
    page.open()
    page.show("lock ticket threads 8\n" + "".join(f"{thread} acquire\n" for thread in range(8)), 8)
    assert page.js("texts", "#code-lines .more") == ["+3"]
    assert page.js("texts", "#code-lines .disc") == ["0", "1", "2", "3", "4"]
