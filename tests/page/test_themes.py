"""Both themes, patterns, names of threads, and the faint drawing of later moves."""
import pytest

from contrast import contrast, luminance
from tree import cases

LATE_LINK = "#lesson=mcs-late-link&move=9"
LEAST = 4.5


@cases("media, is_dark", {
    "light": ({}, False), "dark": ({"prefers-color-scheme": "dark"}, True)})
def test_themes(page, is_dark):
    """The theme is the system's, until the reader chooses the other one."""
    assert page.open(LATE_LINK).js("isDark") == is_dark
    grounds = [luminance(page.js("ground"))]
    page.call("click", "#theme")
    grounds.append(luminance(page.js("ground")))
    light, dark = reversed(grounds) if is_dark else grounds
    assert light > 0.8 and dark < 0.05, grounds


def test_a_theme_that_there_is_not(page):
    """A browser that keeps another theme has that of the system, and the button the other one."""
    page.before("keepTheme", "pink").open(LATE_LINK)
    assert page.js("theme") == "" and page.text("#theme").startswith("Dark ")
    assert page.press("d").js("theme") == "dark" and page.text("#theme").startswith("Light ")


def test_which_theme_comes_first(page):
    """That of a link, then the one that the browser keeps."""
    page.before("keepTheme", "light")
    for link, theme in [(LATE_LINK, "light"), (f"{LATE_LINK}&theme=dark", "dark")]:
        assert page.open(link).js("theme") == theme


def test_without_colour(page):
    """Each meaning of a colour has a pattern, a shape or a word as well."""
    page.open("#lesson=fifo-reader-waits-behind-writer&move=6")
    line, reads, call = page.js("fills", ["queue", "reads", "call"])
    assert "hatch" in line and "ruled" in reads and "url" not in call
    assert page.js("linesOfPatterns") == ["wait", "hold"]
    words = page.js("texts", "#now .pill, #now .outcome")
    assert words and all(words), words


@cases("moves, word", {
    "reads": ("0 rlock\n0 section\n1 wlock\n" + "1 section\n" * 3, "reads"),
    "writes": ("1 wlock\n1 section\n0 rlock\n" + "0 section\n" * 3, "writes")})
def test_a_word_in_a_bar(page, moves, word):
    page.open().show(f"lock rw-simple threads 2\n{moves}")
    for move in (3, 4, 5, 6):
        assert page.go(move).js("wordsInBars") == [[word, True]], move
    assert page.go(2).js("wordsInBars") == [], "it has no room yet"


# The states in which threads stand so, and the grounds of their bars, discs, pills and heads, by
# the names of colours and patterns.
STATES = [("mcs-late-link", 9), ("mcs-late-link", 12), ("simple-downgrade", 3),
          ("fifo-reader-waits-behind-writer", 6), ("ticket-hand-over", 10)]
GROUNDS = {
    ".span.call": "faint", ".span.queue": "hatch", ".span.holds": "hold", ".span.reads": "ruled",
    ".span.writes": "hold", ".token.call circle": "card", ".token.queue circle": "wait-under",
    ".token.holds circle": "hold", ".token.reads circle": "read", ".token.writes circle": "hold",
    ".disc.call": "card", ".disc.queue": "wait-under", ".disc.holds": "hold", ".disc.reads": "read",
    ".disc.writes": "hold", ".pill.queue": "wait-under", ".pill.holds": "hold",
    ".pill.reads": "read", ".pill.writes": "hold", ".record.holds .head": "hold",
    ".record.queue .head": "hatch", ".record.queue .plate": "card", ".here-column": "here",
    ".word.changed": "here", ".code-line.here": "here", ".step": "card", ".call-mark": "ink",
    ".outcome.entered": "hold", ".outcome.waits": "wait-under",
}
# The colours of lines and letters. Letters on the colour of who holds are as white as a card.
INKS = {
    ".step:not(.fails)": "ink", ".step.waits": "ink", ".step.fails": "bad", ".cross": "bad",
    ".arrow": "ink", ".unlinked": "bad", ".unlinked-text": "bad", ".found.fails": "bad",
    ".missing-text": "bad", "#memory-says .missing": "bad", ".gap.missing": "bad",
    ".outcome.fails": "bad", ".link:not(.missing)": "ink", ".link.missing": "bad",
    ".word.changed": "ink", ".word.read": "ink", ".span.queue": "wait", ".span.reads": "hold",
    ".record.holds .frame": "hold", ".record.queue .frame": "wait", ".token.queue circle": "wait",
    ".token.reads circle": "hold", ".token.call circle": "faint", ".disc.queue": "wait-ink",
    ".disc.holds": "card", ".pill.queue": "wait-ink", ".pill.holds": "card", ".pill.reads": "ink",
    ".number.here": "ink", ".word-label.here": "ink",
}


def test_grounds_of_standings(page):
    """A thread has the colour of its standing in the lanes, in memory, in the code and in lists."""
    page.open()
    grounds, inks = {}, {}
    for lesson, move in STATES:
        page.lesson(lesson, move).press("a")
        grounds |= page.js("groundsOf", list(GROUNDS))
        inks |= page.js("inksOf", list(INKS))
    assert grounds == GROUNDS and inks == INKS
    assert page.js("weights", "#numbers .number.here") == ["700"]
    assert page.js("weights", "#numbers .number:not(.here)") == ["400"]


def test_how_thick_bars_are(page):
    """A call is a line, who waits has a low bar, and who holds the lock a high one."""
    page.open("#lesson=mcs-late-link&move=12")
    assert page.js("heightsOfBars") == {"call": ["3"], "queue": ["14"], "holds": ["24"]}


def test_what_comes_is_faint(page):
    """Later marks are faint, and so are the arrows to them."""
    faint = page.open("#lesson=mcs-late-link&move=13&future").js("faintMoves")
    assert faint == [[move, move > 13] for move in range(1, 17)]
    assert page.js("count", "#lanes .arrow.future:not(.halo)") == 2


MOVES = "0 acquire\n0 write\n0 swap\n1 acquire\n1 write\n1 swap\n"
NAMES = "#! name 0 Wilhelmina\n#! name 1 Montgomery\n"
LONGER_NAMES = "#! name 0 Wilhelmina of the second row\n#! name 1 Montgomery of the first row\n"
LINKED = f"{MOVES}1 write\n1 write\n2 acquire\n2 write\n2 swap\n"


@cases("names", {"none": "", "long": NAMES})
def test_heads_have_room(page, names):
    """A thread's name in the head of its record does not run into its standing."""
    assert page.open().js("heads", f"{names}lock mcs threads 2\n{MOVES}") == [True, True]
    page.press("Escape", "h")
    assert page.js("heads", f"{names}lock mcs threads 2\n{MOVES}") == [True, True]
    assert page.js("count", "body.hall") == 1


def test_names_are_whole(page):
    """A long name is drawn whole if there is room for it."""
    shown = page.open().js("namesDrawn", f"{NAMES}lock mcs threads 2\n{MOVES}1 write\n1 write\n")
    assert shown["lanes"] == shown["heads"] == ["Wilhelmina", "Montgomery"], shown
    assert shown["next"] == "Montgomery" and shown["inside"], shown


def test_names_that_are_cut(page):
    page.open()
    whole = ["Wilhelmina of the second row", "Montgomery of the first row"]
    shown = page.js("namesDrawn", f"{LONGER_NAMES}lock mcs threads 4\n{LINKED}")
    for part in ["lanes", "heads"]:
        for cut, name in zip(shown[part], whole):
            assert cut.endswith("…") and name.startswith(cut[:-1]), (part, shown)
            assert len(cut) >= 4, (part, shown)
        assert shown[f"{part}Whole"][:2] == whole, (part, shown)
    assert shown["next"].endswith("…") and shown["nextWhole"] == whole[1], shown
    assert shown["inside"], shown
    # Letters are larger in a hall, and measured anew for it.
    text = f"{LONGER_NAMES}lock mcs threads 2\n{MOVES}"
    heads = page.call("showEnd", text).press("Escape", "h").js("texts", ".record > .name")
    page.open(f"{LATE_LINK}&hall").call("showEnd", text)
    assert page.js("texts", ".record > .name") == heads


def test_sentences_begin_so(page):
    """A sentence on a move begins with a capital letter, even if the thread has no name."""
    page.open().call("showEnd", f"lock mcs threads 2\n{MOVES}0 release\n0 read\n0 cas\n0 read\n")
    assert page.text("#now .say") == (
        "Thread 0 polls its own next and waits for the link: it is still nil.")


@pytest.mark.parametrize("theme", ["light", "dark"])
@pytest.mark.parametrize("lesson, word", [
    ("mcs-late-link", "fails"), ("fifo-downgrade", "writes"), ("refused-not-holder", "refused")])
def test_letters_of_what_comes(page, theme, lesson, word):
    """Faint letters of later moves have enough contrast in both themes, and include this word."""
    coming = page.open(f"#lesson={lesson}&move=0&theme={theme}").press("f").js("coming")
    assert word in [text for text, _, _ in coming], coming
    for text, colour, ground in coming:
        assert contrast(colour, ground) >= LEAST, (text, colour, ground)


def test_no_line_through_a_label(page):
    """A label on dashes is drawn over them, with an edge in the colour of the ground."""
    label = page.open("#lesson=mcs-late-link&move=0").press("f").js("label")
    assert label["text"] == "in the queue, not linked" and label["above"], label
    assert label["stroke"] == label["card"] and label["opaque"] == 1, label
    assert label["paintOrder"].startswith("stroke"), label
    assert label["wide"] > 2 * label["line"], label


@pytest.mark.parametrize("width", range(1440, 1446))
def test_ticks_of_what_was(page, width):
    """The slider shows a tick from its move on, at any width."""
    assert page.resize(width, 900).open("#lesson=mcs-late-link").js("ticks", [8, 9]) == [0, 1]


def test_a_link_that_is_missing(page):
    """The queue has a gap between two threads until the second has linked itself."""
    page.open("#lesson=mcs-late-link&move=12")
    assert page.js("texts", "#now [data-queue] .gap") == ["⇢"]
    assert page.js("attribute", "#now [data-queue] .gap", "title") == "not linked"
    assert page.js("count", "#memory-picture .link.missing") == 1
    assert [page.js("isDashed", f"#memory-picture .link{kind}")
            for kind in (".missing", ":not(.missing)")] == [True, False]
    assert page.js("weights", ".record .field") == ["400"], "of a label in memory, not in the quiz"
    assert page.text("#memory-says .missing") == "Ann is followed by Bob, and only Bob knows."
    assert page.go(14).js("texts", "#now [data-queue] .gap") == ["→"]
    assert page.js("count", ":is(#memory-picture .link, #memory-says span).missing") == 0


def test_the_wheel(page):
    """On the wheel 0 is at the top, and the other numbers follow clockwise."""
    places = page.open("#lesson=ticket-wraps-at-2-bits&move=0").js("places")
    middle = [sum(values) / 4 for values in zip(*places)]
    sides = [[(at > center) - (at < center) if abs(at - center) > 9 else 0
              for at, center in zip(place, middle)] for place in places]
    # Right and down count as 1. The places are above, right, below, left.
    assert sides == [[0, -1], [1, 0], [0, 1], [-1, 0]], places
    assert "2 bits: 4 numbers, then 0 again" in page.js("texts", "#memory-picture .note")


@pytest.mark.parametrize("lock", ["ticket", "rw-fifo"])
def test_which_words_have_a_wheel(page, lock):
    """A wheel has each number of words of at most five bits."""
    page.open()
    for bits, places in [(2, 4), (3, 8), (5, 32), (6, 0), (64, 0)]:
        page.show(f"lock {lock} threads 2 bits {bits}\n")
        assert page.js("texts", "#memory-picture .place text") == [
            str(place) for place in range(places)], bits


TICKETS = "0 acquire\n0 add\n1 acquire\n1 add\n"


def test_whose_ticket_it_is(page):
    """On the wheel each thread is at its ticket. For wide words the tickets are in a row, in the
    order of the queue, and the next ticket is the last."""
    page.open().show(f"lock ticket threads 2 bits 2\n{TICKETS}", 4)
    assert page.js("threadsAtPlaces") == [["0"], ["1"], [], []]
    page.show(f"lock ticket threads 2\n{TICKETS}", 4)
    assert page.js("texts", "#memory-picture .cell + text") == ["0", "1", "2"]
    assert page.js("texts", "#memory-picture .cell.next + text") == ["2"]
    assert page.js("isDashed", ".cell.next") and not page.js("isDashed", ".cell:not(.next)")
    assert page.js("texts", "#memory-picture .cell.next + text + .note") == ["next"]
    assert page.js("texts", "#memory-picture .note")[0] == "Tickets in the order of the queue"
    assert page.js("texts", "#memory-picture .cell + text + .token text") == ["0", "1"]
    # Thread 0 has read which ticket it serves.
    page.show(f"lock ticket threads 2\n{TICKETS}0 read\n0 release\n0 read\n", 7)
    assert page.js("texts", "#memory-picture .own ~ text")[-2:] == [
        "served = 0", "thread 0’s own variable"]


def test_a_write_is_a_change(page):
    """A write counts as a change even if it keeps the value, as when a thread clears its `next`."""
    page.open("#lesson=mcs-late-link&move=2")
    assert page.js("count", "#memory-picture .record[data-record='0'] .word.changed") == 1
    assert page.js("count", "#memory-picture .word.read") == 0


@cases("text, inner, outer", {
    "tickets": ("lock ticket threads 2 bits 2\n0 acquire\n0 add\n", "now_serving", "next_ticket"),
    "readers": ("lock rw-fifo threads 2 bits 2\n0 rlock\n0 section\n", "readReleases",
                "readAcquires")})
def test_the_hands(page, text, inner, outer):
    """The outer hand points right, to the count that has advanced, and the inner hand still points
    to 0. The sign of each hand has the name of its word."""
    assert page.open().show(text, 2).js("hands") == {"inner": [0, -1], "outer": [1, 0]}
    assert page.js("wordsOfHands") == {"inner": inner, "outer": outer}


# The elements and classes of each sign; those of the lanes, which a lock's legend has in part.
SIGNS = {
    "called": "rect.call-mark", "moved: the call goes on": "circle.step",
    "waits: failed poll": "circle.step.waits", "entered": "path.step", "left": "rect.step",
    "cas fails": "circle.step.fails path.cross", "in a call": "rect.span.call",
    "in the queue": "rect.span.queue hatch", "holds": "rect.span.holds",
    "reads": "rect.span.reads ruled", "writes": "rect.span.writes",
    "in the queue, not linked": "path.unlinked", "the write that ended a wait": "path.arrow",
}
OTHER_SIGNS = {
    "read by this move": "rect.word.read", "written by this move": "rect.word.changed",
    "a thread’s own variable, not a word of memory": "rect.own", "a link": "path.link",
    "in the queue, but not linked": "path.link.missing",
    "threads that are not drawn, and how many": "rect.own text", "below a step: what it found":
    "text", "a question at this move": "path.tick.ask",
    "on the slider: a thread enters": "rect.tick.enters",
    "on the slider: a cas fails, or a move is refused": "path.tick.fails",
    "these moves repeat for ever": "path.loop path.loop-tip",
}
OF_EACH_LOCK = ["called", "moved: the call goes on", "waits: failed poll", "entered", "left",
                "in a call", "the write that ended a wait"]
OF_A_LOCK = {
    "ticket": ["in the queue", "holds"],
    "mcs": ["in the queue", "holds", "cas fails", "in the queue, not linked"],
    "rw-simple": ["reads", "writes"], "rw-fifo": ["in the queue", "reads", "writes"],
}
MEMORY = {
    "ticket": "Memory: who has which ticket", "mcs": "Memory, in the order of the queue",
    "rw-simple": "Memory, and the threads beside it",
    "rw-fifo": "Memory, and the threads beside it",
}


def test_what_signs_mean(page):
    """Each legend has the signs of its lock, and the list of keys has all of them."""
    page.open()
    for lock, own in OF_A_LOCK.items():
        assert page.show(f"lock {lock} threads 1\n").js("signs", "#legend") == {
            label: SIGNS[label] for label in [*OF_EACH_LOCK, *own]}, lock
        assert page.js("cutSigns") == [], lock
        assert page.text("#memory-title") == MEMORY[lock]
    assert page.press("?").js("signs", "#sign-list") == {**SIGNS, **OTHER_SIGNS}


def test_shapes_of_outcomes(page):
    """A mark in the lanes has the shape of its sign in the legend."""
    page.open("#lesson=mcs-late-link&move=16")
    marks = {3: "path", 10: "circle", 15: "rect", 16: "path"}
    assert {move: page.js("shapeOf", f"#lanes [data-move='{move}'] .step")
            for move in marks} == marks
    signs = {"entered": "path", "left": "rect", "waits: failed poll": "circle"}
    assert {label: page.js("signShape", label) for label in signs} == signs


def test_which_lesson_is_shown(page):
    """The start marks the lesson that is open, by an edge in the colour of letters."""
    page.open("#lesson=mcs-late-link&move=3").press("o")
    assert page.js("markedLessons") == ["mcs-late-link"]


def test_a_failed_poll_is_dashed(page):
    """A failed poll is dashed, and the poll that found the link is not."""
    page.open("#lesson=mcs-late-link&move=16")
    assert [page.js("isDashed", f"#lanes [data-move='{move}'] .step") for move in (10, 14)] == [
        True, False]
