"""Exports: pictures, the report and a frame; and what the page says about itself."""
import re
from xml.etree.ElementTree import fromstring

import pytest

from tab import PAGE
from tree import EXAMPLES, TOP, VERSION

LATE_LINK = "#lesson=mcs-late-link&move=9"


def test_the_picture(page):
    """The picture is well-formed, and has the moves and the words of memory. It shows the answer to
    a question only after the page does."""
    assert "no link" not in page.open(LATE_LINK).js("take", "svg")[1]
    name, letters, _ = page.press("a").js("take", "svg")
    text = letters.encode("latin-1").decode()
    tree = fromstring(text)
    for part in ["Ann", "Bob", "tail", "cas", "fails", "no link"]:
        assert part in " ".join(tree.itertext())
    assert "url(http" not in text and tree.tag.endswith("svg")
    assert name == "mcs-late-link-9.svg"


def test_the_picture_of_points(page):
    name, letters, _ = page.open(LATE_LINK).js("take", "png")
    assert letters.startswith("\x89PNG\r\n\x1a\n") and len(letters) > 20000
    assert name == "mcs-late-link-9.png"


def test_a_picture_that_cannot_be_made(page):
    """The page says what to take in its place."""
    page.open(LATE_LINK).call("refusePictures")
    for what in ["png", "animated"]:
        page.call("click", "#show-take").call("click", f"[data-take={what}]")
        page.becomes("This browser cannot make the picture. Take the SVG.", "text", "#notice")
        page.call("forgetNotice")


def test_how_sharp_the_picture_is(page):
    """The picture has two pixels for each unit of the drawing, in both directions."""
    page.open(LATE_LINK)
    drawing = fromstring(page.js("take", "svg")[1].encode("latin-1"))
    head = page.js("take", "png")[1][16:24].encode("latin-1")
    assert [int.from_bytes(side, "big") for side in (head[:4], head[4:])] == [
        int(2 * float(drawing.get(side))) for side in ("width", "height")]


@pytest.mark.parametrize("what, name", [
    ("report", "mcs-late-link-9.report"), ("schedule", "mcs-late-link.schedule")])
def test_the_report_and_the_schedule(page, what, name):
    text = (EXAMPLES / f"mcs-late-link.{what}").read_text("ascii")
    assert page.open(LATE_LINK).js("take", what)[:2] == [name, text]


@pytest.mark.parametrize("what, name, kind", [
    ("svg", "mcs-late-link-9.svg", "image/svg+xml"), ("png", "mcs-late-link-9.png", "image/png"),
    ("tikz", "mcs-late-link-9.tex", "text/plain"),
    ("strip", "mcs-late-link-9.strip.svg", "image/svg+xml"),
    ("animated", "mcs-late-link-9.moves.png", "image/png"),
    ("report", "mcs-late-link-9.report", "text/plain")])
def test_names_of_files(page, what, name, kind):
    """A file has the names of its lesson and move, and is of its kind. The dialog is closed."""
    assert page.open(LATE_LINK).press("t").js("take", what)[::2] == [name, kind]
    assert page.js("count", ".unseen, #take[open]") == 0
    page.show("lock ticket threads 1\n0 acquire\n", 1)
    assert page.js("take", what)[0] == name.replace("mcs-late-link-9", "schedule-1")


@pytest.mark.parametrize("look", ["", "&hall&future&show=time,now&theme=dark"])
def test_the_frame(page, look):
    """The frame has its own look in place of that of the page."""
    frame = page.open(f"{LATE_LINK}{look}").js("copiedBy", "[data-take=frame]")
    assert "#lesson=mcs-late-link&amp;move=9&amp;embed&amp;show=memory,code" in frame, frame
    assert frame.startswith('<iframe src="file:///')
    assert frame.endswith('" width="960" height="480"></iframe>')
    page.becomes("The frame is copied.", "text", "#notice")


def test_the_frame_of_a_schedule_that_is_too_long_for_a_link(page):
    """It is saved as a file, as for a link. A link has room for 24,000 bytes."""
    text = "lock ticket threads 2\n0 acquire\n0 add\n1 acquire\n1 add\n".ljust(23999, "#") + "\n"
    assert "&amp;embed" in page.open(LATE_LINK).show(text).js("copiedBy", "[data-take=frame]")
    text = f"#{text}"
    assert page.show(text).js("copiedBy", "[data-take=frame]") is None
    assert page.text("#notice").startswith("This schedule is too long for a link.")
    assert page.saved("schedule.txt", len(text)) == text.encode()


def test_the_frame_after_a_damaged_link(page):
    """The frame has the schedule that is shown, with its end."""
    page.open("#schedule=bG9jayBtY3MgdGhyZWFkcyAyCjAgYWNxdWlyZQo")
    frame = page.js("copiedBy", "[data-take=frame]")
    assert "#schedule=bG9jayBtY3MgdGhyZWFkcyAyCjAgYWNxdWlyZQo&amp;move=0&amp;embed" in frame, frame


def test_tips_and_speeds(page):
    """Each control of the foot has a tooltip of its own, and keys choose the speed."""
    tips = page.open("#lesson=mcs-late-link&move=0").js("tips")
    assert len(tips) == 6 and all(tips) and len(set(tips)) == 6, tips
    assert page.js("fills") == ["none", "none", True]
    assert page.js("waysOfArrows") == {"first": "left", "back": "left", "forward": "right",
                                       "last": "right"}
    # An arrow's tip is turned as its line is.
    assert [page.js("attribute", f"#{tip}", "orient")
            for tip in ("tip", "tip-open", "tip-missing")] == ["auto"] * 3
    assert page.press(".", ".").js("value", "#speed") == "4"
    assert page.press(",").js("value", "#speed") == "2"


CLOSED = ["lessons", "plans", "find", "why", "take", "view", "sheets", "choose-other", "about",
          "keys", "prologue", "lecture-end", "all-done"]
# By its id, or by what it belongs to. A space is between the name of a control and its key.
NAMES = {
    "show-about": "lockreplay", "mode-lessons": "Lessons O", "mode-own": "Your own E",
    "mode-play": "Play G", "mode-quiz": "Quiz Q", "compare": "Compare C", "mode-hall": "Hall H",
    "link": "Link L", "show-find": "Find M", "show-view": "View V", "show-take": "Export T",
    "print": "Print P", "theme": "Dark D", "plan": "Teach N", "show-keys": "Keys ?",
    "menu": "More", "close-banner": "Close", "leave": "Leave hall mode",
    "every": "Every move, also those that are refused", "undo": "Undo U",
    "finish": "Let all finish R", "standstill": "Why does nobody move?",
    "new-lock": "lock", "new threads": "threads", "new bits": "bits", "new": "Begin",
    "open": "Open", "copy": "Copy", "undo-own": "Undo", "save": "Save", "clear": "New",
    "first": "First move", "back": "One move back", "forward": "One move forward",
    "last": "Last move", "run": "Play the moves one after another",
    "speed 0.5": "½ ×", "speed 1": "1 ×", "speed 2": "2 ×", "speed 4": "4 ×",
    "find-lock": "lock", "find-form threads": "threads",
    "find-rounds": "times that each thread may take the lock", "find-form bits": "bits",
    "find-kind": "Which move",
    "find-sketch": "Lines that the run has, in this order, with other moves between them. * is any "
    "thread. “not” and a line: no such move before the next line.", "find-search": "Find",
    "prologue-back": "Back", "prologue-forward": "Next move",
    "prologue-begin": "The first lesson", "why-back": "The line before",
    "why-next": "The next line", "take-title": "with title",
    "take-legend": "with marks", "take-code": "with code",
    "take-answered": "with what the open question asks for", "take-from": "From move",
    "take-to": "to move", "svg": "This state as a picture (SVG)",
    "png": "This state as a picture (PNG)", "tikz": "This state for LaTeX (TikZ)",
    "strip": "Memory after each of these moves (SVG)",
    "animated": "These moves as an animated picture (APNG)", "report": "The whole report",
    "schedule": "The schedule", "frame": "Copy a frame for a slide", "worked": "With answers",
    "exercise": "Exercise sheet with blanks", **dict.fromkeys(CLOSED, "Close"),
    "next-kinds": "What can happen next", "new-lock ticket": "Ticket lock",
    "new-lock mcs": "MCS queue lock", "new-lock rw-simple": "Simple read-write lock",
    "new-lock rw-fifo": "FIFO read-write lock",
}


def test_names_of_controls(page):
    """Each control has the name of what it does."""
    names = page.open().js("namesOfControls")
    assert {key: names.get(key) for key in NAMES} == NAMES
    assert [key for key in names if key not in NAMES] == ["new schedule"] + [
        f"find-lock {lock}" for lock in ("ticket", "mcs", "rw-simple", "rw-fifo")]
    assert page.js("attribute", "#code-lines", "title") == (
        "A click on a line, or key Y, says why it is there")


def test_what_the_page_may_do():
    """The page loads nothing, sends nothing, and runs no script but its own."""
    head = PAGE.read_text("utf-8").partition("<title>")[0]
    assert re.findall(r'<meta ([^>]+)>', re.sub(r"sha256-[\w+/=]{44}", "sha256", head)) == [
        'charset="utf-8"', 'http-equiv="Content-Security-Policy" content="default-src \'none\'; '
        "script-src 'sha256' 'wasm-unsafe-eval'; style-src 'unsafe-inline'; font-src data:; "
        "img-src data:; base-uri 'none'; form-action 'none'\"",
        'name="viewport" content="width=device-width,initial-scale=1"',
        'name="referrer" content="no-referrer"', 'name="trace" content=""']


def test_who_it_is(page):
    said = page.open().call("click", "#show-about").text("#about")
    for part in [f"lockreplay {VERSION}", "proved", "Apache-2.0 OR MIT", "Chromium from 133"]:
        assert part in said
    assert "cas(tail, me, nil), or else:" in said and "Lesson plans" in said
    for name in ["PROOF.md", "GUIDE.md"]:
        assert f"docs/{name}" in said and (TOP / "docs" / name).exists()
    proved, plans, source, licence, browsers, languages = page.js("texts", "#about p")
    assert proved.startswith("This page runs the machine of lockreplay itself, compiled to WebAss")
    assert plans == "Lesson plans for teachers" and licence == "Licence: Apache-2.0 OR MIT."
    assert source.startswith("The source is in the repository of lockreplay: page/src, ")
    assert browsers.startswith("It needs 64-bit WebAssembly memory: ")
    assert languages == "Language: English Deutsch"


def test_what_the_page_has_of_itself(page):
    """The code of each lock is folded below the words for it, and a button leads to the plans."""
    page.open("#lesson=mcs-late-link&move=3").call("click", "#show-about")
    assert page.js("texts", "#about summary, #about [data-plans]") == [
        "The locks as code", "Lesson plans for teachers"]
    assert page.js("texts", "#about details h3") == [
        "Ticket lock", "MCS queue lock", "Simple read-write lock", "FIFO read-write lock"]
    locks = (TOP / "docs" / "LOCKS.md").read_text("utf-8")
    shown_code = page.js("texts", "#about pre")
    for name, shown in zip(["ticket", "mcs", "rw-simple", "rw-fifo"], shown_code):
        block = locks.split(f"```{name}\n")[1].split("\n```")[0]
        assert shown == " ".join(re.sub(r" *-- .*", "", block).split()), name
    assert page.js("texts", "#about [aria-pressed=true]") == ["English"]
    assert page.js("texts", "#about [lang]") == ["English", "Deutsch"]
    assert page.js("texts", "#about [lang=de]") == ["Deutsch"]


@pytest.mark.parametrize("port", ["thiserror", "itoa", "arrayvec"])
def test_notices(page, port):
    """The page has the notice of each port in its module, word for word, and what is said of the
    kit."""
    document = (TOP / "THIRD-PARTY").read_text("utf-8")
    title, text = re.search(rf"^({port} [\d.]+)\n-+\n\n(.*?)\n\n\n", document,
                            re.MULTILINE | re.DOTALL).groups()
    shown = page.open().call("click", "#show-about").text("#notices")
    owners = re.findall(r"^Copyright .*", text, re.MULTILINE)
    licence = " ".join(text.partition("Permission")[2].split())
    assert " ".join([title, *owners]) in shown and shown.count(licence) == 1
    assert "code of the kit itself" in shown


# Of a call, and of a step with each outcome.
PLAIN = {1: "a call begins", 2: "the call goes on", 3: "the thread holds from this move on",
         10: "a failed poll", 15: "the thread no longer holds"}


def test_words_of_the_report(page):
    """The page shows the outcome in the word of the report, and in plain words beside it."""
    page.open(LATE_LINK)
    shown = [page.text(part) for part in [
        "#now .outcome", "#now .plain", "#code h2", "#now dt:last-of-type"]]
    assert shown == ["cas fails", "the compare-and-swap fails", "Code: this move and next steps",
                     "Queue"]
    for move, plain in PLAIN.items():
        assert page.go(move).text("#now .plain") == plain, move
