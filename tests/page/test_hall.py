"""Keys, links and choices lead to hall mode, to frames for slides, and to hidden parts."""
import pytest

from tree import cases

SCREENS = [(1024, 768), (1280, 720), (1366, 768), (1440, 900), (1920, 1080)]
# A state of each lock whose picture has as much in it as any of its lessons.
STATES = [
    ("mcs-third-linked-before-second", 12), ("ticket-wraps-at-2-bits", 23),
    ("simple-second-writer", 6), ("fifo-counts-wrap-at-2-bits", 16)]
PAIRS = ["memory,code", "time,now", "time,memory", "code,now"]
SHARE = 0.025
LATE_LINK = "#lesson=mcs-late-link&move=9"


@pytest.mark.parametrize("width, height", SCREENS)
def test_letters_are_large(page, width, height):
    """Every visible letter has 2.5 % of the screen's height, and the line of code is in view."""
    page.resize(width, height)
    first, *others = [(*state, PAIRS[0]) for state in STATES]
    for lesson, move, pair in [(*first[:2], pair) for pair in PAIRS] + others:
        page.open(f"#lesson={lesson}&move={move}&hall&show={pair}")
        where = (lesson, pair)
        least = page.js("letters")
        assert least and least[0][0] >= SHARE - 0.0001, (where, least)
        shown = page.js("inView")
        assert shown["parts"] == pair.split(","), (where, shown)
        assert shown["line"] and shown["moving"], (where, shown)
        # Beside the lanes memory may be scrolled, on the lowest screens.
        assert not shown["cut"] or pair == "time,memory", (where, shown)
        assert shown["current"].startswith(str(move)), (where, shown)


def test_letters_of_the_quiz_are_large(page):
    """The questions, what is said of a wrong answer, and the list of wrong answers at the end."""
    page.resize(1024, 768).open("#lesson=ticket-hand-over&move=0&hall").press("q", "End")
    asked = 0
    while kind := page.js("answerWrongly"):
        least = page.js("letters")
        assert least[0][0] >= SHARE - 0.0001, (kind, least)
        page.press("End")
        asked += 1
        least = page.js("letters")
        assert least[0][0] >= SHARE - 0.0001, (asked, least)
    assert asked > 4 and page.js("count", "#current .quiz-end li") == asked


def test_by_key(page):
    assert page.open(LATE_LINK).js("header")
    assert not page.press("h").js("header") and page.js("parts") == ["memory", "code"]
    page.becomes(f"{LATE_LINK}&hall", "address").press("a", "ArrowRight")
    assert page.text("#current").startswith("10 Ann, read await succ")
    assert page.shown()["spoken"].startswith("Move 10 of 16."), "it is said though it is not drawn"
    assert page.press("h").js("header")
    page.becomes("#lesson=mcs-late-link&move=10", "address").press("h", "End", "ArrowRight")
    assert page.text("#notice") == "That was the last move.", "the next lesson is not in view"
    assert page.click("#leave").js("header")


def test_how_tall_lanes_are(page):
    """Lanes of many threads are lower above memory than above a part that needs less room."""
    page.open(LATE_LINK)
    page.show("lock ticket threads 64\n" + "".join(f"{one} acquire\n" for one in range(64)), 64)
    page.press("h")
    heights = {}
    for part in ["time", "memory", "now", "time"]:
        page.call("choosePart", part)
        heights[" ".join(page.js("parts"))] = page.js("lanesHeight")
    assert heights["time now"] > 1.1 * heights["time memory"], heights


@cases("look, chosen, parts, address", {
    "a third part in place of the first": ("&hall", "now", ["code", "now"], "&hall&show=code,now"),
    "its own two, as by key": ("&show=time,memory,now", "hall", ["memory", "code"], "&move=9&hall"),
    "the first two of a link": ("&hall&show=time,memory,code,now", None, ["time", "memory"], "")})
def test_two_parts(page, look, chosen, parts, address):
    """Hall mode shows two parts, by a link or by the list."""
    page.open(f"{LATE_LINK}{look}")
    if chosen:
        page.call("choosePart", chosen).until("addressEnds", address)
        assert page.js("partsTicked") == parts
    assert page.js("parts") == parts and not page.js("header")


@pytest.mark.parametrize("key", ["e", "g"])
def test_beside_a_form(page, key):
    """On the narrowest screen memory is above the code, and nothing of it is cut."""
    page.resize(1024, 768).open("#lesson=ticket-hand-over&move=3&hall").press(key)
    shown = page.js("inView")
    assert shown["parts"] == ["memory", "code"] and not shown["cut"], shown


@pytest.mark.parametrize("mode", ["", "g", "e", "q"])
def test_parts_are_chosen(page, mode):
    """Outside hall mode a reader chooses any number of parts."""
    page.open(LATE_LINK).press(*mode).call("choosePart", "code")
    assert page.js("parts") == ["time", "memory", "now"]
    page.until("addressEnds", "&show=time,memory,now")
    assert page.reload().js("parts") == ["time", "memory", "now"]


@pytest.mark.parametrize("key", ["g", "e", "a"])
def test_the_line_stays_in_view(page, key):
    """The line stays in view beside a panel, below an answer, and in a lower window."""
    assert page.resize(1280, 720).open(LATE_LINK).press(key).js("line")
    page.resize(1280, 600).until("line")


@pytest.mark.parametrize("look", ["", "&hall&show=time,now"])
def test_story_and_moves_to_come(page, look):
    """The story and the later moves appear when a key asks for them."""
    shown = page.open(f"#lesson=mcs-late-link&move=0{look}").js("story")
    assert shown["story"] == shown["faint"] == shown["marks"] == 0, shown
    shown = page.press("a", "f").js("story")
    assert shown["story"] == 1 and shown["marks"] == 16 and shown["faint"] > 16, shown
    assert page.press("f").js("story")["marks"] == 0


def test_an_answer_is_not_given_away(page):
    """The page shows the parts that answer a question only with the answer."""
    shown = page.open("#lesson=mcs-late-link&move=8").js("story")
    assert shown["links"] == shown["answers"] == 0 and "only Bob" not in shown["caption"], shown
    shown = page.press("a").js("story")
    assert shown["links"] == 2 and shown["caption"].startswith("Ann is followed by Bob"), shown


def test_a_frame_for_a_slide(page):
    """A frame of 960 by 480 shows both parts, and no tools."""
    page.resize(960, 480)
    for lesson, move in STATES:
        shown = page.open(f"#lesson={lesson}&move={move}&embed&show=memory,code").js("inView")
        assert shown["parts"] == ["memory", "code"] and not shown["header"], (lesson, shown)
        assert shown["line"] and shown["moving"], (lesson, shown)
        assert not page.js("isSeen", "#leave"), "a slide does not leave anything"
    page.press("a", "ArrowRight").until("addressEnds", "&move=17&embed&show=memory,code")


def chosen_and_opened_again(page):
    """Chooses the light theme, opens the link without it, and tells whether a mark that this test
    stored is still there. Chromium sometimes loses all stored data at a load."""
    assert page.open(f"{LATE_LINK}&theme=dark").js("theme") == "dark"
    page.call("mark")
    # Opening has written the address by then.
    page.call("leave").press("d").until("addressEnds", "&theme=light")
    return page.open(LATE_LINK).js("isMarked")


@pytest.mark.parametrize("letters", ["soon", "late", "never"])
def test_a_theme_in_the_link(page, letters):
    """The link has a chosen theme, and the browser remembers it, even if the fonts come late, for
    which the page waits, or if the browser blocks them."""
    if letters != "soon":
        page.before("delayLetters" if letters == "late" else "blockLetters")
    assert any(chosen_and_opened_again(page) for _ in range(5)), "the browser stores nothing"
    assert page.js("theme") == "light"


def test_the_link_comes_before_what_was_chosen(page):
    page.open(LATE_LINK).press("d").becomes("dark", "theme")
    assert page.call("follow", f"{LATE_LINK}&theme=light").js("theme") == "light"


def test_the_theme_button_names_the_other(page):
    """The button names the other theme after a link with a theme, and after a link without one."""
    assert page.open(f"{LATE_LINK}&theme=dark").text("#theme").startswith("Light")
    page.call("follow", LATE_LINK)
    assert page.js("theme") == "" and page.text("#theme").startswith("Dark")


TRACE_IN_A_HALL = "#lesson=ticket-hand-over&hall&show="
TRACE = """lock ticket threads 2
0 acquire
0 add next_ticket found 0
1 acquire
1 add next_ticket found 0
"""


def test_a_trace(page):
    """The bar has what was recorded, and at the refused step why the lock refuses it."""
    page.open(f"{TRACE_IN_A_HALL}memory,code").call("paste", TRACE).shown(refused=True, moves=3)
    refused = "The recorded run: add next_ticket found 0. The lock here: found 1."
    assert page.text("#current") == (
        f"✕ thread 1, add next_ticket found 0 refused ticket := add(next_ticket, 1) {refused}")
    assert page.go(2).text("#current") == (
        "2 thread 0, add next_ticket found 0 ticket := add(next_ticket, 1)")
    page.open(f"{TRACE_IN_A_HALL}now,code").call("paste", TRACE).shown(refused=True, moves=3)
    assert refused not in page.text("#current") and refused in page.text("#now")


def test_a_question_covers_recorded_values(page):
    page.open(f"{TRACE_IN_A_HALL}memory,code")
    page.call("paste", TRACE + "#! ask 2 hide facts : Which ticket?\n#! answer 2 : 0\n")
    page.shown(refused=True, moves=3)
    assert page.go(2).text("#current").startswith("2 thread 0, add ticket := add")
    page.press("a")
    assert page.text("#current").startswith("2 thread 0, add next_ticket found 0 ticket := add")
