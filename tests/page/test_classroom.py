"""Hall mode in a class: quiz and clicker work, a key blanks the screen, and Escape leaves."""
import re

import pytest

from reports import MOVES

SCREENS = [(1024, 768), (1366, 768), (1920, 1080)]
LATE_LINK = "#lesson=mcs-late-link"
TRUTH = {"outcome": 2, "holders": 3, "queue": 4}


@pytest.mark.parametrize("width, height", SCREENS)
def test_the_quiz_is_given_in_hall_mode(page, width, height):
    """The quiz begins at the current move, asks on the screen, and judges an answer."""
    page.resize(width, height).open(f"{LATE_LINK}&move=7&hall").press("q")
    assert page.js("place") == 7, "what was seen is not asked"
    asked = page.press("End").js("asked")
    assert asked and asked["move"] > 7, asked
    assert page.call("answer", "-").js("place") == asked["move"]
    assert page.text("#current .result")[0] in "✓✕"


def begin(page):
    """Begins the quiz, and goes on to its first question."""
    return page.open(f"{LATE_LINK}&move=0").press("q", "End")


def test_it_ends_where_it_is(page):
    """Q ends the quiz at the move where it began."""
    assert page.open(f"{LATE_LINK}&move=7").press("q", "q").js("place") == 7


def test_a_reload_keeps_the_answers(page):
    score = begin(page).call("answer", "-").text(".score")
    assert "(0 right, 0 wrong)" not in score
    assert page.call("leave").reload().text(".score") == score
    assert page.press("q").call("leave").reload().js("count", ".score") == 0
    assert page.press("q").text(".score") == score, "also of a quiz that is closed"


def test_a_name_is_asked_for_once(page):
    """The name stays for the next answer, and after a reload."""
    begin(page).call("answer", "-").until("addressEnds", f"&move={page.js('place')}")
    page.call("focus", "#quiz-name").press(*"Ada", "Tab").call("blur").until("isNoted", "Ada")
    assert page.reload().js("value", "#quiz-name") == "Ada", "before any further move"
    assert page.press("End").call("answer", "-").js("value", "#quiz-name") == "Ada"
    assert page.call("leave").reload().js("value", "#quiz-name") == "Ada"


def test_another_language_keeps_the_answers(page):
    points = re.findall(r"\d+", begin(page).call("answer", "-").text(".score"))
    assert page.call("click", "#show-about").js("texts", "#about [lang=de]") == ["Deutsch"]
    page.call("click", "#about [data-lang=de]")
    page.wait(lambda: page.tried(page.js, "attribute", "html", "lang") == "de",
              lambda: "it stays English")
    score = page.text(".score")
    assert score.startswith("Punkte: ") and re.findall(r"\d+", score) == points, score


def test_the_answers_for_the_teacher(page):
    """The saved answers have the name, the minute and the link, in a file that has its own name."""
    name, text = begin(page).call("answer", "-").js("saved", " Ada Lovelace ")
    assert name == "quiz.txt"
    assert "# Name: Ada Lovelace\n" in text and LATE_LINK in text, text
    assert page.js("today") in text
    assert re.search(r"(?m)^# \d{4}-\d\d-\d\dT\d\d:\d\d file:", text), text


def test_a_name_is_an_answer(page):
    """An answer may have the names of threads, Ann and Bob, in place of their numbers."""
    begin(page)
    named = 0
    while asked := page.js("asked"):
        if asked["kind"] != "outcome":
            truth = MOVES["mcs-late-link"][asked["move"] - 1][TRUTH[asked["kind"]]]
            page.call("answer", truth.replace("0", "Ann").replace("1", " Bob"))
            assert page.text(".result")[0] == "✓", (asked, truth)
            named += "Ann" in truth.replace("0", "Ann")
        else:
            page.call("answer", "-")
        page.press("End")
    assert named


def test_a_name_within_a_name(page):
    """The quiz does not take the answer Anna for Ann."""
    page.open(f"{LATE_LINK}&move=0")
    calls = "1 acquire\n1 write\n1 swap\n0 acquire\n0 write\n0 swap\n"
    page.show(f"#! name 0 Ann\n#! name 1 Anna\nlock mcs threads 2\n{calls}").press("q", "End")
    assert page.js("asked")["kind"] == "queue"
    assert page.call("answer", "Anna").text(".result")[0] == "✓", page.text(".result")


def test_what_was_wrong_is_listed_at_the_end(page):
    begin(page)
    while page.js("asked"):
        page.call("answer", "0,0").press("End")
    assert page.text(".quiz-end .hint") == "That was the last move. Wrong were:"
    listed = page.js("texts", ".quiz-end li")
    wrong = int(page.text(".score").split(" right, ")[1].split(" ")[0])
    assert len(listed) == wrong > 0 and all("(" in one for one in listed), listed


def test_a_clicker(page):
    """Page Down makes one move, a full stop blanks the screen, Escape leaves hall mode."""
    assert page.open(f"{LATE_LINK}&move=0&hall").press("PageDown", "PageDown").js("place") == 2
    assert page.press("PageUp").js("place") == 1
    assert page.press(".").js("isBlack")
    assert not page.press("ArrowRight").js("isBlack") and page.js("place") == 1
    assert not page.press("Escape").js("isHall")
    assert page.press("PageDown").js("place") == 11


def test_a_click_brings_the_screen_back(page):
    assert page.open(f"{LATE_LINK}&move=3&hall").press(".").js("isBlack")
    assert not page.click("body").js("isBlack") and page.js("place") == 3


@pytest.mark.parametrize("lesson, move", [
    ("ticket-hand-over", 5), ("mcs-late-link", 8), ("simple-writer-after-readers", 6),
    ("fifo-second-writer", 6)])
def test_all_lines_of_code_on_a_projector(page, lesson, move):
    whole, seen = page.resize(1024, 768).open(f"#lesson={lesson}&move={move}&hall").js("code")
    assert whole == seen > 6, (whole, seen)


@pytest.mark.parametrize("width, height", [*SCREENS, (1280, 720)])
def test_names_of_words_beside_the_lanes(page, width, height):
    """The words of the FIFO lock keep their names when the answer is shown."""
    page.resize(width, height).open("#lesson=fifo-second-writer&move=13&hall&show=time,memory")
    assert page.press("a").js("cut") == []
