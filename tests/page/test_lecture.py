"""The lesson plans in the page: each step opens its place, and a key shows its answer; there are a
clock and a second window for the lecturer; and docs/GUIDE.md has the same plans."""
import re

import pytest

from reports import PLANS, TRANSLATIONS, asked_in, remarks
from tree import TOP

GUIDE = (TOP / "docs" / "GUIDE.md").read_text("utf-8")
LESSONS = {"ticket": "ticket-", "mcs": "mcs-", "rw-simple": "simple-", "rw-fifo": "fifo-"}


def begin(page, lock, language="en"):
    """Begins a plan by key and click, as a lecturer does."""
    page.open(f"#lesson=ticket-hand-over&move=0&lang={language}").press("n")
    assert page.js("isOpen", "plans")
    return page.click(f'#plans [data-plan="{lock}"][data-step="0"]')


@pytest.fixture
def lecturer(page):
    """A tab that opens a second window, which is closed after the test."""
    yield page.before("keepWindows")
    page.call("closeThere")


def played(step):
    """How many moves of a branch a step plays."""
    return len(step["play"].split(",")) if "play" in step else 0


@pytest.mark.parametrize("width, height", [(1024, 768), (1366, 768), (1920, 1080)])
@pytest.mark.parametrize("plan", PLANS, ids=list(LESSONS))
def test_a_plan_step_by_step(page, plan, width, height):
    """N goes to the next step, A shows the answer, with what the step plays or compares."""
    begin(page.resize(width, height), plan["lock"])
    for at, step in enumerate(plan["steps"], 1):
        shown = page.js("step")
        where = (at, shown)
        compares = bool(played(step) or step.get("compare"))
        assert shown["place"] == step["move"] and shown["hall"], where
        assert shown["step"] == f"Step {at} of {len(plan['steps'])}" and shown["isSeen"], where
        assert "show" not in step or shown["parts"] == step["show"].split(","), where
        assert not shown["compares"], where
        if step["place"] != "hand-over, 3":
            assert shown["question"].startswith(f"Question: {step.get('ask', '')}"), where
            answered = page.press("a").js("step")
            assert answered["place"] == step["move"] + played(step), (at, answered)
            assert answered["compares"] == compares and answered["isSeen"], (at, answered)
            assert answered["answers"] == 1 and answered["question"] == shown["question"], where
            assert step.get("answer", "") in answered["answer"] != "", (at, answered)
        page.press(*"n"[:at < len(plan["steps"])])
    shown = page.press("Escape").js("step")
    assert not shown["hall"] and not shown["step"], shown


@pytest.mark.parametrize("plan", PLANS, ids=list(LESSONS))
def test_a_plan_in_german(page, plan):
    """German words are longer, and still the smallest screen cuts no text and no control."""
    begin(page.resize(1024, 768), plan["lock"], "de")
    for at in range(1, len(plan["steps"]) + 1):
        for _ in range(2):
            shown = page.js("step")
            assert shown["isSeen"] and not shown["cut"], (at, shown)
            page.press("a")
        page.press("n")


def test_what_a_question_asks_for_is_not_beside_it(page):
    """The page hides the fact for which a question asks, until the answer."""
    for lock, answer in [("mcs", "holds"), ("rw-fifo", "announced")]:
        assert begin(page.resize(1024, 768), lock).js("step")["discs"] == 0
        assert "announced" not in page.text("#memory-picture")
        assert page.press("a").js("step")["discs"] and answer in page.text("#memory-picture")


@pytest.mark.parametrize("lock, further, place, answered", [("mcs", 3, 7, 8), ("rw-fifo", 1, 6, 6)])
def test_a_click_on_the_answer(page, lock, further, place, answered):
    """Key A closes an answer that a click opened, and the comparison; and opens both again."""
    begin(page, lock).press(*"n" * further)
    for act, there, answers in [(lambda: page.click("#current .question summary"), answered, 1),
                                (lambda: page.press("a"), place, 0),
                                (lambda: page.press("a"), answered, 1)]:
        act()
        shown = page.js("step")
        assert [shown["place"], shown["answers"], shown["compares"]] == [
            there, answers, bool(answers)], shown


@pytest.mark.parametrize("lock, further, keys, place, own", [
    ("mcs", 3, ["ArrowRight"] * 2, 8, "Bob is in the queue now."),
    ("rw-fifo", 1, ["ArrowRight"] * 5, 10, "Nobody is inside.")], ids=["mcs", "rw-fifo"])
def test_an_answer_elsewhere(page, lock, further, keys, place, own):
    """Moves within a step meet the lesson's own questions, which play and compare nothing."""
    shown = begin(page, lock).press(*"n" * further, *keys, "a").js("step")
    assert [shown["place"], shown["answers"], shown["compares"]] == [place, 1, False], shown
    assert shown["question"].startswith(f"Question: {own}"), shown


def test_the_question_of_a_step_and_that_of_its_lesson(page):
    """A step that plays another move asks only its own question; without the plan it is back."""
    said = begin(page, "mcs").press(*"nnn").js("texts", "#bar .question p b")
    assert said == ["Question:"]
    page.press("Escape").lesson("mcs-late-link", 7)
    assert page.text("#now .question p") == "Question: Ann finds no successor. Is she alone?"


def test_memory_of_the_last_step_of_mcs(page):
    """The whole memory is in view, with three records and a thread's own variable."""
    shown = begin(page.resize(1024, 768), "mcs").press(*"nnnn").js("step")
    assert shown["parts"] == ["memory"]
    assert any("own variable" in one for one in page.js("seenOfMemory"))


@pytest.mark.parametrize("lock, further", [("mcs", 3), ("rw-fifo", 1)])
@pytest.mark.parametrize("width, height", [(1024, 768), (1366, 768)])
def test_a_step_that_compares(page, lock, further, width, height):
    """Letters of the memory have 2 % of the screen's height, and lanes leave room for words."""
    begin(page.resize(width, height), lock)
    least, between = page.press(*"n" * further, "a").js("compared")
    assert least >= 0.0199 and between > 0.05, (least, between)
    assert page.js("wordsOffMarks") == []


def test_the_clock(lecturer):
    """The clock, in the lecturer's window alone, shows the minutes left, then the minutes over, and
    stops with the lecture."""
    begin(lecturer.before("keepClocks"), "mcs").press("2").until("presented")
    assert re.fullmatch(r"10:00|9:[345]\d", lecturer.js("clockThere"))
    assert lecturer.js("attribute", "#lecture span", "title") == "MCS queue lock"
    assert ":" not in lecturer.text("#lecture")
    lecturer.call("wait", 11).until("clockThereBegins", "−1:")
    assert lecturer.js("clocks") == [1000]
    assert lecturer.press("Escape").js("clocks") == []


def test_the_clock_of_a_later_step(lecturer):
    """The third step of this plan begins after 4 of 10 minutes, so six are left."""
    lecturer.open().press("Escape", "n").click("#plans [data-plan='mcs'][data-step='2']")
    lecturer.press("2").until("presented")
    assert re.fullmatch(r"6:00|5:[345]\d", lecturer.js("clockThere"))


def test_a_reload_in_a_lecture(lecturer):
    """The step, the move and the clock stay, and a page that is opened anew has no lecture."""
    begin(lecturer, "mcs").press("n", "ArrowRight", "ArrowRight", "2").until("presented")
    before = lecturer.js("where")
    lecturer.until("addressHas", "move=9")
    lecturer.reload()
    assert lecturer.js("where") == before and before[3] == 9, before
    lecturer.press("2").until("presented")
    assert re.fullmatch(r"10:00|9:\d\d", lecturer.js("clockThere"))
    lecturer.call("closeThere").press("Escape").reload()
    assert lecturer.js("where")[1] == ""
    begin(lecturer, "mcs").open("#lesson=mcs-late-link&move=9&hall")
    assert lecturer.js("where")[1] == ""


def pressed_through(page, key):
    """Where the lecture is after each press, until a press ends it or changes nothing."""
    came = [page.js("where")]
    while came[-1][1] and (len(came) < 2 or came[-1] != came[-2]):
        came.append(page.press(key).js("where"))
    return came


def test_page_down_alone(page):
    """A clicker leads through all plans to the end of the lecture: each step's question, then its
    answer, then the moves to the next step of the same lesson. No press does nothing."""
    begin(page, "ticket")
    came = pressed_through(page, "PageDown")
    assert came[-1][1] == "" and not page.js("step")["hall"], came[-2:]
    places = iter([tuple(one[:5]) for one in came])
    for plan in PLANS:
        for at, step in enumerate(plan["steps"], 1):
            met = next((one for one in places if one[1] == f"Step {at} of {len(plan['steps'])}"
                        and one[2:4] == (step["lesson"], step["move"])), None)
            assert met and met[4] == 0, (step, met)
            if step["place"] != "hand-over, 3":
                assert next(places)[4] == 1, step
    ends = [one for one in came if one[5]]
    assert len(ends) == len(PLANS)


def test_page_up_is_the_reverse(page):
    """It leads back from the end of a plan to its beginning, over the same places."""
    begin(page, "mcs")
    down = [page.js("where")]
    while not down[-1][5]:
        down.append(page.press("PageDown").js("where"))
    up = [down[-1], *(page.press("PageUp").js("where") for _ in down[1:])]
    assert up == down[::-1]
    assert page.press("PageUp").js("where")[5], "the end of the plan before"


def test_after_a_plan(page):
    """The end of a plan leads to the next plan, whose minutes the clock adds, to the exercise sheet
    of its homework, or out of the lecture."""
    for way in ("next", "sheet", "end"):
        begin(page, "mcs").press(*"nnnnn")
        assert page.js("texts", "#lecture-end [data-end-way]") == [
            "Next plan: Simple read-write lock", "Exercise sheet", "End the lecture"]
        page.click(f"#lecture-end [data-end-way={way}]")
        if way == "next":
            assert page.js("where")[:2] == ["Simple read-write lock", "Step 1 of 6"]
        if way == "sheet":
            assert page.js("isOpen", "sheets") and page.shown()["lesson"] == "mcs-late-link"
    assert not page.js("step")["hall"] and page.js("where")[1] == ""


def test_what_the_hall_does_not_see(lecturer):
    """What the lecturer is to do is in the second window alone, which also has the picture, says
    that a question waits, and names its keys."""
    said = begin(lecturer, "ticket").press("2").until("presented")
    assert PLANS[0]["steps"][0]["say"] in said and "Page Down" in said, said
    assert PLANS[0]["steps"][0]["say"] not in lecturer.text("body > header, #bar")
    assert lecturer.js("picturesThere") == 1 and "does not see" not in said
    assert "does not see the answer" in lecturer.press("n").js("presented")
    assert "does not see the answer" not in lecturer.press("a").js("presented")


def test_keys_there_open_nothing_in_the_hall(lecturer):
    """No key of the second window opens a dialog or a panel in the hall, and Escape closes one."""
    lecturer.open("#lesson=mcs-late-link&move=3").press("2").until("presented")
    for key in "nomvtypegwq?l":
        lecturer.call("pressThere", key)
        assert lecturer.js("count", "dialog[open]") == 0, key
    lecturer.shown(mode="lessons")
    assert lecturer.press("o").js("isOpen", "lessons")
    assert lecturer.call("pressThere", "Escape").js("count", "dialog[open]") == 0
    begin(lecturer, "mcs").press("2").until("presented")
    assert lecturer.press(*"nnnnn").js("where")[5]
    assert lecturer.call("pressThere", "PageDown").js("where")[1] == "Step 1 of 6"


def test_escape_in_the_menu(page):
    """Escape closes the open menu, and only then ends the lecture."""
    assert begin(page.resize(1024, 768), "mcs").press("h").click("#menu").js("isMenu")
    assert not page.press("Escape").js("isMenu") and page.js("step")["step"] == "Step 1 of 5"
    assert not page.press("Escape").js("step")["step"]


def test_the_last_step(page):
    """The button says that no other step follows, and leads to the end of the plan."""
    assert begin(page, "mcs").js("texts", "#lecture span") == ["Step 1 of 5"]
    for _ in range(4):
        assert page.text("#lecture [data-lecture=next]") == "Next step N"
        page.press("n")
    assert page.text("#lecture [data-lecture=next]") == "End of the plan N"
    assert page.press("n").js("isOpen", "lecture-end") and not page.js("isOpen", "plans")
    assert page.press("Escape").js("step")["step"] == "Step 5 of 5"


def test_the_step_before(page):
    """Back goes to the place of the step before, and stays at the first step."""
    first = begin(page, "mcs").js("step")["place"]
    assert page.js("attribute", "#lecture [data-lecture=back]", "aria-label") == "The step before"
    assert page.click("#lecture [data-lecture=next]").js("step")["step"].startswith("Step 2 ")
    for _ in range(2):
        shown = page.click("#lecture [data-lecture=back]").js("step")
        assert shown["step"].startswith("Step 1 ") and shown["place"] == first, shown


def test_minutes():
    """Each plan takes ten minutes, in at least five steps of its lock, and has homework."""
    assert [plan["lock"] for plan in PLANS] == list(LESSONS)
    for plan in PLANS:
        ends = [step["to"] for step in plan["steps"]]
        assert ends == sorted(set(ends)) and ends[-1] == 10 and len(ends) >= 5, ends
        for step in [*plan["steps"], plan["homework"]]:
            assert step["lesson"].startswith(LESSONS[plan["lock"]]), step


def test_links_of_the_guide(page):
    """Each link opens the place that the page's own plan has for this row."""
    links = re.findall(r"\]\(\.\./built/lockreplay\.html(#\S+?)\) \|", GUIDE)
    steps = [step for plan in PLANS for step in [*plan["steps"], plan["homework"]]]
    assert len(links) == len(steps) >= 25
    for link, step in zip(links, steps):
        shown = page.open(link).js("step")
        assert shown["place"] == step.get("move", 0) + played(step), (link, shown)
        assert shown["hall"] == ("move" in step) and shown["sheet"] != shown["hall"], (link, shown)


@pytest.mark.parametrize("way", ["plan", "about"])
def test_homework(page, way):
    """The plans lead to the exercise sheet of the homework, without a dialog below it."""
    page.open("#lesson=ticket-hand-over&move=3")
    for button in {"plan": ["#plan"], "about": ["#show-about", "#about [data-plans]"]}[way]:
        page.call("click", button)
    assert page.js("texts", "dialog[open] > form h2") == ["Lesson plans"]
    page.call("click", "#plans [data-sheet^=mcs-]")
    assert page.js("texts", "dialog[open] > form h2") == ["Print"]
    assert page.js("count", "#sheets [data-sheet=exercise]:focus") == 1
    assert page.shown()["lesson"] == PLANS[1]["homework"]["lesson"]


def test_a_second_window(lecturer):
    """The second window shows the lecturer the answer, the sentence on the move and the next move
    before the hall sees them. Its keys are the page's."""
    said = begin(lecturer, "mcs").press("n", "2").until("presented")
    assert "The tail alone, and Bob's own pred" in said and "The next move" in said, said
    assert "Next step: The late link, 9" in said, said
    assert lecturer.js("windowThere") == ["lockreplay: for the presenter", "presenter", True]
    assert lecturer.call("pressThere", "n").js("step")["place"] == 9
    said = lecturer.call("pressThere", "n").js("presented")
    for name in ("ask", "answer"):
        assert PLANS[1]["steps"][3][name] in said, said
    assert lecturer.press("d").js("themeThere") == lecturer.js("theme") != ""
    lecturer.call("wait", 11).until("clockThereBegins", "−1:")


def test_a_second_window_in_german(lecturer):
    """What the lecturer says at this step, and the place of the next one, are German."""
    said = begin(lecturer, "ticket", "de").press("2").until("presented")
    assert TRANSLATIONS[PLANS[0]["steps"][0]["say"]] in said, said
    title = TRANSLATIONS["Hand-over in the order of the tickets"]
    assert f"Nächster Schritt: {title}, 5" in said, said


def test_what_the_second_window_says_at_each_move(lecturer):
    """The sentences on this move and the next, who holds, and the answer, before the hall."""
    def said(what):
        return " ".join(remarks("mcs-late-link", what))
    lecturer.open("#lesson=mcs-late-link&move=0")
    sentences = ["", *lecturer.js("sentences", 16), ""]
    lecturer.press("2").until("presented")
    for move, (shown, facts) in enumerate(lecturer.js("presentedAt", 16)):
        parts = {"": ["The late link", f"{move} of 16"]}
        if move:
            parts["This move"] = [sentences[move]]
        if move in asked_in("mcs-late-link"):
            parts["Question:"] = [said(f"ask {move}"), said(f"answer {move}")]
        if move < 16:
            parts["The next move"] = [sentences[move + 1]]
        assert shown == parts and facts[0] == facts[1], move


def test_the_second_window_beside_a_text_without_a_lock(lecturer):
    """It stays as it is until the text has a lock again."""
    said = lecturer.open("#lesson=mcs-late-link&move=3").press("2").until("presented")
    assert lecturer.show("no lock\n").text("#title") == "Your own schedule"
    assert lecturer.js("presented") == said
    lecturer.show("#! title Mine\nlock ticket threads 1\n0 acquire\n", 1)
    assert lecturer.js("presented").startswith("Mine 1 of 1 This moveThread 0 calls acquire")


def test_a_second_window_that_was_closed(lecturer):
    """The page goes on without it, and the key opens it again."""
    lecturer.open("#lesson=mcs-late-link&move=3").press("2").until("presented")
    lecturer.call("closeThere").press("ArrowRight").shown(place=4)
    assert lecturer.press("2").until("presented").startswith("The late link 4 of 16")


def test_keys_of_the_second_window(lecturer):
    """A key that the page takes does nothing else there, as Space, which would scroll."""
    lecturer.open("#lesson=mcs-late-link&move=3").press("2").until("presented")
    assert lecturer.js("takenThere", [" ", "PageDown", "Tab", "ArrowDown", "Home"]) == [
        " ", "PageDown", "Home"]


def test_the_style_of_the_second_window(lecturer):
    """However often the key is pressed, there is one second window, with one style."""
    lecturer.open("#lesson=mcs-late-link&move=3")
    for _ in range(3):
        lecturer.press("2").until("presented")
        assert lecturer.js("stylesThere") == 1
        assert lecturer.js("windowThere") == ["lockreplay: for the presenter", "presenter", True]
    assert lecturer.js("countOfWindows") == 1
    assert lecturer.js("askedFor") == ["", "lockreplay-presenter", "width=820,height=640"]


def test_the_next_move_of_a_run_that_repeats(lecturer):
    """After the last move the second window shows the first of the moves that repeat."""
    lecturer.open().show("lock rw-simple threads 1\n# from line 3 on, again and again\n"
                         "0 rlock\n0 section\n0 runlock\n0 section\n", 4)
    said = lecturer.press("2").until("presented")
    assert "The next moveThread 0 calls rlock: it wants to read." in said, said


@pytest.mark.parametrize("held", ["ctrlKey", "metaKey", "altKey"])
def test_copying_in_the_second_window(lecturer, held):
    """Control+C copies a text in the second window, and does not start a comparison in the hall."""
    lecturer.open("#lesson=fifo-second-writer&move=6&lang=de").press("2").until("presented")
    assert lecturer.js("languageThere") == "de"
    assert not lecturer.call("pressThere", "c", held).js("step")["compares"]
    assert lecturer.call("pressThere", "c").js("step")["compares"]
