"""The daily work of a reader: the menu, dropped files, long titles and texts, phones, and low
windows."""
import pytest

from tree import cases

LESSON = "#lesson=mcs-late-link&move=3"
ONE = "lock mcs threads 2\n0 acquire\n"


@pytest.mark.parametrize("width, height", [(390, 844), (1366, 768)])
def test_the_menu_closes(page, width, height):
    """A choice, a click elsewhere or on its button, and Escape close the menu."""
    page.resize(width, height)
    for away in ["#mode-quiz", "#position", "#menu", None]:
        page.open(LESSON).click("#menu")
        assert page.js("isMenu") and page.js("attribute", "#menu", "aria-expanded") == "true"
        if away:
            page.click(away)
        else:
            assert page.call("focus", "#theme").press("Escape").js("focused") == "menu"
        assert not page.js("isMenu"), away
        assert page.js("attribute", "#menu", "aria-expanded") == "false"


def test_several_files(page):
    """The page shows the first dropped file, lists the others with the lessons, and says so."""
    assert page.open(LESSON).press("o").js("count", "#lessons .kept") == 0
    page.press("Escape").call("dropFiles", [
        ["a.txt", f"#! title First\n{ONE}"], ["b.txt", f"#! title Second\n{ONE}"]])
    told = page.becomes("First", "text", "#title").until("text", "#notice")
    assert "a.txt is shown" in told and "other file is kept" in told, told
    assert "Second" in page.press("Escape", "o").text("#lessons .kept")


@pytest.mark.parametrize("files, more", [(20, "8 more"), (13, "1 more")])
def test_many_files(page, files, more):
    """The browser keeps all dropped files, and the start lists them, the last ones in a fold."""
    page.open(LESSON)
    page.call("dropFiles", [[f"{at}.txt", f"#! title Number {at}.\n{ONE}"] for at in range(files)])
    assert f"{files - 1} other files are kept" in page.until("text", "#notice")
    assert page.press("Escape", "o").js("texts", "#lessons .kept summary") == [more]
    page.click("#lessons .kept summary").click("#lessons .kept details button:last-of-type")
    assert page.text("#title") == f"Number {files - 1}."


@pytest.mark.parametrize("room, said", [
    (8, "Of the 19 other files the first 7 are kept, and listed with the lessons. The browser has "
        "no room for more."),
    (0, "The 19 other files are not kept. The browser has no room for more.")])
def test_files_without_room(page, room, said):
    """If the browser has no room, the page says how many files it keeps, and lists those."""
    page.before("leaveRoom", room).open(LESSON)
    page.call("dropFiles", [[f"{at}.txt", f"#! title Number {at}.\n{ONE}"] for at in range(20)])
    assert page.until("text", "#notice") == f"0.txt is shown. {said}"
    assert len(page.press("Escape", "o").js("texts", "#lessons [data-kept]")) == room


def test_a_long_title(page):
    """A long title makes neither the page nor the start scroll sideways."""
    page.resize(1366, 768).open(LESSON).show(f"#! title {'W' * 5000}\n{ONE}")
    assert page.js("fitsAcross")
    assert page.press("o").js("fitsAcross")


def test_a_text_that_is_too_large(page):
    """If a text is too large to edit, the whole message in its place is visible."""
    page.open(LESSON)
    page.show("lock ticket threads 2\n0 acquire\n0 add\n1 acquire\n1 add\n" + "1 read\n" * 65000)
    said, wrap = page.js("instead")
    assert "too much to edit here" in said and wrap == "soft"
    page.lesson("mcs-late-link").press("o")
    assert page.js("texts", "#lessons [data-kept]") == ["Your own schedule at move 0"]


def test_beginning_a_new_schedule(page):
    """The button of the form is in view at 1366 by 768."""
    page.resize(1366, 768).open(LESSON).press("g").call("openNew")
    assert page.js("isFree", "#new button")


def test_lines_have_numbers(page):
    """A refusal names a line of the code, and the line shows this number."""
    page.open("#lesson=mcs-late-link&move=7").press("g", "w").call("choose", 0, "write")
    assert "in line 12 of the code" in page.text("#now")
    line, number, is_counted = page.js("numbered", 12)
    assert line.startswith("cas(tail, me, nil)") and "counter(line)" in number and is_counted


def test_the_move_on_a_phone(page):
    """A phone shows the holders, the queue and the sentence, and the outcome in words if the lesson
    has no sentence of its own."""
    parts = ["[data-holders]", "[data-queue]", ".plain", ".say"]
    page.resize(390, 844).open("#lesson=refused-busy&move=1")
    assert page.js("seenOfMove", parts) == parts
    page.open("#lesson=mcs-late-link&move=10")
    assert page.js("seenOfMove", parts) == ["[data-holders]", "[data-queue]", ".say"]


@pytest.mark.parametrize("device, hint", [
    ("keys", "Press → for the first move."),
    ("fingers", "Swipe to the left for the first move.")], ids=["keys", "fingers"])
def test_how_one_begins(page, device, hint):
    if device == "fingers":
        page.before("withFingers")
    assert page.open("#lesson=mcs-late-link&move=0").text("#now .hint") == hint


def test_a_finger(page):
    """A swipe to the left goes a move forward, and no control is smaller than a finger."""
    page.resize(390, 844).open("#lesson=mcs-late-link&move=10").call("swipe", -120)
    assert page.js("place") == 11
    assert page.call("swipe", 120).js("place") == 10 and page.js("small") == []


@cases("swipe, place", {
    "two fingers": ((-120, 2), 10), "short": ((-48,), 10), "long enough": ((-49,), 11),
    "steep": ((-120, 1, "lanes", 60), 10),
    "steep up": ((120, 1, "lanes", -60), 10), "slanted": ((-120, 1, "lanes", 59), 11),
    "beside the lanes": ((120, 1, "now"), 9)})
def test_which_swipe_steps(page, swipe, place):
    """A step moves by more than 48, and twice as far across as down. Two fingers zoom."""
    page.resize(390, 844).open("#lesson=mcs-late-link&move=10").call("swipe", *swipe)
    assert page.js("place") == place


def test_a_finger_in_the_text(page):
    """A finger that moves over the text scrolls the text, and makes no step."""
    page.resize(390, 844).open("#lesson=mcs-late-link&move=10").press("e")
    assert page.call("swipe", -120, 1, "text").shown(mode="own")["place"] == 10


@cases("size, part, place", {
    "wide code": ((844, 390), "code-lines", 10), "wide memory": ((280, 640), "memory-picture", 10),
    "code": ((390, 844), "code-lines", 11), "memory": ((390, 844), "memory-picture", 11),
    "beside wide code": ((844, 390), "now", 11)})
def test_a_finger_in_a_wide_part(page, size, part, place):
    """A finger that moves over a part that is wider than its room scrolls it, and makes no step."""
    page.resize(*size).open("#lesson=mcs-late-link&move=10").call("swipe", -120, 1, part)
    assert page.js("place") == place


@pytest.mark.parametrize("width, height", [(683, 384), (844, 390)])
def test_nothing_is_off_a_low_screen(page, width, height):
    """At 200 % zoom and on a phone on its side, title, menu, lanes and foot are on the screen."""
    page.resize(width, height)
    for move in (0, 9):
        page.open(f"#lesson=mcs-late-link&move={move}")
        tops = page.js("tops", ["#title", "#menu", "#numbers", "#lanes", "footer"])
        assert all(0 <= top < height for top in tops) and page.js("scrolled") == [0, 0], tops


def test_ticks_that_would_be_a_bar(page):
    """The slider has a tick for each entry if there are few, and no ticks if there are many."""
    page.open("#lesson=ticket-wraps-at-2-bits&move=28")
    ticks = "#slider-picture .tick.enters"
    assert page.js("count", ticks) == 5
    turn = "0 acquire\n0 add\n0 read\n0 release\n0 read\n0 write\n"
    assert page.show("lock ticket threads 1\n" + turn * 1000, 6000).js("count", ticks) == 0


def test_without_the_machine(page):
    """Tools that need the machine are disabled, and the reader can close the banner."""
    page.before("withoutMachine").resize(1366, 768).open(LESSON)
    assert page.text("#banner span").startswith("This browser has no 64-bit WebAssembly memory, so")
    assert page.js("disabled", ["mode-own", "mode-play", "show-find"]) == [True] * 3
    assert page.press("e").shown()["mode"] == "lessons"
    assert page.press("o").js("texts", "#lessons .ways :disabled b") == page.js(
        "texts", "#lessons .ways [data-way]:not([data-way=plans]) b")
    assert page.js("count", "#lessons .ways :enabled") == 1
    [before] = page.press("Escape").js("tops", ["#time"])
    [after] = page.click("#close-banner").js("tops", ["#time"])
    assert after < before < 145, (before, after)
