"""Nothing runs off sideways in a narrow window: on phones, at 200 % zoom and on tablets, in a hall,
in a lecture, and when its hall is left."""
import pytest

from tree import cases

LESSON = "#lesson=mcs-late-link&move=9&lang="
WINDOWS = [(320, 568), (390, 844), (683, 384), (683, 900), (820, 1180)]


@pytest.mark.parametrize("width, height", WINDOWS)
def test_a_hall(page, width, height):
    """By itself, and beside the choices, the text and the quiz."""
    page.resize(width, height).open(f"{LESSON}en").press("h")
    for key in ["", "g", "e", "e", "q"]:
        assert page.press(*key).js("offSideways") == [], key


@pytest.mark.parametrize("language", ["en", "de"])
@pytest.mark.parametrize("width, height", WINDOWS)
def test_a_lecture(page, width, height, language):
    """In its hall and without it, each part of its bar is on the screen."""
    page.resize(width, height).open(f"{LESSON}{language}").press("n")
    page.call("click", "#plans [data-plan=mcs][data-step='0']")
    for keys in ["", "nnn", "a", "h"]:
        assert page.press(*keys).js("offSideways") == [], keys
    assert page.js("count", "#lecture > *") == 3


@pytest.mark.parametrize("language", ["en", "de"])
@pytest.mark.parametrize("width", [320, 360, 683])
def test_a_dialog(page, width, language):
    """Each is as wide as what it shows: the start with its refusals, the plans and the keys."""
    page.resize(width, 640).open(f"{LESSON}{language}")
    for key, opened in [("o", ".refusals summary"), ("n", None), ("?", None)]:
        page.press(key).becomes(1, "count", "dialog[open]")
        if opened:
            page.call("click", opened)
        assert page.js("cutSideways", "dialog[open]") <= 1, key
        page.press("Escape").becomes(0, "count", "dialog[open]")


# By hand, for letters of 14.5 pixels: 2.5 % of 768 are 19.2, and 2.5 % of 384 are 9.6. A tablet is
# as wide as 600 of the page's pixels. A phone is narrower, and has letters of the usual size.
@cases("width, height, zoom", {
    "phone": (390, 844, 1), "projector": (1024, 768, 1.32), "tablet": (820, 1180, 1.37),
    "low": (683, 384, 0.66)})
def test_letters_of_a_hall(page, width, height, zoom):
    """They are 2.5 % of the height of a window that is wide enough for that."""
    assert page.resize(width, height).open(f"{LESSON}en&hall").js("zoom") == zoom


@pytest.mark.parametrize("width, height", [(683, 384), (844, 390)])
def test_an_answer_comes_into_view(page, width, height):
    """At 200 % zoom and on a phone that lies, an answer is seen when it is shown."""
    page.resize(width, height).open(f"{LESSON}en")
    for name, move in [("mcs-late-link", 8), ("ticket-hand-over", 5), ("fifo-second-writer", 6),
                       ("simple-downgrade", 5)]:
        page.lesson(name, move).press("a")
        assert page.js("isInView", "#now .question details p"), (name, move)
