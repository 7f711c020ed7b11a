"""A link to any move of any lesson draws a whole picture at once, on seven screens; and also with
fonts of the system in place of the page's own, which a browser may block.

No text is cut, and the current line of code, the moving parts of memory and the sentence are in
view; a sentence that a question hides comes into view with the answer. The browser loads every
eighth state, different states on each screen, and follows the links between them in the open page.
EVERY_MOVE=1 makes it load every state.
"""
import os
import re

import pytest

from reports import LESSONS, MOVES, SCHEDULES
from tab import PAGE

FEW = 40
# Font families of systems, each with a monospaced family.
FAMILIES = {"DejaVu Sans": "DejaVu Sans Mono", "Noto Sans": "DejaVu Sans Mono",
            "Liberation Sans": "Liberation Mono"}
FACE = re.compile(r"@font-face \{[^}]*\}\n")
# A lesson of each lock, of which the test opens every third state.
OF_EACH_LOCK = ("mcs-late-link", "ticket-hand-over", "simple-reader-passes-writer",
                "fifo-reader-waits-behind-writer")
THIRD = 3
EVERY = 1 if os.environ.get("EVERY_MOVE") else 8
SCREENS = [(390, 844), (820, 1180), (1024, 768), (1280, 720), (1366, 768), (1440, 900),
           (1920, 1080)]
# A question that hides the sentence on its move.
HIDES = re.compile(r"^#! ask (\d+) hide (?:\w+ )*sentence (?:\w+ )*:", re.MULTILINE)


def states():
    """(link, whether a question hides the sentence) of each place of each lesson."""
    for name, report in LESSONS.items():
        asked = {int(move) for move in HIDES.findall(SCHEDULES[name])}
        last = len(MOVES[name]) + report.startswith("refused") + ("\nrefused" in report)
        for place in range(last + 1):
            yield f"#lesson={name}&move={place}", place in asked


@pytest.mark.parametrize("width, height", SCREENS)
def test_each_lesson_at_each_move(page, width, height):
    """The first state of a group has a query of its own, so the browser loads the page anew."""
    page.resize(width, height)
    wrong, links = {}, list(states())
    first = SCREENS.index((width, height)) * EVERY // len(SCREENS)
    links = links[first:] + links[:first]
    for at in range(0, len(links), EVERY):
        group = links[at:at + EVERY]
        page.load(f"{PAGE.as_uri()}?state={at}{group[0][0]}")
        wrong.update(zip(group, page.js("wrongAt", group)))
    wrong = {link: found for link, found in wrong.items() if found}
    assert not wrong, (len(wrong), list(wrong.items())[:FEW])


@pytest.fixture
def without_letters(tmp_path):
    """A copy of the page with font families of the system in place of its own fonts."""
    def made(letters, mono):
        text, count = FACE.subn("", PAGE.read_text(encoding="utf-8"))
        assert count == 6
        for own, family in [("Page Sans", letters), ("Page Mono", mono)]:
            assert text.count(f'"{own}", ') == 1
            text = text.replace(f'"{own}", ', f'"{family}", ')
        path = tmp_path / "page.html"
        path.write_text(text, encoding="utf-8")
        return path
    return made


@pytest.mark.parametrize("letters", FAMILIES)
def test_letters_of_the_system(page, without_letters, letters):
    path, wrong = without_letters(letters, FAMILIES[letters]), {}
    links = [one for one in states() if one[0].split("&")[0].removeprefix("#lesson=")
             in OF_EACH_LOCK][::THIRD]
    for size in [(1280, 720), (1024, 768), (390, 844)]:
        assert page.resize(*size).open(links[0][0], path).js("drawnIn", letters), letters
        found = zip(links, page.js("wrongAt", links))
        wrong.update({(link, *size): said for (link, _), said in found if said})
    assert not wrong, (len(wrong), list(wrong.items())[:FEW])
