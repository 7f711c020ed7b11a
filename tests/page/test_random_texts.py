"""For random schedules and texts, the page's report equals the program's byte for byte, and the
states that the page reads off the records equal those that the machine writes."""
import random
import re

import pytest

import schedules
from reports import reports_of
from tree import TESTS, ran

TEXTS, OF_STATES = 2000, 200
LONGEST = 300
AT_ONCE = 100
HEADER = re.compile(r"^lock (\S+) threads \S+(?: bits (\S+))?$", re.MULTILINE)


@pytest.fixture
def draw(request):
    """Draws `count` random texts by the printed seed."""
    chance = random.Random(int(request.config.getoption("hypothesis_seed")))
    return lambda count: [schedules.random_text(chance, LONGEST) for _ in range(count)]


def test_reports(page, lockreplay, tmp_path, draw):
    texts = draw(TEXTS)
    reports = reports_of(lockreplay, texts, tmp_path)
    played = [text.decode("latin-1") for text, report in zip(texts, reports)
              if not report.startswith("fault")]
    headers = [found for text in played for found in HEADER.findall(text)]
    assert {lock for lock, _ in headers} == set(schedules.NAMES)
    assert len({bits for _, bits in headers}) > 30
    page.open()
    for at in range(0, TEXTS, AT_ONCE):
        some = texts[at:at + AT_ONCE]
        shown = page.js("reports", [text.decode("latin-1") for text in some])
        for text, mine, report in zip(some, shown, reports[at:]):
            assert mine == report, text


def test_states(module, tmp_path, draw):
    paths = [tmp_path / str(number) for number in range(OF_STATES)]
    for path, text in zip(paths, draw(OF_STATES)):
        path.write_bytes(text)
    done = ran("node", TESTS / "page" / "module.mjs", module, *paths)
    assert done.returncode == 0, done.stderr
