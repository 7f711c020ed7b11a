"""A monkey uses all controls at random, and no exception comes of it: the fixture `page` fails a
test in which the page logged one. Every tenth time what is drawn is what the module says."""
import pytest

SEED = 20_261_201
ACTIONS = 2000
AT_ONCE = 100


@pytest.mark.parametrize("width, height", [(1366, 768), (390, 844)])
def test_a_monkey(page, width, height):
    page.before("tame").resize(width, height).open("#lesson=mcs-late-link&move=8")
    for part in range(ACTIONS // 2 // AT_ONCE):
        seed = SEED + width + part
        assert page.js("act", seed, AT_ONCE) == [], seed
        assert page.strangers() == [], seed
