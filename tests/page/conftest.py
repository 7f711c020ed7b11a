"""Runs each test that takes the fixture `page` in both browsers."""
import contextlib
from pathlib import Path

import pytest
import websocket

from bidi import BROWSERS
from tab import Tab
from tree import BUILT, TOP, built

HERE = Path(__file__).parent
# The fixtures that are built. All other tests of this folder need only the committed page.
PROGRAMS = {"lockreplay", "locktrace"}
FIXTURES = {*PROGRAMS, "module"}
# The page's own module, which `make page` takes out of it without the kit
OWN = TOP / "out" / "lockreplay.wasm"


def pytest_collection_modifyitems(items):
    """Marks all tests of this folder, which need what `make test-page` builds."""
    for item in items:
        if HERE in item.path.parents:
            item.add_marker("browser")
            if FIXTURES & set(item.fixturenames):
                item.add_marker("built")
            if PROGRAMS & set(item.fixturenames):
                item.add_marker("program")


@pytest.fixture(scope="session")
def module():
    """The module that the kit has built, or else the one that the page has."""
    has_own = OWN.exists() and not (TOP / BUILT["module"][0]).exists()
    return OWN if has_own else built("module")


class Open(contextlib.ExitStack):
    """The open browsers, by their kind and the media features that they emulate."""

    def __init__(self):
        super().__init__()
        self.browsers = {}

    def browser(self, *key):
        if key not in self.browsers:
            kind, media = key
            self.browsers[key] = self.enter_context(BROWSERS[kind](dict(media)))
        return self.browsers[key]

    @contextlib.contextmanager
    def tab(self, name, *key):
        """A tab for one test. After a failure the next test gets a new browser."""
        try:
            tab = Tab(self.browser(*key), name)
            yield tab
            tab.end()
        except (AssertionError, websocket.WebSocketException):
            self.browsers.pop(key, None)
            raise


@pytest.fixture(scope="session")
def browsers():
    """The browsers of this worker, which stay open from test to test."""
    with Open() as those:
        yield those


@pytest.fixture
def media():
    """The media features that the browser emulates: none, unless a test parametrizes `media`."""
    return {}


@pytest.fixture(params=list(BROWSERS))
def page(request, browsers, media):
    """A tab in each of the browsers. At the end of a test the page must have made no request, and
    logged no error."""
    name = request.module.__name__.removeprefix("test_")
    with browsers.tab(name, request.param, tuple(media.items())) as tab:
        yield tab
        assert tab.strangers() == []
