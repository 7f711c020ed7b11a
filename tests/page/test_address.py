"""When the address is written, what a browser may refuse, and where a schedule was left."""
from tab import PAGE
from tree import TOP

MINE = "#! title Mine\nlock ticket threads 2\n0 acquire\n0 add\n0 read\n"
LATE_LINK = "#lesson=mcs-late-link&move=2"


def test_when_it_is_written(page):
    """The address follows a quarter of a second after the last of several steps."""
    assert page.before("keepClocks", "Timeout").open(LATE_LINK).js("stepping", 3, 250) == 1
    assert page.becomes("#lesson=mcs-late-link&move=5", "address").js("waiting", 250) == 0


def test_a_browser_that_takes_no_entries(page):
    """The page goes on, and its address stays as it was."""
    page.before("withoutEntries").open(LATE_LINK).press("ArrowRight").call("leave")
    page.shown(place=3)
    page.lesson("ticket-hand-over", 4).shown(lesson="ticket-hand-over", place=4)
    assert page.call("leave").js("address") == LATE_LINK


def test_a_link_that_cannot_be_copied(page):
    """The page says where the link is."""
    page.open(LATE_LINK).call("copiedBy", "#link", False)
    page.becomes("The link is in the address bar. It names this file on your disk. To share it, "
                 "put the page on a web server.", "text", "#notice")
    assert page.js("address") == LATE_LINK


def test_the_last_place_of_what_is_left_twice(page):
    """The start lists a schedule with the move at which it was left last, also if it was left
    before that and the browser had no time to keep it."""
    page.open(LATE_LINK).call("leaveTwice", MINE, "ticket-hand-over").press("Escape", "o")
    assert page.js("texts", "#lessons [data-kept]") == ["Mine at move 2"]


def test_the_old_place(page):
    """The page's old place forwards to it, with all that a link asks for."""
    page.path = TOP
    old = (TOP / "page" / "lockreplay.html").as_uri()
    page.load(f"{old}?from=old{LATE_LINK}", f"{PAGE.as_uri()}?from=old")
    page.shown(lesson="mcs-late-link", place=2)
    assert page.js("address") == LATE_LINK
