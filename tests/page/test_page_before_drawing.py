"""The frame of the page, which is there before anything is drawn: the names of its parts, their
headings, first values and signs, and the tools that have room."""
import pytest

from tree import VERSION, cases

LATE_LINK = "#lesson=mcs-late-link&move=9"
# The names of parts for a screen reader. Those of buttons and choices are their tips too.
PARTS = {
    "other": "The schedule that is compared", "time": "Threads over time",
    "lanes": "Threads over time", "code-lines": "Lines of code", "now": "This move",
    "text": "Text of the schedule", "slider": "Move",
}
DIALOGS = {
    "lessons": "Lessons", "prologue": "Why a lock?", "lecture-end": "After the plan",
    "all-done": "You have seen all lessons",
    "plans": "Lesson plans", "find": "Find a moment",
    "why": "Why each line is there", "take": "Export", "view": "View", "sheets": "Print",
    "choose-other": "Compare with", "about": "About this page", "keys": "Keys",
}
CONTROLS = {
    "close-banner": "Close", "leave": "Leave hall mode", "first": "First move",
    "back": "One move back", "forward": "One move forward", "last": "Last move",
    "speed": "Speed at which the moves are played", "why-back": "The line before",
    "why-next": "The next line",
}
TIPS = {"show-about": "About this page",
        "code-lines": "A click on a line, or key Y, says why it is there"}
HEADINGS = [
    ["time", "Threads over time"], ["code", "Code: this move and next steps"], ["play", "Play"],
    ["own", "The schedule"],
    ["own", "Type or paste a schedule, open a file, or drop one anywhere on the page."],
    ["prologue", "Why a lock?"], ["all-done", "You have seen all lessons"],
    ["lecture-end", "After the plan"], ["plans", "Lesson plans"],
    ["plans", "Ten minutes a lock, in hall mode. Page Down, as a clicker sends it, shows the "
              "answer, then goes on, through one plan after the other. Key 2 opens a window for "
              "you, with the clock."],
    ["find", "Find a moment"],
    ["find-form", "The proved search looks through all runs of a new lock for a shortest one that "
                  "has what you ask for."],
    ["take", "Export"], ["view", "View"], ["view", "Hall mode shows two of them."],
    ["sheets", "Print"],
    ["sheets", "At most twelve sheets: the moves around the one that is shown."],
    ["choose-other", "Compare with"],
    ["choose-other", "Two schedules of one lock are shown one above the other, with the first move "
                     "in which they differ. Make the second from this one, or choose it."],
    ["notices", "Notices of others whose code is in it"], ["keys", "Keys"], ["keys", "Marks"],
]


def test_names_and_headings(page):
    """Each part and each dialog is named by what it is, and each heading says the same."""
    assert page.open(LATE_LINK).js("labels") == {**PARTS, **DIALOGS, **CONTROLS}
    assert page.js("tips") == {**CONTROLS, **TIPS} and page.js("headings") == HEADINGS
    assert page.js("texts", ":is(#lessons, #about, #keys) > form :is(h2, .hint)") == [
        "lockreplay", f"lockreplay {VERSION}", "Keys", f"lockreplay {VERSION}"]
    assert page.js("texts", "#close-banner, #leave, #why-back, #why-next") == ["✕", "✕ H", "←", "→"]
    assert page.js("attributesOf", "#lanes", ["role", "tabindex"]) == ["listbox", "0"]
    assert page.js("attributesOf", "#code-lines", ["role", "tabindex"]) == ["group", "0"]
    assert page.js("attributesOf", "#spoken", ["aria-live", "aria-atomic"]) == ["polite", "true"]
    assert page.js("attributesOf", "#why-changes", ["aria-live"]) == ["polite"]
    assert page.js("attributesOf", "#tip-box", ["role"]) == ["tooltip"]
    assert page.js("attributesOf", "#gutter", ["aria-hidden"]) == ["true"]


FIRST = {
    "#new [name=threads]": "2", "#new [name=bits]": "64", "#find-form [name=threads]": "2",
    "#find-form [name=bits]": "64", "#find-rounds": "1", "#find-kind": "", "#find-sketch": "",
    "#speed": "1",
}


def test_first_values(page):
    """The smallest lock with a contest, in words of the usual width; a picture with its title."""
    page.open(LATE_LINK)
    assert {field: page.js("value", field) for field in FIRST} == FIRST
    assert page.js("ticked") == ["take-title"]
    assert page.js("chosen") == {
        "new-lock": "ticket", "speed": "1", "find-lock": "ticket", "find-kind": ""}
    for field in ["#new [name=threads]", "#find-form [name=bits]", "#find-rounds"]:
        assert page.js("attributesOf", field, ["type", "required"]) == ["number", ""]
    for field in ["#take-from", "#take-to"]:
        assert page.js("attributesOf", field, ["type", "min"]) == ["number", "0"]
    assert page.js("attributesOf", "#file", ["type", "hidden"]) == ["file", ""]
    assert page.js("attributesOf", "#slider", ["type", "min", "step"]) == ["range", "0", "1"]


def test_nothing_is_corrected(page):
    """A browser corrects no word of a schedule or of a sketch, and breaks no line of a schedule."""
    assert page.open(LATE_LINK).js("helps", "text") == ["false", "off", "off", "off"]
    assert page.js("helps", "find-sketch") == ["false", "off", "off", None]
    assert page.js("attribute", "#find-sketch", "rows") == "4"


FEW = ["mode-lessons", "mode-own", "mode-play", "mode-quiz"]
MOST = [*FEW, "compare", "mode-hall", "link"]
ALL = [*MOST, "show-find", "show-view", "show-take", "print", "theme", "plan", "show-keys"]


@cases("width, height, shown", {
    "all": (1720, 899, ALL), "most": (1300, 800, [*MOST, "menu"]),
    "few": (900, 800, [*FEW, "menu"]), "none": (500, 800, ["menu"])})
def test_which_tools_have_room(page, width, height, shown):
    """Tools that have no room are in the menu, and the others are at the right edge."""
    assert page.resize(width, height).open(LATE_LINK).js("tools") == [shown, True]
    if "menu" in shown:
        assert page.click("#menu").js("tools")[0] == [*ALL, "menu"]


def test_how_the_form_of_a_moment_is_laid_out(page):
    """Short fields are in two columns. The kind, the lines and the answer take both, and the button
    that searches is at the end of the second one, on the ground of a button that goes on."""
    page.open(LATE_LINK).press("m")
    lock, threads, rounds, bits, button, kind, sketch = page.js("across", [
        "#find-lock", "#find-form [name=threads]", "#find-rounds", "#find-form [name=bits]",
        "#find-search", "#find-kind", "#find-sketch"])
    assert lock == rounds and threads == bits and lock[1] < threads[0]
    assert threads[0] < button[0] and button[1] == threads[1]
    assert kind == sketch == [lock[0], threads[1]]
    strong, new, usual = page.js("groundsOf", ["#find-search", "#new button", "#open"])
    assert strong == new != usual


def test_how_choices_of_a_dialog_are_laid_out(page):
    """What can be taken or printed is listed, each as wide as the list."""
    page.open(LATE_LINK)
    for key, what in [("t", "take"), ("p", "sheet")]:
        names = page.press(key).js("across", [f"[data-{what}={one}]" for one in {
            "take": ["svg", "png", "tikz", "strip", "animated", "report", "schedule", "frame"],
            "sheet": ["worked", "exercise"]}[what]])
        assert all(one == names[0] and one[1] - one[0] > 300 for one in names), names
        page.press("Escape")


# Parts that look alike, something that does not look so, and by what one sees that.
ALIKE = {
    "cards": (["#nothing", "#other", "#time", "#there", "#memory", "#code", "#now", "#side"],
              "#bar", ["backgroundColor", "borderRadius", "boxShadow"]),
    "banners": (["#banner", "#damaged"], "#bar", ["backgroundColor", "padding", "fontSize"]),
    "pictures": (["#memory-picture", "#there-picture"], "#now", ["flexGrow", "overflowX"]),
    "hints": (["#own > .own-hint", "#plans [data-text='plans.hint']", "#find-form > .wide",
               "#view [data-text='view.hint']", "#sheets [data-text='sheets.hint']", "#keys form p",
               "#choose-other form p", "#take-cut"], "#own h2", ["color", "fontSize"]),
    "heard": (["#spoken", "#time h2"], "#code h2", ["position", "clipPath", "overflow"]),
    "texts": (["#find-sketch", "#text", "#gutter"], "#find-kind", ["fontFamily"]),
    "boxes": ([f"label:has(#{one})" for one in (
        "every", "take-title", "take-legend", "take-code", "take-answered")],
        "#find-form label", ["alignItems", "columnGap", "fontSize"]),
    "rows": (["#play > div.row", "#own > .row", "#take div.row", "#take .takes > div"],
             "#take", ["display", "columnGap", "flexWrap"]),
    "signs": ([f"#{one} svg" for one in ("first", "back", "forward", "last", "run")],
              "#lanes svg", ["width", "height"]),
}


@cases("selectors, other, names", ALIKE)
def test_parts_that_look_alike(page, selectors, other, names):
    first, *looks = page.open(LATE_LINK).js("looksOf", selectors, names)
    assert all(one == first for one in looks), dict(zip(selectors, [first, *looks]))
    assert page.js("looksOf", [other], names) != [first]


@pytest.mark.parametrize("width, is_beside", [(1200, True), (700, False)])
def test_where_the_changes_of_a_line_are(page, width, is_beside):
    """The changes of a line are beside the lock's code, or below it in a narrow window."""
    page.resize(width, 800).open(LATE_LINK).press("y")
    code, changes = page.js("across", ["#why-code", "#why-changes"])
    assert (code[1] < changes[0]) == is_beside and (code[0] == changes[0]) != is_beside


# By hand: where each sign begins, and how wide and high it is. All are in the middle of 16.
FOOT = {"first": [3, 3, 10, 10], "back": [5, 3, 6, 10], "forward": [5, 3, 6, 10],
        "last": [3, 3, 10, 10], "run": [3, 2.5, 10, 11]}


def test_signs_of_the_foot(page):
    """Each button has one sign, and that which plays has another one while the moves run."""
    assert page.open("#lesson=mcs-record-used-again&move=0").js("signsOfTheFoot") == FOOT
    assert page.press(",", "Space").js("signsOfTheFoot") == {**FOOT, "run": [4, 3, 8, 10]}
    page.press("Space")


def test_patterns_and_heads_of_arrows(page):
    """Who waits is hatched aslant, by lines of 3 in 7, and who reads is ruled, by lines of 2 in 6.
    The head of an arrow is as high as it is long, and its end is 1 before its tip. The open head
    has its tip 2 before the end of its box."""
    assert page.open(LATE_LINK).js("numbersOf", "#hatch, #hatch *") == [
        ["7", "7", "userSpaceOnUse", "rotate(45)"], ["7", "7"], ["3", "7"]]
    assert page.js("numbersOf", "#ruled, #ruled *") == [
        ["6", "6", "userSpaceOnUse"], ["6", "6"], ["6", "2"]]
    full = ["M0 0L8 4L0 8z"]
    assert page.js("numbersOf", "#tip, #tip *") == [
        ["0 0 8 8", "7", "4", "8", "8", "userSpaceOnUse", "auto"], full]
    assert page.js("numbersOf", "#tip-missing, #tip-missing *") == [
        ["0 0 8 8", "7", "4", "9", "9", "userSpaceOnUse", "auto"], full]
    assert page.js("numbersOf", "#tip-open, #tip-open *") == [
        ["0 0 10 10", "8", "5", "11", "11", "userSpaceOnUse", "auto"], ["M1.5 1L8.5 5L1.5 9z"]]
    assert [page.js("attribute", f"#{one} path", "class")
            for one in ("tip", "tip-missing", "tip-open")] == ["tip", "tip missing", "tip-open"]
    assert [page.js("attribute", f"#{one}", "class") for one in (
        "hatch .under", "hatch .over", "ruled .under-reads", "ruled .over-reads")] == [
        "under", "over", "under-reads", "over-reads"]
