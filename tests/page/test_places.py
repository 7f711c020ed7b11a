"""Parts that belong together are beside each other or below each other, with nothing between."""
import pytest

from tree import cases

LATE_LINK = "#lesson=mcs-late-link&move=9"


def boxes(page, *selectors):
    """The boxes of each of these parts."""
    return page.js("places", list(selectors)).values()


def in_a_row(parts, apart=1):
    """Whether boxes follow each other from left to right, about as high as each other."""
    return all(one["right"] <= other["left"] + apart and abs(one["middle"] - other["middle"]) <= 12
               for one, other in zip(parts, parts[1:]))


def in_a_column(parts):
    return all(one["bottom"] <= other["top"] + 1 for one, other in zip(parts, parts[1:]))


def same(parts, side):
    """Whether boxes have one edge in common."""
    return max(one[side] for one in parts) - min(one[side] for one in parts) <= 1


def test_the_head_of_a_move(page):
    """The number, the thread with its move, and at the right edge the outcome."""
    page.open(LATE_LINK).press("a")
    [now], [number], [who], [outcome] = boxes(
        page, "#now", "#now .head > b", "#now .head > span:first-of-type", "#now .outcome")
    assert in_a_row([number, who, outcome])
    assert 18 <= now["right"] - outcome["right"] <= 24 and 18 <= number["left"] - now["left"] <= 24


def test_what_is_said_of_a_move(page):
    """Each fact is beside its name, and the facts are below each other in one column."""
    page.open("#lesson=ticket-hand-over&move=5").press("a")
    names, facts, *others = boxes(
        page, "#now .facts dt", "#now .facts dd", "#now .head", "#now .own-say", "#now .question",
        "#now .facts", "#now details.aside")
    assert len(names) == len(facts) == 3
    assert all(in_a_row(pair) for pair in zip(names, facts, strict=True))
    assert same(names, "left") and same(facts, "left") and in_a_column(facts)
    assert in_a_column([one for [one] in others])


def test_lines_of_code(page):
    """Threads are at the right edge of their lines, which are below each other."""
    page.open("#lesson=mcs-third-linked-before-second&move=12").press("a")
    [code], lines, words, discs = boxes(
        page, "#code-lines", ".code-line", ".code-line code", ".code-line .discs:has(.disc)")
    [round_ones] = boxes(page, "#code .disc")
    assert len(round_ones) == 3 and all(
        abs(one["right"] - one["left"] - one["bottom"] + one["top"]) <= 2 for one in round_ones)
    assert in_a_column(lines) and same(words, "left") and len(discs) == 3
    assert all(0 <= code["right"] - one["right"] <= 24 for one in discs)
    # After a bar of 4 and an edge of 4, three letters of a number.
    assert all(20 <= one["left"] - code["left"] <= 45 for one in words), words[0]


def test_the_text_and_its_verdict(page):
    """Numbers are beside the text, tools above it, and the verdict below it."""
    page.open().show("lock ticket threads 2\n0 aquire\n")
    [side], [tools], [field], [gutter], [text], [band], [verdict] = boxes(
        page, "#side", "#own .row", "#field", "#gutter", "#text", "#band .fault", "#verdict")
    assert in_a_column([tools, field, verdict]) and in_a_row([gutter, text])
    assert same([field, text], "right") or field["right"] - text["right"] <= 2
    assert band["left"] == gutter["right"] and text["right"] - text["left"] > 180
    assert all(side["left"] <= one["left"] and one["right"] <= side["right"]
               for one in (tools, field, verdict))


def test_room_for_the_text(page):
    """In a low window at least five lines of the text have room, and the rest is scrolled."""
    page.resize(1366, 600).open("#lesson=mcs-third-linked-before-second&move=12").press("g")
    [[field], [text]] = boxes(page, "#field", "#text")
    assert all(one["bottom"] - one["top"] >= 5 * 22 for one in (field, text))


def test_choices_of_threads(page):
    """Each row has the disc of a thread, its name, and its choices at the right edge."""
    page.open("#lesson=fifo-writer-behind-downgrade&move=3").press("g")
    rows = list(zip(*boxes(page, "#choices .disc", "#choices .who", "#choices .choices"),
                    strict=True))
    assert len(rows) == 2 and all(in_a_row(row) for row in rows)
    discs, names, choices = zip(*rows)
    assert same(discs, "left") and same(names, "left") and same(choices, "right")
    assert all(in_a_column(one) for one in (discs, choices))


@pytest.mark.parametrize("width, parts", [
    (1440, ["first", "back", "forward", "last", "run", "speed", "slider", "position"]),
    (390, ["back", "forward", "run", "slider", "position"])])
def test_the_foot(page, width, parts):
    """The buttons, the slider and the position are in a row at the foot of the window."""
    page.resize(width, 900).open(LATE_LINK)
    found = [one for [one] in boxes(page, *(f"footer #{part}" for part in parts))]
    assert in_a_row(found), found
    assert found[0]["left"] <= 23 and width - 23 <= found[-1]["right"] <= width
    assert found[-1]["bottom"] > 840 and found[-2]["right"] - found[-2]["left"] > width / 4
    [all_of_it] = boxes(page, "footer > :is(button, select, .slider, #position)")
    assert len(all_of_it) == len(parts)


def test_the_head_of_the_page(page):
    """The name of the page, the title above the kind of lock, and the tools at the right edge."""
    page.open(LATE_LINK)
    [brand], [title], [lock], [heading], tools = boxes(
        page, "header .brand", "#title", "#subtitle", ".heading", ".tools > button")
    assert in_a_row([brand, heading, *tools]) and in_a_column([title, lock])
    assert 1440 - 23 <= tools[-1]["right"] <= 1440 and same([title, lock], "left")


@pytest.mark.parametrize("width, beside", [(1440, True), (800, False)])
def test_why_a_line_is_there(page, width, beside):
    """The code is beside the changes, or above them in a narrow window."""
    page.resize(width, 900).open(LATE_LINK).press("y")
    [code], [changes], [back], [place], [forward] = boxes(
        page, "#why-code", "#why-changes", "#why-back", "#why-place", "#why-next")
    assert in_a_row([back, place, forward])
    assert (code["right"] <= changes["left"]) == beside == (code["bottom"] > changes["top"] + 1)
    page.call("scrollDown", "#why")
    [code], [changes] = boxes(page, "#why-code", "#why-changes")
    assert code["top"] >= 0 if beside else in_a_column([code, changes])


def test_cards_of_the_start(page):
    """Four cards are beside each other, each with its picture, its name and its lessons."""
    page.open()
    languages, close = boxes(page, "#lessons .languages button", "#lessons form button")
    assert in_a_row([*languages, *close]) and 1440 - 60 < close[0]["right"] < 1440
    cards, pictures, names, lists = boxes(
        page, ".lock-card", ".lock-card .live", ".lock-card h3", ".lock-card ol")
    assert in_a_row(cards, 0) and same(cards, "top") and same(pictures, "bottom")
    assert all(in_a_column(parts) for parts in zip(pictures, names, lists, strict=True))
    numbers, titles = boxes(page, ".lock-card .number", ".lock-card .number + span b")
    assert len(numbers) == len(titles) > 12
    assert all(one["right"] < other["left"] and abs(one["top"] - other["top"]) < 6
               for one, other in zip(numbers, titles))


def test_a_notice(page):
    """It is in the middle of the window, at its foot."""
    page.open(LATE_LINK).press("l").until("text", "#notice")
    [[notice]] = boxes(page, "#notice")
    assert abs(notice["left"] + notice["right"] - 1440) <= 2 and 860 < notice["bottom"] < 900


def test_what_is_said_without_the_machine(page):
    """The button that closes it is at the right edge, beside what is said, above all parts."""
    page.before("withoutMachine").open(LATE_LINK)
    [banner], [said], [close], [work] = boxes(
        page, "#banner", "#banner span", "#banner button", "#work")
    assert in_a_row([said, close]) and in_a_column([banner, work])
    assert 0 <= banner["right"] - close["right"] <= 20 and said["left"] - banner["left"] <= 20


BRANCH = "#lesson=mcs-late-link&move=7&play=0+cas"
# The rows of the parts from top to bottom. A part of two rows is in both.
ROWS = {
    "wide": (1440, 900, LATE_LINK, ["time", "memory code now"]),
    "medium": (1024, 768, LATE_LINK, ["time", "memory now", "memory code"]),
    "tall": (820, 1180, LATE_LINK, ["time", "memory", "code now"]),
    "phone": (390, 844, LATE_LINK, ["time", "now", "memory", "code"]),
    "low": (844, 390, LATE_LINK, ["time", "memory code now"]),
    "column": (700, 900, f"{LATE_LINK}&show=memory,code", ["memory", "code"]),
    "hall": (1024, 768, f"{LATE_LINK}&hall", ["bar", "memory code"]),
    "two runs": (1440, 900, BRANCH, ["other", "time", "there memory now"]),
    "two runs in a hall": (1024, 768, f"{BRANCH}&hall", ["bar", "other there", "time memory"])}


def are_near(parts, side, other_side):
    """Whether the gaps from each part to the next one are narrow."""
    return all(0 < other[other_side] - one[side] < 14 for one, other in zip(parts, parts[1:]))


@cases("width, height, link, rows", ROWS)
def test_the_parts_of_the_page(page, width, height, link, rows):
    """Parts fill the page's width and the room above its foot, with narrow gaps between them."""
    page.resize(width, height).open(link)
    grid = [*(row.split() for row in rows), ["foot"]]
    names = sorted({name for row in grid for name in row} - {"foot"})
    found = dict(zip([*names, "foot"], boxes(page, *(f"#{name}" for name in names), "footer")))
    found = {name: one for name, [one] in found.items()}
    for before, row in zip([[], *grid], grid):
        parts = [found[name] for name in row]
        assert same([parts[0], found["foot"]], "left") and same([parts[-1], found["foot"]], "right")
        assert are_near(parts, "right", "left"), row
        begun = [found[name] for name in row if name not in before]
        ended = [found[name] for name in before if name not in row]
        assert same(begun, "top"), row
        assert all(are_near([one, other], "bottom", "top") for one in ended for other in begun), row
