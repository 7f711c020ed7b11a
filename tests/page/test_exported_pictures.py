"""Exported pictures have the page's fonts, the chosen parts and no gaps; there are strips and
animations of several moves, and pictures for LaTeX."""
import re
import shutil
import subprocess
from xml.etree.ElementTree import fromstring

import pytest

from contrast import luminance
from tree import cases

LATE_LINK = "#lesson=mcs-late-link&move=9"
EVERYTHING = ["title", "legend", "code", "answer"]


def tree_of(page, *parts):
    return fromstring(page.js("taken", "svg", list(parts)))


def tikz(page, *parts):
    """The lines of a picture for LaTeX."""
    return page.js("taken", "tikz", list(parts)).splitlines()


def texts(tree):
    """The words of each text element of a picture."""
    found = tree.iter("{http://www.w3.org/2000/svg}text")
    return [" ".join(" ".join(one.itertext()).split()) for one in found]


def words(tree):
    return " ".join(texts(tree))


def test_in_letters_of_its_own(page):
    """The picture embeds the fonts of all its texts."""
    page.open(LATE_LINK)
    assert "url(data:font/woff2;base64," in page.js("taken", "svg", EVERYTHING)
    families = page.js("alone", EVERYTHING)["families"]
    assert [one.strip('"') for one in families] == ["Page Mono", "Page Sans"], families
    for family in families:
        normal, bold = page.js("inks", family)
        assert bold > 1.1 * normal, (family, normal, bold)


def test_what_was_chosen(page):
    plain = words(tree_of(page.open(LATE_LINK)))
    assert "no link" not in plain and "acquire(me):" not in plain and "entered" not in plain
    whole = tree_of(page, *EVERYTHING)
    for part in ["The late link", "acquire(me):", "in the queue, not linked", "no link", "entered"]:
        assert part in words(whole), part
    assert float(whole.get("height")) > float(tree_of(page).get("height")) + 30
    here = [one for one in whole.iter("{http://www.w3.org/2000/svg}text")
            if "code-text here" in (one.get("class") or "")]
    assert ["".join(one.itertext()).strip() for one in here] == ["cas(tail, me, nil), or else:"]
    bands = [float(one.get("y")) for one in whole.findall(".//{*}rect") if one.get("x") == "-8"]
    assert bands == [float(one.get("y")) - 16 for one in here], "its ground is below it"


def test_each_part_by_its_label(page):
    """The boxes of the dialog choose what their labels say."""
    page.open(LATE_LINK)
    parts = {"with title": "The late link", "with marks": "failed poll",
             "with code": "acquire(me):", "with what the open question asks for": "no link"}
    for label in parts:
        page.call("chooseOnly", label)
        said = words(fromstring(page.js("textTaken", "svg")))
        assert [part in said for part in parts.values()] == [one == label for one in parts], label


@pytest.mark.parametrize("lesson, moves", [
    ("ticket-wraps-at-2-bits", [5, 23]), ("mcs-third-linked-before-second", [8, 14]),
    ("simple-second-writer", [3, 6]), ("fifo-counts-wrap-at-2-bits", [9, 16])])
def test_it_says_what_the_page_says(page, lesson, moves):
    """The numbers, the lanes and memory have the same words in the picture as on the page, but for
    words that are shorter where there is less room."""
    page.open(f"#lesson={lesson}")
    for move in moves:
        said = page.go(move).press("a").js("texts", ":is(#numbers, #lanes, #memory-picture) text")
        words_of = [sorted("".join(one.split()) for one in those if "own variable" not in one)
                    for those in (texts(tree_of(page)), said)]
        assert words_of[0] == words_of[1], move


def test_the_band_has_no_gap(page):
    """The band under the move goes from its number to the last lane without a gap."""
    shown = page.open(LATE_LINK).js("alone", [])
    (_, above), (below, end) = shown["bands"][:2]
    assert below <= above and end > max(lane for _, lane in shown["lanes"]) + 20, shown
    assert shown["band"] == "rgb(240, 234, 216)", "not the ground of the card, which is white"


@pytest.mark.parametrize("width", [1024, 1440])
def test_marks_are_in_the_picture(page, width):
    """The marks of the legend take as many rows as they need, all inside the picture."""
    shown = page.resize(width, 800).open(LATE_LINK).js("alone", ["legend"])
    assert shown["outside"] == shown["overlaps"] == []


def test_the_theme(page):
    """A picture has the theme of the page, not of the system."""
    light, dark = [luminance(page.open(f"{LATE_LINK}&theme={theme}").js("groundOf", []))
                   for theme in ("light", "dark")]
    assert light > 0.8 and dark < 0.05, (light, dark)


def test_an_open_question_is_asked_about(page):
    assert page.open(LATE_LINK).press("t").js("asks")
    assert not page.call("closeDialog", "take").go(10).press("t").js("asks")


@pytest.mark.parametrize("lesson, move", [
    ("mcs-late-link", 9), ("fifo-reader-waits-behind-writer", 6)])
@pytest.mark.parametrize("what, parts, moves", [
    ("svg", ["code"], None), ("strip", [], None), ("strip", [], [0, 15])])
def test_nothing_is_outside(page, lesson, move, what, parts, moves):
    """All lines of the code are inside the picture, and all memories are inside the strip."""
    shown = page.open(f"#lesson={lesson}&move={move}").js("alone", parts, what, moves)
    assert len(shown["inside"]) > 16 and shown["outside"] == [], shown


def test_which_moves_are_offered(page):
    """The dialog offers the shown move with the three before it, or else the first three."""
    page.open(LATE_LINK)
    for move, offered in [(0, ["0", "3"]), (1, ["0", "3"]), (9, ["6", "9"])]:
        page.go(move).press("t")
        assert [page.js("value", f"#take-{end}") for end in ("from", "to")] == offered, move
        page.press("Escape")
    page.show("lock ticket threads 1\n0 acquire\n").call("click", "#show-take")
    assert page.js("value", "#take-to") == "1"


@pytest.mark.parametrize("lesson, first, last", [
    ("ticket-wraps-at-2-bits", 3, 6), ("mcs-record-used-again", 1, 4),
    ("fifo-writer-enters-at-once", 0, 3)])
def test_a_strip_says_what_memory_says(page, lesson, first, last):
    """Each picture of a strip has the words of memory after its move."""
    page.open(f"#lesson={lesson}")
    strip = fromstring(page.js("stripOf", first, last))
    pictures = [one for one in strip.findall("{*}g") if one.find(".//{*}svg") is not None]
    # Two in a row, each in a cell of 560 by 326, and 14 apart.
    assert [[part.get("transform") for part in (one, one.find("{*}g"))] for one in pictures] == [
        [f"translate({x},{y})", "translate(0,26)"] for y in (20, 360) for x in (20, 594)]
    assert [strip.get(side) for side in ("width", "height")] == ["1188", "720"]
    for move, picture in enumerate(pictures, first):
        page.go(move).press("a")
        head, *words_of = texts(picture)
        # Before the first move the names of the threads stand beside the sentence.
        said = page.js("texts", "#now p") if move == 0 else page.js(
            "texts", "#now .aside .aside, #now p.aside, #now .say:not(.own-say)")[:1]
        # A long sentence is cut.
        assert len(head) > 20 and any(
            f"{move} {one}".startswith(head.rstrip("…")) for one in said), (head, said)
        said = page.js("texts", "#memory-picture text")
        assert sorted("".join(one.split()) for one in words_of if "own var" not in one) == sorted(
            "".join(one.split()) for one in said if "own var" not in one), move


def test_which_moves_are_taken(page):
    """In any order. What is no number is 0, and the last move is the most; fractions are cut."""
    page.open("#lesson=mcs-late-link&move=3")
    for asked, taken in [((9, 6), "6 7 8 9"), ((-5, 2), "0 1 2"), ((15, 99), "15 16"),
                         (("", 1), "0 1"), ((4, 4), "4"), ((16, 16), "16"), ((3.5, 4), "3 4")]:
        said = texts(fromstring(page.js("stripOf", *asked)))
        assert " ".join(one.split()[0] for one in said if one[0].isdigit()
                        and len(one.split()) > 1) == taken, asked


def test_a_strip_from_the_start(page):
    """The first memory of a strip may be that before the first move."""
    said = texts(fromstring(page.open("#lesson=mcs-late-link&move=0").js("taken", "strip", [])))
    assert "0 All words are 0, and the queue is empty." in said, said


def test_a_strip(page):
    """A strip has the memory after each move, and shows from move 8 on that a link is missing."""
    page.open("#lesson=mcs-late-link&move=10").press("t").call("closeDialog", "take")
    said = texts(fromstring(page.js("taken", "strip", [])))
    for move in range(7, 11):
        assert [one for one in said if one.startswith(f"{move} ")], (move, said)
    assert said.count("tail") == 4 and said.count("no link") == 3, said


@pytest.mark.parametrize("lesson, move", [
    ("ticket-wraps-at-2-bits", 23), ("mcs-third-linked-before-second", 12),
    ("simple-second-writer", 6), ("fifo-reader-waits-behind-writer", 6)])
def test_parts_are_apart(page, lesson, move):
    """From top to bottom a picture has its title, the numbers just above the lanes, the signs, and
    memory, as large as on the page, with the code beside it."""
    page.open(f"#lesson={lesson}&move={move}")
    title, numbers, lanes, signs, memory, code, whole = page.js("partsOf", EVERYTHING)
    assert title["bottom"] <= numbers["top"] + 8 and abs(numbers["bottom"] - lanes["top"]) < 1
    for above, below in [(lanes, signs), (signs, memory)]:
        assert 5 <= below["top"] - above["bottom"] <= 40, (above, below)
    assert 8 <= whole["bottom"] - max(memory["bottom"], code["bottom"]) <= 30
    assert code["left"] >= memory["right"] and code["right"] <= whole["right"] - 10
    assert abs(code["top"] - memory["top"]) < 20 and memory["scale"] >= page.js("scaleOfMemory")


# Looks in which the page itself shows no lanes.
NO_LANES = ["&hall", "&embed", "&show=memory,code,now"]


@pytest.mark.parametrize("look", NO_LANES)
def test_lanes_that_the_page_does_not_show(page, look):
    """A picture has the lanes of all moves so far, and its parts are below each other."""
    page.open(f"{LATE_LINK}{look}")
    title, numbers, lanes, signs, memory, code, whole = page.js("partsOf", EVERYTHING)
    for part in (numbers, lanes):
        assert part["right"] - part["left"] > 1000 and part["right"] <= whole["right"], part
    assert title["bottom"] <= numbers["top"] + 8 and lanes["bottom"] <= signs["top"]
    assert signs["bottom"] <= memory["top"] and code["right"] <= whole["right"]
    shown = page.js("alone", EVERYTHING)
    assert len(shown["lanes"]) == 2 and shown["outside"] == [], shown
    assert [str(move) for move in range(1, 10) if str(move) not in shown["inside"]] == []


@pytest.mark.parametrize("look", NO_LANES)
def test_an_animation_with_lanes_that_the_page_does_not_show(page, look):
    """Each frame is as wide as the lanes, with two points for each unit."""
    assert page.open(f"{LATE_LINK}{look}").js("animation", 5, 6)["width"] > 2000


@pytest.mark.parametrize("look", NO_LANES)
def test_lanes_for_latex_that_the_page_does_not_show(page, look):
    """The lanes have the number of each move so far."""
    lines = tikz(page.open(f"{LATE_LINK}{look}"))
    assert [move for move in range(1, 10) if not any(
        line.startswith("\\node") and line.endswith(f"{{{move}}};") for line in lines)] == []


def test_an_animation(page):
    """An animation is an APNG with a frame for each move, which the browser shows."""
    shown = page.open(LATE_LINK).js("animation", 5, 8)
    kinds = shown["kinds"]
    assert kinds.count("fcTL") == 4 and kinds[:3] == ["IHDR", "acTL", "fcTL"], kinds
    assert kinds.count("fdAT") >= 3 and kinds[-1] == "IEND" and shown["width"] > 1000
    assert shown["seconds"] == [1.2, 1.2, 1.2, 3], "the last one stays for longer"


def test_frames_have_one_size(page):
    """Each frame of an animation fills the picture, though its own picture may be lower."""
    page.open()
    page.show("lock rw-simple threads 7\n" + "".join(f"{one} wlock\n" for one in range(7)), 1)
    low = float(tree_of(page).get("height"))
    assert float(tree_of(page.go(7)).get("height")) > low + 20
    shown = page.js("animation", 1, 7)
    assert len(shown["sizes"]) == 8 and len(set(shown["sizes"])) == 1
    assert shown["corner"] == [255, 255, 255, 255], "below a low picture is the card"


def test_each_frame_is_of_its_move(page):
    """The frames are the pictures that the page makes of these moves one by one."""
    page.open("#lesson=mcs-record-used-again&move=0")
    one_by_one = [page.go(move).js("pointsOf") for move in (1, 2, 4)]
    frames = page.js("animation", 1, 4)["data"]
    assert len(set(frames)) == 4 and [frames[0], frames[1], frames[3]] == one_by_one


# By hand: the bands of the move in the numbers and in the lanes, the bar of the call, its mark, two
# words, and the place of the next ticket; the line of the lane; the numbers 1, 0, 0 and 0, and the
# names of the thread, of the call, of both words and of the next place, with the note above it.
SHAPES = {"rectangle": 7, "svg {": 1, "circle[": 0, "\\node": 10}


def test_shapes_for_latex(page):
    """A picture for LaTeX has each shape that is seen, and no other."""
    text = page.open().show("lock ticket threads 1\n0 acquire\n", 1).js("taken", "tikz", [])
    assert "[T1]{fontenc}\n" in text and "\\pagestyle{empty}\n\\begin{document}\n" in text
    lines = [line for line in text.splitlines()
             if line.startswith("\\path") or line.startswith("\\node") and not line.endswith("{};")]
    assert {shape: sum(shape in line for line in lines) for shape in SHAPES} == SHAPES, lines
    anchors = {line.rpartition("{")[2]: re.search(r"anchor=([a-z ]+)", line)[1]
               for line in lines if line.startswith("\\node")}
    assert [anchors[word] for word in ("thread 0};", "acquire};", "1};")] == [
        "base west", "base", "base"]
    # The picture's edge is 20 wide, and in TikZ up is positive.
    scopes = [line for line in text.splitlines() if line.startswith("\\begin{scope}")]
    assert scopes[0] == "\\begin{scope}[cm={1,0,0,1,(20pt,-20pt)},yscale=-1]", scopes[0]
    sides = [[float(number) for number in re.findall(r"-?[\d.]+", line.partition("pt] (")[2])]
             for line in lines if "rounded corners=2pt" in line]
    assert [[right - left, bottom - top] for left, top, right, bottom in sides] == [[5, 24]]
    assert not [line for line in lines if "-{Latex" in line]


@cases("theme, holds, queue, fails", {
    "light": ("light", (29, 90, 168), (251, 227, 176), (185, 47, 24)),
    "dark": ("dark", (106, 174, 255), (74, 58, 23), (255, 129, 103))})
def test_colours_for_latex(page, theme, holds, queue, fails):
    """The bars of who holds and of who waits, and the cross of the compare-and-swap that fails."""
    lines = tikz(page.open(f"{LATE_LINK}&theme={theme}"))
    for option, (red, green, blue), shape in [
            ("fill", holds, "rectangle"), ("fill", queue, "rectangle"), ("draw", fails, "svg {")]:
        colour = f"{option}={{rgb,255:red,{red};green,{green};blue,{blue}}}"
        assert any(colour in line and shape in line for line in lines), (colour, lines)


def test_letters_for_latex(page):
    """A reader has the ground of reading, and the word of a call is slanted."""
    lines = tikz(page.open("#lesson=fifo-reader-waits-behind-writer&move=6&theme=light"))
    ground = "fill={rgb,255:red,217;green,231;blue,248}"
    assert any(ground in line and "rectangle" in line for line in lines)
    slants = {line.rpartition("{")[2]: "\\itshape" in line for line in lines}
    assert [slants[word] for word in ("rlock};", "wlock};", "section};")] == [True, True, False]


def test_dashes_for_latex(page):
    """The two failed polls are dashed circles where they are in the lanes, and nothing else is."""
    lines = tikz(page.open("#lesson=mcs-late-link&move=12"))
    found = [line.partition("] ")[2] for line in lines if "dash pattern=on 3pt off 2.3pt" in line]
    assert len(found) == 2 and found == page.js("failedPolls"), found
    # The arrow to the poll that Bob's write let go on; the tail's arrow, and Ann's to Bob.
    arrows = [line for line in tikz(page.go(14)) if "-{Latex" in line]
    assert len(arrows) == 3 and all("svg {" in line for line in arrows), arrows


def test_signs_of_latex(page):
    """Each character that is special in LaTeX is escaped."""
    page.open()
    page.show("#! title R&D, 5 % of #1_a, $2, {b}^c~d\\\nlock ticket threads 1\n0 acquire\n", 1)
    lines = tikz(page, "title")
    [title] = [line for line in lines if line.endswith(
        "{R\\&D, 5 \\% of \\#1\\_a, \\$2, \\{b\\}\\^{}c\\~{}d\\textbackslash{}};")]
    assert "font=\\sffamily\\bfseries\\fontsize{20}{20}" in title, title
    assert any("font=\\ttfamily\\fontsize" in line and line.endswith("{now\\_serving};")
               for line in lines), lines


def test_code_for_latex(page):
    """Lines of code keep their indentation, in blanks that LaTeX does not leave out."""
    lines = [line.rpartition(") {")[2] for line in tikz(page.open(LATE_LINK), "code")]
    for code in ["acquire(me):", "~~me.next := nil", "~~if pred is not nil:",
                 "~~~~me.locked := true"]:
        assert f"{code}}};" in lines, lines


@pytest.mark.skipif(not shutil.which("pdflatex"), reason="needs texlive-latex-base and pgf")
@pytest.mark.parametrize("lesson, move", [
    ("ticket-wraps-at-2-bits", 23), ("mcs-late-link", 13), ("fifo-counts-wrap-at-2-bits", 16)])
def test_for_latex(page, lesson, move, tmp_path):
    """pdflatex accepts the picture, and the PDF has words of it."""
    text = "\n".join(tikz(page.open(f"#lesson={lesson}&move={move}"), *EVERYTHING))
    (tmp_path / "state.tex").write_text(text, "utf-8")
    subprocess.run(["pdflatex", "-halt-on-error", "-interaction=batchmode", "state.tex"],
                   cwd=tmp_path, check=True, capture_output=True)
    said = subprocess.run(["pdftotext", "state.pdf", "-"], cwd=tmp_path, check=True, text=True,
                          capture_output=True).stdout
    assert "acquire" in said or "rlock" in said


@pytest.mark.parametrize("language, said", [
    ("en", "Only the first 40 of 65 are drawn, up to move 49."),
    ("de", "Nur die ersten 40 von 65 werden gezeichnet, bis Zug 49.")])
def test_more_moves_than_are_drawn(page, language, said):
    """The page says how many moves it draws, in the dialog and again when it saves them."""
    page.open(f"{LATE_LINK}&lang={language}")
    page.show("lock mcs threads 2\n0 acquire\n0 write\n0 swap\n1 acquire\n1 write\n1 swap\n"
              "1 write\n1 write\n" + "1 read\n" * 92)
    assert page.call("click", "#show-take").js("askMoves", 10, 49) == ""
    assert page.js("askMoves", 74, 10) == said
    for what in ["strip", "animated"]:
        assert page.js("noticed", what, 10, 74) == said
        assert page.js("noticed", what, 10, 12) == ""
    strip = fromstring(page.js("stripOf", 10, 74))
    assert len([one for one in strip.findall("{*}g") if one.find(".//{*}svg") is not None]) == 40
    assert page.call("askMoves", 10, 74).press("Escape", "t").js("askedCut") == ""
