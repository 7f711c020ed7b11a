#!/usr/bin/env python3
"""Makes HTML of the manual pages by mandoc, and a sheet of their parts that one needs at a desk.

    packaging/site/manuals.py FILE    writes the sheet, which a browser prints on one page
"""
import re
import subprocess
import sys
from pathlib import Path

HERE = Path(__file__).resolve().parent
MAN, VERSION = HERE.parent / "man", (HERE.parents[1] / "VERSION").read_text("utf-8").strip()
# The parts of the sheet, by the page that has each one.
SHEET = (("lockreplay-schedule.5", "The header"), ("lockreplay-schedule.5", "Steps of each call"),
         ("lockreplay.1", "The report"), ("lockreplay.1", "Refusals"),
         ("lockreplay-schedule.5", "Faults"), ("lockreplay-schedule.5", "EXAMPLES"),
         ("lockreplay.1", "EXIT STATUS"))
HEADING = re.compile(r"^\.S[hs] (.+)\n", re.MULTILINE)


def html_of(manual):
    """The body of a page in mdoc. A link leads to another manual page beside it."""
    return subprocess.run(["mandoc", "-Thtml", "-Ofragment,man=%N.%S.html"], input=manual,
                          text=True, check=True, stdout=subprocess.PIPE).stdout


def manuals():
    """The source of each manual page, by its name."""
    return {path.name: path.read_text("utf-8").replace("@VERSION@", VERSION)
            for path in sorted(MAN.iterdir())}


def sheet():
    """The body of the sheet. A part that its page does not have is an error."""
    pages, parts = manuals(), [".Dd $Mdocdate$\n.Dt LOCKREPLAY-SHEET 7\n.Os\n"]
    for page, title in SHEET:
        _, *found = HEADING.split(pages[page])
        text = dict(zip(found[::2], found[1::2]))[title]
        parts.append(f".Sh {title.capitalize()}\n{text}")
    return html_of("".join(parts))


if __name__ == "__main__":
    frame = (HERE / "sheet.html").read_text("utf-8")
    Path(sys.argv[1]).write_text(frame.replace("{version}", VERSION).replace("{body}", sheet()),
                                 "utf-8")
