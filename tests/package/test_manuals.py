"""mandoc finds no fault in a manual page, which shows the version and has each word of the command
line.
"""
import os
import re
import shutil

import pytest

from installs import MANUALS
from tree import VERSION, cases, output

HELP_LINE = r"^ +(?:-\w, )?(?:--)?([a-z]+)(?: <[^>]*>)?(?:  |$)"  # `  -j, --jobs <N>  How many`


@pytest.mark.parametrize("page", MANUALS)
def test_manual_page(installed, tmp_path, page):
    """mandoc says nothing about the page; `man` finds it, shows the version, and has no warning."""
    manual = shutil.copytree(installed / "share" / "man", tmp_path / "man")
    name, section = page.rsplit(".", 1)
    assert output("makewhatis", manual) == ""
    # -Wstyle leaves out only the conventions of the base systems of OpenBSD and NetBSD.
    assert output("mandoc", "-Tlint", "-Wstyle", "-M", manual,
                  manual / f"man{section}" / page) == ""
    shown = output("man", "-M", manual, "--warnings", section, name, env={
        "PATH": os.environ["PATH"], "LANG": "C.UTF-8", "MANWIDTH": "80"})
    assert f"version {VERSION}." in shown and ": warning: " not in shown


@cases("name, commands, due", {
    "lockreplay": ("lockreplay", "replay batch", "replay batch help workers"),
    "locktrace": ("locktrace", "check explain order schedule find tour space why cover",
                  "check explain order schedule find tour space why cover help version format "
                  "color summary quiet jobs page from moves names rounds bits limit runs require"),
})
def test_each_command_and_option(installed, name, commands, due):
    """A program's help has exactly the expected words, and its manual page has each of them."""
    page = (installed / f"share/man/man1/{name}.1").read_text()
    helps = "".join(output(installed / "bin" / name, *command, "--help")
                    for command in ([], *([it] for it in commands.split())))
    words = set(re.findall(HELP_LINE, helps, re.MULTILINE))
    assert words == set(due.split())
    assert {word for word in words if re.search(rf"(Cm|Fl) {word}\b", page)} == words
