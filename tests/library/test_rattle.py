"""Runs the tests in Rattle, which call the libraries and functions inside the program `lockreplay`,
and check what no program shows.

`rt try` runs them in a copy of the crates, as modules of `lk_tests` or of the program, and without
proofs. Each test has a process of its own, in which the kit looks for wrong accesses to memory. The
files are no `.rt`, since such a file has to be in a crate, where `rt ci` would prove it.
"""
import re
import shutil

import pytest

from tree import TESTS, TOP, environment, ran

# The root of each crate, and the marks of its tests: one worker builds them once.
ROOTS = {"lk_tests": "lib.rt", "lockreplay": "main.rt"}
MARKS = {"lk_tests": [pytest.mark.slow, pytest.mark.xdist_group("library")],
         "lockreplay": [pytest.mark.xdist_group("calls")]}


def crate_of(file):
    return "lockreplay" if file.stem == "calls" else "lk_tests"


# Those of a crate are together.
FILES = sorted(sorted((TESTS / "library").glob("*.rattle")), key=crate_of)
NAMES = [pytest.param(crate_of(file), f"{file.stem}::{name}", marks=MARKS[crate_of(file)],
                      id=f"{file.stem}::{name}")
         for file in FILES for name in re.findall(r"(?m)^#\[test\]\nfn (\w+)", file.read_text())]


@pytest.fixture(scope="module")
def lines(request, tmp_path_factory):
    """The output of one run of all tests of a crate, which has the result of each."""
    assert shutil.which("rt"), "rt, of the Rattle kit, is not on the path"
    crate, copy = request.param, tmp_path_factory.mktemp("library")
    shutil.copytree(TOP / "crates", copy / "crates", ignore=shutil.ignore_patterns("out"))
    shutil.copy(TOP / "crates.txt", copy)
    sources = copy / "crates" / crate / "src"
    files = [file for file in FILES if crate_of(file) == crate]
    for file in files:
        shutil.copy(file, sources / f"{file.stem}.rt")
    with (sources / ROOTS[crate]).open("a") as root:
        root.writelines(f"\n#[cfg(test)]\nmod {file.stem};\n" for file in files)
    done = ran("rt", "try", "--test", cwd=sources.parent, timeout=1000,
               env=environment(RT_SECONDS="600"))
    return done.stdout + done.stderr


@pytest.mark.parametrize("lines, name", NAMES, indirect=["lines"], scope="module")
def test_call(lines, name):
    assert f"test {name} ... ok\n" in lines, lines
