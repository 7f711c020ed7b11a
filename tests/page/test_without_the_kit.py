"""Without this tree's kit `make page` takes the module out of the page that is there, if that was
built of the crates as they are. So a lesson can be added without the kit."""
import re
import shutil

import pytest

from tree import TOP, environment, output, ran

LOGIC = re.search(r"^LOGIC := (\w+)$", (TOP / "Makefile").read_text(), re.MULTILINE)[1]
FOLDERS = ["page", "built", "examples", "docs", "crates", "packaging", "tests/prover"]
FILES = ["Makefile", "VERSION", "THIRD-PARTY", "crates.txt"]
LESSON = b"#! title A new lesson\nlock ticket threads 1\n0 acquire\n0 add\n0 read\n"
MODULE = re.compile(r'"module":"[^"]*"')
# What `rt version` prints, or nothing without `rt`
KITS = {"no rt": None, "another kit": "rattle-kit-1 logic 0123456789abcdef"}


class Tree:
    """A copy of what the page is made of, with a kit of this version on the path."""

    def __init__(self, folder, version):
        self.top, programs = folder / "tree", folder / "bin"
        for name in FOLDERS:
            shutil.copytree(TOP / name, self.top / name, ignore=shutil.ignore_patterns("out"))
        for name in FILES:
            shutil.copy(TOP / name, self.top)
        self.path = self.top / "built" / "lockreplay.html"
        programs.mkdir()
        if version:
            (programs / "rt").write_text(f"#!/bin/sh\necho {version}\n")
            (programs / "rt").chmod(0o755)
        self.more = {"cwd": self.top, "env": environment(PATH=f"{programs}:/usr/bin:/bin")}

    @property
    def page(self):
        return self.path.read_text()

    def make(self, *words):
        return ran("make", "--silent", "--no-print-directory", *words, **self.more)


@pytest.fixture
def tree(request, tmp_path):
    return Tree(tmp_path, request.param)


without_kit = pytest.mark.parametrize("tree", KITS.values(), ids=KITS, indirect=True)


@without_kit
def test_new_lesson(tree):
    """The page gets a lesson, and keeps its module."""
    before = tree.page
    (tree.top / "examples" / "ticket-new.schedule").write_bytes(LESSON)
    done = tree.make("page")
    assert (done.stdout, done.returncode) == ("", 0)
    assert done.stderr == ("The module is the one of built/lockreplay.html, which was built of the "
                           "same crates: the kit is not on the path.\n")
    assert tree.page != before, "the lessons are packed"
    assert MODULE.findall(tree.page) == MODULE.findall(before) != []
    assert output("node", "page/build.mjs", "out/lockreplay.wasm", "--check", **tree.more) == ""


@without_kit
@pytest.mark.parametrize("path", ["crates.txt", "crates/lk_words/src/lib.rt",
                                  "crates/lk_page/specs/Told.antt"])
def test_changed_source(tree, path):
    """The module of other sources is not taken."""
    with open(tree.top / path, "a", encoding="utf-8") as source:
        source.write("\n")
    before = tree.page
    done = tree.make("page")
    assert (done.stdout, done.returncode) == ("", 2)
    assert done.stderr.startswith(
        "The module of built/lockreplay.html was built of other sources: crates.txt, "
        "crates/lk_page or a crate that it uses has changed since. To build it anew, the kit is "
        "needed, with `rt` on the path.\n")
    assert tree.page == before


@without_kit
def test_removed_source(tree):
    (tree.top / "crates" / "lk_locks" / "proofs" / "Lib.antt").unlink()
    assert tree.make("page").returncode == 2


@without_kit
def test_other_crate(tree):
    """A crate that the module does not use may change."""
    (tree.top / "crates" / "locktrace" / "src" / "new.rt").touch()
    before = tree.page
    assert tree.make("page").returncode == 0 and tree.page == before


@pytest.mark.parametrize("tree", [f"rattle-kit-1 logic {LOGIC}"], ids=["the kit"], indirect=True)
def test_with_the_kit(tree):
    """The module is built where it can be."""
    commands = tree.make("--dry-run", "page").stdout.splitlines()
    assert commands[0] == "make --no-print-directory crates/lk_page/out/lockreplay.wasm"
    assert commands[1:] == ["page/build-module.sh",
                            "node page/build.mjs crates/lk_page/out/lockreplay.wasm"]
