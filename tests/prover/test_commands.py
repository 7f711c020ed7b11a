"""What the commands of the Makefile do before, beside and after what the kit does.

They stop at another kit than the one of this tree's logic, before anything is installed, built or
deleted. The gate keeps what earlier checks and builds left until it has passed. These tests run the
commands in a small tree with one library, over programs named `rt` and `apt-get`.
"""
import re
import shutil

import pytest

from tree import TOP, cases, environment, ran

LOGIC = re.search(r"^LOGIC := (\w+)$", (TOP / "Makefile").read_text(), re.MULTILINE)[1]
RIGHT, OTHER = f"rattle-kit-1 logic {LOGIC}", "rattle-kit-1 logic 0123456789abcdef"
# Each answer of `rt version`, and what it is called in the one line of a target that stops.
WRONG = {"another logic": (f"echo {OTHER}", OTHER),
         "a longer logic": (f"echo {RIGHT}0", f"{RIGHT}0"),
         "many lines": (f"echo {OTHER}; echo {RIGHT}", OTHER),
         "an rt that fails": ("exit 2", "no rt on the path that works"),
         "no rt": (None, "no rt on the path that works")}
TARGETS = ("test", "gate", "mutants", "programs", "lockreplay", "locktrace", "check", "test-needs")
CRATES = ("lk_words", "lk_page", "lk_tests")  # those that the Makefile names
OUT = "crates/lk_words/out"
RLIB = f"{OUT}/rlib"
NEW = f"mkdir -p {RLIB} && echo proved > {RLIB}/lk_words.rlib"


class Tree:
    """A tree with one library that `rt check` has kept, and the commands that run in it."""

    def __init__(self, folder):
        self.top, self.programs, self.large = folder / "tree", folder / "bin", folder / "large"
        for name in ("Makefile", "packaging/targets.mk", "debian/control"):
            (self.top / name).parent.mkdir(parents=True, exist_ok=True)
            shutil.copy(TOP / name, self.top / name)
        shutil.copytree(TOP / "tests" / "tools", self.top / "tests" / "tools")
        for made in (self.top / RLIB, self.programs, self.large,
                     *(self.top / "crates" / name for name in CRATES[1:])):
            made.mkdir(parents=True)
        (self.top / "crates.txt").write_text("".join(f"{name}:\n" for name in CRATES))
        (self.top / RLIB / "lk_words.rlib").write_text("kept\n")
        self.program("apt-get")

    def program(self, name, script=""):
        """Puts a program on the path, which first writes its words into a file."""
        path = self.programs / name
        path.write_text(f'#!/bin/sh\necho "$@" >> {path}.said\n{script}\n')
        path.chmod(0o755)

    def run(self, *words):
        """Runs a command: (standard output, standard error, status)."""
        more = {"PATH": f"{self.programs}:/usr/bin:/bin", "TMPDIR": str(self.large)}
        done = ran(*words, cwd=self.top, env=environment(**more))
        return done.stdout, done.stderr, done.returncode

    def said(self, name):
        """The words of each call of a program."""
        file = self.programs / f"{name}.said"
        return file.read_text().splitlines() if file.exists() else []

    def library(self):
        return (self.top / RLIB / "lk_words.rlib").read_text()


@pytest.fixture
def tree(tmp_path):
    return Tree(tmp_path)


@pytest.mark.parametrize("target", TARGETS)
@cases("version, have", WRONG)
def test_wrong_kit(tree, target, version, have):
    """A target says what it has and what it needs in one line, and does nothing else."""
    if version:
        tree.program("rt", version)
    output, errors, status = tree.run("make", target)
    line = rf"Makefile:\d+: \*\*\* have {have}, need a Rattle kit of logic {LOGIC}\.  Stop\.\n"
    assert (output, status) == ("", 2) and re.fullmatch(line, errors), errors
    assert tree.library() == "kept\n"
    assert tree.said("rt") == (["version"] if version else []) and tree.said("apt-get") == []


def test_right_kit(tree):
    tree.program("rt", f"echo {RIGHT}")
    assert tree.run("make", "--silent", "test-needs") == ("", "", 0)
    assert tree.said("rt") == ["version"] and len(tree.said("apt-get")) == 1


@cases("proofs, library, left, status", {
    "it passes": (NEW, "proved\n", {"incremental", "proved", "rlib"}, 0),
    "it fails": (f"{NEW} && touch {OUT}/half && exit 1", "kept\n",
                 {"incremental", "lk_words", "rlib"}, 2),
    "it deletes all": (f"rm -r {OUT} && exit 1", "kept\n", {"lk_words", "rlib"}, 2),
})
def test_gate(tree, proofs, library, left, status):
    """`rt ci` finds nothing that it does not put back itself. If it fails, all is there again."""
    for name in ("incremental", "lk_words"):
        (tree.top / OUT / name).touch()
    found = f'[ "$(ls {OUT})" = incremental ] || exit 0'
    tree.program("rt", f"[ $1 = ci ] || exec echo {RIGHT}\n{found}\n{proofs}")
    assert tree.run("make", "gate")[2] == status
    assert {path.name for path in (tree.top / OUT).iterdir()} == left
    assert (tree.library(), list(tree.large.iterdir())) == (library, [])
    assert tree.said("rt") == ["version", "ci"]


@cases("user, line, status, calls", {
    "root": (0, "needs.sh: installs a-package b-package\n", 0, 4),
    "another user": (1, "needs.sh: Debian packages are missing. As root: 'apt-get' "
                        "'--no-install-recommends' '-o' 'DPkg::Lock::Timeout=300' 'build-dep' "
                        "'./'\n", 1, 1),
})
def test_missing_packages(tree, user, line, status, calls):
    """Root installs what is missing, and the script names it. Another user gets the command."""
    tree.program("id", f"echo {user}")
    tree.program("apt-get", "case $* in *--simulate) echo 'Inst b-package (1.0)'; "
                            "echo 'Inst a-package (1.0)'; echo 'Conf a-package (1.0)' ;; esac")
    assert tree.run("tests/tools/needs.sh") == ("", line, status)
    assert len(tree.said("apt-get")) == calls
    assert tree.said("apt-get")[-1].endswith("--yes" if user == 0 else "--simulate")
