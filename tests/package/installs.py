"""Runs `make`, copies this tree, makes Debian roots, and runs commands in them."""
import os
import shutil

from tree import TOP, environment, output, ran

# The place of folders that take gigabytes: not /tmp, which is in memory in Debian 13.
LARGE = os.environ.get("TMPDIR") or "/var/tmp"
TOOLS = TOP / "tests" / "tools"
MANUALS = ["lockreplay.1", "locktrace.1", "lockreplay-schedule.5", "locktrace-trace.5"]


def make(*words, **how):
    """The output of `make`, whose last line names the file that a target wrote."""
    how = {"env": environment(), "timeout": 600, **how}
    return output("make", "--no-print-directory", "--silent", *words, cwd=TOP, **how)


def copy_files(tree, more):
    """Copies the files of this tree, as they are now, and the files `more`, which git ignores."""
    listed = output("git", "ls-files", "--cached", "--others", "--exclude-standard", cwd=TOP)
    for name in (*listed.splitlines(), *more):
        if (TOP / name).is_file():
            (tree / name).parent.mkdir(parents=True, exist_ok=True)
            shutil.copy(TOP / name, tree / name)


class Tree:
    """A tree of programs and documents: `tree` is the folder of `bin`, somewhere below `root`."""

    def __init__(self, name, root, below):
        self.name, self.root, self.tree = name, root, root / below
        self.documents = self.tree / "share" / "doc" / "lockreplay"

    def program(self, name):
        return self.tree / "bin" / name


def make_root(suite, root, *packages):
    """Makes a minimal Debian of a suite in `root`, with some packages."""
    assert output(TOOLS / "root.sh", suite, root, *packages, timeout=600) == ""
    return root


def in_root(root, *words, see=(), **how):
    """Runs a command in a Debian root, which sees the folders `see` of this machine."""
    seen = [word for path in see for word in ("--see", path)]
    return ran(TOOLS / "in_root.sh", *seen, root, *words,
               **{"timeout": 3_600, "errors": "replace", **how})
