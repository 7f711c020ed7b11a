"""The tree under test: its folders, the files that a build makes, and how to run programs."""
import os
import subprocess
from pathlib import Path

import pytest

TOP = Path(__file__).resolve().parents[1]
TESTS, EXAMPLES, ROWS = TOP / "tests", TOP / "examples", TOP / "tests" / "rows"
VERSION = (TOP / "VERSION").read_text().strip()
PATIENCE = 200  # seconds
PIPE = subprocess.PIPE
# Each file that a build makes, and the command that makes it.
BUILT = {
    "lockreplay": ("crates/lockreplay/out/lockreplay", "make programs"),
    "locktrace": ("crates/locktrace/out/locktrace", "make programs"),
    "module": ("crates/lk_page/out/lockreplay.wasm", "make page"),
    "tests of the libraries": ("crates/lk_tests/out/lk_tests_tests", "make check CRATE=lk_tests"),
}


def built(name):
    """The path of a file in BUILT. The test fails if nobody has built the file, and is skipped if
    tools/without_kit.sh runs it."""
    path, command = BUILT[name]
    if not (TOP / path).exists():
        if "WITHOUT_KIT" in os.environ:
            pytest.skip(f"{path} is not built")
        pytest.fail(f"{path} is not built: {command}", pytrace=False)
    return TOP / path


def environment(**more):
    """The environment without the variables by which an outer `make` would steer an inner one."""
    of_make = {"MAKELEVEL", "MAKEFLAGS", "MFLAGS"}
    return {**{name: text for name, text in os.environ.items() if name not in of_make}, **more}


def ran(*words, **how):
    """Runs a command to its end, and keeps its outputs as text."""
    how = {"stdout": PIPE, "stderr": PIPE, "text": True, "timeout": PATIENCE, "check": False, **how}
    return subprocess.run([str(word) for word in words], **how)


def answer(*words, **how):
    """What a command answers: (standard output, standard error, status)."""
    done = ran(*words, **how)
    return done.stdout, done.stderr, done.returncode


def output(*words, **how):
    """The text that a command writes to both outputs. A status other than 0 comes before it."""
    done = ran(*words, **{"stderr": subprocess.STDOUT, **how})
    return done.stdout if done.returncode == 0 else f"status {done.returncode}: {done.stdout}"


def cases(names, table):
    """Parametrizes a test by a table from the name of each case to its values."""
    return pytest.mark.parametrize(names, list(table.values()), ids=list(table))


class Program:
    """Runs a program in a folder, with inputs and outputs as text or as bytes."""

    def __init__(self, path, folder, none=""):
        self.path, self.folder, self.none = path, folder, none

    def run(self, *words, stdin=None, **how):
        """Runs the program: (standard output, standard error, status)."""
        stdin = self.none if stdin is None else stdin
        given = {"input": stdin} if isinstance(stdin, (str, bytes)) else {"stdin": stdin}
        how = {"stdout": PIPE, "stderr": PIPE, "cwd": self.folder, "timeout": PATIENCE, **how}
        words = [word if isinstance(word, bytes) else str(word) for word in words]
        done = subprocess.run([self.path, *words], text=self.none == "", check=False,
                              **given, **how)
        return done.stdout or self.none, done.stderr or self.none, done.returncode

    def output(self, *words, **how):
        """The standard output of a run that ends well."""
        output, *more = self.run(*words, **how)
        assert more == [self.none, 0], more
        return output

    def write(self, **texts):
        """Writes files into the folder. It removes an old file first, since a file system may write
        a truncated one to the disk at once."""
        for name, text in texts.items():
            path = self.folder / name
            path.unlink(missing_ok=True)
            path.write_bytes(text if isinstance(text, bytes) else text.encode())
