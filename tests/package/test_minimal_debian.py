"""What a user can do on a minimal Debian 12 or 13 with a C compiler: first with two files of this
repository, then with a copy of it, and then with the package.

By two commands the user explores the guide's lock, which has a mistake. They name the wrong step
and its line. Each of DOCUMENTS runs in its own copy of the installed
documents. The lock of the guide is also built in a folder that has nothing else.
"""
import random
import re
import shutil
import subprocess
import time

import pytest

from document_blocks import blocks_of, saved_files
from documents import Room, faults_of_block
from installs import copy_files, in_root, make_root
from oracle import batch_of, report_of
from schedules import random_text
from tree import TOP

FILES = ("lockreplay_record.h", "locktrace.c")
BUILD = "cd /alone && gcc -pthread -I. -DLR_MODE=EXPLORE test-queue.c locktrace.c -o lock"
FOUND = ("3 runs with up to 1 preemption, the last one is refused\nrefused at line 11 of the trace,"
         " queue-noted.c:18: '0 write next of 1 left 1': OtherWord: ")
INSTALLED = "usr/share/doc/lockreplay"
DOCUMENTS = ("README.md", "docs/GUIDE.md", "docs/FORMATS.md", "examples/recording/README.md")
ALONE = """cd /root/alone && {mend} &&
gcc -O2 -Wall -Wextra -Werror -pthread -DLR_MODE=SEED test-queue.c -o try &&
./try 3 1000 17 logs && locktrace check logs/run.trace"""
pytestmark = pytest.mark.xdist_group("debian")


@pytest.fixture(scope="module", params=["bookworm", "trixie"])
def bare(request, tmp_path_factory):
    """A minimal Debian in a folder, with a C compiler, make and git."""
    return make_root(request.param, tmp_path_factory.mktemp("debian") / "root", "gcc", "git",
                     "libc6-dev", "make", "patch")


@pytest.fixture(scope="module")
def debian(bare, made):
    """The same with the package installed."""
    (bare / "lockreplay.deb").write_bytes(made("deb").read_bytes())
    assert in_root(bare, "dpkg", "--install", "/lockreplay.deb").returncode == 0
    return bare


def write_lock(guide, folder):
    """Writes the guide's first lock, with its steps noted, into a folder. Returns the command that
    mends it."""
    folder.mkdir(parents=True)
    text = guide.read_text()
    for name, saved in saved_files(text).items():
        (folder / name).write_text(saved)
    patch, mend = re.findall(r"^\$ ((?:patch|sed -i) .*queue.*)$", text, re.MULTILINE)
    subprocess.run(patch, shell=True, cwd=folder, check=True)
    return mend


def test_two_commands(bare):
    write_lock(TOP / "docs" / "GUIDE.md", bare / "alone")
    for name in FILES:
        shutil.copy(TOP / "built" / name, bare / "alone")
    assert in_root(bare, "sh", "-c", BUILD).stderr == ""
    done = in_root(bare, "sh", "-c", "cd /alone && ./lock 2 1 2 logs")
    assert done.stdout.startswith(FOUND) and done.returncode == 1


@pytest.fixture(scope="module")
def tree(bare):
    """A copy of the repository there, without the kit and anything that is built by it."""
    copy_files(bare / "srv" / "tree", ())
    return lambda command: in_root(bare, "sh", "-c", f"cd /srv/tree && {command}")


REPORT = (TOP / "crates" / "lockreplay" / "stdout").read_text()
SECONDS = 10  # on two processors


def test_demo(tree):
    begun = time.monotonic()
    done = tree("taskset --cpu-list 0,1 make --silent demo")
    assert time.monotonic() - begun < SECONDS
    assert (done.stdout, done.returncode) == (REPORT, 0) and done.stderr.count("\n") == 1


def test_demo_without_a_compiler(large):
    """Root's demo installs one, and says so."""
    root = make_root("bookworm", large / "root", "git", "make")
    copy_files(root / "srv" / "tree", ())
    done = in_root(root, "make", "--silent", "--directory=/srv/tree", "demo")
    assert (done.stdout, done.returncode) == (REPORT, 0), done.stderr
    assert done.stderr.splitlines()[0] == "demo.sh: installs gcc libc6-dev"


def test_class(bare, tree, pytestconfig):
    """A class of 200 is graded by the commands of the guide."""
    guide = (TOP / "docs" / "GUIDE.md").read_text().split("### For an exam")[1]
    compiles, grades = re.findall(r"^\$ (cc .*|\./lockreplay batch .*)$", guide, re.MULTILINE)[:2]
    dice = random.Random(int(pytestconfig.getoption("hypothesis_seed")))
    texts = [random_text(dice, 200) for _ in range(200)]
    (bare / "srv" / "tree" / "class").mkdir()
    for number, text in enumerate(texts):
        (bare / "srv" / "tree" / "class" / f"{number:03}.schedule").write_bytes(text)
    done = tree(f"{compiles} && {grades}")
    assert (done.stderr, done.returncode) == ("", 1)
    assert (bare / "srv" / "tree" / "reports").read_bytes() == batch_of(map(report_of, texts))


class Copy(Room):
    """A copy of the installed documents, in which the commands of one document run."""

    def __init__(self, root, name):
        self.root, self.path, self.seconds = root, root / "root" / name / "documents", 60
        self.inside, self.has = f"/root/{name}/documents", {"lockreplay", "locktrace"}
        for words in (("mkdir", f"/root/{name}"), ("cp", "-r", f"/{INSTALLED}", self.inside)):
            assert in_root(root, *words).returncode == 0

    def printed(self, script):
        return in_root(self.root, "sh", "-c", f"cd {self.inside} && exec bash ../{script.name}",
                       stdin=subprocess.DEVNULL, stderr=subprocess.STDOUT).stdout


@pytest.mark.parametrize("document", DOCUMENTS)
def test_document(debian, document):
    room = Copy(debian, document.replace("/", "-"))
    assert [f"line {block.first}: {fault}"
            for block in blocks_of((room.path / document).read_text().splitlines())
            for fault in faults_of_block(block, room)] == []


def test_lock_of_the_guide(debian):
    """The lock builds and runs as the guide prints it, with the installed header."""
    mend = write_lock(debian / INSTALLED / "docs" / "GUIDE.md", debian / "root" / "alone")
    done = in_root(debian, "sh", "-c", ALONE.format(mend=mend))
    assert (done.stdout, done.stderr, done.returncode) == ("", "", 0)
