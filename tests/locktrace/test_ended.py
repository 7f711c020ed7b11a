"""`tour` and `order` that are killed, or whose disk fills up, at each change of a file.

change.c, preloaded, ends a run there. Until the new files have their names the earlier ones are as
they were; the same command then makes what it makes alone; and a file of somebody else stays.
"""
import shutil
import subprocess

import pytest

from traces import LOGS
from tree import environment, output

HERE = __file__.rpartition("/")[0]
OWN = {"notes.txt": b"notes\n", "0999.schedule": b"own\n", "run-0999.schedule": b"own\n"}
# What leaves the earlier files, and the command that is ended.
COMMANDS = {"tour": (["tour", "rw-simple", "2", "-o", "made"], ["tour", "mcs", "2", "-o", "made"]),
            "a smaller tour": (["tour", "mcs", "2", "-o", "made"],
                               ["tour", "ticket", "2", "-o", "made"]),
            "a first tour": (None, ["tour", "mcs", "2", "--rounds", "2", "-o", "made"]),
            "order": (["order", "long.log", "-o", "made"], ["order", *LOGS, "-o", "made"]),
            "a first order": (None, ["order", "long.log", "-o", "made"])}
# A schedule has at most 65,536 moves, so the order of this log has three.
ROUND = "acquire\nadd\nread\nrelease\nread\nwrite\n"
LONG = f"lock ticket threads 1 thread 0\n{ROUND * 21_845}# thread 0 has ended\ndropped 0\n"


@pytest.fixture(scope="module")
def library(tmp_path_factory):
    path = tmp_path_factory.mktemp("change") / "change.so"
    assert output("cc", "-O2", "-Wall", "-Wextra", "-shared", "-fPIC", "-o", path,
                  f"{HERE}/change.c") == ""
    return path


def files_in(folder):
    return {path.name: path.read_bytes() for path in folder.iterdir()} if folder.exists() else {}


class Ending:
    """Runs of a command in a folder with the files of an earlier one, ended at a change."""

    def __init__(self, tracer, library, earlier, words):
        self.tracer, self.library, self.words = tracer, library, words
        self.made, self.kept = tracer.folder / "made", tracer.folder / "kept"
        tracer.write(**{"long.log": LONG})
        if earlier:
            assert tracer.run(*earlier)[1:] == ("", 0)
        self.made.mkdir(exist_ok=True)
        for name, text in OWN.items():
            (self.made / name).write_bytes(text)
        shutil.copytree(self.made, self.kept)
        self.before = files_in(self.made)
        self.answer = tracer.run(*words)
        self.due = files_in(self.made)
        assert self.answer[1:] == ("", 0) and self.due != self.before
        assert all(self.due[name] == text for name, text in OWN.items())

    def run(self, number, is_full):
        """(status, standard error) of a run that is ended at the change of this number."""
        shutil.rmtree(self.made)
        shutil.copytree(self.kept, self.made)
        return self.go_on(number, is_full)

    def go_on(self, number, is_full):
        """The same of a run in the folder as it is."""
        done = subprocess.run(
            [self.tracer.path, *self.words], cwd=self.tracer.folder, capture_output=True,
            text=True, check=False, env=environment(
                CHANGE_NTH=str(number), CHANGE_FULL=str(int(is_full)), LD_PRELOAD=self.library))
        return done.returncode, done.stderr

    def again(self):
        """The command once more, as it is."""
        assert self.tracer.run(*self.words) == self.answer
        assert files_in(self.made) == self.due


@pytest.fixture(params=COMMANDS)
def ending(tracer, library, request):
    return Ending(tracer, library, *COMMANDS[request.param])


def test_killed_at_each_change(ending):
    number, lasting, whole = 0, 0, 0
    while ending.run(number + 1, False)[0] != 0:
        number += 1
        left = files_in(ending.made)
        assert all(left[name] == text for name, text in OWN.items()), number
        final = {name: text for name, text in left.items() if not name.endswith(".new")}
        drafts = {name.removesuffix(".new"): text for name, text in left.items()
                  if name.endswith(".new")}
        lasting += final == ending.before
        whole += {**final, **drafts}.items() >= ending.due.items()
        assert final == ending.before or {**final, **drafts}.items() >= ending.due.items(), number
        ending.again()
    assert number > 8 and lasting > 2 and whole > 2


def test_disk_that_is_full_at_each_change(ending):
    number = 0
    while (done := ending.run(number + 1, True))[0] != 0:
        number += 1
        status, error = done
        assert status == 3 and error.endswith(": No space left on device (os error 28)\n"), number
        assert error.startswith("locktrace: cannot write made"), number
        assert files_in(ending.made) == ending.before, number
        ending.again()
    assert number > 3


def test_disk_that_is_full_after_a_kill(ending):
    """The next run removes what the killed one left, and nothing of the earlier files."""
    number = 0
    while ending.run(number + 1, False)[0] != 0:
        number += 1
        left = files_in(ending.made)
        if {**left, **ending.before} != left:
            break
        status, error = ending.go_on(2, True)
        assert status == 3 and error.endswith(": No space left on device (os error 28)\n"), number
        assert files_in(ending.made) == ending.before, number
    assert number > 3


def test_smaller_tour_after_a_kill(tracer, library):
    """The folder has its files, and none of those that the killed tour began."""
    ending, number = Ending(tracer, library, *COMMANDS["a smaller tour"][::-1]), 0
    words, due = COMMANDS["a smaller tour"][1], ending.before
    while ending.run(number + 1, False)[0] != 0:
        number += 1
        assert tracer.run(*words)[1:] == ("", 0)
        assert files_in(ending.made) == due, number
    assert number > 8


def test_killed_again_and_again(ending):
    """Each run goes on where the last one was killed."""
    for number in range(1, 200, 3):
        shutil.rmtree(ending.kept)
        shutil.copytree(ending.made, ending.kept)
        ending.run(number, False)
    ending.again()


@pytest.mark.parametrize("path", ["made/{}", "{here}/made/{}", "a link"])
@pytest.mark.parametrize("name, listed", [
    ("run.trace", "order.list"), ("run-0001.schedule", "order.list"), ("run.trace.new", None),
    # An earlier run left it, and this one would not write it.
    ("run-0002.schedule", "order.list"), ("run-0002.schedule", "order.list.new"),
    ("run-0002.schedule.new", "order.list.new")])
def test_log_in_the_place_of_a_file(tracer, name, listed, path):
    """A log that an earlier run's list names is neither replaced nor removed."""
    first, second = LOGS
    made = tracer.folder / "made"
    assert tracer.run("order", *LOGS, "-o", "made") == ("", "", 0)
    shutil.copy(tracer.folder / first, made / name)
    if listed:
        with open(made / listed, "a", encoding="utf-8") as names:
            names.write(name.removesuffix(".new") + "\n")
    (tracer.folder / "a link").symlink_to(made / name)
    before = files_in(made)
    assert tracer.run("order", path.format(name, here=tracer.folder), second, "-o", "made") == (
        "", f"locktrace: cannot write made/{name}: it is one of the logs\n", 3)
    assert files_in(made) == before
