"""Runs the tests of the libraries in which a request for memory is refused.

These tests have `request` in their names. Each runs in a process of its own with refuse.c, whose
head says how the two communicate. A test has to end well, and some request has to have been
refused. A test with `no_request` in its name shows that a call asks for no memory, so it reaches no
request. probe.c tests the library refuse.c itself.
"""
import re
from pathlib import Path

import pytest

from devices import refusing_library
from tree import BUILT, TOP, built, environment, output, ran

HERE, WHICH = Path(__file__).parent, "tests of the libraries"
PROGRAM = TOP / BUILT[WHICH][0]
NAMES = [name for name in re.findall(r"(?m)^(.*): test$", output(PROGRAM, "--list"))
         if "request" in name] if PROGRAM.exists() else ["request"]
pytestmark = pytest.mark.slow  # because the tests take long to build


@pytest.fixture(scope="module")
def library(tmp_path_factory):
    return refusing_library(tmp_path_factory.mktemp("refuse"))


@pytest.fixture(scope="module")
def probe(library):
    assert output("cc", "-O1", "-Wall", "-Wextra", "-fno-builtin", "-pthread", "-o",
                  library.with_name("probe"), HERE / "probe.c") == ""
    return library.with_name("probe")


def log_of(library, folder, *words):
    """Runs a program with the library, asserts that it ends well, and returns the library's log."""
    log = folder / "log"
    done = ran(*words, env=environment(REFUSE_LOG=str(log), LD_PRELOAD=str(library)))
    assert done.returncode == 0, done.stdout + done.stderr
    return log.read_text()


def test_library(library, probe, tmp_path):
    assert " refused\n" in log_of(library, tmp_path, probe)


def test_probe_without_the_library(probe):
    assert output(probe, "plain") == ""


@pytest.mark.parametrize("name", NAMES)
def test_request(library, tmp_path, name):
    due = " not reached\n" if "no_request" in name else " refused\n"
    assert due in log_of(library, tmp_path, built(WHICH), name)
