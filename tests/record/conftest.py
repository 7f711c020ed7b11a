"""Fixtures: the recorders, the judge of their records, logs of two threads, and tours."""
import re

import pytest

from recorders import HERE, RECORDERS, SOURCES, Judge, compile_c, once
from tree import output, ran


@pytest.fixture(scope="session")
def in_c(shared, library, locktrace):
    return RECORDERS["c"](shared, library, locktrace)


@pytest.fixture(scope="session")
def in_rust(shared, library, locktrace):
    return RECORDERS["rust"](shared, library, locktrace)


@pytest.fixture(scope="session")
def recorder(request, in_c, in_rust):
    return {"c": in_c, "rust": in_rust}[request.param]


@pytest.fixture(scope="session")
def judge(locktrace, lockreplay):
    return Judge(locktrace, lockreplay)


@pytest.fixture
def built(tmp_path, library):
    """Builds a source in a mode, with the library if the mode checks runs."""
    def build(source, mode, *flags, compiler="gcc", standard="17"):
        linked = library if mode == "EXPLORE" or "-DLR_CHECK" in flags else None
        assert compile_c(compiler, source, tmp_path / "it", f"-DLR_MODE={mode}", *flags,
                         library=linked, standard=standard) == ""
        return tmp_path / "it"
    return build


@pytest.fixture
def noting(built):
    """Builds a program whose rounds are these notes of a lock."""
    return lambda lock, notes, *flags, mode="EXPLORE", compiler="gcc": built(
        HERE / "notes.c", mode, f'-DLOCK="{lock}"', f"-DNOTES={notes}", *flags, compiler=compiler)


@pytest.fixture
def ended(built, tmp_path):
    """Builds the lock of endings.c with a BODY: the program, and a folder for its logs."""
    return lambda mode, body, *flags: (
        built(HERE / "endings.c", mode, f"-DBODY={body}", *flags), tmp_path / "logs")


@pytest.fixture
def refusing(tmp_path):
    """The flags by which a call that is defined so is refused, after these lines."""
    def flags(define, *lines):
        (tmp_path / "refuses.h").write_text(
            "\n".join(["#include <stdlib.h>", *lines, f"#define {define}\n"]))
        return ["-include", tmp_path / "refuses.h"]
    return flags


@pytest.fixture
def ordered(locktrace):
    """Asserts that a folder has the two logs alone, orders them, and returns the moves of each."""
    def order(logs):
        assert sorted(path.name for path in logs.iterdir()) == ["thread-0.log", "thread-1.log"]
        done = ran(locktrace, "order", *sorted(logs.iterdir()), "-o", logs.parent / "ordered")
        assert done.returncode == 0, done.stderr
        texts = [(logs / f"thread-{thread}.log").read_text() for thread in range(2)]
        return [[line for line in text.splitlines()[2:] if re.match("[a-z]", line)]
                for text in texts]
    return order


@pytest.fixture
def tour(shared, locktrace, pytestconfig):
    """Writes a tour of an example's lock once, by the options of the tests: its folder."""
    threads, rounds = pytestconfig.getoption("threads"), pytestconfig.getoption("rounds")

    def made(example):
        text = (SOURCES / f"{example}.c").read_text()
        lock = re.search(r'^#define LOCK "(.*)"', text, re.MULTILINE)[1]
        folder = shared / f"tour-{lock}-{threads}-{rounds}"
        once(folder.with_suffix(".made"), lambda: output(
            locktrace, "tour", lock, threads, "--rounds", rounds, "-o", folder))
        return folder
    return made


def pytest_sessionfinish(session):
    """With --write-planted, writes the results of test_planted.py into the tables."""
    reporter = session.config.pluginmanager.get_plugin("terminalreporter")
    if reporter is None or not session.config.getoption("write_planted"):
        return
    import planted
    found = {tuple(value[:3]): value[3] for reports in reporter.stats.values()
             for report in reports for name, value in getattr(report, "user_properties", [])
             if name == "planted"}
    planted.write(found)
