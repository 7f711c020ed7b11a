"""Fixtures that all tests share (the built programs), and the last line, which counts the tests."""
import random

import pytest
from hypothesis import HealthCheck, settings

from tree import TOP, Program, built, output

# pytest rewrites the assertions of these modules too, so that a failure shows the values.
pytest.register_assert_rewrite("dice", "installs", "recorders")
# An example starts a process, so it has no deadline. pytest prints the seed, and
# --hypothesis-seed repeats a run.
settings.register_profile("lockreplay", deadline=None, database=None, print_blob=True,
                          suppress_health_check=list(HealthCheck))
settings.load_profile("lockreplay")


@pytest.fixture(scope="session")
def lockreplay():
    return built("lockreplay")


@pytest.fixture(scope="session")
def locktrace():
    return built("locktrace")


@pytest.fixture(scope="session")
def library(shared):
    """The check of a trace, with which a program in C checks its runs, compiled once."""
    from recorders import once
    return once(shared / "locktrace.o", lambda: output(
        "gcc", "-O2", "-c", "-o", shared / "locktrace.o", TOP / "built" / "locktrace.c"))


@pytest.fixture(scope="session")
def module():
    """The WebAssembly module that the page runs."""
    return built("module")


@pytest.fixture(scope="session")
def shared(tmp_path_factory):
    """A folder for files that the first worker of pytest makes for all workers."""
    base = tmp_path_factory.getbasetemp()
    return (base.parent if base.name.startswith("popen-gw") else base) / "shared"


@pytest.fixture
def replayer(lockreplay, tmp_path):
    """Runs `lockreplay` in an empty folder; inputs and outputs are bytes."""
    return Program(lockreplay, tmp_path, b"")


@pytest.fixture
def tracer(locktrace, tmp_path):
    """Runs `locktrace` in an empty folder; inputs and outputs are text."""
    return Program(locktrace, tmp_path)


def pytest_addoption(parser):
    parser.addoption("--fuzz-seconds", type=float, default=60,
                     help="how long lockreplay and the oracle replay random texts")
    parser.addoption("--quick", action="store_true", help="a tenth of the random values")
    parser.addoption("--write-planted", action="store_true",
                     help="writes the tables of tests/record/mistakes/README.md anew")
    parser.addoption("--threads", type=int, default=3, help="of the tours that locks follow")
    parser.addoption("--rounds", type=int, default=1, help="of each thread in these tours")


@pytest.hookimpl(tryfirst=True)
def pytest_configure(config):
    """Draws one seed for all random tests. The workers of xdist get it with the options."""
    if config.getoption("hypothesis_seed", None) is None:
        config.option.hypothesis_seed = str(random.SystemRandom().randrange(10**9))


def pytest_report_header(config):
    return f"random texts, orders and values: --hypothesis-seed={config.option.hypothesis_seed}"


def pytest_terminal_summary(terminalreporter):
    """Prints how many random values each test tried, and what each test measured."""
    for report in terminalreporter.stats.get("passed", []):
        for name, said in report.user_properties:
            if name in ("tried", "measured"):
                terminalreporter.write_line(f"{report.nodeid}: {said}")


def pytest_unconfigure(config):
    """Prints the last line in the form that all test commands of this repository use."""
    reporter = config.pluginmanager.get_plugin("terminalreporter")
    if reporter is None or hasattr(config, "workerinput") or config.option.collectonly:
        return
    count = {kind: len(reporter.stats.get(kind, [])) for kind in ("passed", "failed", "error")}
    print(f"{count['passed']} passed, {count['failed'] + count['error']} failed", flush=True)
