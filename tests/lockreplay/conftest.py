"""Runs each test here over both programs: the native one, and the one that a C compiler makes of
built/lockreplay.c.
"""
import pytest

from recorders import once
from tree import TOP, built, output


@pytest.fixture(scope="session", params=["native", "in-c"])
def lockreplay(request, shared):
    if request.param == "native":
        return built("lockreplay")

    def compile_it():
        assert output("cc", "-O2", "-pthread", "-o", program, TOP / "built" / "lockreplay.c") == ""
    program = shared / "in-c" / "lockreplay"
    return once(program, compile_it)
