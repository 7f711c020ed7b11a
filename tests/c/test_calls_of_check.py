"""A program that calls built/locktrace.c: in threads, with memory around the address 0 of a call,
from C, C++ and Python, and as the header shows it.
"""
import re
import sys
from pathlib import Path

import pytest

from recorders import WARNINGS
from tree import EXAMPLES, TOP, VERSION, answer, cases, output, ran

HERE, CHECK = Path(__file__).parent, TOP / "built" / "locktrace.c"
HEADER = TOP / "built" / "locktrace.h"
PROCESSES = 60
LATE_LINK = """# Thread 1 swaps itself in before thread 0 leaves.

lock mcs threads 2
0 acquire
0 write next left 0
0 swap tail found 0 left 1
1 acquire
1 write next left 0
1 swap tail found 1
0 release
0 read next found 0
0 cas tail failed
1 write locked left 1
1 write next of 0 left 2
0 read next found 2
0 write locked of 1 left 0
1 read locked found 0 entered
"""


def built(compiler, target, *words):
    """Compiles words into a program, without a warning, and returns its path."""
    assert output(compiler, *WARNINGS, "-O2", "-o", target, *words) == ""
    return target


def test_threads_with_sanitizer(tmp_path):
    """Calls in different threads have no data race."""
    said = output("gcc", *WARNINGS, "-O1", "-g", "-fsanitize=thread", "-pthread", "-o",
                  tmp_path / "it", HERE / "side_by_side.c", CHECK)
    if "tsan" in said:
        pytest.skip("ThreadSanitizer is not installed")
    assert said == ""
    assert output(tmp_path / "it") == ""


def test_threads_in_many_processes(tmp_path):
    program = built("gcc", tmp_path / "it", "-pthread", HERE / "side_by_side.c", CHECK)
    assert [output(program) for _ in range(PROCESSES)] == [""] * PROCESSES


@cases("text", {
    "accepted": LATE_LINK,
    "a value": LATE_LINK.replace("found 2", "found 3"),
    "a step": LATE_LINK.replace("1 write locked left 1\n", ""),
    "a call": LATE_LINK.replace("0 release", "1 release"),
    "a line": LATE_LINK.replace("tail failed", "tail fails"),
    "sections": "lock rw-fifo threads 2 bits 2\n0 rlock\n0 section 3 entered\n1 wlock\n"
                "1 section 4 moved\n1 section 5 waits\n0 runlock\n0 section 6\n1 section 6",
    "a ticket": "lock ticket threads 2\n1 acquire\n1 add next_ticket found 0\n1 read\n2 acquire\n",
    "no header": "# nothing\n",
    "nothing": "",
})
def test_around_zero(tmp_path, text):
    """The addresses of a call wrap around 0, and what is lent may lie there."""
    program = built("gcc", tmp_path / "it", HERE / "around_zero.c")
    assert answer(program, input=text) == ("", "", 0)


@pytest.mark.parametrize("compiler", ["gcc", "clang"])
@pytest.mark.parametrize("flags", [["-std=c11", "-O1"], ["-std=c17", "-O3"], ["-Os"]], ids=str)
def test_compiles(compiler, flags):
    assert output(compiler, *flags, *WARNINGS, "-c", "-o", "/dev/null", CHECK) == ""


def test_takes_and_keeps_nothing(tmp_path):
    """The check calls only what copies memory and what ends a program, and has no variable."""
    assert output("gcc", "-O2", "-c", "-o", tmp_path / "it.o", CHECK) == ""
    symbols = re.findall(r"(?m) ([A-Za-z]) (\S+)$", output("nm", tmp_path / "it.o"))
    assert {name for kind, name in symbols if kind == "U"} - {"_GLOBAL_OFFSET_TABLE_"} <= {
        "abort", "memcpy", "memmove", "memset", "strcmp", "__stack_chk_fail"}
    assert {kind for kind, _ in symbols} <= {"U", "T", "t", "r"}


@pytest.mark.parametrize("compiler", ["gcc", "g++", "clang", "clang++"])
def test_from_c(library, tmp_path, compiler):
    """The same source in C and in C++, which also names what an answer has."""
    language = ["-x", "c++" if "++" in compiler else "c"]
    program = built(compiler, tmp_path / "it", *language, HERE / "calls_of_check.c", "-x", "none",
                    library)
    assert output(program) == ""


def test_version():
    text = HEADER.read_text()
    major, minor, patch = map(int, VERSION.split("."))
    assert f'#define LT_VERSION "{VERSION}"\n' in text
    assert f"#define LT_VERSION_NUMBER {10_000 * major + 100 * minor + patch}\n" in text


@cases("text, due, status", {
    "accepted": ("lock ticket threads 1\n0 acquire\n0 add\n", "0 acquire called\n0 add moved\n", 0),
    "refused": ("lock ticket threads 1\n0 acquire\n0 read\n",
                "0 acquire called\nline 3: WrongStep: the thread's next step is a different one\n",
                1),
    "too long": ("#" * (1 << 20), "", 2),
})
def test_example(tmp_path, text, due, status):
    """The example that the header quotes, built by the command in its head."""
    source = EXAMPLES / "bindings" / "check.c"
    [command] = re.findall(r"^//     (cc .*) && ", source.read_text(), re.MULTILINE)
    more = " ".join(WARNINGS)
    assert output("sh", "-c", command.replace("-o ", f"{more} -o {tmp_path}/"), cwd=TOP) == ""
    assert answer(tmp_path / "check", input=text) == (due, "", status)
    code = source.read_text().split("\n#include", 1)[1]
    assert " ".join(code.split()) in " ".join(HEADER.read_text().split())


@cases("trace, said, status", {
    "accepted": ("lock ticket threads 1\n0 acquire\n0 add next_ticket found 0\n",
                 "2 moves of 1 threads, 0 waits", 0),
    "refused": ("lock ticket threads 1\n0 add\n", ":2: NoCall: the thread has no pending call", 1),
})
def test_from_python(tmp_path, trace, said, status):
    """The binding works with the library that the command in its head makes."""
    binding = EXAMPLES / "bindings" / "locktrace.py"
    [command] = re.findall(r"^    (cc .*)$", binding.read_text(), re.MULTILINE)
    assert output("sh", "-c", command.replace("-o ", f"-o {tmp_path}/"), cwd=TOP) == ""
    (tmp_path / "run.trace").write_text(trace)
    done = ran(sys.executable, binding, tmp_path / "liblocktrace.so", tmp_path / "run.trace")
    assert (said in done.stdout, done.returncode) == (True, status), done.stderr
