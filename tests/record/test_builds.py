"""Compilers find no warning in the recorders, and sanitizers no fault; without a mode the header
leaves nothing in a program.

A program that knows every line checks the header's output. The tests also build and run the lock of
docs/GUIDE.md, and run the Rust crate's own tests, its documentation and clippy.
"""
import re

import pytest

from document_blocks import saved_files
from recorders import (COMPILERS, HERE, IN_C_PLUS_PLUS, RECORDERS, SOURCES, STANDARDS, WARNINGS,
                       compile_c, language)
from tree import TOP, output, ran

pytestmark = pytest.mark.slow

GUIDE = (TOP / "docs" / "GUIDE.md").read_text()
SANITIZERS = ["address,undefined", "thread"]
# The argument of each macro that a program evaluates when the header has no mode.
MONITOR = {"LR_LOCK": 0, "LR_UNLOCK": 0, "LR_WAIT": 2, "LR_SIGNAL": 1, "LR_BROADCAST": 1}
OPTIONS = {"OFF": [], "VALUES": ["-DLR_NOISE"], "SEED": ["-DLR_PCT=3", "-DLR_SPURIOUS=9"],
           "FOLLOW": ["-DLR_CHECK"], "EXPLORE": ["-DLR_MOVES=9", "-DLR_SPURIOUS=0"]}
IN_C = RECORDERS["c"].examples
# Every compiler with the examples that it builds.
BUILDS = [(compiler, example) for compiler in COMPILERS
          for example in (IN_C_PLUS_PLUS if "++" in compiler else IN_C)]


@pytest.mark.parametrize("mode", ["OFF", "VALUES", "SEED"])
@pytest.mark.parametrize("compiler, example", BUILDS)
def test_build(built, compiler, example, mode):
    assert built(SOURCES / f"{example}.c", mode, compiler=compiler).is_file()


@pytest.mark.parametrize("mode", OPTIONS)
@pytest.mark.parametrize("compiler, example, standard", [
    (*build, standard) for build in BUILDS
    for standard in (STANDARDS if "++" in build[0] else ["11"])])
def test_compiles_without_a_warning(compiler, example, standard, mode):
    assert compile_c(compiler, SOURCES / f"{example}.c", "/dev/null", "-c",
                     f"-DLR_MODE={mode}", *OPTIONS[mode], standard=standard) == ""


@pytest.mark.parametrize("sanitizer", SANITIZERS)
@pytest.mark.parametrize("mode", ["VALUES", "SEED"])
@pytest.mark.parametrize("compiler, example", [it for it in BUILDS if it[0] in ("gcc", "g++")])
def test_sanitizer(built, tmp_path, compiler, example, mode, sanitizer):
    """No sanitizer finds a fault. Optimizations are off: they would remove code that a sanitizer
    could check, and take ten times as long to compile."""
    program = built(SOURCES / f"{example}.c", mode, "-g", "-O0", f"-fsanitize={sanitizer}",
                    compiler=compiler)
    assert output(program, 3, 200, 1, tmp_path, 60) == ""


def end_of_call(text, start):
    """The index after the bracket that closes the bracket at `start`."""
    depth = 0
    for index in range(start, len(text)):
        depth += {"(": 1, ")": -1}.get(text[index], 0)
        if depth == 0:
            return index + 1
    raise ValueError("no closing bracket")


def without_notes(text):
    """A source without the header and its notes. The macros of a monitor leave their argument."""
    text = re.sub(r'#include ".*lockreplay_record\.h"', NUMBERS, text)
    while found := re.search(r"LR_[A-Z_]+(?=\()", text):
        end = end_of_call(text, found.end())
        kept = ""
        if found.group() in MONITOR:
            parts = re.split(r",\s*(?![^()]*\))", text[found.end() + 1:end - 1])
            kept = parts[MONITOR[found.group()]]
        text = text[:found.start()] + kept + text[end:]
    return text


def object_code(compiler, source, target, *flags):
    """The instructions, symbols and section sizes of a source."""
    assert output(compiler, "-std=c11", "-c", *flags, "-o", target, source) == ""
    return (output("objdump", "-d", "-r", target) + output("nm", target)
            + output("size", "-A", target))


# Takes the place of driver.h, and calls the lock of an example.
CALLER = """#include <pthread.h>
#include <sched.h>
#include <stdint.h>
#include <stdlib.h>
#include <string.h>
#include "../../built/lockreplay_record.h"
enum { MOST_THREADS = 64 };
static void open_lock(void);
static void one_round(unsigned thread, unsigned round);
static void one_call(unsigned thread, int call);
static void inside(unsigned thread, unsigned round)
{
    (void)thread, (void)round;
    LR_SWITCH();
}
int main(int count, char **words)
{
    (void)words;
    open_lock();
    one_round(0, 0);
    one_call(0, count);
    return 0;
}
"""
# The numbers of calls and the start of counters, which the header defines in each mode.
NUMBERS = ("enum { LR_START, LR_CALL_acquire = 0, LR_CALL_rlock = 2, LR_CALL_runlock, "
           "LR_CALL_wlock, LR_CALL_wunlock };")


@pytest.mark.parametrize("level", ["-O0", "-O2"])
@pytest.mark.parametrize("compiler, example", [it for it in BUILDS if "++" not in it[0]])
def test_nothing_is_left_of_the_header(tmp_path, compiler, example, level):
    """Without a mode, a lock has the same object code as its source without notes and header. With
    VALUES it has another."""
    for name, change in (("noted", str), ("bare", without_notes)):
        folder = tmp_path / name / "examples" / "recording"
        folder.mkdir(parents=True)
        for source in SOURCES.glob("*.[ch]"):
            text = CALLER if source.name == "driver.h" else source.read_text()
            (folder / source.name).write_text(change(text))
    (tmp_path / "noted" / "built").symlink_to(TOP / "built")
    target, noted, bare = (tmp_path / name for name in ("it.o", "noted", "bare"))
    source = f"examples/recording/{example}.c"
    off = object_code(compiler, noted / source, target, level, "-DLR_MODE=OFF")
    assert off == object_code(compiler, noted / source, target, level)
    assert off == object_code(compiler, bare / source, target, level)
    assert off != object_code(compiler, noted / source, target, level, "-DLR_MODE=VALUES")
    assert "main" in off and "lr_" not in off


@pytest.mark.parametrize("compiler", ["gcc", "clang"])
@pytest.mark.parametrize("note", [
    "LR_CALL(acquire)", "LR_READ(now_serving, it)", "LR_WRITE_OF(locked, 1, it)",
    "LR_SECTION(it, waits)"])
def test_note_is_short(tmp_path, compiler, note):
    """A note in VALUES has at most 36 instructions, and no call or barrier in the common case. At
    3 GHz, and 5 instructions a cycle, 36 take 2.4 ns."""
    (tmp_path / "note.c").write_text(f'#include "{TOP}/built/lockreplay_record.h"\n'
                                     f"void noted(long it);\n"
                                     f"void noted(long it) {{ (void)it; {note}; }}\n")
    assert output(compiler, "-std=c11", "-O2", "-DLR_MODE=VALUES", "-c", "-o", tmp_path / "note.o",
                  tmp_path / "note.c") == ""
    code = output("objdump", "-d", "--no-show-raw-insn", "--disassemble=noted",
                  tmp_path / "note.o")
    made = re.findall(r"^ +[0-9a-f]+:\t(\w+)", code, re.MULTILINE)
    assert "ret" in made and len(made) <= 36, code
    assert not {"call", "lock", "xchg", "mfence"} & set(made), code


@pytest.mark.parametrize("compiler", COMPILERS)
def test_messages_of_the_header(tmp_path, compiler):
    """The checks of header.c pass, and the header prints these messages, in its order."""
    # Each Debian has the libraries of clang's sanitizers in a package of another name.
    sanitizers = [] if compiler.startswith("clang") else ["-fsanitize=address,undefined"]
    assert output(compiler, *language(compiler), *WARNINGS, "-g", "-pthread", *sanitizers, "-o",
                  tmp_path / "header", HERE / "header.c") == ""
    done = ran(tmp_path / "header", tmp_path)
    assert done.stdout == ""
    said = re.sub(r"\.c:\d+", ".c:LINE", done.stderr).splitlines()
    assert said == [f"lockreplay_record: {due}" for due in (
        "the log of thread 0 was full: it has room for 2 moves, and dropped 3",
        "the log of thread 0 was full: it has room for 2 moves, and dropped 1",
        "1 of 1 threads have not ended, and made no move for 0 s: thread 0 "
        "('acquire' at header.c:LINE)",
        "0 threads: a run has 1 to 64",
        "65 threads: a run has 1 to 64",
        "1 bits: a counter has 2 to 64",
        "65 bits: a counter has 2 to 64",
        "4 threads and counters of 2 bits: there have to be fewer threads than values",
        "64 threads and counters of 6 bits: there have to be fewer threads than values",
        "there is no lock 'clh': ticket, mcs, rw-simple or rw-fifo",
        "18446744073709551615 moves for each thread are more than memory can have",
        "/no/such/directory: No such file or directory", "/dev/null: Not a directory")]


MANUAL = (TOP / "built" / "lockreplay_record.h").read_text().split("#ifndef")[0]
IN_SHORT = re.search(r"IN SHORT:.*\n((?: {7}.*\n)+)", MANUAL)[1]
CALL = """static void one_call(unsigned thread, int call)
{
    if (call == LR_CALL_acquire) acquire();
    if (call == LR_CALL_release) release();
}
int main("""


@pytest.mark.parametrize("compiler", ["gcc", "clang"])
@pytest.mark.parametrize("mode, words, said", [
    ("EXPLORE", [2, 1, 2], "10 runs with up to 2 preemptions, repeated polls left out, "
     "all of them accepted\n"),
    ("FOLLOW", ["tour"], "1 schedules of 6 moves, 0 not followed\n")])
def test_manual(library, tmp_path, compiler, mode, words, said):
    """The lock in the header's first comment works as it is there, and with the function for FOLLOW
    that the comment describes. Its last line builds and runs it."""
    *lines, command = IN_SHORT.splitlines(True)
    assert command.split("&&")[1].split() == ["./ticket", "2", "1", "2", "logs"]
    text = "".join(lines).replace("int main(", CALL).replace("NULL}", "one_call}")
    (tmp_path / "ticket.c").write_text(
        "#include <stdatomic.h>\n#include <lockreplay_record.h>\n"
        f"static _Atomic unsigned char next_ticket, now_serving;\n{text}")
    assert output(compiler, "-pthread", f"-DLR_MODE={mode}", "-I", TOP / "built", "-o", "ticket",
                  "ticket.c", library, cwd=tmp_path) == ""
    for name in ("tour", "logs"):
        (tmp_path / name).mkdir()
    (tmp_path / "tour" / "one.schedule").write_text(
        "lock ticket threads 1 bits 8\n0 acquire\n0 add\n0 read\n0 release\n0 read\n0 write\n")
    assert output("./ticket", *words, "logs", cwd=tmp_path) == said


@pytest.mark.parametrize("mode", ["VALUES", "SEED"])
@pytest.mark.parametrize("compiler", COMPILERS)
def test_program_of_two_files(noting, tmp_path, compiler, mode):
    """What a thread notes in one file is in the run that another file began."""
    (tmp_path / "lock.c").write_text(
        f'#include "{TOP}/built/lockreplay_record.h"\nvoid take(void);\n'
        "void take(void) { LR_CALL(acquire); LR_ADD(next_ticket, 0); }\n")
    program = noting("ticket", "void take(void); take()", tmp_path / "lock.c", mode=mode,
                     compiler=compiler)
    assert ran(program, 1, 1, 1, tmp_path / "logs").stderr == ""
    log = (tmp_path / "logs" / "thread-0.log").read_text()
    assert log.endswith("thread 0\nacquire\nadd next_ticket found 0\ndropped 0\n")


@pytest.fixture
def guide(tmp_path):
    """Builds the guide's MCS lock in a mode, with its mistake or mended by the guide's command."""
    for name, text in saved_files(GUIDE).items():
        (tmp_path / name).write_text(text)
    patch, mend = re.findall(r"^\$ ((?:patch|sed -i) .*queue.*)$", GUIDE, re.MULTILINE)

    def build(mode, is_mended=True):
        for command in [patch, mend][:1 + is_mended]:
            assert output("sh", "-c", command, cwd=tmp_path) == ""
        assert output("gcc", "-O2", *WARNINGS, "-pthread", f"-DLR_MODE={mode}", "-I",
                      TOP / "built", "-o", "try", "test-queue.c", TOP / "built" / "locktrace.c",
                      cwd=tmp_path) == ""
        return tmp_path
    return build


def test_guide_by_seed(guide, judge):
    folder = guide("SEED")
    assert ran("./try", 3, 1000, 17, "logs", cwd=folder).stderr == ""
    assert judge.accepts([folder / "logs" / "run.trace"])


def test_guide_by_threads(guide, judge):
    """The logs of free threads have an order in which a thread waits. Threads may run one after
    another, so there are several tries."""
    folder = guide("VALUES")
    assert any(ran("./try", 3, 1000, 1, "logs", cwd=folder).stderr == ""
               and judge.waits_in_order(folder / "logs") for _ in range(20))


def test_guide_with_its_mistake(guide, judge):
    """The trace is refused at the line that the guide names."""
    folder = guide("EXPLORE", is_mended=False)
    assert "the last one is refused" in ran("./try", 2, 1, 2, "logs", cwd=folder).stdout
    line = judge.refused_line(folder / "logs" / "run.trace")
    assert f"refused at line {line} of the trace, queue-noted.c:18: '0 write" in GUIDE


@pytest.mark.xdist_group("cargo")  # cargo locks its folder, so these tests share a worker
@pytest.mark.parametrize("words", [
    f"{tool} {features}".strip() for tool in ("test", "clippy --all-targets")
    for features in ("", "--no-default-features", "--features check")] + ["doc --no-deps"])
def test_cargo(in_rust, words):
    tool = ["cargo-clippy", "clippy"] if words.startswith("clippy") else ["cargo"]
    words = words.split()[len(tool) - 1:]
    assert in_rust.cargo(*tool[1:], *words, tool=tool[0]) == ""
