"""The header in C reports wrong modes and notes, and where a lock leaves a schedule.

The tables of this file have the expected messages. atomics.c and atomics.cc check the point before
each atomic operation, in C and in C++.
"""
import re

import pytest

from recorders import (COMPILERS, HEAD, HERE, IN, SOURCES, STANDARDS, WARNINGS, compile_c, copied,
                       language, words_of)
from tree import EXAMPLES, TOP, answer, ran

pytestmark = pytest.mark.slow

# Options of the compiler, and its message.
OLD = "a mode is a value of LR_MODE, as in -DLR_MODE=SEED"
NONE = "LR_MODE is not one of OFF, VALUES, SEED, FOLLOW and EXPLORE"
WORDS = [
    *((f"-DLR_{mode}", OLD) for mode in ("OFF", "VALUES", "SEED", "SEED=17", "FOLLOW", "EXPLORE")),
    *((f"-DLR_MODE{value}", NONE) for value in (
        "", "=", "=SEEDD", "=SED", "=VALEUES", "=seed", "=17", "=0", "=EXPLOER", "=NONE")),
    *((f"{mode}{option}", said) for option, modes, said in (
        ("-DLR_NOISE", "OFF SEED FOLLOW EXPLORE",
         "LR_NOISE is for LR_MODE=VALUES: it holds up threads that run as they like"),
        ("-DLR_PCT=3", "OFF VALUES FOLLOW EXPLORE",
         "LR_PCT is for LR_MODE=SEED: it is a way to draw the turns"),
        ("-DLR_PCT=0", "SEED", "LR_PCT is the depth of a mistake: LR_PCT=1 and so on"),
        ("-DLR_STEPS=9", "OFF VALUES SEED FOLLOW EXPLORE",
         "LR_STEPS is for LR_PCT: about how many turns a run has"),
        *((f"-DLR_PCT=3 -DLR_STEPS={steps}", "SEED",
           "LR_STEPS is about how many turns a run has: LR_STEPS=1 and so on")
          for steps in (0, -1)),
        ("-DLR_SPURIOUS=9", "OFF VALUES FOLLOW", "LR_SPURIOUS is for SEED and EXPLORE: threads are "
         "woken for nothing, or with 0 are not"),
        ("-DLR_CHECK", "OFF VALUES", "LR_CHECK is for SEED, FOLLOW and EXPLORE: `locktrace order` "
         "checks what VALUES records"),
        ("-DLR_PATIENCE=9", "OFF VALUES FOLLOW",
         "LR_PATIENCE is for SEED and EXPLORE: after so many turns in vain a run hangs"),
        ("-DLR_MOVES=9", "OFF VALUES SEED FOLLOW",
         "LR_MOVES is for LR_MODE=EXPLORE: room for so many moves of a thread"),
        ("-DLR_REDUCE=0", "OFF VALUES SEED FOLLOW", "LR_REDUCE is for LR_MODE=EXPLORE: with 0 "
         "independent steps are made in both orders"),
        ("-DLR_MAPPED=0", "OFF SEED FOLLOW EXPLORE",
         "LR_MAPPED is for LR_MODE=VALUES: with 0 a run's notes are in memory alone"),
        ("-DLR_ATOMICS=0", "OFF VALUES FOLLOW", "LR_ATOMICS is for SEED, EXPLORE, and VALUES with "
         "LR_NOISE: points before atomic operations"),
    ) for mode in ("", *(f"-DLR_MODE={mode} " for mode in modes.split()))
      if mode or "OFF" in modes),
]
# A note, and the compiler's error: empty if some lock has the step.
EACH = ("next_ticket", "now_serving", "tail", "next", "locked")
NO_WORD = "a word is next_ticket, now_serving, tail, next or locked"
NOTES = [
    *((f"LR_{step}({word}, 1)", "") for step in ("READ", "WRITE") for word in EACH),
    *((f"LR_{step}({word}, 1)", NO_WORD) for step in ("READ", "WRITE")
      for word in ("owner", "none", "Tail")),
    *((f"LR_SWAP({word}, 1)", "" if word == "tail" else "LR_SWAP is of tail")
      for word in (*EACH, "owner")),
    *((f"LR_CAS({word}, 1)", "" if word == "tail" else "LR_CAS is of tail")
      for word in (*EACH, "owner")),
    *((f"LR_ADD({word}, 1)", "" if word == "next_ticket" else "LR_ADD is of next_ticket")
      for word in (*EACH, "owner")),
    *((f"LR_{step}_OF({word}, 1, 1)",
       "" if word in ("next", "locked") else "a record has next and locked")
      for step in ("READ", "WRITE") for word in (*EACH, "owner")),
    *((f"LR_CALL({call})", "") for call in (
        "acquire", "release", "rlock", "runlock", "wlock", "wunlock", "downgrade")),
    *((f"LR_CALL({call})",
       "a call is acquire, release, rlock, runlock, wlock, wunlock or downgrade")
      for call in ("aquire", "lock")),
    *((f"LR_SECTION(1, {outcome})", "") for outcome in ("moved", "waits", "entered", "left")),
    ("LR_SECTION(1, enters)", "an outcome is moved, waits, entered or left"),
]

# An example, a schedule, and the message: empty if the example follows the schedule.
OUT = "0 release\n0 read\n0 cas\n"
FOLLOWED = [
    ("mcs", HEAD + IN + OUT, ""),
    pytest.param("mcs", HEAD + 400 * (IN + OUT), "", id="2400 lines"),
    ("mcs", "# a comment\n\n" + HEAD + IN, ""),
    ("mcs", HEAD + "0 acquire\n0 write\n1 acquire\n", ""),
    ("mcs", HEAD + IN + "0 read\n", "line 5 is '0 read', and thread 0 has ended"),
    ("mcs", HEAD + IN + "0 release\n0 cas\n", "line 6 is '0 cas', and thread 0 made 'read'"),
    ("mcs", HEAD + IN + "0 acquire\n0 swap\n", "line 6 is '0 swap', and thread 0 made 'write'"),
    ("mcs", HEAD + "0 read\n", "line 2 is '0 read', and thread 0 has ended"),
    ("mcs", HEAD + "0 acquire\n1 write\n", "line 3 is '1 write', and thread 1 has ended"),
    ("mcs", "lock ticket threads 2\n",
     "it is of the lock ticket with 64 bits, and not of mcs with 64"),
    ("ticket", "lock ticket threads 2 bits 8\n",
     "it is of the lock ticket with 8 bits, and not of ticket with 4"),
    ("ticket", "lock ticket threads 2 bits 4\n0 acquire\n0 add\n0 read\n1 acquire\n1 add\n1 read\n"
     "1 read\n0 release\n0 read\n0 write\n1 read\n", ""),
    ("mcs", HEAD + "0 aquire\n", "this is no line of a schedule of 2 threads"),
    ("mcs", HEAD + "2 acquire\n", "this is no line of a schedule of 2 threads"),
    ("mcs", "0 acquire\n", "this is no line of a schedule of 0 threads"),
    ("rw_fifo", "lock rw-fifo threads 2 bits 8\n0 rlock\n0 section\n1 wlock\n1 section\n1 section\n"
     "0 runlock\n0 section\n1 section\n", ""),
    ("rw_fifo", "lock rw-fifo threads 2 bits 64\n0 rlock\n", "not of rw-fifo with 8"),
    ("ck_ticket", "lock ticket threads 2 bits 16\n0 acquire\n0 add\n1 acquire\n",
     "line 4 is '1 acquire', and thread 0 made 'read'"),
    ("ck_ticket", "lock ticket threads 2 bits 16\n0 acquire\n1 acquire\n0 add\n1 read\n",
     "line 5 is '1 read', and thread 0 made 'read'"),
    ("ck_ticket", "lock ticket threads 2 bits 16\n0 acquire\n0 add\n",
     "thread 0 made 'read' after the last line, at ck_ticket.c:"),
    ("mcs", f"# {'a long comment ' * 30}\n" + HEAD + IN, ""),
    ("mcs", f"# a comment\n\n{HEAD}0 aquire\n", ":4: this is no line of a schedule of 2 threads"),
    ("mcs", HEAD + "0 acquire\n0 aquire", ":3: this is no line of a schedule of 2 threads"),
    ("mcs", HEAD + "0 acquire\n" + HEAD, ":3: this is no line of a schedule of 2 threads"),
    ("mcs", "lock mcs threads 2 bits 64 of 64\n", ":1: this is no line of a schedule of 2 threads"),
    ("mcs", "lock mcs threads 2 or 3\n", ":1: this is no line of a schedule of 2 threads"),
    ("mcs", "lock mcs threads 65\n", ":1: this is no line of a schedule of 65 threads"),
]


@pytest.mark.parametrize("words, said", WORDS)
def test_wrong_mode(words, said):
    done = ran("gcc", "-std=c11", "-fsyntax-only", *words.split(),
               TOP / "built" / "lockreplay_record.h")
    assert done.returncode != 0 and f'#error "{said}"\n' in done.stderr


NO_MODE = ("lockreplay_record: built without LR_MODE, so nothing is recorded. Begin with "
           "-DLR_MODE=EXPLORE; -DLR_MODE=OFF is silent\n")


@pytest.mark.parametrize("flags, said", [([], NO_MODE), (["-DLR_MODE=OFF"], "")], ids=str)
def test_nothing_is_recorded(tmp_path, flags, said):
    """A program without a mode runs its lock, and warns that it records nothing."""
    assert compile_c("gcc", SOURCES / "ticket.c", tmp_path / "it", *flags) == ""
    assert answer(tmp_path / "it", 2, 3, 1, tmp_path / "logs") == ("", said, 0)
    assert not (tmp_path / "logs").exists()


@pytest.mark.parametrize("compiler", ["gcc", "clang++"])
@pytest.mark.parametrize("note, due", NOTES)
def test_wrong_note(tmp_path, compiler, note, due):
    """A note of a step that no lock has does not compile. The error names its line, and the words
    that there are."""
    (tmp_path / "notes.c").write_text(f'#include "{TOP}/built/lockreplay_record.h"\n'
                                      f"void it(void);\nvoid it(void) {{ {note}; }}\n")
    done = ran(compiler, *language(compiler), *WARNINGS, "-DLR_MODE=VALUES", "-fsyntax-only",
               tmp_path / "notes.c")
    said = re.findall(r"notes\.c:(\d+):\d+: error: (.*)", done.stderr)
    assert said == ([("3", due)] if due else []), done.stderr


@pytest.mark.parametrize("compiler", COMPILERS)
def test_words_that_are_macros(compiler, tmp_path):
    """A lock may have macros with the names of the words and the calls."""
    (tmp_path / "notes.c").write_text(
        f'#include "{TOP}/built/lockreplay_record.h"\n'
        "#define tail lock->tail\n#define next lock->next\n#define acquire take\n"
        "#define entered 1\nvoid it(void);\nvoid it(void)\n{\n    LR_CALL(acquire);\n"
        "    LR_SWAP(tail, 0);\n    LR_READ(next, 0);\n    LR_WRITE_OF(next, 1, 0);\n"
        "    LR_SECTION(1, entered);\n}\n")
    done = ran(compiler, *language(compiler), *WARNINGS, "-DLR_MODE=VALUES", "-fsyntax-only",
               tmp_path / "notes.c")
    assert (done.stderr, done.returncode) == ("", 0)


@pytest.mark.parametrize("example, text, said", FOLLOWED)
def test_schedule(in_c, tmp_path, example, text, said):
    """The status tells a lock that leaves a schedule from a file that is no schedule of it."""
    (tmp_path / "one.schedule").write_text(text)
    done = in_c.search([tmp_path], tmp_path, example, "FOLLOW")
    if said:
        assert said in done.stderr
        assert done.returncode == (3 if "this is no line" in said or "not of " in said else 1)
    else:
        assert (done.stderr, done.returncode) == ("", 0)


def test_folder_of_schedules(in_c, tmp_path):
    """Schedules are followed in the order of their names. Runs of the same moves have one number,
    and others have others."""
    for name, line in {"c": "0 read", "a": "0 read", "b": "1 read"}.items():
        (tmp_path / f"{name}.schedule").write_text(f"{HEAD}{line}\n")
    done = in_c.search([tmp_path], tmp_path, "mcs", "FOLLOW")
    assert re.findall(r"/(\w)\.schedule: line 2 is ", done.stderr) == ["a", "b", "c"]
    a, b, c = ((tmp_path / f"{name}.trace").read_text().splitlines()[0] for name in "abc")
    assert re.fullmatch("# run [0-9a-f]{16}", a) and a == c != b


@pytest.mark.parametrize("lesson", ["mcs-late-link", "mcs-third-linked-before-second"])
def test_trace_of_a_schedule(built, tmp_path, lesson):
    """Without LR_CHECK the program saves each trace, which has the moves of the lesson."""
    text = (EXAMPLES / f"{lesson}.schedule").read_text()
    (tmp_path / "it.schedule").write_text(text)
    assert answer(built(SOURCES / "mcs.c", "FOLLOW"), tmp_path, tmp_path)[1:] == ("", 0)
    assert words_of((tmp_path / "it.trace").read_text()) == words_of(text)


# A write lock whose holder lets others go first inside of the monitor, and signals.
MONITOR = f"""#include "{TOP}/built/lockreplay_record.h"
static int is_taken, is_inside, sections;
static void comes(void) {{ LR_LOCK((void)0); if (is_inside++) _Exit(9); }}
static void goes(void) {{ is_inside--; LR_UNLOCK((void)0); LR_SWITCH(); }}
static void one_call(unsigned thread, int call)
{{
    (void)thread;
    if (call == LR_CALL_wlock) LR_CALL(wlock); else LR_CALL(wunlock);
    LR_SWITCH();
    comes();
    while (call == LR_CALL_wlock && is_taken) {{
        LR_SECTION(++sections, waits);
        LR_SWITCH();
        LR_WAIT(&is_taken, is_inside--, (void)0, is_inside++);
    }}
    is_taken = call == LR_CALL_wlock;
    LR_SIGNAL(&is_taken, (void)0);
    if (is_taken) LR_SECTION(++sections, entered); else LR_SECTION(++sections, left);
    LR_SWITCH();
    goes();
}}
int main(int count, char **words)
{{
    const lr_driver driver = {{"rw-simple", 64, NULL, NULL, one_call}};
    return lr_main(&driver, count, words);
}}
"""


def test_schedule_of_a_monitor(built, tmp_path):
    """The schedule alone says when a thread that waits looks again, and nobody has a turn in the
    middle of a section."""
    moves = ("0 wlock 0 section 1 wlock 1 section 2 wlock 2 section 1 section 0 wunlock 0 section "
             "2 section 2 wunlock 1 section 2 section 1 section 1 wunlock 1 section")
    text = "lock rw-simple threads 3\n" + re.sub(r"(\d \w+) ?", r"\1\n", moves)
    outcomes = "entered waits waits waits left entered waits left entered left".split()
    (tmp_path / "it.c").write_text(MONITOR)
    (tmp_path / "it.schedule").write_text(text)
    done = ran(built(tmp_path / "it.c", "FOLLOW"), tmp_path, tmp_path)
    assert (done.stdout, done.stderr) == ("1 schedules of 16 moves, 0 not followed\n", "")
    trace = (tmp_path / "it.trace").read_text()
    assert words_of(trace) == words_of(text)
    assert re.findall(r"^\d section \d+ (\w+)$", trace, re.MULTILINE) == outcomes


def test_longest_seed(in_c, tmp_path):
    """A seed has 64 bits. One whose lower half is that of another seed gives another run."""
    texts = []
    for seed in (2**64 - 1, 2**32 - 1):
        done = in_c.run(tmp_path / str(seed), "ticket", "SEED", seed)
        assert (done.stderr, done.returncode) == ("", 0)
        texts.append((tmp_path / str(seed) / "run.trace").read_text())
        assert texts[-1].splitlines()[1] == f"# seed {seed}"
    assert words_of(texts[0]) != words_of(texts[1])


@pytest.mark.parametrize("flags", [[], ["-DLR_START=15"]], ids=str)
def test_places_of_moves(built, tmp_path, flags):
    """A short trace names for each move the line of the source that noted it."""
    assert ran(built(SOURCES / "ticket.c", "SEED", *flags), 2, 3, 1, tmp_path).stderr == ""
    source, lines = ((tmp_path.joinpath(path)).read_text().splitlines()
                     for path in (SOURCES / "ticket.c", "run.trace"))
    places = re.findall(r"^# line (\d+) is ticket\.c:(\d+)$", "\n".join(lines), re.MULTILINE)
    assert [int(line) for line, _ in places] == [
        number for number, line in enumerate(lines, 1) if line[0].isdigit()]
    for line, place in places:
        word = lines[int(line) - 1].split()[1]
        note = f"LR_CALL({word})" if word in ("acquire", "release") else f"LR_{word.upper()}("
        assert note in source[int(place) - 1]


@pytest.mark.parametrize("rounds, places", [(166, 996), (167, 0)])
def test_places_of_a_long_run(in_c, tmp_path, rounds, places):
    """A trace of more than 1,000 moves names no places. A thread alone makes 6 moves a round."""
    assert ran(*in_c.command("ticket", "SEED"), 1, rounds, 1, tmp_path).stderr == ""
    assert (tmp_path / "run.trace").read_text().count(" is ticket.c:") == places


@pytest.mark.parametrize("mode, has_race", [("VALUES", True), ("SEED", False)])
def test_data_race(tmp_path, mode, has_race):
    """ThreadSanitizer sees a data race if threads run freely, and none if one runs at a time."""
    source = copied(tmp_path, "rw_fifo", "counted-outside-before")
    assert ran("gcc", "-std=c11", "-O1", "-w", "-g", "-fsanitize=thread", "-pthread",
               f"-DLR_MODE={mode}", "-o", tmp_path / "it", source).stderr == ""
    said = ran(tmp_path / "it", 4, 200, 1, tmp_path, 5).stderr
    assert ("ThreadSanitizer: data race" in said) == has_race


@pytest.mark.parametrize("mode", ["SEED", "EXPLORE"])
@pytest.mark.parametrize("compiler, standard", [
    (compiler, standard) for compiler in COMPILERS
    for standard in (STANDARDS if "++" in compiler else ["11"])])
def test_atomics(built, compiler, standard, mode):
    source = HERE / f"atomics.{'cc' if '++' in compiler else 'c'}"
    assert answer(built(source, mode, compiler=compiler, standard=standard))[::2] == ("", 0)
