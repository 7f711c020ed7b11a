"""EXPLORE with partial order reduction finds the same as without it, in fewer runs.

Steps of two threads are independent if they are on different words, or both load the same word; two
sections are never independent. Traces that differ only in the order of independent steps have one
Foata normal form, in which each move comes as early as the moves on which it depends allow.
"""
import re

import pytest

from mistakes import IN_RUST
from planted import EXPLORED, LOCKS, MISTAKES, build
from recorders import SOURCES
from tree import PATIENCE, TOP, environment, ran

MOST = 10000  # the most runs of a search
# At each turn of a run a thread waits for a processor, which is long on a busy machine.
LONG = 5 * PATIENCE
# A right lock's runs of 3 threads with a round and 2 preemptions: without reduction, and with it.
RUNS_IN_C = {"mcs": (7188, 525), "ticket": (5616, 264), "rw_simple": (2954, 2696),
             "rw_fifo": (2898, 2640)}
RUNS_IN_RUST = {"mcs": (5316, 525), "ticket": (4164, 264), "rw_simple": (976, 246),
                "rw_fifo": (972, 248)}
SEARCHES = ("explore-all", "explore")


def move_of(line):
    """(the move, its thread, its word, whether it does more than load the word)."""
    thread, kind, *parts = line.split()
    if kind == "section":
        return line, thread, "sections", True
    if not parts:
        return line, thread, None, False
    owner = None
    if parts[0] in ("next", "locked"):
        owner = parts[2] if parts[1:2] == ["of"] else thread
    return line, thread, (parts[0], owner), kind != "read"


def are_dependent(one, other):
    (_, thread, word, writes), (_, by, on, also_writes) = one, other
    return thread == by or (word == on and word is not None and (writes or also_writes))


def level_of(move, levels):
    """The level after the last level that has a move on which this move depends."""
    return max((at + 1 for at, level in enumerate(levels)
                if any(are_dependent(move, other) for other in level)), default=0)


def normal_form(trace):
    """The Foata normal form of a trace: a sequence of sets of independent moves."""
    levels = []
    for move in (move_of(line) for line in trace.splitlines() if line[:1].isdigit()):
        at = level_of(move, levels)
        levels += [[]] if at == len(levels) else []
        levels[at].append(move)
    return tuple(frozenset(line for line, *_ in level) for level in levels)


def said_by(done):
    """(how many runs a search made, with how many preemptions, whether there are more)."""
    runs, preemptions = re.match(r"(\d+) runs? with up to (\d+) preemptions?", done.stdout).groups()
    return int(runs), int(preemptions), "and there are more" in done.stdout


def test_normal_form():
    one, other = "0 write next left 0\n1 read tail found 0\n", "0 write tail left 1\n"
    assert normal_form(one) == normal_form("1 read tail found 0\n0 write next left 0\n")
    assert normal_form(one + other) != normal_form(other + one)
    assert normal_form("0 section 1 left\n1 section 2 left") != normal_form(
        "1 section 2 left\n0 section 1 left")


def test_document_has_the_runs():
    text = " ".join((TOP / "tests" / "record" / "mistakes" / "README.md").read_text().split())
    [counted] = re.findall(r"With `LR_REDUCE=0` (.*?)\. In one round", text)
    numbers = [int(number.replace(",", "")) for number in re.findall(r"\b\d[\d,]*\b", counted)]
    assert numbers == [runs for table in (RUNS_IN_C, RUNS_IN_RUST) for lock in LOCKS
                       for runs in table[lock]]


# Each operation is on a word of the thread's own, and what the lock does has no point.
OWN_WORDS = """#include <stdatomic.h>
#undef atomic_load
#undef atomic_store
#undef atomic_exchange
#undef atomic_fetch_add
#undef atomic_compare_exchange_strong
static int own_words[64];
#define LOOK() (void)__atomic_load_n(&own_words[lr_thread()], 5)
#define atomic_load(p) (LOOK(), *(p))
#define atomic_store(p, v) (LOOK(), *(p) = (v))
#define atomic_exchange(p, v) \\
    __extension__({ LOOK(); __typeof__(v) found = *(p); *(p) = (v); found; })
#define atomic_fetch_add(p, v) (LOOK(), (*(p) += (v)) - (v))
#define atomic_compare_exchange_strong(p, e, d) (LOOK(), *(p) == *(e) ? (*(p) = (d), 1) : 0)
"""


OTHER_WORDS = ["-include", "own.h", "-Wno-unused-value"]


@pytest.mark.slow
@pytest.mark.parametrize("example, flags, runs", [
    *((example, [f"-DLR_REDUCE={reduces}"], runs) for example, both in RUNS_IN_C.items()
      for reduces, runs in enumerate(both)),
    # Steps are dependent by the words of their notes alone, so there are as many runs.
    *((example, OTHER_WORDS, RUNS_IN_C[example][1]) for example in ("mcs", "ticket"))], ids=str)
def test_right_lock_in_c(built, tmp_path, example, flags, runs):
    (tmp_path / "own.h").write_text(OWN_WORDS)
    program = built(SOURCES / f"{example}.c", "EXPLORE", "-I", tmp_path, *flags)
    done = ran(program, *EXPLORED, tmp_path / "logs", MOST, timeout=LONG)
    left_out = "" if example.startswith("rw_") else "repeated polls left out, "
    assert done.stdout == f"{runs} runs with up to 2 preemptions, {left_out}all of them accepted\n"


LOADS = ["__atomic_load_n(word, 5)", "__atomic_load(word, &own, 5)"]
CHANGES = [
    "__atomic_store_n(word, 1, 5)", "__atomic_store(word, &own, 5)",
    "__atomic_exchange_n(word, 1, 5)", "__atomic_exchange(word, &own, &other, 5)",
    "__atomic_compare_exchange_n(word, &own, 1, 0, 5, 5)",
    "__atomic_compare_exchange(word, &own, &other, 0, 5, 5)",
    "__atomic_fetch_add(word, 1, 5)", "__atomic_test_and_set(word, 5)",
    "__sync_fetch_and_add(word, 1)", "__sync_val_compare_and_swap(word, 0, 1)",
    "__sync_lock_release(word)",
]
# Two threads make an operation twice, on one word or each on a word of its own beside it.
TWICE = ('static char words[2]; char *word = &words[getenv("APART") ? thread : 0], own = 0; '
         "char other = 0; for (int i = 0; i < 2; i++) { (void)OPERATION; } (void)own, (void)other")


@pytest.mark.slow
@pytest.mark.parametrize("operation", LOADS + CHANGES)
def test_words_beside_one_another(noting, tmp_path, operation):
    """If the steps are independent, the two orders of the threads are enough."""
    program = noting("mcs", TWICE, f"-DOPERATION={operation}")
    for apart, is_enough in ({}, operation in LOADS), ({"APART": "1"}, True):
        done = ran(program, 2, 1, 9, tmp_path / "logs", env=environment(**apart))
        assert (said_by(done)[0] == 2) == is_enough, (apart, done.stdout)


# A thread that has looked so often takes the lock, though nobody gave it to the thread.
COUNTED = f"""#include "{TOP}/tests/record/ticket.h"
#include "{TOP}/tests/record/main.h"
static void acquire_soon(void)
{{
    int looks = 0;
    LR_CALL(acquire);
    unsigned char ticket = lr_fetch_add(&next_ticket, 1, LR_NEXT_TICKET);
    while (lr_load(&now_serving, LR_NOW_SERVING) != ticket && ++looks < LOOKS) sched_yield();
}}
static void reset(void) {{ next_ticket = now_serving = 0; }}
static void one_round(unsigned thread, unsigned round)
{{
    (void)thread, (void)round, (void)acquire;
    acquire_soon();
    release();
}}
MAIN("ticket", 8, reset)
"""


@pytest.mark.slow
@pytest.mark.parametrize("looks, reduces", [(1, 0), (2, 0), (3, 0), (1, 1), (2, 1), (3, 1)])
def test_lock_that_counts_its_looks(built, tmp_path, looks, reduces):
    """Without reduction each look is tried, as the document says of such locks. Else a third look
    in vain is left out, and the line says so."""
    (tmp_path / "it.c").write_text(COUNTED)
    program = built(tmp_path / "it.c", "EXPLORE", f"-DLOOKS={looks}", f"-DLR_REDUCE={reduces}")
    done = ran(program, 2, 1, 2, tmp_path / "logs")
    is_refused = looks < 3 or not reduces
    assert (", the last one is refused\n" if is_refused else
            " preemptions, repeated polls left out, all of them accepted\n") in done.stdout
    assert done.returncode == int(is_refused)


def without_later_waits(trace):
    """The trace with two waits in a row of a thread at most. A later one changes nothing, so it is
    not looked for: within its preemptions a search may have it in another place, or not at all."""
    kept, in_a_row = [], {}
    for line in trace.splitlines():
        thread = line.split(" ", 1)[0]
        in_a_row[thread] = in_a_row.get(thread, 0) + 1 if line.endswith(" waits") else 0
        kept += [line] if in_a_row[thread] <= 2 else []
    return "\n".join(kept)


@pytest.mark.slow
@pytest.mark.parametrize("counts", [(2, 1, 2), (2, 2, 2), (3, 1, 1), (3, 1, 2)], ids=str)
@pytest.mark.parametrize("example", RUNS_IN_RUST)
def test_right_lock_in_rust(in_rust, tmp_path, example, counts):
    """Each run has an equivalent one among the runs of the reduced search, which are fewer."""
    made, found = [], []
    for search in SEARCHES:
        folder = tmp_path / search
        made.append(said_by(in_rust.search(counts, folder, example, search))[0])
        found.append({normal_form(without_later_waits(path.read_text()))
                      for path in folder.glob("*.trace")})
    assert found[0] == found[1]
    assert made[1] < made[0]
    assert counts != (3, 1, 2) or tuple(made) == RUNS_IN_RUST[example]


@pytest.mark.planted
@pytest.mark.parametrize("lock, name", [
    (lock, name) for lock, named in MISTAKES.items() for name, _ in named])
def test_planted_in_c(library, tmp_path, lock, name):
    """Both searches refuse a run with as many preemptions, unless the full search reaches its limit
    first. The reduced search never does."""
    done = []
    for reduces in range(2):
        folder = tmp_path / str(reduces)
        folder.mkdir()
        program = build(lock, name, "EXPLORE", library, folder, f"-DLR_REDUCE={reduces}")
        done.append(ran(program, *EXPLORED, folder / "logs", MOST))
    (runs, preemptions, is_cut), (fewer, found, is_cut_too) = map(said_by, done)
    assert fewer <= runs and not is_cut_too
    if not is_cut:
        assert (done[1].returncode, found) == (done[0].returncode, preemptions)


def refused(locktrace, folder):
    """The normal forms of the refused traces in a folder."""
    said = ran(locktrace, "check", *sorted(folder.glob("*.trace"))).stdout
    names = re.findall(r"([^/\s]+\.trace):\d+: refused", said)
    return {normal_form((folder / name).read_text()) for name in names}


@pytest.mark.slow
@pytest.mark.parametrize("mistake", IN_RUST, ids=str)
def test_planted_in_rust(in_rust, locktrace, tmp_path, mistake):
    """Both searches refuse the same normal forms, or end at a run that hangs."""
    done = [in_rust.search((3, 1, 1), tmp_path / search, mistake.example, search, mistake)
            for search in SEARCHES]
    (runs, preemptions, _), (fewer, found, _) = map(said_by, done)
    assert (done[1].returncode, found) == (done[0].returncode, preemptions)
    assert fewer < runs or done[0].returncode == 1
    if done[0].returncode == 0:
        both = [refused(locktrace, tmp_path / search) for search in SEARCHES]
        assert both[0] == both[1]
        assert bool(both[0]) == (mistake.explored is not None)
