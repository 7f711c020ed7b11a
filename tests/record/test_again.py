"""Saved runs that are made again by the choices in their traces, also after a crash; and what a
search leaves: no memory, and no notes of another run."""
import signal

import pytest

from recorders import HERE, NOTHING, compile_c, refusal
from tree import TOP, answer, ran

pytestmark = pytest.mark.slow

NO_WAY = "there is no '# way' by which a run is made again"
# Thread 1 crashes if it comes between two stores of thread 0. There is a choice before each.
BETWEEN = ("static _Atomic int word; if (!thread) atomic_store(&word, 1), atomic_store(&word, 0); "
           "else if (atomic_load(&word)) abort()")


@pytest.mark.parametrize("notes, threads, way", [
    # Thread 0 begins, goes on at its first store, and not at the second; thread 1 then goes on.
    (BETWEEN, 2, "# way 0 0 1 1\n"), ("abort()", 1, "# way\n")], ids=["preempted", "no choice"])
def test_crash_again(noting, tmp_path, notes, threads, way):
    """The trace of a run that crashed has its choices, by which it crashes again."""
    program = noting("ticket", notes)
    assert ran(program, threads, 1, 1, tmp_path / "logs").returncode == -signal.SIGABRT
    text = (tmp_path / "logs" / "run.trace").read_text()
    assert text.endswith(f"\n{way}# the program ended before its run was saved\n"), text
    assert answer(program, threads, 1, "again", tmp_path / "logs" / "run.trace") == (
        "", "", -signal.SIGABRT)


@pytest.mark.parametrize("stores, is_kept", [(6, True), (7, True), (8, False)])
def test_room_for_the_choices_of_a_crash(noting, tmp_path, stores, is_kept):
    """There is room for a choice with each of four moves of two threads. One choice comes before
    the first store, and one at each. Half a way would make another run, so there is none."""
    program = noting("ticket", f"static _Atomic int word; int left = {stores}; "
                     "do atomic_store(&word, left); while (--left); abort()", "-DLR_MOVES=2")
    assert ran(program, 2, 1, 0, tmp_path / "logs").returncode == -signal.SIGABRT
    trace = tmp_path / "logs" / "run.trace"
    assert (f"\n# way{' 0' * (stores + 1)}\n" in trace.read_text()) == is_kept
    assert ("\n# way" in trace.read_text()) == is_kept
    assert answer(program, 2, 1, "again", trace) == (
        ("", "", -signal.SIGABRT) if is_kept else refusal(f"{trace}: {NO_WAY}"))


@pytest.mark.parametrize("text", [
    "", "lock ticket threads 2\n", "# ways 0\n", "# way 0 64\n", "# way 0 -1\n", "# way 0 one\n",
    "# way 0 1x\n", "# way 0\n# way 18446744073709551616\n"])
def test_no_way(noting, tmp_path, text):
    """A file without choices, or with one of a thread that no run has, is not made again."""
    (tmp_path / "it.trace").write_text(text)
    assert answer(noting("ticket", "(void)0"), 2, 1, "again", "it.trace", cwd=tmp_path) == refusal(
        f"it.trace: {NO_WAY}")


def test_choice_of_a_thread_that_cannot_go_on(noting, tmp_path):
    """The run of a way of another driver is refused."""
    (tmp_path / "it.trace").write_text("# line 1 is the way 1\n# way 63\n# turns 9\n")
    assert answer(noting("ticket", "(void)0"), 2, 1, "again", "it.trace", cwd=tmp_path) == (
        "the driver does not do the same after the same turns\n", "", 1)


@pytest.mark.parametrize("mode, most", [("EXPLORE", 1000), ("SEED", 20000)])
@pytest.mark.parametrize("less, status", [(1, 0), (0, 1)])
def test_operations_without_notes(noting, tmp_path, mode, most, less, status):
    """So many turns without a note are a hang. One turn begins the run, and each store has one."""
    stores = (f"static _Atomic int word; int left = {most - less}; "
              "do atomic_store(&word, left); while (--left)")
    done = ran(noting("ticket", stores, mode=mode), 1, 1, 0, tmp_path / "logs")
    said = "the run hangs: thread 0 has noted nothing\n"
    assert (said in done.stdout + done.stderr) == (status == 1)
    # A search in which nothing is noted is no success either.
    assert (done.stderr == NOTHING, done.returncode) == (
        (not status, 1) if mode == "EXPLORE" else (False, status))


# A search that ends after two runs, one that ends with a refusal, and a run that is made again.
SEARCHES = f"""#include "{TOP}/built/lockreplay_record.h"
static void one_round(unsigned thread, unsigned round)
{{
    (void)round;
    {BETWEEN.replace("abort()", "LR_CALL(release)")};
}}
int main(int count, char **words)
{{
    const lr_driver driver = {{"ticket", 8, NULL, one_round, NULL}};
    lr_explored explored;
    if (count != 3 || lr_explore(&driver, 2, 1, 1, 2, words[1], &explored)) return 9;
    if (explored.is_refused || explored.is_complete) return 8;
    if (lr_explore(&driver, 2, 1, 1, 99, words[1], &explored) || !explored.is_refused) return 7;
    return lr_explore_again(&driver, 2, 1, words[2], &explored) || !explored.is_refused;
}}
"""


@pytest.mark.parametrize("flags", [[], ["-DLR_REDUCE=0"]], ids=str)
def test_memory_of_a_search(built, tmp_path, flags):
    """A search gives back all memory, also if it ends early."""
    (tmp_path / "it.c").write_text(SEARCHES)
    program = built(tmp_path / "it.c", "EXPLORE", *flags, "-fsanitize=address")
    assert answer(program, tmp_path / "logs", tmp_path / "logs" / "run.trace") == ("", "", 0)


@pytest.mark.parametrize("mode", ["VALUES", "SEED", "EXPLORE"])
def test_notes_of_an_earlier_run(noting, tmp_path, mode):
    """Notes that a killed run left would become logs in place of the later run's."""
    (tmp_path / "run.notes").write_text("of an earlier run\n")
    done = ran(noting("ticket", "(void)0", mode=mode), 1, 1, 1, tmp_path)
    assert (done.stderr, done.returncode) == ((NOTHING, 1) if mode == "EXPLORE" else ("", 0))
    assert not (tmp_path / "run.notes").exists()


def test_no_memory_for_the_check(refusing, tmp_path):
    """A run that cannot be checked is neither right nor wrong. Memory is refused to the check
    alone."""
    refuses = refusing('calloc(count, size) '
                       '(strcmp(#size, "sizeof(struct lt_step)") ? calloc(count, size) : NULL)',
                       "#include <string.h>")
    assert compile_c("gcc", HERE / "notes.c", tmp_path / "it", "-DLR_MODE=EXPLORE", *refuses,
                     '-DLOCK="ticket"', "-DNOTES=(void)0", TOP / "built" / "locktrace.c") == ""
    done = ran(tmp_path / "it", 1, 1, 1, tmp_path / "logs")
    assert done.stdout.splitlines()[1] == "no memory for the check", done.stdout
    assert (done.stderr, done.returncode) == ("", 3)
