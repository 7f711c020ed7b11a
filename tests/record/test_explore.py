"""Explored runs: all runs of a few threads with few preemptions.

For a right lock in Rust, `explore-all` has to make the runs that explored_runs.py finds, each as
often; test_reduced.py compares them with the fewer runs of `explore`. For a lock with a mistake,
some run has to be refused or to hang with the expected number of preemptions, and none with fewer.
Examples can also check their own runs, and then refuse the same runs.
"""
import re
from collections import Counter

import pytest

from explored_runs import runs_of
from mistakes import IN_C, IN_RUST
from recorders import HERE, NOTHING, RECORDERS, SOURCES, copied, refusal, words_of
from tree import answer, ran

pytestmark = pytest.mark.slow

IN_THREES = (3, 1)  # threads and rounds of a lock with a mistake
MOST = 1  # preemptions, for a mistake that no explored run shows
LEFT_OUT = "repeated polls left out, all of them accepted"
RUST = [pytest.param("rust", example, id=example) for example in RECORDERS["rust"].examples]
MISTAKES = [pytest.param("rust", mistake, id=str(mistake)) for mistake in IN_RUST]


@pytest.mark.parametrize("counts", [(2, 1, 2), (2, 2, 2), (3, 1, 1)], ids=str)
@pytest.mark.parametrize("recorder, example", RUST, indirect=["recorder"])
def test_right_lock(recorder, judge, tmp_path, example, counts):
    done = recorder.search(counts, tmp_path, example, "explore-all")
    due = runs_of(example.replace("_", "-"), *counts)
    preemptions = "1 preemption" if counts[2] == 1 else f"{counts[2]} preemptions"
    left_out = "repeated polls left out, " if example in ("mcs", "ticket") else ""
    said = f"{sum(due.values())} runs with up to {preemptions}, {left_out}all of them\n"
    assert (done.stdout, done.stderr, done.returncode) == (said, "", 0)
    traces = list(tmp_path.glob("*.trace"))
    assert Counter(tuple(words_of(trace.read_text())) for trace in traces) == due
    assert judge.accepts(traces)


@pytest.mark.parametrize("recorder, mistake", MISTAKES, indirect=["recorder"])
def test_mistake(recorder, locktrace, tmp_path, mistake):
    tried = range(MOST + 1 if mistake.explored is None else mistake.explored + 1)
    shown = []
    for preemptions in tried:
        folder = tmp_path / str(preemptions)
        done = recorder.search([*IN_THREES, preemptions], folder, mistake.example, "explore",
                               mistake)
        refused = ran(locktrace, "check", *folder.glob("*.trace")).returncode != 0
        shown.append(done.returncode == 1 or refused)
    assert shown == [preemptions == mistake.explored for preemptions in tried]


@pytest.mark.parametrize("recorder, example", RUST, indirect=["recorder"])
def test_right_lock_that_checks_itself(recorder, tmp_path, example):
    """The example accepts all runs, and saves none."""
    done = ran(recorder.checked(example), "explore", 2, 1, 2, tmp_path)
    assert (done.stderr, done.returncode, list(tmp_path.glob("*.trace"))) == ("", 0, [])
    polls = example in ("mcs", "ticket")
    assert re.fullmatch(r"\d+ runs with up to 2 preemptions, "
                        rf"{LEFT_OUT if polls else 'all of them accepted'}\n", done.stdout)


@pytest.mark.parametrize("recorder, mistake", [of for of in MISTAKES
                                               if of.values[1].explored is not None],
                         indirect=["recorder"])
def test_mistake_that_checks_itself(recorder, judge, tmp_path, mistake):
    """The example saves the run that hangs or is refused, and names the line as `check` does."""
    done = ran(recorder.checked(mistake.example, mistake), "explore", *IN_THREES, mistake.explored,
               tmp_path)
    [trace] = tmp_path.glob("*.trace")
    assert done.returncode == 1
    said = re.match(r"refused at line (\d+) of the trace, ", done.stderr)
    if said:
        assert int(said[1]) == judge.refused_line(trace)
    else:
        assert " hang\n" in done.stderr


# An example in C, its mistake, (threads, rounds, preemptions), and the message of a search. Threads
# of a read-write lock wait for signals, and without a preemption no thread has to wait.
EXPLORED = [
    ("mcs", None, (2, 1, 0), "2 runs with up to 0 preemptions, all of them accepted"),
    ("mcs", None, (2, 1, 2), f"22 runs with up to 2 preemptions, {LEFT_OUT}"),
    ("ticket", None, (2, 1, 2), f"10 runs with up to 2 preemptions, {LEFT_OUT}"),
    ("ticket", None, (2, 1, 1), f" runs with up to 1 preemption, {LEFT_OUT}"),
    ("rw_simple", None, (2, 1, 2), "86 runs with up to 2 preemptions, all of them accepted"),
    ("rw_fifo", None, (2, 1, 2), "86 runs with up to 2 preemptions, all of them accepted"),
    # Each thread makes 600 moves, and at each move of the first one there is a choice.
    ("ticket", None, (2, 100, 0), "2 runs with up to 0 preemptions, all of them accepted"),
    ("mcs", "link-before-locked", (2, 1, 2), ", the last one is refused"),
    ("ticket", "serves-the-next-ticket", (2, 1, 2), ", the last one is refused"),
]


@pytest.mark.parametrize("example, name, counts, said", EXPLORED)
def test_search_in_c(in_c, tmp_path, example, name, counts, said):
    """A search in C saves the refused run, and no other."""
    mistake = next((it for it in IN_C if (it.example, it.name) == (example, name)), None)
    done = in_c.search(counts, tmp_path, example, "EXPLORE", mistake)
    assert said in done.stdout
    assert done.returncode == (1 if mistake else 0)
    assert (tmp_path / "run.trace").exists() == bool(mistake)
    if mistake:
        number, text = int(done.stdout.split(" run")[0]), (tmp_path / "run.trace").read_text()
        assert text.startswith(f"# run {number:016x}\n")
        line, place = re.search(r"at line (\d+) of the trace, (\S+:\d+): ", done.stdout).groups()
        assert f"\n# line {line} is {place}\n" in text


@pytest.mark.parametrize("most, said", [
    (1, "1 run with up to 0 preemptions, all of them accepted, and there are more\n"),
    (2, "2 runs with up to 0 preemptions, all of them accepted, and there are more\n"),
    (9, "9 runs with up to 2 preemptions, all of them accepted, and there are more\n"),
    (10, f"10 runs with up to 2 preemptions, {LEFT_OUT}\n")])
def test_most_runs(in_c, tmp_path, most, said):
    """A search makes at most as many runs as it is told."""
    assert answer(*in_c.command("ticket", "EXPLORE"), 2, 1, 2, tmp_path, most) == (said, "", 0)


@pytest.mark.parametrize("compiler", ["gcc", "clang"])
@pytest.mark.parametrize("write", [
    "atomic_store(&flag, n)", "atomic_exchange(&flag, n)", "atomic_fetch_add(&flag, 2 * n - 1)",
    "__atomic_store_n(&plain, n, 5)", "__atomic_exchange_n(&plain, n, 5)",
    "__sync_fetch_and_add(&plain, 2 * n - 1)", "__sync_lock_test_and_set(&plain, n)",
    "__sync_fetch_and_add(&plain, -1 - __sync_fetch_and_add(&plain, 1))",
    "__atomic_store_n((char *)&plain + 1, n, 5)"])
def test_write_without_a_note(built, tmp_path, compiler, write):
    """The one preemption between two writes is tried, though neither is noted, also if the first
    gives the second its value, or if they are on a part of the word that is loaded."""
    program = built(HERE / "unnoted.c", "EXPLORE", f"-DSET(n)=(void){write}", compiler=compiler)
    done = ran(program, 2, 1, 1, tmp_path / "logs")
    assert "'1 release': NotHolder" in done.stdout and done.returncode == 1, done.stdout


# Operators in place of a lock's atomic operations.
OPERATORS = {"atomic_fetch_add(&lock->next_ticket, 1)": "lock->next_ticket++",
             "atomic_load(&lock->now_serving)": "lock->now_serving",
             "atomic_store(&lock->now_serving, next)": "lock->now_serving = next"}


@pytest.mark.parametrize("old, line", [(old, line) for old, line in zip(OPERATORS, (23, 26, 39))])
def test_operation_that_is_not_seen(built, tmp_path, old, line):
    """After accepted runs a message names the line of a note without an atomic operation. A refused
    run says more."""
    text = (SOURCES / "ticket.c").read_text()
    assert text.count(old) >= 1
    source = tmp_path / "ticket.c"
    source.write_text(text.replace(old, OPERATORS[old]))
    done = ran(built(source, "EXPLORE", "-I", SOURCES), 2, 1, 2, tmp_path / "logs")
    assert done.stdout.endswith(", all of them accepted\n") and done.returncode == 0
    assert done.stderr.startswith(f"lockreplay_record: ticket.c:{line}: no atomic operation was ")
    source.write_text(source.read_text().replace("(served + 1)", "(served + 2)"))
    done = ran(built(source, "EXPLORE", "-I", SOURCES), 2, 1, 2, tmp_path / "logs")
    assert (done.stderr, done.returncode) == ("", 1)


@pytest.fixture
def planted(built, tmp_path):
    """Builds an example in C, with or without a mistake, in the mode EXPLORE."""
    return lambda example, name, *flags: built(
        copied(tmp_path, example, name), "EXPLORE", *flags)


@pytest.mark.parametrize("flags, is_refused", [([], True), (["-DLR_SPURIOUS=0"], False)], ids=str)
def test_wake_for_nothing(planted, tmp_path, flags, is_refused):
    """A writer that waits once for its only reader, and then does not check the condition again,
    is wrong only in a run with a spurious wakeup."""
    program = planted("rw_fifo", "writer-waits-once-for-readers", *flags)
    done = ran(program, 2, 2, 2, tmp_path)
    assert done.returncode == int(is_refused)
    assert ("the last one is refused" if is_refused else ", all of them accepted\n") in done.stdout
    if is_refused:
        again = ran(program, 2, 2, "again", tmp_path / "run.trace")
        assert (again.stdout, again.returncode) == (done.stdout.splitlines(True)[1], 1)
        assert (done.stderr, again.stderr) == ("", "")


@pytest.mark.parametrize("compiler", ["gcc", "clang"])
@pytest.mark.parametrize("kept", ["choice", "step"])
def test_no_memory(built, refusing, tmp_path, compiler, kept):
    """A search that cannot keep what it did does not say that all runs are accepted."""
    refuses = refusing(f"realloc(old, size) ((size) == 256 * sizeof(lr_{kept}) ? NULL : "
                       "realloc(old, size))")
    program = built(HERE / "unnoted.c", "EXPLORE", *refuses, "-DSET(n)=(void)n", compiler=compiler)
    done = ran(program, 2, 1, 1, tmp_path / "logs")
    first, refusal, *_ = done.stdout.splitlines()
    assert first == "1 run with up to 0 preemptions, the last one is refused"
    assert (refusal, done.returncode) == (f"no memory for the run's {kept}s", 3)


def test_room_of_a_search(planted, tmp_path):
    """A run whose moves have no room is refused, and its trace says that it was cut."""
    done = ran(planted("ticket", None, "-DLR_MOVES=5"), 2, 1, 2, tmp_path / "logs")
    first, refusal, *_ = done.stdout.splitlines()
    assert first == "1 run with up to 0 preemptions, the last one is refused"
    assert refusal == "the log of thread 0 is full: it has room for 5 moves"
    assert "\n# cut where a log was full\n" in (tmp_path / "logs" / "run.trace").read_text()
    assert done.returncode == 3


@pytest.mark.parametrize("threads, name, said", [
    (2, "no.trace", "no.trace: No such file or directory"),
    (16, "a.trace",
     "16 threads and counters of 4 bits: there have to be fewer threads than values")])
def test_again_without_a_trace(in_c, tmp_path, threads, name, said):
    """The one message is about the trace, or if that is there about the number of threads."""
    (tmp_path / "a.trace").write_text("# way 1\n")
    assert answer(*in_c.command("ticket", "EXPLORE"), threads, 1, "again", name,
                  cwd=tmp_path) == refusal(said)


@pytest.mark.parametrize("example, name, rounds, choices", [
    ("mcs", "swap-of-two-operations", 1, 1), ("ticket", "add-of-two-operations", 1, 1),
    ("ticket", "less-than", 16, 49)])
def test_again(planted, tmp_path, example, name, rounds, choices):
    """A saved run is made again, though a thread loses its turn where it notes nothing, or after
    many choices, which take several lines of the trace."""
    program = planted(example, name)
    first = ran(program, 2, rounds, 2, tmp_path / "logs")
    _, refusal, how = first.stdout.splitlines()
    assert how == f"again: {program} 2 {rounds} again {tmp_path}/logs/run.trace"
    text = (tmp_path / "logs" / "run.trace").read_text()
    assert len(re.findall(r"^# way", text, re.MULTILINE)) > choices // 24
    again = ran(*how.split()[1:])
    assert (again.stdout, again.returncode, first.returncode) == (f"{refusal}\n", 1, 1)


@pytest.mark.parametrize("start", [0, 15])
@pytest.mark.parametrize("name, line, said", [
    (None, None, None),
    ("less-than", 12, "'0 release': Busy"),  # 15 is not less than 0: thread 1 does not wait
    ("ticket-masked", 7, "'0 read now_serving found 0': NoCall"),  # 15 is not 7: it looks again
    ("serves-wider", 13, "'1 read now_serving found 1': NoCall"),  # 16 is not 0
])
def test_counters_that_begin_before_their_wrap(planted, tmp_path, name, line, said, start):
    """Counters of 4 bits that begin at 15 wrap in the first round. The trace counts from 0, and the
    right lock has as many runs as with counters that begin at 0."""
    done = ran(planted("ticket", name, f"-DLR_START={start}"), 2, 1, 2, tmp_path)
    if name is None or start == 0:
        assert done.stdout == f"10 runs with up to 2 preemptions, {LEFT_OUT}\n"
    else:
        at = re.search(r"refused at line (\d+) of the trace, ticket.c:\d+: (.*?): ", done.stdout)
        assert at and int(at[1]) == line
        assert said in done.stdout
        assert "# counters began at 15, here at 0\n" in (tmp_path / "run.trace").read_text()


WRONG_COUNT = (r"\nrefused at line 12 of the trace, rw_fifo.c:\d+: '{}': OtherOutcome(.|\n)*"
               "the run hangs")
LOST_SIGNAL = r"\nthe run hangs: .* waits for a signal .*; {}\n"


@pytest.mark.parametrize("name, preemptions, said", [
    # Two readers have left, and the writer finds counts that differ, so it does not enter.
    *((name, 0, WRONG_COUNT.format("2 section 5 moved")) for name in (
        "leaves-twice", "reader-not-counted", "read-unlock-does-nothing")),
    # A reader and a writer have left, and the next reader finds the flag set.
    ("flag-not-cleared", 0, WRONG_COUNT.format("1 section 5 waits")),
    ("signal-for-broadcast", 2, LOST_SIGNAL.format(
        r"the last signal, at monitor\.h:22, woke thread \d")),
    ("nobody-signals", 2, LOST_SIGNAL.format("nobody has signalled")),
])
def test_mistake_in_c(planted, tmp_path, name, preemptions, said):
    """A trace has no counts and no flag. The outcome of the next section shows a wrong one. A run
    that hangs names the last signal, and whom it woke."""
    assert re.search(said, ran(planted("rw_fifo", name), 3, 1, preemptions, tmp_path).stdout)


# Whoever comes last signals, and whoever is woken does too. The first to be woken is printed.
WOKEN = ("static int come; LR_LOCK((void)0); if (++come < 3) { "
         "LR_WAIT(&come, (void)0, (void)0, (void)0); "
         'if (come++ == 3) { printf("woken: %u\\n", thread); } } '
         "come == 5 ? (void)(come = 0) : LR_SIGNAL(&come, (void)0); LR_UNLOCK((void)0)")


def test_who_is_woken(noting, tmp_path):
    """Three threads come in six orders. Of each two that wait either is woken, which costs no
    preemption."""
    done = ran(noting("rw-fifo", WOKEN), 3, 1, 0, tmp_path / "logs")
    *woken, last = done.stdout.splitlines()
    assert last == "12 runs with up to 0 preemptions, and nothing was noted in them"
    assert (done.stderr, done.returncode) == (NOTHING, 1)
    assert sorted(woken) == sorted(4 * [f"woken: {thread}" for thread in range(3)])


LOOK = "(void)__atomic_load_n(&words[thread], 5)"
# A lock, what its threads do, (threads, rounds, preemptions), and what is said.
SEARCHED = [
    # In the first run each thread makes three stores, and then thread 0 none and the others six. Of
    # two threads a choice that is due does not come up, of three it is not possible.
    *(("ticket", "static _Atomic int word; int stores = runs == 1 ? 3 : thread ? 6 : 0; "
       "while (stores--) atomic_store(&word, (int)round)", (threads, 1, 1),
       "\nthe driver does not do the same after the same turns\n") for threads in (2, 3)),
    # A run knows nothing of the one before it. In the first run thread 0 comes first, when both are
    # inside. It leaves a note and a signal, or each leaves a record. In the second run thread 1
    # comes first.
    ("rw-fifo", "thread ? (void)0 : lr_self->run->inside == 3 ? (LR_CALL(rlock), "
     "LR_SECTION(1, entered), LR_SIGNAL(NULL, (void)0)) : LR_WAIT(NULL, (void)0, (void)0, (void)0)",
     (2, 1, 0), "2 runs with up to 0 preemptions, the last one is refused\nthe run hangs: thread 0 "
     "waits for a signal; nobody has signalled\n"),
    ("rw-fifo", "static int of[2]; lr_self->run->inside == 3 && "
     "lr_thread_at(lr_self, (uintptr_t)&of[!thread]) != LR_UNKNOWN ? _Exit(9) : "
     "lr_set_record(&of[thread], sizeof of[0])", (2, 1, 0),
     "2 runs with up to 0 preemptions, and nothing was noted in them\n"),
    # Thread 0 has another record after its step. The one preemption is tried after which thread 1
    # finds that the first is still its own.
    ("mcs", f"static int words[2], of[2]; if (thread) {{ {LOOK}; "
     "if (lr_thread_at(lr_self, (uintptr_t)&of[0]) == 0) LR_CALL(release); } "
     f"for (int i = 0; i < 2 && !thread; i++) {{ {LOOK}; lr_set_record(&of[i], sizeof of[i]); }}",
     (2, 1, 1), "'1 release': NotHolder"),
]


@pytest.mark.parametrize("lock, notes, counts, said", SEARCHED)
def test_search_of_notes(noting, tmp_path, lock, notes, counts, said):
    done = ran(noting(lock, notes, "-DRESET=(void)0"), *counts, tmp_path / "logs")
    assert said in done.stdout
    assert done.returncode == 1


@pytest.mark.parametrize("lock, name, threads, warned", [
    ("rw_fifo", None, 2, True), ("rw_simple", None, 2, True), ("rw_fifo", None, 3, False),
    ("ticket", None, 2, False), ("rw_fifo", "flag-not-cleared", 2, False),
])
def test_too_few_threads(planted, tmp_path, lock, name, threads, warned):
    """Two threads show few mistakes of a read-write lock."""
    done = ran(planted(lock, name), threads, 2, 0, tmp_path)
    said = "lockreplay_record: most mistakes of a read-write lock need three threads\n"
    assert done.stderr == said * warned
