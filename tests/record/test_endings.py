"""Runs that end slowly, by a crash, without room, on a full disk, or inside a call.

The lock of endings.c is right. A test gives it a BODY, which thread 1 runs in its fourth round.
"""
import re
import signal

import pytest

from recorders import HERE, KEPT, SOURCES, refusal
from tree import answer, ran

pytestmark = pytest.mark.slow

# The BODY of thread 1, and the signal or the status with which the program ends.
ENDS = {"abort()": -signal.SIGABRT, "raise(SIGKILL)": -signal.SIGKILL, "exit(0)": 0, "exit(7)": 7,
        "_Exit(0)": 0, "raise(SIGSEGV)": -signal.SIGSEGV, "assert(0)": -signal.SIGABRT}


@pytest.mark.parametrize("mode", ["VALUES", "SEED", "EXPLORE"])
@pytest.mark.parametrize("body", ENDS)
def test_crash(ended, judge, mode, body):
    """The logs have every note before the crash. If one thread runs at a time, the message names
    the thread that ran."""
    program, logs = ended(mode, body)
    done = ran(program, 2, 9, 1, logs)
    said = re.sub(r"^it: .* Assertion `0' failed\.\n", "", done.stderr)
    ran_last = "" if mode == "VALUES" else (
        r"; thread 1 ran \('(add next_ticket|read now_serving) found \d+' at ticket\.h:\d+\)")
    assert re.fullmatch(f"{KEPT}{logs}{ran_last}\n", said), said
    assert done.returncode == ENDS[body]
    texts = {path.name: path.read_text() for path in logs.iterdir()}
    assert sorted(texts) == ["run.trace"][mode == "VALUES":] + ["thread-0.log", "thread-1.log"]
    assert texts["thread-1.log"].count("acquire") == 4
    assert texts["thread-1.log"].endswith("# thread 1 was stopped\n")
    if mode == "VALUES":
        assert judge.order(logs)[1] == 0
    else:
        assert judge.accepts([logs / "run.trace"])
        assert texts["run.trace"].endswith("# the program ended before its run was saved\n")


@pytest.mark.parametrize("pause, rounds, more", [("{0, 200000000}", 40000, [1]), ("{2, 0}", 9, [])])
def test_slow_run(ended, pause, rounds, more):
    """A run may take longer than the time limit, which holds for each move, and by itself is a
    minute."""
    program, logs = ended("SEED", f"struct timespec time = {pause}; nanosleep(&time, NULL)",
                          "-D_GNU_SOURCE")
    assert answer(program, 3, rounds, 1, logs, *more)[1:] == ("", 0)


def test_slow_run_that_makes_moves(ended):
    """The limit is of the time without a move, and begins anew with each move."""
    program, logs = ended("SEED", "for (int i = 0; i < 8; i++) { struct timespec time = {0, "
                          "600000000}; nanosleep(&time, NULL); release(); acquire(); }",
                          "-D_GNU_SOURCE")
    assert answer(program, 2, 5, 1, logs, 3)[1:] == ("", 0)


def test_all_threads_end_without_a_record(ended):
    """In the mode OFF too the program waits for its last thread."""
    program, logs = ended("OFF", "struct timespec ms = {0, 300000000}; nanosleep(&ms, NULL); "
                          'printf("done\\n")', "-D_GNU_SOURCE", "-include", "stdio.h",
                          "-include", "time.h")
    assert answer(program, 2, 4, 1, logs) == ("done\n", "", 0)


def test_run_that_hangs(ended):
    """A run that hangs is refused, though the check accepts all of its moves."""
    program, logs = ended("SEED", "LR_WAIT(&next_ticket, (void)0, (void)0, (void)0)", "-DLR_CHECK",
                          "-DLR_PATIENCE=500")
    done = ran(program, 12, 9, 1, logs)
    said, trace = done.stderr.removeprefix("lockreplay_record: "), (logs / "run.trace").read_text()
    assert re.fullmatch("the run hangs: " + ", ".join(
        rf"thread {thread} [^,]*" for thread in range(12)) + "; nobody has signalled\n", said)
    assert len(said) > 512 and f"\n# {said}" in trace and done.returncode == 1
    for thread in range(12):
        end = f"\n# thread {thread} has not ended\n"
        assert (logs / f"thread-{thread}.log").read_text().endswith(end)
        assert trace.count(end) == 1


@pytest.mark.parametrize("mode, body, more, said", [
    # A thread that only has sections which wait polls, as one does that only reads.
    ("SEED", "for (;;) LR_LOCK((void)0), LR_SECTION(1, waits), LR_UNLOCK((void)0)",
     ["-DLR_PATIENCE=99"], r"the run hangs: .*thread 1 polls \('section 1 waits' at "),
    ("VALUES", "for (;;) sched_yield()", [],
     r"[12] of 2 threads have not ended, and made no move for 1 s: (thread 0 \(.*\), )?"
     r"thread 1 \('read now_serving found \d+' at ticket\.h:14\)\n$"),
    # Thread 1 ends inside `release`, and the message names the call.
    ("SEED", "LR_CALL(release); lr_end(&lr_self->run->logs[1]); pthread_exit(NULL)",
     ["-DLR_CHECK"], r"thread 1 has ended inside a call \('release' at endings\.c:\d+\)")])
def test_thread_that_does_not_end(ended, mode, body, more, said):
    program, logs = ended(mode, body, *more)
    done = ran(program, 2, 9, 1, logs, *([1] if mode == "VALUES" else []))
    assert re.match(f"lockreplay_record: {said}", done.stderr), done.stderr
    assert done.returncode == 1
    if mode == "VALUES":
        assert (logs / "thread-1.log").read_text().endswith("# thread 1 has not ended\n")


def test_thread_that_goes_on(built, tmp_path):
    """A thread polls once more than the published lock, which the schedule does not have."""
    text, returns = (SOURCES / "ticket.c").read_text(), "if (!must_wait(served, ticket)) return;"
    assert text.count(returns) == 1
    (tmp_path / "ticket.c").write_text(
        text.replace(returns, "if (must_wait(served, ticket) > 1) return;"))
    program = built(tmp_path / "ticket.c", "FOLLOW", "-DLR_CHECK", "-I", SOURCES)
    (tmp_path / "it.schedule").write_text(
        "lock ticket threads 1 bits 4\n0 acquire\n0 add\n0 read\n")
    done = ran(program, ".", ".", cwd=tmp_path)
    assert re.sub(r"ticket\.c:\d+", "ticket.c:LINE", done.stderr) == (
        "lockreplay_record: ./it.schedule: thread 0 goes on with a call that is over "
        "('read now_serving found 0' at ticket.c:LINE)\n")
    assert done.returncode == 1


@pytest.mark.parametrize("mode", ["VALUES", "SEED"])
def test_full_log(ended, judge, mode):
    """A full log keeps its first moves and counts the dropped ones, and the status is 3."""
    body = "for (int i = 0; i < 2000; i++) { release(); acquire(); }"
    program, logs = ended(mode, body)
    done = ran(program, 2, 5, 1, logs)
    assert re.match(r"lockreplay_record: the log of thread 1 (was|is) full: it has room for 640 "
                    "moves", done.stderr)
    assert done.returncode == 3
    if mode == "SEED":
        assert judge.accepts([logs / "run.trace"])
    else:
        assert re.search(r"\ndropped [1-9]\d+\n$", (logs / "thread-1.log").read_text())


def test_full_log_of_a_thread_that_goes_on(ended):
    """Nobody knows what the thread would have noted, so its log does not claim that it hangs. The
    message names the threads that have not ended, and no other, with what each noted last."""
    program, logs = ended("VALUES", "release(); while (lr_missing(lr_self->run) > 1) {} acquire(); "
                          "do release(), acquire(); while (!lr_self->dropped); "
                          "LR_CALL(downgrade); for (;;) {}")
    done = ran(program, 2, 5, 1, logs, 5)
    said = done.stderr.splitlines()
    assert re.fullmatch(r"lockreplay_record: 1 of 2 threads have not ended, and made no move for 5 "
                        r"s: thread 1 \('downgrade' at endings\.c:\d+\)", said[0]), said
    assert done.returncode == 3
    assert (logs / "thread-0.log").read_text().endswith("\ndropped 0\n")
    assert (logs / "thread-1.log").read_text().endswith("\n# thread 1 was stopped\n")


NO_MEMORY = "no memory for 5120000 moves of each of 2 threads: Cannot allocate memory"


@pytest.mark.parametrize("mode, limit, words, said", [
    ("SEED", "trap '' XFSZ; ulimit -f 4", "3 400 1", "{}/thread-0.log: File too large"),
    # The whole file is in a buffer until it is closed.
    ("SEED", "trap '' XFSZ; ulimit -f 0", "2 2 1", "{}/thread-0.log: File too large"),
    # Free threads would have had their notes in the folder.
    *((mode, "ulimit -v 100000", "2 40000 1", NO_MEMORY) for mode in ("VALUES", "SEED"))])
def test_no_room(ended, mode, limit, words, said):
    """The program removes a file that it cannot write to the end, and leaves nothing else."""
    program, logs = ended(mode, "(void)0")
    assert answer("sh", "-c", f"{limit}; exec {program} {words} {logs}") == refusal(
        said.format(logs))
    assert list(logs.iterdir()) == []


def test_log_that_cannot_be_made(ended):
    """The message names the file, and why the system refuses it."""
    program, logs = ended("SEED", "(void)0")
    (logs / "thread-1.log.part").mkdir(parents=True)
    assert answer(program, 3, 9, 1, logs) == refusal(f"{logs}/thread-1.log: Is a directory")


@pytest.mark.parametrize("mode", ["VALUES", "SEED", "EXPLORE"])
@pytest.mark.parametrize("folder, said", [
    ("/dev/null", "/dev/null: Not a directory"),
    ("/dev/null/logs", "/dev/null/logs: Not a directory"),
    ("/no/such/folder", "/no/such/folder: No such file or directory")])
def test_wrong_folder(ended, mode, folder, said):
    """The program reports a folder that it cannot use before the first run begins."""
    assert answer(ended(mode, "(void)0")[0], 2, 1, 1, folder) == refusal(said)


def test_thread_that_goes_on_after_its_run_was_given_up(ended, refusing):
    """It makes at most the move that ends its turn, and the check has room for its moves. The
    thread goes on when its run was given up, and the check has asked for this room."""
    late = refusing(
        "calloc(count, size) late(calloc(count, size))", "#include <unistd.h>",
        "static volatile int is_given_up;",
        "static void *late(void *room) { is_given_up = 1; usleep(300000); return room; }")
    program, logs = ended("SEED", "while (!is_given_up) { usleep(1000); } "
                          "for (int i = 0; i < 50; i++) { release(); acquire(); }", "-DLR_CHECK",
                          "-D_GNU_SOURCE", "-fsanitize=address", *late)
    done = ran(program, 2, 9, 1, logs, 1)
    assert re.fullmatch(r"lockreplay_record: thread 1 \('read now_serving found \d+' at ticket\.h:"
                        r"\d+\) has its turn and does not give it back: .*\n", done.stderr)
    assert done.returncode == 1
    assert (logs / "thread-1.log").read_text().count("\nacquire\n") == 4


@pytest.mark.parametrize("mode, words", [
    *((mode, (2, 1, 1, "logs")) for mode in ("OFF", "VALUES", "SEED", "EXPLORE")),
    ("EXPLORE", (2, 1, "again", "way")), ("FOLLOW", (".", "logs"))], ids=str)
def test_no_thread(built, refusing, tmp_path, mode, words):
    """Neither a lock nor a schedule is wrong if the system refuses the second thread."""
    refuses = refusing("pthread_create(...) (created++ == 1 ? 11 : pthread_create(__VA_ARGS__))",
                       "#include <pthread.h>", "static int created;")
    (tmp_path / "way").write_text("# way 1\n")
    (tmp_path / "it.schedule").write_text("lock mcs threads 2\n0 acquire\n")
    (tmp_path / "logs").mkdir()
    done = ran(built(SOURCES / "mcs.c", mode, *refuses), *words, cwd=tmp_path)
    assert "no memory for thread 1\n" in done.stdout + done.stderr
    assert "way: " not in done.stderr and done.returncode == 3


def only(kind):
    """A request for more room, which is refused for values of this type."""
    return f"realloc(old, size) _Generic(old, {kind} *: NULL, default: realloc(old, size))"


NOTHING = "0 schedules of 0 moves, 0 not followed\n"
# The source, its mode, the request that is refused, the words, and what is said on both outputs.
WITHOUT_MEMORY = [
    *(("ticket", "SEED -DLR_CHECK -Wno-unused", f"{call} NULL", "2 3 1 logs", "",
       "no memory for the check") for call in ("calloc(count, size)", "realloc(old, size)")),
    # The names of a folder's schedules have no room, or the lines of one: none is followed.
    ("ticket", "FOLLOW", "malloc(size) ((void)(size), NULL)", "tour logs", NOTHING,
     "tour: Cannot allocate memory"),
    ("ticket", "FOLLOW", only("lr_line"), "tour logs", NOTHING,
     "tour/0.schedule: Cannot allocate memory\nlockreplay_record: tour: Invalid argument"),
    # A way, a trail, and clocks.
    *(("unnoted", "EXPLORE -DSET(n)=(void)n", request, "2 1 1 logs",
       "1 run with up to 0 preemptions, all of them accepted, and there are more\n",
       "no memory for the other runs") for request in (
           "malloc(size) (NULL)", "calloc(count, size) ((count) == 1 ? NULL : calloc(count, size))",
           only("unsigned"))),
    ("mcs", "EXPLORE", only("struct lr_way"), "2 1 again way", "", "way: Cannot allocate memory"),
]


@pytest.mark.parametrize("source, mode, refused, words, output, said", WITHOUT_MEMORY)
def test_no_memory(built, refusing, tmp_path, source, mode, refused, words, output, said):
    """A run that cannot be kept or checked is neither right nor wrong."""
    (tmp_path / "tour").mkdir()
    for number in range(3):
        (tmp_path / "tour" / f"{number}.schedule").write_text(
            "lock ticket threads 1 bits 4\n0 acquire\n")
    (tmp_path / "way").write_text("# way 1\n")
    program = built((HERE if source == "unnoted" else SOURCES) / f"{source}.c", *mode.split(),
                    *refusing(refused, "struct lr_way;"))
    assert answer(program, *words.split(), cwd=tmp_path) == refusal(said, output)


def test_wrong_schedule_among_others(ended, tmp_path):
    """A right schedule after a wrong one does not hide it."""
    program, logs = ended("FOLLOW", "(void)0")
    logs.mkdir()
    right = "lock ticket threads 1 bits 8\n"
    for name, text in zip("abc", (right, "0 acquire\n", right)):
        (tmp_path / f"{name}.schedule").write_text(text)
    done = ran(program, tmp_path, logs)
    assert "/b.schedule:1: this is no line of a schedule of 0 threads\n" in done.stderr
    assert done.returncode == 3
