"""The words of a command line, its files and folders, and the calls and turns of a run.

Tables have the expected messages. A program in C is built in each mode that a row names.
"""
import re

import pytest

from recorders import HEAD, HERE, IN, NOTHING, SOURCES, compile_c, once, refusal
from tree import PATIENCE, answer, ran

pytestmark = pytest.mark.slow


@pytest.mark.parametrize("compiler", ["gcc", "clang"])
@pytest.mark.parametrize("mode, files", [
    ("OFF", None), ("VALUES", ["thread-0.log", "thread-1.log"]),
    ("SEED", ["run.trace", "thread-0.log", "thread-1.log"])])
def test_functions_of_a_run(built, tmp_path, compiler, mode, files):
    """A program that starts its threads itself is the same in each mode. Without a record all is
    well at once."""
    logs = tmp_path / "logs"
    program = built(HERE / "functions.c", mode, compiler=compiler)
    for words in ([logs], []):
        assert answer(program, *words, cwd=tmp_path) == (
            "0 are missing\n3 and 3 rounds\nsaid '', saved 0\nrecovered 0\n", "", 0)
    assert (sorted(path.name for path in logs.iterdir()) if logs.exists() else None) == files


PRINTS = 'printf("%u %u\\n", thread, round)'


@pytest.mark.parametrize("mode", ["OFF", "VALUES", "SEED"])
def test_rounds_of_a_driver(noting, tmp_path, mode):
    """The lock is made new, and then each thread makes each of its rounds."""
    program = noting("ticket", PRINTS, '-DRESET=puts("reset")', mode=mode)
    done = ran(program, 3, 2, 1, tmp_path / "logs")
    first, *rounds = done.stdout.splitlines()
    assert (first, sorted(rounds)) == ("reset", ["0 0", "0 1", "1 0", "1 1", "2 0", "2 1"])
    assert (done.stderr, done.returncode) == ("", 0)


def test_rounds_of_a_search(noting, tmp_path):
    """Each run begins with a new lock. Without a preemption one thread comes after the other."""
    done = ran(noting("ticket", PRINTS, '-DRESET=puts("reset")'), 2, 2, 1, tmp_path / "logs")
    assert done.stdout == ("reset\n0 0\n0 1\n1 0\n1 1\nreset\n1 0\n1 1\n0 0\n0 1\n"
                           "2 runs with up to 0 preemptions, and nothing was noted in them\n")
    assert (done.stderr, done.returncode) == (NOTHING, 1)


@pytest.mark.parametrize("mode", ["OFF", "VALUES", "SEED", "EXPLORE"])
def test_records_outside_of_a_run(noting, tmp_path, mode):
    """A lock that is made new may name records. They are no thread's."""
    names = "static int of[2]; (void)of; lr_own_record(&of[0]); lr_own_record(&of[1])"
    program = noting("ticket", PRINTS, f'-DRESET={names}; puts("reset")', mode=mode)
    done = ran(program, 1, 1, 1, tmp_path / "logs")
    assert done.stdout.startswith("reset\n0 0\n")
    assert (done.stderr, done.returncode) == ((NOTHING, 1) if mode == "EXPLORE" else ("", 0))


# The words of a program, in these modes, and the usage that it prints. A run has 1 to 64 threads,
# and a round or more.
RUNS = "THREADS ROUNDS SEED FOLDER [SECONDS]"
SEARCH = "THREADS ROUNDS PREEMPTIONS FOLDER [RUNS]\n       IT THREADS ROUNDS again TRACE"
USAGES = [
    *(("EXPLORE", words, SEARCH) for words in (
        (0, 1, 1, "logs"), (65, 1, 1, "logs"), ("one", 1, 1, "logs"), (0, 1, "again", "run.trace"),
        (65, 1, "again", "run.trace"), (2, 1, 1), (2, 1, 1, "logs", 9, 9), ("2x", 1, 1, "logs"),
        (2, "x", 1, "logs"), (2, 0, 1, "logs"), (2, -1, 1, "logs"), (2, 2**32, 1, "logs"),
        (2, 1, "x", "logs"), (2, 1, "", "logs"), (2, 1, 2**32, "logs"), (2, 1, 1, "logs", 0),
        (2, 1, 1, "logs", "9 "), (2, 1, 1, "logs", 2**64), (2, 1, "again", "run.trace", 9))),
    *((mode, words, RUNS) for mode in ("OFF", "VALUES", "SEED") for words in (
        (0, 1, 1, "logs"), (65, 1, 1, "logs"), (-1, 1, 1, "logs"), (2, 1, "logs"),
        (2, 1, 1, "logs", 9, 9), (2, 0, 1, "logs"), (2, "x", 1, "logs"), (2, 1, "x", "logs"),
        (2, 1, -1, "logs"), (2, 1, 2**64, "logs"), (2, 1, 1, "logs", 0),
        (2, 1, 1, "logs", "1s"))),
    ("FOLLOW", (), "SCHEDULES FOLDER"), ("FOLLOW", ("a",), "SCHEDULES FOLDER"),
    ("FOLLOW", ("a", "b", "c"), "SCHEDULES FOLDER"),
    ("VALUES", ("recover",), RUNS), ("VALUES", ("recover", "a", "b"), RUNS),
    ("SEED", ("recover", "a"), RUNS), ("OFF", ("recover", "a"), RUNS), ("OFF", (), RUNS),
    ("EXPLORE", ("recover", "a"), SEARCH),
]


@pytest.mark.parametrize("mode", ["OFF", "VALUES", "SEED"])
@pytest.mark.parametrize("words", [(1, 1, 1), (64, 1, 1), (64, 1, 1, 60), (2, 1, 2**64 - 1)])
def test_words_of_a_program(in_c, tmp_path, mode, words):
    [program] = in_c.command("rw_fifo", mode)
    assert answer(program, *words[:3], tmp_path / "logs", *words[3:])[1:] == ("", 0)
    count = 0 if mode == "OFF" else words[0]
    assert len(list(tmp_path.glob("logs/*.log"))) == count


@pytest.mark.parametrize("mode, words, usage", USAGES)
def test_usage(in_c, tmp_path, mode, words, usage):
    """Wrong words are refused before a run or a search begins."""
    [program] = in_c.command("rw_fifo", mode)
    done = ran(program, *words, cwd=tmp_path)
    assert done.stderr.replace(str(program), "IT") == f"usage: IT {usage}\n"
    assert (done.stdout, done.returncode, list(tmp_path.iterdir())) == ("", 2, [])


HANGS = "the run hangs: thread 1 waits for a signal; nobody has signalled"
ENDED = "lr_log *log = lr_log_of(run, 0); lr_begin(log); lr_end(log);"
ALONE = 'run = lr_open("mcs", 1, 64, 9, 1, NULL);'
# The BODY of calls.c, which has a run of two threads, the modes, and the status and message due.
CALLS = [
    ("lr_log_of(run, 2);", "VALUES SEED", 2,
     "there is no thread 2: the run has the threads 0 to 1"),
    ("lr_log_of(run, (unsigned)-1);", "VALUES SEED", 2,
     "there is no thread 4294967295: the run has the threads 0 to 1"),
    ("twice(lr_log_of(run, 0));", "VALUES SEED", 2,
     "thread 0 begins twice: each thread has a log of its own"),
    ("LR_CALL(acquire);", "VALUES SEED", 2,
     "a step is noted before lr_begin, or after lr_end, at calls.c:LINE"),
    ("LR_SWITCH();", "SEED", 2, "a hook is called before lr_begin, or after lr_end"),
    ("lr_end(lr_log_of(run, 1));", "VALUES SEED", 2,
     "thread 1 ends, and has not begun or has ended before"),
    ("return (int)lr_await(run, 0);", "VALUES SEED", 2, "0 of 2 threads have called lr_begin"),
    ("alarm(9); start(keeps_its_turn, 2); return (int)lr_await(run, 1);", "SEED", 2,
     "thread 1 has its turn and does not give it back: it blocks, or it has ended without "
     "lr_end, or it polls without a note"),
    ("start(waits_for_ever, 2); return (int)lr_await(run, 20);", "SEED", 2,
     "the run hangs: thread 0 waits for a signal, thread 1 waits for a signal; nobody has "
     "signalled"),
    ("start(polls_for_ever, 2); return (int)lr_await(run, 20);", "SEED", 2,
     "the run hangs: thread 0 polls ('read now_serving found 1' at calls.c:LINE), thread 1 polls "
     "('read now_serving found 1' at calls.c:LINE)"),
    ("start(wakes_one, 2); return (int)lr_await(run, 20);", "SEED", 0, ""),
    ("start(waits_for_ever, 2); return (int)lr_await(run, 20);", "SEED -DLR_SPURIOUS=1", 0, ""),
    ("return lr_open(\"MCS\", 1, 64, 1, 1, NULL) ? 0 : 1;", "VALUES SEED", 1,
     "there is no lock 'MCS': ticket, mcs, rw-simple or rw-fifo"),
    ("run->mode++; lr_begin(lr_log_of(run, 0));", "VALUES SEED", 2,
     "LR_MODE is not the same in all files of the program"),
    ("start(polls_without_a_note, 2); return (int)lr_await(run, 20);", "SEED", 2,
     "the run hangs: thread 0 has noted nothing, thread 1 has noted nothing since ('acquire' at "
     "calls.c:LINE)"),
    # Only an even seed, or an option, wakes a thread that nobody signals.
    *((f"run = lr_open(\"mcs\", 2, 64, 9, {seed}, NULL); start(signals_nothing, 2); "
       "return (int)lr_await(run, 20);", f"SEED{option}", int(hangs), HANGS if hangs else "")
      for seed, option, hangs in (
        (1, "", True), (2, "", False), (1, " -DLR_SPURIOUS=9", False),
        (2, " -DLR_SPURIOUS=0", True))),
    ("run = lr_open(\"rw-fifo\", 2, 64, 9, 1, NULL); alarm(9); start(keeps_its_turn, 2); "
     "return (int)lr_await(run, 1);", "SEED", 2,
     "thread 1 has its turn and does not give it back: it blocks (a monitor's operations go into "
     "LR_LOCK and LR_WAIT), or it has ended without lr_end, or it polls without a note"),
    # A thread's first turn, the one after its first read, and those after 50 reads of the same
    # value and one more.
    ("run = lr_open(\"mcs\", 1, 64, 9, 1, NULL); start(polls_for_ever, 1); lr_wait_for(run, 20); "
     "return (int)run->turns;", "SEED -DLR_PATIENCE=50", 52, ""),
    (f"{ALONE} {ENDED} lr_end(log);", "VALUES SEED", 2,
     "thread 0 ends, and has not begun or has ended before"),
    (f"{ALONE} {ENDED} lr_begin(log);", "VALUES SEED", 2,
     "thread 0 begins twice: each thread has a log of its own"),
    (f"{ALONE} {ENDED} LR_CALL(acquire);", "VALUES SEED", 2,
     "a step is noted before lr_begin, or after lr_end, at calls.c:LINE"),
    (f"{ALONE} {ENDED} return (int)lr_await(run, 9);", "VALUES SEED", 0, ""),
    # Thread 0 comes alone, so it is not let in.
    ("start(comes, 1); return lr_await(run, 1) == 2 ? woken : 9;", "VALUES SEED", 0,
     "1 of 2 threads have called lr_begin"),
    ("return lr_open(NULL, 1, 64, 1, 1, NULL) ? 0 : 1;", "VALUES SEED", 1,
     "there is no lock '': ticket, mcs, rw-simple or rw-fifo"),
    *((f"alarm(9); start({work}, 2); return (int)lr_await(run, 1);", mode, 2,
       "2 of 2 threads have not ended, and made no move for 1 s: thread 0, thread 1")
      for work, mode in (("keeps_its_turn", "VALUES"), ("switches_for_ever", "SEED"))),
    ("run = lr_open(\"rw-fifo\", 3, 64, 9, 1, NULL); woken = 2; start(waits_or_wakes, 3); "
     "return (int)lr_await(run, 20);", "SEED", 1,
     "the run hangs: thread 2 waits for a signal; the last signal, at calls.c:LINE, woke thread 0, "
     "thread 1"),
    # Who polled in vain still has a turn if all did.
    ("start(opens_after_polls, 2); return (int)lr_await(run, 20);", "SEED -DLR_PCT=2", 0, ""),
    # A signal of the system gives nobody a turn.
    ("const lr_driver driver = {\"mcs\", 64, NULL, interrupts, NULL}; reset_signal(SIGUSR1); "
     "return (int)lr_go(run, &driver, 1, 20);", "SEED", 0, ""),
]


@pytest.fixture
def called(built):
    """Builds calls.c with a BODY in a mode, and runs it for at most so many seconds."""
    def call(body, mode, seconds=30):
        mode, *options = mode.split()
        return ran("timeout", seconds, built(HERE / "calls.c", mode, *options, "-O1",
                                             "-Wno-unused", f"-DBODY={body}"))
    return call


# Each BODY in each of its modes.
@pytest.mark.parametrize("body, mode, status, said", [
    (body, mode, status, said) for body, modes, status, said in CALLS
    for mode in ([modes] if " -D" in modes else modes.split())])
def test_wrong_call(called, body, mode, status, said):
    """The run has the seed 1, whose first number is odd: so thread 1 begins. The alarm ends a
    program that waits for much longer than it was told to."""
    done = called(body, mode)
    heard = re.sub(r"calls\.c:\d+", "calls.c:LINE", done.stderr)
    assert (heard, done.returncode) == (f"lockreplay_record: {said}\n" if said else "", status)


# What a thread alone does, and how many turns it passes on: at points before atomic operations, and
# elsewhere. There is no point in a monitor, nor right after another turn.
LOAD = "(void)__atomic_load_n(&woken, 5)"
TURNS = [
    (LOAD, 1, 0), (f"{LOAD}; {LOAD}", 2, 0), ("LR_CALL(acquire)", 0, 1),
    (f"LR_CALL(acquire); {LOAD}", 0, 1), (f"LR_CALL(acquire); {LOAD}; {LOAD}", 1, 1),
    ("LR_SWITCH()", 0, 1), ("LR_JOIN(); LR_CALL(acquire)", 0, 0),
    ("LR_JOIN(); LR_CALL(acquire); LR_CALL(release); LR_CALL(release)", 0, 2),
    ("LR_SECTION(1, entered)", 0, 0), ("LR_SECTION(1, entered); LR_SECTION(2, left)", 0, 0),
    ("LR_SECTION(1, entered); LR_CALL(release)", 0, 2),
    (f"LR_LOCK((void)0); {LOAD}; {LOAD}; LR_SWITCH()", 0, 1),
    ("LR_LOCK((void)0); LR_SECTION(1, entered); LR_UNLOCK((void)0); LR_CALL(release)", 0, 3),
    (f"LR_LOCK((void)0); LR_UNLOCK((void)0); {LOAD}; {LOAD}", 1, 2),
    # A note in a monitor passes no turn: whoever came next would block at the monitor's mutex.
    ("LR_LOCK((void)0); LR_CALL(acquire); LR_SWITCH()", 0, 1),
    ("LR_LOCK((void)0); LR_CALL(acquire); LR_SECTION(1, entered); LR_CALL(release)", 0, 1),
    ("LR_LOCK((void)0); LR_CALL(acquire); LR_UNLOCK((void)0); LR_CALL(release)", 0, 3),
    ("LR_SIGNAL(run, (void)0); LR_BROADCAST(run, (void)0)", 0, 0),
]


@pytest.fixture(scope="session")
def turns(shared):
    """Counts the turns of all rows, by one program for each option."""
    def count(option):
        path = shared / f"turns{option}"
        body = "".join(f'{ALONE} lr_begin(lr_log_of(run, 0)); {does}; lr_self = &lr_outside; '
                       'printf("%zu\\n", run->turns - 1);' for does, *_ in TURNS)

        def make():
            assert compile_c("gcc", HERE / "calls.c", f"{path}.run", "-DLR_MODE=SEED",
                             *option.split(), "-O1", "-Wno-unused", f"-DBODY={body}") == ""
            path.write_text(ran(f"{path}.run").stdout)
        counted = once(path, make).read_text().split()
        return dict(zip([does for does, *_ in TURNS], map(int, counted), strict=True))
    return count


@pytest.mark.parametrize("option, has_points", [
    ("", True), ("-DLR_ATOMICS=1", True), ("-DLR_ATOMICS=0", False)])
@pytest.mark.parametrize("does, points, others", TURNS)
def test_turns(turns, option, has_points, does, points, others):
    assert turns(option)[does] == points * has_points + others


@pytest.mark.parametrize("depth, due", [
    (1, "0011 1100"), (2, "0011 0110 1001 1100"), (3, "0011 0101 0110 1001 1010 1100")])
def test_changes_of_priority(called, depth, due):
    """Of two threads with two steps each, LR_PCT=d interrupts a thread d - 1 times by some seed,
    and never more often."""
    done = called("orders(3000);", f"SEED -DLR_PCT={depth} -DLR_STEPS=9")
    assert sorted(set(done.stdout.split())) == due.split() and done.returncode == 0


@pytest.mark.parametrize("woken, due", [(0, {"0", "1"}), (1, {"01"})])
def test_who_is_woken(called, woken, due):
    """A signal wakes either of two threads, by some seed, and a broadcast wakes both."""
    done = called(f"woken = {woken}; wakes(30);", "SEED -DLR_SPURIOUS=0")
    assert (set(done.stdout.splitlines()), done.returncode) == (due, 0)


@pytest.mark.parametrize("make", ["make_notes", "make_points"])
@pytest.mark.parametrize("option, one_in", [("LR_NOISE", 8), ("LR_NOISE=40", 40)])
def test_noise(called, option, one_in, make):
    """One note or point in `one_in` is drawn, and a half of these are held up by a yield or a
    sleep. Each thread has others. The bounds are six standard deviations from the mean of 8,000."""
    done = called(f"{make}(0, 8000); {make}(1, 8000);", f"VALUES -D{option}")
    held = [[line.split()[1:] for line in done.stdout.splitlines() if line[0] == thread]
            for thread in "01"]
    mean = 8000 / (2 * one_in)
    for of in held:
        assert abs(len(of) - mean) < 6 * mean ** 0.5, len(of)
        assert {how for _, how in of} == {"yields", "sleeps"}
    assert len([it for it in held[0] if it in held[1]]) < len(held[0]) / 2


@pytest.mark.parametrize("mode, turns", [("SEED", 20002), ("EXPLORE", 1002)])
def test_patience(called, mode, turns):
    """By itself a run hangs after so many turns with nothing but polls, its first and its last."""
    done = called(f"{ALONE} start(polls_for_ever, 1); lr_wait_for(run, 60); "
                  'printf("%zu", run->turns);', mode, PATIENCE)
    assert (done.stdout, done.stderr) == (str(turns), "")


@pytest.mark.parametrize("work, threads", [("comes_and_goes", 64), ("signals_nothing", 1)])
def test_progress(called, work, threads):
    """Neither the end of a thread nor LR_SWITCH is a turn in vain."""
    done = called(f'run = lr_open("mcs", {threads}, 64, 9, 1, NULL); start({work}, {threads}); '
                  "return (int)lr_await(run, 20);", "SEED -DLR_PATIENCE=9", PATIENCE)
    assert (done.stderr, done.returncode) == ("", 0)


@pytest.mark.parametrize("mode, mean", [
    ("SEED", 8), ("SEED -DLR_SPURIOUS=8", 8), ("SEED -DLR_SPURIOUS=40", 40)])
def test_rate_of_wakes(called, mode, mean):
    """One turn in so many wakes a thread. The bounds are six standard deviations from the mean of
    400 waits, and a thread that was woken may have to wait for its turn."""
    turns = int(called("wakes_for_nothing(400);", mode, PATIENCE).stdout)
    bound = 6 * mean / 400 ** 0.5
    assert mean - bound < turns / 400 < mean + bound + 2


def test_who_is_woken_for_nothing(called):
    """Of two threads that wait one is woken. Before another one sees it, the seed may wake both."""
    done = called("wakes_one_for_nothing(50);", "SEED -DLR_SPURIOUS=20", PATIENCE)
    assert done.stdout.count("1\n") > 25 and done.returncode == 0, done.stdout


def test_many_schedules(in_c, tmp_path):
    """A run leaves nothing open, so there may be more schedules than open files."""
    for number in range(40):
        (tmp_path / f"{number}.schedule").write_text(HEAD + IN)
    [program] = in_c.command("mcs", "FOLLOW")
    assert answer("sh", "-c", f"ulimit -n 20; exec {program} {tmp_path} {tmp_path}") == (
        "40 schedules of 120 moves, 0 not followed\n", "", 0)


def test_two_schedules(in_c, tmp_path):
    """Files of other names are no schedules. The last line counts the moves that were made, also
    the one that departs, and only its trace is saved."""
    (tmp_path / "a.schedule").write_text(HEAD + IN)
    (tmp_path / "b.schedule").write_text(f"{HEAD}0 acquire\n0 swap\n1 acquire\n")
    for name in (".schedule", "schedule", "c.schedule~", "c.Schedule", "c.txt"):
        (tmp_path / name).write_text("no line of a schedule\n")
    done = in_c.search([tmp_path], tmp_path / "logs", "mcs", "FOLLOW")
    assert done.stdout == "2 schedules of 5 moves, 1 not followed\n"
    assert done.stderr.startswith(f"lockreplay_record: {tmp_path}/b.schedule: line 3 is '0 swap', "
                                  "and thread 0 made 'write' at mcs.c:")
    assert ([path.name for path in (tmp_path / "logs").iterdir()], done.returncode) == (
        ["b.trace"], 1)


@pytest.mark.parametrize("folder, said", [
    ("none", "none: No such file or directory"),
    ("some", "some/a.schedule: No such file or directory\n"
     "lockreplay_record: some: Invalid argument")], ids=["none", "some"])
def test_schedule_that_cannot_be_read(in_c, tmp_path, folder, said):
    """Neither a folder nor a file that is not there passes for a schedule that was followed."""
    (tmp_path / "some").mkdir()
    (tmp_path / "some" / "a.schedule").symlink_to(tmp_path / "nothing")
    assert answer(*in_c.command("mcs", "FOLLOW"), folder, ".", cwd=tmp_path) == refusal(
        said, "0 schedules of 0 moves, 0 not followed\n")


def test_number_of_a_seed(in_c, tmp_path):
    """It is the first number of splitmix64 by the seed 0, as its authors give it."""
    assert in_c.run(tmp_path, "ticket", "SEED", 0).stderr == ""
    first, second, *_ = (tmp_path / "run.trace").read_text().splitlines()
    assert (first, second) == ("# run e220a8397b1dcdaf", "# seed 0")


def test_turns_of_a_trace(built, tmp_path):
    """A thread's first turn, one after each of six notes, one after LR_SWITCH, and that after its
    end."""
    program = built(SOURCES / "ticket.c", "SEED", "-DLR_ATOMICS=0")
    assert ran(program, 1, 1, 1, tmp_path).stderr == ""
    assert "\n# turns 9\n" in (tmp_path / "run.trace").read_text()


@pytest.mark.parametrize("mode", ["VALUES", "SEED", "EXPLORE"])
def test_path_that_is_too_long(built, tmp_path, mode):
    """A folder whose own path is short enough may have no room for the names of its files."""
    folder = "./" * 2043 + "logs"
    program = built(SOURCES / "ticket.c", mode)
    for words in [(2, 1, 1, folder), *([("recover", folder)] if mode == "VALUES" else [])]:
        assert answer(program, *words, cwd=tmp_path) == refusal(f"{folder}: File name too long")


@pytest.mark.parametrize("mode, name", [("VALUES", "run.notes"), *(
    (mode, name) for mode in ("VALUES", "SEED", "EXPLORE")
    for name in ("run.trace", "thread-1.log", "thread-63.log"))])
def test_file_that_cannot_be_removed(built, tmp_path, mode, name):
    """What an earlier run left must not pass for the run's own."""
    (tmp_path / "logs" / name / "inner").mkdir(parents=True)
    assert answer(built(SOURCES / "ticket.c", mode), 2, 1, 1, "logs", cwd=tmp_path) == refusal(
        f"logs/{name}: Directory not empty")
