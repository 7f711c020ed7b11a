"""Free threads in C whose process is killed leave logs.

A process makes the logs from the notes of the run. The lock of endings.c is right; a test gives it
a BODY, which thread 1 runs in its fourth round. test_killed_in_rust.py tests the Rust crate.
"""
import os
import re
import signal
import subprocess
from pathlib import Path

import pytest

from recorders import KEPT
from tree import PIPE, answer, ran

pytestmark = pytest.mark.slow

# Thread 1 says that it is in the middle of its run, and goes on until it is killed.
GOES_ON = 'puts("going"); fflush(stdout); for (;;) { release(); acquire(); }'
THREADS, ROUNDS, ROOM = 2, 12, 12 * 128
MOVE = 16  # bytes


def started(program, logs):
    """Starts a run, and waits until thread 1 is in the middle of it."""
    process = subprocess.Popen([program, str(THREADS), str(ROUNDS), "1", logs], stdout=PIPE,
                               stderr=PIPE, text=True)
    assert process.stdout.readline() == "going\n"
    return process


def holders(path):
    """The processes that have a file open."""
    for folder in Path("/proc").glob("[0-9]*/fd"):
        try:
            if path in [Path(os.readlink(link)) for link in folder.iterdir()]:
                yield int(folder.parent.name)
        except OSError:
            pass  # the process has ended, or belongs to another user


def killed(program, logs):
    """Starts a run, and kills each of its processes, like the end of a container, so none can save
    it."""
    with started(program, logs) as process:
        others = set(holders(logs / "run.notes")) - {process.pid}
        assert others
        for pid in [*others, process.pid]:
            os.kill(pid, signal.SIGKILL)
        assert process.communicate()[1] == ""
    assert [path.name for path in logs.iterdir()] == ["run.notes"]


def recover(program, logs):
    return answer(program, "recover", logs)[1:]


def test_killed(ended, ordered):
    """The process that watches the program makes the logs after a kill. `recover` waits until it
    has done so."""
    program, logs = ended("VALUES", GOES_ON)
    with started(program, logs) as process:
        process.kill()
        process.wait()
        assert recover(program, logs) == ("", 0)
        assert len(ordered(logs)[1]) > 20
        assert process.communicate()[1] == f"{KEPT}{logs}\n"
    assert recover(program, logs) == ("", 0)


def test_all_killed(ended, ordered):
    """If all processes are killed, `recover` makes the logs, and none of an earlier run is left."""
    program, logs = ended("VALUES", GOES_ON)
    logs.mkdir()
    for name in ("thread-0.log", "thread-1.log", "thread-5.log", "run.trace", "run.notes"):
        (logs / name).write_text("of an earlier run\n")
    killed(program, logs)
    assert recover(program, logs) == (f"{KEPT}{logs}\n", 0)
    assert len(ordered(logs)[1]) > 20
    assert (logs / "thread-1.log").read_text().endswith("# thread 1 was stopped\n")
    assert recover(program, logs) == ("", 0)


def note_of(word=0, place=0, part=0, file=1):
    """The bytes of a note in line 7 of a file, on no other thread's record."""
    return bytes([*bytes(8), word, place, part, 0, 1, file, 7, 0])


def lose(logs, thread, lost):
    """Writes bytes over a thread's notes from the sixteenth on."""
    notes = logs / "run.notes"
    first = notes.stat().st_size - THREADS * (ROOM + 2) * (MOVE + 1) + 2 * MOVE
    with open(notes, "r+b") as file:
        file.seek(first + (thread * (ROOM + 2) + 15) * MOVE)
        file.write(lost)


@pytest.mark.parametrize("lost, moves", [
    (bytes(MOVE), 15), (MOVE * b"\xff", 15), (note_of(file=0), 15),
    # The last of each, and the number after it.
    (note_of(word=12), 16), (note_of(word=13), 15), (note_of(place=5), 16), (note_of(place=6), 15),
    (note_of(part=8), 16), (note_of(part=9), 15)])
def test_lost_page(ended, lost, moves):
    """A log ends before bytes that are no note, as if a page had not reached the disk."""
    program, logs = ended("VALUES", GOES_ON)
    killed(program, logs)
    lose(logs, 1, lost + bytes(MOVE))
    assert recover(program, logs) == (f"{KEPT}{logs}\n", 0)
    log = (logs / "thread-1.log").read_text().splitlines()
    assert len(log) == 2 + moves + 1 and log[-1] == "# thread 1 was stopped"


def test_lost_page_of_a_thread_that_has_ended(ended, ordered):
    """The log of a thread that has ended is not said to be whole if it lost moves."""
    body = f"release(); while (!lr_count_of(lr_self->run->logs[0].ended)) {{}} acquire(); {GOES_ON}"
    program, logs = ended("VALUES", body)
    killed(program, logs)
    lose(logs, 0, bytes(MOVE))
    assert recover(program, logs) == (f"{KEPT}{logs}\n", 0)
    assert len(ordered(logs)[0]) == 15
    assert (logs / "thread-0.log").read_text().endswith("\n# thread 0 was stopped\n")


def test_interrupt(ended, ordered):
    """The interrupt of a terminal goes to all processes of its group, and does not end the one that
    saves the run. A shell may have started the tests with the signal ignored."""
    program, logs = ended("VALUES", GOES_ON, "-DLR_MAPPED=0")
    words = ["env", "--default-signal=INT", program, str(THREADS), str(ROUNDS), "1", logs]
    with subprocess.Popen(words, stdout=PIPE, stderr=PIPE, text=True, process_group=0) as process:
        assert process.stdout.readline() == "going\n"
        os.killpg(process.pid, signal.SIGINT)
        assert process.communicate()[1] == f"{KEPT}{logs}\n"
    assert process.returncode == -signal.SIGINT
    assert len(ordered(logs)[1]) > 20


def test_watcher_is_killed(ended, ordered):
    """The program saves its run though the process that watches it was killed."""
    program, logs = ended("VALUES", 'puts("going"); fflush(stdout); getchar()')
    words = [program, str(THREADS), str(ROUNDS), "1", logs]
    with subprocess.Popen(words, stdin=PIPE, stdout=PIPE, stderr=PIPE, text=True) as process:
        assert process.stdout.readline() == "going\n"
        [other] = set(holders(logs / "run.notes")) - {process.pid}
        os.kill(other, signal.SIGKILL)
        while other in holders(logs / "run.notes"):
            pass
        assert process.communicate("\n")[1] == ""
    assert process.returncode == 0
    ordered(logs)


def test_child_goes_on(ended, ordered, tmp_path):
    """The run is saved though a program that this one started goes on. That has no notes."""
    sleeps = f"sleep 300 <&- >&- 2>&- & echo $! >{tmp_path}/child"
    program, logs = ended("VALUES", f'(void)!system("{sleeps}"); {GOES_ON}')
    with started(program, logs) as process:
        try:
            assert len(set(holders(logs / "run.notes"))) == 2
            process.kill()
            process.wait()
            assert answer("timeout", "60", program, "recover", logs)[1:] == ("", 0)
        finally:
            os.kill(int((tmp_path / "child").read_text()), signal.SIGKILL)
        assert process.communicate()[1] == f"{KEPT}{logs}\n"
    ordered(logs)


def test_recover_waits(ended, ordered):
    """`recover` waits for a run that is still going, which saves its own logs."""
    body = 'struct timespec ms = {0, 300000000}; puts("going"); fflush(stdout); nanosleep(&ms, 0)'
    program, logs = ended("VALUES", body, "-D_GNU_SOURCE")
    with started(program, logs) as process:
        assert recover(program, logs) == ("", 0)
        assert process.communicate()[1] == "" and process.returncode == 0
    ordered(logs)
    assert (logs / "thread-1.log").read_text().endswith("\ndropped 0\n")


@pytest.mark.parametrize("body, status, acquires, least", [
    ("(void)0", 3, ROUNDS, ROUNDS * 6), ("abort()", -signal.SIGABRT, 4, 0)])
def test_logs_that_cannot_be_made(ended, ordered, body, status, acquires, least):
    """Neither the program nor `recover` takes notes away whose logs they cannot make. Nor does the
    process that watches the program, which then does not say that it made them."""
    program, logs = ended("VALUES", body)
    inner = logs / "thread-1.log.part" / "inner"
    inner.mkdir(parents=True)
    said = f"lockreplay_record: {logs}/thread-1.log: Is a directory\n"
    assert answer(program, THREADS, ROUNDS, 1, logs)[1:] == (said, status)
    assert recover(program, logs) == (
        f"{said}lockreplay_record: {logs}/run.notes: Is a directory\n", 3)
    inner.rmdir()
    inner.parent.rmdir()
    assert recover(program, logs) == (f"{KEPT}{logs}\n", 0)
    moves = ordered(logs)
    assert moves[1].count("acquire") == acquires and min(map(len, moves)) >= least


@pytest.mark.parametrize("lines, fault", [
    (None, "No such file or directory"), (0, "Invalid argument"), (30000, "Invalid argument")])
def test_nothing_to_recover(ended, tmp_path, lines, fault):
    """`recover` refuses a folder without a file of notes, and a file of another program."""
    (program, _), notes = ended("VALUES", "(void)0"), tmp_path / "run.notes"
    if lines is not None:
        notes.write_text("of another program\n" * lines)
    assert recover(program, tmp_path) == (f"lockreplay_record: {notes}: {fault}\n", 3)
    assert notes.exists() == (lines is not None)


@pytest.mark.parametrize("size", [-1, -MOVE, 4096, 1], ids=str)
def test_notes_that_were_cut(ended, size):
    """`recover` refuses a file that lost its end, as by a copy to a full disk, and leaves it."""
    program, logs = ended("VALUES", GOES_ON)
    killed(program, logs)
    notes = logs / "run.notes"
    os.truncate(notes, size if size > 0 else notes.stat().st_size + size)
    assert recover(program, logs) == (f"lockreplay_record: {notes}: Invalid argument\n", 3)
    assert [path.name for path in logs.iterdir()] == ["run.notes"]


def test_notes_of_another_build(ended):
    """A program whose counters begin elsewhere would write other values, so it refuses the notes.
    The one that made them still takes them."""
    program, logs = ended("VALUES", GOES_ON)
    killed(program, logs)
    due = (f"lockreplay_record: {logs}/run.notes: Invalid argument\n", 3)
    assert recover(ended("VALUES", GOES_ON, "-DLR_START=9")[0], logs) == due
    assert recover(ended("VALUES", GOES_ON)[0], logs) == (f"{KEPT}{logs}\n", 0)


def test_no_room(ended):
    """The program reports before the run that the notes have no room, and leaves no file."""
    program, logs = ended("VALUES", "(void)0")
    done = ran("sh", "-c", f"trap '' XFSZ; ulimit -f 4; exec {program} 3 400 1 {logs}")
    assert re.fullmatch(rf"lockreplay_record: {logs}/run\.notes: File too large: the notes of this "
                        r"run take \d+ bytes there, and none with LR_MAPPED=0\n", done.stderr)
    assert done.returncode == 3 and list(logs.iterdir()) == []


def test_full_disk(ended):
    """The same on a file system of 200 KB, mounted in a namespace of its own."""
    program, logs = ended("VALUES", "(void)0")
    logs.mkdir()
    script = f"mount -t tmpfs -o size=200k none {logs} && {program} 3 400 1 {logs}; echo $?"
    done = ran("unshare", "--map-root-user", "--mount", "sh", "-c", script)
    if "run.notes" not in done.stderr:
        pytest.skip(f"no file system of its own: {done.stderr.strip()}")
    assert f"{logs}/run.notes: No space left on device: the notes" in done.stderr
    assert done.stdout == "3\n"


def test_in_memory(ended):
    """With LR_MAPPED=0 a run keeps its notes in memory, and saves its logs at the end."""
    program, logs = ended("VALUES", "(void)0", "-DLR_MAPPED=0")
    assert answer(program, 3, 400, 1, logs)[1:] == ("", 0)
    assert len(list(logs.iterdir())) == 3
