"""`lockreplay` as a process: its output, error and status when devices, arguments or files fail.

Expected texts are written by hand from the documented behaviour. Of a message that the parser of
arguments words itself, only the first words are compared.
"""
import os
import shutil
import signal
import socket
import subprocess
import threading
import time

import pytest

from devices import closing, left_pipe, short_files
from oracle import batch_of
from tree import PATIENCE, PIPE, Program, cases
from worked_rows import crowd, hand_over, most_moves

INPUT = b"lockreplay: cannot read standard input\n"
OUTPUT = b"lockreplay: cannot write\n"
TOO_MANY = b"lockreplay: too many files\n"
FOREIGN = b"lockreplay: the words are not UTF-8 text\n"

HANDED_ON, HANDED_ON_REPORT = map(b"".join, hand_over())
EMPTY, EMPTY_REPORT = b"lock ticket threads 1\n", b"end 0\n"
REFUSED = b"lock ticket threads 2\n0 release\n"
REFUSED_REPORT = b"refused line 2 NotHolder\n"
NO_HEADER = b"fault line 1 NoHeader\n"
SPINS = most_moves()  # a thread that spins to the limit of moves, after one that never enters
WAITING = 65_536  # bytes of a report that wait for a write
CROWD = crowd()  # the longest report, except that its numerals could be longer

FILES = {"empty": EMPTY, "handed_on": HANDED_ON, "refused": REFUSED, "none": b"",
         "spinning": SPINS.text, "--workers": EMPTY}
BATCH = ["batch", "--workers", "2"]
MANY = [*BATCH, *["empty"] * 65_536]
NOTHING = (b"", b"", 2)


def cannot_read(number):
    return b"", b"lockreplay: cannot read file %d\n" % number, 3


@pytest.fixture(scope="module")
def program(lockreplay, tmp_path_factory):
    """The program in a folder with texts, and with names that are not those of readable files."""
    program = Program(lockreplay, tmp_path_factory.mktemp("files"), b"")
    program.write(**FILES)
    (program.folder / "folder").mkdir()
    (program.folder / "dangling").symlink_to("nowhere")
    (program.folder / "circle").symlink_to("circle")
    with socket.socket(socket.AF_UNIX) as listener:
        listener.bind(str(program.folder / "socket"))
    return program


@cases("text, due", {
    "a schedule": (HANDED_ON, (HANDED_ON_REPORT, b"", 0)),
    "a refused move": (REFUSED, (REFUSED_REPORT, b"", 1)),
    "nothing": (b"", (NO_HEADER, b"", 1)),
    "half a move": (HANDED_ON[:27], (b"fault line 2 BadLine\n", b"", 1)),
    "a move without its line feed": (HANDED_ON[:31], (HANDED_ON_REPORT[:34] + b"end 1\n", b"", 0)),
    "a report of 14 MB": (CROWD.text, (CROWD.report, b"", 0)),
})
def test_standard_input(program, text, due):
    assert program.run("replay", stdin=text) == due


@cases("path, flags, due", {
    "empty": ("/dev/null", os.O_RDONLY, (NO_HEADER, b"", 1)),
    "for writing alone": ("/dev/null", os.O_WRONLY, (b"", INPUT, 3)),
    "a directory": (".", os.O_RDONLY, (b"", INPUT, 3)),
    "without end": ("/dev/zero", os.O_RDONLY, (b"fault TooLong\n", b"", 1)),
})
def test_input_from_a_device(program, path, flags, due):
    descriptor = os.open(path, flags)
    try:
        assert program.run("replay", stdin=descriptor) == due
    finally:
        os.close(descriptor)


def test_closed_input(program):
    closed = {"stdin": subprocess.DEVNULL, "preexec_fn": closing(0)}
    assert program.run("replay", **closed) == (b"", INPUT, 3)
    due = batch_of([EMPTY_REPORT, HANDED_ON_REPORT])
    assert program.run(*BATCH, "empty", "handed_on", **closed) == (due, b"", 0)


# The arguments, the input, and the report that the program cannot write.
WRITES = {
    "replay": (["replay"], SPINS.text, SPINS.report),
    "batch": ([*BATCH, "spinning", "empty"], b"", batch_of([SPINS.report, EMPTY_REPORT])),
    "help": (["--help"], b"", b""),
}


of_each_write = cases("words, text, report", WRITES)


@of_each_write
def test_closed_output(program, words, text, report):
    assert program.run(*words, stdin=text, preexec_fn=closing(1)) == (b"", OUTPUT, 3)
    assert program.run(*words, stdin=text, preexec_fn=closing(1, 2)) == (b"", b"", 3)


@of_each_write
@cases("path, mode", {"full": ("/dev/full", "wb"), "for reading": ("/dev/null", "rb")})
def test_output_to_a_device(program, words, text, report, path, mode):
    with open(path, mode) as device:
        assert program.run(*words, stdin=text, stdout=device) == (b"", OUTPUT, 3)


@of_each_write
@pytest.mark.parametrize("handling", [signal.SIG_DFL, signal.SIG_IGN])
def test_output_whose_reader_left(program, words, text, report, handling):
    """The program reports the failed write. SIGPIPE would by default end it without a word."""
    with left_pipe() as pipe:
        assert program.run(*words, stdin=text, stdout=pipe, preexec_fn=lambda: signal.signal(
            signal.SIGPIPE, handling)) == (b"", OUTPUT, 3)


@of_each_write
def test_output_and_error_that_nobody_reads(program, words, text, report):
    with left_pipe() as pipe:
        assert program.run(*words, stdin=text, stdout=pipe, stderr=pipe)[2] == 3


REPORTS = {**WRITES, "14 MB": (["replay"], CROWD.text, CROWD.report)}


# Of a report of 14 MB the file has no more room in the middle of each of the first 200 writes, of
# two later ones, and before the last byte.
@pytest.mark.parametrize("name, size", [
    *((name, size) for name in ("replay", "batch")
      for size in (1, 1_000, WAITING, WAITING + 1, -1)),
    *(("14 MB", k * WAITING + WAITING // 2) for k in [*range(200), 204, 208]), ("14 MB", -1)])
def test_file_that_is_full(program, tmp_path, name, size):
    """The file keeps as much of the report as it has room for."""
    assert len(CROWD.report) > 209 * WAITING
    words, text, report = REPORTS[name]
    room = size % len(report)
    with open(tmp_path / "short", "wb") as short:
        done = program.run(*words, stdin=text, stdout=short, preexec_fn=short_files(room))
    assert done == (b"", OUTPUT, 3)
    assert (tmp_path / "short").read_bytes() == report[:room]


@pytest.mark.parametrize("name, size", [("replay", 1_000), ("batch", 1_000), ("14 MB", WAITING)])
def test_reader_that_leaves(program, name, size):
    """The reader takes `size` bytes of the report, and closes its end."""
    words, text, report = REPORTS[name]
    reader, writer = os.pipe()
    taken = bytearray()

    def leave():
        while len(taken) < size and (piece := os.read(reader, size - len(taken))):
            taken.extend(piece)
        os.close(reader)

    leaver = threading.Thread(target=leave)
    leaver.start()
    done = program.run(*words, stdin=text, stdout=writer)
    os.close(writer)
    leaver.join()
    assert (bytes(taken), *done) == (report[:size], b"", OUTPUT, 3)


@cases("words, error", {
    "a word that is no text": ([b"\xff"], FOREIGN),
    "a file's name that is no text": ([*BATCH, b"a\xffb"], FOREIGN),
    "65,537 files": ([*MANY, "empty"], TOO_MANY),
    "65,537 files that are not there": ([*BATCH, *["x"] * 65_537], TOO_MANY),
})
def test_words_that_the_program_refuses(program, words, error):
    assert program.run(*words) == (b"", error, 2)


@pytest.mark.parametrize("words", [
    "", "replay x", "batch empty", "batch --workers 2", "play", "batch --workers 0 empty",
    "batch --workers 9 empty", "batch --workers x empty", "batch", "--version"])
def test_words_that_the_parser_refuses(program, words):
    output, error, status = program.run(*words.split())
    assert (output, status) == (b"", 2)
    assert error.startswith(b"error: ") and error.endswith(b"\n")
    if words in ("", "replay x", "batch empty", "batch --workers 2"):
        assert b"Usage: lockreplay" in error


FIVE = [EMPTY_REPORT, HANDED_ON_REPORT, REFUSED_REPORT, NO_HEADER, EMPTY_REPORT]


@cases("words, reports, status", {
    "workers with =": ("--workers=8 empty", [EMPTY_REPORT], 0),
    "workers behind": ("empty --workers 3", [EMPTY_REPORT], 0),
    "a file --workers": ("--workers 2 -- --workers", [EMPTY_REPORT], 0),
    "files on either side": ("empty --workers 3 handed_on -- empty",
                             [EMPTY_REPORT, HANDED_ON_REPORT, EMPTY_REPORT], 0),
    **{f"{workers} workers": (f"--workers {workers} empty handed_on refused none empty", FIVE, 1)
       for workers in range(1, 9)},
    "accepted": ("--workers 2 handed_on", [HANDED_ON_REPORT], 0),
    "refused": ("--workers 2 refused", [REFUSED_REPORT], 1),
    "a fault": ("--workers 2 none handed_on", [NO_HEADER, HANDED_ON_REPORT], 1),
    "both accepted": ("--workers 2 empty handed_on", [EMPTY_REPORT, HANDED_ON_REPORT], 0),
    "65,536 files": ("--workers 2" + " empty" * 65_536, [EMPTY_REPORT] * 65_536, 0),
})
def test_batch(program, words, reports, status):
    assert program.run("batch", *words.split()) == (batch_of(reports), b"", status)


@pytest.mark.parametrize("words, part", [
    (["--help"], b"Usage: lockreplay <COMMAND>"), (["-h"], b"Usage: lockreplay <COMMAND>"),
    (["batch", "--help"], b"lockreplay batch")])
def test_help(program, words, part):
    output, error, status = program.run(*words)
    assert (error, status) == (b"", 0)
    assert part in output and output.endswith(b"\n")


def test_error_that_nobody_reads(program):
    assert program.run("play", preexec_fn=closing(2)) == NOTHING
    assert program.run(*BATCH, *["x"] * 65_537, preexec_fn=closing(2)) == NOTHING
    assert program.run("replay", stdin=subprocess.DEVNULL, preexec_fn=closing(0, 2)) == (
        b"", b"", 3)
    with left_pipe() as pipe:
        assert program.run("play", stderr=pipe) == NOTHING


@pytest.mark.parametrize("name", ["missing", "folder", "dangling", "circle", "socket", "empty/x",
                                  pytest.param("n" * 300, id="300 bytes"),
                                  pytest.param("n" * 5000, id="5000 bytes"), ""])
def test_file_that_cannot_be_read(program, name):
    assert program.run(*BATCH, "empty", name, "missing") == cannot_read(2)


def test_first_and_last_file_that_cannot_be_read(program):
    assert program.run(*BATCH, "missing", "folder", "empty") == cannot_read(1)
    assert program.run(*MANY[:-1], "missing") == cannot_read(65_536)


def opened_once_read(fifo, process):
    """The FIFO's write end, once the program has opened the read end; None if it ends first."""
    while process.poll() is None:
        try:
            return os.open(fifo, os.O_WRONLY | os.O_NONBLOCK)
        except OSError:
            time.sleep(0.01)
    return None


def test_file_that_disappears(program, tmp_path):
    os.mkfifo(tmp_path / "fifo")
    shutil.copy(program.folder / "empty", tmp_path / "fleeting")
    process = subprocess.Popen([program.path, *BATCH, "fifo", "fleeting"], cwd=tmp_path,
                               stdout=PIPE, stderr=PIPE)
    fifo = opened_once_read(tmp_path / "fifo", process)
    (tmp_path / "fleeting").unlink()
    assert fifo is not None
    os.write(fifo, EMPTY)
    os.close(fifo)
    assert (*process.communicate(timeout=PATIENCE), process.returncode) == cannot_read(2)
