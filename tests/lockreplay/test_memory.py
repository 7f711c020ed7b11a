"""`lockreplay` when memory is short, and when one request for memory after another is refused.

The program gives the same answer as with ample memory, or nothing but its out-of-memory line. In C
it requests no memory to read its words, and none that depends on the fault of a text.
"""
import pytest

from devices import Refusing, little_memory
from oracle import batch_of
from tree import Program, cases
from worked_rows import most_moves, rows

MEMORY = (b"", b"lockreplay: out of memory\n", 3)
EMPTY, EMPTY_REPORT = b"lock ticket threads 1\n", b"end 0\n"
SPINS = most_moves()
NATIVE = pytest.mark.parametrize("lockreplay", ["native"], indirect=True)
LIMITS = (3, 4, 5, 6, 8, 12, 16, 24, 32, 48, 64, 80, 96, 128, 160, 256, 512)  # in MB


# 3 MB are too few to start the program with 65,536 names, so no batch runs within them.
@cases("words, text, report, limits", {
    "replay": (["replay"], SPINS.text, SPINS.report, LIMITS),
    "1 worker": (["batch", "--workers", "1", *["spinning"] * 12], b"",
                 batch_of([SPINS.report] * 12), LIMITS[1:]),
    "8 workers": (["batch", "--workers", "8", *["spinning"] * 12], b"",
                  batch_of([SPINS.report] * 12), LIMITS[1:]),
    "65,536 names": (["batch", "--workers", "2", *["empty"] * 65_536], b"",
                     batch_of([EMPTY_REPORT] * 65_536), LIMITS[1:]),
})
def test_little_memory(replayer, words, text, report, limits):
    """Some limits leave too little memory, and some enough; no other answer occurs."""
    replayer.write(empty=EMPTY, spinning=SPINS.text)
    statuses = set()
    for megabytes in limits:
        done = replayer.run(*words, stdin=text, preexec_fn=little_memory(megabytes << 20))
        statuses.add(done[2])
        assert done == (MEMORY if done[2] == 3 else (report, b"", 0)), f"within {megabytes} MB"
    assert statuses == {0, 3}


def test_long_schedules_that_are_refused_at_once(replayer):
    """The texts have 721 MB and fit into 1 GB. The longest report of each, 14 MB, would not."""
    replayer.write(refused=b"lock ticket threads 64\n0 read\n" + b"63 acquire\n" * 65_535)
    due = batch_of([b"refused line 2 NoCall\n"] * 1_000)
    assert replayer.run("batch", "--workers", "8", *["refused"] * 1_000,
                        preexec_fn=little_memory(1 << 30)) == (due, b"", 1)


MOVES = b"0 rlock\n0 section\n0 runlock\n0 section\n" * 16_384
BAD_LINE = (b"lock rw-fifo threads 64\n0 go\n" + MOVES)[:len(MOVES)]


def needed(replayer, text, fault):
    """The least limit in KB under which the program reports the fault of a text."""
    for limit in range(2_048, 65_536, 64):
        done = replayer.run("replay", stdin=text, preexec_fn=little_memory(limit << 10))
        if done == (fault, b"", 1):
            return limit
        assert done == MEMORY or not done[0], f"within {limit} KB"
    return pytest.fail("no limit was wide enough")


@pytest.fixture(scope="module")
def needed_by_a_late_fault(lockreplay, tmp_path_factory):
    """The limit for a bad line after the header, which is found once there is memory for moves."""
    return needed(Program(lockreplay, tmp_path_factory.mktemp("late"), b""), BAD_LINE,
                  b"fault line 2 BadLine\n")


@NATIVE
@cases("text, fault", {
    "NoHeader": (b"#" * len(MOVES), b"fault line 2 NoHeader\n"),
    "BadHeader": (b"lock clh threads 64\n" + MOVES, b"fault line 1 BadHeader\n"),
    "BadThreads": (b"lock rw-fifo threads 65\n" + MOVES, b"fault line 1 BadThreads\n"),
    "WordsTooNarrow": (b"lock rw-fifo threads 64 bits 6\n" + MOVES,
                       b"fault line 1 WordsTooNarrow\n"),
})
def test_fault_of_a_header_needs_no_memory_for_moves(replayer, needed_by_a_late_fault, text, fault):
    assert needed(replayer, text, fault) < needed_by_a_late_fault


def refuse_each(refusing, words, text, is_due, first=1):
    """Refuses request `first`, then the next one, until a run makes fewer requests."""
    memory_was_short = False
    for number in range(first, refusing.NEVER):
        answer, refused, _ = refusing.run(number, words, text)
        memory_was_short |= refused and answer == MEMORY
        assert is_due(*answer) or refused and answer == MEMORY, f"request {number}: {answer}"
        if not refused:
            break
    assert memory_was_short and not refused


@pytest.fixture(scope="module")
def refusing(lockreplay, tmp_path_factory):
    folder = tmp_path_factory.mktemp("refusing")
    for name, text in {"empty": EMPTY, "accepted": EMPTY, "faulty": b"",
                       "refused": b"lock ticket threads 2\n0 release\n"}.items():
        (folder / name).write_bytes(text)
    return Refusing(lockreplay, folder)


def is_usage(output, error, status):
    return (output, status) == (b"", 2) and error != b""


def is_help(output, error, status):
    return output != b"" and (error, status) == (b"", 0)


def answers(report, status):
    return lambda *answer: answer == (report, b"", status)


ENDED = b"file 1\nend 0\nfile 2\nrefused line 2 NotHolder\nfile 3\nfault line 1 NoHeader\n"


@NATIVE
@cases("words, is_due", {
    **{words or "no words": (words.split(), is_usage) for words in (
        "batch --workers 1", "batch --workers 9 empty", "batch empty", "replay x", "play", "")},
    **{words: (words.split(), is_help) for words in ("--help", "batch --help")},
})
def test_requests_of_words(refusing, words, is_due):
    refuse_each(refusing, words, b"", is_due)


@cases("words, text, is_due", {
    "replay": (["replay"], EMPTY, answers(EMPTY_REPORT, 0)),
    "batch --workers 1 empty": (["batch", "--workers", "1", "empty"], b"",
                                answers(b"file 1\nend 0\n", 0)),
    **{f"{n} workers": (["batch", "--workers", n, "accepted", "refused", "faulty"], b"",
                        answers(ENDED, 1)) for n in "128"},
})
def test_requests_of_command_lines(refusing, words, text, is_due):
    refuse_each(refusing, words, text, is_due)


@pytest.fixture(scope="module")
def made_before(refusing):
    """How many requests the program makes before it reads a schedule: as many for every row."""
    return {"replay": refusing.run(Refusing.NEVER, ["replay"])[2],
            "batch": refusing.run(Refusing.NEVER, ["batch", "--workers", "1", "missing"])[2]}


@pytest.mark.parametrize("command", ["replay", "batch"])
@pytest.mark.parametrize("row", rows(), ids=lambda row: row.name)
def test_requests_of_rows(refusing, made_before, row, command):
    """Each row is replayed from standard input, and as a batch of one file."""
    words, text, before = ["replay"], row.text, b""
    if command == "batch":
        (refusing.folder / "row").write_bytes(row.text)
        words, text, before = ["batch", "--workers", "1", "row"], b"", b"file 1\n"

    def is_due(output, error, status):
        return (output.startswith(before) and row.is_met_by(output[len(before):])
                and (error, status) == (b"", row.status()))

    refuse_each(refusing, words, text, is_due, made_before[command])
