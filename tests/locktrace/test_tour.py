"""`locktrace tour` writes schedules that are accepted and together take every transition, removes
the files of an earlier tour, and reports folders in which it cannot write.

The schedules of one thread are worked out by hand. For two and three threads, spaces.py counts over
the oracle whether the schedules take every transition.
"""
import re

import pytest

import search_rows
from devices import short_files
from search_rows import moves_of
from spaces import searched, walk
from traces import ROUND
from tree import cases, ran

# One thread has one way through a queue lock. Through a read-write lock it has three, of 10
# transitions together: it reads, it writes, or it writes and downgrades.
QUEUED = ["acquire add read release read write"]
LINKED = ["acquire write swap release read cas"]
SHARED = ["rlock section runlock section", "wlock section downgrade section runlock section",
          "wlock section wunlock section"]
ALONE = {
    "ticket": (QUEUED, "6 transitions, 1 schedule, 6 moves"),
    "mcs": (LINKED, "6 transitions, 1 schedule, 6 moves"),
    "rw-simple": (SHARED, "10 transitions, 3 schedules, 14 moves"),
    "rw-fifo": (SHARED, "10 transitions, 3 schedules, 14 moves"),
}
TICKET = """# Run 1 of 1, which together take every transition. Rounds: 1
lock ticket threads 1
0 acquire
0 add
0 read
0 release
0 read
0 write
"""
COUNTS = re.compile(r".*: ([\d,]+) transitions, ([\d,]+) schedules, ([\d,]+) moves\n")
LIST = "tour.list"
CANNOT = "locktrace: cannot write{}\n"


def files_in(folder):
    return {path.name: path.read_text() for path in folder.iterdir()}


@pytest.mark.parametrize("lock", ALONE)
def test_one_thread(tracer, lock):
    ways, counts = ALONE[lock]
    assert tracer.run("tour", lock, "1", "-o", "made") == (
        f"{lock}, 1 thread with 1 round: {counts}\n", "", 0)
    texts = files_in(tracer.folder / "made")
    names = [f"{number:04}.schedule" for number in range(1, len(ways) + 1)]
    assert texts.pop(LIST) == "".join(f"{name}\n" for name in names)
    assert sorted(texts) == names
    assert sorted(" ".join(word for _, word in moves_of(text)) for text in texts.values()) == ways
    assert lock != "ticket" or texts["0001.schedule"] == TICKET


def test_two_rounds_of_8_bits(tracer):
    assert tracer.run("tour", "ticket", "1", "--rounds", "2", "--bits", "8", "-o", "twice") == (
        "ticket, 1 thread with 2 rounds: 12 transitions, 1 schedule, 12 moves\n", "", 0)
    assert files_in(tracer.folder / "twice")["0001.schedule"] == (
        "# Run 1 of 1, which together take every transition. Rounds: 2\n"
        "lock ticket threads 1 bits 8\n" + 2 * "".join(f"0 {word}\n" for word in ROUND))


@pytest.mark.parametrize("threads", [2, 3])
@pytest.mark.parametrize("lock", ALONE)
def test_every_transition(tracer, lockreplay, lock, threads):
    """Each schedule is accepted and ends at rest, and together they take every transition."""
    folder = tracer.folder / "made"
    output = tracer.output("tour", lock, threads, "-o", folder)
    paths = sorted(folder.glob("*.schedule"))
    runs = [moves_of(path.read_text()) for path in paths]
    space = searched(search_rows.Space(lock, threads, 1, 64))
    walks = [list(walk(space, run)) for run in runs]
    due = sum(map(len, space.transitions))
    said = [int(number.replace(",", "")) for number in COUNTS.fullmatch(output).groups()]
    assert said == [due, len(runs), sum(map(len, runs))]
    report = ran(lockreplay, "batch", "--workers", "2", *paths).stdout
    assert re.findall("^(?:end|refused|fault).*", report, re.MULTILINE) == [
        f"end {len(run)}" for run in runs]
    assert list(map(len, walks)) == list(map(len, runs))
    assert all(after.phases[0] == "Idle" for one in walks
               for after in space.transitions[one[-1].after])
    assert len({id(each) for one in walks for each in one}) == due


def test_files_of_an_earlier_tour(tracer):
    """A new tour removes the files of an earlier tour, and nothing else."""
    folder = tracer.folder / "again"
    tracer.run("tour", "mcs", "2", "-o", folder)
    count = len(files_in(folder))
    kept = {"notes.txt": "notes\n", "9999.schedule": "lock mcs threads 1\n", "a.schedule": "\n"}
    tracer.write(**{f"again/{name}": text for name, text in kept.items()},
                 **{"outside.schedule": "outside\n"})
    output, error, status = tracer.run("tour", "mcs", "3", "--limit", "100", "-o", folder)
    assert (output, status) == ("", 3)
    assert re.fullmatch(r"locktrace: not decided: the search stopped at 1\d\d states "
                        r"\(--limit allows more\)\n", error)
    assert len(files_in(folder)) == count + len(kept)
    with open(folder / LIST, "a", encoding="utf-8") as names:
        names.write("notes.txt\na.schedule\n../outside.schedule\n.schedule\n0000.schedule\n")
    for _ in range(2):
        assert tracer.output("tour", "ticket", "1", "-o", folder)
        assert files_in(folder) == {**kept, "0001.schedule": TICKET, LIST: "0001.schedule\n"}
    assert (tracer.folder / "outside.schedule").read_text() == "outside\n"


def test_file_beside_an_earlier_tour(tracer):
    """A tour of three schedules finds the place of the second one taken. Nothing is written, and
    the earlier tour is as it was, with its list."""
    tracer.run("tour", "ticket", "1", "-o", "own")
    tracer.write(**{"own/0002.schedule": "own\n"})
    before = files_in(tracer.folder / "own")
    assert tracer.run("tour", "rw-simple", "1", "-o", "own") == (
        "", "locktrace: own/0002.schedule is not of an earlier tour\n", 3)
    assert files_in(tracer.folder / "own") == before


@cases("words, status, said", {
    "no folder is named": ("ticket 1", 2, "error:"),
    "no lock": ("tickets 1 -o none", 2,
                "locktrace: 'lock tickets threads 1': not a header (BadHeader)\n"),
    "a folder in a file": ("ticket 1 -o good/tour", 3,
                           CANNOT.format(" good/tour: Not a directory (os error 20)")),
    "a folder that takes nothing": ("ticket 1 -o /proc", 3, CANNOT.format(
        " /proc/tour.list.new: No such file or directory (os error 2)")),
})
def test_failure(tracer, words, status, said):
    output, error, found = tracer.run("tour", *words.split())
    assert (output, found) == ("", status) and error.startswith(said)


def test_list_that_cannot_be_read(tracer):
    (tracer.folder / "own" / LIST).mkdir(parents=True)
    assert tracer.run("tour", "ticket", "1", "-o", "own") == (
        "", "locktrace: cannot read own/tour.list: Is a directory (os error 21)\n", 3)


def test_write_that_fails(tracer):
    """A tour fails if its schedule or its output does. The second failure leaves the files."""
    words, left = ["tour", "ticket", "1", "-o", "short"], []
    with open("/dev/full", "w", encoding="utf-8") as full:
        for how, said in [({"preexec_fn": short_files(100)},
                           " short/0001.schedule: File too large (os error 27)"),
                          ({"stdout": full}, ": No space left on device (os error 28)")]:
            assert tracer.run(*words, **how) == ("", CANNOT.format(said), 3)
            left.append(len(files_in(tracer.folder / "short")))
    assert left == [0, 2]
    assert files_in(tracer.folder / "short") == {"0001.schedule": TICKET, LIST: "0001.schedule\n"}
