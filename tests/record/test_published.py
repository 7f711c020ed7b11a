"""A refusal names the step that the published lock makes instead of the refused step.

An example in C with a mistake shows each message. Examples in Rust show the messages for which the
suite has a mistake; record/rust/tests/published.rs has all messages.
"""
import re

import pytest

from mistakes import IN_RUST
from recorders import HERE, InRust, SOURCES, compile_c, copied
from tree import ran

pytestmark = pytest.mark.slow

# An example in C, its mistake or a text with the one in its place, (threads, rounds, preemptions),
# the fault and the message after it.
IN_C = [
    ("mcs", "link-before-locked", (2, 1, 1), "OtherWord",
     "the published lock's step is on 'locked of 0'"),
    ("mcs", "swap-of-two-operations", (2, 1, 2), "FoundOther", "the published lock has 2"),
    ("ticket", "skips-one", (2, 1, 0), "LeftOther", "the published lock leaves 1"),
    ("mcs", "cas-of-two-operations", (2, 1, 1), "WroteOther",
     "the published lock's compare-and-swap fails, it finds 1"),
    ("mcs", "tail-lost", (3, 1, 1), "WroteOther",
     "the published lock's compare-and-swap is done, it finds 1"),
    ("rw_fifo", "writer-waits-once-for-readers", (2, 2, 2), "OtherOutcome",
     "the published lock answers 'waits' here"),
    ("mcs", "next-kept", (2, 1, 0), "WrongStep",
     "the published lock's next step is 'write next left 0'"),
    ("mcs", "no-wait", (2, 1, 1), "Busy",
     "the published lock's next step is 'read locked found 1'"),
    ("ticket", "one-look", (2, 1, 1), "Busy", "the thread entered while the published lock still "
     r"waits: see its read at ticket\.c:\d+"),
    ("ticket", "serves-twice", (2, 1, 0), "NoCall",
     r"the published lock's call ended with its write at ticket\.c:\d+"),
    ("mcs", ("LR_SWAP(tail, LR_RECORD(lock->records, before))", "LR_SWAP(tail, before)"), (2, 1, 1),
     "FoundOther", "the published lock has 2: a pointer is noted as LR_RECORD gives it"),
    ("rw_simple", ("++lock->monitor.sections", "1"), (1, 1, 0), "CountNotAbove",
     "a section before it has 1"),
    ("ticket", ('#define LOCK "ticket"', '#define LOCK "mcs"'), (1, 1, 0), "WrongLock",
     "the published lock's next step is 'write next left 0'"),
    # Nothing comes before the thread's first move, or before the run's first section.
    ("ticket", ("LR_CALL(acquire)", "if (lr_thread() == 0) LR_CALL(acquire)"), (2, 1, 0), "NoCall",
     ""),
    ("rw_simple", ("++lock->monitor.sections", "0"), (1, 1, 0), "CountNotAbove", ""),
]
# A lock, what its two threads note, the fault and the message.
TAKE = "LR_CALL(acquire); LR_WRITE(next, 0); LR_SWAP(tail, thread); "
QUEUE = f"{TAKE} if (thread) {{ LR_WRITE(locked, 1); LR_WRITE_OF(next, WHOSE, 2); }}"
STEPS = ("LR_WRITE(next, 0)", "LR_SWAP(tail, 1)", "LR_WRITE(locked, 1)", "LR_WRITE_OF(next, 0, 2)")
NOBODYS = r"no thread has this record \(lr_own_record says whose it is\)"
BY_NOTES = [
    *(("rw-simple", "if (!thread) { LR_CALL(wlock); LR_SECTION(1, entered); return; } "
       f"LR_CALL({call}); LR_SECTION(2, waits); LR_CALL({then})", "Busy",
       f"the thread {went} while the published lock still waits: see its section at notes.c:\\d+")
      for call, then, went in (("rlock", "rlock", "went on"), ("wlock", "wlock", "went on"),
                               ("rlock", "runlock", "entered"), ("wlock", "wunlock", "entered"))),
    ("ticket", "LR_CALL(acquire); LR_ADD(next_ticket, thread); "
     "if (thread) { LR_READ(now_serving, 0); LR_CALL(acquire); }", "Busy",
     r"the thread went on while the published lock still waits: see its read at notes.c:\d+"),
    ("mcs", f"{TAKE} LR_CALL(release); LR_READ(next, 0); LR_READ(next, 0)", "WrongStep",
     "the published lock's next step is 'cas tail done'"),
    ("rw-simple", "LR_CALL(rlock); LR_READ(tail, 0)", "WrongLock",
     "the published lock's next step is 'section entered'"),
    ("ticket", "LR_CALL(acquire); LR_ADD(next_ticket, 0); LR_READ(next_ticket, 0)", "OtherWord",
     "the published lock's step is on 'now_serving'"),
    ("mcs", QUEUE.replace("WHOSE", "1"), "OtherWord",
     "the published lock's step is on 'next of 0'"),
    ("mcs", QUEUE.replace("WHOSE", "-1"), "OtherWord",
     f"the published lock's step is on 'next of 0': {NOBODYS}"),
    ("mcs", TAKE.replace("thread", "256"), "FoundOther",
     f"the published lock has 0: {NOBODYS}"),
    ("mcs", TAKE.replace("thread", "65"), "FoundOther",
     "the published lock has 0: a pointer is noted as LR_RECORD gives it"),
    ("mcs", f"{TAKE} LR_CALL(release); LR_READ(next, 256)", "FoundOther",
     f"the published lock has 0: {NOBODYS}"),
    # Thread 1 queues behind thread 0, and makes another step in place of each of its own in turn.
    *(("mcs", f"if (!thread) {{ {TAKE} return; }} LR_CALL(acquire); {'; '.join(STEPS[:count])}; "
       "LR_CAS(tail, 1)", "WrongStep", f"the published lock's next step is '{due}'")
      for count, due in enumerate((
          "write next left 0", "swap tail found 1", "write locked left 1", "write next of 0 left 2",
          "read locked found 1"))),
    ("ticket", "LR_CALL(acquire); LR_ADD(next_ticket, 0); LR_READ(now_serving, 0); "
     "LR_CALL(release); LR_READ(now_serving, 0); LR_READ(now_serving, 0)", "WrongStep",
     "the published lock's next step is 'write now_serving left 1'"),
    *((lock, f"LR_CALL(rlock); LR_SECTION(1, entered); LR_CALL({call}); LR_READ(tail, 0)",
       "WrongLock", f"the published lock's next step is 'section {due}'")
      for lock, call, due in (("rw-simple", "runlock", "left"), ("rw-fifo", "runlock", "left"))),
    *((lock, "if (thread) { LR_CALL(wlock); LR_READ(tail, 0); } LR_CALL(rlock); "
       "LR_SECTION(1, entered)", "WrongLock", f"the published lock's next step is 'section {due}'")
      for lock, due in (("rw-simple", "waits"), ("rw-fifo", "moved"))),
]
OF_RUST = {
    "links-before-locked": ("OtherWord", "the published lock's step is on 'locked of 2'"),
    "notes-two-steps-as-an-add": ("FoundOther", "the published lock has 2"),
    "serves-the-next-ticket": ("LeftOther", r"the published lock leaves \d"),
    "swaps-in-two-steps": ("WrongStep", "the published lock's next step is 'swap tail found 0'"),
    "writes-beside-readers": ("OtherOutcome", "the published lock answers 'waits' here"),
}


@pytest.fixture
def searched(library, tmp_path):
    """Explores the runs of a lock in C with the check, and returns the message of a refusal."""
    def search(source, counts, *flags):
        assert compile_c("gcc", source, tmp_path / "it", "-DLR_MODE=EXPLORE", *flags,
                         "-Wno-unused-function", library=library) == ""
        done = ran(tmp_path / "it", *counts, tmp_path / "logs")
        assert done.returncode == 1, done.stdout
        return done.stdout
    return search


def changed(folder, example, change):
    """A copy of an example in C with a mistake, by its name or as a text in place of another."""
    if isinstance(change, str):
        return copied(folder, example, change)
    source = copied(folder, example)
    text = source.read_text()
    assert change[0] in text
    source.write_text(text.replace(*change))
    return source


def is_said(said, fault, more):
    """Whether a fault is said, with this after it; nothing may come after it if `more` is empty."""
    more = more and f": {more}"
    return re.search(rf"refused at line \d+ of the trace, .*: {fault}: [^:\n]+{more}(;|$)", said,
                     re.MULTILINE)


@pytest.mark.parametrize("example, change, counts, fault, more", IN_C)
def test_in_c(searched, tmp_path, example, change, counts, fault, more):
    said = searched(changed(tmp_path, example, change), counts)
    assert is_said(said, fault, more), said


@pytest.mark.parametrize("lock, notes, fault, more", BY_NOTES)
def test_in_c_by_notes(searched, lock, notes, fault, more):
    said = searched(HERE / "notes.c", (2, 1, 0), f'-DLOCK="{lock}"', f"-DNOTES={notes}")
    assert is_said(said, fault, more), said


@pytest.mark.parametrize("name", OF_RUST)
def test_in_rust(shared, tmp_path, name):
    [mistake] = [it for it in IN_RUST if it.name == name and it.explored is not None
                 and it.example != "rw_fifo"][:1]
    program = InRust(shared, None, None).checked(mistake.example, mistake)
    done = ran(program, "explore", 3, 1, mistake.explored, tmp_path)
    assert done.returncode == 1 and is_said(done.stderr, *OF_RUST[name]), done.stderr


def test_linker_says_what_is_missing(tmp_path):
    said = compile_c("gcc", SOURCES / "mcs.c", tmp_path / "it", "-DLR_MODE=EXPLORE")
    assert "lr_compile_built_locktrace_c_too" in said and "lt_check" in said
