"""Texts that are written in two places agree.

The code of docs/LOCKS.md is no literal copy: each line names a phase and the kind of its step, and
the definitions `operation` and `after_call` of crates/lk_locks have to name the same. `laws` names
the operations of the ticket lock. The read-write locks share the file of their calls; the phases of
each are those of its `step`, and all take a section. Each model of bench/spin has a label for each
phase.
"""
import pytest

import by_hand
import generate
import modules
import places
from catalogue import CALLS, LOCKS, code_of, found, read, words_of

SPECS = "crates/lk_locks/specs"
KINDS = {"Read": "read", "Write": "write", "Swap": "swap", "CompareAndSwap": "cas",
         "FetchAndAdd": "add"}


def definitions_of(lock):
    text = read(f"{SPECS}/{lock.replace('-', '_')}.antt")
    return text + read(f"{SPECS}/laws.antt") if "specs.laws." in text else text


def lines_defined(lock):
    """The (kind, phase) of each step in the definitions. For a call, its word takes the place of
    the phase."""
    own = definitions_of(lock)
    text = own if "after_call" in own else read(f"{SPECS}/read_write.antt")
    named = dict(found(rf"^(\w+)(?: \w+)* = ({'|'.join(KINDS)})\b", text))
    steps = {(KINDS[named.get(operation, operation)], phase) for phase, operation in
             found(r"^operation \w+ \(?([A-Z]\w+).* = Some \(?(\w+)", text)}
    sections = {("section", phase) for phase in found(r"^step .*?\(?\b([A-Z]\w+)[^=]*=", own)}
    calls = {("call", CALLS[call]) for call in found(r"^after_call .* (\w+) = Some", text)}
    inside = {*found(r"^after_call \(?([A-Z]\w+).* = Some", text)} - {"Idle"}
    return (steps or sections) | calls | {("inside", phase) for phase in inside}


def lines_written(lock):
    return {*found(r"-- (\w+) (\w+)(?: looks at .*)?$", code_of(lock))}


@pytest.mark.parametrize("path", generate.REGIONS)
def test_regions(path):
    assert generate.faults_in(path, is_check=True) == []


@pytest.mark.parametrize("text, due", [
    ("if (a) { x }", "if (a) {y z}"), ("if (a) { y\n    z}", "if (a) { y\n    z}"),
    ("if (a) {}", "if (a) {y z}"), ("if (a) { x", None), ("if (b) { x }", None),
    ("if (a) {x} if (a) {x}", None)])
def test_filled_place(text, due):
    """What has the same words stays as it is. A place is there once, from its begin to its end."""
    assert places.filled(text, places.Place("", "(a) {", "}", "y z")) == due


@pytest.mark.parametrize("place", generate.WITHOUT_MARKS, ids=lambda it: it.path)
def test_place(place):
    assert places.faults_at(place, is_check=True) == []


@pytest.mark.parametrize("text, due", [
    ("mod a;\nmod x;\nmod y;\n", "mod a;\nmod x;\nmod b;\nmod y;\n"),
    ("mod b;\nmod x;\n", "mod b;\nmod x;\n")])
def test_completed_list(text, due):
    assert modules.completed(text, ["mod x;\n", "mod b;\n"]) == due


@pytest.mark.parametrize("path", modules.LISTS)
def test_modules(path):
    assert modules.faults_in(path, is_check=True) == []


def test_copies_by_hand():
    assert list(by_hand.faults()) == []


@pytest.mark.parametrize("path", ["README.md", "THIRD-PARTY", "docs/PROOF.md"])
def test_logic_of_the_kit(path):
    """A file that names the logic of the kit names the one that the Makefile asks for."""
    assert set(found(r"\blogic ([0-9a-f]{8,})", read(path))) \
        == set(found(r"^LOGIC := (\w+)$", read("Makefile")))


@pytest.mark.parametrize("lock", LOCKS.values())
def test_lock(lock):
    written, text = lines_written(lock), definitions_of(lock)
    assert written == lines_defined(lock), "one of docs/LOCKS.md and the definitions"
    words = {name.replace("_", ""): int(number) for name, number
             in found(r"^abbrev pub (\w+) : ℕ\n\1 = (\d+)$", text)}
    own, _ = words_of(lock)
    assert {name.replace("_", "").lower(): place for name, place in own.items()} == words, \
        "words of docs/LOCKS.md"
    phases = {phase for kind, phase in written if kind != "call"}
    labels = {*found(r"^(\w+):", read(f"bench/spin/{lock.replace('-', '_')}.pml"))}
    assert labels == phases | {"end_Idle"}, "labels of its model"
