"""What try_mutants.py makes of a file of mutants, and of what a check prints.

The output of checks is that of `rt check`, shortened. No crate is checked. Each mutant and twin of
the crates has to change the text as it is now.
"""
import shutil
from collections import defaultdict
from dataclasses import replace
from pathlib import Path

import pytest

from mutant_checks import Lab, unproved_below, verdict_on
from mutant_edits import BadEdit, edits_in
from try_mutants import TRIES, Crate, edits_of, ending, group_of, table, verdict
from mutants_kept import PARTS, SCRIPTS, Kept
from rattle_functions import functions_of
from rattle_words import TOP
from tree import cases

SOURCE = """pub struct Pair { left: u8 }

impl Pair {
    pub fn left(&self) -> u8
        ensures { result ≡ self.now.left }
    {
        self.left
    }
}

impl Clone for Pair {
    fn clone(&self) -> Pair {
        Pair { left: self.left }
    }
}

impl From<Other> for Pair {
    fn from(other: Other) -> Pair {
        other.pair
    }
}

impl Cell<Pair> {
    fn both(&self) -> u8 {
        2
    }
}

trait Named {
    fn name(&self) -> u8;
}

fn least() -> u8 {
    0
}
"""
FILES = {Path("lib.rt"): "mod pairs;\nuse pairs::Pair;\nimpl Pair {\n    fn zero() -> u8 {\n"
                         "        0\n    }\n}\n", Path("pairs.rt"): SOURCE}
NAMES = {"c::pairs::Pair::left", "c::pairs::PairClone::clone", "c::pairs::least",
         "c::pairs::Pair::zero", "c::pairs::PairFromOther::from", "c::pairs::Cell+Pair::both"}
OWN = "fn c::f: no proof: expected answers in ./proofs/f/Answers.antt; `search` did not prove `r`"
CALLS = "fn c::f: no proof: it calls `c::g`, which is not proved"
BOTH = f"{OWN}; it calls `c::g`, which is not proved"
GONE = "./proofs/f/Answers.antt:9:3: error: `returns`: `c.in-else` is not in scope"
FALSE = "./proofs/f/Answers.antt:8:3: error: `returns`: expected type `0 ≤ 1`"
STANDS = "fn c::f: not proved; it stands on `Rattle.c.proofs.{}.Answers.r`, which antt refuses"


def rests_on(*open_proofs):
    return "fn c::f: depends on a hole in " + ", ".join(
        f"`Rattle.c.proofs.{proof}`" for proof in open_proofs)


VERDICTS = {
    "own goals": (OWN, "refused"), "a callee alone": (CALLS, "unclear"),
    "own goals and a callee": (BOTH, "refused"), "another function": ("fn c::g: proved", "unclear"),
    "a longer name": (OWN.replace("c::f", "c::fg"), "unclear"),
    "a closure": (OWN.replace("c::f", "c::f::{closure}"), "refused"),
    "a closure of one that is proved":
        (f"fn c::f: no holes\n{OWN.replace('c::f', 'c::f::{closure}')}", "refused"),
    "proved": ("fn c::f: no holes", "proved"), "no answer": ("fn c::f: could not tell", "unclear"),
    "proved over open proofs": (rests_on("g.Proof.g_spec", "T.h.Proof.h_spec"), "proved"),
    "open itself": (rests_on("g.Proof.g_spec", "f.Proof.f_spec"), "unclear"),
    "an open lemma": (rests_on("g.Proof.g_spec", "Sums.most"), "unclear"),
    "answers that wait": ("fn c::f: not proved; it calls `c::g`, which is not proved", "unclear"),
    "an answer that is refused": (STANDS.format("f"), "refused"),
    "an answer of another that is refused": (STANDS.format("g"), "unclear"),
    "an answer with a name that is gone": (f"{GONE}\n{STANDS.format('f')}", "shape"),
    "false answers": (f"{FALSE}\nfn c::f: not proved", "refused"),
    "names that are gone": (f"{GONE}\nfn c::f: not proved", "shape"),
    "a name and an answer": (f"{GONE}\n{FALSE}\nfn c::f: not proved", "refused"),
}
CHAIN = """fn c::f: no proof: it calls `c::g` and `c::h`, which are not proved
fn c::g: no proof: expected answers in ./p; `search` did not prove `r`; it calls `c::i`, which is \
not proved
fn c::i: no proof: expected answers in ./p; `search` did not prove `r`
fn c::j: no proof: it calls `c::k`, which is not proved
"""
LEAST = "function: c::pairs::least\nmutant: m\nold: 0\n"
EDITS = {
    "a value": (f"{LEAST}new: 1\n", "    1\n"),
    "a comment and lines without text": (f"# A\n\n{LEAST}new: 1\n\n", "    1\n"),
    "a line that is twice in the file": ("function: c::pairs::Pair::left\nmutant: m\n"
                                         "old: self.left\nnew: 7\n", "        7\n    }\n}\n"),
    "a line that begins as another": ("function: c::pairs::PairClone::clone\nmutant: m\nold: Pair "
                                      "{ left: self.left }\nnew: Pair { left: 0 }\n",
                                      "Pair { left: 0 }"),
    "a constant": ("file: src/lib.rt\nnoticed by: c::pairs::least\nmutant: m\nold: mod pairs;\n"
                   "new: mod pears;\n", "mod pears;"),
    "a contract": ("function: c::pairs::Pair::left\nmutant: m\nold: ensures { result ≡ "
                   "self.now.left }\nnew: ensures { result ≡ 0 }\n", "ensures { result ≡ 0 }"),
    "a constant that nobody has to notice": ("file: src/lib.rt\nmutant: m\nold: mod pairs;\n"
                                             "new: mod p;\n", None),
    "a constant for a function that is not there":
        ("file: src/lib.rt\nnoticed by: c::most\nmutant: m\nold: mod pairs;\nnew: mod p;\n", None),
    "a function that is not there": (f"{LEAST}new: 1\n".replace("least", "most"), None),
    "a text that is not there": (f"{LEAST}new: 1\n".replace("old: 0", "old: 2"), None),
    "a text that is there twice": ("function: c::pairs::Pair::left\nmutant: m\nold: left\n"
                                   "new: l\n", None),
    "no function": ("mutant: m\nold: 0\nnew: 1\n", None),
    "no name": ("function: c::pairs::least\nold: 0\nnew: 1\n", None),
    "no name in the second block": (f"{LEAST}new: 1\nfunction: c::pairs::Pair::zero\nold: 0\n"
                                    "new: 1\n", None),
    "no new text": (LEAST, None), "no old text": (LEAST.replace("old", "new"), None),
    "two new texts": (f"{LEAST}new: 1\nnew: 2\n", None),
    "a text for a twin alone": (f"{LEAST}twin: 0 + 0\n", None),
    "a name that is there twice": (f"{LEAST}new: 1\n{LEAST}new: 2\n", None),
    "a key that nobody knows": (f"{LEAST}next: 1\n", None),
}
ALONE = {"a value": False, "a constant": True, "a contract": True}
BESIDE = f"{LEAST}new: 1\ntwin: 0 * 1\nold: -> u8\nnew: -> u64\n"


def test_names():
    assert set(functions_of("c", FILES)) == NAMES


@cases("said, due", VERDICTS)
def test_verdict(said, due):
    assert verdict_on("c::f", said)[0] == due


@cases("text, part", EDITS)
def test_edit(text, part):
    """The texts of the crate with the one edit of a file have a part, or it cannot be put in."""
    if part is None:
        with pytest.raises(BadEdit):
            edits_in("c", text)[0].put_in(FILES)
    else:
        assert part in "".join(edits_in("c", text)[0].put_in(FILES).values())


@pytest.mark.parametrize("name, is_alone", ALONE.items())
def test_edit_that_is_tried_alone(name, is_alone):
    assert edits_in("c", EDITS[name][0])[0].is_alone == is_alone


def test_twin():
    """A twin is its mutant with other texts; what is in neither is that of the crate."""
    mutant, twin = edits_in("c", BESIDE)
    assert (mutant.is_twin, mutant.pairs) == (False, (("0", "1"), ("-> u8", "-> u64")))
    assert (twin.is_twin, twin.pairs) == (True, (("0", "0 * 1"), ("-> u8", "-> u64")))
    assert mutant.twin == twin.pairs
    noticed = replace(twin, functions=frozenset("fg"))  # proved in each, and a mutant in one
    assert verdict(noticed, "fn f: no holes\nfn g: could not tell")[0] == "unclear"
    said = f"fn f: no holes\n{OWN.replace('c::f', 'g')}"
    assert verdict(replace(noticed, is_twin=False), said)[0] == "refused"


def test_no_such_mutant():
    assert edits_of(["lk_words/no_such"])[1] == ["lk_words/no_such: there is no such mutant"]


class Named:
    """An edit of a function, of which nothing else is asked."""

    def __init__(self, function):
        self.functions, self.is_alone = {function}, function == ""


def test_groups():
    """Edits of different functions are tried together, but for those to be apart or alone."""
    first, same, other, alone = map(Named, ("f", "f", "g", ""))
    new, known = dict.fromkeys((first, same, other, alone), 0), defaultdict(set)
    both = [first, same, other, alone]
    assert group_of(both, new, known) == [first, other]
    assert group_of(both, new, known | {"g": {"f"}}) == [first]
    assert group_of([alone, first], new, known) == [alone]
    assert group_of([first, other], {**new, first: TRIES}, known) == [first]
    assert unproved_below("c::f", CHAIN) == {"c::g", "c::h", "c::i"}
    assert unproved_below("c::i", CHAIN) == set()


CRATES, FAULTS = edits_of([])


def test_files_of_mutants():
    assert FAULTS == []


@pytest.mark.parametrize("edit", [edit for its in CRATES.values() for edit in its], ids=str)
def test_edit_of_a_crate(edit):
    """It can be put in, and changes a file."""
    source = TOP / "crates" / edit.crate / "src"
    files = {path.relative_to(source): path.read_text() for path in source.rglob("*.rt")}
    assert edit.put_in(files) != files


def test_what_was_tried_is_kept(tmp_path):
    """As long as nothing changes on which it rests."""
    top, crate, own = tmp_path / "top", Path("crates", "lk_words"), Path("tests", "prover")
    for part in PARTS:
        shutil.copytree(TOP / crate / part, top / crate / part)
    (top / own).mkdir(parents=True)
    for script in SCRIPTS:
        for path in (TOP / own).glob(script):
            shutil.copy(path, top / own)
    one, other = edits_in("lk_words", BESIDE)
    kept = Kept("lk_words", top, tmp_path / "kept")
    assert one not in kept
    kept.add(one)
    again = Kept("lk_words", top, tmp_path / "kept")
    assert one in again and other not in again
    source = top / crate / "src" / "lib.rt"
    source.write_text(source.read_text() + "\n")
    assert one not in Kept("lk_words", top, tmp_path / "kept")
    for change in ({"pairs": other.pairs}, {"twin": one.pairs}, {"place": ("file", "src/lib.rt")}):
        assert replace(one, **change) not in again


def test_what_is_kept_did_not_pass(tmp_path, monkeypatch):
    """What this run did not try counts as kept, and not as passed."""
    monkeypatch.setattr("try_mutants.Kept", lambda name: Kept(name, folder=tmp_path))
    edits = edits_in("lk_words", BESIDE)
    first = Crate("lk_words", edits, is_anew=False)
    assert list(ending([first], [])) == ["0 passed, 0 failed"]  # nothing was tried yet
    assert first.is_settled(edits[0], "refused", "", is_last=True)
    assert list(ending([first], ["a fault"])) == ["1 passed, 1 failed"]
    second = Crate("lk_words", edits, is_anew=False)
    assert [line.split()[3:7] for line in table([second])][1] == ["1", "1", "0", "0"]
    assert second.is_settled(edits[1], "proved", "", is_last=True)
    kept = "{} kept from earlier runs on this machine, and not tried"
    assert list(ending([second], [])) == [kept.format(1), "1 passed, 0 failed"]
    third = Crate("lk_words", edits, is_anew=False)
    third.run()
    assert list(ending([third], [])) == [kept.format(2), "0 passed, 0 failed"]
    assert Crate("lk_words", edits, is_anew=True).new == edits


def test_open_proofs(tmp_path):
    """All proofs but those of some functions, and of those that have one proof together, are left
    open, and no other time."""
    lab = Lab("lk_workers", tmp_path)
    proofs = {path: path.read_text() for path in sorted(tmp_path.rglob("proofs/**/*.antt"))}
    place = tmp_path / "proofs" / "many"
    lab.leave_open({"lk_workers::many::deal"})
    assert "place_all_spec = ?" in (place / "place_all" / "Proof.antt").read_text()
    assert not (place / "place_all" / "Answers.antt").exists()
    assert not (place / "deal" / "Proof.antt").exists()  # it is to be proved
    assert not (place / "work_all").exists()  # it is in a cycle
    lab.leave_open(set(functions_of(lab.crate, lab.files)))
    assert proofs == {path: path.read_text()
                      for path in sorted(tmp_path.rglob("proofs/**/*.antt"))}
