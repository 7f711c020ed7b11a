"""The list of definitions in docs/PROOF.md names the files of crates/*/specs.

The first line of a file of specs/ says whether it has "Definitions", which a reader has to believe,
or "Invariants", which nobody has to believe. Under "What a reader must believe", the item of a
crate has to name each file of definitions in backticks, and nothing else.
"""
import re

import pytest

from tree import TOP

PART = re.compile(r"\(`crates/(\w+)/specs`\)")


def kinds_of(crate):
    """A map from each file in a crate's specs to its kind."""
    found = {}
    for path in sorted((TOP / "crates" / crate / "specs").rglob("*.antt")):
        if path.stem not in ("Lib", "invariants") and "invariants" not in path.parts:
            kind = re.match(r"-- (Definitions|Invariants)\b", path.read_text())
            found[path.stem] = kind.group(1) if kind else "neither"
    return found


def parts_of(document):
    """A map from each crate to its item in the section about what to believe."""
    section = document.split("\n## What a reader must believe\n")[1].split("\n## ")[0]
    pieces = PART.split(section)
    items = (re.split(r"\n- |\n\n", piece)[0] for piece in pieces[2::2])
    return dict(zip(pieces[1::2], items))


@pytest.mark.parametrize("crate", sorted(path.parent.name for path in TOP.glob("crates/*/specs")))
def test_definitions_are_named(crate):
    kinds = kinds_of(crate)
    text = parts_of((TOP / "docs" / "PROOF.md").read_text()).get(crate, "")
    assert "neither" not in kinds.values(), kinds
    assert set(re.findall(r"`(\w+)`", text)) == {
        name for name, kind in kinds.items() if kind == "Definitions"}
