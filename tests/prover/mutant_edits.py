"""The mutants of a crate and their right twins, and the texts of the crate with one put in.

The file `crates/NAME/mutants.txt` has blocks, and mutants in each:

    function: NAME::module::function

    mutant: MISTAKE
    old: TEXT
    new: TEXT
    twin: TEXT

The function is named as `rt check` names it. `old` is one line of it, or in it once, and becomes
`new`; spaces around a text do not count. More such pairs can follow. The twin of a mutant is the
same change with the text after `twin:` in the place of `new`; a pair without one is as in the
mutant. No `twin:` at all, no twin.

For what is in no function, as a constant, a block begins with `file: src/FILE.rt`, and `old` is in
that file once. Lines `noticed by: NAME::module::function` then name the functions, of those that
use it, one of which must refuse the mistake. A line that begins with `#` is a comment.
"""
import re
from dataclasses import dataclass
from pathlib import Path

from rattle_functions import functions_of

CLAUSES = ("requires", "ensures")


class BadEdit(Exception):
    """Why an edit cannot be read or put in."""


@dataclass(frozen=True)
class Edit:
    """A mutant or a twin. `functions` are those that it changes, or that notice what it changes
    outside of functions; `twin` are the pairs of a mutant's twin, if it has one."""

    crate: str
    name: str
    is_twin: bool
    place: tuple  # `function` or `file`, and which
    functions: frozenset
    pairs: tuple  # old text and new text of each
    twin: tuple = ()

    def __str__(self):
        return f"{self.crate}/{self.name}" + (", its twin" if self.is_twin else "")

    @property
    def is_alone(self):
        """Whether it changes what is in no function, or a contract, which callers read too."""
        return self.place[0] == "file" or any(old.startswith(CLAUSES) for old, _ in self.pairs)

    def path(self, files):
        """The file that it changes, by its path below `src`."""
        key, place = self.place
        if key == "file":
            return Path(place).relative_to("src")
        return functions_of(self.crate, files)[place][0]

    def put_in(self, files):
        """The texts of a crate's files, by their paths below `src`, with the edit in them."""
        missing = sorted(self.functions - set(functions_of(self.crate, files)))
        if missing:
            raise BadEdit(f"there is no function {missing[0]}")
        key, place = self.place
        change = in_function if key == "function" else in_file
        for old, new in self.pairs:
            files = change(self.crate, files, place, old, new)
        return files


class Reader:
    """Reads the lines of a file of mutants; `pairs` are those of the mutant that is open."""

    def __init__(self):
        self.place, self.functions, self.pairs, self.found = None, frozenset(), None, []

    def read(self, line):
        key, _, text = (part.strip() for part in line.partition(":"))
        last = self.pairs[-1] if self.pairs else {}
        if key in ("function", "file"):
            self.place, self.pairs = (key, text), None
            self.functions = frozenset([text] if key == "function" else [])
        elif key == "noticed by" and self.place and self.pairs is None:
            self.functions |= {text}
        elif key == "mutant" and self.functions:
            self.pairs = []
            self.found.append((text, self.place, self.functions, self.pairs))
        elif key == "old" and self.pairs is not None:
            self.pairs.append({key: text})
        elif key in ("new", "twin") and last and key not in last:
            last[key] = text
        else:
            raise BadEdit(f"a line that has no place here: {line}")


def edits_in(crate, text):
    """The mutants and twins of a crate, by the text of its file."""
    reader = Reader()
    for line in text.splitlines():
        if line.strip() and not line.startswith("#"):
            reader.read(line)
    names = [name for name, *_ in reader.found]
    if twice := next((name for name in names if names.count(name) > 1), None):
        raise BadEdit(f"{twice} is there twice")
    return [edit for found in reader.found for edit in edits_of(crate, *found)]


def edits_of(crate, name, place, functions, pairs):
    """A mutant, and its twin if it has one."""
    if not pairs or any(pair.keys() - {"twin"} != {"old", "new"} for pair in pairs):
        raise BadEdit(f"{name} has no pairs, or one that is not whole")
    has_twin = any("twin" in pair for pair in pairs)
    twin = tuple((pair["old"], pair.get("twin", pair["new"])) for pair in pairs) * has_twin
    mutant = tuple((pair["old"], pair["new"]) for pair in pairs)
    yield Edit(crate, name, False, place, functions, mutant, twin)
    if twin:
        yield Edit(crate, name, True, place, functions, twin)


def changed(text, old, new, place):
    """The text with the one line that is `old`, or the one part that is, made `new`."""
    lines = re.findall(rf"(?m)^[ \t]*{re.escape(old)}$", text)
    whole = lines[0] if len(lines) == 1 else None
    if whole is None and text.count(old) != 1:
        raise BadEdit(f"{old!r} is in {place} {text.count(old)} times, and not once")
    if whole is None:
        return text.replace(old, new)
    return re.sub(rf"(?m)^{re.escape(whole)}$", lambda _: whole.replace(old, new), text)


def in_function(crate, files, name, old, new):
    path, first, last = functions_of(crate, files)[name]
    lines = files[path].split("\n")
    text = changed("\n".join(lines[first:last + 1]), old, new, name)
    return {**files, path: "\n".join([*lines[:first], text, *lines[last + 1:]])}


def in_file(_crate, files, name, old, new):
    path = Path(name).relative_to("src")
    if path not in files:
        raise BadEdit(f"there is no file {name}")
    return {**files, path: changed(files[path], old, new, name)}
