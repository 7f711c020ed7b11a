"""Which mutants and twins an earlier run on this machine tried, and found to fare as they must.

How one fares rests on the kit, on the crate and those below it, on the edit and its twin, and on
the scripts that try it. While none of these changes, it is not tried again, and counts as kept and
not as passed. Each has an empty file in FOLDER, named by a sum of all that it rests on. Delete the
folder to begin anew.
"""
import hashlib
import os
import subprocess
from pathlib import Path

from rattle_words import TOP, libraries_below, uses_of

FOLDER = Path(os.environ.get("XDG_CACHE_HOME") or Path.home() / ".cache", "lockreplay", "mutants")
PARTS = ("src", "specs", "proofs")
SCRIPTS = ("mutant*.py", "rattle_*.py")


class Kept:
    """Edits of one crate that fared as they must."""

    def __init__(self, crate, top=TOP, folder=FOLDER):
        self.folder, self.sum = folder, sum_of(crate, top)
        self.folder.mkdir(parents=True, exist_ok=True)

    def __contains__(self, edit):
        return self.file_of(edit).exists()

    def add(self, edit):
        self.file_of(edit).touch()

    def file_of(self, edit):
        """The file of an edit, which rests on its twin too: an edit with a twin may be refused for
        its shape."""
        texts = [str(edit), repr(edit.place), repr(edit.pairs), repr(edit.twin)]
        return self.folder / digest([self.sum.encode(), *(text.encode() for text in texts)])


def sum_of(crate, top):
    """A sum of all that the edits of a crate rest on, but for themselves."""
    crates, own = [crate, *sorted(libraries_below(crate))], top / "tests" / "prover"
    files = [path for name in crates for part in PARTS
             for path in sorted((top / "crates" / name / part).rglob("*")) if path.is_file()]
    files += [path for script in SCRIPTS for path in sorted(own.glob(script))]
    kit = subprocess.run(["rt", "version"], capture_output=True, check=True).stdout
    uses = repr([(name, uses_of(name)) for name in crates]).encode()
    named = [text for path in files
             for text in (str(path.relative_to(top)).encode(), path.read_bytes())]
    return digest([kit, uses, *named])


def digest(texts):
    """A sum of texts, in this order, each of which ends where it ends."""
    found = hashlib.sha256()
    for text in texts:
        found.update(b"%d:" % len(text))
        found.update(text)
    return found.hexdigest()
