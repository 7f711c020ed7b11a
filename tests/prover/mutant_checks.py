"""Checks a copy of a crate with several mutants in it, and reads what `rt check` says of each.

In the copy only the functions that a check is about are proved. The proof of each other function is
left open, so what is said of a function rests on the contracts of those that it calls. That these
meet their contracts is what the gate proves. So a check takes the time of its mutants' proofs, and
not of the crate's.

A function that is not proved is reported by its name, and hides no other. A caller of it can be
reported too, since its own goals wait for the callee's proof: that says nothing of the caller.
"""
import re
import shutil
import subprocess
from pathlib import Path

from rattle_functions import functions_of
from rattle_words import TOP, words_of

PARTS = ["src", "specs", "proofs"]
STATUSES = "no holes|depends on a hole|not proved|no proof|could not tell"
VERDICT = re.compile(rf"^fn (\S+): ({STATUSES})(.*)$", re.MULTILINE)
CALLED = re.compile(r"`(\S+?)`(?=(?:, `\S+?`| and `\S+?`)*, which (?:is|are) not proved)")
OWN_GOALS = re.compile(r"expected answers in|did not prove")
OPEN = re.compile(r"Rattle\.(\w+)\.proofs\.(\S+)\.Proof\.\w+_spec")
STANDS_ON = re.compile(r"`Rattle\.(\w+)\.proofs\.(\S+)\.Answers\.[^`]*`")
# Errors of a proof that names what an edit took away: they say nothing of the contract.
OF_NAMES = re.compile(r"has no field|is not in scope|has no `|was not admitted")
PROOF_FILES = ("Answers.antt", "Invariants.antt", "Proof.antt")
OPEN_PROOF = """use Rattle.{crate}.proofs.{path}.Statement.{{statement}}

pub {name}_spec : {{M : Type 1}} → statement M
{name}_spec = ?
"""


class NotChecked(Exception):
    """The check did not reach the prover; `files` are those in which it found errors."""

    def __init__(self, said):
        super().__init__(" ".join(said.strip().splitlines()[-3:])[:300])
        self.files = {Path(file) for file in re.findall(r"^src/(\S+?):\d+:\d+: error", said, re.M)}


class Lab:
    """A copy of a crate, in which a check proves some functions and leaves all others open."""

    def __init__(self, crate, folder):
        self.crate, self.folder = crate, folder
        self.words = [*words_of("check", crate, "out/incremental"), "--allow-holes"]
        for part in PARTS:
            if (TOP / "crates" / crate / part).is_dir():
                shutil.copytree(TOP / "crates" / crate / part, folder / part)
        (folder / "out").mkdir(exist_ok=True)
        self.files = {path.relative_to(folder / "src"): path.read_text()
                      for path in sorted((folder / "src").rglob("*.rt"))}
        self.proofs = {path: path.read_text() for name in PROOF_FILES
                       for path in (folder / "proofs").rglob(name)}
        self.in_cycles = {name for cycle in (folder / "proofs").rglob("+*")
                          for name in cycle.name.split("+")}

    def write(self, files):
        """Writes the files that differ from what is there."""
        for path, text in files.items():
            write(self.folder / "src" / path, text)

    def leave_open(self, functions):
        """Opens the proof of each function but these, and of those in a cycle of calls, which have
        one proof."""
        for name in functions_of(self.crate, self.files):
            path = name.split("::")[1:]
            folder = self.folder.joinpath("proofs", *path)
            is_open = name not in functions and self.in_cycles.isdisjoint(path)
            proof = OPEN_PROOF.format(crate=self.crate, path=".".join(path), name=path[-1])
            for file in (folder / name for name in PROOF_FILES):
                text = self.proofs.get(file)
                if is_open:
                    text = proof if file.name == "Proof.antt" else None
                write(file, text)

    def check(self, files, functions):
        """What a check of these functions with these files prints."""
        self.write(files)
        self.leave_open(functions)
        only = [f"--only={name.partition('::')[2]}" for name in sorted(functions)]
        ran = subprocess.run([*self.words, *only], cwd=self.folder, text=True, errors="replace",
                             stdout=subprocess.PIPE, stderr=subprocess.STDOUT, check=False)
        self.write(self.files)
        if not re.search(r"^(logic|only)=", ran.stdout, re.MULTILINE):
            raise NotChecked(ran.stdout)
        return ran.stdout


def write(file, text):
    """Makes a file hold a text if it does not; no text, no file."""
    if text is None:
        file.unlink(missing_ok=True)
    elif not file.exists() or file.read_text() != text:
        file.parent.mkdir(parents=True, exist_ok=True)
        file.write_text(text)


def verdict_on(function, said):
    """Whether a function, with its closures, is `proved` or `refused` by goals of its own, `shape`
    if only a proof does not fit it any more, or `unclear`; and the line that says it."""
    found = [(word_for(name, status, more, said), f"{name}: {status}{more}")
             for name, status, more in VERDICT.findall(said)
             if name == function or name.startswith(f"{function}::")]
    order = ("refused", "shape", "unclear", "proved")
    return min(found, key=lambda it: order.index(it[0]), default=("unclear", ""))


def unproved_below(function, said):
    """The functions that are not proved and that a function calls, itself or through others."""
    calls = {}
    for name, _, more in VERDICT.findall(said):
        calls.setdefault(name.partition("::{")[0], set()).update(CALLED.findall(more))
    found, waiting = set(), [function]
    while waiting:
        new = calls.get(waiting.pop(), set()) - found
        found |= new
        waiting += new
    return found


def word_for(name, status, more, said):
    """The word of `verdict_on` for one line of a check."""
    if status == "no holes" or status == "depends on a hole" and rests_on_others(name, more):
        return "proved"
    if OWN_GOALS.search(more):
        return "refused"
    if status == "not proved" and (not more or stands_on_own(name, more)):
        return "shape" if is_shape_alone(name, said) else "refused"
    return "unclear"


def rests_on_others(function, more):
    """Whether all that a line says to be open are proofs of other functions."""
    found = [OPEN.fullmatch(hole) for hole in re.findall(r"`([^`]*)`", more)]
    return bool(found) and all(hole and named(*hole.groups()) != function for hole in found)


def stands_on_own(function, more):
    """Whether a line says that an answer in the function's own proof is refused."""
    return any(named(*answer) == function
               for answer in STANDS_ON.findall(more.partition(", which antt refuses")[0]))


def named(crate, path):
    """A function by its crate and the place of its proof."""
    return "::".join([crate, *path.split(".")])


def is_shape_alone(function, said):
    """Whether each error in the function's proof is about a name that is gone."""
    folder = "/".join(function.split("::")[1:])
    errors = re.findall(rf"^\./proofs/{re.escape(folder)}/\S+: error: (.*)$", said, re.MULTILINE)
    return bool(errors) and all(map(OF_NAMES.search, errors))
