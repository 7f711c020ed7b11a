#!/usr/bin/env python3
"""Tries mutants, which have to be refused, and their right twins, which have to be proved.

    try_mutants.py [--lanes N] [--anew] [CRATE | CRATE/MISTAKE]...

All crates are tried if none is named.

A mutant is a change of one function by which it has a mistake. A twin is the same change with a
right value. So the mutant is refused for its value, and not because a loop, a call or a name
changed of which a proof speaks. `crates/NAME/mutants.txt` has both (mutant_edits.py).

Mutants of different functions of a crate are tried in one check. A mutant counts as refused only
if the check names its function with goals of its own; if all that is wrong is that a proof names
what the mutant took away, only if it has a twin. One that is unclear, since its function only
calls another that is not proved, is tried again without that one, and at last alone. A change of
what is no function, as a constant, is tried alone, and a function that its block names has to
notice it. A change of a contract is tried alone too, since callers read it.

Each check is over what earlier checks kept in `out`. Crates are tried side by side, as many as
there are lanes, the dearest first. What an earlier run on this machine tried is kept, and not tried
again, while nothing has changed on which it rests (mutants_kept.py), unless --anew is given.

Prints each one that fares as it must not, then a table, then how many are kept if there are any,
then `N passed, M failed`, which counts those that this run tried.
"""
import argparse
import os
import sys
import tempfile
import time
from collections import Counter, defaultdict
from concurrent.futures import ThreadPoolExecutor
from pathlib import Path

from mutant_checks import Lab, NotChecked, unproved_below, verdict_on
from mutant_edits import BadEdit, edits_in
from mutants_kept import Kept
from rattle_words import TOP, libraries_below

# Where folders of gigabytes are made: in Debian 13 /tmp is memory.
LARGE = os.environ.get("TMPDIR") or "/var/tmp"
SIZE = 24  # mutants in one check: more of them take more memory, and gain little
TRIES = 2  # in company that nothing speaks against, before an unclear one is tried alone


class Crate:
    """The mutants and twins of one crate, and how they fare."""

    def __init__(self, name, edits, is_anew):
        self.name, self.edits, self.faults = name, edits, []
        self.kept = Kept(name)
        self.new = [edit for edit in edits if is_anew or edit not in self.kept]
        self.tries = dict.fromkeys(edits, 0)
        self.apart = defaultdict(set)  # functions, by one of which nothing was clear beside them
        self.well = Counter()
        self.checks, self.seconds = 0, 0.0

    @property
    def kept_before(self):
        """How many an earlier run tried, so this one does not."""
        return len(self.edits) - len(self.new)

    def cost(self):
        """A measure of how long it takes: a check over more libraries takes longer."""
        return len(self.new) * (1 + len(libraries_below(self.name)))

    def run(self):
        if not self.new:
            return
        with tempfile.TemporaryDirectory(prefix=f"mutants-{self.name}-", dir=LARGE) as room:
            lab = Lab(self.name, Path(room))
            for is_twin in (False, True):
                self.try_all(lab, [edit for edit in self.new if edit.is_twin is is_twin])

    def try_all(self, lab, waiting):
        """Tries edits in groups; those that are left unclear wait for another group."""
        while waiting:
            group = group_of(waiting, self.tries, self.apart)
            rest = [edit for edit in waiting if edit not in group]
            waiting = rest + self.try_group(lab, group)

    def try_group(self, lab, group):
        """Tries edits in one check, and answers those that are to be tried again."""
        files, group = self.put_in(lab.files, group)
        if not group:
            return []
        try:
            said = self.check(lab, files, functions_in(group))
        except NotChecked as why:
            return self.without_those_in(lab, why, group)
        unclear = [edit for edit in group
                   if not self.is_settled(edit, *verdict(edit, said), len(group) == 1)]
        for edit in unclear:
            if not self.keeps_apart(edit, said, functions_in(group) - edit.functions):
                self.tries[edit] += 1
        return unclear

    def keeps_apart(self, edit, said, others):
        """Whether a check says that an edit's functions call others of the group, which was not
        known. They are tried apart from now on."""
        found = {(function, other) for function in edit.functions
                 for other in unproved_below(function, said) & others - self.apart[function]}
        for function, other in found:
            self.apart[function].add(other)
            self.apart[other].add(function)
        return bool(found)

    def check(self, lab, files, functions):
        """A check of the lab, which is counted."""
        began = time.monotonic()
        self.checks += 1
        try:
            return lab.check(files, functions)
        finally:
            self.seconds += time.monotonic() - began

    def put_in(self, files, group):
        """The files with each edit in them that can be put in, and these edits."""
        good = []
        for edit in group:
            try:
                files = edit.put_in(files)
                good.append(edit)
            except BadEdit as why:
                self.fault(edit, str(why))
        return files, good

    def without_those_in(self, lab, why, group):
        """After a check that did not reach the prover: those to try again. Each that changes one
        of the files with errors is tried alone."""
        if len(group) == 1:
            self.fault(group[0], f"the prover was not reached: {why}")
            return []
        for edit in group:
            if not why.files or edit.path(lab.files) in why.files:
                self.tries[edit] = TRIES
        return group

    def is_settled(self, edit, word, line, is_last):
        """Notes how an edit fared, if that is clear."""
        if word == "shape" and edit.twin:
            word = "refused"  # the twin, which has the same shape, is proved
        if word == due(edit):
            self.well[edit.is_twin] += 1
            self.kept.add(edit)
            return True
        if is_last or word == "shape":
            self.fault(edit, f"{word} {line[:160]}")
        return is_last or word == "shape"

    def fault(self, edit, text):
        self.faults.append(edit)
        print(f"FAILED {edit}: {text}", flush=True)


def functions_in(group):
    return set().union(*(edit.functions for edit in group))


def verdict(edit, said):
    """What a check says of an edit in it: a word of `verdict_on`, and a line. One function has to
    refuse a mutant; a twin has to be proved in each."""
    found = [verdict_on(function, said) for function in sorted(edit.functions)]
    return next((it for it in found if (it[0] == due(edit)) is not edit.is_twin), found[0])


def due(edit):
    """The word of an edit that fares as it must."""
    return "proved" if edit.is_twin else "refused"


def group_of(waiting, tries, apart):
    """The next edits to try together: of different functions, none of which is to be apart from
    another; or one that has to be alone."""
    first = waiting[0]
    if first.is_alone or tries[first] >= TRIES:
        return [first]
    group, functions = [], set()
    for edit in waiting:
        if len(group) < SIZE and not edit.is_alone and tries[edit] == tries[first] \
                and functions.isdisjoint(those_near(edit, apart)):
            group.append(edit)
            functions |= edit.functions
    return group


def those_near(edit, apart):
    """An edit's functions, and those that are to be apart from them."""
    return edit.functions.union(*(apart[function] for function in edit.functions))


def edits_of(words):
    """The edits of each crate that the words name, and what is wrong with them."""
    found, faults = {}, []
    for path in sorted(TOP.glob("crates/*/mutants.txt")):
        crate = path.parent.name
        try:
            found[crate] = edits_in(crate, path.read_text())
        except BadEdit as why:
            faults.append(f"{path.relative_to(TOP)}: {why}")
    for word in words:
        crate, _, name = word.partition("/")
        if not any(name in ("", edit.name) for edit in found.get(crate, [])):
            faults.append(f"{word}: there is no such mutant")
    return {crate: [edit for edit in edits
                    if not words or crate in words or f"{crate}/{edit.name}" in words]
            for crate, edits in found.items()}, faults


def table(crates):
    """How many are kept, and how many fared as they must in this run, a line a crate."""
    yield (f"{'crate':16}{'mutants':>9}{'twins':>7}{'kept':>7}{'tried':>7}{'refused':>9}"
           f"{'proved':>8}{'checks':>8}{'s':>7}")
    for crate in crates:
        twins = sum(edit.is_twin for edit in crate.edits)
        yield (f"{crate.name:16}{len(crate.edits) - twins:9}{twins:7}{crate.kept_before:7}"
               f"{len(crate.new):7}{crate.well[False]:9}{crate.well[True]:8}{crate.checks:8}"
               f"{crate.seconds:7.0f}")


def ending(crates, faults):
    """The lines after the table."""
    kept = sum(crate.kept_before for crate in crates)
    passed = sum(sum(crate.well.values()) for crate in crates)
    failed = len(faults) + sum(len(crate.faults) for crate in crates)
    if kept:
        yield f"{kept} kept from earlier runs on this machine, and not tried"
    yield f"{passed} passed, {failed} failed"


def main(words, lanes, is_anew):
    edits, faults = edits_of(words)
    print(*(f"FAILED {fault}" for fault in faults), sep="\n", end="\n" * bool(faults))
    crates = [Crate(name, its, is_anew) for name, its in edits.items() if its]
    with ThreadPoolExecutor(lanes) as pool:
        list(pool.map(Crate.run, sorted(crates, key=Crate.cost, reverse=True)))
    print(*table(crates), *ending(crates, faults), sep="\n")
    return 1 if faults or any(crate.faults for crate in crates) else 0


if __name__ == "__main__":
    parser = argparse.ArgumentParser(description=__doc__.splitlines()[0])
    parser.add_argument("--lanes", type=int, default=len(os.sched_getaffinity(0)),
                        help="crates that are tried side by side")
    parser.add_argument("--anew", action="store_true", help="tries what earlier runs tried too")
    parser.add_argument("words", nargs="*", metavar="CRATE | CRATE/MISTAKE")
    given = parser.parse_args()
    sys.exit(main(given.words, given.lanes, given.anew))
