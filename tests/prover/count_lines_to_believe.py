#!/usr/bin/env python3
"""Counts the lines of the definitions that a reader of each claim must believe.

    tests/prover/count_lines_to_believe.py [ROOT]

It prints a line for each claim. With a root it prints the definitions that the root reaches, by
file, with their lines. A root is a definition, as `lk_replay/specs/Whole.IsReportOfText`, or the
contract of a function, as `lk_why/src/verdict.verdict_on()`.

It follows each name to its definition in the specs of any crate, or to a type of the code. It ends
with a message if an imported name has no definition. Blank lines, comments, attributes and `use`
lines do not count. Neither do names of the kit: those of std, those of its other crates, and
`sameb` of `denote.Enum.Bare`. The `ghost view` of a type, by which a contract speaks of its values,
is not followed.
"""

import re
import sys
from pathlib import Path

CRATES = Path(__file__).resolve().parents[2] / "crates"
CLAIMS = {
    "main theorem": ["lk_locks/specs/MainTheorem.EveryRunIsAsPromised"],
    "never stuck": ["lk_locks/specs/Progress.NoRunIsStuck"],
    "nobody starves": ["lk_locks/specs/Starvation.IsStarvationFree"],
    "bytes to bytes": ["lk_replay/specs/Whole.IsReportOfText"],
    "traces": ["lk_text/src/follow.follow_input()"],
    "searches": ["lk_search/src/shortest.first_meeting()", "lk_search/src/shortest.shortest_run()",
                 "lk_search/src/cycle.find_cycle()", "lk_search/src/space.explore()"],
    "why": ["lk_why/src/verdict.verdict_on()"],
}

# an import of definitions, of modules, or of the code's types; and one between files of the code
IMPORT = re.compile(r"\s*(?:pub |ghost )?use Rattle\.(\w+)\.specs\.([\w.]*?)\.?"
                    r"(?:\{(.*)\}|(\w+(?: as \w+)?));?$")
CODE_USE = re.compile(r"^use (crate|\w+)((?:::\w+)*)::(?:\{(.*?)\}|(\w+));", re.M | re.S)
OPENS = re.compile(r" *(?:(?:abbrev|unfoldable) pub|pub (?:record|data|type)|"
                   r"(?:pub(?:\(\w+\))? )?(?:enum|struct)) +([\w◌>=]+)")
FUNCTION = re.compile(r"( *)(?:pub(?:\(\w+\))? )?fn (\w+)")
CASE = re.compile(r"  (\w+) : ")
CLAUSE = re.compile(r" *(?:requires|ensures)\b")
NO_DEFINITION = re.compile(r"\s*(?:--|//|#\[|$)|(?:pub )?(?:use|mod|module|infixl) ")
NAME = re.compile(r"(?<![\w.])([A-Za-z_]\w*|>>=)(?:\.([A-Za-z_]\w*))?")
# both are uses of the operator
BIND = {"do": "◌>>=◌", ">>=": "◌>>=◌"}


class Definitions:
    """The definitions of one file, with their lines. A file of the code has types, and the clauses
    of functions. `home` has the definition of each name, which may be one of its cases, and
    `means` the path of each imported name."""

    def __init__(self, path):
        text = path.read_text().splitlines()
        self.lines, self.home, self.means = {}, {}, {}
        for line in text:
            if found := IMPORT.match(line):
                self.add_import(*found.groups())
        self.add_definitions(text, path.suffix == ".rt")
        if path.suffix == ".rt":
            self.add_contracts(text)
            self.add_code_uses(path)

    def add_definitions(self, text, is_code):
        name = is_data = None
        for line in text:
            if opens := OPENS.match(line):
                name, is_data = opens[1], "pub data" in line
                self.home[name] = name
            elif is_data and (case := CASE.match(line)):
                self.home[case[1]] = name
            if name and not NO_DEFINITION.match(line):
                self.lines.setdefault(name, []).append(line)
            if is_code and (line == "}" or opens and line.endswith((";", "}"))):
                name = None

    def add_import(self, crate, path, names, one):
        for it in (names or one).split(","):
            name, _, alias = it.strip().partition(" as ")
            if (CRATES / crate).is_dir():
                self.means[alias or name] = [crate, *filter(None, path.split(".")), name]

    def add_code_uses(self, path):
        own = path.relative_to(CRATES).parts[0]
        for crate, modules, names, one in CODE_USE.findall(path.read_text()):
            crate = own if crate == "crate" else crate
            if (CRATES / crate).is_dir():
                for it in re.findall(r"[\w:]*\b[A-Z]\w*", names or one):
                    parts = [*filter(None, modules.split("::")), *it.split("::")]
                    self.means.setdefault(parts[-1], [crate, "declared", *parts])

    def add_contracts(self, text):
        """The clauses of a function are between its signature and the brace of its body."""
        name = indent = None
        for line in text:
            if opens := FUNCTION.match(line):
                indent, name, in_clauses = opens[1], f"{opens[2]}()", False
            elif name and (line in (f"{indent}{{", f"{indent}{{}}") or line.endswith(";")):
                name = None
            elif name and not NO_DEFINITION.match(line):
                in_clauses = in_clauses or CLAUSE.match(line)
                self.home[name] = name
                self.lines.setdefault(name, []).extend([line] if in_clauses else [])

    def named_in(self, definition, locate):
        """Each (file, name) to which the text of a definition refers."""
        for first, second in NAME.findall("\n".join(self.lines[definition])):
            first = BIND.get(first, first)
            if first in self.home:
                yield None, first
            elif first in self.means:
                file, name = locate(self.means[first])
                if file and (name or second):
                    yield file, name or second


class Files:
    """All files of definitions and of code, by crate, folder and module."""

    def __init__(self):
        self.files = {}
        for crate in (path.name for path in CRATES.iterdir()):
            for folder, pattern in (("specs", "*.antt"), ("src", "*.rt")):
                for path in (CRATES / crate / folder).rglob(pattern):
                    parts = path.relative_to(CRATES / crate / folder).with_suffix("").parts
                    self.files[f"{crate}/{folder}/{'.'.join(parts)}"] = Definitions(path)

    def locate(self, path):
        """The file of a path, and its name in it; no name if the path is that of the file."""
        crate, *parts = path
        folder = "specs"
        if parts[0] in ("declared", "contracts"):
            folder, parts = "src", parts[1:]
        for end in range(len(parts), 0, -1):
            file = f"{crate}/{folder}/{'.'.join(parts[:end])}"
            if file in self.files:
                return file, (parts[end:] or [None])[0]
        if folder == "specs":
            return f"{crate}/specs/Lib", parts[0]
        return next((file for file, of in self.files.items() if parts[-1] in of.home
                     and file.startswith(f"{crate}/src/")), None), parts[-1]

    def reached(self, roots):
        """The definitions that the roots reach, themselves included."""
        seen, waiting = set(), [tuple(root.rsplit(".", 1)) for root in roots]
        while waiting:
            file, name = waiting.pop()
            of = self.files.get(file)
            if not of or name not in of.home and name not in of.means:
                sys.exit(f"no definition {file}.{name}")
            if name not in of.home:
                # a file passes on what it imports by `pub use`
                waiting.append(self.locate(of.means[name]))
            elif (file, of.home[name]) not in seen:
                name = of.home[name]
                seen.add((file, name))
                waiting += [(to or file, it) for to, it in of.named_in(name, self.locate)]
        return seen

    def counts(self, found):
        """The number of lines of each definition."""
        return {(file, name): len(self.files[file].lines[name]) for file, name in sorted(found)}


def print_claims(files):
    print(f"{'claim':14}{'lines':>6}{'definitions':>13}  roots in")
    for claim, roots in CLAIMS.items():
        counts = files.counts(files.reached(roots))
        where = ", ".join(dict.fromkeys(root.rsplit(".", 1)[0] for root in roots))
        print(f"{claim:14}{sum(counts.values()):6}{len(counts):13}  {where}")


def print_definitions(files, root):
    counts = files.counts(files.reached([root]))
    for file in dict.fromkeys(file for file, _ in counts):
        here = {name: count for (of, name), count in counts.items() if of == file}
        listed = ", ".join(f"{name} {count}" for name, count in here.items())
        print(f"{file:28}{sum(here.values()):5}  {listed}")
    print(f"{sum(counts.values())} lines in {len(counts)} definitions")


def main():
    files = Files()
    if len(sys.argv) > 1:
        print_definitions(files, sys.argv[1])
    else:
        print_claims(files)


if __name__ == "__main__":
    main()
