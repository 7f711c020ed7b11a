"""The rows of tests/rows/locktrace: runs of `locktrace` with all that they write.

A file of rows has lines that begin with `@`, and the lines after them:

    @row NAME              a row begins, with no files
    @file NAME LINE        a file of the row: LINE and those after it, where `; ` ends a line too
    @run WORDS => STATUS   a run of the program with these arguments, which ends with this status
    @out LINE, @err LINE   the standard output and standard error of the run, empty if left out:
                           LINE, if it is there, and the lines after it

A line that begins with `//` before the first file or run of a row is a comment. `\\e` is the byte
27. The files of a row, and those that its runs write, are there until the row ends.
"""
import shlex

from tree import ROWS


class Run:
    """The arguments of a run, its status, and the lines of its outputs."""

    def __init__(self, rest):
        words, _, status = rest.rpartition(" => ")
        self.words, self.status = shlex.split(words), int(status)
        self.lines = {"@out": [], "@err": []}

    @property
    def due(self):
        return text_of(self.lines["@out"]), text_of(self.lines["@err"]), self.status


class Row:
    def __init__(self, name):
        self.name, self.files, self.runs = name, {}, []

    def write_files(self, folder):
        for file, lines in self.files.items():
            (folder / file).write_text(text_of(lines).replace("; ", "\n"))


def text_of(lines):
    return "".join(line.replace("\\e", "\x1b") + "\n" for line in lines)


def rows_in(path):
    """The rows of a file. An empty line before `@row` separates rows, and is no output."""
    rows, lines = [], None
    for line in path.read_text().replace("\n\n@row", "\n@row").splitlines():
        word, _, rest = line.partition(" ")
        if word == "@row":
            rows.append(Row(rest))
            lines = None
        elif word == "@file":
            name, _, first = rest.partition(" ")
            lines = rows[-1].files[name] = [first]
        elif word == "@run":
            rows[-1].runs.append(Run(rest))
            lines = None
        elif word in ("@out", "@err"):
            lines = rows[-1].runs[-1].lines[word] = [rest] if rest else []
        elif lines is not None:
            lines.append(line)
        elif not line.startswith("//"):
            raise ValueError(f"{path.name}: a line of nothing: {line}")
    return rows


def transcripts():
    """A map from the name of the file and of the row to the row."""
    return {f"{path.stem}: {row.name}": row for path in sorted((ROWS / "locktrace").glob("*.txt"))
            for row in rows_in(path)}
