"""The worked rows: texts, and the reports that a person wrote down for them.

They are in three kinds of files:

    examples/NAME.schedule, NAME.report      lessons
    tests/rows/NAME.schedule, NAME.report    whole reports that are no lesson
    tests/rows/TABLE.txt                     a text and its report on one line; the head of
                                             texts.txt says how they are written

examples/limits.sh prints the two texts that are too large to lie in examples/. Functions make the
rows that are in no file: `mcs_queue_of_64`, `most_moves`, and the many of `short_rows`.
"""
import itertools
import pathlib
import re
import subprocess
from typing import NamedTuple

TOP = pathlib.Path(__file__).resolve().parents[2]
EXAMPLES, ROWS = TOP / "examples", TOP / "tests" / "rows"
TABLES = ["texts", "refusals", "limits"]
EARLIER = b"..\n"  # stands for the first lines of a report, which a row leaves out
ESCAPES = {"|": "\n", r"\r": "\r", r"\0": "\0"}


class Row(NamedTuple):
    """A text with its report. A piece of the text is some bytes, and how often they repeat."""
    name: str
    pieces: list
    report: bytes

    @property
    def text(self):
        return b"".join(piece * times for piece, times in self.pieces)

    def is_met_by(self, report):
        if self.report.startswith(EARLIER):
            return report.endswith(b"\n" + self.report[len(EARLIER):])
        return report == self.report

    def status(self):
        """The exit status of a replay: 0 if it accepts every move."""
        return 0 if self.report.splitlines()[-1].startswith(b"end ") else 1


def pairs(folder):
    """A row for each file `NAME.report`. A schedule without a report is a mistake."""
    names = {file.stem for file in folder.glob("*.report")}
    lone = sorted({file.stem for file in folder.glob("*.schedule")} - names)
    if lone:
        raise ValueError(f"{folder}: no report of {', '.join(lone)}")
    for name in sorted(names):
        schedule = folder / f"{name}.schedule"
        text = schedule.read_bytes() if schedule.exists() else too_large(name)
        yield Row(name, [(text, 1)], (folder / f"{name}.report").read_bytes())


def too_large(name):
    return subprocess.run([EXAMPLES / "limits.sh", name], capture_output=True, check=True).stdout


def plain(written):
    """The bytes for which a table writes escapes."""
    return re.sub(r"\||\\(?:[r0]|x([0-9a-f]{2}))", lambda found: ESCAPES.get(found[0]) or chr(
        int(found[1], 16)), written).encode("latin-1")


def pieces_of(written):
    return [(plain(piece or once), int(times or 1)) for piece, times, once
            in re.findall(r"\(([^()]+)\)\*(\d+)|([^()]+)", written)]


def alternatives(*written):
    """The texts for which some with `{A, B}` stand. Braces at the same place of several texts go
    together: each has its first, or each its second."""
    parts = [[part.split(", ") if at % 2 else [part] for at, part in
              enumerate(re.split(r"\{(.*?)\}", text))] for text in written]
    if any(list(map(len, text)) not in ([1], list(map(len, parts[0]))) for text in parts):
        raise ValueError(f"other braces: {written}")
    for chosen in itertools.product(*(range(len(part)) for part in parts[0])):
        yield ["".join(part[at] for part, at in zip(text, chosen)) for text in parts]


def lines_of(path):
    """The place of each row of a table, and the parts around ` => `. `//` begins a comment."""
    for number, line in enumerate(path.read_text().splitlines(), 1):
        if line and not line.startswith("//"):
            first, arrow, second = line.partition(" => ")
            if not arrow:
                raise ValueError(f"{path.name}:{number}: no ` => `")
            for name, text in alternatives(first, second):
                yield f"{path.name}:{number}: {name[:80]}", name, text


def table(name):
    """The rows of tests/rows/NAME.txt."""
    for place, text, report in lines_of(ROWS / f"{name}.txt"):
        if not report.endswith("|"):
            raise ValueError(f"{place}: the report's last line does not end")
        yield Row(place, pieces_of(text), plain(report))


def narrowest(row):
    """The row in the narrowest words, if it is a schedule that names no width.

    A report does not depend on the width while words have more values than there are threads.
    """
    header = re.search(rb"^lock \S+ threads (\d+)$", row.text, re.MULTILINE)
    if header is None or row.report.splitlines()[-1].startswith(b"fault "):
        return None
    bits = max(2, int(header[1]).bit_length())
    text = row.text[:header.end()] + b" bits %d" % bits + row.text[header.end():]
    return Row(f"{row.name} in {bits} bits", [(text, 1)], row.report)


def mcs_queue_of_64():
    """Every thread swaps the tail, and none links itself: the queue has the order of the swaps."""
    text, report, queue, number = ["lock mcs threads 64"], [], [], 0
    for thread in range(64):
        for word in ("acquire", "write", "swap"):
            number += 1
            outcome = "called" if word == "acquire" else "moved"
            if word == "swap":
                queue.append(str(thread))
                outcome = "entered" if thread == 0 else "moved"
            text.append(f"{thread} {word}")
            report.append(f"{number} {thread} {word} {outcome} hold {'0' if queue else '-'} "
                          f"queue {','.join(queue) or '-'}")
    return Row("mcs_queue_of_64", [("\n".join(text + [""]).encode(), 1)],
               "\n".join(report + ["end 192", ""]).encode())


def most_moves():
    """65,536 moves: two threads join the queue, and the second polls to the limit of moves."""
    text = b"lock ticket threads 2\n0 acquire\n0 add\n1 acquire\n1 add\n"
    report = ["1 0 acquire called hold - queue -", "2 0 add moved hold - queue 0",
              "3 1 acquire called hold - queue 0", "4 1 add moved hold - queue 0,1"]
    report += [f"{number} 1 read waits hold - queue 0,1" for number in range(5, 65_537)]
    return Row("most_moves", [(text, 1), (b"1 read\n", 65_532)],
               "\n".join(report + ["end 65536", ""]).encode())


def crowd():
    """64 threads join the queue of a ticket lock, and the last polls to the limit of moves."""
    text, report, queue = ["lock ticket threads 64"], [], "-"
    for thread in range(64):
        number = 2 * thread + 1
        report.append(f"{number} {thread} acquire called hold - queue {queue}")
        queue = ",".join(map(str, range(thread + 1)))
        report.append(f"{number + 1} {thread} add moved hold - queue {queue}")
        text += [f"{thread} acquire", f"{thread} add"]
    report += [f"{number} 63 read waits hold - queue {queue}" for number in range(129, 65_537)]
    return Row("crowd", [("\n".join(text + [""]).encode(), 1), (b"63 read\n", 65_536 - 128)],
               "\n".join(report + ["end 65536", ""]).encode())


def rows():
    """Every row."""
    whole = [*pairs(EXAMPLES), *pairs(ROWS)]
    yield from whole
    yield from filter(None, map(narrowest, whole))
    for name in TABLES:
        yield from table(name)
    yield mcs_queue_of_64()
    yield most_moves()


def hand_over():
    """The lines of a lesson without its comments, and those of its report."""
    schedule, report = [(EXAMPLES / f"ticket-hand-over.{kind}").read_bytes().splitlines(True)
                        for kind in ("schedule", "report")]
    return [line for line in schedule if line[:1] != b"#"], report


def cuts():
    """The schedule of a hand-over, cut after each byte. A word that is cut is no other word."""
    lines, report = hand_over()
    text, header = b"".join(lines), len(lines[0])
    for k in range(len(text) + 1):
        _, _, rest = text[:k].rpartition(b"\n")
        moves = text[:k].count(b"\n") - 1
        if k == 0:
            due = b"fault line 1 NoHeader\n"
        elif k < header - 1:
            due = b"fault line 1 BadThreads\n" if k == header - 2 else b"fault line 1 BadHeader\n"
        elif k == header - 1:
            due = b"end 0\n"
        elif rest not in (b"", lines[moves + 1].rstrip() if moves + 1 < len(lines) else b""):
            due = b"fault line %d BadLine\n" % (moves + 2)
        else:
            moves += rest != b""
            due = b"".join(report[:moves]) + b"end %d\n" % moves
        yield Row(f"a hand-over cut after {k} bytes", [(text[:k], 1)], due)


def last_bytes():
    """A move and one byte after it: LF ends the line, and any other byte spoils the word."""
    for byte in range(256):
        due = b"fault line 2 BadLine\n"
        if byte == 10:
            due = b"1 0 acquire called hold - queue -\nend 1\n"
        text = b"lock ticket threads 1\n0 acquire" + bytes([byte])
        yield Row(f"a move and the byte {byte}", [(text, 1)], due)


def short_rows():
    """Rows whose texts differ only at the end."""
    yield from cuts()
    yield from last_bytes()
