"""Planted mistakes in the recorded locks in C: how to build a lock with one, and the tables of
mistakes/README.md, which say how many runs of each mode notice it.
"""
import os
import re
import shutil
import subprocess

from mistakes import PATCHES
from recorders import HERE, copied

LOCKS = ("mcs", "ticket", "rw_fifo")
EXPLORED = ("3", "1", "2")  # threads, rounds and preemptions
CHECKED = ["-DLR_MODE=SEED", "-DLR_CHECK"]
MODES = {
    "VALUES": ["-DLR_MODE=VALUES"],
    "NOISE": ["-DLR_MODE=VALUES", "-DLR_NOISE"],
    "SEED": [*CHECKED, "-DLR_ATOMICS=0", "-DLR_SPURIOUS=0"],
    "ATOMICS": [*CHECKED, "-DLR_SPURIOUS=0"],
    "SPURIOUS": [*CHECKED, "-DLR_SPURIOUS=8"],
    "PCT": [*CHECKED, "-DLR_SPURIOUS=0", "-DLR_PCT=3", "-DLR_STEPS=150"],
    "EXPLORE": ["-DLR_MODE=EXPLORE"],
    "FOLLOW": ["-DLR_MODE=FOLLOW", "-DLR_CHECK"],
}
REAL_MODES = ("VALUES", "NOISE")
TABLES = PATCHES / "README.md"
BEGIN, END = "<!-- tables -->", "<!-- end of the tables -->"
RUNS = 60


def read():
    """A map from (lock, mistake) to its row, {column: cell}."""
    rows, columns, lock = {}, [], ""
    for line in TABLES.read_text().split(END)[0].splitlines():
        lock = re.sub(r"^## .*`(\w+)\.c`.*", r"\1", line) if line.startswith("## ") else lock
        cells = [cell.strip().strip("`") for cell in line.strip("|").split("|")]
        if line.startswith("| Mistake "):
            columns = cells
        elif line.startswith("| `"):
            rows[lock, cells[0]] = dict(zip(columns, cells))
    return rows


def mistakes_of(lock):
    """(name, what the lock then does) of each mistake, in the tables' order, new ones last."""
    what = {path.stem: path.read_text().splitlines()[0]
            for path in sorted((PATCHES / "c" / lock).glob("*.patch"))}
    known = [name for of, name in read() if of == lock and name in what]
    return [("none", "nothing is planted"),
            *((name, what[name]) for name in dict.fromkeys([*known, *what]))]


MISTAKES = {lock: mistakes_of(lock) for lock in LOCKS}


def is_in_all(row, modes=MODES):
    """Whether all runs of one of the modes notice a mistake. A search counts as one run."""
    return any(row.get(mode) == str(RUNS) or re.match(r"\d+, \d+$|[1-9]\d*/\d+$", row.get(mode, ""))
               for mode in modes)


def table(lock, rows):
    yield from (f"## Planted in `{lock}.c`", "",
                f"| Mistake | What the lock does | {' | '.join(MODES)} |",
                "|---|---|" + "---|" * len(MODES))
    for name, what in MISTAKES[lock]:
        cells = " | ".join(rows.get((lock, name), {}).get(mode, "-") for mode in MODES)
        yield f"| `{name}` | {what} | {cells} |"
    yield ""


def write(found):
    """Writes the cells `found`, {(lock, mistake, mode): cell}, into the tables, and keeps all other
    cells."""
    rows = read()
    for (lock, name, mode), said in found.items():
        rows.setdefault((lock, name), {})[mode] = said
    text = TABLES.read_text()
    lines = [line for lock in LOCKS for line in table(lock, rows)]
    TABLES.write_text(f"{text.split(BEGIN)[0]}{BEGIN}\n" + "\n".join(lines)
                      + END + text.split(END)[1])


def on_one_core(name, program):
    """The command of a program in which one thread runs at a time: one core is fastest."""
    cores = sorted(os.sched_getaffinity(0))
    return ["taskset", "-c", cores[len(name) % len(cores)], program]


def build(lock, name, mode, library, folder, *flags):
    """Builds a copy of the lock with the mistake, on the driver of planted mistakes."""
    source = copied(folder, lock, None if name == "none" else name)
    shutil.copy(HERE / "planted_driver.h", source.with_name("driver.h"))
    shutil.copy(HERE / "stuck.h", source.parent)
    subprocess.run(["gcc", "-std=c11", "-O1", "-w", "-pthread", *MODES[mode], *flags,
                    "-o", folder / "program", source,
                    *([] if mode in REAL_MODES else [library])], check=True)
    return folder / "program"
