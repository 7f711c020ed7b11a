"""Searches of the models in bench/spin, as SPIN compiles them.

SPIN makes a program, `pan`, from a model. The options here:

    spin -o3      each statement is a transition of its own: SPIN would merge some
    -DNOREDUCE    all orders of steps are searched: SPIN would leave out some that come to the same
    -DSAFETY      without the search for cycles, which the counts do not need, and which is slower
    -DBFS         breadth first, so that the depth is the longest of the shortest runs; without it
                  the search goes depth first

`pan` counts the initial state as a transition, which is taken off here.
"""
import pathlib
import re
import subprocess

MODELS = pathlib.Path(__file__).resolve().parent / "spin"
COUNTING = "ticket", "rw-fifo"  # locks whose words count what was done
ANY = "any"  # rounds without a bound, as in tests/rows/spaces.txt
WIDEST = 8  # the words of the models are bytes; a count that stays below 256 has no need of more
STATES = re.compile(r"^ *(\d+) states, stored$", re.MULTILINE)
TRANSITIONS = re.compile(r"^ *(\d+) transitions \(= stored\+matched\)$", re.MULTILINE)
DEPTH = re.compile(r"depth reached (\d+), errors: 0$", re.MULTILINE)


def fits(space):
    """Whether no count of a lock's words goes beyond those of the model."""
    if space.rounds == ANY:
        return space.bits <= WIDEST or space.lock not in COUNTING
    return space.threads * space.rounds < 1 << WIDEST


def build(space, folder, *options):
    """Compiles the model of a space in a folder; the path of the program."""
    if not fits(space):
        raise SystemExit(f"{space}: the model's words are too narrow")
    model = MODELS / f"{space.lock.replace('-', '_')}.pml"
    words = [f"-DTHREADS={space.threads}", f"-DBITS={min(space.bits, WIDEST)}"]
    if space.rounds != ANY:
        words.append(f"-DROUNDS={space.rounds}")
    subprocess.run(["spin", "-a", "-o3", *words, model], cwd=folder, check=True)
    subprocess.run(["cc", "-O2", "-DSAFETY", "-DNOREDUCE", *options, "-o", "pan", "pan.c"],
                   cwd=folder, check=True)
    return pathlib.Path(folder) / "pan"


def command(program):
    """How `pan` is called. Its limit of 10,000 moves for a run is far above what a run of a few
    rounds has: but for failed polls, which lead back to their state, none comes near it."""
    return [program, "-n"]  # without a list of code that was never reached


def figures(output):
    """States, transitions and depth, as `pan` prints them. A search that was cut off has none."""
    if "max search depth too small" in output or "Search not completed" in output:
        raise SystemExit(f"pan did not search the whole space:\n{output}")
    found = [pattern.search(output) for pattern in (STATES, TRANSITIONS, DEPTH)]
    if not all(found):
        raise SystemExit(f"pan printed no counts:\n{output}")
    states, transitions, depth = (int(match[1]) for match in found)
    return states, transitions - 1, depth
