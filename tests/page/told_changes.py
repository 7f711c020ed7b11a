"""What built/why and docs/LOCKS.md say of each lock's code: its lines, and the changes of steps.

built/why has the output of `locktrace why LOCK --runs`, as tests/locktrace/test_why.py checks.
"""
import itertools
import re

from tree import TOP

DOCUMENT = (TOP / "docs" / "LOCKS.md").read_text()
LINE = re.compile(r"(?P<code>.*?)\s*(?:-- (?P<kind>\w+) (?P<phase>\w+).*)?")
CHANGE = re.compile(r"(?P<step>\w+), if (?P<how>[^:]+): (?P<verdict>.+)")
STUCK = "✕ From here on a thread is always in a call or inside, whatever moves follow."


def listing(lock):
    """(line, name of its step or empty) for each line of a lock's code."""
    block = DOCUMENT.split(f"```{lock}\n")[1].split("\n```")[0]
    for line in block.splitlines():
        code, kind, phase = LINE.fullmatch(line).groups()
        yield code.strip(), phase if kind not in ("call", "inside", None) else ""


def stops(lock):
    """(numbers of lines, their step) for each group of lines that the dialog shows together."""
    lines = [(number, step) for number, (_, step) in enumerate(listing(lock), 1)]
    for _, group in itertools.groupby(lines, lambda line: line[1] or line[0]):
        numbers, steps = zip(*group)
        yield list(numbers), steps[0]


def told(lock):
    """The changes of a lock: step, how, verdict, moves, and what is said after each move."""
    text = (TOP / "built" / "why" / f"{lock}.txt").read_text()
    for part in re.split(r"\n(?! )", text.rstrip())[2:]:
        first, *lines = part.splitlines()
        # A remark and a header, and then a line for each move and one for what came of it.
        run = [line.strip() for line in lines[2:]]
        yield {**CHANGE.fullmatch(first).groupdict(), "moves": run[::2],
               "after": [line.removeprefix("# ") for line in run[1::2]]}
