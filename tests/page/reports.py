"""The lessons, and reports of the program, with which tests compare those of the page."""
import json
import re

from tree import EXAMPLES, ran

LINE = re.compile(r"(\d+) (\d+) (\w+) (\w+) hold (\S+) queue (\S+)")
# The lessons: their texts, their reports, and the sentences of both in German.
SCHEDULES = {path.stem: path.read_text("latin-1") for path in sorted(EXAMPLES.glob("*.schedule"))}
LESSONS = {name: (EXAMPLES / f"{name}.report").read_text("ascii") for name in SCHEDULES}
PLANS, TRANSLATIONS = [json.loads((EXAMPLES / name).read_text("utf-8"))
                       for name in ("plans.json", "lessons.de.json")]


def reports_of(program, texts, folder):
    """Writes texts into a folder, and returns the program's report of each, from one batch."""
    paths = [folder / str(number) for number in range(len(texts))]
    for path, text in zip(paths, texts):
        path.write_bytes(text)
    done = ran(program, "batch", "--workers", "4", *paths)
    assert done.returncode in (0, 1), done
    first, *reports = re.split(r"^file \d+\n", done.stdout, flags=re.MULTILINE)
    assert first == "" and len(reports) == len(texts)
    return reports


def moves_of(report):
    """(thread, word, outcome, hold, queue) of each accepted move."""
    found = [LINE.fullmatch(line) for line in report.splitlines()]
    return [(int(one[2]), one[3], one[4], one[5], one[6]) for one in found if one]


# The moves of each lesson.
MOVES = {name: moves_of(report) for name, report in LESSONS.items()}


def remarks(name, what):
    """The lines of a lesson's remarks of a kind, as `learn` or `ask 3`, without what they hide."""
    return re.findall(rf"^#! {what} (?:hide [a-z ]+? : )?(.+)$", SCHEDULES[name], re.MULTILINE)


def asked_in(name, what="ask"):
    """The moves at which a lesson has a question, or an answer."""
    return {int(move) for move in re.findall(rf"^#! {what} (\d+) ", SCHEDULES[name], re.MULTILINE)}


def moves_replayed(program, text):
    """The accepted moves of a text, which the program has to accept as a whole."""
    done = ran(program, "replay", input=text)
    assert done.returncode == 0, done
    return moves_of(done.stdout)


def numbers_of(text):
    """The threads of a report's `hold` or `queue`."""
    return [] if text == "-" else [int(number) for number in text.lstrip("rw").split(",")]
