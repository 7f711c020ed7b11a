#!/usr/bin/env python3
"""Fills the marked regions of files with words, names and numbers of the catalogue.

    tests/texts/generate.py            writes what differs, and built/why
    tests/texts/generate.py --check    says what differs, and ends with 1 if something does

A region is between two comments of the file's language, `generated: LISTS` and `end`. Nobody edits
it by hand. places.py and modules.py fill places without such comments, and by_hand.py compares
words that people write in several places.
"""
import re
import subprocess
import sys
from textwrap import fill, indent

import by_hand
import modules
import places
import plans
from catalogue import (BITS, CALLS, DAY, DIFFERS, EXPECTED, FAULTS, LIMITS, LOCK_CODES, LOCKS,
                       MOVES, NO_WORD, OF_TEXTS, OUTCOMES, PARTS, PHASES, PLACES, REFUSED,
                       RESULTS, STEPS, TOP, TRANSITIONS, VERSION, calls_of, is_monitor,
                       title_of, words_of)
from dispatches import DISPATCHES
from lists import LISTS_OF_LOCKS, SENTENCES
from orders import ORDERS
from phases import PHASE_TABLES
from steps import STEP_TABLES
from tables import TABLES

REGION = re.compile(
    r'^(?P<head>( *)(/\*|//|#|<!--|\.\\") generated: (?P<lists>[\w ,-]+?)(?: \*/| -->)?\n)'
    r".*?(?P<end>^\2\3 end(?: \*/| -->)?$)", re.MULTILINE | re.DOTALL)


class Words(list):
    """Words that a form joins by a separator, as in `{all:, }`."""

    def __format__(self, between):
        return between.join(self)


def word(text, **more):
    """The fields of a word that a form may name."""
    return {"word": text, "WORD": re.sub("(?<=[a-z])(?=[A-Z])", "_", text).upper(), **more}


def indexed(numbers):
    """The words in the order of their numbers from 0 on, or "" for a number without a word."""
    words = {number: text for text, number in numbers.items()}
    return [words.get(number, "") for number in range(max(words) + 1)]


def number_of(version):
    """A version as a number, as LT_VERSION_NUMBER is one."""
    major, minor, patch = map(int, version.split("."))
    return 10_000 * major + 100 * minor + patch


def lock_of(variant, name):
    """A lock, and the words of its steps in C and in Rust. A section is a step on no word."""
    own, of_record = words_of(name)
    own = [] if is_monitor(name) else list(own)
    return word(name, variant=variant, own=len(own), of_record=len(of_record),
                texts=Words(f'"{text}"' for text in own + of_record) or Words(["NULL"]),
                title=title_of(name) + ", a monitor" * is_monitor(name))


# The page's names for the bits of a record's thread.
BIT_NAMES = {"holds": "HOLDS", "is_queued": "IN_QUEUE", "writes": "AS_WRITER",
             "is_unlinked": "UNLINKED", "waits": "WAITS"}
LISTS = {
    **{name: [word(text, variant=variant) for variant, text in words.items()] for name, words in {
        "calls": CALLS, "steps": STEPS, "outcomes": OUTCOMES, "places": PLACES,
    }.items()},
    "locks": [lock_of(*lock) for lock in LOCKS.items()],
    "number of locks": [word(str(len(LOCKS)))],
    **{name: [word(text, number=number) for text, number in numbers.items()] for name, numbers in {
        "numbers of moves": MOVES, "numbers of outcomes": RESULTS,
        "numbers of faults": {**REFUSED, **DIFFERS, **OF_TEXTS},
        "differences": DIFFERS,
        # The module requests no memory, so it has no number for this fault.
        "faults of texts": {**FAULTS, "OutOfMemory": max(FAULTS.values()) + 1},
        "constants": {**{BIT_NAMES[name]: bit for name, bit in BITS.items()}, "NO_WORD": NO_WORD,
                      **LIMITS},
    }.items()},
    **{name: [word(text) for text in words] for name, words in {
        "parts": PARTS, "kinds": TRANSITIONS,
        "calls of ticket": calls_of("ticket"), "calls of rw-fifo": calls_of("rw-fifo"),
        "moves by number": indexed(MOVES),
        "outcomes by number": indexed(RESULTS), "phases by number": indexed(PHASES),
        "refusals by number": indexed(REFUSED), "expected by number": indexed(EXPECTED),
        "locks by number": indexed(LOCK_CODES),
        "modules by number": [re.sub("-(.)", lambda it: it[1].upper(), lock)
                              for lock in indexed(LOCK_CODES)],
    }.items()},
    **{f"plan of {plan['lock']}": [word(minutes, link=link, said=said)
                                   for minutes, link, said in plans.rows(plan)]
       for plan in plans.PLANS},
    "version": [word(VERSION, day=DAY, number=number_of(VERSION))],
    "codes": [word("Of", codes="Codes"), word("---", codes="---"), *(
        word(kind, codes=", ".join(f"{number} {text}" for text, number in numbers.items()))
        for kind, numbers in {
            "lock": LOCK_CODES, "move": MOVES, "outcome": RESULTS, "refusal": REFUSED,
            "fault": FAULTS, "phase": PHASES, "expected": EXPECTED}.items())],
}
# The regions of each file in order: the lists, and the form of a word. A line takes as many words
# as fit, or one word if the form ends with a line feed. A form that joins all words is filled once.
PLAN = "| {word} | {link} | {said} |\n"
ARM, NUMBER = '::{variant} => "{word}",\n', "LT_{WORD} = {number},"
UNKNOWN = ('#define LR_NO_{}_OF(it) \\\n'
           '    LR_ERROR(GCC error "{} is {{others:, }} or {{last}}")')
MANUAL, ALL = ".Li {others: , }\nor\n.Li {last} .", ".Li {all: , }"
REGIONS = {
    "record/src/locktrace.h": (
        ("version", '#define LT_VERSION "{word}"\n#define LT_VERSION_NUMBER {number}\n'),
        ("numbers of moves", NUMBER), ("numbers of outcomes", NUMBER),
        ("numbers of faults", NUMBER), ("moves by number", '"{word}",'),
        ("outcomes by number", '"{word}",'),
        ("locks", '{{"{word}", {own}, {of_record}, {{{texts:, }}}}},\n')),
    "record/src/lockreplay_record.h": (("version", '#define LR_VERSION "{word}"'),),
    "record/src/moves.h": (
        ("calls", "LR_CALL_{word},"), ("steps", "LR_STEP_{word},"), ("places", "LR_PLACE_{word},"),
        ("parts", "LR_PART_{word},"), ("outcomes", "LR_OUTCOME_{word},")),
    "record/src/words.h": (
        ("calls", "#define LR_IS_CALL_{word} ,\n"), ("calls", UNKNOWN.format("CALL", "a call")),
        ("places", "#define LR_IS_WORD_{word} ,\n"), ("places", UNKNOWN.format("WORD", "a word")),
        ("outcomes", "#define LR_IS_OUTCOME_{word} ,\n"),
        ("outcomes", UNKNOWN.format("OUTCOME", "an outcome"))),
    "record/src/run.h": (("calls, steps", '"{word}",'),),
    "record/src/texts.h": (("places", '" {word}",'), ("parts, outcomes", '" {word}",')),
    "record/src/open.h": (("locks", 'static const char locks[] = "{others:, } or {last}";'),),
    "record/rust/src/moves.rs": (
        ("steps", '"{word}",'), ("calls", "Call::{variant},\n"), ("calls", "Call" + ARM),
        ("places", "Word" + ARM), ("outcomes", "Outcome" + ARM)),
    "record/rust/src/lock.rs": (
        ("locks", "/// The {title}.\n{variant},\n"),
        ("number of locks", "const LOCKS: usize = {word};"),
        ("locks", "Lock::{variant},\n"), ("locks", "Lock" + ARM),
        ("locks", "Lock::{variant} => {own},\n")),
    "record/rust/Cargo.toml": (("version", 'version = "{word}"'),),
    "CITATION.cff": (("version", "version: {word}\ndate-released: {day}\n"),),
    "page/src/machine/codes.js": (
        ("locks by number", "export const LOCK_NAMES = ['{all:', '}'];"),
        ("numbers of moves", "{number}: '{word}',"),
        ("outcomes by number", "export const OUTCOMES = ['{all:', '}'];"),
        ("phases by number", "'{word}',"), ("faults of texts", "{number}: '{word}',"),
        ("refusals by number", "'{word}',"), ("places", "'{word}',"),
        ("differences", "{number}: '{word}',"), ("expected by number", "'{word}',"),
        ("constants", "export const {word} = {number};\n")),
    "page/src/locks/locks.js": (("modules by number", "export const LOCKS = [{all:, }];"),),
    "docs/GUIDE.md": tuple((f"plan of {plan['lock']}", PLAN) for plan in plans.PLANS),
    "page/MODULE.md": (("codes", "| {word} | {codes} |\n"),),
    "packaging/man/locktrace-trace.5": (
        ("calls", MANUAL), ("steps", MANUAL), ("places", ALL + " ,"), ("outcomes", MANUAL)),
    "packaging/man/lockreplay-schedule.5": (
        ("locks", MANUAL), ("calls of ticket", ALL), ("calls of rw-fifo", ALL), ("steps", ALL)),
    "packaging/man/locktrace.1": (
        ("differences", ".Li Hangs , Unread , {others: , }\nand\n.Li {last} ."),),
    "packaging/completions/locktrace.bash": (
        ("locks", "local locks='{all: }'"), ("kinds", "'{word}'")),
    "packaging/completions/locktrace.zsh": (
        ("locks", "local -a locks=({all: })"), ("kinds", "'{word}'")),
    "packaging/completions/locktrace.fish": (
        ("locks", "set -l locks {all: }"), ("kinds", "echo '{word}';")),
}


WITHOUT_MARKS = (SENTENCES + TABLES + STEP_TABLES + DISPATCHES + PHASE_TABLES + LISTS_OF_LOCKS
                 + ORDERS)


def due_in(lists, form, margin):
    """The text that is due in a region."""
    words = [each for name in lists.split(", ") for each in LISTS[name]]
    if "{all" in form or "{last}" in form:
        *others, last = every = [each["word"] for each in words]
        return indent(form.format(all=Words(every), others=Words(others), last=last) + "\n", margin)
    texts = [form.format_map(each) for each in words]
    if form.endswith("\n"):
        return indent("".join(texts), margin)
    kept = " ".join(text.replace(" ", "\0") for text in texts)
    return fill(kept, 99, initial_indent=margin, subsequent_indent=margin, break_on_hyphens=False,
                break_long_words=False).replace("\0", " ") + "\n"


def filled(path, region, lists, form):
    """A region with its text. Marks in C keep clang-format from changing it."""
    text, margin = due_in(lists, form, region[2]), region[2]
    if path.endswith((".c", ".h")):
        text = f"{margin}/* clang-format off */\n{text}{margin}/* clang-format on */\n"
    return region["head"] + text + region["end"]


def faults_in(path, is_check):
    """The faults of a file. A check compares its regions; otherwise they are filled."""
    text, forms = (TOP / path).read_text(encoding="utf-8"), iter(REGIONS[path])
    marked, due = [it["lists"] for it in REGION.finditer(text)], [it[0] for it in REGIONS[path]]
    if marked != due:
        return [f"{path}: it has the regions {marked}, due {due}"]
    due = REGION.sub(lambda it: filled(path, it, *next(forms)), text)
    if not is_check:
        (TOP / path).write_text(due, encoding="utf-8")
    lines = enumerate(zip([*text.splitlines(), ""], [*due.splitlines(), ""]), 1)
    return [f"{path}:{number}: {line!r}, due {other!r}: run make generate"
            for number, (line, other) in lines if is_check and line != other][:1]


def faults(is_check):
    """The faults of all files."""
    return [*(it for path in REGIONS for it in faults_in(path, is_check)),
            *places.faults(WITHOUT_MARKS, is_check), *modules.faults(is_check),
            *by_hand.faults()]


def write_why(lock):
    """Writes what `locktrace why LOCK --runs` says of a lock into built/why, if the program is
    built and knows the lock. tests/locktrace/test_why.py compares the two."""
    program = TOP / "crates" / "locktrace" / "out" / "locktrace"
    done = subprocess.run([program, "why", lock, "--runs"], capture_output=True,
                          check=False) if program.exists() else None
    if done is None or done.returncode:
        said = done.stderr.decode().strip() if done else "locktrace is not built"
        print(f"built/why/{lock}.txt stays as it is: {said}")
        return
    (TOP / "built" / "why" / f"{lock}.txt").write_bytes(done.stdout)


if __name__ == "__main__":
    if sys.argv[1:] not in ([], ["--check"]):
        sys.exit(__doc__)
    if not sys.argv[1:]:
        for each in LOCKS.values():
            write_why(each)
    sys.exit("\n".join(faults(bool(sys.argv[1:]))) or 0)
