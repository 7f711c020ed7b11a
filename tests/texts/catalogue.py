"""The words, names and numbers of locks, moves and faults, read from their sources.

The words come from the tables of the parsers, the names from the crates that print them, and the
numbers from the definitions that the proofs use. A table has a word for each variant of an enum, in
the order of the variants.
"""
import re
from pathlib import Path

TOP = Path(__file__).resolve().parents[2]
ENUMS, WORDS_OF = "crates/lk_locks/src/kinds.rt", "crates/lk_lines/src/vocabulary.rt"
TRACE = "crates/lk_trace/src"
SPECS = ("crates/lk_trace/specs/Codes.antt", "crates/lk_search/specs/Phases.antt",
         "crates/lk_page/specs/*.antt")
# The tables of the kinds of transition.
KINDS = ("crates/lk_catalogue/src/*.rt", "crates/lk_search/src/kinds/*.rt")


def read(*paths):
    """The texts of files, one after the other. A path may be a pattern."""
    return "".join(file.read_text(encoding="utf-8")
                   for path in paths for file in sorted(TOP.glob(path)))


def found(pattern, text):
    return re.findall(pattern, text, re.MULTILINE)


def between(text, before, after):
    """The text between the first matches of two patterns."""
    texts = re.findall(f"{before}(.*?){after}", text, re.DOTALL | re.MULTILINE)
    if not texts:
        raise LookupError(f"there is nothing between {before!r} and {after!r}")
    return texts[0]


def words(enum, *paths):
    """A map from each variant of an enum to its word in a parser's table or the arms of a match."""
    text = read(*paths)
    word = dict(found(rf'\b{enum}::(\w+)[^"\n]*"([\w-]+)', text))
    variants = found(r"^    (\w+)", between(text, rf"enum {enum} \{{", r"^\}"))
    return {**{variant: word[variant] for variant in variants if variant in word}, **word}


def numbers(definition):
    """A map from each word to its number in the equations of a definition, in numeric order."""
    equation = rf"^{definition} \(?(?:Call |Step )?(\w+).*? = \(?(\d+)(?:, \w+\))?$"
    return {WORDS.get(variant, variant): int(number) for variant, number
            in sorted(found(equation, read(*SPECS)), key=lambda it: int(it[1]))}


def code_of(lock):
    """The code of a lock in docs/LOCKS.md."""
    return between(read("docs/LOCKS.md"), f"```{lock}\n", "\n```")


def calls_of(lock):
    return found(r"-- call (\w+)$", code_of(lock))


def section_of(lock):
    """The section of docs/LOCKS.md with the code of a lock, up to the code."""
    return read("docs/LOCKS.md").split(f"\n```{lock}\n")[0].rsplit("\n## ", 1)[1]


def words_of(lock):
    """A map from each word of a lock that no record has to its number, and the words of a
    record, as the section has them."""
    own, of_record = (found(row, section_of(lock)) for row in (
        r"^\| (\d+) \| `(\w+)` \|$", r"^\| \d+ \+ \d+i \| `(\w+)` of thread i's record \|$"))
    return {name: int(number) for number, name in own}, of_record


def is_monitor(lock):
    """Whether the steps of a lock are sections."""
    return " -- section " in code_of(lock)


def title_of(lock):
    """The name of a lock in a sentence."""
    title = section_of(lock).split("\n")[0]
    return title if title[:2].isupper() else title[0].lower() + title[1:]


LOCKS, CALLS, STEPS, OUTCOMES = (words(enum, ENUMS, WORDS_OF)
                                 for enum in ("LockKind", "Op", "StepKind", "Outcome"))
WORDS = {**LOCKS, **CALLS, **STEPS, **OUTCOMES,
         **words("Refusal", ENUMS, "crates/lk_locks/src/refusals.rt"),
         **words("Difference", f"{TRACE}/difference.rt"), **words("TextFault", f"{TRACE}/trace.rt")}
del OUTCOMES["Called"]  # the outcome of a call, which no line has
# The message of each fault of a trace, without the name of the fault.
MESSAGES = {WORDS[variant]: text for text, variant in found(
    r'#\[error\("(.*?) \(\{name\}\)".*\n    (\w+)', read(f"{TRACE}/trace.rt"))}
# PARTS may follow the word of a lock in a trace, after `of` and a thread. PLACES are the words of
# locks that a trace names, before these parts; no trace names the words of a monitor.
DUE = read(f"{TRACE}/due.rt")
OPEN, (OF, *PARTS) = (found(r'"(\w+)"', between(DUE, before, r"\];\n"))
                      for before in ("OPEN: [^=]*", "PARTS: [^=]*"))
WORD_NAMES = words("WordName", f"{TRACE}/names.rt")
PLACES = {variant: word for variant, word in WORD_NAMES.items() if word in OPEN}

# A map from each phase to the type that it carries, or "".
CARRIED = dict(found(r"^    (\w+)(?:\((\w+)\))?,$", between(read(ENUMS), r"enum Phase \{", r"^\}")))
MOVES, RESULTS, REFUSED = map(numbers, ("move_number", "outcome_number", "refusal_number"))
DIFFERS, OF_TEXTS, OF_SIZE = map(numbers, ("difference_number", "fault_number", "fault_codes"))
FAULTS = {**OF_TEXTS, **OF_SIZE}
HOLDERS = numbers("holding_code")
PHASES = {phase: number for number, phase in enumerate(CARRIED)}
LOCK_CODES = {text: number for number, text in enumerate(LOCKS.values())}
EXPECTED = {name.lower(): number for name, number in numbers("expected_code").items()}
# The answers of the page's module, the bits of a record's thread, and the number for no word.
ANSWERS = [*numbers("answer_of").values(), *(int(found(rf"\({name} ≡ (\d+)\)", read(path))[0])
           for name, path in (("answer", "crates/lk_page/specs/Written.antt"),
                              ("result", "crates/lk_page/src/lib.rt")))]
BITS = {name: int(factor or 1) for factor, name in found(
    r"(?:(\d+) \* )?bit \(?(?:r\.standing\.|r\.)?(\w+)",
    between(read("crates/lk_page/specs/Layout.antt"), r"^thread_code r =\n", "\n\n"))}
NO_WORD = numbers("touched_word")["None"]
LIMITS = {name: int(number.replace("_", "")) for name, number in found(
    r"^pub const (MOST_\w+): usize = ([\d_]+);", read("crates/lk_replay/src/schedule.rt"))}
TRANSITIONS = list(dict.fromkeys(found(r'^    "([^"\n]+)":', read(*KINDS))))
VERSION = read("VERSION").strip()
# The newest release, and its day.
RELEASE, DAY = found(r"^## \[(\d+\.\d+\.\d+)\] - (.*)$", read("CHANGELOG.md"))[0]
