"""Compares the words of the catalogue with files that `make generate` does not fill: messages,
lists that explain their words, and lists of the crates.
"""
from catalogue import (ANSWERS, DIFFERS, FAULTS, HOLDERS, MESSAGES, MOVES, OF, OF_TEXTS, OUTCOMES,
                       PARTS, PLACES, REFUSED, RELEASE, RESULTS, STEPS, VERSION, between, found,
                       read)

RUST, PAGE, MAN = "record/rust/src", "page/src", "packaging/man"
DUE, C = "crates/lk_trace/src/due.rt", "crates/lk_page/src/fault_texts.rt"
LIMIT = 1_000_000  # the states that a search goes through if no number is given
MOST = {name: int(number.replace("_", "")) for name, number in found(
    r"pub const MOST_(MOVES|BYTES|OF_A_LINE): usize = ([\d_]+);",
    read("crates/lk_replay/src/schedule.rt") + read("crates/lk_trace/src/line.rt"))}

# Texts that these files must contain, wherever their lines break.
SAID = {
    "record/rust/Cargo.lock": [f'name = "lockreplay-record" version = "{VERSION}"'],
    "crates/locktrace/src/*.rt": [f'VERSION: &str = "{VERSION}";', f"LIMIT: u64 = {LIMIT:_};",
                                  f"{LIMIT:,} if it is not given"],
    f"{MAN}/locktrace.1": [f"Without it {LIMIT:,}."],
    "SECURITY.md": [f"at most {MOST['MOVES']:,} moves and {MOST['BYTES']:,} bytes",
                    f"at most {MOST['OF_A_LINE'] + 1} bytes are kept"],
    # What README.md names as not proved.
    "CITATION.cff": ["The page's JavaScript and the recorders in C and Rust are only tested."],
    C: [f'"{name}: {text}"' for name, text in MESSAGES.items() if name != "NoHeader"],
    f"{PAGE}/machine/codes.js": [
        f"FIRST_STEP = {MOVES[STEPS['Read']]};",
        "ANSWER = {{ accepted: {}, refused: {}, fault: {}, short: {} }};".format(*ANSWERS)],
}
# A file, two patterns, a third pattern, and the words that it has to find between their matches.
# The order counts for a list, and not for a set.
ALL, ITEM, KEY = (r"\A", r"\Z"), r"^\.It Li (\w+)", r"(\w+): ['`]"
LISTS = (
    ("VERSION", *ALL, ".+", [RELEASE]),
    (DUE, "OPEN: ", r"\];", r'"(\w+)"', [*PLACES.values(), *OUTCOMES.values(), *(
        part for part in PARTS if part not in OUTCOMES.values())]),
    ("crates/lk_trace/src/line.rt", *ALL, r'b"(\w+)"', {*PLACES.values(), OF, *PARTS}),
    ("crates/lk_trace/src/names.rt", *ALL, r'"\w+ (\w+) \{thread\}"', {OF}),
    (C, r"match fault \{", "_ =>", r'=> (?:Refusal::|")(\w+)',
     ["accepted", *REFUSED, *DIFFERS, *OF_TEXTS]),
    (f"{RUST}/moves.rs", r"Display for Operation \{", r"\}\)", r'"(\w+)"',
     {*STEPS.values()} - {STEPS["Section"]}),
    (f"{PAGE}/texts/texts.js", r"^  outcomes: \{", r"\}", r"(\w+): '\1'", [*RESULTS]),
    (f"{PAGE}/texts/texts.js", r"^    outcomes: \{", r"\}", KEY, [*OUTCOMES.values()]),
    (f"{PAGE}/texts/texts.js", r"^    why: \{", r"^    \}", KEY, [*OUTCOMES.values()]),
    (f"{PAGE}/texts/texts.js", r"^  refused: \{", "^    due", KEY, [*REFUSED]),
    (f"{PAGE}/model/report.js", r"HOLDER_LETTERS = \[", r"\]", r"'(\w*)'",
     [{"ReadBy": "r", "WrittenBy": "w"}.get(name, "") for name in HOLDERS]),
    (f"{PAGE}/view/move_view.js", r"MODES = \[", r"\]", r"''|texts\.(\w+)",
     [{"ReadBy": "asReader", "WrittenBy": "asWriter"}.get(name, "") for name in HOLDERS]),
    (f"{PAGE}/locks/read_write.js", "WRITER = ", ";", r"\d+", [str(HOLDERS["WrittenBy"])]),
    (f"{MAN}/lockreplay.1", *ALL, ITEM, [*RESULTS, *REFUSED]),
    (f"{MAN}/lockreplay-schedule.5", r"\.Ss Faults\n", r"\.Sh", ITEM, {*FAULTS}),
    (f"{MAN}/locktrace-trace.5", r"\.It Ar values\n", r"\.It", r"\.Li (?!cas)(\w+)", PARTS),
    ("tests/oracle/corpus.py", r"^FAULTS = \[", r"\]", r'"(\w+)"', {*FAULTS}),
    ("tests/oracle/corpus.py", r"^REFUSALS = \[", r"LOCKS\[", r'(?:"|refused-)([A-Z]\w+)',
     [*REFUSED]),
)


def faults():
    """A message for each text that a file lacks, and each list with other words than are due."""
    for path, texts in SAID.items():
        said = " ".join(read(path).split())
        yield from (f"{path}: it does not say {text}" for text in texts if text not in said)
    for path, before, after, word, due in LISTS:
        given = found(word, between(read(path), before, after))
        if (given if isinstance(due, list) else set(given)) != due:
            yield f"{path}: it names {given}, due {due}"
