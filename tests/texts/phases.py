"""The tables of `lk_search` that follow from the phases of the locks, from the entries that a
pending call still owes in each (`owed_of` of `lk_locks`), and from docs/LOCKS.md.
"""
from textwrap import fill

from catalogue import CARRIED, LOCKS, PHASES, code_of, found, is_monitor, read
from places import Place
from steps import INSIDE, pattern

SEARCH, OWED = "crates/lk_search", read("crates/lk_locks/specs/invariants/*.antt")
# Of each type that a phase carries: a letter, and a number n that fits.
LETTERS, FITTED = {"u64": "n", "u8": "t"}, {"u64": "n", "u8": "(n % 256)"}
# What a phase carries, by its type.
CARRIES = {"u64": "ticket", "u8": "thread"}
GIVES_BACK = "acts i (?:Release|ReadUnlock|WriteUnlock|Downgrade)"
IN_QUEUE_LOCKS = {phase for lock in LOCKS.values() if not is_monitor(lock)
                  for phase in found(r"-- (?!call)\w+ (\w+)$", code_of(lock))}


def owing(entries):
    """The phases in which a pending call owes these entries, by a pattern."""
    return {*found(rf"^owed_of (?:family )?i \(?(\w+).* = {entries}$", OWED)}


HOLDING = owing(GIVES_BACK) | INSIDE - {"Idle"}
# In the queue of a queue lock, or announced
QUEUED = (HOLDING & IN_QUEUE_LOCKS | owing(r"Returned i Acquire ∷ \[\]")
          | {*found(r"^is_announced (\w+) = true$", OWED)})


def carried(phase):
    """The name of what a phase carries: a served ticket is called a value."""
    return "value" if phase == "PassOn" else CARRIES.get(CARRIED[phase], "")


def code_arm(phase, code):
    name = carried(phase)
    number = f"u64::from({name})" if CARRIED[phase] == "u8" else name or "0"
    return f"        Phase::{phase}{f'({name})' * bool(name)} => ({code}, {number}),\n"


def phase_arm(phase, code):
    number = {"u64": "(number)", "u8": "(thread)"}.get(CARRIED[phase], "")
    return f"        {code} => Phase::{phase}{number},\n"


def equations(name, phases, value):
    """Equations of a definition, with a letter for what a phase carries."""
    shown = {phase: f"({phase} {LETTERS[type]})" if type else phase
             for phase, type in CARRIED.items()}
    return "".join(f"{name} {shown[phase]} = {value(phase)}\n" for phase in phases)


def listed(phases):
    return "\n            | ".join(pattern(phase) for phase in CARRIED if phase in phases)


def known(name, phases):
    """A function that says whether a phase is one of these, and its definition."""
    yield Place(f"{SEARCH}/src/facts.rt", f"≡ {name} phase }}\n{{\n    matches!(\n        phase,\n",
                "\n    )", f"        {listed(phases)}")
    yield Place(f"{SEARCH}/specs/Facts.antt", f"{name} : Phase → Bool\n", f"{name} p =", equations(
        name, filter(phases.__contains__, CARRIED), lambda _: "true"))


NUMBERED = [phase for phase in CARRIED if CARRIED[phase]]
PHASE_TABLES = (
    Place(f"{SEARCH}/src/codes.rt", "    match phase {\n", "    }\n", "".join(
        code_arm(phase, code) for phase, code in PHASES.items())),
    Place(f"{SEARCH}/src/codes.rt", "    match code {\n", "        _ =>", "".join(
        phase_arm(phase, code) for phase, code in PHASES.items() if code)),
    Place(f"{SEARCH}/specs/Phases.antt", "phase_code : Phase → ℕ\n", "\n--", equations(
        "phase_code", CARRIED, PHASES.get)),
    Place(f"{SEARCH}/specs/Phases.antt", "phase_number : Phase → ℕ\n", "phase_number p", equations(
        "phase_number", NUMBERED, lambda phase: LETTERS[CARRIED[phase]])),
    Place(f"{SEARCH}/specs/Rows.antt", "all_phases =\n", "\n\n", fill(" ∷ ".join(
        phase + " 0" * bool(CARRIED[phase]) for phase in CARRIED) + " ∷ []", 100,
        initial_indent="    ", subsequent_indent="    ")),
    Place(f"{SEARCH}/specs/Rows.antt", "with_number : Phase → ℕ → Phase\n", "with_number p",
          "".join(f"with_number ({phase} m) n = {phase} {FITTED[CARRIED[phase]]}\n"
                  for phase in NUMBERED)),
    *known("is_holding", HOLDING), *known("is_queued", QUEUED),
)
