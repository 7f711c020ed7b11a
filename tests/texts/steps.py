"""The tables of `lk_why` that follow from the phases of the locks, and from the words that
docs/LOCKS.md gives the read-write locks.
"""
from catalogue import CARRIED, LOCKS, code_of, found, is_monitor, words_of
from places import Place
from tables import MODULES, defined

WHY = "crates/lk_why"
INSIDE = {"Idle", *(phase for lock in LOCKS.values()
                    for phase in found(r"-- inside (\w+)$", code_of(lock)))}
STEPS = {phase: carried for phase, carried in CARRIED.items() if phase not in INSIDE}
# The name of what a phase carries, by its type.
VARIABLE = {"u64": " n", "u8": " i"}


def pattern(phase):
    return f"Phase::{phase}" + "(_)" * bool(CARRIED[phase])


def in_definition(phase):
    carried = VARIABLE.get(CARRIED[phase])
    return f"(phase.{phase}{carried})" if carried else f"phase.{phase}"


def counts_of(lock):
    """How many counts a read-write lock has before its flag."""
    flag = words_of(lock)[0]["flag"]
    if flag not in (1, 2):
        raise LookupError(f"no table of lk_why was generated for {flag} counts: {lock}")
    return flag


# The read-write locks with two counts; the others have one.
COUNTING = [variant for variant, lock in LOCKS.items()
            if is_monitor(lock) and counts_of(lock) == 2]


def without_reader(variant):
    """What a test finds that is to see no reader: the first count is the second."""
    (_, first), (_, second), _ = defined(variant)
    return f"sight NoReader {variant} bits ws t p = ({first}, slice_index ws {second})\n"


STEP_TABLES = (
    Place(f"{WHY}/src/change.rt", "pub enum PhaseName {\n", "}\n", "".join(
        f"    {phase},\n" for phase in STEPS)),
    Place(f"{WHY}/src/change.rt", "    match phase {\n", "    }\n}", "".join(
        f"        {pattern(phase)} => Some(PhaseName::{phase}),\n" for phase in STEPS)
        + "        " + " | ".join(map(pattern, filter(INSIDE.__contains__, CARRIED)))
        + " =>\n            None,\n"),
    Place(f"{WHY}/specs/Changes.antt", "name_of : Phase → Option PhaseName\n", "name_of p =",
          "".join(f"name_of {in_definition(phase)} = Some name.{phase}\n" for phase in STEPS)),
    Place(f"{WHY}/src/altered.rt", "    match kind {\n", "        _ => 1", "".join(
        f"        LockKind::{variant} => 2,\n" for variant in COUNTING)),
    Place(f"{WHY}/src/altered.rt", "(flag_of(kind), 0),\n", "        (Found::NoReader, _)", "".join(
        f"        (Found::NoReader, LockKind::{variant}) => (0, word_at(words, 1)),\n"
        for variant in COUNTING)),
    Place(f"{WHY}/specs/Altered.antt", "flag_of : LockKind → ℕ\n", "flag_of kind", "".join(
        f"flag_of {variant} = {MODULES[variant]}.flag\n" for variant in COUNTING)),
    Place(f"{WHY}/specs/Altered.antt", "= (flag_of kind, 0)\n", "sight NoReader kind",
          "".join(map(without_reader, COUNTING))),
)
