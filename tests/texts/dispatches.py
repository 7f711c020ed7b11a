"""The places of `lk_catalogue` and `lk_why` that call the module of a lock, by the lock.

A queue lock has its own advice after a wrong step, and a read-write lock after a wrong outcome.
"""
from catalogue import LOCKS, found, is_monitor, read
from places import Place
from tables import COUNT, MODULES, TYPE, VARIANTS, uses

CATALOGUE = "crates/lk_catalogue"
MONITORS = [variant for variant, lock in LOCKS.items() if is_monitor(lock)]
QUEUES = [variant for variant in VARIANTS if variant not in MONITORS]
MODULE_LIST = ", ".join(sorted(MODULES.values()))
# The parts of a transition by their types, in the order in which a definition has them.
PARTS = {"Phase": ["from", "after"], "Outcome": ["outcome"], "Move": ["action"]}


def arms(variants, call):
    return "".join(f"        LockKind::{variant} => {call.format(MODULES[variant])},\n"
                   for variant in variants)


def kind_of(variant):
    """The equation for the kinds of a lock, once the lock has its definition."""
    module = MODULES[variant]
    types = "".join(found(r"^abbrev pub kind_of : (.*) → Option ℕ$",
                          read(f"{CATALOGUE}/specs/{module}.antt"))).split(" → ")
    parts = {name: iter(names) for name, names in PARTS.items()}
    given = [f" x.{next(parts[name])}" for name in types if name]
    return f"kind_of {variant} x = {module}.kind_of{''.join(given)}\n" * bool(given)


def count_of(variant):
    """The equation for the number of the kinds, once the lock has them."""
    counts = found(r"KINDS: \[Kind; (\d+)\]", read(f"{CATALOGUE}/src/{MODULES[variant]}.rt"))
    return "".join(f"kind_count {variant} = {count}\n" for count in counts)


def advised(match, after, owners, others, call):
    """A match that gives advice: its arms up to the advice of the locks that have none of their
    own."""
    rest = " | ".join(f"LockKind::{variant}" for variant in others)
    return Place(HELPS, match, after, f"{arms(owners, call)}        {rest}")


KINDS, HELPS = f"{CATALOGUE}/src/kinds.rt", f"{CATALOGUE}/src/helps.rt"
SPECS, WHY = f"{CATALOGUE}/specs/Kinds.antt", "crates/lk_why/src/changes.rt"
BY_PHASE = "(kind: LockKind, phase: Phase) -> &'static str {\n    match kind {\n"
DISPATCHES = (
    *(Place(path, "use crate::{", "}", MODULE_LIST) for path in (KINDS, HELPS)),
    Place(KINDS, "LOCKS: [LockKind; ", "]", f"{COUNT}"),
    Place(KINDS, f"LOCKS: [LockKind; {COUNT}] = [\n", "];", "".join(
        f"    LockKind::{variant},\n" for variant in VARIANTS)),
    Place(KINDS, "≡ kind_count kind }\n{\n    match kind {\n", "    }\n",
          arms(VARIANTS, "&{}::KINDS")),
    Place(KINDS, "¬ (result ≡ None) }\n{\n    match kind {\n", "    }\n",
          arms(VARIANTS, "{}::place_of(transition)")),
    Place(KINDS, "-> Option<Awaited> {\n    match kind {\n", "    }\n",
          arms(VARIANTS, "{}::polled_for(phase)")),
    advised(f"help_for_busy{BY_PHASE}", " => {", QUEUES, MONITORS, "{}::help_for_busy(phase)"),
    advised(f"help_for_step{BY_PHASE}", ' => "', QUEUES, MONITORS, "{}::help_for_step(phase)"),
    advised(f"help_for_outcome{BY_PHASE}", " => SAME_STEP", MONITORS, QUEUES,
            "{}::help_for_outcome(phase)"),
    advised("let own = match kind {\n", " => None", QUEUES, MONITORS,
            "{}::help_for_value(phase, wrong)"),
    Place(SPECS, f"{TYPE}.{{LockKind}}\n", "use Rattle.lk_catalogue", uses(VARIANTS)),
    Place(SPECS, "Observed.{Observed}\n", "\n--", "".join(
        f"use Rattle.lk_catalogue.specs.{module}\n" for module in MODULES.values())),
    Place(SPECS, "kind_count : LockKind → ℕ\n", "\n--", "".join(map(count_of, VARIANTS))),
    Place(SPECS, "kind_of : LockKind → Observed → Option ℕ\n", "", "".join(
        map(kind_of, VARIANTS))),
    Place(WHY, "use crate::{Change, ", "}", MODULE_LIST),
    Place(WHY, "    match kind {\n", "    }\n", arms(VARIANTS, "&{}::CHANGES")),
)
