"""The places of `lk_jobs` that depend on the lock: how many phases there are, which parts of a line
an order needs, and the phases of a queue lock that are inside.
"""
from catalogue import CARRIED, LOCKS, code_of, found
from dispatches import MONITORS, QUEUES
from places import Place
from steps import INSIDE, pattern

# The steps that answer the value of their word.
ANSWERING = {"Add": "add", "Swap": "swap", "Read": "read"}
JOBS, REPORT = "crates/lk_jobs/src", "crates/lk_jobs/src/order/report.rt"


def lines(variant):
    """The (kind, phase) of each line of a lock's code that is a step, or inside."""
    return found(r"-- (\w+) (\w+)(?: looks at .*)?$", code_of(LOCKS[variant]))


def kinds(variant):
    return {kind for kind, _ in lines(variant)}


def answering(variant):
    steps = [f"StepKind::{step}" for step, word in ANSWERING.items() if word in kinds(variant)]
    return f"(LockKind::{variant}, {' | '.join(steps)})"


def steps_of(variants, step):
    return f"        ({' | '.join(f'LockKind::{variant}' for variant in variants)}, {step})"


HELD = {phase for variant in QUEUES for _, phase in lines(variant)} & INSIDE
ORDERS = (
    Place(f"{JOBS}/facts.rt", "const PHASES: u8 = ", ";", f"{len(CARRIED)}"),
    Place(f"{JOBS}/why.rt", '"enters as a writer",\n        (_, ', ') => "enters"',
          " | ".join(pattern(phase) for phase in CARRIED if phase in HELD)),
    Place(REPORT, "match (kind, step) {\n", "\n            if found",
          "        " + "\n        | ".join(map(answering, QUEUES))),
    Place(REPORT, "Some(\"'found'\") }\n", " if wrote", steps_of(
        [variant for variant in QUEUES if "cas" in kinds(variant)], "StepKind::Cas")),
    Place(REPORT, "Some(\"'done' or 'failed'\"),\n", " if count", steps_of(
        MONITORS, "StepKind::Section")),
)
