"""The tables of the crates that follow from the locks and their words: the numbers of the locks in
`lk_page`, and the names of words in `lk_trace`. The words are those of docs/LOCKS.md.
"""
import re
from textwrap import fill

from catalogue import LOCKS, WORD_NAMES, words_of
from places import Place

VARIANTS = list(LOCKS)
MODULES = {variant: name.replace("-", "_") for variant, name in LOCKS.items()}
ELSE = "\n    else "
TYPE = "use Rattle.lk_locks.specs.declared.kinds.LockKind"


def named(word):
    """The value of WordName for a word of docs/LOCKS.md."""
    for variant, text in WORD_NAMES.items():
        if text == word:
            return variant
    raise LookupError(f"WordName of lk_trace has no value for {word}")


def uses(variants, type="LockKind", front=""):
    """The lines of a file of definitions that import values of a type."""
    front = f"{front}{TYPE.replace('LockKind', type)}.TheVariants.{{"
    lines = fill(", ".join(variants) + "}", 100 - len(front)).split("\n")
    return "".join(f"{front}{line[:-1]}}}\n" for line in lines)


def nested(variable, texts):
    """A choice by a number from 0 on."""
    *others, last = texts
    tests = [f"if {variable} == {number} then {text}" for number, text in enumerate(others)]
    return f"{ELSE}(".join(tests) + ELSE + last + ")" * (len(tests) - 1)


def in_record(variant):
    """Whether each thread has a record, of two words after the one word of the lock."""
    own, of_record = words_of(LOCKS[variant])
    if of_record and (len(own), len(of_record)) != (1, 2):
        raise LookupError(f"no names were generated for such records: {variant}")
    return bool(of_record)


def defined(variant):
    """(name, name in the definitions of the lock) of each word of the lock itself."""
    own, _ = words_of(LOCKS[variant])
    return [(named(name), MODULES[variant] + "." + re.sub("(?=[A-Z])", "_", name).lower())
            for name in own]


def arms(variant):
    """The name of each word of a lock, as arms of a match by its place."""
    own = "".join(f"        (LockKind::{variant}, {place}) => Some(WordName::{name}),\n"
                  for place, (name, _) in enumerate(defined(variant)))
    if not in_record(variant):
        return own
    first, second = (named(name) for name in words_of(LOCKS[variant])[1])
    front = f"        (LockKind::{variant}, 1..=128)"
    return (f"{own}{front} if place % 2 == 1 => Some(WordName::{first}((place / 2) as u8)),\n"
            f"{front} => Some(WordName::{second}((place / 2 - 1) as u8)),\n")


def places(variant):
    """The place of each name, as equations."""
    own = "".join(f"place_of {variant} {name} = {word}\n" for name, word in defined(variant))
    return own + "".join(f"place_of {variant} ({named(name)} thread) = {MODULES[variant]}.{name} "
                         "thread\n" for name in words_of(LOCKS[variant])[1])


def names(variant):
    """The name at each place, as an equation."""
    last = "None"
    if in_record(variant):
        first, second = (named(name) for name in words_of(LOCKS[variant])[1])
        last = (f"(if nat_lt 128 place then None{ELSE}(if place % 2 == 1 "
                f"then Some ({first} (place / 2)){ELSE}Some ({second} (place / 2 - 1))))")
    for name, word in reversed(defined(variant)):
        last = f"(if place == {word} then Some {name}{ELSE}{last})"
    return f"name_at {variant} place = {last[1:-1]}\n"


PAGE, TRACE, COUNT = "crates/lk_page", "crates/lk_trace", len(LOCKS)
TABLES = (
    Place(f"{PAGE}/specs/Codes.antt", f"{TYPE}.{{LockKind}}\n", TYPE.replace("Lock", "Step"),
          uses(VARIANTS)),
    Place(f"{PAGE}/specs/Codes.antt", "lock_code : LockKind → ℕ\n", "\n--", "".join(
        f"lock_code {variant} = {number}\n" for number, variant in enumerate(VARIANTS))),
    Place(f"{PAGE}/specs/Asked.antt", f"{TYPE}.{{LockKind}}\n", "use Rattle.lk_search",
          uses(VARIANTS)),
    Place(f"{PAGE}/specs/Asked.antt", "lock_of n =\n", "\n--", f"    {nested('n', VARIANTS)}\n"),
    Place(f"{PAGE}/specs/Asked.antt", "known : lock < ", "\n", f"{COUNT}"),
    Place(f"{PAGE}/src/asking.rt", "    match number {\n", "    }\n", "".join(
        f"        {number} => LockKind::{variant},\n"
        for number, variant in enumerate(VARIANTS[:-1]))
        + f"        _ => LockKind::{VARIANTS[-1]},\n"),
    Place(f"{PAGE}/src/asking.rt", "if lock > ", " ||", f"{COUNT - 1}"),
    Place(f"{PAGE}/src/lib.rt", "if lock > ", " {", f"{COUNT - 1}"),
    Place(f"{PAGE}/src/lib.rt", "ensures count { lock < ", " →", f"{COUNT}"),
    Place(f"{TRACE}/src/names.rt", "    match (kind, place) {\n", "        _ =>",
          "".join(map(arms, VARIANTS))),
    Place(f"{TRACE}/specs/Names.antt", f"{TYPE}.{{LockKind}}\n", "use Rattle.lk_trace",
          uses(VARIANTS)),
    Place(f"{TRACE}/specs/Names.antt", "{ReadReleases}\n", "\n--", "".join(
        f"use Rattle.lk_locks.specs.{module}\n" for module in MODULES.values())),
    Place(f"{TRACE}/specs/Names.antt", "place_of : LockKind → WordName → ℕ\n", "place_of kind",
          "".join(map(places, VARIANTS))),
    Place(f"{TRACE}/specs/Names.antt", "name_at : LockKind → ℕ → Option WordName\n", "\nabbrev",
          "".join(map(names, VARIANTS))),
    Place(f"{TRACE}/proofs/Naming.antt", f"{TYPE}.{{LockKind}}\n", TYPE.replace("LockKind", "Move"),
          uses(sorted(VARIANTS))),
    Place(f"{TRACE}/proofs/Naming.antt", "(name_at kind place) ≡ place\n", "\nnamed", "".join(
        f"led_back {variant} place = grind (arith, nat_tests)\n" for variant in VARIANTS)),
)
