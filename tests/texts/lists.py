"""The places that list the locks: in `lk_locks` and `lk_lines` the types by name, the proofs that
differ only by the module of a lock, and the names in definitions; the files of the oracle and of
the page. And the sentences that list words, where nothing marks them.
"""
import re

from catalogue import CALLS, CARRIED, LOCKS, OUTCOMES, PLACES, STEPS, code_of, found
from dispatches import MODULE_LIST, MONITORS, QUEUES
from places import Place
from steps import VARIABLE
from tables import COUNT, MODULES, TYPE, VARIANTS, uses

PROOFS, TYPES = "crates/lk_locks/proofs", "crates/lk_locks/specs/Types.antt"
LINES, ORACLE, PAGE = "crates/lk_lines", "tests/oracle/locks/__init__.py", "page/src/locks/locks.js"


def first_step(variant):
    """The phase of the first step of a lock's code, as a pattern."""
    phase = found(r"-- (?!call)\w+ (\w+)$", code_of(LOCKS[variant]))[0]
    carried = VARIABLE.get(CARRIED[phase])
    return f"({phase}{carried})" if carried else phase


OF_STEPS = "bits ws t p operation e"
LISTS_OF_LOCKS = (
    Place(f"{PROOFS}/EachLock.antt", "Cases.{LockProof}\n", "use Rattle.lk_locks.specs",
          "".join(f"use Rattle.lk_locks.proofs.invariants.{module}\n"
                  for module in sorted(MODULES.values()))),
    Place(f"{PROOFS}/EachLock.antt", "Types.{LockKind, ", "}", ", ".join(VARIANTS)),
    Place(f"{PROOFS}/EachLock.antt", "LockProof kind\n", "", "".join(
        f"proof_of {variant} = {module}.proof\n" for variant, module in MODULES.items())),
    Place(f"{PROOFS}/OneOperation.antt", "operation_of kind bits t p)\n    (step_of kind bits ws t "
          "p).words\n", "makes_operation kind", "".join(
              f"makes_operation {variant} bits ws t p k r = grind arith\n" for variant in QUEUES)),
    Place(f"{PROOFS}/OneOperation.antt", "≡ words_after bits ws operation\n", "\n--", "".join(
        f"step_words {variant} {OF_STEPS} =\n    ap (λ o. (step_by ({MODULES[variant]}.after t) "
        f"bits ws p o).words) e ∙ {MODULES[variant]}_leaves t p _ _\n"
        for variant in QUEUES) + "".join(
        f"step_words {variant} {OF_STEPS} = cc\n" for variant in MONITORS)),
    Place(f"{PROOFS}/OneOperation.antt", "→ word_of o < word_count kind n\n", "word_within kind",
          "".join(f"word_within {variant} n bits t {first_step(variant)} o e h f = "
                  "omega (arith, ap word_or e)\n" for variant in QUEUES)),
    Place(TYPES, f"pub {TYPE}.{{LockKind}}\n", "pub use Rattle.lk_locks.specs.declared.kinds.Move",
          uses(sorted(VARIANTS), "LockKind", "pub ")),
    Place(TYPES, "kinds.Phase.{Phase}\n", "pub use Rattle.lk_locks.specs.declared.kinds.Refusal",
          uses(sorted(CARRIED), "Phase", "pub ")),
    Place(f"{LINES}/src/vocabulary.rt", "LOCK_NAMES: [&str; ", "]", f"{COUNT}"),
    Place(f"{LINES}/specs/Vocabulary.antt", f"{TYPE}.{{LockKind}}\n",
          "use Rattle.lk_locks.specs.declared.kinds.Op", uses(VARIANTS)),
    Place(f"{LINES}/specs/Vocabulary.antt", "lock_name : LockKind → List ℕ\n", "\n--", "".join(
        f'lock_name {variant} = codes "{name}"\n' for variant, name in LOCKS.items())),
    Place(f"{LINES}/specs/Vocabulary.antt", "bytes_eq name (lock_name kind)) (", ")", " ∷ ".join(
        [*VARIANTS, "[]"])),
    Place(ORACLE, "from locks import ", "\n", MODULE_LIST),
    Place(ORACLE, "for file in (", ")", ", ".join(MODULES.values())),
    Place(PAGE, "gives its sentences.\n\n", "\n/**", "".join(
        f"import {{ {re.sub('_(.)', lambda it: it[1].upper(), module)} }} from './{module}.js';\n"
        for module in sorted(MODULES.values()))),
)


def either(words):
    *others, last = words.values()
    return f"{', '.join(others)} or {last}"


HEADER, DUE = "record/src/lockreplay_record.h", "crates/lk_trace/src/due.rt"
UNREADABLE = "crates/lk_lines/src/unreadable.rt"
SENTENCES = (
    Place(HEADER, "The lock is ", ".\n", either(LOCKS)),
    Place(HEADER, "LR_CALL(call)              ", "\n", either(CALLS)),
    Place("crates/locktrace/src/commands.rt", '"LOCK" Needed, "', '");', either(LOCKS)),
    Place(UNREADABLE, 'Lock,\n    #[error("', '")]', either(LOCKS)),
    Place(UNREADABLE, "or a step (", ')")]', ", ".join(STEPS.values())),
    Place(DUE, 'OUTCOME: &str = "', '";', either(OUTCOMES)),
    Place(DUE, "a word (", ")", either(PLACES)),
)
