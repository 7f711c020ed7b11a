"""Names the files of each lock, which have its name, where a crate lists its modules.

The line of a lock that is missing goes below that of the lock before it; `rt fmt` sorts the lists.
"""
from catalogue import LOCKS, TOP

MOD, PUB = "mod {};\n", "pub mod {}\n"
LISTS = {
    "crates/lk_locks/src/lib.rt": MOD, "crates/lk_locks/specs/Lib.antt": PUB,
    "crates/lk_locks/specs/invariants.antt": PUB, "crates/lk_locks/proofs/invariants.antt": PUB,
    "crates/lk_catalogue/src/lib.rt": MOD, "crates/lk_catalogue/specs/Lib.antt": PUB,
    "crates/lk_why/src/lib.rt": MOD,
}


def completed(text, lines):
    """A text with all of these lines. The first is there."""
    for before, line in zip(lines, lines[1:]):
        if f"\n{line}" not in f"\n{text}":
            text = f"\n{text}".replace(f"\n{before}", f"\n{before}{line}", 1)[1:]
    return text


def faults_in(path, is_check):
    """The faults of a list. A check compares it; otherwise it is completed."""
    text = (TOP / path).read_text(encoding="utf-8")
    due = completed(text, [LISTS[path].format(lock.replace("-", "_")) for lock in LOCKS.values()])
    if due == text:
        return []
    if is_check:
        return [f"{path}: it lacks the module of a lock: run make generate"]
    (TOP / path).write_text(due, encoding="utf-8")
    return []


def faults(is_check):
    return [fault for path in LISTS for fault in faults_in(path, is_check)]
