"""Atomics that note themselves, in C and in C++: an MCS lock whose records are on the stack.

A swap that is a load and a store appears as two steps, and a refusal names the load.
"""
import re

import pytest

from recorders import COMPILERS, HERE, NOTHING, STANDARDS
from tree import TOP, answer, output, ran

pytestmark = pytest.mark.slow

BUILDS = [(compiler, standard) for compiler in COMPILERS
          for standard in (STANDARDS if "++" in compiler else ["11"])]
RUNS = {"OFF": (3, 20, 1), "VALUES": (4, 300, 1), "SEED": (3, 50, 2), "EXPLORE": (2, 1, 2)}


@pytest.fixture
def locking(built):
    """Builds the lock in C or C++."""
    return lambda compiler, mode, *flags, standard="14": built(
        HERE / f"noted.{'cc' if '++' in compiler else 'c'}", mode, "-O1", *flags,
        compiler=compiler, standard=standard)


# Side by side in an array a record begins where the one before it ends, and is another thread's; a
# thread may have another record in each round. A record of a pool goes from one thread to another,
# and is the second one's from then on.
RIGHT = [
    *((compiler, standard, [], mode, RUNS[mode]) for compiler, standard in BUILDS for mode in RUNS),
    *((compiler, "14", ["-DSIDE_BY_SIDE"], "SEED", RUNS["SEED"]) for compiler in ("gcc", "g++")),
    *((compiler, "14", ["-DPOOL"], mode, words) for compiler in ("gcc", "g++") for mode, words in (
        ("VALUES", (4, 300, 1)), ("SEED", (3, 200, 5)), ("EXPLORE", (3, 1, 1)))),
]


@pytest.mark.parametrize("compiler, standard, flags, mode, words", RIGHT)
def test_right_lock(locking, judge, tmp_path, compiler, standard, flags, mode, words):
    done = ran(locking(compiler, mode, *flags, standard=standard), *words, tmp_path)
    assert (done.stderr, done.returncode) == ("", 0), done.stdout
    if mode == "VALUES":
        assert judge.order(tmp_path)[1] == 0
    elif mode == "SEED":
        assert judge.accepts([tmp_path / "run.trace"])
    elif mode == "EXPLORE":
        assert ", all of them accepted\n" in done.stdout


@pytest.mark.parametrize("mode", ["OFF", "VALUES"])
@pytest.mark.parametrize("compiler", ["gcc", "clang"])
@pytest.mark.parametrize("name, values, orders", [
    ("load", "", 1), ("store", "0, ", 1), ("exchange", "0, ", 1), ("fetch_add", "1, ", 1),
    ("compare_exchange", "&due, 0, ", 2)])
def test_order(tmp_path, compiler, mode, name, values, orders):
    """Without an order the operation has the strongest one, and else the order that is given."""
    strongest, given = ["memory_order_seq_cst"] * orders, ["memory_order_relaxed"] * orders
    (tmp_path / "it.c").write_text(
        f'#include "{TOP}/built/lockreplay_record.h"\n'
        f"THE ORDER OF lr_{name}(&word, {values}LR_TAIL)\n"
        f"THE ORDER OF lr_{name}_explicit(&word, {values}{', '.join(given)}, LR_TAIL)\n")
    text = output(compiler, "-std=c11", f"-DLR_MODE={mode}", "-E", tmp_path / "it.c")
    _, first, second = text.split("THE ORDER OF")
    assert re.findall(r"memory_order_\w+", first) == strongest
    assert re.findall(r"memory_order_\w+", second) == given


@pytest.mark.parametrize("mode", ["OFF", "VALUES", "SEED"])
@pytest.mark.parametrize("compiler", ["g++", "clang++"])
def test_order_in_c_plus_plus(built, compiler, mode):
    assert answer(built(HERE / "orders.cc", mode, compiler=compiler))[::2] == ("", 0)


@pytest.mark.parametrize("compiler", ["g++", "clang++"])
@pytest.mark.parametrize("standard", STANDARDS)
def test_operators_in_c_plus_plus(built, tmp_path, compiler, standard):
    """An assignment is noted in its own line. A load by a conversion has no line, and an exchange
    that fails for no reason is no step."""
    program = built(HERE / "operators.cc", "SEED", compiler=compiler, standard=standard)
    assert ran(program, 1, 1, 1, tmp_path).stderr == ""
    trace = (tmp_path / "run.trace").read_text().splitlines()
    moves = [re.sub(" of 255| found| left", "", line[2:]) for line in trace if line[:2] == "0 "]
    places = [line.split(" is ")[1] for line in trace if line.startswith("# line ")]
    noted = [(move, f"operators.cc:{number}") for number, line in
             enumerate((HERE / "operators.cc").read_text().splitlines(), 1)
             for move in re.findall(r"; +// (.*)", line)]
    loads = {3: "read tail 0", 4: "read locked 0"}  # before which of the noted lines
    due = [it for at, row in enumerate(noted) for it in
           [*([(loads[at], "an implicit load")] if at in loads else []), row]]
    assert list(zip(moves, places, strict=True)) == due and len(due) == 10


# The orders of Rust as LLVM names them, and operations that change a word.
OF_LLVM = {"Relaxed": "monotonic", "Acquire": "acquire", "Release": "release", "AcqRel": "acq_rel",
           "SeqCst": "seq_cst"}
IN_LLVM = {"swap": "xchg", "fetch_add": "add", "fetch_sub": "sub", "fetch_and": "and",
           "fetch_nand": "nand", "fetch_or": "or", "fetch_xor": "xor", "fetch_max": "umax",
           "fetch_min": "umin"}
PAIRS = [("Acquire", "Relaxed"), ("AcqRel", "Acquire"), ("Release", "Relaxed"),
         ("SeqCst", "SeqCst")]


def operations_in_rust():
    """(the call, what LLVM makes of it) of each operation with the orders that it may have."""
    for order in OF_LLVM:
        if order not in ("Release", "AcqRel"):
            yield from ((f"{name}({order})", [("load atomic", order)]) for name in ("load", "peek"))
        if order not in ("Acquire", "AcqRel"):
            yield f"store(7, {order})", [("store atomic", order)]
        for name, made in IN_LLVM.items():
            yield f"{name}(7, {order})", [(f"atomicrmw {made}", order)]
    for pair in (f"{order}, {failed}" for order, failed in PAIRS):
        yield f"compare_exchange(7, 8, {pair})", [("cmpxchg", pair)]
        yield f"compare_exchange_weak(7, 8, {pair})", [("cmpxchg weak", pair)]
        yield (f"fetch_update({pair}, |it| Some(it * 3))",
               [("load atomic", pair.split(", ")[1]), ("cmpxchg weak", pair)])


def test_order_in_rust(tmp_path):
    """In a build without a record each operation has the order that is given."""
    rows, source = list(operations_in_rust()), TOP / "record" / "rust" / "src"
    output("cp", "-R", source, tmp_path / "src")
    (tmp_path / "src" / "it.rs").write_text(
        (source / "lib.rs").read_text()
        + "pub mod it { use crate::*; use std::sync::atomic::Ordering::*;\n"
        + "".join(f"pub fn op_{at}(it: &AtomicU32) -> (u32, impl Sized) {{ ({at}, it.{call}) }}\n"
                  for at, (call, _) in enumerate(rows)) + "}\n")
    assert output("/usr/bin/rustc", "--edition=2021", "-Awarnings", "-Copt-level=3",
                  "-Ccodegen-units=1", "-Cllvm-args=-inline-threshold=100000", "--crate-type=lib",
                  "--emit=llvm-ir", "-o", tmp_path / "it.ll", tmp_path / "src" / "it.rs") == ""
    orders = "|".join(OF_LLVM.values())
    made = {int(at): re.findall(rf"\b(\w+ atomic|atomicrmw \w+|cmpxchg weak|cmpxchg) .*? "
                                rf"((?:{orders})(?: (?:{orders}))?), align", code)
            for at, code in re.findall(r"(?s)^; it::it::op_(\d+)\n(.*?)\n}$",
                                       (tmp_path / "it.ll").read_text(), re.MULTILINE)}
    due = [[(name, re.sub(r"(\w+),?", lambda order: OF_LLVM[order[1]], given))
            for name, given in parts] for _, parts in rows]
    assert [made[at] for at in range(len(rows))] == due


def named(form, names):
    return [form.format(name) for name in names.split()]


# Operations, what they take after a pointer, and what is left of that after the point.
CHANGES = "add sub and xor or nand"
OPERATIONS = [
    (["__atomic_load_n", "__atomic_test_and_set", "__atomic_clear"], ", FIRST", ", FIRST"),
    ([*named("__atomic_{}_n", "store exchange"), *named("__atomic_fetch_{}", CHANGES),
      *named("__atomic_{}_fetch", CHANGES)], ", 7, FIRST", ", lr_v, FIRST"),
    (["__atomic_load", "__atomic_store"], ", &due, FIRST", ", &due, FIRST"),
    (["__atomic_exchange"], ", &due, &old, FIRST", ", &due, &old, FIRST"),
    (["__atomic_compare_exchange_n"], ", &due, 7, WEAK, FIRST, SECOND",
     ", lr_e, lr_d, WEAK, FIRST, SECOND"),
    (["__atomic_compare_exchange"], ", &due, &old, WEAK, FIRST, SECOND",
     ", &due, &old, WEAK, FIRST, SECOND"),
    ([*named("__sync_fetch_and_{}", CHANGES), *named("__sync_{}_and_fetch", CHANGES),
      "__sync_lock_test_and_set"], ", 7", ", lr_v"),
    (named("__sync_{}_compare_and_swap", "bool val"), ", 7, 8", ", lr_e, lr_d"),
    (["__sync_lock_release"], "", ""),
]
OF_CLANG = [
    (["__c11_atomic_load"], ", FIRST", ", FIRST"),
    (named("__c11_atomic_{}", "store exchange fetch_add fetch_sub fetch_or fetch_xor fetch_and"),
     ", 7, FIRST", ", lr_v, FIRST"),
    (named("__c11_atomic_compare_exchange_{}", "strong weak"), ", &due, 7, FIRST, SECOND",
     ", lr_e, lr_d, FIRST, SECOND"),
]


@pytest.mark.parametrize("mode", ["VALUES -DLR_NOISE", "SEED"])
@pytest.mark.parametrize("compiler", ["gcc", "clang"])
def test_operation_after_its_point(tmp_path, compiler, mode):
    """After its point an operation is the same one, with the values and orders that are given."""
    rows = OPERATIONS + (OF_CLANG if compiler == "clang" else [])
    calls = [(name, given, left) for names, given, left in rows for name in names]
    (tmp_path / "it.c").write_text(f'#include "{TOP}/built/lockreplay_record.h"\n' + "".join(
        f"THE POINT OF {name}(&word{given})\n" for name, given, _ in calls))
    text = output(compiler, "-std=c11", *f"-DLR_MODE={mode}".split(), "-E", tmp_path / "it.c")
    made = [re.findall(r"(__\w+)\(lr_p((?:, [^()]*)?)\);", it)
            for it in text.split("THE POINT OF")[1:]]
    assert made == [[(name, left)] for name, _, left in calls]


@pytest.mark.parametrize("compiler", ["gcc", "clang"])
def test_value_that_does_not_fit(noting, tmp_path, compiler):
    """A note has what is in the word, and not what was to be stored there."""
    notes = ("static _Atomic unsigned char word; static _Atomic _Bool flag; int wide = 258; "
             "lr_store(&word, wide - 1, LR_TAIL); lr_exchange(&word, wide, LR_TAIL); "
             "lr_load(&word, LR_TAIL); lr_store(&flag, wide, LR_LOCKED); lr_load(&flag, LR_LOCKED)")
    program = noting("mcs", notes, "-Wno-unused-value", mode="VALUES", compiler=compiler)
    assert ran(program, 1, 1, 1, tmp_path / "logs").stderr == ""
    assert (tmp_path / "logs" / "thread-0.log").read_text().splitlines()[2:] == [
        "write tail left 1", "swap tail found 1", "read tail found 2",
        "write locked of 255 left 1", "read locked of 255 found 1", "dropped 0"]


def test_record_that_no_thread_has(locking, tmp_path):
    """The message tells a lock to name the owner of each record, if it did not."""
    done = ran(locking("gcc", "EXPLORE", "-DNOBODYS"), 2, 1, 2, tmp_path)
    said = ": no thread has this record (lr_own_record says whose it is)\n"
    assert done.returncode == 1 and said in done.stdout, done.stdout


@pytest.mark.parametrize("mode", RUNS)
@pytest.mark.parametrize("compiler", ["gcc", "g++"])
def test_thread_of_a_record(noting, tmp_path, compiler, mode):
    """A lock may keep in each record whose it is, also where nothing is recorded. (These rounds
    note nothing, and explored runs say so in the end.)"""
    program = noting("mcs", "if (lr_thread() != (LR_RECORDS ? thread : 0)) abort()", mode=mode,
                     compiler=compiler)
    done = ran(program, 2, 1, 1, tmp_path / "logs")
    assert (done.stderr, done.returncode) == ((NOTHING, 1) if mode == "EXPLORE" else ("", 0))


@pytest.mark.parametrize("compiler", ["gcc", "g++"])
def test_swap_of_two_operations(locking, tmp_path, compiler):
    """The refusal names the source line of the load."""
    source = "noted.cc" if "++" in compiler else "noted.c"
    line = next(number for number, line in enumerate((HERE / source).read_text().splitlines(), 1)
                if re.search(r"found = (lr_load\(&tail|tail\.load)", line))
    done = ran(locking(compiler, "EXPLORE", "-DSWAP_OF_TWO"), 2, 1, 2, tmp_path)
    assert done.returncode == 1
    said = rf"\nrefused at line 5 of the trace, {source}:{line}: '0 read tail found 0': WrongStep: "
    assert re.search(said, done.stdout)
