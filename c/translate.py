#!/usr/bin/env python3
"""Writes built/locktrace.c and built/lockreplay.c: wasm2c makes C of the page's module, and each
file has the functions that it exports, with all that they call.

    c/translate.py ROOT MODULE

ROOT is the folder of a Debian 13 with the package wabt, MODULE crates/lk_page/out/lockreplay.wasm.
Debian 12's wasm2c does not take a memory of 64 bits.

In the module a stack lies below its data. Each call in C has both in an array of its own, so this
counts how deep the stack can be. It stops if a function calls itself or is called by a pointer, if
it moves the end of the stack otherwise than is known here, or if data would have to be zeros.
"""
import re
import shutil
import subprocess
import sys
import tempfile
from graphlib import CycleError, TopologicalSorter
from pathlib import Path

import join

EXPORTS = {"locktrace.c": ("lt_check", "lt_fault_text"), "lockreplay.c": ("report",)}
FUNCTION = re.compile(r"^(?:static )?((?:u64|u32|void) (w2c_lockreplay_\w+)\([^;{]*\)) "
                      r"(\{\n.*?^\}\n)", re.MULTILINE | re.DOTALL)
END = "instance->w2c_0x5F_stack_pointer"
# How a function begins that uses the stack: it subtracts what it takes, and may write the new end;
# or it only compares the end with the least that is right. And how it writes the old end back.
TAKES = re.compile(rf"  (\w+) = {END};\n(?:  \w+ = \1;\n)?  (\w+) = (\d+)ull;\n"
                   rf"  (?:(\1 -= \2;)\n(?:  \w+ = \1;\n)?(  {END} = \1;\n)?|"
                   r"\w+ = \(u64\)\(\(s64\)\1 < \(s64\)\2\);)")
GIVES_BACK = re.compile(rf"  (\w+) = \w+;\n(?:  (\w+) = (\d+)ull;\n  \1 \+= \2;\n)?  {END} = \1;\n")


class Unknown(Exception):
    """What is said of a module that cannot be translated."""


def made_of(root, module):
    """The C of a module, and its header."""
    with tempfile.TemporaryDirectory(dir=Path(root) / "tmp") as folder:
        shutil.copy(module, f"{folder}/lockreplay.wasm")
        inside = f"/tmp/{Path(folder).name}"
        subprocess.run(["chroot", root, "wasm2c", "--enable-memory64", "-n", "lockreplay",
                        f"{inside}/lockreplay.wasm", "-o", f"{inside}/made.c"], check=True)
        return (Path(folder) / "made.c").read_text(), (Path(folder) / "made.h").read_text()


def calls_of(functions):
    """A map from each function to those that it calls."""
    return {name: [other for other in re.findall(r"\b(w2c_lockreplay_\w+)\(", body)
                   if other in functions] for name, (_, body) in functions.items()}


def called_by(names, calls):
    """The functions with these names and all that they call, in the order of the file."""
    found, asked = set(), list(names)
    while asked:
        it = asked.pop()
        if it not in found:
            found.add(it)
            asked += calls[it]
    return [it for it in calls if it in found]


def taken_by(name, body):
    """How many bytes of the stack a function takes for itself."""
    taken = sum(int(found[3]) for found in TAKES.finditer(body) if found[4])
    ends = [int(found[3] or 0) for found in GIVES_BACK.finditer(body)]
    begins = [found[5] for found in TAKES.finditer(body)]
    known = len(begins) + len(ends) + sum(map(bool, begins))
    if len(begins) > 1 or set(ends) - {taken} or known != body.count(END):
        raise Unknown(f"{name} moves the end of the stack in another way")
    if "CALL_INDIRECT" in body:
        raise Unknown(f"{name} calls a function by a pointer")
    return taken


def deepest(names, functions, calls):
    """How many bytes of the stack these functions take together at most."""
    depth = {}
    try:
        for name in TopologicalSorter({name: calls[name] for name in names}).static_order():
            below = (depth[other] for other in calls[name])
            depth[name] = taken_by(name, functions[name][1]) + max(below, default=0)
    except CycleError as error:
        raise Unknown(f"{error.args[1][0]} calls itself") from error
    return max(depth.values())


def data_of(code):
    """Where the data of the module begin, and their bytes. The stack ends there."""
    [data] = re.findall(r"static const u8 data_segment_\w+\[\] = (\{.*?\n\};\n)", code, re.DOTALL)
    [place] = map(int, re.findall(r"LOAD_DATA\(instance->w2c_memory, (\d+)u", code))
    [stack] = map(int, re.findall(rf"{END} = (\d+)ull;", code.split("init_globals(")[1]))
    [heap] = map(int, re.findall(r"w2c_0x5F_heap_base = (\d+)ull;", code))
    if stack != place or place % 16 or heap - place - data.count("0x") not in range(16):
        raise Unknown("the data do not reach from the end of the stack to the heap")
    return place, data


def machine(code, header, exports):
    """The machine: its state, its data, and its functions, each declared before."""
    state = re.search(r"typedef struct w2c_lockreplay \{.*?\} w2c_lockreplay;\n", header, re.DOTALL)
    begin = re.search(r"static void init_globals.*?^\}\n", code, re.MULTILINE | re.DOTALL)
    functions = {it[2]: (it[1], it[3]) for it in FUNCTION.finditer(code)}
    calls = calls_of(functions)
    names = called_by([f"w2c_lockreplay_{name}_0" for name in exports], calls)
    place, data = data_of(code)
    depth = deepest(names, functions, calls)
    heads = "".join(f"static {functions[name][0]};\n" for name in names)
    bodies = "\n".join(f"static {' '.join(functions[name])}" for name in names)
    text = "\n".join([state[0], f"enum {{ LT_DATA_AT = {place}, LT_DEEPEST = {depth} }};\n",
                      f"static const u8 lt_data[] = {data}", begin[0], heads, bodies])
    text = text.replace("&instance->w2c_memory", "origin")
    return re.sub(r"[ \t]+$", "", text, flags=re.MULTILINE)


def main(root, module):
    made = made_of(root, module)
    for name, exports in EXPORTS.items():
        join.write_file(name, machine(*made, exports))


if __name__ == "__main__":
    if len(sys.argv) != 3:
        sys.exit(__doc__)
    try:
        main(*sys.argv[1:])
    except Unknown as error:
        sys.exit(f"translate.py: {error}")
