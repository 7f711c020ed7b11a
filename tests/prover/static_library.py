#!/usr/bin/env python3
"""Proves and compiles a crate of the kind `staticlib` over the libraries that are in `out` already.

    static_library.py CRATE TARGET FILE

It writes FILE below the crate's folder. TARGET is the kit's name for a processor and a system. The
build uses JOBS processors, or all if the variable is not set. `rt lib` builds the libraries first.
"""
import os
import subprocess
import sys

from rattle_words import TOP, kit_folder, words_of


def main(crate, target, file):
    folder = TOP / "crates" / crate
    (folder / "out").mkdir(exist_ok=True)
    jobs = os.environ.get("JOBS") or str(len(os.sched_getaffinity(0)))
    how = ["--toolchain", kit_folder() / "toolchain", "--backend", "llvm", "--target", target,
           "--links", f"{crate}=", "--jobs", jobs, "-o", file]
    words = words_of("build", crate, f"out/incremental_{target}")
    return subprocess.run([*words, *how], cwd=folder, check=False).returncode


if __name__ == "__main__":
    if len(sys.argv) != 4:
        sys.exit(__doc__)
    sys.exit(main(*sys.argv[1:]))
