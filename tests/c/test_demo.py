"""`make demo` needs a C compiler and no kit: its report alone is on standard output."""
import shutil

import pytest

from tree import TOP, cases, environment, ran

REPORT = (TOP / "crates" / "lockreplay" / "stdout").read_text()
SENTENCE = "What ran is proved code, translated to C; the translation is not proved.\n"
# What the script and a compiler run
TOOLS = ("sh", "dirname", "mktemp", "rm", "cat", "as", "ld")


@pytest.fixture
def programs(tmp_path):
    """A folder with what the script runs, but for a compiler and what a test adds."""
    for name in TOOLS:
        (tmp_path / name).symlink_to(shutil.which(name))

    def add(name, script):
        (tmp_path / name).write_text(f"#!/bin/sh\n{script}\n")
        (tmp_path / name).chmod(0o755)
    add.folder = tmp_path
    return add


def demo(folder):
    done = ran(TOP / "c" / "demo.sh", env={"PATH": str(folder)})
    return done.stdout, done.stderr, done.returncode


def test_demo():
    """Nothing of the kit is asked for."""
    done = ran("make", "--silent", "demo", cwd=TOP, env=environment(PATH="/usr/bin:/bin"))
    assert (done.stdout, done.stderr, done.returncode) == (REPORT, SENTENCE, 0)


def test_another_user_without_a_compiler(programs):
    programs("id", "echo 1000")
    assert demo(programs.folder) == (
        "", "demo.sh: no C compiler works here. As root: apt-get install gcc libc6-dev\n", 1)


@cases("installs, due", {
    "it is installed": (f"ln -sf {shutil.which('gcc')} $(dirname $0)/cc",
                        (REPORT, f"demo.sh: installs gcc libc6-dev\n{SENTENCE}", 0)),
    "it is not": ("echo no network >&2; exit 100",
                  ("", "demo.sh: installs gcc libc6-dev\nno network\n", 1)),
})
def test_root_without_a_compiler(programs, installs, due):
    programs("id", "echo 0")
    programs("ln", f'exec {shutil.which("ln")} "$@"')
    programs("apt-get", f'[ "$1" = update ] || {{ {installs}; }}')
    assert demo(programs.folder) == due
