"""Builds and runs the examples of the recorders in C and in Rust, right or with a mistake.

Each program is built once, in a folder that all workers of pytest share.
"""
import fcntl
import re
import shutil
import subprocess
from pathlib import Path

from mistakes import IN_RUST, PATCHES
from tree import EXAMPLES, TOP, environment, output, ran

HERE = Path(__file__).parent
SOURCES = EXAMPLES / "recording"
WARNINGS = ["-Wall", "-Wextra", "-Wpedantic", "-Werror"]
COMPILERS = ["gcc", "g++", "clang", "clang++"]
STANDARDS = ["14", "17", "20"]  # of C++
CHECKED = ["FOLLOW", "EXPLORE", "PCT"]  # modes in which a program checks its runs
# A schedule in which the first of two threads takes an MCS lock.
HEAD, IN = "lock mcs threads 2\n", "0 acquire\n0 write\n0 swap\n"
# What a program says after runs in which nothing was noted.
NOTHING = ("lockreplay_record: nothing was noted, so nothing was checked: build each file of the "
           "lock with the LR_MODE of its driver, and note the lock's calls and steps\n")
# What a program says after a crash, before the folder of its logs.
KEPT = ("lockreplay_record: the program ended before its run was saved: "
        "its moves until then are in the folder ")


def refusal(said, output="", status=3):
    """The answer of a program that does not record or follow anything, or cannot save it."""
    return output, f"lockreplay_record: {said}\n", status


def once(path, make):
    """Makes a file once: the first worker calls `make`, and the others wait for it."""
    path.parent.mkdir(parents=True, exist_ok=True)
    with open(f"{path}.lock", "w") as lock:
        fcntl.flock(lock, fcntl.LOCK_EX)
        if not path.exists():
            make()
        path.touch()
    return path


def apply(patch, folder):
    """Applies a patch to the files in a folder, which may lie in a repository."""
    subprocess.run(["git", "apply", patch], cwd=folder, check=True,
                   env=environment(GIT_CEILING_DIRECTORIES=str(folder.parent)))


def plant(patch, folder):
    """Copies the files that a patch changes, applies the patch, and returns their paths."""
    names = re.findall(r"^--- a/(\S+)", patch.read_text(), re.MULTILINE)
    for name in names:
        (folder / name).parent.mkdir(parents=True, exist_ok=True)
        shutil.copy(TOP / name, folder / name)
    apply(patch, folder)
    return [folder / name for name in names]


def copied(folder, example, mistake=None):
    """Copies the examples in C beside the header, plants a mistake in one, and returns its path."""
    copy = folder / SOURCES.relative_to(TOP)
    shutil.copytree(SOURCES, copy)
    (folder / "built").symlink_to(TOP / "built")
    if mistake:
        apply(PATCHES / "c" / example / f"{mistake}.patch", folder)
    return copy / f"{example}.c"


def language(compiler, standard="17"):
    return ["-x", "c++", f"-std=c++{standard}"] if "++" in compiler else ["-std=c11"]


def compile_c(compiler, source, target, *flags, library=None, standard="17"):
    """The compiler's output, which is empty if there is no error and no warning."""
    done = ran(compiler, *language(compiler, standard), *WARNINGS, "-O2", "-pthread", *flags, "-o",
               target, source, *(["-x", "none", library] if library else []))
    return done.stderr + (f"status {done.returncode}" if done.returncode else "")


def cargo(*words, folder, target, tool="cargo", **more):
    """Runs Debian's cargo, the oldest that the crate supports, offline."""
    return ran(f"/usr/bin/{tool}", *words, "--offline", cwd=folder, timeout=600, env=environment(
        PATH="/usr/bin:/bin", RUSTC="/usr/bin/rustc", RUSTDOC="/usr/bin/rustdoc",
        CARGO_HOME=str(target.parent / "cargo"), CARGO_INCREMENTAL="0",
        CARGO_TARGET_DIR=str(target), **more))


class Recorder:
    """`runs` maps each mode to its threads, rounds and numbers of runs. Runs in a mode of `traced`
    have a trace, since the order of their steps is known. In a mode of `free` the system schedules
    the threads."""

    def __init__(self, folder, library, locktrace):
        self.folder, self.library, self.locktrace = folder, library, locktrace

    def run(self, target, example, mode, number, mistake=None, seconds=60):
        """Makes one run, which writes its logs to the folder `target`."""
        threads, rounds, _ = self.runs[mode]
        target.mkdir(parents=True, exist_ok=True)
        return ran(*self.command(example, mode, mistake), threads, rounds, number, target, seconds)

    def search(self, words, target, example, mode, mistake=None):
        """Explores runs, or follows schedules, and writes the traces to the folder `target`."""
        target.mkdir(parents=True, exist_ok=True)
        return ran(*self.command(example, mode, mistake), *words, target)


class InC(Recorder):
    name, seeded = "c", "SEED"
    examples = sorted(path.stem for path in SOURCES.glob("*.c"))
    runs = {"SEED": (3, 60, range(1, 51)), "VALUES": (4, 5000, range(3))}
    traced, free = {"SEED"}, {"VALUES"}

    def source(self, example, mistake):
        if mistake is None:
            return SOURCES / f"{example}.c"
        folder = self.folder / str(mistake)
        once(folder / "planted", lambda: copied(folder, example, mistake.name))
        return folder / SOURCES.relative_to(TOP) / f"{example}.c"

    def command(self, example, mode, mistake=None):
        """Builds one program for each mode. PCT is SEED with priorities. A search checks its traces
        with all values."""
        flags = {"FOLLOW": ["-DLR_MODE=FOLLOW", "-DLR_CHECK"],
                 "PCT": ["-DLR_MODE=SEED", "-DLR_PCT=3", "-DLR_STEPS=150", "-DLR_CHECK"]}
        program = self.folder / f"{mistake or example}-{mode}"

        def build():
            said = compile_c("gcc", self.source(example, mistake), program,
                             *flags.get(mode, [f"-DLR_MODE={mode}"]),
                             library=self.library if mode in CHECKED else None)
            assert said == ""
        return [once(program, build)]


class InRust(Recorder):
    name, seeded = "rust", "seed"
    examples = sorted(path.stem for path in (TOP / "record" / "rust" / "examples").glob("*.rs"))
    runs = {"seed": (3, 100, range(1, 51)), "wakes": (3, 100, range(5)),
            "ordered": (4, 500, range(3)), "free": (4, 5000, range(3)),
            "noise": (4, 500, range(5)), "pct": (3, 100, range(1, 21))}
    traced, free = {"seed", "ordered", "wakes", "pct"}, set()

    @property
    def crate(self):
        """Makes a copy of the crate, and another copy with an example for each mistake."""
        def copy():
            for name in ("crate", "planted"):
                assert output(TOP / "packaging" / "crate.sh", self.folder / name) == ""
            for mistake in IN_RUST:
                [planted] = plant(mistake.patch, self.folder / "copies" / mistake.name)
                # a mistake may leave something unused
                text = planted.read_text().replace("mod driver;", "#![allow(unused)]\nmod driver;")
                example = f"{example_of(mistake)}.rs"
                (self.folder / "planted" / "examples" / example).write_text(text)
        once(self.folder / "copied", copy)
        return self.folder / "crate"

    def cargo(self, *words, tool="cargo", crate=None, level="3"):
        """The output of cargo, which is empty if all is well. A warning is an error."""
        flags, crate = "-D warnings", crate or self.crate
        done = cargo(*words, "--locked", folder=crate, target=self.folder / f"{crate.name}-target",
                     tool=tool, RUSTFLAGS=flags, RUSTDOCFLAGS=flags, CARGO_PROFILE_DEV_DEBUG="0",
                     CARGO_PROFILE_RELEASE_OPT_LEVEL=level)
        return "" if done.returncode == 0 else (done.stdout + done.stderr)[-2000:]

    def built(self, *more):
        """Builds the examples, and returns their folder. Examples with a feature make few runs, so
        optimizations would take longer than they save."""
        target = self.folder / "-".join(["built", *more])

        def build():
            said = self.cargo("build", "--release", "--examples", *more, "--target-dir", target,
                              crate=self.crate.with_name("planted"), level="0" if more else "3")
            assert said == ""
        once(self.folder / "-".join(["done", *more]), build)
        return target / "release" / "examples"

    def command(self, example, mode, mistake=None):
        return [self.built() / (example_of(mistake) if mistake else example), mode.lower()]

    def checked(self, example, mistake=None):
        """The program that explores runs and checks them itself."""
        return self.built("--features", "check") / (example_of(mistake) if mistake else example)


def example_of(mistake):
    return f"{mistake.example}_{mistake.name.replace('-', '_')}"


RECORDERS = {"c": InC, "rust": InRust}
# The examples that are C++ too: the others use the atomics of C, or a library that does.
IN_C_PLUS_PLUS = [name for name in InC.examples if not re.search(
    r"#include <(stdatomic|ck_pr)\.h>", (SOURCES / f"{name}.c").read_text())]


class Judge:
    """The verdicts of the two programs on traces and logs."""

    def __init__(self, locktrace, lockreplay):
        self.locktrace, self.lockreplay = locktrace, lockreplay

    def refused_line(self, trace):
        """The line at which `check` refuses a trace, or None."""
        done = ran(self.locktrace, "check", trace)
        at = re.search(r"\.trace:(\d+): refused", done.stdout + done.stderr)
        return int(at.group(1)) if at and done.returncode == 1 else None

    def accepts(self, traces):
        """Asserts that `check` accepts all these traces, and prints nothing."""
        done = ran(self.locktrace, "check", *traces)
        assert (done.stdout[:300], done.stderr[:300], done.returncode) == ("", "", 0)
        return True

    def order(self, target):
        """Orders the logs of a run: the folder of the order, and the status of `order`."""
        ordered = target / "ordered"
        done = ran(self.locktrace, "order", *sorted(target.glob("thread-*.log")), "-o", ordered)
        return ordered, done.returncode

    def waits(self, schedule):
        """Asserts that a schedule is accepted, and counts its moves that wait."""
        report = ran(self.lockreplay, "replay", input=schedule).stdout
        assert report.splitlines()[-1].startswith("end ")
        return report.count(" waits ")

    def waits_in_order(self, target):
        """The same for all schedules of the order of a right lock's logs."""
        ordered, status = self.order(target)
        assert status == 0
        schedules = sorted(ordered.glob("*.schedule"))
        assert schedules and self.accepts(ordered.glob("*.trace"))
        return sum(self.waits(schedule.read_text()) for schedule in schedules)


def schedule_of(trace):
    """The first two words of each move, and the header."""
    return "".join(line + "\n" if line.startswith(("#", "lock ")) else
                   " ".join(line.split(" ")[:2]) + "\n" for line in trace.splitlines())


def words_of(text):
    """The first two words of each move of a text."""
    return [" ".join(line.split()[:2]) for line in text.splitlines() if line[:1].isdigit()]
