"""The installed tree, the tarball and the Debian package need nothing but the C library.

Programs run with an empty environment under `chroot`, in a root that has only the tree and the C
library. Expected texts were made by hand. C and Python use the headers and the C files as a user
would.
"""
import re
import shutil
import subprocess
import sys

import pytest

from oracle import batch_of, is_accepted
from traces import GOOD, LOGS, OTHER, OTHER_LINE, SCHEDULE
from tree import VERSION, cases, environment, output

DEBIAN_12 = (2, 36)  # the version of its glibc
PROGRAMS = ("lockreplay", "locktrace")
WARNINGS = ["-O2", "-Wall", "-Wextra", "-Werror"]


@pytest.fixture
def run(tree, tmp_path):
    """Runs a program of the tree in a root that has only the tree and the C library."""
    root = tmp_path / "root"
    shutil.copytree(tree.tree, root, symlinks=True)
    for library in {file for name in PROGRAMS
                    for file in re.findall(r"(/\S+) \(0x", output("ldd", tree.program(name)))}:
        (root / library.lstrip("/")).parent.mkdir(parents=True, exist_ok=True)
        shutil.copy(library, root / library.lstrip("/"))

    def in_chroot(name, *words, stdin=b""):
        done = subprocess.run(["/usr/sbin/chroot", root, f"/bin/{name}", *words], input=stdin,
                              capture_output=True, check=False, env={})
        return done.stdout, done.stderr, done.returncode
    in_chroot.root = root
    return in_chroot


def test_examples_are_replayed(tree, run):
    """Each example is replayed by itself, and the stored ones as a batch. limits.sh prints the
    others."""
    reports = sorted(tree.documents.glob("examples/*.report"))
    stored = [report for report in reports if report.with_suffix(".schedule").exists()]
    assert (len(stored) >= 28, len(reports) - len(stored)) == (True, 2)
    for report in reports:
        text = report.with_suffix(".schedule").read_bytes() if report in stored else \
            subprocess.check_output([tree.documents / "examples" / "limits.sh", report.stem])
        due = report.read_bytes()
        assert run("lockreplay", "replay", stdin=text) == (
            due, b"", 0 if is_accepted(due) else 1), report.stem
    files = [f"/share/doc/lockreplay/examples/{report.stem}.schedule" for report in stored]
    assert run("lockreplay", "batch", "--workers", "2", *files) == (
        batch_of([report.read_bytes() for report in stored]), b"", 1)


def test_lockreplay(run):
    refused = b"lock ticket threads 2\n0 release\n"
    assert run("lockreplay", "replay", stdin=refused) == (b"refused line 2 NotHolder\n", b"", 1)
    output, *more = run("lockreplay", "--help")
    assert b"Usage: lockreplay <COMMAND>" in output and more == [b"", 0]
    assert run("lockreplay")[2] == 2


EXPLAINED = ("6: 0 swap: entered, tail 0 to 1; left swaps the tail for its record; the tail was "
             "nil: it holds the lock; held by 0; queue 0\n")


@cases("words, stdin, due", {
    "version": ("--version", "", (f"locktrace {VERSION}\n", 0)),
    "accepted": ("check", GOOD, ("", 0)),
    "refused": ("check -", OTHER, (OTHER_LINE.format("-", "-"), 1)),
    "explained": ("explain --moves 6 --names left,right", GOOD, (EXPLAINED, 0)),
    "a schedule": ("schedule", GOOD, (SCHEDULE, 0)),
})
def test_locktrace(run, words, stdin, due):
    output, error, status = run("locktrace", *words.split(), stdin=stdin.encode())
    assert (output.decode(), error, status) == (due[0], b"", due[1])


def test_order(run):
    (run.root / "texts").mkdir()
    for name, text in LOGS.items():
        (run.root / "texts" / name).write_text(text)
    assert run("locktrace", "order", *(f"/texts/{name}" for name in LOGS), "-o",
               "/texts/made") == (b"", b"", 0)
    assert run("locktrace", "check", "/texts/made/run.trace") == (b"", b"", 0)
    due = (run.root / "texts" / "made" / "run-0001.schedule").read_bytes()
    assert run("locktrace", "schedule", "/texts/made/run.trace") == (due, b"", 0)


@pytest.mark.parametrize("name", PROGRAMS)
def test_libraries(tree, name):
    """The programs need only the C library, in the version of Debian 12 or an earlier one."""
    program = tree.program(name)
    asked = re.findall(r"NEEDED.*\[(.*)\]", output("readelf", "--dynamic", program))
    assert asked == ["libc.so.6"]
    versions = re.findall(r"GLIBC_(\d+)\.(\d+)", output("readelf", "--version-info", program))
    assert max(tuple(map(int, pair)) for pair in versions) <= DEBIAN_12


@pytest.fixture
def asked(tree):
    """Asks pkg-config about the packages of the tree."""
    path = f"{tree.tree}/share/pkgconfig"
    return lambda *words: output("pkg-config", *words,
                                 env=environment(PKG_CONFIG_PATH=path)).split()


RECORDS = """#include <lockreplay_record.h>
int main(void)
{
    lr_run *run = lr_open("mcs", 1, 64, 1, 0, NULL);
    lr_close(run);
    return run == NULL;
}
"""
CHECKS = """#include <locktrace.h>
#include <string.h>
int main(void)
{
    static const char text[] = "lock ticket threads 1\\n0 add\\n";
    struct lt_answer answer;
    return lt_check((const uint8_t *)text, strlen(text), NULL, 0, &answer) != LT_NO_CALL;
}
"""


@cases("text, words", {
    "recording": (RECORDS, ["-DLR_MODE=VALUES"]),
    "checking": (CHECKS, ["{documents}/built/locktrace.c"]),
})
def test_program_of_a_few_lines(tree, asked, tmp_path, text, words):
    """A short program builds outside the tree with the flags of pkg-config, and runs."""
    assert asked("--modversion", "lockreplay-record") == [VERSION]
    (tmp_path / "it.c").write_text(text)
    words = [word.format(documents=tree.documents) for word in words]
    assert output("cc", *WARNINGS, *words, "it.c", *asked("--cflags", "--libs",
                  "lockreplay-record"), "-o", "it", cwd=tmp_path) == ""
    assert output(tmp_path / "it") == ""


def test_replay_in_c(tree, tmp_path):
    """The installed source of the replay is one file, and compiles by itself."""
    assert output("cc", *WARNINGS, "-pthread", tree.documents / "built" / "lockreplay.c", "-o",
                  tmp_path / "lockreplay") == ""
    lesson = tree.documents / "examples" / "ticket-hand-over"
    assert output(tmp_path / "lockreplay", "replay", input=lesson.with_suffix(
        ".schedule").read_text()) == lesson.with_suffix(".report").read_text()


def test_recorded_lock(tree, asked, tmp_path):
    assert output("cc", *WARNINGS, "-DLR_MODE=SEED", tree.documents / "examples/recording/mcs.c",
                  *asked("--cflags", "--libs", "lockreplay-record"), "-o", "mcs",
                  cwd=tmp_path) == ""
    (tmp_path / "logs").mkdir()
    assert output(tmp_path / "mcs", "3", "20", "17", tmp_path / "logs") == ""
    assert sorted(file.name for file in (tmp_path / "logs").iterdir()) == [
        "run.trace", "thread-0.log", "thread-1.log", "thread-2.log"]


def test_tour_is_followed(tree, tmp_path):
    """A lock of the examples follows a tour. Without a tour the script says how to write one."""
    words = [tree.documents / "examples/recording/conform.sh", "ticket", tmp_path]
    assert output(*words) == (f"status 3: conform.sh: {tmp_path} has no schedules: write some with "
                              "locktrace tour LOCK THREADS -o FOLDER\n")
    written = output(tree.program("locktrace"), "tour", "ticket", "2", "-o", tmp_path)
    counts = re.search(r", (\d+ schedules), (\d+ moves)\n$", written)
    assert output(*words) == f"{counts[1]} of {counts[2]}, 0 not followed\n"


ACCEPTED = "lock ticket threads 1\n0 acquire\n0 add next_ticket found 0\n"


def test_binding_for_python(tree, tmp_path):
    """The binding works with the shared library that the command in its head makes."""
    binding = tree.documents / "examples/bindings/locktrace.py"
    [command] = [line for line in binding.read_text().splitlines()
                 if line.startswith("    cc -shared")]
    assert output("sh", "-c", command.replace("-o ", f"-o {tmp_path}/"), cwd=tree.documents) == ""
    words = [sys.executable, binding, tmp_path / "liblocktrace.so"]
    (tmp_path / "accepted").write_text(ACCEPTED)
    (tmp_path / "refused").write_text(ACCEPTED.replace("found 0", "found 3"))
    assert output(*words, "accepted", cwd=tmp_path) == (
        "accepted: 2 moves of 1 threads, 0 waits\n")
    assert output(*words, "refused", cwd=tmp_path).startswith("status 1: refused:3: ")
    said = output(sys.executable, binding)
    assert said.startswith("status 2: Checks a trace") and "Traceback" not in said
