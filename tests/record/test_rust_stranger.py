"""A user who has cargo, a C compiler and the package of the Rust crate, but no kit, tests a lock.

The user's crate has the lock of the package's README, right or with a mistake, whose step the test
names.
"""
import re
import shutil
import tarfile

import pytest

from recorders import cargo
from tree import TOP, VERSION, output

pytestmark = [pytest.mark.slow, pytest.mark.xdist_group("cargo")]

CRATE = TOP / "record" / "rust"
TOML, LOCK, TEST = re.findall(r"```(?:toml|rust)\n(.*?)```", (CRATE / "README.md").read_text(),
                              re.DOTALL)
STORE = "self.now_serving.store(served.wrapping_add(1), SeqCst);"
# A text of the lock, the text in its place, and the message about the wrong step.
MISTAKES = {
    "addition of two operations": (
        "self.next_ticket.fetch_add(1, SeqCst);",
        "self.next_ticket.load(SeqCst); self.next_ticket.store(ticket + 1, SeqCst);",
        "run 1: refused at line 4 of the trace, src/lib.rs:19, '0 read next_ticket found 0': "
        "WrongStep: "),
    "no wait": (
        "SeqCst) != ticket {", "SeqCst) > ticket {",
        " release': Busy: "),  # by the thread that did not wait
    "nobody is served": (STORE, "let _ = served;", "run 1: thread 0 has ended inside a call\n"),
    "the ticket after the next is served": (
        STORE, STORE.replace("add(1)", "add(2)"),
        ", '0 write now_serving left 2': LeftOther: "),
}


def made(*words, folder):
    return cargo(*words, folder=folder, target=folder.parent / "target", RUSTFLAGS="-D warnings")


@pytest.fixture(scope="module")
def package(tmp_path_factory):
    """Packs the crate, and returns the folder of the unpacked package."""
    folder = tmp_path_factory.mktemp("package")
    output(TOP / "packaging" / "crate.sh", folder / "crate")
    done = made("package", "--no-verify", "--allow-dirty", folder=folder / "crate")
    assert done.returncode == 0, done.stderr
    name = f"lockreplay-record-{VERSION}"
    with tarfile.open(folder / "target" / "package" / f"{name}.crate") as archive:
        archive.extractall(folder)
    return folder / name


def test_package(package):
    """The package has every file that its build, its user and its licences need."""
    files = {str(file.relative_to(package)) for file in package.rglob("*") if file.is_file()}
    assert files >= {"README.md", "LICENSE-APACHE", "LICENSE-MIT", "build.rs", "locktrace.c",
                     "lockreplay_record.h", "src/engine.c", "src/lib.rs"}
    for name in ("locktrace.c", "lockreplay_record.h"):
        assert (package / name).read_text() == (TOP / "built" / name).read_text()


def test_crate_alone(tmp_path):
    """A copy of the crate's folder has no check and no engine, and its build says what to do."""
    crate = tmp_path / "lockreplay-record"
    shutil.copytree(CRATE, crate, ignore=shutil.ignore_patterns("target"))
    done = made("build", "--features", "check", folder=crate)
    assert done.returncode != 0
    assert ("locktrace.c, which is not here: copy built/locktrace.c of the repository beside the "
            "Cargo.toml of lockreplay-record, or take the package that packaging/crate.sh writes"
            ) in done.stderr
    shutil.copy(TOP / "built" / "locktrace.c", crate)
    done = made("build", "--features", "check", folder=crate)
    assert done.returncode != 0
    assert "copy built/lockreplay_record.h of the repository" in done.stderr
    shutil.copy(TOP / "built" / "lockreplay_record.h", crate)
    assert made("build", "--features", "check", folder=crate).returncode == 0


@pytest.fixture
def tested(package):
    """Runs the test of a crate with this lock, beside the package: its status and its output."""
    def run(lock):
        crate = package.parent / "stranger"
        (crate / "src").mkdir(parents=True, exist_ok=True)
        manifest = '[package]\nname = "stranger"\nversion = "0.1.0"\nedition = "2021"\n\n'
        (crate / "Cargo.toml").write_text(
            manifest + TOML.replace('"lockreplay-record"', f'"../{package.name}"'))
        (crate / "src" / "lib.rs").write_text(f"{lock}\n#[cfg(test)]\n{TEST}")
        done = made("test", folder=crate)
        return done.returncode, done.stdout + done.stderr
    return run


def test_right_lock(tested):
    status, said = tested(LOCK)
    assert status == 0 and "test ticket ... ok" in said, said


@pytest.mark.parametrize("name", MISTAKES)
def test_mistake(tested, name):
    old, new, step = MISTAKES[name]
    assert LOCK.count(old) == 1
    status, said = tested(LOCK.replace(old, new))
    assert status != 0 and "test ticket ... FAILED" in said, said
    assert step in said, said
