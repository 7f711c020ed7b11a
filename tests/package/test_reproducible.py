"""Tarball, package, programs and module have the same bytes on other machines.

A minimal Debian 12 and a minimal Debian 13 make the tarball and the package, each from two trees:
a tree without git, and a shallow clone that another user owns, with another umask and time zone and
on one processor. Debian 12 also builds programs and module anew over the kept proofs, so
nothing is proved again. Every file has to equal the one here, byte for byte.
"""
import shutil
from pathlib import Path

import pytest

from installs import copy_files, in_root, make_root
from tree import BUILT, TOP, output

PACKAGES = ("binutils", "debhelper", "dpkg-dev", "git", "make", "python3")
PACKAGED = [BUILT[name][0] for name in ("lockreplay", "locktrace")]
# The front of each command in the tree without git, and in the clone.
TREES = {"srv/plain": "", "home/another/shallow":
         "umask 077 && TZ=Asia/Tokyo SOURCE_DATE_EPOCH=1 taskset --cpu-list 0 "}
pytestmark = pytest.mark.slow


@pytest.fixture(params=["bookworm", "trixie"])
def debian(request, large):
    return make_root(request.param, large / "root", *PACKAGES)


@pytest.fixture
def run():
    """Runs a shell command in a tree of a root, which sees the kit, and returns its output."""
    kit = Path(shutil.which("rt")).resolve().parent.parent

    def in_tree(root, tree, command):
        path = f"{kit}/bin:/usr/bin:/bin:/usr/sbin:/sbin"
        done = in_root(root, "env", f"PATH={path}", "sh", "-c", f"cd /{tree} && {command}",
                       see=[kit])
        assert done.returncode == 0, (done.stdout + done.stderr)[-2000:]
        return done.stdout
    return in_tree


@pytest.mark.parametrize("tree", TREES)
def test_package_on_two_debians(debian, run, made, tree):
    if "shallow" in tree:
        assert output("git", "clone", "--quiet", "--depth=1", f"file://{TOP}", debian / tree) == ""
    copy_files(debian / tree, PACKAGED)
    if "shallow" in tree:
        output("chown", "--recursive", "4242:4242", debian / tree)
    for target in ("dist", "deb"):
        name = run(debian, tree, f"{TREES[tree]}packaging/{target}.sh").splitlines()[-1]
        assert (debian / tree / name).read_bytes() == made(target).read_bytes(), name


@pytest.mark.parametrize("debian", ["bookworm"], indirect=True)
def test_programs_built_anew(debian, run):
    """Debian builds deleted files again from the proofs that were kept."""
    tree, built = debian / "srv" / "built", [*PACKAGED, BUILT["module"][0]]
    copy_files(tree, ())
    shutil.rmtree(tree / "crates")
    output("cp", "--archive", TOP / "crates", tree / "crates")
    for part in built:
        for file in filter(Path.is_file, (tree / part).parent.iterdir()):
            file.unlink()
    for part in built:
        run(debian, "srv/built", f"make --no-print-directory {part}")
        assert (tree / part).read_bytes() == (TOP / part).read_bytes(), part
