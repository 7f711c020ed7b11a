"""Mistakes planted in the page: each is noticed by the test that the patch's first line names."""
import shutil
import subprocess
import sys
from pathlib import Path

import pytest

from recorders import apply
from tree import TOP, environment, ran

HERE = Path(__file__).parent
PATCHES = sorted((HERE / "mistakes").glob("*.patch"))
# The folders and files that `page/build.mjs` reads.
FOLDERS = ["page", "built", "examples", "docs"]
FILES = ["VERSION", "THIRD-PARTY", "crates.txt"]


def built_with(patch, module, folder):
    """The page with the mistake of a patch."""
    for name in FOLDERS:
        shutil.copytree(TOP / name, folder / name)
    for name in FILES:
        shutil.copy(TOP / name, folder)
    (folder / "crates").symlink_to(TOP / "crates")
    apply(patch, folder)
    subprocess.run(["node", folder / "page" / "build.mjs", module], check=True)
    return folder / "built" / "lockreplay.html"


@pytest.mark.planted
@pytest.mark.parametrize("patch", PATCHES, ids=lambda patch: patch.stem)
def test_planted(patch, module, tmp_path):
    test = patch.read_text().partition("\n")[0]
    page = built_with(patch, module, tmp_path)
    done = ran(sys.executable, "-m", "pytest", "-q", "-p", "no:cacheprovider", HERE / test,
               cwd=TOP, env=environment(LOCKREPLAY_PAGE=str(page)))
    assert done.returncode == pytest.ExitCode.TESTS_FAILED, done.stdout
