"""`rt fmt` changes no file of the crates. `rt ci` refuses such a file, but `rt check` does not."""
import shutil

import pytest

from tree import TOP, ran

CRATES = sorted(path.parent.name for path in TOP.glob("crates/*/src"))


@pytest.mark.parametrize("crate", CRATES)
def test_formatted(tmp_path, crate):
    copy = tmp_path / "crates" / crate
    shutil.copytree(TOP / "crates" / crate, copy, ignore=shutil.ignore_patterns("out"))
    shutil.copy(TOP / "crates.txt", tmp_path)
    done = ran("rt", "fmt", cwd=copy)
    assert done.returncode == 0, done.stderr
    assert [line for line in (done.stdout + done.stderr).splitlines() if "formatted" in line] == []
