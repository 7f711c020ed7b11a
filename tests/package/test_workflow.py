"""The workflows: their commands run in a minimal Debian, on what is committed.

For the site a forge gets a copy of the files, without git's folder, and publishes the folder that
is named. For the checks it gets a clone, and runs a target of `make` in each of two machines.
"""
import re

import pytest

from installs import in_root, make_root
from tree import TOP, output

WORKFLOWS = TOP / ".github" / "workflows"
# Where a step runs a command, fetches the files, or names the folder to publish.
STEP = re.compile(r"- (run|uses): (.+)")
FOLDER = re.compile(r"path: (\S+)")


def test_site_is_published(tmp_path):
    text = (WORKFLOWS / "site.yml").read_text()
    assert "container: debian:12\n" in text
    root = make_root("bookworm", tmp_path / "root")
    (root / "root" / "work").mkdir()
    has_files = False
    for kind, value in STEP.findall(text):
        if kind == "run":
            done = in_root(root, "sh", "-ec", f"cd /root/work && {value}")
            assert done.returncode == 0, (value, done.stdout[-2000:], done.stderr[-2000:])
        elif value.startswith("actions/checkout@"):
            has_files = True
            said = output("sh", "-c", 'git ls-files -z | tar --create --null --files-from=- '
                          '| tar --extract --directory="$0"', root / "root" / "work", cwd=TOP)
            assert said == ""
    assert has_files
    site = root / "root" / "work" / FOLDER.search(text).group(1)
    page = (site / "lockreplay.html").read_bytes()
    assert page == (TOP / "built" / "lockreplay.html").read_bytes()
    assert "<h1>" in (site / "index.html").read_text()


TARGETS = re.search(r"target: \[(.*)\]", (WORKFLOWS / "checks.yml").read_text())[1].split(", ")


@pytest.mark.slow
@pytest.mark.parametrize("target", TARGETS)
def test_checks(tmp_path, target):
    text = (WORKFLOWS / "checks.yml").read_text().replace("${{ matrix.target }}", target)
    assert "container: debian:12\n" in text
    root = make_root("bookworm", tmp_path / "root")
    work = root / "root" / "work"
    work.mkdir()
    for kind, value in STEP.findall(text):
        if kind == "uses":
            assert output("git", "clone", "--quiet", f"file://{TOP}", work) == ""
        else:
            done = in_root(root, "sh", "-ec", f"cd /root/work && {value}")
            assert done.returncode == 0, (value, done.stdout[-2000:], done.stderr[-2000:])
