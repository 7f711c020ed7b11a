"""Tarball, package and release: their metadata, and the same bytes each time they are made."""
import re
import shutil

import pytest

from installs import copy_files, make
from tree import TOP, VERSION, built, environment, output


@pytest.fixture
def field(made):
    return lambda name: output("dpkg-deb", "--field", made("deb"), name).strip()


def test_control(field):
    assert field("Version") == VERSION
    assert re.fullmatch(r"libc6 \(>= 2\.(\d+)\)", field("Depends"))
    for part in ("locktrace", "page", "locktrace.c", "lockreplay.c", "lockreplay_record.h",
                 "Python", "x86-64-v2", "WebAssembly"):
        assert part in field("Description")


def test_lintian(made):
    assert output("lintian", "--allow-root", "--fail-on", "error,warning", made("deb")) == ""


@pytest.mark.parametrize("target", ["dist", "deb"])
@pytest.mark.xdist_group("artifacts")
def test_made_again(made, tmp_path, target):
    """Another folder for temporary files, umask, time zone or SOURCE_DATE_EPOCH changes no byte."""
    before = made(target).read_bytes()
    make(target, umask=0o077, env=environment(TMPDIR=str(tmp_path), TZ="Asia/Tokyo",
                                              SOURCE_DATE_EPOCH="1"))
    assert made(target).read_bytes() == before


def test_no_day(tmp_path):
    """dist.sh packs no version whose day CHANGELOG.md does not have."""
    shutil.copytree(TOP / "packaging", tmp_path / "packaging")
    (tmp_path / "VERSION").write_text("9.9.9\n")
    shutil.copy(TOP / "CHANGELOG.md", tmp_path)
    assert output(tmp_path / "packaging" / "dist.sh") == (
        "status 1: CHANGELOG.md has no line '## [9.9.9] - YEAR-MONTH-DAY'\n")


class Release:
    """A new repository with the files of this tree and the built programs, for making a release."""

    def __init__(self, folder):
        self.tree = folder
        copy_files(folder, [built(name).relative_to(TOP) for name in ("lockreplay", "locktrace")])
        log = folder / "CHANGELOG.md"
        log.write_text(re.sub(r"(## \[Unreleased\]\n).*?(?=^## \[\d)", r"\1\n", log.read_text(),
                              flags=re.MULTILINE | re.DOTALL))
        self.git("init", "--quiet")
        self.git("add", "--all")
        self.git("commit", "--quiet", "--message=All")

    def git(self, *words):
        return output("git", "-c", "user.name=A", "-c", "user.email=a@b.example", *words,
                      cwd=self.tree)

    def make(self):
        return output(self.tree / "packaging" / "release.sh")

    def files(self):
        return {file.name: file.read_bytes() for file in (self.tree / "dist").iterdir()
                if file.suffix != ".log"}

    def refused(self, file, text):
        """The answer of a release while a file begins with more text."""
        kept = (self.tree / file).read_text()
        (self.tree / file).write_text(text + kept)
        told = self.make()
        (self.tree / file).write_text(kept)
        return told


def test_release(tmp_path):
    """A release has five files, with correct sums, and the same bytes when made again. Changes that
    are not committed, or listed as unreleased, stop it."""
    release = Release(tmp_path / "tree")
    assert len(release.make().splitlines()) == 4
    files = release.files()
    assert len(files) == 5
    assert output("sha256sum", "--check", "--quiet", "SHA256SUMS", cwd=release.tree / "dist") == ""
    shutil.rmtree(release.tree / "dist")
    release.make()
    assert release.files() == files
    assert release.refused("README.md", "more\n") == (
        "status 1: no release: what is here is not what is committed\n")
    assert release.refused("CHANGELOG.md", "## [Unreleased]\n\n- A\n") == (
        "status 1: no release: CHANGELOG.md has changes under [Unreleased]\n")
