"""`make install` installs every file, and `make uninstall` removes all of them.

If a part is missing, `make install` installs nothing.
"""
import re
import shutil
from pathlib import Path

import pytest

from installs import MANUALS, make
from tree import BUILT, TOP, VERSION, built, output

LICENCE = "SPDX-License-Identifier: Apache-2.0 OR MIT"
# The command that builds each part.
BUILDS = {BUILT["lockreplay"][0]: "cd crates/lockreplay && rt run",
          BUILT["locktrace"][0]: "cd crates/locktrace && rt run",
          "built/lockreplay.html": "node page/build.mjs"}
DOCUMENTS = """*.md CITATION.cff VERSION LICENSE-* THIRD-PARTY HANDLES crates.txt docs/*.md
    docs/pictures/* */lockreplay.html examples/*.* examples/recording/* examples/bindings/*
    built/*.[ch] record/rust/Cargo.* record/rust/build.rs record/rust/README.md record/rust/src/*.*
    record/rust/examples/**/*.rs
    crates/*/specs/**/*.antt crates/*/README.md crates/*.md
    crates/surface/src/*.rt"""
# The crates that a program in Rattle uses, whole
LIBRARY = ("lk_words", "lk_locks", "lk_lines", "lk_replay", "lk_workers")


def files(folder):
    return {str(file.relative_to(folder)) for file in folder.rglob("*") if not file.is_dir()}


def due_files():
    """The path of each file to install. Empty files, such as lists of no modules, are left out."""
    whole = [f"crates/{name}/{files}" for name in LIBRARY
             for files in ("src/**/*.rt", "proofs/**/*.antt")]
    found = {path for pattern in [*DOCUMENTS.split(), *whole] for path in TOP.glob(pattern)}
    return {"bin/lockreplay", "bin/locktrace", "include/locktrace.h", "include/lockreplay_record.h",
            "share/pkgconfig/lockreplay-record.pc",
            *(f"share/man/man{page[-1]}/{page}" for page in MANUALS),
            *(place.format(name) for name in ("lockreplay", "locktrace") for place in (
                "share/bash-completion/completions/{}", "share/zsh/site-functions/_{}",
                "share/fish/vendor_completions.d/{}.fish")),
            *(f"share/doc/lockreplay/{path.relative_to(TOP)}" for path in found
              if path.is_file() and path.stat().st_size)}


def test_files(installed):
    assert files(installed) == due_files()
    for file in sorted(files(installed)):
        is_program = file.startswith("bin/") or (installed / file).read_bytes().startswith(b"#!")
        mode = (installed / file).stat().st_mode & 0o777
        assert oct(mode) == ("0o755" if is_program else "0o644"), file


def test_uninstall(tmp_path):
    """`make uninstall` leaves the file of somebody else."""
    (tmp_path / "usr/local/bin").mkdir(parents=True)
    (tmp_path / "usr/local/bin/other").write_text("another's\n")
    for target in ("install-built", "uninstall"):
        assert make(target, "PREFIX=/usr/local", f"DESTDIR={tmp_path}") == ""
    assert files(tmp_path) == {"usr/local/bin/other"}


@pytest.mark.parametrize("word", ["--version", "-V"])
def test_version(installed, word):
    assert output(installed / "bin" / "locktrace", word) == f"locktrace {VERSION}\n"


def test_licences(installed):
    """A file that people copy by itself names its licence, and the licence texts are installed."""
    documents = installed / "share" / "doc" / "lockreplay"
    alone = [*installed.glob("include/**/*.h"), *documents.glob("examples/recording/*.[ch]"),
             *documents.glob("examples/**/*.sh"), *documents.glob("examples/bindings/*"),
             *documents.glob("built/*.[ch]"), *documents.glob("record/**/*.r*"),
             *documents.glob("*/lockreplay.html")]
    assert len(alone) >= 50
    assert [file.name for file in alone if LICENCE not in file.read_text()] == []
    assert (documents / "LICENSE-APACHE").read_text() == Path(
        "/usr/share/common-licenses/Apache-2.0").read_text()
    notices = dict(re.findall(r"^(\S+) [^\n]*\n-+\n\n(.*?)(?:\n\n\n|\Z)",
                              (documents / "THIRD-PARTY").read_text(), re.MULTILINE | re.DOTALL))
    for crate in ("clap", "base64", "strsim", "thiserror", "itoa", "memchr", "arrayvec",
                  "fast-float2"):
        assert "Permission is hereby granted" in notices[crate]


@pytest.mark.parametrize("part", [*BUILDS, "built/locktrace.c", "packaging/man/locktrace.1"])
@pytest.mark.parametrize("is_empty", [False, True])
def test_missing_part(tmp_path, part, is_empty):
    """If a part is missing or empty, install.sh names it and installs nothing."""
    copy, root = tmp_path / "copy", tmp_path / "nothing"
    assert all(built(name).is_file() for name in ("lockreplay", "locktrace"))
    for pattern in [*DOCUMENTS.split(), "packaging/**/*", *BUILDS]:
        for file in filter(Path.is_file, TOP.glob(pattern)):
            (copy / file.relative_to(TOP)).parent.mkdir(parents=True, exist_ok=True)
            shutil.copy(file, copy / file.relative_to(TOP))
    (copy / part).unlink()
    if is_empty:
        (copy / part).touch()
    assert output(copy / "packaging" / "install.sh", "install", root) == (
        f"status 1: install.sh: there is no {part}\n")
    assert not root.exists()


@pytest.mark.parametrize("target", ["install", "dist", "deb", "install-built"])
def test_stale_parts(target):
    """A newer source makes each target build all parts, but `install-built` builds none."""
    told = make("--dry-run", "--what-if=crates/lk_words/src/lib.rt", target)
    assert [command in told for command in BUILDS.values()] == [target != "install-built"] * 3
