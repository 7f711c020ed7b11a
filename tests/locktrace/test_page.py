"""`locktrace check --page` writes the page with a trace in it, or refuses to write it.

The tests compare the file byte by byte with the page, into which Python puts the trace in base64.
tests/page opens such files in browsers.
"""
import shutil

import pytest

from devices import short_files
from traces import MADE, PAGE, TEXTS, page_with
from tree import Program, cases

# Unencoded in HTML, each of these would end an element, or be read as another byte.
ODD = b'# "></head><script>&quot;\xff\0\r\n' + TEXTS["wrong"].encode()


def files_in(folder):
    return {path.name: path.read_bytes() for path in folder.iterdir()}


@pytest.mark.parametrize("more", ["", "--quiet", "--summary", "--format json"])
@pytest.mark.parametrize("name", TEXTS)
def test_answer_is_the_same(tracer, name, more):
    """A faulty trace is put into no page, and a refused trace is. `--page` changes no answer."""
    before = files_in(tracer.folder)
    due = tracer.run("check", *more.split(), name)
    assert tracer.run("check", *more.split(), *MADE, name) == due
    made = {} if name == "faulty" else {"made.html": page_with(TEXTS[name].encode()).encode()}
    assert files_in(tracer.folder) == {**before, **made}


@pytest.mark.parametrize("trace", [ODD, b"lock mcs threads 2", b"lock mcs threads 2\n0 acquire"],
                         ids=["odd bytes", "no move", "no end"])
def test_every_byte_is_kept(tracer, trace):
    tracer.write(trace=trace)
    assert tracer.run("check", *MADE, "trace") == tracer.run("check", "trace")
    assert (tracer.folder / "made.html").read_text() == page_with(trace)


def test_absent_trace(tracer):
    before = files_in(tracer.folder)
    assert tracer.run("check", *MADE, "absent") == tracer.run("check", "absent")
    assert files_in(tracer.folder) == before


def test_page_of_an_earlier_check(tracer):
    """The new page replaces the page of an earlier check."""
    tracer.run("check", *MADE, "wrong")
    assert tracer.run("check", *MADE, "good") == ("", "", 0)
    assert (tracer.folder / "made.html").read_text() == page_with(TEXTS["good"].encode())


@cases("file, how, error", {
    "a full device": ("made.html", {"preexec_fn": short_files(65_536)}, "ile too large"),
    "a folder that is not there": ("no/made.html", {}, "o such file or directory"),
})
def test_write_that_fails(tracer, file, how, error):
    before = files_in(tracer.folder)
    output, said, status = tracer.run("check", "--page", file, "--from", PAGE, "good", **how)
    assert (output, status) == ("", 3)
    assert said.startswith(f"locktrace: cannot write {file}: ") and error in said
    assert files_in(tracer.folder) == before


def test_installed_page(locktrace, tracer, tmp_path):
    """The program finds the page of its installation by its own path."""
    prefix = tmp_path / "there"
    page = prefix / "share" / "doc" / "lockreplay" / "page" / "lockreplay.html"
    page.parent.mkdir(parents=True)
    (prefix / "bin").mkdir()
    program = Program(shutil.copy(locktrace, prefix / "bin"), tmp_path)
    assert program.run("check", "--page", "made.html", "good") == ("", (
        f"error: there is no page at {page}; give one, as in --from page/lockreplay.html\n"), 2)
    shutil.copy(PAGE, page)
    assert program.run("check", "--page", "made.html", "good") == ("", "", 0)
    assert (tracer.folder / "made.html").read_text() == page_with(TEXTS["good"].encode())


@cases("page", {
    "a trace": b"lock mcs threads 2\n", "no text": b"\xff",
    "a page with a trace": page_with(b"lock mcs threads 2\n").encode(),
})
def test_page_that_takes_no_trace(tracer, page):
    tracer.write(other=page)
    assert tracer.run("check", "--page", "made.html", "--from", "other", "good") == (
        "", "error: other is no page of lockreplay without a trace\n", 2)
    assert not (tracer.folder / "made.html").exists()


def test_too_long_trace(tracer):
    """A trace may have as many bytes as the page opens, and not one more."""
    header = "lock mcs threads 2\n#"
    for size, status in [(4_194_304, 0), (4_194_305, 2)]:
        tracer.write(long=f"{header:-<{size - 1}}\n")
        output, said, ended = tracer.run("check", *MADE, "long")
        assert (output, ended) == ("", status)
        assert said == ("" if status == 0 else
                        "error: --page takes a trace of at most 4194304 bytes\n")
