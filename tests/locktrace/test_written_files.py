"""`order`, `tour` and `check --page` replace only what an earlier run wrote, and follow no link."""
import shutil

import pytest

from traces import LOGS, MADE, PAGE, page_with

WRITES = {"order": ["order", *LOGS, "-o", "made"], "tour": ["tour", "ticket", "1", "-o", "made"],
          "check": ["check", *MADE, "wrong"]}
# What is in the place of a file.
PUT = {
    "a trace": lambda path: shutil.copy(path.parent / "wrong", path),
    "the page without a trace": lambda path: shutil.copy(PAGE, path),
    "a text": lambda path: path.write_text("own\n"),
    "no text": lambda path: path.write_bytes(b"\xff"),
    "a folder": lambda path: path.mkdir(),
    "a link to nothing": lambda path: path.symlink_to("nowhere"),
    "a link to a text": lambda path: (
        (path.parent / "own").write_text("own\n"), path.symlink_to("own")),
    "a link to a page": lambda path: (
        (path.parent / "other.html").write_text(page_with(b"")), path.symlink_to("other.html")),
}
IN_PLACES = [*(("order", f"made/run{end}", "a folder") for end in (".trace", "-0001.schedule")),
             *(("tour", "made/0001.schedule", what) for what in ("a text", "a link to nothing")),
             *(("check", "made.html", what) for what in PUT
               if what not in ("a text", "a link to a text")),
             *((command, f"made/{name}", what) for what in ("a text", "a link to a text")
               for command, names in (
                   ("order", "order.list order.list.new run.trace.new run-0001.schedule.new"),
                   ("tour", "tour.list tour.list.new 0001.schedule.new"))
               for name in names.split())]


def known_of(path):
    """Which file is there, and when it was changed; not when it was read."""
    found = path.lstat()
    return found.st_ino, found.st_mode, found.st_size, found.st_mtime_ns, found.st_ctime_ns


@pytest.mark.parametrize("command, name, what", IN_PLACES)
def test_something_in_its_place(tracer, command, name, what):
    """Nothing is written, and nothing is checked."""
    path = tracer.folder / name
    path.parent.mkdir(exist_ok=True)
    PUT[what](path)
    before = known_of(path), set(path.parent.iterdir())
    assert tracer.run(*WRITES[command]) == (
        "", f"locktrace: {name} is not of an earlier {command}\n", 3)
    assert (known_of(path), set(path.parent.iterdir())) == before


def test_link_is_not_followed(tracer):
    """A link with the name of a temporary file is replaced, and its target stays as it was."""
    path, own = tracer.folder / "made.html.new", tracer.folder / "own"
    own.write_text("own\n")
    path.symlink_to(own)
    assert tracer.run(*WRITES["check"])[1:] == ("", 1)
    assert own.read_text() == "own\n"
    assert not any(it.is_symlink() or it.suffix == ".new" for it in path.parent.iterdir())
