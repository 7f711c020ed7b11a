"""Every command of the documents prints the output that they show, and every name in them exists.

Small documents show that the check finds each kind of fault, and has no false alarm.
"""
import pytest

from document_names import Names
from documents import Room, faults_of
from tree import TOP, VERSION, cases

DOCUMENTS = sorted({path for pattern in ("*.md", "docs/*.md", "[a-z]*/README.md",
                                         "crates/*.md", "crates/*/README.md", "page/MODULE.md",
                                         "examples/recording/README.md",
                                         "tests/record/mistakes/README.md")
                    for path in TOP.glob(pattern)})
REPLAYED = "$ lockreplay replay < examples/refused-not-holder.schedule\n"
RIGHT = {
    "output": f"```console\n{REPLAYED}refused line 3 NotHolder\n```",
    "output with a gap": f"```console\n{REPLAYED}...\n```",
    "status": f"```console\n{REPLAYED}refused line 3 NotHolder\n$ echo $?\n1\n```",
    "script": "```sh\ntest -d examples\n```",
    "another folder in brackets": "```sh\n(cd examples && true)\n```",
    "saved file": "<!-- file: a.txt -->\n```text\nb\n```\n```console\n$ cat a.txt\nb\n```",
    "marked": "<!-- not run: it is a test -->\n```sh\nfalse\n```",
    "program that is not built": "<!-- with: no-such-program -->\n```sh\nfalse\n```",
    "names": "`make demo`, `crates/NAME/mutants.txt`, `Keeper::play`, `every_run_is_as_promised`",
    "names in a crate, a module, a trait and an enum, and one that a derive writes":
        "`lk_locks::Shape`, `theorems::calls_act_once`, `Words::read`, `Mode::Follow`, "
        "`Shape::clone`",
    "a quote": f"<!-- quoted: VERSION -->\n```text\n{VERSION}\n```",
    "files side by side":
        f"<!-- beside: VERSION VERSION -->\n```text\n{VERSION:25}{VERSION}\n```",
    "web link": "[a](https://example.org/b)",
}
FAULTY = {
    "another output": f"```console\n{REPLAYED}refused line 4 NotHolder\n```",
    "a line too many": f"```console\n{REPLAYED}refused line 3 NotHolder\nend 0\n```",
    "no output": f"```console\n{REPLAYED}```",
    "another status": f"```console\n{REPLAYED}refused line 3 NotHolder\n$ echo $?\n0\n```",
    "a script that fails": "```sh\nfalse\ntrue\n```",
    "a shell that is not run": "```bash\ntrue\n```",
    "another folder": "```console\n$ cd examples && true\n```",
    "another folder, not run": "<!-- not run: it is a test -->\n```sh\ncd examples\n```",
    "an indented command": "    $ true",
    "an indented program": "    lockreplay replay < a",
    "a fence that is not closed": "```sh\ntrue",
    "a quote that is not there": "<!-- quoted: VERSION -->\n```text\n0.0\n```",
    "a side that is not whole":
        f"<!-- beside: VERSION VERSION -->\n```text\n{VERSION}\n```",
    "a link to nothing": "[a](no-such-file.md)",
    "a link to no heading": f"[a]({TOP}/README.md#no-such-heading)",
    "no such file": "`crates/no_such_crate/src`",
    "no such target": "`make no-such-target`",
    "no such variable": "`make demo NOSUCH=1`",
    "no such mutant": "`make mutants CRATE=lk_words MISTAKE=no_such_mutant`",
    "no such method": "`Keeper::no_such_method`",
    "a method of another type": "`Schedule::draw`",
    "a method of another type beside its own": "`LiveTicket::{take, draw}`",
    "a type of another crate": "`lk_words::Shape`",
    "a function of another module": "`theorems::replay`",
    "a variant of another enum": "`Outcome::Follow`",
    "a private function": "`Checker::seen_other`",
    "no such name": "`no_such_name`",
    "a command that does not end": "```console\n$ sleep 20\n```",
    "a script that does not end": "```sh\nsleep 20\n```",
}


@pytest.fixture(scope="session")
def names():
    return Names(TOP)


@pytest.mark.parametrize("document", DOCUMENTS, ids=lambda path: str(path.relative_to(TOP)))
def test_document(lockreplay, names, tmp_path, record_property, document):
    room = Room(tmp_path, lockreplay)
    assert "\n".join(faults_of(document, room, names)) == ""
    record_property("tried", f"{room.ran} commands")


def faults_of_text(text, lockreplay, names, folder):
    (folder / "document.md").write_text(text + "\n")
    return list(faults_of(folder / "document.md", Room(folder, lockreplay, seconds=4), names))


@cases("text", RIGHT)
def test_right(lockreplay, names, tmp_path, text):
    assert faults_of_text(text, lockreplay, names, tmp_path) == []


@cases("text", FAULTY)
def test_fault_is_found(lockreplay, names, tmp_path, text):
    assert faults_of_text(text, lockreplay, names, tmp_path) != []
