#!/usr/bin/env python3
"""Writes the C files and headers of built/: each is one file, with each part where it is included.

    c/join.py            writes them
    c/join.py --check    ends with 1 if they are not what the parts make

A line `#include "PART"` is replaced by the part, as far to the right as the line begins. Of an
example, which has comments of the other kind, its first comment is left out. The part `machine` of
a C file stays as it is: translate.py makes it. The part `notices of NAMES` is a comment with these
sections of THIRD-PARTY.
"""
import re
import sys
from pathlib import Path
from textwrap import indent

TOP = Path(__file__).resolve().parents[1]
SOURCES = {path.name: path for path in (
    TOP / "record/src/lockreplay_record.h", TOP / "record/src/locktrace.h", TOP / "c/locktrace.c",
    TOP / "c/lockreplay.c")}
PART = re.compile(r'^( *)#include "(.*)"\n', re.MULTILINE)
BEGIN, END = "/* The machine, made by wasm2c. */\n", "/* The end of the machine. */\n"
MACHINE = re.compile(f"{re.escape(BEGIN)}(.*){re.escape(END)}", re.DOTALL)
FIRST_COMMENT = re.compile(r"\A(?://.*\n)+")


def notices(names):
    """A comment with the notices of others."""
    text = (TOP / "THIRD-PARTY").read_text(encoding="utf-8")
    sections = [re.search(rf"^{name} \d.*?(?=\n\n\n|\Z)", text, re.MULTILINE | re.DOTALL)[0]
                for name in names.split(", ")]
    return "/* Notices of others whose code is in this file, as THIRD-PARTY has them.\n\n{}\n*/\n" \
        .format("\n\n".join(sections).rstrip())


def joined(path, machine):
    """A file's text with all of its parts."""
    def part(it):
        if it[2] == "machine":
            return f"{BEGIN}{machine}{END}"
        if it[2].startswith("notices of "):
            return notices(it[2].removeprefix("notices of "))
        return indent(FIRST_COMMENT.sub("", joined(path.parent / it[2], machine)), it[1])
    return PART.sub(part, path.read_text(encoding="utf-8"))


def built(name):
    return TOP / "built" / name


def kept_machine(name):
    """The machine in a C file as it is."""
    return MACHINE.search(built(name).read_text(encoding="utf-8"))[1] if name[-1] == "c" else ""


def write_file(name, machine):
    built(name).write_text(joined(SOURCES[name], machine), encoding="utf-8")


def main():
    texts = {name: joined(SOURCES[name], kept_machine(name)) for name in SOURCES}
    if sys.argv[1:] == ["--check"]:
        differ = [name for name, text in texts.items()
                  if built(name).read_text(encoding="utf-8") != text]
        return f"run make header: {', '.join(differ)}" if differ else 0
    for name, text in texts.items():
        built(name).write_text(text, encoding="utf-8")
    return 0


if __name__ == "__main__":
    sys.exit(main())
