"""Lists the public calls of a crate with comment, signature and contract, for its page on the site.

    packaging/site/api.py CRATE    prints the list as Markdown

A call is public if lib.rt defines or exports it, or its type. What a macro writes is not seen.
"""
import re
import sys
from pathlib import Path

TOP = Path(__file__).resolve().parents[2]
EXPORT = re.compile(r"^pub use ([^;]+);", re.MULTILINE)
OWN = re.compile(r"^pub (?:struct|enum|trait|mod|fn) (\w+)", re.MULTILINE)
# What opens a block of methods: the trait, or the type after the last `for`
BLOCK = re.compile(r"(?:pub (trait) |impl\b(?:<[^{]*?>)? (?:[\w:<>, ]+ for )?)(\w+)")
CALL = re.compile(r"( *)(pub )?(?:const |unsafe )*fn (\w+)")


def exported(sources):
    """The names that users of a crate see: those of lib.rt, and of its public modules."""
    text = (sources / "lib.rt").read_text(encoding="utf-8")
    used = " ".join(EXPORT.findall(text))
    modules = re.findall(r"^pub mod (\w+);", text, re.MULTILINE)
    texts = [text, *((sources / f"{name}.rt").read_text(encoding="utf-8") for name in modules)]
    return {*(name for each in texts for name in OWN.findall(each)),
            *re.findall(r"\b(\w+)\b(?!::)", used)}


def head_of(lines, first, indent):
    """The signature and the contract that begin at a line, without the body."""
    for at in range(first, len(lines)):
        line = lines[at]
        if line == f"{indent}{{":
            return lines[first:at]
        is_head = at == first or line.startswith(f"{indent})")
        if line.endswith(";") or is_head and line.endswith(("{", "{}")):
            return [*lines[first:at], line.removesuffix("}").removesuffix("{").rstrip(" ;")]
    return lines[first:]


def calls_in(lines, names):
    """(name, comment, signature and contract) of each public call in the lines of a file."""
    comment, owner, is_trait = [], "", False
    for at, line in enumerate(lines):
        if line.strip().startswith("///"):
            # A heading in a comment is none of the page.
            comment.append(re.sub(r"^#+ (.*)", r"*\1*", line.strip()[3:].removeprefix(" ")))
            continue
        if block := BLOCK.match(line):
            is_trait, owner = bool(block[1]), block[2]
        elif line == "}":
            owner, is_trait = "", False
        call = CALL.match(line)
        if call and (call[2] or is_trait) and (owner or call[3]) in names:
            indent, name = call[1], f"{owner}::{call[3]}" if owner else call[3]
            head = [one.removeprefix(indent) for one in head_of(lines, at, indent)]
            yield name, comment, head
        if not line.strip().startswith("#["):
            comment = []


def calls_of(crate):
    """The list of a crate's calls as Markdown, or nothing if the crate is a program."""
    sources = TOP / "crates" / crate / "src"
    if not (sources / "lib.rt").exists():
        return ""
    names, parts = exported(sources), ["\n## Every public call\n"]
    for file in sorted(sources.rglob("*.rt")):
        lines = file.read_text(encoding="utf-8").splitlines()
        for name, comment, head in calls_in(lines, names):
            parts.append("\n".join([f"### `{name}`\n", *comment, "\n```rust", *head, "```\n"]))
    return "\n".join(parts)


if __name__ == "__main__":
    print(calls_of(sys.argv[1]))
