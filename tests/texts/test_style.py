"""The rules of layout. Where Debian has a tool for a rule, the tool checks it.

flake8 reads Python (tox.ini has its rules), shellcheck shell, rustfmt Rust, clang-format C
(.clang-format), tsc the types of the page and of the scripts for Node. For the rest:

- A line has at most 100 columns. Rows of tables and lines of links in documents may be longer, and
  in a proof the path of a module.
- A file of code has at most 400 lines, and the body of a function at most 40.
- A file opens with a comment or a docstring that says what the file is. The path says this for
  lists of modules, and for the answers and invariants in the proof of one function.
- JavaScript calls no method that Node 18 lacks, the version of Debian 12.
- Documents avoid words and openings of sentences for which there is a plainer one.
"""
import ast
import fnmatch
import re

import pytest

from tree import TOP, output

FILES = [TOP / name for name in output("git", "ls-files", "-co", "--exclude-standard",
                                       cwd=TOP).splitlines() if (TOP / name).is_file()]
KINDS = (".rt", ".rs", ".antt", ".py", ".js", ".mjs", ".c", ".h", ".pml", ".sh", ".md")
COLUMNS, LINES, BODY = 100, 400, 40
# What is in this folder is made of parts, which are checked instead.
MADE = TOP / "built"

# How a file of each kind opens, after a line `#!`.
HEADS = {
    ".rt": ("//!", "//"), ".antt": ("--",), ".py": ('"""',), ".sh": ("#",), ".md": ("# ",),
    ".js": ("//", "/*"), ".mjs": ("//", "/*"), ".c": ("/*", "//"), ".h": ("/*", "//"),
    ".pml": ("/*",), ".rs": ("//!",),
}
NAMED_BY_PLACE = ["*/Lib.antt", "*/Answers.antt", "*/Invariants.antt", "*/Proof.antt"]
# How a function begins. The first group is its indent, the second its name.
FUNCTION = {
    ".rt": re.compile(r"( *)(?:pub(?:\(\w+\))? )?(?:const |unsafe )*fn (\w+)"),
    ".js": re.compile(r"( *)(?:export |async |static |function )*\*? ?(\w+)\([^;]*\) \{$"),
    ".c": re.compile(r"()(?:[\w*]+ )+\**(\w+)\([^;]*$"),
    ".sh": re.compile(r"()(\w+)\(\) \{$"),
}
FUNCTION[".mjs"], FUNCTION[".h"] = FUNCTION[".js"], FUNCTION[".c"]
FUNCTION[".rs"] = FUNCTION[".rt"]
TOO_NEW = re.compile(r"\.(to(?:Reversed|Sorted|Spliced|WellFormed)|isWellFormed|groupBy|fromAsync"
                     r"|withResolvers)\(")
UNPLAIN = re.compile(r"\b(?i:so many|how often|somebody)\b|"
                     r"(?:^|[.:] )(?:Of (?:the|a|all|each)|What (?:the|a|is))\b")
NO_FUNCTION = {"if", "for", "while", "switch", "catch"}
# Lines that cannot be broken: rows of tables and links in documents, and in a proof the path of a
# module, which the language requires on one line.
UNBROKEN = {
    ".md": re.compile(r"\s*\||\[[^\]]*\]: |!\["),
    ".antt": re.compile(r"use \S+( as \w+)?$|use \S+\.\{\S+\}$"),
}


def long_lines(path, lines):
    """Lines with too many columns, in files for which no tool finds them."""
    unbroken = UNBROKEN.get(path.suffix)
    for number, line in enumerate(lines, 1):
        if path.suffix not in (".py", ".c", ".h") and len(line) > COLUMNS and not (
                unbroken and unbroken.match(line)):
            yield number, f"{len(line)} columns"


def long_file(path, lines):
    """A file of code with too many lines."""
    if len(lines) > LINES and path.suffix != ".md":
        yield 1, f"{path.name} has {len(lines)} lines"


def opening(lines, first, indent):
    """The line whose brace opens the body of the function at line `first`, if it has a body."""
    for at in range(first, len(lines)):
        line = lines[at].rstrip()
        is_head = at == first or line.startswith(f"{indent})")
        if line == f"{indent}{{" or is_head and line.endswith("{"):
            return at
        if line.endswith(";"):
            return None
    return None


def bodies_in_braces(lines, pattern):
    """(line, name, length) of each body in braces. The closing brace has the function's indent."""
    for first, line in enumerate(lines):
        found = pattern.match(line)
        opens = opening(lines, first, found.group(1)) if found else None
        if opens is None or found.group(2) in NO_FUNCTION:
            continue
        closing = f"{found.group(1)}}}"
        ends = (at for at in range(opens, len(lines)) if lines[at].rstrip(",;)") == closing)
        yield first + 1, found.group(2), next(ends, opens) - opens - 1


def bodies_in_python(lines):
    """(line, name, length) of each function's body in Python."""
    for node in ast.walk(ast.parse("\n".join(lines))):
        if isinstance(node, (ast.FunctionDef, ast.AsyncFunctionDef)):
            yield node.lineno, node.name, node.end_lineno - node.body[0].lineno + 1


def long_bodies(path, lines):
    """Functions whose body has too many lines."""
    found = ()
    if path.suffix == ".py":
        found = bodies_in_python(lines)
    elif path.suffix in FUNCTION:
        found = bodies_in_braces(lines, FUNCTION[path.suffix])
    for number, name, count in found:
        if count > BODY:
            yield number, f"the body of {name} has {count} lines"


def missing_head(path, lines):
    """A file that does not open with a comment or a docstring."""
    text = [line for line in lines[:4] if line.strip() and not line.startswith("#!")]
    place = str(path.relative_to(TOP))
    if any(fnmatch.fnmatch(place, pattern) for pattern in NAMED_BY_PLACE):
        return
    if not text or not text[0].startswith(HEADS[path.suffix]):
        yield 1, "it does not open with what it is"


def too_new(path, lines):
    """Calls of methods that Node 18 lacks."""
    if path.suffix in (".js", ".mjs"):
        for number, line in enumerate(lines, 1):
            for name in TOO_NEW.findall(line):
                yield number, f"Node 18 has no {name}"


def unplain(path, lines):
    """Words of documents for which there is a plainer one."""
    if path.parent == TOP / "docs" or path.parent == TOP and path.name != "CHANGELOG.md":
        for number, line in enumerate(lines if path.suffix == ".md" else [], 1):
            for match in UNPLAIN.finditer(line):
                yield number, f"there is a plainer word for {match[0]!r}"


RULES = (long_lines, long_file, long_bodies, missing_head, too_new, unplain)


@pytest.mark.parametrize("kind", KINDS)
def test_layout(kind):
    files = [path for path in FILES if path.suffix == kind and MADE not in path.parents]
    assert files and "\n".join(
        f"{path.relative_to(TOP)}:{number}: {said}" for path in files for rule in RULES
        for number, said in rule(path, path.read_text().splitlines())) == ""


@pytest.mark.parametrize("kinds, words", [
    (".py", ["/usr/bin/flake8"]),
    (".sh", ["shellcheck", "--external-sources"]),
    (".c .h .cc", ["clang-format", "--dry-run", "--Werror"]),
    (".rs", ["/usr/bin/rustfmt", "--check", "--edition", "2021", "--config-path",
             "record/rust"])], ids=lambda it: it if isinstance(it, str) else "")
def test_tool(kinds, words):
    files = [path.relative_to(TOP) for path in FILES
             if path.suffix in kinds.split() and MADE not in path.parents]
    assert files and output(*words, *files, cwd=TOP) == ""


def test_types():
    """tsc checks the types of the scripts for Node, and of the page from its first module on."""
    files = (path.relative_to(TOP) for path in FILES if path.name.endswith((".mjs", ".d.ts")))
    assert output("tsc", "--noEmit", "--allowJs", "--checkJs", "--target", "es2022",
                  "--module", "es2022", "--moduleResolution", "node", "--lib",
                  "es2022,dom,dom.iterable", *files, "page/src/control/main.js", cwd=TOP) == ""
