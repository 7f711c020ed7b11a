"""Installed documents name only what is installed: their links, and paths in backticks.

A link has to lead to an installed file. A path in backticks may start at the top of the documents
or at the document, or be the end of a longer path. It has to be installed, or written by a command
of a document, or one that docs/INSTALL.md lists as in the repository alone. A word in capitals
stands for any part of a path. A document has to say "run in the repository" if a block needs the
repository for a file, `make` or `rt`. All definitions that a reader has to believe are installed.
"""
import fnmatch
import os
import re

import pytest

from document_blocks import blocks_of, without_blocks
from document_names import WRITTEN, files_of
from tree import TOP

# From these words to the end of the paragraph, INSTALL.md lists in backticks what is not installed
NOT_INSTALLED = re.compile(r"In the repository alone are (.*?)\n\n", re.DOTALL)
PATH = re.compile(r"[\w.{}*-]+(/[\w.{},*-]+)+/?$|[\w-]+\.(md|h|txt|html)$")
OF_REPOSITORY = re.compile(r"(?:^|[;&|(])\s*(?:make|rt)\b", re.MULTILINE)
SAYS_WHERE = re.compile(r"\brun\s+in\s+the\s+repository\b")
NAMED = re.compile(r"(?<!`)`([^`\n]+)`(?!`)|\]\(([^)\s]+)\)")


def not_installed(documents):
    """The folders and files that docs/INSTALL.md lists as not installed."""
    text = (documents / "docs" / "INSTALL.md").read_text()
    return {f"/{name}/" for name in re.findall(r"`([^`]+)`", NOT_INSTALLED.search(text).group(1))}


def found(path, near, files):
    """The files and folders that a document in a folder may mean by a path."""
    pattern = re.sub(r"\b[A-Z]{2,}\b(?!\.md)|\b[A-Z]\b", "*", path.rstrip("/"))
    ways = [way for name in (pattern, os.path.normpath(f"{near}/{pattern}"), f"*/{pattern}")
            for way in (name, f"{name}.*")]
    return [file for file in files if any(fnmatch.fnmatchcase(file, way) for way in ways)]


def is_installed(path, near, installed):
    """Whether a path names an installed file, or a file that a document's command writes."""
    return any(fnmatch.fnmatchcase(path, way) for way in WRITTEN) or bool(
        found(path, near, installed))


def is_elsewhere(path, near, repository, elsewhere):
    return any(name in f"/{file}/" for file in found(path, near, repository) for name in elsewhere)


def needs_repository(block, near, installed, repository, elsewhere):
    """Whether a block runs `make` or `rt`, or names a file that only the repository has."""
    if block.language not in ("sh", "console"):
        return False
    lines = block.lines
    if block.language == "console":
        lines = [command for command, _ in block.commands()]
    text = "\n".join(lines)
    paths = [word for word in re.findall(r"[^\s;&|()<>]+", text) if PATH.match(word)]
    return bool(OF_REPOSITORY.search(text)) or any(
        is_elsewhere(path, near, repository, elsewhere)
        and not is_installed(path, near, installed) for path in paths)


def missing_in(document, documents, lists):
    """The links and paths of a document that lead to nothing, and the blocks that do not say where
    they run."""
    near = os.path.relpath(document.parent, documents)
    text = "\n".join(line for _, line in without_blocks(document.read_text().splitlines()))
    for block in blocks_of(document.read_text().splitlines()):
        if needs_repository(block, near, *lists) and not SAYS_WHERE.search(text):
            yield f"line {block.first} is for the repository, which is not said"
    for path, link in NAMED.findall(text):
        target = link.partition("#")[0]
        if target and "://" not in target and not (document.parent / target).exists():
            yield f"]({link})"
        word = path.split(" ")[0]
        if PATH.match(word) and not (is_installed(word, near, lists[0])
                                     or is_elsewhere(word, near, *lists[1:])):
            yield f"`{path}`"


@pytest.fixture(scope="module")
def documents(trees):
    return trees["installed"].documents


@pytest.fixture(scope="module")
def lists(trees, documents):
    installed = list(files_of(documents)) + list(files_of(trees["installed"].tree))
    return installed, list(files_of(TOP)), not_installed(documents)


@pytest.mark.parametrize("name", [str(path.relative_to(TOP)) for pattern in (
    "*.md", "docs/*.md", "examples/*.md", "examples/recording/*.md")
    for path in sorted(TOP.glob(pattern))])
def test_document(documents, lists, name):
    assert sorted(set(missing_in(documents / name, documents, lists))) == []


def test_definitions(documents):
    """The installed documents have each file of definitions."""
    specs = [path for path in sorted(TOP.glob("crates/*/specs/**/*.antt"))
             if path.read_text().startswith("-- Definitions")]
    assert len(specs) > 50
    assert [str(path) for path in specs if not (documents / path.relative_to(TOP)).exists()] == []
