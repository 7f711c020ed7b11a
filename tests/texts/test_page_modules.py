"""The page's modules import only from their folder and those before it in page/README.md.

The patterns find code by its form alone: they know no scopes.
"""
import re

import pytest

from tree import TOP

SOURCES = TOP / "page" / "src"
MODULES = {path.relative_to(SOURCES).as_posix(): path.read_text()
           for path in sorted(SOURCES.rglob("*.js"))}
# The folders in the order of the table. A folder knows only those before it.
FOLDERS = re.findall(r"(?m)^\| `(\w+)` \| \w", (TOP / "page" / "README.md").read_text().split(
    "## What is where")[1].split("## ")[0])
IMPORT = re.compile(r"(?m)^(?:import|\}).* from '([^']+)';$")
# Values that the page keeps, and passes to functions that draw.
REMEMBERED = "page|session|quiz|comparing|playing|stepping|lecture|modes|editing|address|looks|run"
CHANGES = re.compile(rf"\b(?:{REMEMBERED})(?:\.\w+)*\.\w+ (?:[-+|&?*]{{0,2}})= "
                     rf"|\bObject\.assign\((?:{REMEMBERED})\b"
                     rf"|\b(?:{REMEMBERED})(?:\.\w+)*\.(?:go|set|open|derive|load|clear|toggle)\(")

EXPORTED = re.compile(r"(?m)^export (?:async )?(?:const|function|class) (\w+)")
# What another script imports, or names as a type.
USED = re.compile(r"import \{([^}]*)\}|import\('[^']*'\)\.(\w+)")

TEXT = re.compile(r"'(?!\.)[^'\n]*'|`[^`]*`")
# Proper names with a capital inside, which look like names of code.
PROPER = {"LaTeX", "TikZ", "WebAssembly", "readAcquires", "readReleases"}


def folder(module):
    return module.split("/")[0]


def test_folders():
    """Each module is in a folder of the table, and each folder has one."""
    assert FOLDERS[0] == "lib" and FOLDERS[-1] == "control"
    assert {folder(module) for module in MODULES} == {*FOLDERS}


def imported(module):
    """The modules that a module imports from, by their paths."""
    return [(SOURCES / module).parent.joinpath(path).resolve().relative_to(SOURCES).as_posix()
            for path in IMPORT.findall(MODULES[module])]


@pytest.mark.parametrize("module", MODULES)
def test_imports_go_down(module):
    height = FOLDERS.index(folder(module))
    assert MODULES[module].count(" from '") == len(imported(module))
    assert [path for path in imported(module)
            if path not in MODULES or FOLDERS.index(folder(path)) > height] == []


def test_each_export_is_used():
    """Another module, the build or a test imports what a module exports."""
    others = [*(TOP / "page").glob("build*/*.mjs"), *(TOP / "tests" / "page").glob("*.mjs")]
    scripts = [*MODULES.values(), *(path.read_text() for path in others)]
    used = set(re.findall(r"\w+", " ".join(
        " ".join(found) for text in scripts for found in USED.findall(text))))
    exported = {(module, name) for module, text in MODULES.items()
                for name in EXPORTED.findall(text)}
    # The page's own script, which build.mjs writes, begins with this one.
    assert {one for one in exported if one[1] not in used} == {("control/main.js", "start")}


def test_drawing_changes_nothing():
    assert {module: found for module, text in MODULES.items() if folder(module) == "view"
            for found in [CHANGES.findall(text)] if found} == {}


def test_no_action_is_a_click():
    """No code calls click(), except for the link by which a browser saves a file, and the field by
    which it opens one."""
    assert [module for module, text in MODULES.items() if ".click(" in text] == ["lib/files.js"]


def test_texts_name_no_code():
    """No text has a name of code, so renaming in all modules changes no sentence."""
    said = [re.sub(r"\$?\{[^}]*\}", "", text) for module, source in MODULES.items()
            if folder(module) == "texts" for text in TEXT.findall(source)]
    words = {word for text in said for word in re.findall(r"\w*[a-zäöüß][A-ZÄÖÜ]\w*", text)}
    assert words == PROPER


def test_words_of_texts_are_apart():
    """Where a text goes on in the next line of code, one blank is between its words."""
    seams = [seam for module, source in MODULES.items() if folder(module) in ("texts", "locks")
             for seam in re.findall(r"(.)['`]\n\s*\+ ['`](.)", source)]
    assert len(seams) > 100 and [seam for seam in seams if (seam[0] == " ") + (seam[1] == " ") != 1
                                 and seam[1] not in ".,:;"] == []
