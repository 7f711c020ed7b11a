"""CHANGELOG.md: changes go under `[Unreleased]`, and what a version has changed stands still.

A tag is a `v` and the version. Its section of the changelog stays as it is in the tag.
"""
import re

from tree import TOP, VERSION, cases, ran

MOST_LINES = 80  # of what is not released and the latest version together
HEADING = re.compile(r"^## \[(.+?)\](?: - (\d{4}-\d\d-\d\d))?$", re.MULTILINE)


def sections_of(text):
    """The lines of each section by its version, in the order of the file."""
    _, *parts = HEADING.split(text)
    return {version: lines.strip().splitlines() for version, lines in zip(parts[::3], parts[2::3])}


def number(version):
    return [int(part) for part in version.split(".")]


def faults(text, version, tagged=None):
    """What is wrong with a changelog; `tagged` is the one at the tag of the version."""
    sections, days = sections_of(text), HEADING.findall(text)
    first, *versions = sections
    if first != "Unreleased" or days[0][1]:
        yield "changes go under [Unreleased], which comes first"
    if versions[:1] != [version]:
        yield f"the latest version is not {version}"
    if versions != sorted(versions, key=number, reverse=True):
        yield "the versions are not in their order"
    if not all(day for _, day in days[1:]):
        yield "a version has no day"
    if tagged is not None and sections.get(version) != sections_of(tagged).get(version):
        yield f"the section of {version} differs from that of its tag"
    if sum(len(lines) for lines in list(sections.values())[:2]) > MOST_LINES:
        yield f"the first two sections have more than {MOST_LINES} lines"


TEXT = ("# A\n\n## [Unreleased]\n\n- b\n\n## [1.1.0] - 2026-01-02\n\n- a\n\n"
        "## [1.0.0] - 2026-01-01\n")


def test_changelog():
    shown = ran("git", "show", f"v{VERSION}:CHANGELOG.md", cwd=TOP)
    tagged = shown.stdout if shown.returncode == 0 else None
    assert list(faults((TOP / "CHANGELOG.md").read_text(), VERSION, tagged)) == []


def test_right():
    assert list(faults(TEXT, "1.1.0", TEXT.replace("- b\n", ""))) == []


@cases("text, version", {
    "no place for changes": (TEXT.replace("[Unreleased]", "[1.2.0] - 2026-01-03"), "1.1.0"),
    "another version": (TEXT, "1.2.0"),
    "a change of the version that is released": (TEXT.replace("- a", "- a\n- c"), "1.1.0"),
    "an older version first": (TEXT.replace("1.0.0", "1.3.0"), "1.1.0"),
    "no day": (TEXT.replace(" - 2026-01-01", ""), "1.1.0"),
    "too long": (TEXT.replace("- b", "- b\n" * MOST_LINES), "1.1.0"),
})
def test_fault_is_found(text, version):
    assert len(list(faults(text, version, TEXT))) == 1
