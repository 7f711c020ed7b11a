"""The README has the right count of lines and definitions that a reader must believe."""
import re

from tree import TESTS, TOP, output


def test_lines_to_believe():
    claims = output(TESTS / "prover" / "count_lines_to_believe.py")
    lines, definitions = re.search(r"^main theorem +(\d+) +(\d+) ", claims, re.M).groups()
    readme = " ".join((TOP / "README.md").read_text().split())
    assert f"{lines} lines in {definitions} definitions" in readme
