"""The questions and stories of the lessons keep to two rules."""
import re

import pytest

from reports import SCHEDULES, asked_in, remarks


@pytest.mark.parametrize("name", SCHEDULES)
def test_one_question_at_a_time(name):
    """Each question asks one thing, and a story uses the names that a lesson gives its threads."""
    text = SCHEDULES[name]
    asked = ["".join(remarks(name, f"ask {move}")) for move in asked_in(name)]
    assert all(question.count("?") == 1 for question in asked), asked
    for number in re.findall(r"^#! name (\d+) ", text, re.MULTILINE):
        story = "".join(line for line in text.splitlines(True) if not line.startswith("#!"))
        assert not re.search(rf"(?<!is )[Tt]hread {number}\b", story), number
