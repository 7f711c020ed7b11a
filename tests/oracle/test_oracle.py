"""The oracle gives the report of every worked row, so that not the program alone judges them. The
stored texts are what their names say, and together reach every answer."""
import pytest

import corpus
import oracle
from worked_rows import rows, short_rows


@pytest.mark.parametrize("row", [*rows(), *short_rows()], ids=lambda row: row.name)
def test_row(row):
    report = oracle.report_of(row.text)
    assert row.is_met_by(report), report[-300:]
    assert oracle.is_accepted(report) == (row.status() == 0)


@pytest.mark.parametrize("name", corpus.TEXTS)
def test_stored_text_is_what_its_name_says(name):
    report = oracle.report_of(corpus.TEXTS[name])
    assert corpus.is_named_rightly(name, report), report[-300:]


@pytest.mark.parametrize("due", corpus.DUE)
def test_answer_is_reached_by_a_stored_text(due):
    assert any(f"{name}-".startswith(f"{due}-") for name in corpus.TEXTS)
