"""`lockreplay` gives each worked row's report, and status 0 if and only if it accepts all."""
import pytest

from worked_rows import rows, short_rows


@pytest.mark.parametrize("row", [*rows(), *short_rows()], ids=lambda row: row.name)
def test_row(replayer, row):
    report, error, status = replayer.run("replay", stdin=row.text)
    assert (error, status) == (b"", row.status())
    assert row.is_met_by(report), report[-300:]
