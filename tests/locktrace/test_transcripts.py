"""`locktrace` writes exactly the outputs that the rows of tests/rows/locktrace have."""
from transcripts import transcripts
from tree import cases


@cases("row", transcripts())
def test_row(tracer, row):
    row.write_files(tracer.folder)
    assert row.runs and None not in [run.status for run in row.runs]
    for run in row.runs:
        assert tracer.run(*run.words) == run.due, run.words
