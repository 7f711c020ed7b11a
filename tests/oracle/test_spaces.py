"""The tables of searches have what a search over the oracle (spaces.py) finds.

bench/count.py compares the rows of spaces.txt with SPIN's search, and tests/locktrace compares all
tables with the search of `locktrace`.
"""
import pytest

import search_rows
from changed_locks import Searched
from endless import Endless
from locks import LOCKS
from spaces import Space, ending, measured, searched


@pytest.mark.parametrize("row, counts, kinds", list(search_rows.spaces()), ids=str)
def test_counts_of_the_oracle(row, counts, kinds):
    space = searched(row)
    assert (len(space), sum(map(len, space.transitions)), max(space.lengths)) == counts
    assert len(space.kinds()) == kinds


@pytest.mark.parametrize("row, counts, _", [
    each for each in search_rows.spaces() if each[0].rounds != search_rows.ANY
    and each[0].bits == 64], ids=str)
def test_lock_as_it_is(row, counts, _):
    """The search over changed locks finds the same counts if no step is changed."""
    space = Searched(row.lock, row.threads, row.rounds)
    transitions = sum(map(len, space.sources.values()))
    assert (len(space.lengths), transitions, max(space.lengths.values())) == counts


@pytest.mark.parametrize("row, _, __", list(search_rows.spaces()), ids=str)
def test_all_calls_can_end(row, _, __):
    """From each state a run without a new round leads to where nobody is in a call or holds the
    lock. So in no state only failed polls are possible."""
    space = searched(row)
    assert ending(space) == set(range(len(space)))


@pytest.mark.parametrize("lock", LOCKS)
def test_kinds(lock):
    assert Space(lock, 2, 1).kinds() == search_rows.kinds(lock)


@pytest.mark.parametrize("sketch", list(search_rows.sketches()), ids=str)
def test_sketch(sketch):
    """The space has the run of a row, and no shorter run has the lines."""
    space = searched(sketch.space)
    found = space.find(sketch.lines)
    if sketch.length is None:
        assert (found, len(space)) == (None, sketch.states)
    else:
        assert measured(space, sketch.lines, sketch.run) == sketch.measure
        run = [(transition.thread, transition.word) for transition in found]
        assert measured(space, sketch.lines, run) == sketch.measure


@pytest.mark.parametrize("row", list(search_rows.endless()), ids=str)
def test_endless(row):
    """A cycle is reached after so many moves, and no sooner; or there is none."""
    assert Endless(searched(row.space), row.lines).length() == row.length
