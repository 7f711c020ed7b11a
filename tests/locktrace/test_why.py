"""`locktrace why` gives the verdicts that a search over the oracle finds, and runs that show them;
the page has its output."""
import re

import pytest

from changed_locks import AS_IT_IS, Searched, signs
from locks import LOCKS
from tree import TOP, ran

VERDICT = re.compile(r"(?P<illegal>[\d,]+) moves?, and thread \d .+"
                     r"|(?P<stuck>[\d,]+) moves? to where no run can come to rest within the "
                     r"rounds: \d .+"
                     r"|harmless: all (?P<harmless>[\d,]+) states? were searched")
ROUNDS = 2  # the default
# Changes of which a shortest run leaves calls that can all still end, though not all by one run.
CALLS_CAN_END = {
    "ticket": "PassOn, if its write is left out",
    "mcs": "CasTail, if it finds 0, whatever is there",
}


def read(text):
    """A verdict: its kind, and its number of moves or states."""
    found = VERDICT.fullmatch(text)
    return found and (found.lastgroup, int(found[found.lastgroup].replace(",", "")))


def parts_of(output):
    """The heading, and a map from each change to its verdict with the lines of its run."""
    heading, *parts = re.split(r"\n(?! )", output.removesuffix("\n"))
    return heading, dict(part.split(": ", 1) for part in parts)


@pytest.mark.parametrize("threads", [2, 3])
@pytest.mark.parametrize("lock", LOCKS)
def test_verdicts(tracer, lock, threads):
    output, *more = tracer.run("why", lock, threads)
    heading, verdicts = parts_of(output)
    assert more == ["", 0]
    assert heading == f"{lock}, {threads} threads with {ROUNDS} rounds each"
    assert list(verdicts) == [AS_IT_IS, *LOCKS[lock].changes]
    assert {change: read(text) for change, text in verdicts.items()} \
        == {change: Searched(lock, threads, ROUNDS, change).verdict() for change in verdicts}


def object_text(lock, state):
    """What the sequential object has, in words. The readers are in the order of their numbers."""
    if lock.lock.is_holder_in_line:
        return f"the queue is {','.join(map(str, state.queue)) or 'empty'}"
    inside = {thread: next(iter(signs([place]))) for thread, place in enumerate(state.places)
              if signs([place])}
    readers = ",".join(str(thread) for thread, sign in inside.items() if sign == "r")
    writers = [f"thread {thread} writes" for thread, sign in inside.items() if sign == "w"]
    announced = [f"thread {thread} is announced" for thread in state.queue]
    return ", ".join([*writers, *([f"inside are the readers {readers}"] if readers else []),
                      *([] if inside else ["nobody is inside"]), *announced])


def effect_text(lock, before, after):
    """The words that a move has changed, and what the sequential object has then."""
    names = [name if isinstance(name, str) else f"{name[0]} of {name[1]}" for name in lock.words]
    words = [f"{name} = {new}" for name, old, new in zip(names, before.words, after.words)
             if old != new]
    return "; ".join([*([", ".join(words)] if words else []), object_text(lock, after)])


def followed(lock, moves, effects):
    """The state to which a run leads; None if its last move does harm. Each other move has the
    effect that is said. By the last one a thread may join the queue and enter at once, which the
    object does not allow then."""
    state = lock.start()
    for line, effect in zip(moves, effects, strict=True):
        move, ways = re.sub(r"\(\d+\)", "", line), dict(lock.moves(state))
        before, state = state, ways[move]
        if state is None:
            joined = before._replace(queue=(*before.queue, int(move[0])))
            assert line is moves[-1] and effect.endswith((object_text(lock, before),
                                                          object_text(lock, joined)))
        else:
            assert effect.replace("readers 1,0", "readers 0,1") == effect_text(lock, before, state)
    return state


@pytest.mark.parametrize("lock, change", [(name, change) for name, lock in LOCKS.items()
                                          for change in [AS_IT_IS, *lock.changes]])
def test_run(tracer, lockreplay, lock, change):
    """A run has as many moves as its verdict says, and does the harm that the verdict names. It may
    differ from the run that the search finds. It is a schedule of the changed lock, and of no
    other."""
    output = tracer.output("why", lock, 2, "--runs")
    told, *lines = parts_of(output)[1][change].split("\n  ")
    kind, number = read(told)
    space = Searched(lock, 2, ROUNDS, change)
    moves, effects = lines[2::2], [line.removeprefix("# ") for line in lines[3::2]]
    end = followed(space.lock, moves, effects)
    assert len(moves) == (0 if kind == "harmless" else number)
    assert (end is None) == (kind == "illegal")
    assert (end in space.ending()) == (kind == "harmless")
    if moves:
        assert lines[:2] == [f"#! changed: {change}", f"changed lock {lock} threads 2"]
        refused = ran(lockreplay, "replay", input="\n".join(lines))
        assert (refused.stdout, refused.returncode) == ("fault line 2 BadHeader\n", 1)


def states_from(lock, start):
    """The states to which the moves of a changed lock lead, except for harm."""
    found, new = {start}, [start]
    while new:
        for _, after in lock.moves(new.pop()):
            if after is not None and after not in found:
                found.add(after)
                new.append(after)
    return found


@pytest.mark.parametrize("lock, change", CALLS_CAN_END.items())
def test_not_said_of_a_call(tracer, lock, change):
    """Each pending call can end where no run comes to rest, so the verdict is about runs."""
    space = Searched(lock, 2, ROUNDS, change)
    output = tracer.output("why", lock, 2, "--runs")
    told, *lines = parts_of(output)[1][change].split("\n  ")
    end = followed(space.lock, lines[2::2], [line.removeprefix("# ") for line in lines[3::2]])
    pending = {thread for thread, place in enumerate(end.places) if place.call}
    reached = states_from(space.lock, end)
    assert {thread for thread in pending
            if any(not state.places[thread].call for state in reached)} == pending != set()
    assert not reached & space.ending()
    assert "to where no run can come to rest within the rounds: " in told


def test_four_threads_are_the_most(tracer):
    """Each of four threads has one call to begin with. A row has five threads."""
    output, *more = tracer.run("why", "mcs", "4", "--limit", "1")
    assert more == ["", 3]
    assert output.startswith("mcs, 4 threads with 2 rounds each\nas it is: not decided: the search "
                             "stopped at 5 states\n")


@pytest.mark.parametrize("lock", LOCKS)
def test_what_the_page_has(tracer, lock):
    """`make generate` writes it."""
    kept = (TOP / "built" / "why" / f"{lock}.txt").read_text()
    assert tracer.run("why", lock, "--runs") == (kept, "", 0)


def test_the_page_has_each_lock():
    assert {path.stem for path in (TOP / "built" / "why").iterdir()} == {*LOCKS}
