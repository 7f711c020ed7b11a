"""`locktrace check` accepts random traces, and refuses one with a changed value at that line.

random_runs.py makes the runs, with the values that each step found and left. The machine has a
value that differs from the changed one. A section's count is the exception: a changed count that is
still in order is accepted, or refused at the next count that is not above it.
"""
import json

from hypothesis import strategies as st

from dice import drawn, try_random
from random_runs import changed_value, has_value, random_run

RUNS = 10_000


def changed_run(dice):
    """A run; the number of the line with a changed value, 0 if there is none; and whether the value
    is a count."""
    run = random_run(dice)
    changeable = [k for k, (_, line) in enumerate(run.moves) if has_value(line)]
    if not changeable or dice.random() < 0.5:
        return run, 0, False
    k = dice.choice(changeable)
    thread, line = run.moves[k]
    run.moves[k] = thread, changed_value(dice, line, [1, 2, 5], max(run.places, 256))
    return run, k + 2, line.startswith("section")  # the header is line 1


def test_changed_value(tracer, request):
    def check(runs):
        for k, (run, _, _) in enumerate(runs):
            moves = "".join(f"{thread} {line}\n" for thread, line in run.moves)
            tracer.write(**{f"{k}.trace": f"{run.header}\n{moves}"})
        files = [f"{k}.trace" for k in range(len(runs))]
        said = tracer.run("check", "--format", "json", *files)[0].splitlines()
        assert len(said) == len(runs)
        for (_, changed, is_count), answer in zip(runs, map(json.loads, said)):
            assert answer["ending"] in ("accepted", "refused"), answer
            refused = answer["line"] if answer["ending"] == "refused" else 0
            assert refused == changed or is_count and (refused == 0 or refused > changed), answer

    try_random(request, st.lists(drawn(changed_run, 700), min_size=1, max_size=9), check, RUNS, 4)
