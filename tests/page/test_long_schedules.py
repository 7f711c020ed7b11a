"""The page loads 64 threads and 65,536 moves within 1 s, and makes a step within 50 ms. In a text
of 10,000 moves a key within a line takes at most 50 ms, an edit takes effect soon, and Undo keeps a
bounded amount.

A load lasts from the bytes of the file to the layout of the page, and a step from the click on the
button to the layout; the time of a step is the mean of twelve. The bound holds for the shortest of
some rounds. If that is too long, there are more rounds, since other work may delay the machine.
"""
import random

import pytest

import schedules

LOAD_MS, STEP_MS, KEY_MS, PAUSE_MS, EDIT_MS = 1000, 50, 50, 150, 450
STEPS, ROUNDS, EDITS, TRIES = 12, 3, 5, 5
PLACES = [0, 30000, 65500]
CHOICES = 60
MOST_BYTES = 16_000_000


def text_of(lock, threads, count):
    chance = random.Random(64)
    lines = [f"lock {lock} threads {threads}"]
    lines += [f"{thread} {word}" for thread, word in schedules.moves(chance, lock, threads, count)]
    return "\n".join(lines) + "\n"


def least(measure, bounds):
    """The shortest time of each part over some tries, until all are within their bounds."""
    times = measure()
    for _ in range(TRIES - 1):
        if all(time <= bound for time, bound in zip(times, bounds, strict=True)):
            break
        times = list(map(min, times, measure()))
    return times


@pytest.mark.timed
@pytest.mark.parametrize("lock", schedules.NAMES)
def test_loads_and_steps(page, record_property, lock):
    page.open()
    text = text_of(lock, 64, 65536)
    [load] = least(lambda: [page.js("loads", text, ROUNDS)], [LOAD_MS])
    page.call("inMode", "lessons")
    steps = least(lambda: page.js("steps", PLACES, STEPS, ROUNDS), [STEP_MS] * (len(PLACES) + 1))
    record_property("measured", f"load {load:.0f} ms, step {max(steps):.0f} ms")
    assert page.shown()["moves"] == 65536
    assert load <= LOAD_MS and max(steps) <= STEP_MS, (load, steps)
    assert page.js("count", "#lanes *") < 3000


@pytest.mark.timed
def test_typing(page, record_property):
    """Measures each key at the end of 10,004 moves, and each pause after it, in which the page
    plays the text.

    The key that begins a line at the end of the text has the bound of a pause. In Chromium it takes
    twice the time of another key: 38 to 42 ms on a quiet processor, 60 ms on a loaded one. A field
    without listeners takes as long, and a key in the middle of a text does not, so this is the
    browser's own work."""
    page.open()
    line = "1 read\n"
    bounds = [PAUSE_MS, PAUSE_MS] + [KEY_MS, PAUSE_MS] * (len(line) - 1)
    times = least(lambda: page.js("typing", line, ROUNDS), bounds)
    begun, key, pause = times[0], max(times[2::2]), max(times[1::2])
    record_property("measured", f"key {key:.0f} ms, a line's first {begun:.0f} ms, "
                                f"pause {pause:.0f} ms")
    shown = page.shown()
    assert shown["moves"] == 10_004 + ROUNDS and shown["area"].endswith("1 read\n" * 4)
    assert len(times) == 14 and key <= KEY_MS and max(begun, pause) <= PAUSE_MS, times


@pytest.mark.timed
def test_an_edit_of_a_long_text(page, record_property):
    page.open()
    [edit] = least(lambda: [page.js("edits", EDITS)], [EDIT_MS])
    record_property("measured", f"an edit {edit:.0f} ms")
    assert page.js("size") > 353_000 and edit <= EDIT_MS, edit


def test_what_undo_keeps(page):
    """Undo takes back at least 20 of the last choices, and keeps at most MOST_BYTES bytes."""
    place, kept, size = page.open().js("undone", CHOICES)
    assert place == 60060 and 20 <= kept < CHOICES and size <= MOST_BYTES, (place, kept, size)
