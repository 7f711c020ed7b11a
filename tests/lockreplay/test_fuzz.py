"""`lockreplay` and the oracle give the same bytes, on the stored texts and on random ones.

Hypothesis draws small random texts, and shrinks a text whose report differs. For --fuzz-seconds, of
which each program has half, the fuzzer draws rounds of longer texts, one of which is at a limit of
size. It replays each round as a batch with 2 workers, the accepted texts of the round as a second
batch, and a few texts one by one. It shortens a text whose report differs, and stores the whole and
the shortened text in found/. After the fix, add the shortened text to the corpus under a name that
says what is special about it.
"""
import random
import time
from pathlib import Path

import pytest
from hypothesis import strategies as st

import corpus
import oracle
import schedules
from dice import drawn, try_random

ROUND, ONE_BY_ONE, LONGEST = 150, 6, 3000
SMALL, TEXTS = 60, 2000
SHORTENING = 60  # seconds
FOUND = Path(__file__).with_name("found")
SMALL_TEXTS = st.lists(drawn(lambda dice: schedules.random_text(dice, SMALL), 600),
                       min_size=1, max_size=9)


def due(reports):
    """The output, error and status that are due for a batch with these reports."""
    return oracle.batch_of(reports), b"", 0 if all(map(oracle.is_accepted, reports)) else 1


def batch(replayer, texts, workers=2):
    replayer.write(**{str(number): text for number, text in enumerate(texts)})
    return replayer.run("batch", "--workers", workers, *range(len(texts)))


def is_right(replayer, text):
    report = oracle.report_of(text)
    return replayer.run("replay", stdin=text) == (report, *due([report])[1:])


@pytest.mark.parametrize("name", corpus.TEXTS)
def test_stored_text(replayer, name):
    text = corpus.TEXTS[name]
    report = oracle.report_of(text)
    assert replayer.run("replay", stdin=text) == (report, *due([report])[1:])


def test_stored_texts_as_a_batch(replayer):
    texts = list(corpus.TEXTS.values())
    assert batch(replayer, texts) == due(list(map(oracle.report_of, texts)))


def test_small_texts(replayer, request):
    def check(texts):
        assert batch(replayer, texts) == due(list(map(oracle.report_of, texts)))

    try_random(request, SMALL_TEXTS, check, TEXTS, 4)


def shortened(pieces, differs):
    """Drops pieces, ever shorter runs of them, as long as the remaining ones still differ."""
    until = time.monotonic() + SHORTENING
    size = len(pieces) // 2
    while size and time.monotonic() < until:
        at = 0
        while at < len(pieces):
            fewer = pieces[:at] + pieces[at + size:]
            if fewer and differs(fewer):
                pieces = fewer
            else:
                at += size
        size //= 2
    return pieces


def store(name, text):
    FOUND.mkdir(exist_ok=True)
    (FOUND / name).write_bytes(text)
    return f"stored {FOUND / name}"


def fail_at(replayer, texts, reports, name):
    """Stores the text that differs, or a short batch that differs if each text alone is right."""
    for number, text in enumerate(texts):
        if not is_right(replayer, text):
            whole = store(f"{name}-{number}.whole", text)
            text = b"".join(shortened(text.splitlines(keepends=True), lambda lines: not is_right(
                replayer, b"".join(lines))))
            print(whole, store(f"{name}-{number}.schedule", text), sep="\n")
            assert replayer.run("replay", stdin=text)[0] == oracle.report_of(text)
    numbers = shortened(list(range(len(texts))), lambda few: batch(
        replayer, [texts[k] for k in few]) != due([reports[k] for k in few]))
    pytest.fail("\n".join(store(f"{name}-{k}.batch", texts[k]) for k in numbers))


def is_round_right(replayer, chance, texts, reports):
    accepted = [k for k, report in enumerate(reports) if oracle.is_accepted(report)]
    singles = chance.sample(range(len(texts)), ONE_BY_ONE) + [len(texts) - 1]
    return (batch(replayer, texts) == due(reports)
            and batch(replayer, [texts[k] for k in accepted], chance.randint(1, 8))
            == due([reports[k] for k in accepted])
            and all(is_right(replayer, texts[k]) for k in singles))


def test_random_texts(replayer, pytestconfig, record_property):
    seed, tried = int(pytestconfig.getoption("hypothesis_seed")), 0
    chance = random.Random(seed)
    until = time.monotonic() + pytestconfig.getoption("fuzz_seconds") / 2
    while tried == 0 or time.monotonic() < until:
        texts = [schedules.random_text(chance, LONGEST) for _ in range(ROUND - 1)]
        texts.append(schedules.limit_text(chance))
        reports = list(map(oracle.report_of, texts))
        if not is_round_right(replayer, chance, texts, reports):
            fail_at(replayer, texts, reports, f"{seed}-{tried}")
        tried += ROUND
    record_property("tried", f"{tried} random texts")
