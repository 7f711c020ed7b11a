#!/usr/bin/env python3
"""Measures how fast `locktrace space` searches spaces of schedules, beside SPIN's search of them.

    search.py LOCKTRACE [--rounds N] [--check]

In each round and for each space of SPACES, `LOCKTRACE space` searches it, and so does the `pan`
that SPIN makes of the model in bench/spin, compiled with -O2; pan.py says with which other options,
and why. They take turns, so that other work of the machine meets both. Both have to count the same
states and transitions. Times are those of a processor, user and kernel, less what the program takes
for one thread and one round: starting, and a table that is still empty. It prints medians:

    states       how many states the space has
    ms           milliseconds of the program
    SPIN's ms    the same of `pan`
    to SPIN      the program's time over that of `pan`, by turns; below 1 it is the faster one
    states a s   states that the program finds in a second, in thousands
    SPIN's       the same of `pan`
    bytes        what a state takes of the program's memory at its peak, less a byte for each word
                 and two for each thread's phase, its name and its value

With --check it ends with 1 if a limit is passed: the time of `pan`, 2 seconds for a million
states and 0.1 for a small space, 64 bytes a state. Time is given a tenth more, as in run.py, and a
space that is past a limit is measured again, up to three times in all.
"""
import json
import pathlib
import statistics
import sys

import measuring
import pan
from measuring import TOLERANCE, arguments, median_processor

TOP = pathlib.Path(__file__).resolve().parent.parent
sys.path.append(str(TOP / "tests" / "oracle"))
from locks import LOCKS
from search_rows import Space

SPACES = [
    Space("mcs", 4, 1, 64),
    Space("mcs", 4, 2, 64),
    Space("ticket", 5, 2, 64),
    Space("rw-simple", 5, 2, 64),
    Space("rw-fifo", 4, 3, 64),
]
MOST_TO_SPIN, MOST_BYTES, LEAST_SECONDS, SECONDS_A_STATE = 1.0, 64, 0.1, 2e-6
ATTEMPTS = 3
COLUMNS = ["states", "ms", "SPIN's ms", "to SPIN", "states a s", "SPIN's", "bytes"]


def state_bytes(space):
    """The bytes of the words and the phases of a state."""
    return len(LOCKS[space.lock].all_words(space.threads)) + 2 * space.threads


class Bench(measuring.Bench):
    def own(self, space):
        """The command by which the program searches a space."""
        return [self.program, "space", space.lock, str(space.threads), "--format", "json",
                "--rounds", str(space.rounds), "--bits", str(space.bits)]

    def spin(self, space):
        """The command by which `pan`, compiled for this space, searches it."""
        folder = self.folder / str(space).replace(" ", "-")
        folder.mkdir(exist_ok=True)
        return pan.command(pan.build(space, folder))

    def output(self, command):
        self.measure.run(command)
        return self.measure.output.read_text()

    def counts(self, own, spin):
        """States and transitions, by both commands."""
        found = json.loads(self.output(own))
        counted = pan.figures(self.output(spin))[:2]
        if (found["states"], found["transitions"]) != counted:
            raise SystemExit(f"{own}: {found}, and SPIN counts {counted}")
        return counted

    def figures(self, space):
        """The figures of one line of the table."""
        least = space._replace(threads=1, rounds=1)
        commands = [self.own(space), self.spin(space), self.own(least), self.spin(least)]
        states, _ = self.counts(*commands[:2])
        owns, spins, starts, spin_starts = self.in_turns(
            *(self.command(*words) for words in commands))
        start, spin_start = median_processor(starts), median_processor(spin_starts)
        took, spin_took = median_processor(owns) - start, median_processor(spins) - spin_start
        ratio = statistics.median((own.processor - start) / (spin.processor - spin_start)
                                  for own, spin in zip(owns, spins))
        peak = max(run.peak for run in owns) - min(run.peak for run in starts)
        return dict(zip(COLUMNS, [
            states, took * 1e3, spin_took * 1e3, ratio, states / took / 1e3,
            states / spin_took / 1e3, peak / states - state_bytes(space)]))

    def fits(self, space, attempts):
        return measuring.fits(f"{str(space):38}", lambda: self.figures(space), limits, attempts)


def limits(figures):
    most_seconds = max(LEAST_SECONDS, figures["states"] * SECONDS_A_STATE)
    return {"ms": most_seconds * 1e3 * TOLERANCE, "to SPIN": MOST_TO_SPIN * TOLERANCE,
            "bytes": MOST_BYTES}


if __name__ == "__main__":
    sys.exit(measuring.run(Bench, arguments(rounds=7).parse_args(), SPACES, f"{'space':38}"
                           + "".join(f"{name:>12}" for name in COLUMNS), ATTEMPTS))
