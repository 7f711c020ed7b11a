#!/usr/bin/env python3
"""Measures a replayer's batches: the gain of a second worker, and the cost of a small file.

    batch.py PROGRAM [--rounds N] [--check]

Two workers: 24 schedules of 65,536 moves with 1 and with 2 workers, once of all kinds with short
lines, once two of each kind of bench/generate.py, once all of 14 MB of report. Beside them the same
schedules by bench/handwritten.c, which keeps all reports before it writes one, as the program does;
and as two processes of 12 with 1 worker each: what the machine can give, for its cores may have
other work and its memory is one.

Small files: 2,000 schedules of ten moves with 1 worker, beside bench/readall.c, which opens and
reads the same files and does nothing with them. Their row has the time of the program, that of
readall, and the ratio.

Figures are medians over the rounds, in which all that is compared takes turns. With --check it ends
with 1 if on the schedules of all kinds 2 workers take more than 0.62 of 1 worker's time, or 1
worker more than 1.1 times the time of handwritten.c; or the small files more than twice the time of
readall. Each limit is passed only above a tenth more, because medians differ by as much on a
machine with other work. What is past it is measured again, up to three times in all. Without two
free cores the first limit cannot be met, and the two processes show it.
"""
import pathlib
import re
import subprocess
import sys
import time

import generate
import measuring
from measuring import TOLERANCE, Run, arguments, build, by_hand, median_elapsed

ATTEMPTS = 3
LESSON = pathlib.Path(__file__).parent.parent / "examples" / "ticket-hand-over.schedule"
SMALL = re.sub(rb"^(#.*)?\n", b"", LESSON.read_bytes(), flags=re.MULTILINE)
KINDS = [kind for kind in generate.KINDS if kind != "none"]
BATCHES = {
    "short lines": [kind for kind in KINDS if "spinning" in kind or "alone" in kind],
    "14 MB each": ["contention", "mcs-contention"],
    "all kinds": KINDS[:12],
    "small files": None,
}
LIMITS = {"all kinds": {"2 to 1": 0.62 * TOLERANCE, "to hand": 1.1 * TOLERANCE},
          "small files": {"to reading": 2.0 * TOLERANCE}}
COLUMNS = ["1 worker", "2 workers", "2 to 1", "by hand", "to hand", "two process", "peak MB"]


class Bench(measuring.Bench):
    def files(self, texts):
        """The paths of files with these texts."""
        paths = [self.folder / f"{number}.schedule" for number in range(len(texts))]
        for path, text in zip(paths, texts):
            path.write_bytes(text)
        return paths

    def batch(self, workers, files):
        return self.program, "batch", "--workers", str(workers), *files

    def two_processes(self, files):
        """The files as two halves, each a process with one worker, at the same time."""
        began = time.perf_counter()
        running = []
        for number in range(2):
            with open(f"{self.measure.output}{number}", "wb") as output:
                running.append(subprocess.Popen(self.batch(1, files[number::2]), stdout=output))
        if any([process.wait() for process in running]):
            raise SystemExit("two processes: a batch failed")
        return Run(time.perf_counter() - began, 0, 0)

    def second_worker(self, kinds):
        """The figures of 1 worker, 2 workers, by hand, and two processes."""
        schedules = {kind: generate.schedule_of(kind) for kind in kinds}
        files = self.files([schedules[kinds[number % len(kinds)]] for number in range(24)])
        runs = list(self.in_turns(
            self.command(*self.batch(1, files)), self.command(*self.batch(2, files)),
            self.command(by_hand(self.folder), "batch", *files),
            lambda: self.two_processes(files)))
        one, two, hand, halves = map(median_elapsed, runs)
        return dict(zip(COLUMNS, [one * 1e3, two * 1e3, two / one, hand * 1e3, one / hand,
                                  halves / one, max(run.peak for run in runs[1]) / 1e6]))

    def small_files(self):
        """The figures of 2,000 small files, beside opening and reading them."""
        files = self.files([SMALL] * 2000)
        took, reading = map(median_elapsed, self.in_turns(
            self.command(*self.batch(1, files)),
            self.command(build("readall", self.folder), *files)))
        return {"1 worker": took * 1e3, "reading": reading * 1e3, "to reading": took / reading}

    def fits(self, name, attempts):
        kinds, limits = BATCHES[name], LIMITS.get(name, {})
        return measuring.fits(
            f"{name:12}", lambda: self.second_worker(kinds) if kinds else self.small_files(),
            lambda _: limits, attempts)


if __name__ == "__main__":
    sys.exit(measuring.run(Bench, arguments(rounds=11).parse_args(), BATCHES, 12 * " "
                           + "".join(f"{name:>12}" for name in COLUMNS), ATTEMPTS))
