#!/usr/bin/env python3
"""Measures a replayer on schedules at the limit, beside `cat` of its report.

    run.py PROGRAM [--rounds N] [--check] [KIND...]

In each round and for each kind of bench/generate.py, `PROGRAM replay` reads the schedule from a
file and writes the report to a file; the replayer of handwritten.c does the same; and `cat` copies
that report from a file to a file. They take turns, so that other work of the machine meets all of
them. It prints medians over the rounds, for ratios the median of the rounds' ratios, since a
machine may be fast in one round and slow in the next:

    elapsed    milliseconds of the program from start to end
    processor  milliseconds of a processor, user and kernel; the rows below use these, since the
               elapsed time also counts how long others had the processor
    spread     half the distance between the quartiles of the rounds' ratios to cat, in percent
    to cat     the program's time over cat's
    to hand    the program's time over that of handwritten.c
    ns a move  the program's time less that of a schedule without a move, for each move
    by hand    the same for handwritten.c
    extra MB   the program's peak memory less that of a schedule without a move, in 10^6 bytes, the
               most seen

With --check it ends with 1 if a limit is passed: 1.2 times handwritten.c for each kind, 1.6
times cat on the two reports of 14 MB, 6 MB of memory. Memory is taken as it is. Time is given a
tenth more: measured three times over on a machine with other work on all its cores, the ratios of
one program differed by up to 8 %. A kind that is past a limit is measured again, up to five times
in all, and so is one whose spread is above 10 %, for then not even the ratios hold. A kind that was
never measured quietly and within its limits fails.
"""
import pathlib
import sys

import generate
import measuring
from measuring import TOLERANCE, arguments, by_hand, median_elapsed, median_processor

sys.path.append(str(pathlib.Path(__file__).resolve().parents[1] / "tests" / "oracle"))
import oracle

LONG_LINES = {"contention", "mcs-contention"}
MOST = {"to hand": 1.2 * TOLERANCE, "extra MB": 6.0, "spread": 10.0}
MOST_OF_LONG_LINES = {**MOST, "to cat": 1.6 * TOLERANCE}
ATTEMPTS = 5
COLUMNS = ["elapsed", "processor", "spread %", "to cat", "to hand", "ns a move", "by hand",
           "extra MB"]


class Bench(measuring.Bench):
    def __init__(self, *parts):
        super().__init__(*parts)
        self.by_hand, self.start = by_hand(self.folder), self.schedule("none")

    def schedule(self, kind):
        path = self.folder / f"{kind}.schedule"
        path.write_bytes(generate.schedule_of(kind))
        return path

    def replayed(self, kind):
        """The kind's schedule and report as files, after the program's report was compared."""
        schedule = self.schedule(kind)
        self.measure.run([self.program, "replay"], schedule)
        report = self.folder / f"{kind}.report"
        report.write_bytes(oracle.report_of(schedule.read_bytes()))
        if self.measure.output.read_bytes() != report.read_bytes():
            raise SystemExit(f"{kind}: the report is wrong")
        return schedule, report

    def figures(self, schedule, report):
        """Runs all rounds and answers the figures of one line of the table."""
        runs, hands, copies, starts = self.in_turns(
            self.command(self.program, "replay", source=schedule),
            self.command(self.by_hand, "replay", source=schedule),
            self.command("cat", source=report),
            self.command(self.program, "replay", source=self.start))
        moves = schedule.read_bytes().count(b"\n") - 1
        took, hand, start = map(median_processor, (runs, hands, starts))
        least = min(run.peak for run in starts)
        return {
            "elapsed": median_elapsed(runs) * 1e3,
            "processor": took * 1e3,
            "spread": measuring.ratio_spread(runs, copies) * 100,
            "to cat": measuring.median_ratio(runs, copies),
            "to hand": measuring.median_ratio(runs, hands),
            "ns a move": (took - start) / moves * 1e9,
            "by hand": (hand - start) / moves * 1e9,
            "extra MB": (max(run.peak for run in runs) - least) / 1e6,
        }

    def fits(self, kind, attempts):
        """Prints the kind's line, and tells whether its limits are kept."""
        files = self.replayed(kind)
        limits = MOST_OF_LONG_LINES if kind in LONG_LINES else MOST
        return measuring.fits(f"{kind:15}", lambda: self.figures(*files), lambda _: limits,
                              attempts)


if __name__ == "__main__":
    KINDS = [kind for kind in generate.KINDS if kind != "none"]
    words = arguments(rounds=30)
    words.add_argument("kinds", nargs="*", metavar="KIND", choices=[[], *KINDS])
    asked = words.parse_intermixed_args()
    sys.exit(measuring.run(Bench, asked, asked.kinds or KINDS, f"{'kind':15}"
                           + "".join(f"{name:>12}" for name in COLUMNS), ATTEMPTS))
