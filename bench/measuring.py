"""Shared by the benchmarks: arguments, C helpers built where they are needed, measured commands."""
import argparse
import collections
import functools
import pathlib
import statistics
import subprocess
import tempfile

HERE = pathlib.Path(__file__).parent
TOLERANCE = 1.1  # of limits of time

# One run of a command: seconds from start to end, seconds of a processor, peak bytes.
Run = collections.namedtuple("Run", "elapsed processor peak")


def arguments(rounds):
    """The arguments that all have: a program, how often it is measured, and whether limits hold."""
    words = argparse.ArgumentParser(description="The head of this file says what is measured.")
    words.add_argument("program", type=lambda path: str(pathlib.Path(path).resolve()))
    words.add_argument("--rounds", type=int, default=rounds)
    words.add_argument("--check", action="store_true")
    return words


def fits(title, measured, limits, attempts):
    """Prints a line of figures; again, while a limit is passed and attempts are left. `limits` has
    the most of each figure that has a limit, by all the figures."""
    for _ in range(attempts):
        figures = measured()
        beyond = [name for name, most in limits(figures).items() if figures[name] > most]
        cells = "".join(f"{it:12}" if isinstance(it, int) else f"{it:12.2f}"
                        for it in figures.values())
        print(f"{title}{cells}", *(f"past the limit: {name}" for name in beyond), flush=True)
        if not beyond:
            return True
    return False


def run(bench, asked, rows, columns, attempts):
    """Prints a table of the rows, each of which `bench` measures in a folder of its own: the status
    of the script. `columns` is the line above the rows."""
    with tempfile.TemporaryDirectory() as folder:
        bench = bench(asked.program, asked.rounds, pathlib.Path(folder))
        print(columns)
        all_fit = [bench.fits(row, attempts if asked.check else 1) for row in rows]
    return 1 if asked.check and not all(all_fit) else 0


class Bench:
    """A program that is measured in rounds."""

    def __init__(self, program, rounds, folder):
        self.program, self.rounds, self.folder = program, rounds, folder
        self.measure = Measure(folder)

    def command(self, *words, source="/dev/null"):
        """What runs a command once, with a file as its standard input."""
        return functools.partial(self.measure.run, words, source)

    def in_turns(self, *works):
        """Does all of this in each round: for each of them its runs."""
        return zip(*[[work() for work in works] for _ in range(self.rounds)])


def build(name, folder, *flags):
    """Compiles bench/NAME.c into the folder and answers the path of the program."""
    built = pathlib.Path(folder) / name
    subprocess.run(["cc", "-O2", "-Wall", *flags, "-o", built, HERE / f"{name}.c"], check=True)
    return built


def by_hand(folder):
    """The replayer that was written by hand, for the processor that the program is for."""
    return build("handwritten", folder, "-march=x86-64-v2")


class Measure:
    """Runs commands under bench/measure.c, standard input from a file and output to a file."""

    def __init__(self, folder):
        self.measure = build("measure", folder)
        self.output = pathlib.Path(folder) / "output"

    def run(self, command, source="/dev/null", status=0):
        words = [self.measure, source, self.output, *command]
        elapsed, processor, kilobytes, ended = map(int, subprocess.check_output(words).split())
        if ended != status:
            raise SystemExit(f"{command}: status {ended} instead of {status}")
        return Run(elapsed / 1e9, processor / 1e9, kilobytes * 1024)


def median_elapsed(runs):
    return statistics.median(run.elapsed for run in runs)


def median_processor(runs):
    return statistics.median(run.processor for run in runs)


def ratios(runs, others):
    """The processor's time of each run over that of the other in the same round."""
    return [run.processor / other.processor for run, other in zip(runs, others)]


def median_ratio(runs, others):
    return statistics.median(ratios(runs, others))


def ratio_spread(runs, others):
    """Half the distance between the quartiles of the ratios, as a part of the median."""
    low, middle, high = statistics.quantiles(ratios(runs, others), n=4)
    return (high - low) / 2 / middle
