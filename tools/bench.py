#!/usr/bin/env python3
"""Compares the speed of the proved core with that of the second emulator, in one run on this machine.

    for name in tintrun benchlayers benchruns; do (cd crates/$name && rt run < stdin); done    # builds the programs
    python3 tools/bench.py

The same set-ups go to `tintrun`, on a bank alone, to `benchlayers`, on a bank under a shift and a split, and to the emulator of
tools/emulator on both boards; with long and with short runs they go to `benchruns`, which makes each run a hundred times. No run may be
cut short. Every program takes every set-up in turn, many times; the least time counts, minus the least of the same set-up without runs.
"""
import argparse
import pathlib
import subprocess
import sys
import tempfile
import time
from collections.abc import Callable
from typing import NamedTuple

import compare

sys.path.insert(0, str(compare.TOP / "tools" / "programs"))
import benchmarks  # noqa: E402

LONGEST_RUN, SHORT_RUN = 65_536, 100

# How often `benchruns` makes each run.
TIMES = 100


class Runs(NamedTuple):
    """So many runs of so many steps."""

    count: int
    length: int

    @property
    def steps(self) -> int:
        return self.count * self.length

    def text(self, lines: str) -> bytes:
        """A set-up that makes the runs, behind the lines that write a program."""
        return (lines + f"g,{self.length}\n" * self.count).encode()


LONG = Runs(40, LONGEST_RUN)
LONG_REPEATED, SHORT_REPEATED = Runs(1, LONGEST_RUN), Runs(LONGEST_RUN // SHORT_RUN, SHORT_RUN)


def all_listed(runs: Runs, printed: bytes) -> bool:
    """Whether a listing has a line of each run, none refused or cut short, and nothing else."""
    lines = printed.splitlines()
    return len(lines) == runs.count and all(line.startswith(b"run,%d," % runs.length) for line in lines)


def all_counted(runs: Runs, printed: bytes) -> bool:
    """Whether the steps of all runs, each made `TIMES` times, were printed, and nothing else."""
    return printed == b"%d\n" % (TIMES * runs.steps)


class Timed(NamedTuple):
    """A program that is timed: how often it makes each run, the runs that it is given, and whether its output shows them whole."""

    name: str
    times: int
    given: tuple[Runs, ...]
    are_whole: Callable[[Runs, bytes], bool]


def lister(name: str) -> Timed:
    """A program that prints the listing of a set-up."""
    return Timed(name, 1, (LONG,), all_listed)


ON_BANK, UNDER_LAYERS = lister("tintrun"), lister("benchlayers")
OTHER_ON_BANK, OTHER_UNDER_LAYERS = lister("emulator"), lister("emulator under layers")
REPEATED = Timed("benchruns", TIMES, (LONG_REPEATED, SHORT_REPEATED), all_counted)


class Job(NamedTuple):
    """Runs of a benchmark's program by one of the programs that are timed."""

    by: Timed
    name: str
    runs: Runs

    @property
    def steps(self) -> int:
        return self.runs.steps * self.by.times

    def without_runs(self) -> "Job":
        return self._replace(runs=Runs(0, 0))


def timed(command: list[str | pathlib.Path], job: Job) -> float:
    """How many seconds a turn of a job takes."""
    text = job.runs.text(benchmarks.lines(job.name))
    start = time.perf_counter()
    run = subprocess.run(command, input=text, stdout=subprocess.PIPE, check=True)
    seconds = time.perf_counter() - start
    if not job.by.are_whole(job.runs, run.stdout):
        sys.exit(f"bench: a run of {job.name} was cut short in {job.by.name}")
    return seconds


def fastest(programs: dict[Timed, list[str | pathlib.Path]], jobs: list[Job], turns: int) -> dict[Job, float]:
    """The fastest of several turns of each job. All take turns, so that a slow while of the machine meets all alike."""
    times = dict.fromkeys(jobs, float("inf"))
    for _ in range(turns):
        for job in times:
            times[job] = min(times[job], timed(programs[job.by], job))
    return times


class Steps(NamedTuple):
    """The times of jobs, as nanoseconds of a step."""

    times: dict[Job, float]

    def of(self, by: Timed, name: str, runs: Runs = LONG) -> float:
        job = Job(by, name, runs)
        return (self.times[job] - self.times[job.without_runs()]) / job.steps * 1e9


def table(title: str, head: list[str], rows: list[list[str]]) -> None:
    """Prints a table as the documents have them."""
    print(f"\n{title}\n")
    for row in (head, ["---"] * len(head), *rows):
        print("| " + " | ".join(row) + " |")


def print_against_emulator(title: str, by: Timed, other: Timed, names: list[str], steps: Steps) -> None:
    rows = []
    for name in names:
        core, emulator = steps.of(by, name), steps.of(other, name)
        rows.append([f"`{name}`", f"{1e3 / core:.0f}", f"{1e3 / emulator:.0f}", f"{emulator / core:.2f}"])
    table(title, ["program", "proved core, million steps a second", "second emulator", "ratio"], rows)


def print_against_itself(names: list[str], steps: Steps) -> None:
    rows = []
    for name in names:
        layers = steps.of(UNDER_LAYERS, name) / steps.of(ON_BANK, name)
        short = steps.of(REPEATED, name, SHORT_REPEATED) / steps.of(REPEATED, name, LONG_REPEATED)
        rows.append([f"`{name}`", f"{layers:.2f}", f"{short:.2f}"])
    title = f"The time of a step of the proved core, divided by that on a bank alone, and by that in runs of {LONGEST_RUN}"
    table(title, ["program", "under a shift and a split", f"in runs of {SHORT_RUN}"], rows)


def main() -> None:
    parser = argparse.ArgumentParser(description="Compares the speed of the proved core with that of the second emulator.")
    parser.add_argument("--turns", type=int, default=20, help="how often each program is timed")
    parser.add_argument("names", nargs="*", default=list(benchmarks.BENCHMARKS), help="benchmarks; all, if none is named")
    chosen = parser.parse_args()
    with tempfile.TemporaryDirectory() as folder:
        emulator = compare.build_emulator(pathlib.Path(folder))
        programs = {
            **{by: [compare.proved_program(by.name)] for by in (ON_BANK, UNDER_LAYERS, REPEATED)},
            OTHER_ON_BANK: [emulator, "tintrun"],
            OTHER_UNDER_LAYERS: [emulator, "layered"],
        }
        jobs = [Job(by, name, runs) for by in programs for name in chosen.names for runs in by.given]
        jobs += [job.without_runs() for job in jobs]
        steps = Steps(fastest(programs, jobs, chosen.turns))
    print_against_emulator("On a bank alone", ON_BANK, OTHER_ON_BANK, chosen.names, steps)
    print_against_emulator("Under a shift and a split", UNDER_LAYERS, OTHER_UNDER_LAYERS, chosen.names, steps)
    print_against_itself(chosen.names, steps)


if __name__ == "__main__":
    main()
