"""Runs a program on scripts, WAV files, words and streams with something wrong in them.

For so many seconds it changes scripts, files and words: bytes are cut, doubled and swapped, numbers
put at every edge, values nested, members repeated, sizes of chunks changed, and streams and memory
cut short. Of each run it wants a status that docs/FORMATS.md has, with what may stand after it, at
most the time and the memory that the limits ask for, and no file but OUT touched. Where the second
calculation is quick, the answer has to be its answer; elsewhere the text has to have the form of a
transcript, and what stands after a fault is held to a run without one.

The module hypothesis (Debian: python3-hypothesis) draws what is run, and makes what it finds small.
A round hangs on the seed, its kind and its number. What is found is kept in a folder, as small as
it could be made: script.json, the files beside it, and found.json with the words and what is wrong.

It prints how many trials of each kind there were, with the statuses, and last how many rounds found
something. The status is 0 where none did.
"""

import argparse
import collections
import concurrent.futures
import importlib.util
import itertools
import os
import sys
import time
from collections.abc import Iterator
from pathlib import Path
from typing import Any

from waplay_tools.places import SHIPPED


def arguments() -> argparse.Namespace:
    """The words of the command line."""
    words = argparse.ArgumentParser(
        prog="tools/fuzz",
        description=__doc__,
        formatter_class=argparse.RawDescriptionHelpFormatter,
    )
    words.add_argument("seconds", type=float, metavar="SECONDS", help="how long it runs")
    words.add_argument(
        "seed",
        type=int,
        nargs="?",
        default=1,
        metavar="SEED",
        help="what the trials hang on, 1 by default",
    )
    words.add_argument(
        "--program", type=Path, default=SHIPPED, metavar="FILE", help="the program that is run"
    )
    words.add_argument(
        "--keep",
        type=Path,
        default=Path("fuzz-found"),
        metavar="FOLDER",
        help="where what is found is kept, fuzz-found by default",
    )
    words.add_argument("--kind", help="draw trials of this kind alone, as the last lines name it")
    words.add_argument(
        "--jobs", type=int, default=len(os.sched_getaffinity(0)), help="how many rounds at a time"
    )
    return words.parse_args()


def jobs_of(asked: argparse.Namespace) -> Iterator[Any]:
    """The rounds, one kind after the other, up to the end."""
    from waplay_tools.fuzz.rounds import Job
    from waplay_tools.fuzz.strategies import KINDS

    end, program = time.time() + asked.seconds, asked.program.resolve()
    for number in itertools.count():
        for kind in [asked.kind] if asked.kind else KINDS:
            if time.time() > end:
                return
            yield Job(program, kind, asked.seed, number, end)


def played(asked: argparse.Namespace) -> Iterator[Any]:
    """What comes of the rounds, as they end. As many are on their way as there are processes."""
    from waplay_tools.fuzz.rounds import play

    jobs = jobs_of(asked)
    with concurrent.futures.ProcessPoolExecutor(asked.jobs) as pool:
        under_way = {pool.submit(play, job) for job in itertools.islice(jobs, asked.jobs)}
        while under_way:
            done, under_way = concurrent.futures.wait(
                under_way, return_when=concurrent.futures.FIRST_COMPLETED
            )
            under_way |= {pool.submit(play, job) for job in itertools.islice(jobs, len(done))}
            yield from (it.result() for it in done)


class Totals:
    """What all rounds come to, by kind."""

    def __init__(self) -> None:
        self.statuses: dict[str, collections.Counter[int]] = {}
        self.calculated: collections.Counter[str] = collections.Counter()
        self.found: set[str] = set()

    def add(self, done: Any, keep: Path) -> None:
        """Counts a round, and keeps what it found."""
        from waplay_tools.fuzz.trials import keep as kept

        job = done.job
        self.statuses.setdefault(job.kind, collections.Counter()).update(done.statuses)
        self.calculated[job.kind] += done.calculated
        if done.found:
            name = f"{job.kind.replace(' ', '-')}-{job.seed}-{job.number}"
            trial, faults = done.found
            kept(trial, faults, keep / name)
            self.found.add(name)
            print(f"{keep / name}: {'; '.join(faults)[:300]}", flush=True)

    def tell(self) -> None:
        """Prints the counts."""
        for kind, statuses in self.statuses.items():
            told = ", ".join(
                f"{often} of status {status}" for status, often in sorted(statuses.items())
            )
            trials = sum(statuses.values())
            print(f"{kind}: {trials} trials, {self.calculated[kind]} of them calculated: {told}")
        trials = sum(sum(statuses.values()) for statuses in self.statuses.values())
        print(f"{trials} trials, {len(self.found)} rounds found something")


def main() -> int:
    """Runs rounds until the time is over, and gives the status."""
    asked = arguments()
    if importlib.util.find_spec("hypothesis") is None:
        print("tools/fuzz: the module hypothesis is missing (python3-hypothesis)", file=sys.stderr)
        return 2
    if not os.access(asked.program, os.X_OK):
        print(f"tools/fuzz: there is no program {asked.program}", file=sys.stderr)
        return 2
    from waplay_tools.fuzz.strategies import KINDS

    if asked.kind and asked.kind not in KINDS:
        print(f"tools/fuzz: the kinds are {', '.join(KINDS)}", file=sys.stderr)
        return 2
    totals = Totals()
    for done in played(asked):
        totals.add(done, asked.keep)
    totals.tell()
    return 1 if totals.found else 0


if __name__ == "__main__":
    sys.exit(main())
