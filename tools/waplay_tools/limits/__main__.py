"""Meets each limit at its number and one past it, on the program and on the second calculation.

The scripts and files are made when they are run. It prints a line for each limit, with its number
and the answers at it and past it, then what is otherwise, and last how many cases there are. The
status is 0 where all are as the documents say.
"""

import argparse
import concurrent.futures
import os
import sys
from pathlib import Path

from waplay_tools.cases.__main__ import told_of
from waplay_tools.limits.table import TABLE, Limit
from waplay_tools.places import SHIPPED


def told_at(number: int, programs: list[Path]) -> list[str]:
    """What is otherwise than wanted at a limit of the table."""
    return [
        f"{case.shows}: {name}: {line}"
        for case in TABLE[number].cases()
        for name, lines in told_of(case, programs).items()
        for line in lines
    ]


def row_of(limit: Limit) -> str:
    """The limit as a row."""
    past = "below it" if limit.step < 0 else "past it"
    return f"{limit.counts}: {limit.number:,}: {limit.at}; one {past}: {limit.past}"


def main() -> int:
    """Meets the limits, and gives the status."""
    parser = argparse.ArgumentParser(
        prog="tools/limits",
        description=__doc__,
        formatter_class=argparse.RawDescriptionHelpFormatter,
    )
    parser.add_argument(
        "--program",
        action="append",
        type=Path,
        metavar="FILE",
        help="run this program; may stand several times; the shipped one where it is absent",
    )
    programs = [it.resolve() for it in parser.parse_args().program or [SHIPPED]]
    for program in programs:
        if not os.access(program, os.X_OK):
            print(f"tools/limits: there is no program {program}", file=sys.stderr)
            return 2
    wrong = 0
    with concurrent.futures.ProcessPoolExecutor(len(os.sched_getaffinity(0))) as pool:
        numbers = range(len(TABLE))
        for limit, lines in zip(TABLE, pool.map(told_at, numbers, [programs] * len(numbers))):
            print(row_of(limit), *lines, sep="\n    ", flush=True)
            wrong += len(lines)
    print(f"{len(TABLE)} limits, {2 * len(TABLE)} cases, {wrong} otherwise")
    return 1 if wrong else 0


if __name__ == "__main__":
    sys.exit(main())
