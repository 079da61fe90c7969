"""Compares two runs, call by call, answer by answer and sample by sample.

OLD and NEW are folders of takes: two takes of a page, or one replayed by two versions of the
program. Of each context it prints whether its calls, answers and samples are the same, or one
sentence on how they differ. With -o it writes a page with both runs beside each other: what is new,
gone, changed and at another place, and both sounds over each other.

The status is 0 where the runs are equal, 1 where they are not, and 2 with a sentence on standard
error where they can't be compared.
"""

import argparse
import os
import sys
from pathlib import Path

from waplay_tools.places import as_called_here
from waplay_tools.reporting import checks, runs, runs_html
from waplay_tools.reporting.content import Room
from waplay_tools.reporting.text import BadInput
from waplay_tools.reporting.tolerances import tolerance


def parser() -> argparse.ArgumentParser:
    """The words of the command line."""
    made = argparse.ArgumentParser(
        prog=as_called_here("tools/compare"),
        description=__doc__,
        formatter_class=argparse.RawDescriptionHelpFormatter,
    )
    made.add_argument("old", metavar="OLD", help="the folder of a take")
    made.add_argument("new", metavar="NEW", help="the folder of another one")
    made.add_argument("-o", "--output", metavar="FILE", help="write a page of both there")
    made.add_argument(
        "--tolerance", metavar="VALUE", type=tolerance, default=0.0,
        help="what two samples may differ by, as 2^-16; 0 where nothing is said",
    )
    add_results(made)
    return made


def add_results(made: argparse.ArgumentParser) -> None:
    """The words for results as test suites read them."""
    made.add_argument("--junit", metavar="FILE", help="write what differs as JUnit XML there")
    made.add_argument("--tap", action="store_true", help="print what differs as lines of TAP")


def told(found: list[checks.Check]) -> str:
    """What is printed of the checks."""
    return "".join(f"{it.wrong or f'{it.name}: the same'}\n" for it in found)


def compared(words: argparse.Namespace) -> list[str]:
    """Compares two takes, prints what came of it, and writes what is asked for. Gives a sentence
    for each thing that differs. The words are those of `parser`."""
    every = runs.compare(words.old, words.new, words.tolerance)
    found = [check for it in every for check in it.checks()]
    if words.output:
        room = Room(os.path.dirname(words.output) or ".")
        text = runs_html.page_of_runs(every, (words.old, words.new), room)
        Path(words.output).write_text(text, encoding="utf-8")
    if words.junit:
        Path(words.junit).write_text(checks.junit(words.old, found), encoding="utf-8")
    print(checks.tap(found) if words.tap else told(found), end="", flush=True)
    return [it.wrong for it in found if it.wrong]


def main() -> int:
    """Compares two runs."""
    words = parser().parse_args()
    try:
        return int(bool(compared(words)))
    except BadInput as bad:
        print(f"compare: {bad}", file=sys.stderr)
    except OSError as error:
        where = error.filename or "standard output"
        print(f"compare: {where} can't be written: {error.strerror}", file=sys.stderr)
    return 2


if __name__ == "__main__":
    sys.exit(main())
