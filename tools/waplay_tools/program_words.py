"""The words that tools share which run a program on what they draw, or the second calculation in
its place."""

import argparse
import os
from pathlib import Path

from waplay_tools.places import SHIPPED


def option_of(name: str) -> str:
    """The word of a command line that names the file of one of the programs."""
    return "--program" if name == "waplay" else f"--{name.removeprefix('wa')}-program"


def asked_of(words: argparse.ArgumentParser, drawn: str) -> argparse.Namespace:
    """What a command line asks for, by a tool's own words and by these. Its program is None where
    the second calculation stands in its place, and is there where it does not: else the tool ends
    here with status 2."""
    words.add_argument(
        "--program", type=Path, default=SHIPPED, metavar="FILE", help="the program; the shipped one"
    )
    words.add_argument(
        "--second-alone", action="store_true", help="the second calculation in the program's place"
    )
    words.add_argument("--seed", type=int, default=1, help=f"the seed of the {drawn}, 1 by default")
    words.add_argument(
        "--jobs",
        type=int,
        default=len(os.sched_getaffinity(0)),
        help="how many run at a time; one on each processor by default",
    )
    asked = words.parse_args()
    asked.program = None if asked.second_alone else there(words, asked.program)
    return asked


def there(words: argparse.ArgumentParser, program: Path) -> Path:
    """The path of a program that is there; the tool ends here with status 2 where it is not."""
    path = program.resolve()
    if not os.access(path, os.X_OK):
        words.exit(2, f"{words.prog}: there is no program {path}\n")
    return path
