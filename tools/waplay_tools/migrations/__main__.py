"""Migrates the scripts of cases and examples, and random texts of seconds, and looks at what comes.

Of each case that a session comes of, the program is run in mode migrate. Its lines and its status
have to be those of the case's own run, and what it writes has to be, to the byte, what the second
calculation writes. This is then run in its place: with the case's own words it has to give the same
lines, status and WAV file, and in mode migrate the same bytes again. A script that is refused or
that has a fault has to leave OUT as it was.

The texts are random ones at random rates: of seconds that stand in no script, at half a frame and
beside it, at the ends of the range, and texts that are none. Those without a fault stand in one
script for each rate, and each of the others in a script of its own. Whether a text has a fault, and
which frame it stands for, is told by the second calculation.

A line is printed for each difference, and last how many there are. The status is 0 where there is
none.
"""

import argparse
import concurrent.futures
import functools
import os
import sys
from pathlib import Path

from waplay_tools.cases.__main__ import files_in
from waplay_tools.migrations.sessions import differences_of_case
from waplay_tools.migrations.texts import differences_of_texts, scripts_of
from waplay_tools.places import TOP
from waplay_tools.program_words import asked_of


def arguments() -> argparse.Namespace:
    """The words of the command line."""
    words = argparse.ArgumentParser(
        prog="tools/migrations",
        description=__doc__,
        formatter_class=argparse.RawDescriptionHelpFormatter,
    )
    words.add_argument(
        "paths",
        nargs="*",
        type=Path,
        metavar="CASE",
        help="a case, an example, or a folder of them; all of them where none is named",
    )
    words.add_argument(
        "--texts", type=int, default=20000, help="how many texts of seconds, 20,000 by default"
    )
    return asked_of(words, "texts")


def told(found: tuple[str, list[str]]) -> int:
    """Prints what differs, if anything, and gives how many things."""
    name, different = found
    for it in different:
        print(f"{name}: {it}", flush=True)
    return len(different)


def main() -> int:
    """Migrates what the command line names, and tells what differs."""
    asked = arguments()
    paths = files_in(asked.paths)
    scripts = scripts_of(asked.seed, asked.texts)
    with concurrent.futures.ProcessPoolExecutor(asked.jobs) as pool:
        of_case = functools.partial(differences_of_case, asked.program)
        of_texts = functools.partial(differences_of_texts, asked.program)
        names = [os.path.relpath(path, TOP) for path in paths]
        wrong = sum(map(told, zip(names, pool.map(of_case, paths))))
        wrong += sum(map(told, pool.map(of_texts, scripts, chunksize=20)))
    texts = sum(len(it.texts) for it in scripts)
    print(f"{len(paths)} cases, {texts} texts in {len(scripts)} scripts: {wrong} differences")
    return 1 if wrong else 0


if __name__ == "__main__":
    sys.exit(main())
