"""Runs the worst script that is known of each kind, and prints what it takes.

The table has a row for each: the bytes of the script, the status, the seconds of a processor, and
the memory in MiB. Run it before a change and after it. A script is made when it is run, by a
process of its own. The memory is at least that of this Python, some 30 MiB.

The status is 0 where every run ended with a status of docs/FORMATS.md in time, and with --seconds
and --memory where none took more.
"""

import argparse
import concurrent.futures
import os
import sys
import tempfile
from pathlib import Path

from waplay_tools.places import PROGRAMS
from waplay_tools.program_words import option_of
from waplay_tools.random_scripts.assets import write_assets
from waplay_tools.running import Ran, Terms, run
from waplay_tools.standing import STATUSES
from waplay_tools.worst.scripts import TABLE

WIDTHS = "{:64} {:>10} {:>6} {:>8} {:>7}"
WANTED = [name for name in PROGRAMS if any(it.program == name for it in TABLE)]


def arguments() -> argparse.Namespace:
    """The words of the command line."""
    words = argparse.ArgumentParser(
        prog="tools/worst",
        description=__doc__,
        formatter_class=argparse.RawDescriptionHelpFormatter,
    )
    words.add_argument(
        "some", nargs="*", metavar="TEXT", help="run those alone whose name has one of these texts"
    )
    for name in WANTED:
        words.add_argument(
            option_of(name),
            dest=name,
            type=Path,
            default=PROGRAMS[name],
            metavar="FILE",
            help=f"{name}; the shipped one",
        )
    words.add_argument(
        "--patience",
        type=float,
        default=300,
        metavar="SECONDS",
        help="end a run after so many seconds, 300 by default",
    )
    words.add_argument("--seconds", type=float, metavar="N", help="how many a run may take")
    words.add_argument("--memory", type=float, metavar="MIB", help="how much a run may take")
    return words.parse_args()


def written(number: int, folder: str) -> int:
    """Writes a script of the table and its assets into a folder, and tells the script's bytes."""
    it = TABLE[number]
    write_assets(folder, it.assets())
    return Path(folder, "script.json").write_bytes(it.text().encode())


def measured(number: int, asked: argparse.Namespace) -> tuple[int, Ran]:
    """Runs a script of the table: its bytes, and what the run gave and took."""
    with tempfile.TemporaryDirectory(prefix="waplay-worst-") as room:
        with concurrent.futures.ProcessPoolExecutor(1) as apart:
            length = apart.submit(written, number, room).result()
        terms = Terms(Path(room, "script.json"), seconds=asked.patience)
        program: Path = getattr(asked, TABLE[number].program)
        return length, run([program.resolve(), *TABLE[number].words], room, terms)


def told(length: int, ran: Ran, asked: argparse.Namespace) -> tuple[list[str], bool]:
    """The cells of a row, and whether the run is as it has to be."""
    memory = ran.memory / 2**20
    is_good = ran.status in STATUSES and not ran.is_late
    is_good &= asked.seconds is None or ran.seconds <= asked.seconds
    is_good &= asked.memory is None or memory <= asked.memory
    status = "late" if ran.is_late else str(ran.status)
    return [f"{length:,}", status, f"{ran.seconds:.2f}", f"{memory:,.0f}"], is_good


def main() -> int:
    """Prints the table, and gives the status."""
    asked = arguments()
    for program in (getattr(asked, name) for name in WANTED):
        if not os.access(program, os.X_OK):
            print(f"tools/worst: there is no program {program}", file=sys.stderr)
            return 2
    print(WIDTHS.format("script", "bytes", "status", "seconds", "MiB"))
    wrong = 0
    for number, it in enumerate(TABLE):
        if asked.some and not any(text in it.shows for text in asked.some):
            continue
        cells, is_good = told(*measured(number, asked), asked)
        print(WIDTHS.format(it.shows, *cells), "" if is_good else " <", flush=True)
        wrong += not is_good
    return 1 if wrong else 0


if __name__ == "__main__":
    sys.exit(main())
