"""Makes random scripts, and compares what waplay gives for them with the second calculation.

Of each script it compares the exit status, the transcript and every byte of the WAV file. Scripts
that decode assets have these files beside them: WAV files of every kind, files that are none, files
of another rate, links, folders, and paths that lead nowhere or out of the folder. About half of the
scripts have suspensions. A script and its assets hang on the seed and its number, and on which
operations are read: what the program does not read is in no script, and gets a line. With
--programs the scripts are short ones with sixteen random programs of processors each. With
--version 2 their times are seconds. Two thirds of them have render quanta of 128 frames, and the
others of any size that there is; --quantum gives all of them one size.

A comparison prints a line for each difference, then how often each answer came up and which of
those that can come up did not, and last how many scripts differ. The status is 0 where none does.
"""

import argparse
import functools
import json
import os
import sys
import tempfile
from pathlib import Path

from waplay_tools.expecting.numbers import QUANTA
from waplay_tools.places import SHIPPED
from waplay_tools.random_scripts.assets import Assets, put_assets, write_assets
from waplay_tools.random_scripts.comparing import Of, compare, enter, read_by, tell_missing
from waplay_tools.random_scripts.loads import write_loads
from waplay_tools.random_scripts.maker import operations, programs_of, script_of
from waplay_tools.random_scripts.measuring import measure
from waplay_tools.random_scripts.shrinking import shrunk
from waplay_tools.random_scripts.versions import Versions


def arguments() -> argparse.Namespace:
    """The words of the command line."""
    words = argparse.ArgumentParser(
        prog="tools/random-scripts",
        description=__doc__,
        formatter_class=argparse.RawDescriptionHelpFormatter,
    )
    _add_scripts(words)
    _add_deeds(words)
    return words.parse_args()


def _add_scripts(words: argparse.ArgumentParser) -> None:
    """The options that say which scripts are made, and what they are run on."""
    words.add_argument("--seed", type=int, default=1, help="the seed of the scripts, 1 by default")
    words.add_argument("--count", type=int, default=1000, help="how many scripts, 1,000 by default")
    words.add_argument(
        "--jobs", type=int, default=os.cpu_count(), help="how many processes compare"
    )
    words.add_argument(
        "--program",
        type=Path,
        default=SHIPPED,
        metavar="FILE",
        help="the program; the shipped one by default",
    )
    words.add_argument(
        "--programs", action="store_true", help="the scripts are those with programs of processors"
    )
    words.add_argument(
        "--version",
        type=int,
        choices=[0, 1, 2],
        default=1,
        help="the version of the scripts, 1 by default; 0: either",
    )
    words.add_argument(
        "--quantum",
        type=int,
        choices=QUANTA,
        help="how many frames a render quantum has in all scripts, any size by default",
    )


def _add_deeds(words: argparse.ArgumentParser) -> None:
    """The options that ask for something else than a comparison."""
    words.add_argument(
        "--print",
        type=int,
        metavar="NUMBER",
        help="print the script of this number; without a program as for one that reads all",
    )
    words.add_argument(
        "--shrink",
        type=int,
        metavar="NUMBER",
        help="print the script of this number with as few calls as still differ",
    )
    words.add_argument(
        "--folder",
        type=Path,
        help="write the printed script to FOLDER/script.json, and its assets beside it",
    )
    words.add_argument(
        "--loads",
        type=Path,
        metavar="FOLDER",
        help="write the scripts that speed is measured with, and their assets",
    )
    words.add_argument(
        "--measure",
        type=Path,
        metavar="FOLDER",
        help="run the scripts of a folder, and print the least user time of three runs and "
        "the peak memory of each; it wants GNU time",
    )


def give(folder: Path | None, script: dict, assets: Assets) -> None:
    """Writes a script with its assets, or prints it where no folder is named."""
    if not folder:
        print(json.dumps(script))
        return
    folder.mkdir(parents=True, exist_ok=True)
    write_assets(str(folder), {"script.json": json.dumps(script).encode(), **assets})


def scripts_of(asked: argparse.Namespace, read: list[str]) -> Of:
    """The scripts that are asked for, of which the program reads these operations."""
    made: Of = functools.partial(script_of, read=read, quantum=asked.quantum)
    if asked.programs:
        made = functools.partial(programs_of, quantum=asked.quantum)
    if asked.version != 1:
        made = Versions(made, asked.version)
    return made


def give_shrunk(asked: argparse.Namespace, program: Path) -> None:
    """Gives a script with as few calls as still differ."""
    script, assets = scripts_of(asked, read_by(program, operations()))(asked.seed, asked.shrink)
    folder = asked.folder and asked.folder.resolve()
    with tempfile.TemporaryDirectory() as work:
        enter(work)
        put_assets(assets)
        script = shrunk(program, script)
    give(folder, script, assets)


def give_differences(asked: argparse.Namespace, program: Path) -> int:
    """Compares scripts, tells what is to be known of them, and gives the status."""
    read = read_by(program, operations())
    wrong, answers = compare(program, scripts_of(asked, read), asked.seed, asked.count, asked.jobs)
    if not asked.programs:
        tell_missing(answers, read)
    print(f"{asked.count} scripts, {wrong} differences")
    return 1 if wrong else 0


def main() -> int:
    """Does what the command line asks for."""
    asked = arguments()
    program = asked.program.resolve()
    is_there = os.access(program, os.X_OK)
    if asked.print is not None:
        read = read_by(program, operations()) if is_there else operations()
        give(asked.folder, *scripts_of(asked, read)(asked.seed, asked.print))
    elif asked.loads:
        write_loads(str(asked.loads))
    elif not is_there:
        print(f"tools/random-scripts: there is no program {program}", file=sys.stderr)
        return 2
    elif asked.measure:
        measure(program, asked.measure)
    elif asked.shrink is not None:
        give_shrunk(asked, program)
    else:
        return give_differences(asked, program)
    return 0


if __name__ == "__main__":
    sys.exit(main())
