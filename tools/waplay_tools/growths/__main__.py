"""Runs each program again and again, and refuses another growth of its memory each time.

Each growth of a few runs is refused in turn: first that one alone, and then that one with all that
come behind it. The status has to be 10, standard output may have a front part of the text, OUT is
as before or, where the text is whole, has a front part of the file, and no other file is touched.
Where one growth alone is refused and the program asks again, the run may also end as it does
otherwise. A small library that is preloaded refuses, so a C compiler is wanted, and a program that
takes its memory of the C library.

It prints a line for each run: how many growths were refused, after how many of them the program
asked again, and after how many a text or a file stood. Then comes what is otherwise, and last how
many growths were refused in all. The status is 0 where all is as the documents say.
"""

import argparse
import concurrent.futures
import functools
import os
import shutil
import subprocess
import sys
import tempfile
from pathlib import Path
from typing import NamedTuple

from waplay_tools.growths.scripts import ASSET, DERIVATION, RUNS_OF, Run
from waplay_tools.places import PROGRAMS
from waplay_tools.program_words import option_of, there
from waplay_tools.running import Ran, Terms, run
from waplay_tools.standing import NO_MEMORY, Answer, Files, changed_in, files_in, wrong_after

SOURCE = Path(__file__).with_name("refusing.c")
BEFORE: Files = {
    "out.wav": b"before\n",
    "two.wav": ASSET,
    "derivation.txt": DERIVATION,
    "beside": b"beside\n",
}


class Left(NamedTuple):
    """What a run gave, the files of its folder, and how many growths it asked for."""

    ran: Ran
    files: Files
    growths: int


class Found(NamedTuple):
    """What is wrong with a run, whether it went on all the same, and whether a text or a file stood
    after it."""

    faults: list[str]
    goes_on: bool
    has_text: bool
    is_touched: bool


class Whole(NamedTuple):
    """What a run comes to where nothing is refused, and how many growths it asks for."""

    answer: Answer
    growths: int


def compiled(room: Path, source: Path = SOURCE) -> Path | None:
    """The library of this source, which is that which refuses growths; None where there is no
    compiler."""
    compiler = shutil.which("cc") or shutil.which("gcc") or shutil.which("clang")
    library = room / f"{source.stem}.so"
    if compiler is None:
        return None
    words = [compiler, "-shared", "-fPIC", "-O1", "-o", str(library), str(source)]
    subprocess.run(words, check=True)
    return library


def performed(program: Path, library: Path, it: Run, variables: dict[str, str]) -> Left:
    """Runs the program in a folder of its own."""
    with tempfile.TemporaryDirectory(prefix="waplay-growths-") as room:
        folder, count = Path(room, "folder"), Path(room, "count")
        folder.mkdir()
        for name, data in BEFORE.items():
            (folder / name).write_bytes(data or b"")
        told = {"LD_PRELOAD": str(library), "COUNT_TO": str(count), **variables}
        ran = run([program, *it.words], folder, Terms(it.given, variables=told))
        growths = int(count.read_text(encoding="ascii")) if count.exists() else 0
        return Left(ran, files_in(folder), growths)


def judged(program: Path, library: Path, it: Run, whole: Whole, told: dict[str, str]) -> Found:
    """What is wrong with a run in which growths are refused."""
    left = performed(program, library, it, told)
    ran, answer = left.ran, whole.answer
    before, after = BEFORE["out.wav"], left.files.get("out.wav")
    goes_on = ran.status == answer.status and left.growths > whole.growths
    faults = changed_in(BEFORE, left.files, "out.wav")
    if ran.errors:
        faults.append(f"{ran.errors[:100]!r} on standard error")
    if ran.status == NO_MEMORY or goes_on:
        faults += wrong_after(ran.status, ran.text, (before, after), answer)
    else:
        faults.append(f"status {ran.status} in place of {NO_MEMORY}")
    return Found(faults, goes_on, ran.text != b"", after != before)


def whole_of(program: Path, library: Path, it: Run) -> Whole:
    """What a run comes to where nothing is refused."""
    left = performed(program, library, it, {})
    found = left.files.get("out.wav")
    file = found if found != BEFORE["out.wav"] else None
    return Whole(Answer(left.ran.status, left.ran.text, file), left.growths)


def refused_in(program: Path, library: Path, it: Run) -> tuple[int, list[str]]:
    """Refuses each growth of a run in turn, and tells how many there were and what is wrong."""
    whole = whole_of(program, library, it)
    asked: list[dict[str, str]] = []
    for number in range(1, whole.growths + 1):
        asked += [{"REFUSED": str(number)}, {"REFUSED": str(number), "ONWARDS": "1"}]
    judge = functools.partial(judged, program, library, it, whole)
    with concurrent.futures.ProcessPoolExecutor(len(os.sched_getaffinity(0))) as pool:
        found = list(pool.map(judge, asked, chunksize=20))
    print(
        f"{it.shows}: status {whole.answer.status}, {whole.growths} growths, each refused twice;"
        f" it went on after {sum(one.goes_on for one in found)},"
        f" a text stood after {sum(one.has_text for one in found if not one.goes_on)},"
        f" OUT was touched in {sum(one.is_touched for one in found if not one.goes_on)}",
        flush=True,
    )
    lines = [
        f"{it.shows}: growth {told['REFUSED']}{' and those behind' * ('ONWARDS' in told)}: {fault}"
        for told, one in zip(asked, found)
        for fault in one.faults
    ]
    return whole.growths, lines if whole.growths else [f"{it.shows}: no growth is counted"]


def main() -> int:
    """Refuses growths, tells what is otherwise, and gives the status."""
    parser = argparse.ArgumentParser(
        prog="tools/growths",
        description=__doc__,
        formatter_class=argparse.RawDescriptionHelpFormatter,
    )
    for name, shipped in PROGRAMS.items():
        told = f"{name}; the shipped one"
        parser.add_argument(
            option_of(name), dest=name, type=Path, default=shipped, metavar="FILE", help=told
        )
    asked = parser.parse_args()
    runs = [(there(parser, getattr(asked, name)), some) for name, some in RUNS_OF.items()]
    with tempfile.TemporaryDirectory(prefix="waplay-growths-") as room:
        library = compiled(Path(room))
        if library is None:
            print("tools/growths: there is no C compiler (cc, gcc or clang)", file=sys.stderr)
            return 2
        told = [refused_in(program, library, it) for program, some in runs for it in some]
    wrong = [line for _, lines in told for line in lines]
    print(*wrong, sep="\n", end="\n" * bool(wrong))
    print(f"{sum(number for number, _ in told)} growths refused in turn, {len(wrong)} otherwise")
    return 1 if wrong else 0


if __name__ == "__main__":
    sys.exit(main())
