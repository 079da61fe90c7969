"""Prunes scripts by waprune, and looks at whether the same samples come of what is left.

The scripts are those that are named, each with its assets beside it, or random ones, half of them
in seconds: those of tools/random-scripts. Each is run on waplay, and pruned by waprune. Where its
session completes, these have to hold:

- The line and the script that waprune leaves are those of tools/prune, byte for byte.
- By the lines of waplay the same calls are left out.
- The pruned script has the same WAV file, byte for byte, and no call of it is refused.
- It stands as waplay's mode `migrate` writes it.
- Pruned again by waprune it stays as it is. Where the list of startRendering made a connection, it
  becomes what the script without that list is pruned to: such a connection makes nodes live, too.

Where the session does not complete, both programs have to give the same status and last line, and
waprune writes no script.

Of each script that is named a row of a table in Markdown is printed: its name, its calls, and how
many are kept. A line is printed for each difference, and last how many scripts and calls there
were and how many scripts differ. The status is 0 where none does.
"""

import argparse
import concurrent.futures
import functools
import json
import sys
import tempfile
from collections.abc import Callable, Iterator
from pathlib import Path
from typing import Any, NamedTuple

from waplay_tools.expecting.reading import script_of
from waplay_tools.expecting.sessions import file_of, replayed
from waplay_tools.expecting.writing import script_text
from waplay_tools.places import PROGRAMS
from waplay_tools.program_words import asked_of, option_of, there
from waplay_tools.pruning.heard import answers_of
from waplay_tools.pruning.pruned import pruned, pruned_by
from waplay_tools.random_scripts import maker
from waplay_tools.random_scripts.assets import write_assets
from waplay_tools.random_scripts.versions import Versions
from waplay_tools.running import Terms, run
from waplay_tools.waprune import answer_to

SECONDS = 600.0  # for one run of a program


class Outcome(NamedTuple):
    """What a run gives: its status, its text, and the bytes of the file that it leaves."""

    status: int
    text: str
    file: bytes | None = None


class Programs(NamedTuple):
    """What plays a script of these bytes, whose assets are in this folder, in this mode, and what
    prunes it."""

    play: Callable[[bytes, str, str], Outcome]
    prune: Callable[[bytes, str], Outcome]


class Found(NamedTuple):
    """What became of a script: how many calls are kept of how many, if its session completed,
    whether the list of startRendering made nodes live, and what differs."""

    kept: int | None
    of: int | None = None
    is_late: bool = False
    different: tuple[str, ...] = ()


class Late(Exception):
    """A run of a program that was ended, since its time was over."""


def played(data: bytes, folder: str, mode: str) -> Outcome:
    """What the second calculation gives in place of waplay."""
    status, text, session = replayed(data, folder, is_checked=mode != "render")
    return Outcome(status, text, file_of(session, mode) if session else None)


def pruned_here(data: bytes, folder: str) -> Outcome:
    """What the second calculation gives in place of waprune."""
    return Outcome(*answer_to(["out"], data, folder))


def run_on(program: Path, words: list[str], data: bytes, folder: str) -> Outcome:
    """What a program gives that takes these words and OUT."""
    with tempfile.TemporaryDirectory() as room:
        out = Path(room, "out")
        ran = run([program, *words, out], folder, Terms(data, seconds=SECONDS))
        if ran.is_late:
            raise Late(f"{program.name} did not end within {SECONDS:g} seconds")
        return Outcome(ran.status, ran.text.decode(), out.read_bytes() if out.exists() else None)


def played_on(program: Path, data: bytes, folder: str, mode: str) -> Outcome:
    """What waplay gives."""
    return run_on(program, ["--mode", mode], data, folder)


def pruned_on(program: Path, data: bytes, folder: str) -> Outcome:
    """What waprune gives."""
    return run_on(program, [], data, folder)


def without_late(script: dict[str, Any]) -> bytes:
    """A script without the list of startRendering."""
    calls = [
        {**call, "then": []} if call["op"] == "startRendering" else call
        for call in script["calls"]
    ]
    return script_text({**script, "calls": calls})


def of_outcome(name: str, found: Outcome, wanted: Outcome) -> Iterator[str]:
    """What is wrong where a program of this name gave an outcome in place of another one."""
    if found[:2] != wanted[:2]:
        status, text, _ = wanted
        yield f"{name} gives {found.status} {found.text!r}, and not {status} {text!r}"
    if found.file != wanted.file:
        yield f"{name} leaves another script than tools/prune"


def of_pruned(
    programs: Programs, text: bytes, folder: str, file: bytes | None, again: bytes
) -> Iterator[str]:
    """What is wrong with a pruned script of this text, where the whole one has this WAV file, and
    pruned again it has to become another text."""
    after = programs.play(text, folder, "render")
    if file is None or after.file != file:
        yield "the pruned script has another WAV file"
    if after.status != 0 or not all(answers_of(after.text.splitlines()).values()):
        yield "a call of the pruned script is refused"
    if programs.play(text, folder, "migrate").file != text:
        yield "the pruned script stands otherwise in mode migrate"
    if programs.prune(text, folder).file != again:
        yield "pruned again it is another script"


def found_in_time(programs: Programs, data: bytes, folder: str) -> Found:
    """What becomes of a script of these bytes, where no program takes longer than it may."""
    first, told = programs.play(data, folder, "render"), programs.prune(data, folder)
    wanted = pruned_here(data, folder)
    different = list(of_outcome("waprune", told, wanted))
    if wanted.file is None:
        last = Outcome(first.status, "".join(first.text.splitlines(keepends=True)[-1:]))
        return Found(None, different=(*different, *of_outcome("waplay", last, wanted)))
    it, script = pruned(data, folder), script_of(data)
    if pruned_by(script, first.text.splitlines()) != it:
        different.append("by the lines of the program other calls are left out")
    again = script_text(pruned(without_late(script), folder).script)
    if told.file is not None:
        different += of_pruned(programs, told.file, folder, first.file, again)
    return Found(it.kept, it.of, again != wanted.file, tuple(different))


def found_at(programs: Programs, data: bytes, folder: str) -> Found:
    """What becomes of a script of these bytes, whose assets are in the folder."""
    try:
        return found_in_time(programs, data, folder)
    except Late as late:
        return Found(None, different=(str(late),))


def found_of_file(programs: Programs, path: Path) -> Found:
    """What becomes of the script of a file, whose assets are beside it."""
    return found_at(programs, path.read_bytes(), str(path.parent))


def found_of_number(programs: Programs, seed: int, number: int) -> Found:
    """What becomes of the random script of a number."""
    of = Versions(functools.partial(maker.script_of, read=maker.operations()), None)
    script, assets = of(seed, number)
    with tempfile.TemporaryDirectory() as folder:
        write_assets(folder, assets)
        return found_at(programs, json.dumps(script).encode(), folder)


def tell(name: str, it: Found, has_row: bool) -> None:
    """Prints what differs at a script of this name, and its row where it has one."""
    if has_row and it.kept is not None:
        print(f"| {name} | {it.of} | {it.kept} |", flush=True)
    for different in it.different:
        print(f"{name}: {different}", flush=True)


def tell_counts(found: list[Found]) -> None:
    """Prints how many scripts and calls there were, and how many scripts differ."""
    done = [it for it in found if it.kept is not None]
    calls = f"{sum(it.kept or 0 for it in done)} of {sum(it.of or 0 for it in done)} calls"
    late = sum(it.is_late for it in found)
    wrong = sum(bool(it.different) for it in found)
    print(f"{len(found)} scripts, {len(done)} pruned to {calls}, {late} with nodes that only the"
          f" list of startRendering makes live; {wrong} differ")


def arguments() -> argparse.Namespace:
    """The words of the command line."""
    words = argparse.ArgumentParser(
        prog="tools/prunings",
        description=__doc__,
        formatter_class=argparse.RawDescriptionHelpFormatter,
    )
    words.add_argument(
        "scripts",
        nargs="*",
        type=Path,
        metavar="SCRIPT",
        help="a script, whose assets are beside it; random ones where none is named",
    )
    words.add_argument("--count", type=int, default=1000, help="how many scripts, 1,000 by default")
    words.add_argument(
        option_of("waprune"),
        type=Path,
        default=PROGRAMS["waprune"],
        metavar="FILE",
        help="waprune; the shipped one",
    )
    asked = asked_of(words, "scripts")
    asked.prune_program = asked.program and there(words, asked.prune_program)
    return asked


def programs_of(asked: argparse.Namespace) -> Programs:
    """What the command line asks for."""
    if asked.program is None:
        return Programs(played, pruned_here)
    return Programs(
        functools.partial(played_on, asked.program),
        functools.partial(pruned_on, asked.prune_program),
    )


def name_of(path: Path) -> str:
    """The name of a script's file; of a script of a take that of its folder, too."""
    return f"{path.parent.name}/{path.stem}" if path.stem.isdigit() else path.stem


def looked_through(programs: Programs, asked: argparse.Namespace) -> Iterator[tuple[str, Found]]:
    """What becomes of each script that is asked for, with its name."""
    with concurrent.futures.ProcessPoolExecutor(asked.jobs) as pool:
        if asked.scripts:
            of_file = functools.partial(found_of_file, programs)
            yield from zip(map(name_of, asked.scripts), pool.map(of_file, asked.scripts))
        else:
            of_number = functools.partial(found_of_number, programs, asked.seed)
            done = pool.map(of_number, range(asked.count), chunksize=10)
            yield from ((f"script {number}", it) for number, it in enumerate(done))


def main() -> int:
    """Prunes scripts, and gives the status."""
    asked = arguments()
    found = []
    for name, it in looked_through(programs_of(asked), asked):
        tell(name, it, bool(asked.scripts))
        found.append(it)
    tell_counts(found)
    return 1 if any(it.different for it in found) else 0


if __name__ == "__main__":
    sys.exit(main())
