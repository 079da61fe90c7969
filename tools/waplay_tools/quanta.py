"""Compares what random scripts give in render quanta of each size, where none of it may hang on the
size.

The scripts are those of tools/random-scripts without their suspensions, without what sets an
automation rate, and without the list of startRendering. Left out are those with a delay in a cycle,
which lasts a quantum at least; those that are refused a delay, as a short one keeps a quantum; and
those with a source of several channels that begins or ends within the session, as it has them for
whole quanta. What is left is run in quanta of 32, 64, 128, 256, 512 and 1,024 frames. The status,
the WAV file and the transcript have to be the same, but for the lines of sources that ended.

A line is printed for each difference, and last how many scripts were compared and how many differ.
The status is 0 where none does.
"""

import argparse
import concurrent.futures
import copy
import functools
import json
import sys
import tempfile
from collections.abc import Callable
from pathlib import Path
from typing import NamedTuple

from waplay_tools.expecting.graph import Graph
from waplay_tools.expecting.nodes import BufferSource, Node
from waplay_tools.expecting.numbers import QUANTA
from waplay_tools.expecting.sessions import Session, replayed, wav_bytes
from waplay_tools.program_words import asked_of
from waplay_tools.random_scripts.assets import write_assets
from waplay_tools.random_scripts.kinds import Script
from waplay_tools.random_scripts.maker import operations, script_of
from waplay_tools.running import Terms, run

LEFT_OUT = ("suspend", "setAutomationRate")  # operations


class Outcome(NamedTuple):
    """What a script gives: its status, its lines but for those of sources that ended, and the bytes
    of its WAV file."""

    status: int
    lines: list[str]
    file: bytes | None


# What a script of these bytes gives, whose assets are in this folder.
Give = Callable[[bytes, str], Outcome]


class Compared(NamedTuple):
    """What became of a script: whether it was compared, and what differs."""

    is_compared: bool
    different: list[str]


def plain(script: Script) -> Script | None:
    """The script without what may hang on the quantum; None of one that is spoiled."""
    calls, context = script.get("calls"), script.get("context")
    if not isinstance(calls, list) or not isinstance(context, dict):
        return None
    if not all(isinstance(call, dict) for call in calls):
        return None
    kept = [copy.copy(call) for call in calls if call.get("op") not in LEFT_OUT]
    for call in kept:
        if call.get("op") == "startRendering":
            call.pop("then", None)
    return {**script, "calls": kept}


def in_quanta(script: Script, quantum: int) -> bytes:
    """The bytes of the script in quanta of so many frames."""
    return json.dumps(
        {**script, "context": {**script["context"], "renderQuantum": quantum}}
    ).encode()


def changes_its_count(node: Node, frames: range) -> bool:
    """Whether a source has several channels in some of these frames, and one in others."""
    if not isinstance(node, BufferSource) or node.buffer is None or node.buffer.channels == 1:
        return False
    return 0 < len(node.played_of(frames)) < len(frames)


def hangs_on_quantum(session: Session) -> bool:
    """Whether what a session gives may hang on its quantum, which is the greatest one."""
    whole = range(-(-session.length // session.quantum) * session.quantum)
    return (
        bool(Graph(session.nodes, session.edges).in_cycle)
        or any(line.endswith("profile:delay-limit") for line in session.lines)
        or any(changes_its_count(node, whole) for node in session.nodes)
    )


def worked_out(data: bytes, folder: str) -> Outcome:
    """What the second calculation gives."""
    status, text, session = replayed(data, folder)
    file = wav_bytes(session) if session and status == 0 else None
    return Outcome(status, lines_of(text), file)


def run_on(program: Path, data: bytes, folder: str) -> Outcome:
    """What a program gives."""
    out = Path(folder) / "out.wav"
    out.unlink(missing_ok=True)
    ran = run([program, out.name], folder, Terms(data))
    file = out.read_bytes() if out.exists() else None
    return Outcome(ran.status, lines_of(ran.text.decode()), file)


def lines_of(text: str) -> list[str]:
    """The lines of a transcript but for those of sources that ended."""
    return [line for line in text.splitlines() if not line.startswith("ended ")]


def differences(found: dict[int, Outcome]) -> list[str]:
    """What differs between the outcomes of sizes, of which the least is what the others are held
    against."""
    first = found[QUANTA[0]]
    return [
        f"in quanta of {quantum} another {field} than in those of {QUANTA[0]}"
        for quantum, outcome in found.items()
        for field in Outcome._fields
        if getattr(outcome, field) != getattr(first, field)
    ]


def compared(program: Path | None, seed: int, number: int) -> Compared:
    """What becomes of the script of a number."""
    drawn, assets = script_of(seed, number, operations())
    script = plain(drawn)
    if script is None:
        return Compared(False, [])
    with tempfile.TemporaryDirectory() as folder:
        write_assets(folder, assets)
        status, _, session = replayed(in_quanta(script, QUANTA[-1]), folder, is_checked=True)
        if status != 0 or session is None or hangs_on_quantum(session):
            return Compared(False, [])
        give: Give = worked_out
        if program:
            give = functools.partial(run_on, program)
        found = {quantum: give(in_quanta(script, quantum), folder) for quantum in QUANTA}
    return Compared(True, differences(found))


def arguments() -> argparse.Namespace:
    """The words of the command line."""
    words = argparse.ArgumentParser(
        prog="tools/quanta",
        description=__doc__,
        formatter_class=argparse.RawDescriptionHelpFormatter,
    )
    words.add_argument("--count", type=int, default=1000, help="how many scripts, 1,000 by default")
    return asked_of(words, "scripts")


def main() -> int:
    """Compares scripts, and gives the status."""
    asked = arguments()
    count = wrong = 0
    with concurrent.futures.ProcessPoolExecutor(asked.jobs) as pool:
        of_number = functools.partial(compared, asked.program, asked.seed)
        for number, it in enumerate(pool.map(of_number, range(asked.count))):
            for different in it.different:
                print(f"script {number}: {different}", flush=True)
            count += it.is_compared
            wrong += bool(it.different)
    print(f"{asked.count} scripts, {count} compared, {wrong} differ")
    return 1 if wrong else 0


if __name__ == "__main__":
    sys.exit(main())
