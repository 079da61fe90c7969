"""Why a sample is what it is: the facts that it hangs on, and which of them are shown under which.

waexplain derives them and the second calculation checks them; where the program is not there, the
second calculation derives them."""

import collections
import os
import subprocess
import tempfile
from collections.abc import Iterator
from pathlib import Path

from waplay_tools.expecting.nodes import AssetFault
from waplay_tools.explaining.checking import checked
from waplay_tools.explaining.deriving import TooLong, derivation, needs_of, sample_key
from waplay_tools.explaining.equations import Equations
from waplay_tools.explaining.facts import Count, Fact, Key, Numbers, fact_of
from waplay_tools.explaining.tape import NoTape, Tape, tape_of
from waplay_tools.places import newest_of
from waplay_tools.reporting import script_reading
from waplay_tools.reporting.text import BadInput, counted, visible

MOST_STEPS = 200  # that are shown of one derivation
DEEPEST = 60  # steps under one another: browsers nest no more than 512 elements


class Step:
    """A fact, the steps under it, each of which it needs, and how many of its needs stand under
    others, and how many are left out with all that they need."""

    def __init__(self, key: Key) -> None:
        self.key = key
        self.under: list[Step] = []
        self.elsewhere = self.left = 0


class Explained:
    """A sample with its derivation. Of one that is too long there are no facts."""

    def __init__(
        self, tape: Tape, frame: int, channel: int, lines: list[str] | None = None
    ) -> None:
        """The lines are those that waexplain derives; without them they are derived here."""
        self.tape, self.frame, self.channel = tape, frame, channel
        self.equations = Equations(tape)
        self.is_by_program = lines is not None
        self.lines = derived_here(tape, frame, channel) if lines is None else lines
        self.known: dict[Key, Numbers] = {}
        for line in self.lines:
            fact = fact_of(line.rstrip("\n").encode())
            assert fact is not None  # as each line of a derivation is one
            self.known[fact.key] = fact.numbers

    def value(self) -> int:
        """The value of the sample, in units of 2^-24."""
        return self.known[sample_key(self.frame, self.channel)][0]

    def counts(self) -> Iterator[Count]:
        """The facts on numbers of channels."""
        return (key for key in self.known if isinstance(key, Count))

    def needs(self, key: Key) -> list[Key]:
        """What a key needs but for numbers of channels, each once."""
        needs = needs_of(self.equations, key, self.known)
        return [it for it in dict.fromkeys(needs) if not isinstance(it, Count)]

    def steps(self) -> Step:
        """The sample with the steps under it, the nearest ones first: each fact stands under the
        first one that needs it."""
        top = Step(sample_key(self.frame, self.channel))
        shown, open_steps = {top.key}, collections.deque([(top, 1)])
        while open_steps:
            step, depth = open_steps.popleft()
            for need in self.needs(step.key):
                if need in shown:
                    step.elsewhere += 1
                elif depth == DEEPEST or len(shown) == MOST_STEPS:
                    step.left += 1
                else:
                    shown.add(need)
                    step.under.append(Step(need))
                    open_steps.append((step.under[-1], depth + 1))
        return top


def derived_here(tape: Tape, frame: int, channel: int) -> list[str]:
    """The lines that the second calculation derives; none where they are too many."""
    try:
        return derivation(tape, sample_key(frame, channel))
    except TooLong:
        return []


def derived_by(
    program: Path, data: bytes, folder: str, frame: int, channel: int
) -> list[str] | None:
    """The lines that waexplain derives of a script of these bytes, whose assets are in the folder:
    none where they are too many, and None where it gives no answer."""
    with tempfile.TemporaryDirectory(prefix="waplay-why-") as room:
        out = Path(room, "why.txt")
        command = [program, "derive", str(frame), str(channel), out]
        try:
            done = subprocess.run(
                command, cwd=folder, input=data, capture_output=True, check=False
            )
        except OSError:
            return None
        if done.returncode != 0:
            return [] if done.returncode == 11 else None
        return out.read_text(encoding="ascii").splitlines(keepends=True)


def is_derivation(tape: Tape, lines: list[str], key: Key) -> bool:
    """Whether the second calculation finds these lines valid, and the last one is about the key."""
    found = checked(tape, "".join(lines).encode())
    return isinstance(found, Fact) and found.key == key


def explained(script: str, frame: int, channel: int) -> Explained:
    """Why a sample of the session of a script is what it is. It raises BadInput where there is no
    such sample, and where waexplain and the second calculation do not agree."""
    name, folder = visible(script), os.path.dirname(script) or os.curdir
    data = script_reading.bytes_of(script)
    try:
        tape = tape_of(data, folder)
    except NoTape as no_tape:
        raise BadInput(f"{name} has no sample to explain: {no_tape.line}") from None
    except AssetFault:
        raise BadInput(f"an asset of {name} can't be read") from None
    if not (0 <= frame < tape.length and 0 <= channel < tape.channels):
        raise BadInput(
            f"{name} has no frame {frame} of channel {channel}: it has"
            f" {counted(tape.length, 'frame')} and {counted(tape.channels, 'channel')}"
        )
    program = newest_of("waexplain")
    lines = derived_by(program, data, folder, frame, channel) if program else None
    if lines and not is_derivation(tape, lines, sample_key(frame, channel)):
        raise BadInput(
            f"what waexplain derives of frame {frame} of channel {channel} of {name} is no"
            " derivation to the second calculation"
        )
    return Explained(tape, frame, channel, lines)
