"""The maker of random scripts, and the script of a seed and a number."""

import random

from waplay_tools.expecting.numbers import DEFAULT_QUANTUM, QUANTA
from waplay_tools.expecting.reading import OPERATIONS as FIELDS
from waplay_tools.random_scripts.chances import (
    DELAY_SHAPES,
    NEEDED,
    NO_QUANTA,
    PROCESSOR_SHAPES,
    SHAPES,
    SPRINKLED,
    WITH_BUFFERS,
)
from waplay_tools.random_scripts.kinds import Assets, Script
from waplay_tools.random_scripts.limits import Limits


class Maker(Limits):
    """One script in the making."""

    def shape(self) -> str:
        """The shape of the script; a graph where the program does not read what the drawn one
        needs."""
        shapes = SHAPES + DELAY_SHAPES if "createDelay" in self.read_ops else SHAPES
        shapes = shapes + PROCESSOR_SHAPES if "createProcessor" in self.read_ops else shapes
        shape = self.rng.choices([shape for _, shape in shapes], [often for often, _ in shapes])[0]
        return shape if self.read_ops.issuperset(NEEDED.get(shape, ())) else "graph"

    def draw_context(self) -> None:
        """Draws the length, the channels and the rate of the context."""
        rng, quantum = self.rng, self.quantum
        short = [1, 2, *self.near(1), *self.near(2)]
        self.length = rng.choice(short) if self.may(0.2) else rng.randint(1, max(600, 2 * quantum))
        if self.suspends and self.may(0.8):
            self.length = rng.randint(quantum + 1, max(900, 3 * quantum))
        self.channels = rng.choice([1, 1, 2, 2, 4, 6, rng.randint(1, 32), 32])
        self.rate = rng.choice([8000, 44100, 48000, 96000, rng.randint(8000, 96000)])

    def context(self, shape: str) -> dict[str, int]:
        """The context of a script of this shape, now and then one that is refused."""
        rng, channels, rate = self.rng, self.channels, self.rate
        if shape == "unrendered":
            channels = rng.choice([0, 1, 2, 3, 32, 33, 2**32 - 1])
            self.length = rng.choice(
                [0, 1, 2**21, 2**21 + 1, 2**25, 2**25 + 1, 2**32 - 1]
            )
            rate = rng.choice([0, 7999, 8000, 48000, 96000, 96001, 2**32 - 1])
        elif self.may(0.02):
            channels = rng.choice([0, 33, 2**32 - 1])
        context = {"channels": channels, "length": self.length, "rate": rate}
        return self.with_quantum(context)

    def with_quantum(self, context: dict[str, int]) -> dict[str, int]:
        """A context with the frames of a render quantum, which it needs not tell where they are
        those by default."""
        if self.told_quantum != DEFAULT_QUANTUM or self.may(0.1):
            context["renderQuantum"] = self.told_quantum
        return context

    def draw_quantum(self, rng: random.Random, quantum: int | None) -> None:
        """Takes a quantum of so many frames, or draws it, mostly that by default. Now and then the
        context tells one that there is not."""
        drawn = rng.choice(QUANTA) if rng.random() < 0.4 else DEFAULT_QUANTUM
        self.quantum = self.told_quantum = quantum or drawn
        if quantum is None and rng.random() < 0.02:
            self.told_quantum = rng.choice(NO_QUANTA)

    def script(self) -> Script:
        """The script."""
        shape = self.shape()
        self.draw_context()
        has_buffers = self.has_buffers and self.may(WITH_BUFFERS.get(shape, 0.5))
        calls = self.some_buffers() if has_buffers else []
        made = getattr(self, shape)()
        made = self.sprinkled(made) if shape in SPRINKLED and self.may(0.3) else made
        calls += self.suspended(made) if self.suspends else made
        script = {"version": 1, "context": self.context(shape), "calls": calls}
        if shape == "faulty":
            self.spoil(script)
        return script


def script_of(
    seed: int, number: int, read: list[str], quantum: int | None = None
) -> tuple[Script, Assets]:
    """A script, and its assets. Half of the scripts have no suspensions, and four fifths of them no
    processors; they are the same where the program reads none. A quantum has so many frames, or in
    most scripts 128."""
    if random.Random(f"{seed} {number} suspensions").random() < 0.5:
        read = [op for op in read if op != "suspend"]
    if random.Random(f"{seed} {number} processors").random() < 0.8:
        read = [op for op in read if op != "createProcessor"]
    maker = Maker(random.Random(f"{seed} {number}"), read)
    maker.draw_quantum(random.Random(f"{seed} {number} quantum"), quantum)
    return maker.script(), maker.assets


def programs_of(seed: int, number: int, quantum: int | None = None) -> tuple[Script, Assets]:
    """A short script with many processors, and no assets."""
    maker = Maker(random.Random(f"{seed} {number} programs"), operations())
    maker.draw_quantum(random.Random(f"{seed} {number} quantum"), quantum)
    maker.length, maker.channels, maker.rate = 256, 32, 8000
    context = {"channels": maker.channels, "length": maker.length, "rate": maker.rate}
    calls = maker.side_by_side()
    return {"version": 1, "context": maker.with_quantum(context), "calls": calls}, {}


def operations() -> list[str]:
    """The operations of random scripts: those that the second calculation reads."""
    return list(FIELDS)
