"""Chances, and the names that a script in the making has."""

import random

from waplay_tools.expecting.numbers import DEFAULT_QUANTUM
from waplay_tools.expecting.sessions import ATTRIBUTES
from waplay_tools.random_scripts.kinds import (
    AUTOMATED,
    BUFFERS,
    KINDS,
    Assets,
    Calls,
    Fits,
    Named,
    Sound,
)


class Choices:
    """Chances, and the names that a script in the making has."""

    def __init__(self, rng: random.Random, read: list[str]) -> None:
        self.rng = rng
        self.read_ops = set(read)
        self.has_buffers = BUFFERS <= self.read_ops
        self.has_assets = self.has_buffers and "decodeAudioData" in read
        self.attributes = [op for op in ATTRIBUTES if op in read]  # the operations that set one
        self.automated_by = [op for op in AUTOMATED if op in read]
        self.kinds = {
            op: kind
            for op, kind in KINDS.items()
            if op in read and (self.has_buffers or op not in BUFFERS)
        }
        self.names: dict[str, Named] = {}  # with the inputs and outputs that they were given
        self.assets: Assets = {}
        self.controls: Calls = []  # the connections to parameters that were made
        self.loops: Calls = []  # connections that bring a delay into a cycle
        # Of a name, times that edits of its parameter had, and ends of curves.
        self.instants: dict[str, list[int]] = {}
        self.made = 0
        self.depth = 0  # of the lists of calls
        self.suspends = "suspend" in read
        self.now = 0  # the frame at which the calls in the making are to be done
        self.length = self.channels = 1
        self.rate = 48000
        # The frames of a render quantum, and what the context tells of them.
        self.quantum = self.told_quantum = DEFAULT_QUANTUM

    def may(self, chance: float) -> bool:
        """Whether something is done that has this chance, from 0 to 1."""
        return self.rng.random() < chance

    def near(self, quanta: int) -> list[int]:
        """The frames around the end of so many quanta."""
        end = quanta * self.quantum
        return [end - 1, end, end + 1]

    def new_name(self) -> str:
        """A name for an object: now and then that of another one, and some as long as a name may
        be."""
        if self.names and self.may(0.05):
            return self.rng.choice(list(self.names))
        self.made += 1
        return f"n{self.made}" + self.rng.choice(
            ["", "", "", "", "-", "_", "x" * (63 - len(str(self.made)))]
        )

    def name(self, fits: Fits = lambda kind: not isinstance(kind, Sound)) -> str:
        """A name of an object whose kind fits, mostly; else any, also of nothing. A node fits,
        where nothing else is said."""
        fitting = [name for name, kind in self.names.items() if fits(kind)]
        if fitting and self.may(0.93):
            return self.rng.choice(fitting)
        return self.rng.choice(["destination", "nobody", "", "a b", "\u00e9\n", *self.names])

    def source(self) -> str:
        """A name, mostly of a node that starts and stops."""
        return self.name(lambda kind: kind.plays)

    def player(self) -> str:
        """A name, mostly of a buffer source."""
        return self.name(lambda kind: kind is KINDS["createBufferSource"])

    def shaper(self) -> str:
        """A name, mostly of a wave shaper."""
        return self.name(lambda kind: kind is KINDS["createWaveShaper"])

    def convolver(self) -> str:
        """A name, mostly of a convolver."""
        return self.name(lambda kind: kind is KINDS["createConvolver"])

    def delay(self) -> str:
        """A name, mostly of a delay."""
        return self.name(lambda kind: kind is KINDS["createDelay"])

    def buffer(self) -> str:
        """A name, mostly of a buffer."""
        return self.name(lambda kind: isinstance(kind, Sound))

    def parameter(self, name: str | None = None) -> tuple[str, str]:
        """A node and a parameter, mostly such as fit. Those of buffer sources can't be changed."""
        some = self.rng.randint(0, 99)
        if name is None and some < 11:
            return self.player(), self.rng.choice(["playbackRate", "detune"])
        if name is None and some < 15:
            names = ["offset", "gain", "delayTime", "playbackRate", "detune", "Gain", "", "gain "]
            return self.name(), self.rng.choice(names)
        name = name or self.name(lambda kind: kind.parameter)
        return name, getattr(self.names.get(name), "parameter", None) or "gain"

    def target(self) -> str:
        """A name, mostly of a node with an input; a quarter of them the destination's."""
        return "destination" if self.may(0.25) else self.name(lambda kind: kind.inputs)

    def index(self, name: str, field: str, chance: float = 0.9) -> int:
        """The number of an input or an output of a node, with this chance one that is there."""
        there = getattr(self.names.get(name), field, 1)
        if there and self.may(chance):
            return self.rng.randrange(there)
        return self.rng.choice([0, 1, 2, 31, 32, 2**32 - 1, there, there, there + 1])
