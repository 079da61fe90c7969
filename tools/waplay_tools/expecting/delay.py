"""Delays: what their writers wrote, and what their readers read of it."""

from waplay_tools.expecting.nodes import Node
from waplay_tools.expecting.numbers import (
    ONE,
    Block,
    Blocks,
    mixed_blocks,
    rounded_quotient,
    silence,
)
from waplay_tools.expecting.reading import Call
from waplay_tools.expecting.refusals import Refused, profile

LONGEST = 16 * ONE  # seconds


class Delay(Node):
    """A delay that is born at a frame, which begins a quantum of so many frames. Of each quantum it
    keeps what its writer wrote, as far back as its reader may ask, and how many channels the writer
    had at most since the birth."""

    def __init__(self, call: Call, rate: int, birth: int, quantum: int) -> None:
        longest = call.get("maxDelayTime", ONE)
        if longest <= 0:
            raise Refused("NotSupportedError")
        if longest > LONGEST:
            raise profile("long-delay")
        super().__init__("delay", call["as"], call.get("delayTime", 0))
        self.nominal = 0, longest
        self.rate, self.birth, self.quantum = rate, birth, quantum
        self.capacity = max(self.frames(longest), quantum)
        self.written: dict[int, Blocks] = {}
        self.most: dict[int, int] = {}

    def frames(self, time: int) -> int:
        """The whole frames nearest to a time in seconds."""
        return rounded_quotient(time * self.rate, ONE)

    def write(self, first: int, channels: Blocks) -> None:
        """The writer has these channels in the quantum that begins here."""
        self.written[first] = channels
        self.most[first] = max(self.most_until(first - self.quantum), len(channels))
        asked = (first - self.capacity) // self.quantum  # the first quantum that may be asked for
        self.written.pop((asked - 1) * self.quantum, None)
        self.most.pop((asked - 1) * self.quantum, None)

    def most_until(self, first: int) -> int:
        """The most channels that the writer had up to the quantum that begins here, and one at
        least."""
        return self.most[first] if first >= self.birth else 1

    def heard_from(self, first: int, count: int) -> Blocks:
        """What was written in the quantum that begins here, mixed to so many channels."""
        if first < self.birth:
            return [silence(self.quantum)] * count
        return mixed_blocks(self.written[first], count, self.interpretation)

    def read(self, first: int, times: Block, is_in_cycle: bool) -> Blocks:
        """The channels of the reader in the quantum that begins here, with these values of
        delayTime. In a cycle it reads nothing that is written in the same quantum."""
        least = self.quantum if is_in_cycle else 0
        count = self.most_until(first - least)
        places = [
            divmod(frame - max(least, self.frames(time)), self.quantum)
            for frame, time in enumerate(times, first)
        ]
        quanta = {quantum for quantum, _ in places}
        heard = {quantum: self.heard_from(self.quantum * quantum, count) for quantum in quanta}
        return [[heard[quantum][c][place] for quantum, place in places] for c in range(count)]
