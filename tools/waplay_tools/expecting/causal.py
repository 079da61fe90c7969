"""Nodes that are made of what their input was up to a frame: wave shapers, IIR filters, convolvers
and processors."""

import functools
import itertools
import operator
from collections.abc import Sequence
from typing import Generic, TypeVar

from waplay_tools.expecting.nodes import Buffer, Node
from waplay_tools.expecting.numbers import (
    ONE,
    Block,
    Blocks,
    rounded_quotient,
    saturated,
    silence,
)
from waplay_tools.expecting.programs import AT_BIRTH, Cells, code_of, wrong_of, written
from waplay_tools.expecting.reading import Call
from waplay_tools.expecting.refusals import Refused, profile

RESPONSE_LIMIT = 2**14  # samples of a convolver's response
LOUDEST = 2 * ONE  # how far from 0 they may be

Frames = tuple[int, ...]  # of a channel, the newest one first
History = TypeVar("History")


def check_oversample(word: str) -> None:
    """Refuses an oversampling, which the profile leaves out."""
    if word != "none":
        raise profile("oversample")


class Shaper(Node):
    """A wave shaper. The points of its curve are spread evenly from -1.0 to 1.0. That one was set
    stays, also where it was taken away."""

    def __init__(self, call: Call) -> None:
        super().__init__("shaper", call["as"])
        check_oversample(call.get("oversample", "none"))
        self.curve: list[int] | None = None
        self.was_set = False
        self.set_curve(call.get("curve"))

    def set_curve(self, curve: list[int] | None) -> None:
        """Sets the curve, or takes it away. A second one is refused, and one of fewer than two
        points."""
        if curve is not None and (len(curve) < 2 or self.was_set):
            raise Refused("InvalidStateError")
        self.curve = curve
        self.was_set = self.was_set or curve is not None

    def shaped(self, x: int) -> int:
        """What becomes of a sample, which passes through where there is no curve."""
        if self.curve is None:
            return x
        if x <= -ONE or x >= ONE:
            return self.curve[0 if x < 0 else -1]
        point, part = divmod((len(self.curve) - 1) * (x + ONE), 2 * ONE)
        rise = self.curve[point + 1] - self.curve[point]
        return self.curve[point] + rounded_quotient(rise * part, 2 * ONE)


class Causal(Node, Generic[History]):
    """A node that hears its input from its birth on. Of each channel that it has heard it keeps
    what it needs of it. A channel that it has not heard yet was 0 from its birth on."""

    unheard: History  # what is kept of such a channel

    def __init__(self, kind: str, name: str) -> None:
        super().__init__(kind, name)
        self.histories: list[History] = []

    def passed(self, block: Block, history: History) -> tuple[Block, History]:
        """What it gives on a channel that hears this in a quantum, and what is kept then."""
        raise NotImplementedError

    def filtered(self, blocks: Blocks, quantum: int) -> Blocks:
        """What it gives that hears these channels in a quantum of so many frames. Every other
        channel is heard as 0."""
        given, histories = [], []
        for block, history in itertools.zip_longest(blocks, self.histories):
            outputs, history = self.passed(
                silence(quantum) if block is None else block,
                self.unheard if history is None else history,
            )
            given.append(outputs)
            histories.append(history)
        self.histories = histories
        return given[: len(blocks)]


class Filter(Causal[tuple[Frames, Frames]]):
    """An IIR filter. It keeps the inputs and the outputs that its coefficients reach, the newest
    ones first."""

    def __init__(self, call: Call) -> None:
        super().__init__("filter", call["as"])
        self.forward, self.back = call["feedforward"], call["feedback"]
        if not (1 <= len(self.forward) <= 20 and 1 <= len(self.back) <= 20):
            raise Refused("NotSupportedError")
        if not any(self.forward) or self.back[0] == 0:
            raise Refused("InvalidStateError")
        self.unheard = (0,) * len(self.forward), (0,) * len(self.back)

    def heard(self, x: int, inputs: Frames, outputs: Frames) -> tuple[Frames, Frames]:
        """The inputs and the outputs of a channel that hears this next."""
        inputs = (x, *inputs[:-1])
        total = sum(map(operator.mul, self.forward, inputs)) - sum(
            map(operator.mul, self.back[1:], outputs)
        )
        divisor = self.back[0]
        if divisor < 0:
            total, divisor = -total, -divisor
        return inputs, (saturated(rounded_quotient(total, divisor)), *outputs[:-1])

    def passed(
        self, block: Block, history: tuple[Frames, Frames]
    ) -> tuple[Block, tuple[Frames, Frames]]:
        """What it gives of a channel, frame after frame."""
        outputs = []
        for x in block:
            history = self.heard(x, *history)
            outputs.append(history[1][0])
        return outputs, history


# Lists of whole numbers as one whole number: each is a digit of 80 bits, which may be negative. The
# product of two such numbers has as its digits what the lists give convolved with one another. A
# response has up to 2^14 samples of up to 2^25, and what it hears goes up to 2^31, so that a digit
# is far below 2^79.
BITS = 80
HALF_DIGIT = 2 ** (BITS - 1)


@functools.cache
def half_digits(count: int) -> int:
    """The number with so many digits, each of which is the half of a digit's range."""
    return int.from_bytes(HALF_DIGIT.to_bytes(BITS // 8, "little") * count, "little")


def number_of(values: Sequence[int]) -> int:
    """The number with these digits, the first of them the lowest."""
    digits = [(HALF_DIGIT + value).to_bytes(BITS // 8, "little") for value in values]
    return int.from_bytes(b"".join(digits), "little") - half_digits(len(digits))


def lowest_digits(number: int, count: int) -> tuple[list[int], int]:
    """So many of the lowest digits of a number, and the number that is left above them."""
    number += half_digits(count)  # so that none of these digits is negative
    low = (number & (1 << BITS * count) - 1).to_bytes(BITS // 8 * count, "little")
    digits = [low[at : at + BITS // 8] for at in range(0, len(low), BITS // 8)]
    return [int.from_bytes(it, "little") - HALF_DIGIT for it in digits], number >> BITS * count


class Convolver(Causal[int]):
    """A convolver, with its response or without one. It keeps what all that it has heard adds to
    the sums of later frames, as a number."""

    unheard = 0

    def __init__(self, call: Call, buffer: Buffer | None, rate: int) -> None:
        super().__init__("convolver", call["as"])
        self.mode = "clamped-max"
        if not call.get("disableNormalization", False):
            raise profile("normalization")
        self.taps = response_of(buffer, rate) if buffer else []
        self.response = number_of(self.taps)

    def passed(self, block: Block, history: int) -> tuple[Block, int]:
        """What it gives of a channel: the sums of the products of the response and what it has
        heard, each of them rounded once."""
        sums, history = lowest_digits(history + number_of(block) * self.response, len(block))
        return [saturated(rounded_quotient(it, ONE)) for it in sums], history


def response_of(buffer: Buffer, rate: int) -> list[int]:
    """The samples of a buffer that a convolver takes in a context of this rate."""
    if buffer.channels > 1:
        raise profile("response-channels")
    if buffer.rate != rate:
        raise profile("resampling")
    if buffer.length > RESPONSE_LIMIT:
        raise profile("long-response")
    samples = buffer.samples(0, range(buffer.length))
    if max(samples) > LOUDEST or min(samples) < -LOUDEST:
        raise profile("loud-response")
    return samples


class Processor(Causal[Cells]):
    """A processor. Of each channel it keeps the cells. A program may change them where it hears 0,
    so those of the channels that it has not heard yet go on with each quantum, until a quantum of
    silence leaves them as they were."""

    def __init__(self, call: Call) -> None:
        super().__init__("processor", call["as"])
        self.unheard, self.is_at_rest = AT_BIRTH, False
        if wrong_of(call["code"]):
            raise profile("program")
        self.code = code_of(call["code"])
        self.run = written(self.code)

    def passed(self, block: Block, history: Cells) -> tuple[Block, Cells]:
        """What it gives of a channel, frame after frame."""
        cells = list(history)
        outputs = self.run(cells, block)
        return outputs, tuple(cells)

    def filtered(self, blocks: Blocks, quantum: int) -> Blocks:
        """The same as of any such node."""
        given = super().filtered(blocks, quantum)
        if not self.is_at_rest:
            before, self.unheard = self.unheard, self.passed(silence(quantum), self.unheard)[1]
            self.is_at_rest = self.unheard == before
        return given
