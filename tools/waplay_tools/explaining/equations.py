"""The equations of facts: what each needs, and what it says where its needs say what they do.

An equation gives its needs one after the other, and is told what each of them says. What it asks of
the session by itself are the nodes and their attributes, the connections, the schedules of sources
with their buffers, and the values of timelines."""

from collections.abc import Generator

from waplay_tools.expecting.causal import Convolver, Filter, Processor, Shaper
from waplay_tools.expecting.delay import Delay
from waplay_tools.expecting.graph import End
from waplay_tools.expecting.nodes import SOURCES, BufferSource, Node
from waplay_tools.expecting.numbers import (
    ONE,
    computed_count,
    mixed,
    rounded_quotient,
    saturated,
)
from waplay_tools.expecting.programs import AT_BIRTH, CELLS, frame
from waplay_tools.explaining.facts import Count, Fact, Hist, In, Key, Numbers, Out, Par
from waplay_tools.explaining.tape import Tape, World

MOST_CHANNELS = 32

Equation = Generator[Key, Numbers, Numbers]
Number = Generator[Key, Numbers, int]
Channels = Generator[Key, Numbers, list[int]]


class Equations:
    """The equations of a session with this tape."""

    def __init__(self, tape: Tape) -> None:
        self.tape = tape

    def world(self, at: int) -> World:
        """What is in force at a frame."""
        return self.tape.world(at // self.tape.quantum)

    def of(self, key: Key) -> Equation:
        """The equation of a key that there is."""
        if isinstance(key, Count):
            return self.count(key)
        if isinstance(key, In):
            return self.heard(key)
        if isinstance(key, Par):
            return self.parameter(key)
        return self.history(key) if isinstance(key, Hist) else self.carried(key)

    # Which facts there are.

    def is_fact(self, fact: Fact) -> bool:
        """Whether the key is one that there is, and has as many numbers as its node wants."""
        key, tape = fact.key, self.tape
        quantum = key.quantum if isinstance(key, Count) else key.frame // tape.quantum
        if quantum >= tape.quanta:
            return False
        nodes = tape.world(quantum).nodes
        number = key.node if isinstance(key, (Par, Hist)) else key.end.node
        if number >= len(nodes):
            return False
        is_processor = isinstance(key, Hist) and isinstance(nodes[number], Processor)
        return self.is_key(key, nodes[number]) and (
            len(fact.numbers) == (1 + CELLS if is_processor else 1)
        )

    @staticmethod
    def is_key(key: Key, node: Node) -> bool:
        """Whether a node has what its key names. The input of a delay is its writer's."""
        is_delay = isinstance(node, Delay)
        if isinstance(key, Par):
            return key.name in node.timelines
        if isinstance(key, Hist):
            is_kind = isinstance(node, (Shaper, Filter, Convolver, Processor))
            return is_kind and key.channel < MOST_CHANNELS
        if isinstance(key, In):
            is_end = key.end.is_writer == is_delay
            return is_end and key.input < node.inputs and key.channel < MOST_CHANNELS
        is_end = is_delay or not key.end.is_writer
        is_channel = isinstance(key, Count) or key.channel < MOST_CHANNELS
        return is_end and is_channel and key.output < node.outputs

    # Counts.

    def count(self, key: Count) -> Equation:
        """How many channels an output has."""
        world = self.tape.world(key.quantum)
        node = world.nodes[key.end.node]
        if key.end in world.graph.muted or node.kind in ("constant", "splitter"):
            return (1,)
        if isinstance(node, BufferSource):
            first = key.quantum * self.tape.quantum
            played = node.played_of(range(first, first + self.tape.quantum))
            return (node.buffer.channels if node.buffer and played else 1,)
        if node.kind == "merger":
            return (node.inputs,)
        if isinstance(node, Delay) and not key.end.is_writer:
            return (yield from self.count_of_reader(key, key.end.node in world.graph.in_cycle))
        counts = []
        for source, output in world.edges_to(key.end.node, 0):
            (count,) = yield Count(key.quantum, End(source, False), output)
            counts.append(count)
        return (computed_count(node.mode, node.count, counts),)

    def count_of_reader(self, key: Count, is_in_cycle: bool) -> Equation:
        """The most channels that the writer had up to the quantum, or in a cycle before it."""
        birth = self.tape.births[key.end.node] // self.tape.quantum
        most = 1
        for quantum in range(birth, key.quantum + (0 if is_in_cycle else 1)):
            (count,) = yield Count(quantum, End(key.end.node, True), 0)
            most = max(most, count)
        return (most,)

    # Inputs and parameters.

    def channels(self, at: int, end: End, output: int) -> Channels:
        """All channels of an output at a frame."""
        (count,) = yield Count(at // self.tape.quantum, end, output)
        values = []
        for channel in range(count):
            (value,) = yield Out(at, end, output, channel)
            values.append(value)
        return values

    def heard(self, key: In) -> Equation:
        """What an input hears. It hears 0 on a channel that it has not."""
        world = self.world(key.frame)
        node = world.nodes[key.end.node]
        parts = []
        for source, output in world.edges_to(key.end.node, key.input):
            parts.append((yield from self.channels(key.frame, End(source, False), output)))
        count = computed_count(node.mode, node.count, [len(part) for part in parts])
        if key.channel >= count:
            return (0,)
        mixes = [mixed(part, count, node.interpretation)[key.channel] for part in parts]
        return (saturated(sum(mixes)),)

    def parameter(self, key: Par) -> Equation:
        """What a parameter is, in its range. At k-rate it is taken at the first frame of the
        quantum."""
        world = self.world(key.frame)
        node = world.nodes[key.node]
        timeline = node.timelines[key.name]
        at = key.frame - (key.frame % self.tape.quantum if timeline.is_k_rate else 0)
        mixes = []
        for source, output in world.edges_to(key.node, key.name):
            part = yield from self.channels(at, End(source, False), output)
            mixes.append(mixed(part, 1, "speakers")[0])
        low, high = node.nominal
        return (max(low, min(high, timeline.value(at) + saturated(sum(mixes)))),)

    # Nodes that remember.

    def taken(self, at: int, number: int, channel: int) -> Number:
        """What such a node takes in at a frame: 0 where it is muted or has no such channel."""
        end = End(number, False)
        (count,) = yield Count(at // self.tape.quantum, end, 0)
        if end in self.world(at).graph.muted or channel >= count:
            return 0
        (value,) = yield In(at, end, 0, channel)
        return value

    def history(self, key: Hist) -> Equation:
        """What such a node makes of a channel."""
        node = self.world(key.frame).nodes[key.node]
        if isinstance(node, Filter):
            return self.filtered(key, node)
        if isinstance(node, Convolver):
            return self.convolved(key, node)
        if isinstance(node, Processor):
            return self.processed(key, node)
        assert isinstance(node, Shaper)
        return self.shaped(key, node)

    def shaped(self, key: Hist, node: Shaper) -> Equation:
        """What a wave shaper makes of the frame."""
        return (node.shaped((yield from self.taken(key.frame, key.node, key.channel))),)

    def reach(self, key: Hist, most: int) -> range:
        """How many frames are gone back to reach each frame that a node reads which reads the last
        ones, so many of them at most, and none before its birth."""
        return range(min(most, key.frame + 1 - self.tape.births[key.node]))

    def filtered(self, key: Hist, node: Filter) -> Equation:
        """What an IIR filter makes of the last frames and of what it made of them."""
        total = 0
        for back in self.reach(key, max(len(node.forward), len(node.back))):
            at = key.frame - back
            if back < len(node.forward):
                total += node.forward[back] * (yield from self.taken(at, key.node, key.channel))
            if 0 < back < len(node.back):
                (value,) = yield Hist(at, key.node, key.channel)
                total -= node.back[back] * value
        sign = -1 if node.back[0] < 0 else 1
        return (saturated(rounded_quotient(sign * total, sign * node.back[0])),)

    def convolved(self, key: Hist, node: Convolver) -> Equation:
        """What a convolver makes of as many of the last frames as its response has."""
        total = 0
        for back in self.reach(key, len(node.taps)):
            value = yield from self.taken(key.frame - back, key.node, key.channel)
            total += node.taps[back] * value
        return (saturated(rounded_quotient(total, ONE)),)

    def processed(self, key: Hist, node: Processor) -> Equation:
        """What a processor makes of the frame with its cells, and the cells then."""
        value = yield from self.taken(key.frame, key.node, key.channel)
        cells = AT_BIRTH
        if key.frame > self.tape.births[key.node]:
            cells = (yield Hist(key.frame - 1, key.node, key.channel))[1:]
        output, cells = frame(node.code, cells, value)
        return (output, *cells)

    # Outputs.

    def carried(self, key: Out) -> Equation:
        """What an output carries: 0 where it is muted, and on a channel that it has not."""
        world = self.world(key.frame)
        if key.end in world.graph.muted:
            return (0,)
        quantum = key.frame // self.tape.quantum
        (count,) = yield Count(quantum, key.end, key.output)
        if key.channel >= count:
            return (0,)
        node = world.nodes[key.end.node]
        if node.kind in SOURCES:
            return (yield from self.sounding(key, node))
        if isinstance(node, Delay) and not key.end.is_writer:
            return (yield from self.delayed(key, node, count))
        if isinstance(node, (Shaper, Filter, Convolver, Processor)):
            value, *_ = yield Hist(key.frame, key.end.node, key.channel)
            return (value,)
        if node.kind == "gain":
            (level,) = yield Par(key.frame, key.end.node, "gain")
            (value,) = yield In(key.frame, key.end, 0, key.channel)
            return (saturated(rounded_quotient(value * level, ONE)),)
        if node.kind == "splitter":
            return (yield In(key.frame, key.end, 0, key.output))
        if node.kind == "merger":
            return (yield In(key.frame, key.end, key.channel, 0))
        return (yield In(key.frame, key.end, 0, key.channel))

    def sounding(self, key: Out, node: Node) -> Equation:
        """What a source gives, which is 0 where it does not play."""
        if not node.played_of(range(key.frame, key.frame + 1)):
            return (0,)
        if isinstance(node, BufferSource):
            (place,) = node.positions(range(key.frame, key.frame + 1))
            assert node.buffer is not None  # without one it plays in no frame
            return (node.buffer.sample(key.channel, place),)
        return (yield Par(key.frame, key.end.node, "offset"))

    def delayed(self, key: Out, node: Delay, count: int) -> Equation:
        """What a delay's reader gives, which has so many channels: what its writer had as many
        frames before as the delay lasts, and 0 where that was before its birth."""
        number = key.end.node
        (time,) = yield Par(key.frame, number, "delayTime")
        is_in_cycle = number in self.world(key.frame).graph.in_cycle
        at = key.frame - max(node.frames(time), self.tape.quantum if is_in_cycle else 0)
        if at < self.tape.births[number]:
            return (0,)
        part = yield from self.channels(at, End(number, True), 0)
        return (mixed(part, count, node.interpretation)[key.channel],)
