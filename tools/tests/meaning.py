"""The values of a session by recursion from one frame to another, as the meaning of a graph is
defined: a third calculation, which has no blocks, no order and no state. It takes the nodes and
their timelines from the second one, and asks of everything else again."""

import contextlib
import copy
import unittest.mock

from waplay_tools.expecting import programs, sessions
from waplay_tools.expecting.nodes import SOURCES
from waplay_tools.expecting.numbers import ONE, computed_count, mixed, rounded_quotient, saturated
from waplay_tools.expecting.programs import AT_BIRTH


class World:
    """The nodes and connections that are in force in a quantum. An end is a number and whether it
    is a writer."""

    def __init__(self, nodes, edges):
        self.nodes, self.edges = copy.deepcopy(nodes), sorted(edges, key=repr)
        numbers = range(len(self.nodes))
        self.delays = {number for number in numbers if self.nodes[number].kind == "delay"}
        paths = closure(numbers, {(source, target) for source, _, target, _ in self.edges})
        self.in_cycle = {number for number in self.delays if (number, number) in paths}
        arrows = {
            ((source, False), (target, target in self.delays and isinstance(place, int)))
            for source, _, target, place in self.edges
        }
        arrows |= {((number, True), (number, False)) for number in self.delays - self.in_cycle}
        ends = [(number, False) for number in numbers] + [(number, True) for number in self.delays]
        paths = closure(ends, arrows)
        self.muted = {end for end in ends if (end, end) in paths}

    def edges_to(self, number, place):
        return [
            (source, output)
            for source, output, target, at in self.edges
            if (target, at) == (number, place)
        ]


def closure(places, arrows):
    """The pairs of which the second is reached from the first by one arrow or more."""
    paths = set(arrows)
    for between in places:
        before = [a for a, b in paths if b == between]
        after = [b for a, b in paths if a == between]
        paths |= {(a, b) for a in before for b in after}
    return paths


class Meaning:
    """The values of a tape, which has one world for each quantum of so many frames."""

    def __init__(self, tape, quantum):
        self.tape, self.quantum = tape, quantum
        self.kept = {}
        self.births = {}
        for first, world in enumerate(tape):
            for number in range(len(world.nodes)):
                self.births.setdefault(number, quantum * first)

    def once(self, make, *key):
        key = make.__name__, *key
        if key not in self.kept:
            self.kept[key] = make(*key[1:])
        return self.kept[key]

    def world(self, frame):
        return self.tape[frame // self.quantum]

    def count(self, quantum, number, is_writer=False):
        return self.once(self.count_of, quantum, number, is_writer)

    def count_of(self, quantum, number, is_writer):
        """The number of channels of each output of an end."""
        world = self.tape[quantum]
        node = world.nodes[number]
        if (number, is_writer) in world.muted or node.kind in ("constant", "splitter"):
            return 1
        if node.kind == "buffer source":
            first = self.quantum * quantum
            plays = any(self.plays(node, first + k) for k in range(self.quantum))
            return node.buffer.channels if plays else 1
        if node.kind == "merger":
            return node.inputs
        if node.kind == "delay" and not is_writer:
            last = quantum if number not in world.in_cycle else quantum - 1
            quanta = range(self.births[number] // self.quantum, last + 1)
            return max([1, *(self.count(it, number, True) for it in quanta)])
        return self.input_count(quantum, number, 0)

    def input_count(self, quantum, number, place):
        world = self.tape[quantum]
        counts = [self.count(quantum, source) for source, _ in world.edges_to(number, place)]
        return computed_count(world.nodes[number].mode, world.nodes[number].count, counts)

    def plays(self, node, frame):
        if node.start is None or frame < node.start:
            return False
        return node.end() is None or frame < node.end()

    def frame_of(self, frame, number, output, is_writer=False):
        """All channels of an output."""
        count = self.count(frame // self.quantum, number, is_writer)
        return [self.value(frame, number, output, channel, is_writer) for channel in range(count)]

    def heard(self, frame, number, place, channel):
        """What comes to a channel of an input; nothing where it has no such channel."""
        world = self.world(frame)
        count = self.input_count(frame // self.quantum, number, place)
        mixes = [
            mixed(self.frame_of(frame, source, output), count, world.nodes[number].interpretation)
            for source, output in world.edges_to(number, place)
        ]
        return saturated(sum(mix[channel] for mix in mixes)) if channel < count else 0

    def parameter(self, frame, number, name):
        return self.once(self.parameter_of, frame, number, name)

    def parameter_of(self, frame, number, name):
        world = self.world(frame)
        node = world.nodes[number]
        timeline = node.timelines[name]
        if timeline.is_k_rate:
            frame -= frame % self.quantum
        mixes = [
            mixed(self.frame_of(frame, source, output), 1, "speakers")
            for source, output in world.edges_to(number, name)
        ]
        total = timeline.value(frame) + saturated(sum(mix[0] for mix in mixes))
        low, high = (0, node.nominal[1]) if name == "delayTime" else (-(2**31), 2**31 - 1)
        return max(low, min(high, total))

    def value(self, frame, number, output, channel, is_writer=False):
        return self.once(self.value_of, frame, number, output, channel, is_writer)

    def value_of(self, frame, number, output, channel, is_writer):
        world = self.world(frame)
        node = world.nodes[number]
        if (number, is_writer) in world.muted or channel >= self.count(
            frame // self.quantum, number, is_writer
        ):
            return 0
        if node.kind in SOURCES:
            if not self.plays(node, frame):
                return 0
            if node.kind == "constant":
                return self.parameter(frame, number, "offset")
            return node.buffer.sample(channel, node.positions([frame])[0])
        if node.kind == "gain":
            level = self.parameter(frame, number, "gain")
            return saturated(rounded_quotient(self.heard(frame, number, 0, channel) * level, ONE))
        if node.kind == "splitter":
            return self.heard(frame, number, 0, output)
        if node.kind == "merger":
            return self.heard(frame, number, channel, 0)
        if node.kind == "delay" and not is_writer:
            return self.delayed(frame, number, channel)
        if node.kind == "shaper":
            return node.shaped(self.heard(frame, number, 0, channel))
        if node.kind == "filter":
            return self.filtered(frame, number, channel)
        if node.kind == "processor":
            return self.processed(frame, number, channel)[0]
        return self.heard(frame, number, 0, channel)

    def delayed(self, frame, number, channel):
        world = self.world(frame)
        node = world.nodes[number]
        delay = rounded_quotient(self.parameter(frame, number, "delayTime") * node.rate, ONE)
        if number in world.in_cycle:
            delay = max(delay, self.quantum)
        before = frame - delay
        if before < self.births[number]:
            return 0
        count = self.count(frame // self.quantum, number)
        return mixed(self.frame_of(before, number, 0, True), count, node.interpretation)[channel]

    def filtered(self, frame, number, channel):
        return self.once(self.filtered_of, frame, number, channel)

    def filtered_of(self, frame, number, channel):
        """The output of a filter, also in quanta in which it has no such channel or is muted."""
        node, born = self.world(frame).nodes[number], self.births[number]
        total = 0
        for m, b in enumerate(node.forward):
            if frame - m >= born and (number, False) not in self.world(frame - m).muted:
                total += b * self.heard(frame - m, number, 0, channel)
        for k, a in enumerate(node.back):
            if k > 0 and frame - k >= born:
                total -= a * self.filtered(frame - k, number, channel)
        sign = -1 if node.back[0] < 0 else 1
        return saturated(rounded_quotient(sign * total, sign * node.back[0]))

    def processed(self, frame, number, channel):
        return self.once(self.processed_of, frame, number, channel)

    def processed_of(self, frame, number, channel):
        """The output of a processor and its cells, also in quanta in which it has no such channel
        or is muted."""
        cells = AT_BIRTH
        if frame > self.births[number]:
            cells = self.processed(frame - 1, number, channel)[1]
        is_muted = (number, False) in self.world(frame).muted
        x = 0 if is_muted else self.heard(frame, number, 0, channel)
        return programs.frame(self.world(frame).nodes[number].code, cells, x)

    def frames(self, length):
        """The values of the destination's channels, frame by frame."""
        kept = {"filter": self.filtered, "processor": self.processed}
        for frame in range(length):
            for number, node in enumerate(self.world(frame).nodes):
                if node.kind in kept:  # so that none has many frames to go back
                    for channel in range(32):
                        kept[node.kind](frame, number, channel)
            yield self.frame_of(frame, 0, 0)


@contextlib.contextmanager
def taped():
    """A list, to which each session that is replayed in between adds a world for each quantum that
    it renders."""
    tape = []
    rendering = sessions.Rendering

    class Taping(rendering):
        def __init__(self, nodes, edges, quantum):
            super().__init__(nodes, edges, quantum)
            self.world = World(nodes, edges)

        def quanta(self, begin, end):
            for blocks in super().quanta(begin, end):
                tape.append(self.world)
                yield blocks

    with unittest.mock.patch.object(sessions, "Rendering", Taping):
        yield tape


def values_of(data, folder):
    """A session that was replayed, its tape, and the values that come to its destination by this
    calculation, or None where it was not rendered."""
    with taped() as tape:
        _, _, session = sessions.replayed(data, folder)
    if session is None or session.values is None:
        return session, tape, None
    return session, tape, list(Meaning(tape, session.quantum).frames(session.length))
