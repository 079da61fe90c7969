"""Rendering: the values that come to the destination, quantum after quantum, by the rules of
docs/PROFILE.md."""

from collections.abc import Callable, Hashable, Iterator
from typing import Any, TypeVar

from waplay_tools.expecting.causal import Causal, Shaper
from waplay_tools.expecting.delay import Delay
from waplay_tools.expecting.graph import Edge, End, Graph
from waplay_tools.expecting.nodes import SOURCES, Levels, Node
from waplay_tools.expecting.numbers import (
    Block,
    Blocks,
    bounded,
    computed_count,
    mixed_blocks,
    products,
    silence,
    summed,
)

Made = TypeVar("Made")
Output = tuple[int, int]  # a node's number, and the output's


def input_of(node: Node, sources: list[Blocks], quantum: int) -> Blocks:
    """The channels of an input of a node, to which outputs with these channels are connected, in a
    quantum of so many frames."""
    count = computed_count(node.mode, node.count, [len(blocks) for blocks in sources])
    mixes = [mixed_blocks(blocks, count, node.interpretation) for blocks in sources]
    return [summed([mix[c] for mix in mixes], quantum) for c in range(count)]


def computed(nominal: tuple[int, int], own: list[int], sources: list[Blocks]) -> Block:
    """The values of a parameter, which are these without what is connected to it, and are to be in
    this range."""
    added = summed([mixed_blocks(blocks, 1, "speakers")[0] for blocks in sources], len(own))
    return bounded([value + more for value, more in zip(own, added)], *nominal)


def outputs_of(node: Node, heard: list[Blocks], levels: Levels) -> list[Blocks]:
    """What each output of a node carries that is no source and remembers nothing, where it hears
    this on each of its inputs and its parameters have these values."""
    if node.kind == "gain":
        return [[products(block, levels["gain"]) for block in heard[0]]]
    if isinstance(node, Shaper):
        return [[[node.shaped(x) for x in block] for block in heard[0]]]
    if node.kind == "splitter":  # its one input has as many channels as it has outputs
        return [[block] for block in heard[0]]
    if node.kind == "merger":  # each of its inputs has one channel
        return [[block for blocks in heard for block in blocks]]
    return heard


class Rendering:
    """A session's nodes and connections, as they are from one frame to another at which they may
    change. A quantum has so many frames."""

    def __init__(self, nodes: list[Node], edges: set[Edge], quantum: int) -> None:
        self.nodes, self.quantum = nodes, quantum
        self.graph = Graph(nodes, edges)
        self.connected: list[list[list[Output]]] = [
            [[] for _ in range(node.inputs)] for node in self.nodes
        ]
        self.controls: list[dict[str, list[Output]]] = [
            {parameter: [] for parameter in node.timelines} for node in self.nodes
        ]
        for source, output, target, place in edges:
            if isinstance(place, int):
                self.connected[target][place].append((source, output))
            else:
                self.controls[target][place].append((source, output))
        muted = [self.nodes[end.node] for end in self.graph.muted]
        self.muted_hearers = [node for node in muted if isinstance(node, Causal)]
        # Of each node its outputs, and of each output the blocks of its channels. A node that is
        # muted is silent.
        silent = [silence(quantum)]
        self.carried: list[list[Blocks]] = [[silent] * node.outputs for node in self.nodes]
        self.made: dict[Hashable, tuple[tuple[Any, ...], Any]] = {}

    def made_of(self, key: Hashable, make: Callable[..., Made], *inputs: Any) -> Made:
        """What is made of these inputs. It is made once for quanta behind one another in which they
        are the same."""
        if key not in self.made or self.made[key][0] != inputs:
            self.made[key] = inputs, make(*inputs)
        return self.made[key][1]

    def sources_of(self, edges: list[Output]) -> list[Blocks]:
        """The channels of the outputs at which these connections begin."""
        return [self.carried[source][output] for source, output in edges]

    def heard(self, number: int) -> list[Blocks]:
        """The channels of each input of a node."""
        node = self.nodes[number]
        return [
            self.made_of((number, place), input_of, node, self.sources_of(edges), self.quantum)
            for place, edges in enumerate(self.connected[number])
        ]

    def levels(self, number: int, parameter: str, first: int) -> Block:
        """The values of a parameter in the quantum that begins here. At k-rate its first one is
        that of all frames."""
        node, sources = self.nodes[number], self.sources_of(self.controls[number][parameter])
        timeline = node.timelines[parameter]
        own = timeline.values(first, 1 if timeline.is_k_rate else self.quantum)
        levels: Block = self.made_of((number, parameter), computed, node.nominal, own, sources)
        return [*levels] * self.quantum if timeline.is_k_rate else levels

    def outputs(self, end: End, first: int) -> list[Blocks]:
        """What each output of an end carries in the quantum that begins here."""
        node = self.nodes[end.node]
        levels = {
            parameter: self.levels(end.node, parameter, first) for parameter in node.timelines
        }
        if node.kind in SOURCES:
            return [node.sound(range(first, first + self.quantum), levels)]
        if isinstance(node, Delay):
            return [node.read(first, levels["delayTime"], end.node in self.graph.in_cycle)]
        heard = self.heard(end.node)
        if isinstance(node, Causal):
            return [node.filtered(heard[0], self.quantum)]
        return self.made_of((end.node, "outputs"), outputs_of, node, heard, levels)

    def render(self, end: End, first: int) -> None:
        """Renders an end in the quantum that begins here, in which all that leads to it was
        rendered."""
        node = self.nodes[end.node]
        if end.is_writer and isinstance(node, Delay):
            node.write(first, self.heard(end.node)[0])
            return
        outputs = self.outputs(end, first)
        if outputs != self.carried[end.node]:
            self.carried[end.node] = outputs

    def quanta(self, begin: int, end: int) -> Iterator[Blocks]:
        """Of each quantum from one frame to another the blocks of the destination's channels."""
        for first in range(begin, end, self.quantum):
            for it in self.graph.order:
                self.render(it, first)
            for node in self.muted_hearers:  # which hear nothing then
                node.filtered([], self.quantum)
            yield self.carried[0][0]
