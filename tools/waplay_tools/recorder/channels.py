"""How many channels the nodes of a script may have, worked out of its calls alone.

All connections that are ever made count at once for the greatest number that there may be, and for
the least one those that last.
"""

import dataclasses
from collections.abc import Callable, Iterable, Iterator
from typing import Any

Call = dict[str, Any]

EVEN = {1, 2}  # what is mono comes back as it was from these, where mixing is as speakers
PASSING = ("createGain", "createDelay", "createWaveShaper", "createIIRFilter", "createConvolver",
           "createBiquadFilter")


@dataclasses.dataclass
class Node:
    """What the calls say of a node. Of attributes, each value that is in force in some quantum."""

    creation: Call
    counts: set[int]
    modes: set[str]
    interpretations: set[str]
    inputs: set[str] = dataclasses.field(default_factory=set)
    lasting: set[str] = dataclasses.field(default_factory=set)  # inputs from its birth to the end
    buffer: str | None = None

    def width(self, widest: int, choose: Callable[[Iterable[int]], int]) -> int:
        """The number of channels of its input where the widest output that leads to it has so many.
        `choose` takes one of several."""
        ways = {"max": widest, "clamped-max": min(widest, choose(self.counts)),
                "explicit": choose(self.counts)}
        return choose(ways[mode] for mode in self.modes)


def lists_of(calls: list[Call]) -> Iterator[list[Call]]:
    """The lists of calls. Within one of them no frame is rendered."""
    yield calls
    for call in calls:
        if "then" in call:
            yield from lists_of(call["then"])


def made_of(call: Call) -> Node:
    """A node as its creation makes it."""
    match call["op"]:
        case "createChannelSplitter":
            return Node(call, {call.get("numberOfOutputs", 6)}, {"explicit"}, {"discrete"})
        case "createChannelMerger":
            return Node(call, {1}, {"explicit"}, {"speakers"})
        case "createConvolver":
            return Node(call, {2}, {"clamped-max"}, {"speakers"})
    return Node(call, {2}, {"max"}, {"speakers"}, buffer=call.get("buffer"))


ATTRIBUTES = {"setChannelCount": "counts", "setChannelCountMode": "modes",
              "setChannelInterpretation": "interpretations"}


def nodes_of(calls: list[Call]) -> dict[str, Node]:
    """The nodes by their names."""
    nodes: dict[str, Node] = {}
    parted = {call["from"] for inside in lists_of(calls) for call in inside
              if call["op"] == "disconnect"}
    for inside in lists_of(calls):
        is_set: set[tuple[str, str]] = set()  # what this list sets before a frame is rendered
        for call in inside:
            op, node = call["op"], nodes.get(call.get("node", ""))
            if op.startswith("create") and op not in ("createBuffer", "createPeriodicWave"):
                nodes[call["as"]] = made_of(call)
                is_set |= {(call["as"], name) for name in ATTRIBUTES.values()}
            elif op == "connect" and call["to"] in nodes:
                nodes[call["to"]].inputs.add(call["from"])
                if (call["to"], "modes") in is_set and call["from"] not in parted:
                    nodes[call["to"]].lasting.add(call["from"])
            elif node and op == "setBuffer":
                node.buffer = call["buffer"] or node.buffer
            elif node and op in ATTRIBUTES:
                name = ATTRIBUTES[op]
                kept = set() if (call["node"], name) in is_set or inside is calls else set(
                    getattr(node, name))
                setattr(node, name, kept | {call["value"]})
                is_set.add((call["node"], name))
    return nodes


class Channels:
    """The channels of a script's nodes. `of_path` has those of each asset."""

    def __init__(self, calls: list[Call], of_path: dict[str, int]) -> None:
        self.nodes = nodes_of(calls)
        self.of_buffer = {call["as"]: call["channels"] if call["op"] == "createBuffer"
                          else of_path.get(call["path"], 1)
                          for inside in lists_of(calls) for call in inside
                          if call["op"] in ("createBuffer", "decodeAudioData")}
        self.most, self.least = dict.fromkeys(self.nodes, 1), dict.fromkeys(self.nodes, 1)
        while self._grow():
            pass
        self.fed = self._always_fed(calls)

    def _always_fed(self, calls: list[Call]) -> set[str]:
        """The nodes that a source without an end feeds all the time."""
        stopped = {call["node"] for inside in lists_of(calls) for call in inside
                   if call["op"] == "stop"}
        fed = {call["node"] for call in calls if call["op"] == "start" and not call.get("when")}
        fed = {name for name in fed - stopped if name in self.nodes
               and self.nodes[name].creation["op"] == "createConstantSource"}
        while True:
            more = {name for name, node in self.nodes.items() if node.lasting & fed} - fed
            if not more:
                return fed
            fed |= more

    def _grow(self) -> bool:
        """Goes once through all nodes, from the numbers that are known to greater ones."""
        before = (self.most, self.least)
        self.most = {name: self._output(node) for name, node in self.nodes.items()}
        self.least = {name: self.least_input(node) if node.creation["op"] in PASSING else 1
                      for name, node in self.nodes.items()}
        return before != (self.most, self.least)

    def input(self, node: Node) -> int:
        """The most channels that the input of a node may have."""
        return node.width(max((self.most.get(name, 1) for name in node.inputs), default=1), max)

    def least_input(self, node: Node) -> int:
        """The fewest channels that the input of a node may have."""
        return node.width(max((self.least.get(name, 1) for name in node.lasting), default=1), min)

    def _output(self, node: Node) -> int:
        op = node.creation["op"]
        if op == "createBufferSource":
            return self.of_buffer.get(node.buffer or "", 1)
        if op == "createChannelMerger":
            return node.creation.get("numberOfInputs", 6)
        return self.input(node) if op in PASSING else 1

    def is_changing(self, node: Node) -> bool:
        """Whether the number of channels of a node's input may change."""
        return self.input(node) > self.least_input(node)

    def may_fall_silent(self, name: str) -> bool:
        """Whether a node that has several channels by itself may be without an input that plays."""
        node = self.nodes[name]
        has_own = node.creation["op"] == "createChannelMerger" or (
            node.creation["op"] in PASSING and "explicit" in node.modes)
        return has_own and self.most[name] > 1 and name not in self.fed

    def tell_silence(self, of_context: int) -> bool:
        """Whether a silent output of several channels is heard beside what has one: where that is
        mixed as discrete, or to what is neither mono nor stereo."""
        return of_context not in EVEN or any(
            "discrete" in node.interpretations or not {self.input(node), self.most[name]} <= EVEN
            for name, node in self.nodes.items())
