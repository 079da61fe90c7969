"""Graphs: what is in a cycle, what is muted, and in which order the rest can be rendered. All of it
is asked by what reaches what."""

from collections.abc import Hashable
from typing import NamedTuple, TypeVar

from waplay_tools.expecting.nodes import Node

Place = TypeVar("Place", bound=Hashable)

# A connection: from, output, to, and input, with a parameter's name for an input where it leads to
# one.
Edge = tuple[int, int, int, int | str]


class End(NamedTuple):
    """An end of a node. A delay has two: its writer, at which connections to its input end, and its
    reader, at which those to its parameter end and from which its output leaves. Every other node
    has one, which is no writer."""

    node: int
    is_writer: bool


def reached(arrows: dict[Place, set[Place]], start: Place) -> set[Place]:
    """What is reached from there by one arrow or more. Of each place the arrows tell where they
    lead from it."""
    found: set[Place] = set()
    to_do = [start]
    while to_do:
        new = arrows[to_do.pop()] - found
        found |= new
        to_do.extend(new)
    return found


class Graph:
    """The nodes and connections of a quantum."""

    def __init__(self, nodes: list[Node], edges: set[Edge]) -> None:
        self.delays = [number for number, node in enumerate(nodes) if node.kind == "delay"]
        self.in_cycle = self.delays_in_cycles(len(nodes), edges)
        self.arrows = self.arrows_of(len(nodes), edges)
        self.muted = {end for end in self.arrows if end in reached(self.arrows, end)}
        self.order = self.legal_order()

    def delays_in_cycles(self, count: int, edges: set[Edge]) -> set[int]:
        """The delays whose nodes reach themselves by connections, those to parameters among
        them."""
        following: dict[int, set[int]] = {number: set() for number in range(count)}
        for source, _, target, _ in edges:
            following[source].add(target)
        return {number for number in self.delays if number in reached(following, number)}

    def arrows_of(self, count: int, edges: set[Edge]) -> dict[End, set[End]]:
        """Of each end, the ends that it leads to: by connections, and from the writer of a delay
        that is in no cycle to its reader."""
        arrows: dict[End, set[End]] = {End(number, False): set() for number in range(count)}
        arrows.update((End(number, True), set()) for number in self.delays)
        for source, _, target, place in edges:
            is_writer = isinstance(place, int) and End(target, True) in arrows
            arrows[End(source, False)].add(End(target, is_writer))
        for number in self.delays:
            if number not in self.in_cycle:
                arrows[End(number, True)].add(End(number, False))
        return arrows

    def legal_order(self) -> list[End]:
        """The ends that are not muted, each behind all that lead to it."""
        before: dict[End, set[End]] = {end: set() for end in self.arrows}
        for end, following in self.arrows.items():
            for it in following:
                before[it].add(end)
        order: list[End] = []
        there = set(self.muted)
        while len(there) < len(before):
            ready = [end for end in before if end not in there and before[end] <= there]
            order += ready
            there.update(ready)
        return order
