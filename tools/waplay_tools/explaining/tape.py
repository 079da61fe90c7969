"""Tapes: of each quantum of a session the nodes and the connections that are in force in it."""

import bisect
import copy
import functools
import itertools
from typing import Any, NamedTuple

from waplay_tools.expecting.graph import Edge, Graph
from waplay_tools.expecting.nodes import Node
from waplay_tools.expecting.reading import Fault, numbered, script_of
from waplay_tools.expecting.rendering import Output
from waplay_tools.expecting.sessions import Session


class World:
    """Nodes, and connections in their order: by the numbers of the nodes that they come from, and
    of one node as they were made."""

    def __init__(self, nodes: list[Node], edges: list[Edge]) -> None:
        self.nodes = [_kept(node) for node in nodes]
        self.edges = edges
        self.connected: dict[tuple[int, int | str], list[Output]] = {}
        for source, output, target, place in edges:
            self.connected.setdefault((target, place), []).append((source, output))

    @functools.cached_property
    def graph(self) -> Graph:
        """What is in a cycle and what is muted."""
        return Graph(self.nodes, set(self.edges))

    def edges_to(self, node: int, place: int | str) -> list[Output]:
        """The outputs that are connected to an input of a node, or to a parameter of it."""
        return self.connected.get((node, place), [])


def _kept(node: Node) -> Node:
    """The node as it is now. A buffer that it plays is written no more."""
    kept = copy.copy(node)
    kept.timelines = {name: copy.copy(timeline) for name, timeline in node.timelines.items()}
    for timeline in kept.timelines.values():
        timeline.events = list(timeline.events)
    return kept


class Piece(NamedTuple):
    """A world, and the first quantum in which it is in force."""

    first: int
    world: World


class Tape:
    """A session as it sounds. A quantum has so many frames, and the session so many quanta."""

    def __init__(self, session: "Taping") -> None:
        self.channels, self.length, self.quantum = (
            session.channels,
            session.length,
            session.quantum,
        )
        self.quanta, self.pieces, self.births = session.quanta, session.pieces, session.births

    def world(self, quantum: int) -> World:
        """The world that is in force in a quantum."""
        return self.pieces[bisect.bisect(self.pieces, quantum, key=lambda it: it.first) - 1].world


class Taping(Session):
    """A session that keeps what would be rendered, and renders nothing."""

    def __init__(self, script: dict[str, Any], folder: str) -> None:
        super().__init__(script, folder)
        self.pieces: list[Piece] = []
        self.births = [0]  # of each node the first frame of its first quantum
        self.made = itertools.count()
        self.ages: dict[Edge, int] = {}

    def add_node(self, node: Node) -> str:
        """Makes a node, and notes its birth."""
        answer = super().add_node(node)
        self.births.append(self.now)
        return answer

    def add_edge(self, edge: Edge) -> str:
        """Makes a connection, and notes when. One that is there already keeps its place."""
        is_new = edge not in self.edges
        answer = super().add_edge(edge)
        if is_new:
            self.ages[edge] = next(self.made)
        return answer

    def rendered(self, end: int) -> list[tuple[int, ...]]:
        """Keeps what is in force from now on up to a frame."""
        edges = sorted(self.edges, key=lambda edge: (edge[0], self.ages[edge]))
        self.pieces.append(Piece(self.now // self.quantum, World(self.nodes, edges)))
        return []


class NoTape(Exception):
    """A script that has no tape: the status, and the line that says why."""

    def __init__(self, status: int, line: str) -> None:
        super().__init__(line)
        self.status, self.line = status, line


def tape_of(data: bytes, folder: str) -> Tape:
    """The tape of a script of these bytes, whose assets are in the folder."""
    try:
        script = script_of(data)
    except Fault as fault:
        raise NoTape(4, f"script: {fault}")
    session = Taping(script, folder)
    last = session.replay(numbered(script["calls"], 1)[0])
    if last != "end completed":
        raise NoTape(3, last)
    return Tape(session)
