"""The graph of a session: its nodes, what is in cycles, muted or frozen, and nodes that are alike
as one."""

import dataclasses
from collections import Counter
from collections.abc import Hashable, Iterable

from waplay_tools.reporting.content import Content
from waplay_tools.reporting.sources import Book, Link, Thing
from waplay_tools.reporting.text import grouped

MOST_TIMES = 64  # at which it is looked for muted nodes

Arrows = dict[int, set[int]]


def in_cycles(arrows: Arrows) -> set[int]:
    """The numbers that reach themselves, by Tarjan's strongly connected components."""
    index: dict[int, int] = {}
    low: dict[int, int] = {}
    stack: list[int] = []
    on_stack: set[int] = set()
    found: set[int] = set()
    for root in arrows:
        work = [(root, iter(arrows[root]))] if root not in index else []
        while work:
            node, rest = work[-1]
            if node not in index:
                index[node] = low[node] = len(index)
                stack.append(node)
                on_stack.add(node)
            for end in rest:
                if end not in index:
                    work.append((end, iter(arrows.get(end, ()))))
                    break
                if end in on_stack:
                    low[node] = min(low[node], index[end])
            else:
                work.pop()
                _close(node, (index, low), stack, on_stack, found, arrows)
                if work:
                    low[work[-1][0]] = min(low[work[-1][0]], low[node])
    return found


def _close(
    node: int,
    marks: tuple[dict[int, int], dict[int, int]],
    stack: list[int],
    on_stack: set[int],
    found: set[int],
    arrows: Arrows,
) -> None:
    """Takes a whole component off the stack, where the node is its first."""
    index, low = marks
    if low[node] != index[node]:
        return
    component: list[int] = []
    while not component or component[-1] != node:
        component.append(stack.pop())
        on_stack.discard(component[-1])
    if len(component) > 1 or node in arrows.get(node, ()):
        found.update(component)


def _number(thing: Thing) -> int:
    """The number of a node."""
    return thing.number or 0


def arrows_of(links: Iterable[Link]) -> Arrows:
    """Where the links lead to from each node."""
    arrows: Arrows = {}
    for link in links:
        arrows.setdefault(_number(link.start), set()).add(_number(link.end))
        arrows.setdefault(_number(link.end), set())
    return arrows


def muted_in(links: list[Link]) -> set[int]:
    """The nodes that are muted: those in a cycle that no delay is in. A delay in a cycle takes its
    input of the quantum before, so nothing leads through it at once."""
    looped = in_cycles(arrows_of(links))
    at_once = [
        link
        for link in links
        if not (link.end.kind == "delay" and _number(link.end) in looped
                and not isinstance(link.place, str))
    ]
    return in_cycles(arrows_of(at_once))


def changes_of(book: Book) -> dict[int, tuple[list[Link], list[Link]]]:
    """Of each frame at which connections change after the beginning, those that come and those that
    go."""
    found: dict[int, tuple[list[Link], list[Link]]] = {}
    for link in book.links:
        if link.since:
            found.setdefault(link.since, ([], []))[0].append(link)
        if link.until:
            found.setdefault(link.until, ([], []))[1].append(link)
    return dict(sorted(found.items()))


def links_at(book: Book, frame: int) -> list[Link]:
    """The links that are there from a frame on."""
    return [
        link
        for link in book.links
        if link.since <= frame and (link.until is None or link.until > frame)
    ]


def told_of(content: Content, word: str) -> set[int]:
    """The ordinals of the calls of which the recorder tells a loss with this word in its kind."""
    return {call for loss in content.losses if word in loss.kind for call in loss.calls}


@dataclasses.dataclass
class Box:
    """Nodes of a picture that are alike, drawn as one."""

    number: int
    kind: str
    names: list[str]
    flags: tuple[str, ...]

    def title(self) -> str:
        """What is written in it."""
        if len(self.names) == 1:
            return self.names[0]
        return f"{grouped(len(self.names))} \u00d7 {self.kind}"

    def lines(self) -> list[str]:
        """All lines of its text."""
        second = self.kind if len(self.names) == 1 else f"{self.names[0]} .. {self.names[-1]}"
        shown = [self.title()] + ([second] if second != self.title() else [])
        return [it if len(it) <= 24 else it[:23] + "\u2026" for it in shown] + list(self.flags)


@dataclasses.dataclass
class Arrow:
    """A connection between boxes: to a parameter where it has a name, and whether it is there all
    the time."""

    start: int
    end: int
    label: str
    is_lasting: bool


@dataclasses.dataclass
class Picture:
    """What is drawn of a graph."""

    boxes: list[Box]
    arrows: list[Arrow]


def flags_of(content: Content) -> dict[int, tuple[str, ...]]:
    """What is told of nodes besides: muted, in a cycle, baked or frozen."""
    book = content.session.book
    times = [0, *changes_of(book)][:MOST_TIMES]
    muted: set[int] = set()
    looped: set[int] = set()
    for time in times:
        links = links_at(book, time)
        muted |= muted_in(links)
        looped |= in_cycles(arrows_of(links))
    baked, frozen = told_of(content, "baked"), told_of(content, "frozen")
    told = {}
    for it in book.nodes:
        source = it.buffer.call if it.buffer else None
        calls = {call.ordinal for call in (it.call, source) if call}
        flags = [("muted", _number(it) in muted), ("in a cycle", _number(it) in looped - muted),
                 ("baked", bool(calls & baked)),
                 ("frozen", bool(calls & frozen) or it.name in content.frozen)]
        told[_number(it)] = tuple(name for name, holds in flags if holds)
    return told


def picture_of(content: Content) -> Picture:
    """The picture of all nodes and connections that a session ever has; nodes that are alike in
    kind and connections are one box."""
    book, flags = content.session.book, flags_of(content)
    groups = _alike(book, flags)
    boxes: dict[int, Box] = {}
    for it in book.nodes:
        group = groups[_number(it)]
        box = boxes.setdefault(group, Box(group, it.kind, [], flags[_number(it)]))
        box.names.append(it.name)
    arrows: dict[tuple[int, int, str, bool], Arrow] = {}
    for link in book.links:
        label = link.place if isinstance(link.place, str) else _ports(link)
        key = (groups[_number(link.start)], groups[_number(link.end)], label, link.until is None)
        arrows.setdefault(key, Arrow(*key))
    return Picture(list(boxes.values()), list(arrows.values()))


def _ports(link: Link) -> str:
    """The output and the input of a connection, where one of them is not 0."""
    return f"{link.output} \u2192 {link.place}" if link.output or link.place else ""


def _alike(book: Book, flags: dict[int, tuple[str, ...]]) -> dict[int, int]:
    """Of each node the number of the group of nodes that are alike. Groups are parted until nodes
    of one have connections of the same kinds with the same groups."""
    groups = _numbered({_number(it): (it.kind, flags[_number(it)]) for it in book.nodes})
    while True:
        around: dict[int, Counter] = {number: Counter() for number in groups}
        for link in book.links:
            start, end, key = _number(link.start), _number(link.end), (link.output, link.place)
            around[start]["to", key, groups[end]] = 1
            around[end]["from", key, groups[start]] = 1
        parted = _numbered(
            {number: (groups[number], frozenset(around[number])) for number in groups}
        )
        if len(set(parted.values())) == len(set(groups.values())):
            return groups
        groups = parted


def _numbered(keys: dict[int, Hashable]) -> dict[int, int]:
    """A number for each different key."""
    seen: dict[Hashable, int] = {}
    return {number: seen.setdefault(key, len(seen)) for number, key in keys.items()}
