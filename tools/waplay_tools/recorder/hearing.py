"""When the nodes of a script play or hear something and are heard, as far as its calls show it.
Times are frames."""

import dataclasses
from collections.abc import Iterable, Iterator

from waplay_tools.recorder.channels import Call

NEVER = float("inf")
MOVING = ("linearRampToValueAtTime", "setValueCurveAtTime")
MOST_WORK = 5_000_000  # links that are looked at; where there are more, anything may be

Ways = dict[str, set[str]]


@dataclasses.dataclass
class Link:
    """A connection from one node to another, and the frames between which it is there."""

    start: str
    end: str
    since: float
    until: float = NEVER


@dataclasses.dataclass
class Source:
    """From which quantum on a source plays, and until when. The end of a buffer is not asked."""

    since: float
    until: float = NEVER


@dataclasses.dataclass
class Timeline:
    """The first and the last frame of a parameter's events."""

    node: str
    first: float
    last: float
    is_moving: bool = False  # it has ramps or curves


def dated(calls: list[Call]) -> list[tuple[Call, int]]:
    """The calls, each with the frame at which it is made, in order of these."""
    def each(inside: list[Call], now: int) -> Iterator[tuple[Call, int]]:
        """Those of a list that begins at a frame."""
        for call in inside:
            yield call, now
            yield from each(call.get("then", []), call.get("time", now))
    return sorted(each(calls, 0), key=lambda pair: pair[1])


def links_of(calls: list[Call]) -> list[Link]:
    """The connections from node to node."""
    links: list[Link] = []
    for call, now in dated(calls):
        if call["op"] == "connect":
            links.append(Link(call["from"], call["to"], now))
        elif call["op"] == "disconnect":
            for link in links:
                if link.start == call["from"] and call.get("to", link.end) == link.end:
                    link.until = min(link.until, now)
    return links


def sources_of(calls: list[Call], quantum: int) -> dict[str, Source]:
    """The sources that are started, where a quantum has so many frames."""
    found: dict[str, Source] = {}
    for call, now in dated(calls):
        if call["op"] == "start":
            found[call["node"]] = Source(max(now, call.get("when", 0)) // quantum * quantum)
        elif call["op"] == "stop" and call["node"] in found:
            found[call["node"]].until = max(now, call.get("when", 0))
    return found


def timelines_of(calls: list[Call]) -> list[Timeline]:
    """The timelines of parameters that move."""
    found: dict[tuple[str, str], Timeline] = {}
    for call, now in dated(calls):
        if "param" in call and "time" in call:
            place = max(now, call["time"])
            line = found.setdefault((call["node"], call["param"]),
                                    Timeline(call["node"], place, place))
            line.first = min(line.first, place)
            line.last = max(line.last, place + call.get("duration", 0))
            line.is_moving |= call["op"] in MOVING
    return [line for line in found.values() if line.is_moving]


def ways_of(links: Iterable[tuple[str, str]]) -> Ways:
    """Where links lead to from each node."""
    ways: Ways = {}
    for start, end in links:
        ways.setdefault(start, set()).add(end)
    return ways


def reached(begin: Iterable[str], ways: Ways) -> set[str]:
    """These nodes, and all that ways lead to from them."""
    seen = set(begin)
    left = list(seen)
    while left:
        for end in ways.get(left.pop(), ()):
            if end not in seen:
                seen.add(end)
                left.append(end)
    return seen


# Nodes whose output hangs on how far they have come.
GOING_ON = ("createBufferSource", "createDelay", "createIIRFilter", "createConvolver")


class Spans:
    """What plays or hears something and what is heard, between the frames where that changes. A
    quantum has so many frames."""

    def __init__(self, calls: list[Call], quantum: int) -> None:
        self.links, self.sources = links_of(calls), sources_of(calls, quantum)
        times = {0.0, NEVER, *(now for _, now in dated(calls))}
        times |= {at for source in self.sources.values() for at in (source.since, source.until)}
        self.bounds = sorted(times)
        self.is_too_much = len(times) * len(self.links) > MOST_WORK

    def __iter__(self) -> Iterator[tuple[float, float, set[str], set[str]]]:
        for begin, end in zip(self.bounds, self.bounds[1:]):
            here = [link for link in self.links if link.since <= begin < link.until]
            sounding = [name for name, source in self.sources.items()
                        if source.since <= begin < source.until]
            playing = reached(sounding, ways_of((link.start, link.end) for link in here))
            heard = reached(["destination"], ways_of((link.end, link.start) for link in here))
            yield begin, end, playing, heard


def has_idle_timeline(calls: list[Call], spans: Spans) -> bool:
    """Whether a parameter is to move while its node plays or hears nothing, or is not heard, and
    does both later."""
    timelines = timelines_of(calls)
    idle: set[int] = set()  # numbers of timelines that stood still
    if not timelines or spans.is_too_much:
        return bool(timelines)
    for begin, end, playing, heard in spans:
        for number, line in enumerate(timelines):
            if line.node in playing and line.node in heard:
                if number in idle:
                    return True
            elif line.first < end and line.last > begin:
                idle.add(number)
    return False


def has_idle_node(calls: list[Call], spans: Spans) -> bool:
    """Whether a source, a delay, a filter or a convolver plays or hears something while it is not
    heard, and is heard later."""
    going = {call["as"] for call, _ in dated(calls) if call["op"] in GOING_ON}
    idle: set[str] = set()  # those that stood still
    if not going or spans.is_too_much:
        return bool(going)
    for _, _, playing, heard in spans:
        if idle & heard:
            return True
        idle |= going & playing - heard
    return False
