"""What names stand for while a transcript is followed, and the frames at which sources end.

A transcript says that a source ended, and not when. The frame follows from the calls that were
accepted, and from the lengths of the files that were decoded. Where such a length is not known,
there is a first and a last frame between which the source ended.
"""

import dataclasses
from collections.abc import Mapping

from waplay_tools.reporting import entries
from waplay_tools.reporting.script_reading import Call


class Thing:
    """A node or a buffer: its kind in words, its number if it is a node, and the call that made
    it."""

    def __init__(self, kind: str, number: int | None, call: Call | None) -> None:
        self.kind, self.number, self.call = kind, number, call
        self.name = call.field("as") if call else "destination"
        self.start: int | None = None
        self.stop: int | None = None
        self.buffer: Thing | None = None
        self.offset = 0
        self.duration: int | None = None
        self.length: int | None = None
        self.has_ended = False
        self.events: list[tuple[int, Call]] = []  # the calls on its parameters, with their frames
        self.is_looping = bool(call and call.field("loop"))
        self.rate = max(1, (call.field("playbackRate") or 0) // entries.ONE) if call else 1

    def ends(self) -> tuple[int, int | None]:
        """The first and the last frame at which a started source may end. The last is None where
        nothing says when it ends; then the first is its start."""
        assert self.start is not None
        least, most = self._content() if self.kind == "buffer source" else (None, None)
        low, high = self._end(self.start, least), self._end(self.start, most)
        return self.start if low is None else low, high

    def _end(self, start: int, content: int | None) -> int | None:
        """The frame at which it ends where it starts there and plays so many frames of its buffer,
        or frames without end."""
        ends = [] if content is None else [start + -(-content // self.rate)]
        if self.stop is not None:
            ends.append(max(start, self.stop))
        return min(ends, default=None)

    def _content(self) -> tuple[int | None, int | None]:
        """The least and the greatest number of frames of its buffer that it plays; None has no
        end."""
        if self.buffer is None:
            return 0, 0
        if self.is_looping:
            return self.duration, self.duration
        length = self.buffer.length
        if length is None:
            return 0, self.duration
        rest = length - min(self.offset, length)
        rest = rest if self.duration is None else min(rest, self.duration)
        return rest, rest


@dataclasses.dataclass
class Link:
    """A connection to an input, or to a parameter, and the frames between which it is there. Until
    None it stays."""

    start: Thing
    output: int
    end: Thing
    place: int | str
    since: int
    until: int | None = None


class Book:
    """The nodes, their connections, and what each name stands for. `lengths` has the frames of the
    files that may be decoded, by their paths."""

    def __init__(self, lengths: Mapping[str, int] | None = None) -> None:
        self.nodes = [Thing("destination", 0, None)]
        self.names: dict[str, Thing] = {"destination": self.nodes[0]}
        self.links: list[Link] = []
        self._open: dict[int, list[Link]] = {}  # those that are there, by the node they begin at
        self._lengths = lengths or {}

    def what(self, name: str) -> str:
        """What a name stands for, in words."""
        it = self.names.get(name)
        if it is None:
            return "stands for nothing"
        if it.number == 0:
            return "is the destination"
        return f"is a{'n' if it.kind[0] in 'aeiouI' else ''} {it.kind}"

    def apply(self, call: Call, now: int) -> None:
        """What an accepted call changes, made at the frame `now`."""
        op = call.op
        if op in entries.NODES:
            it = Thing(entries.NODES[op], len(self.nodes), call)
            if op == "createBufferSource":
                it.buffer = self.names.get(
                    call.field("buffer")
                )  # before its own name, which may be the buffer's
            self.nodes.append(it)
            self.names[it.name] = it
        elif op in ("createBuffer", "decodeAudioData"):
            it = Thing("buffer", None, call)
            is_empty = op == "createBuffer"
            it.length = call.field("length") if is_empty else self._lengths.get(call.field("path"))
            self.names[it.name] = it
        elif op in ("connect", "connectParam"):
            self._connect(call, now)
        elif op in ("disconnect", "disconnectParam"):
            self._disconnect(call, now)
        else:
            self._change(call, self.names.get(call.field("node")), now)

    def _connect(self, call: Call, now: int) -> None:
        """A connection, where it is not there yet."""
        start, end = (self.names.get(call.field(name)) for name in ("from", "to"))
        if start is None or end is None:
            return
        place = call.field("param" if call.op == "connectParam" else "input")
        there = self._open.setdefault(id(start), [])
        output = call.field("output")
        if not any((it.output, it.end, it.place) == (output, end, place) for it in there):
            there.append(Link(start, output, end, place, now))
            self.links.append(there[-1])

    def _disconnect(self, call: Call, now: int) -> None:
        """The end of the connections that the call means: a field that is absent means all."""
        wanted = {"output": call.field("output"), "end": None, "place": call.field("input")}
        if call.field("to") is not None:
            wanted["end"] = self.names.get(call.field("to"))
        if call.op == "disconnectParam":
            wanted["place"] = call.field("param")
        kept = []
        for link in self._open.get(id(self.names.get(call.field("from"))), []):
            to_node = call.op == "disconnect" and wanted["end"] is not None
            is_meant = not (to_node and isinstance(link.place, str)) and all(
                value is None or getattr(link, name) == value for name, value in wanted.items()
            )
            if is_meant:
                link.until = now
            else:
                kept.append(link)
        self._open[id(self.names.get(call.field("from")))] = kept

    def _change(self, call: Call, it: "Thing | None", now: int) -> None:
        """What an accepted call changes of a node that is there."""
        if it is None:
            return
        if call.op in entries.PARAMETER_CALLS and call.op != "readValue":
            it.events.append((now, call))
        if call.op == "start":
            it.start = max(call.field("when"), now)
            it.offset, it.duration = call.field("offset"), call.field("duration")
        elif call.op == "stop" and not it.has_ended:
            it.stop = max(call.field("when"), now)
        elif call.op == "setLoop":
            it.is_looping = call.field("value")
        elif call.op == "setBuffer":
            it.buffer = self.names.get(call.field("buffer"))
