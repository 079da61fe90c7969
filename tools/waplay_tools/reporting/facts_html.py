"""Facts in words and numbers."""

from typing import NamedTuple

from waplay_tools.expecting.causal import Convolver, Filter, Shaper
from waplay_tools.expecting.delay import Delay
from waplay_tools.expecting.graph import End
from waplay_tools.expecting.nodes import SOURCES, BufferSource, Node
from waplay_tools.expecting.numbers import FIX, computed_count, mixed
from waplay_tools.explaining.facts import Count, Hist, In, Key, Numbers, Out, Par
from waplay_tools.explaining.tape import Tape, World
from waplay_tools.reporting.markup import Html, filled, isolated, joined
from waplay_tools.reporting.text import counted, fix_text, grouped

MOST_TERMS = 8  # of a sum, that are told one by one
TINY = 2**14  # below which a value is told in units of 2^-24

# What nodes are called whose kind has another name in the second calculation.
KINDS = {
    "constant": "constant source",
    "splitter": "channel splitter",
    "merger": "channel merger",
    "shaper": "wave shaper",
    "filter": "IIR filter",
}


def value_text(value: int) -> str:
    """A value as people read it: a decimal, or how many units of 2^-24 it has."""
    if 0 < abs(value) < TINY:
        return f"{grouped(value)}\u00b72^\u221224"
    return fix_text(value)


class Carried(NamedTuple):
    """An output with the values of its channels."""

    end: End
    output: int
    values: list[int]


class Mixing(NamedTuple):
    """How values become those of so many channels, and which one of these is meant."""

    channels: int
    interpretation: str = "speakers"
    channel: int = 0

    def of(self, values: list[int]) -> int:
        """What comes of the values of the channels of an output."""
        return mixed(values, self.channels, self.interpretation)[self.channel]

    def told(self, values: list[int]) -> str:
        """That they are mixed, where they are."""
        if len(values) == self.channels:
            return ""
        return f" ({counted(len(values), 'channel')} mixed to {self.channels})"


def _before(frames: int) -> str:
    """So many frames before."""
    return "at the frame before" if frames == 1 else f"at the {grouped(frames)} frames before"


def _then(frames: int) -> str:
    """So many frames up to the one that is spoken of."""
    return "then" if frames == 1 else f"then and {_before(frames - 1)}"


_NO_RESPONSE = "nothing, as it has no response"


class Telling:
    """Tells the facts of a session, all of whose needs are known."""

    def __init__(self, tape: Tape, known: dict[Key, Numbers]) -> None:
        self.tape, self.known = tape, known

    def sentence(self, key: Key) -> Html:
        """What a fact says, and of what it comes."""
        if isinstance(key, Count):
            return self._count(key)
        if isinstance(key, In):
            return self._heard(key)
        if isinstance(key, Par):
            return self._parameter(key)
        return self._history(key) if isinstance(key, Hist) else self._carried(key)

    # What is spoken of.

    def _world(self, frame: int) -> World:
        """What is in force at a frame."""
        return self.tape.world(frame // self.tape.quantum)

    def _node(self, frame: int, number: int) -> Node:
        """A node as it is at a frame."""
        return self._world(frame).nodes[number]

    def _named(self, frame: int, number: int) -> Html:
        """A node by its kind and its name."""
        node = self._node(frame, number)
        if number == 0:
            return Html("the destination")
        kind = KINDS.get(node.kind, node.kind)
        return filled("{kind} <code>{name}</code>", kind=kind, name=isolated(node.name))

    def _end(self, frame: int, end: End, output: int = 0) -> Html:
        """An end, with the output where its node has several."""
        name = self._named(frame, end.node)
        several = self._node(frame, end.node).outputs > 1
        told = "output {output} of {name}" if several else "{name}"
        told = "what goes into {name}" if end.is_writer else told
        return filled(told, output=output, name=name)

    @staticmethod
    def _at(frame: int, channel: int = 0, count: int = 1) -> str:
        """A frame, with the channel where it is not the only one."""
        told = f", channel {channel}" if channel or count > 1 else ""
        return f"at frame {grouped(frame)}{told}"

    def _count_at(self, frame: int, end: End, output: int = 0) -> int:
        """How many channels an output has at a frame; 1 where that is not known."""
        (count,) = self.known.get(Count(frame // self.tape.quantum, end, output), (1,))
        return count

    def _value(self, key: Key) -> str:
        """The value of a fact that is known."""
        return value_text(self.known[key][0])

    # Numbers of channels.

    def _count(self, key: Count) -> Html:
        """How many channels an output has."""
        frame = key.quantum * self.tape.quantum
        is_muted = key.end in self._world(frame).graph.muted
        return filled(
            "{end} has {count} in quantum {quantum}{muted}",
            end=self._end(frame, key.end, key.output),
            count=counted(self.known[key][0], "channel"),
            quantum=grouped(key.quantum),
            muted=", as it is muted" if is_muted else "",
        )

    # Sums of what is connected.

    def _channels(self, frame: int, end: End, output: int = 0) -> list[int]:
        """The values of all channels of an output."""
        channels = range(self._count_at(frame, end, output))
        return [self.known[Out(frame, end, output, channel)][0] for channel in channels]

    def _outputs(self, frame: int, number: int, place: int | str) -> list[Carried]:
        """What the connections to an input or a parameter carry."""
        return [
            Carried(End(source, False), output, self._channels(frame, End(source, False), output))
            for source, output in self._world(frame).edges_to(number, place)
        ]

    def _terms(self, frame: int, carried: list[Carried], mixing: Mixing) -> list[Html]:
        """What each connection brings to a channel of so many."""
        return [
            filled(
                "{value} from {end}{mixed}",
                value=value_text(mixing.of(it.values)),
                end=self._end(frame, it.end, it.output),
                mixed=mixing.told(it.values),
            )
            for it in carried
        ]

    @staticmethod
    def _listed(terms: list[Html]) -> Html:
        """Terms of a sum."""
        shown, more = joined(terms[:MOST_TERMS], " plus "), len(terms) - MOST_TERMS
        told = "{shown} plus {more} more" if more > 0 else "{shown}"
        return filled(told, shown=shown, more=grouped(more))

    def _heard(self, key: In) -> Html:
        """What an input hears."""
        node = self._node(key.frame, key.end.node)
        carried = self._outputs(key.frame, key.end.node, key.input)
        count = computed_count(node.mode, node.count, [len(it.values) for it in carried])
        told = "0, as nothing is connected"
        if carried and key.channel >= count:
            told = f"0, as there it has {counted(count, 'channel')}"
        elif carried:
            mixing = Mixing(count, node.interpretation, key.channel)
            terms = self._terms(key.frame, carried, mixing)
            told = filled("{terms}{sum}", terms=self._listed(terms), sum=self._sum(key, terms))
        return filled(
            "{name} {at} hears {where}{told}",
            name=self._named(key.frame, key.end.node),
            at=self._at(key.frame, key.channel, count),
            where=f"on input {key.input} " if node.inputs > 1 else "",
            told=told,
        )

    def _sum(self, key: Key, terms: list[Html]) -> str:
        """What terms come to, where they are several or are held in the range."""
        value = self.known[key][0]
        is_held = value in FIX
        if len(terms) < 2 and not is_held:
            return ""
        return f", together {value_text(value)}" + (", the end of the range" if is_held else "")

    def _parameter(self, key: Par) -> Html:
        """What a parameter is."""
        node = self._node(key.frame, key.node)
        timeline = node.timelines[key.name]
        at = key.frame - (key.frame % self.tape.quantum if timeline.is_k_rate else 0)
        own, (value,) = timeline.value(at), self.known[key]
        terms = self._terms(at, self._outputs(at, key.node, key.name), Mixing(1, "speakers", 0))
        is_made = bool(terms) or own != value
        parts = self._listed([filled("{own}", own=value_text(own)), *terms])
        return filled(
            "{name} of {node} {at}{made} is {value}{rate}{held}",
            name=key.name,
            node=self._named(key.frame, key.node),
            at=self._at(key.frame),
            made=filled(": {parts}" if is_made else "", parts=parts),
            value=value_text(value),
            rate=f", as at frame {grouped(at)}" if timeline.is_k_rate and at != key.frame else "",
            held=", the end of its range" if is_made and value in node.nominal else "",
        )

    # Nodes that remember.

    def _history(self, key: Hist) -> Html:
        """What such a node makes of a channel."""
        node = self._node(key.frame, key.node)
        return filled(
            "{node} {at} makes {value} of {what}",
            node=self._named(key.frame, key.node),
            at=self._at(key.frame, key.channel, self._count_at(key.frame, End(key.node, False))),
            value=self._value(key),
            what=self._made_of(node),
        )

    @staticmethod
    def _made_of(node: Node) -> str:
        """What it makes that of."""
        if isinstance(node, Shaper):
            return "what it hears then, " + ("by its curve" if node.curve else "as it has no curve")
        if isinstance(node, Filter):
            past = len(node.back) - 1
            made = f" and of what it made {_before(past)}" if past else ""
            return f"what it hears {_then(len(node.forward))}{made}"
        if isinstance(node, Convolver):
            return f"what it hears {_then(len(node.taps))}" if node.taps else _NO_RESPONSE
        return "what it hears then and of its cells before"

    # Outputs.

    def _carried(self, key: Out) -> Html:
        """What an output carries."""
        return filled(
            "{end} {at}{what}",
            end=self._end(key.frame, key.end, key.output),
            at=self._at(key.frame, key.channel, self._count_at(key.frame, key.end, key.output)),
            what=self._carries(key),
        )

    def _carries(self, key: Out) -> str:
        """The same, without saying of which output."""
        node, value = self._node(key.frame, key.end.node), self._value(key)
        if key.end in self._world(key.frame).graph.muted:
            return " is muted, as it hears itself without a delay between: 0"
        count = self._count_at(key.frame, key.end, key.output)
        if key.channel >= count:
            return f" has {counted(count, 'channel')} alone: 0"
        if node.kind in SOURCES:
            return self._sounding(key, node)
        if isinstance(node, Delay) and not key.end.is_writer:
            return self._delayed(key, node)
        if node.kind == "gain":
            heard = self._value(In(key.frame, key.end, 0, key.channel))
            level = self._value(Par(key.frame, key.end.node, "gain"))
            return f": {heard} times {level} is {value}"
        if node.kind == "splitter":
            return f" is channel {key.output} of what it hears: {value}"
        if node.kind == "merger":
            return f" is what it hears on input {key.channel}: {value}"
        return f" is {value}"

    def _sounding(self, key: Out, node: Node) -> str:
        """What a source gives."""
        frames = range(key.frame, key.frame + 1)
        if not node.played_of(frames):
            return " does not play: 0"
        if isinstance(node, BufferSource):
            (place,) = node.positions(frames)
            return f" plays frame {grouped(place)} of its buffer: {self._value(key)}"
        return f" plays its offset: {self._value(key)}"

    def _delayed(self, key: Out, node: Delay) -> str:
        """What a delay's reader gives."""
        (time,) = self.known[Par(key.frame, key.end.node, "delayTime")]
        is_in_cycle = key.end.node in self._world(key.frame).graph.in_cycle
        ago = max(node.frames(time), self.tape.quantum if is_in_cycle else 0)
        told = f" gives what went in {counted(ago, 'frame')} before"
        if key.frame - ago < self.tape.births[key.end.node]:
            return f"{told}, when it was not there yet: 0"
        mixing = Mixing(self._count_at(key.frame, key.end))
        before = self._channels(key.frame - ago, End(key.end.node, True))
        return f"{told}{mixing.told(before)}: {self._value(key)}"
