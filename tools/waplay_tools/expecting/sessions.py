"""Sessions: what each call of a script does, and the lines and the file that come of it. The rules
are those of docs/PROFILE.md and docs/FORMATS.md."""

import functools
import itertools
import os
import struct
from collections.abc import Sequence
from typing import Any

from waplay_tools.expecting.automation import EDITS, LEFT_OUT_EDITS
from waplay_tools.expecting.causal import Convolver, Filter, Processor, Shaper, check_oversample
from waplay_tools.expecting.delay import Delay
from waplay_tools.expecting.graph import Edge
from waplay_tools.expecting.nodes import (
    ASSET_LIMIT,
    FIXED,
    MOST_CHANNELS,
    PARAMETERS,
    SOURCES,
    AssetFault,
    Buffer,
    BufferSource,
    Node,
    asset,
)
from waplay_tools.expecting.numbers import DEFAULT_QUANTUM, ONE, QUANTA, samples_of_channel
from waplay_tools.expecting.reading import (
    LEFT_OUT,
    Call,
    Fault,
    NumberedCall,
    numbered,
    script_of,
)
from waplay_tools.expecting.refusals import Refused, profile
from waplay_tools.expecting.rendering import Rendering
from waplay_tools.expecting.wav_reading import Recording, WavFault, recording_of
from waplay_tools.expecting.writing import script_text

NODE_LIMIT = 1024
CONNECTION_LIMIT = 8192
BUFFER_LIMIT = 2**27  # samples of all buffers
DELAY_LIMIT = 2**22  # frames of all delays


# The attributes that a call sets.
ATTRIBUTES = {
    "setChannelCount": "count",
    "setChannelCountMode": "mode",
    "setChannelInterpretation": "interpretation",
}

# The parts of its loop that a call sets of a buffer source.
LOOPS = {"setLoop": "is_looping", "setLoopStart": "loop_start", "setLoopEnd": "loop_end"}

# The calls that give a promise.
PROMISES = ("suspend", "startRendering", "resume", "decodeAudioData")


class Session:
    """One session. Where it is only checked, nothing is rendered, and it has no values."""

    def __init__(self, script: dict[str, Any], folder: str, is_checked: bool = False) -> None:
        self.script, context = script, script["context"]
        self.channels, self.length, self.rate = (context[k] for k in ("channels", "length", "rate"))
        self.quantum = context.get("renderQuantum", DEFAULT_QUANTUM)
        self.folder, self.is_checked = folder, is_checked
        self.nodes = [Node("destination", "destination", self.channels)]
        self.buffers: list[Buffer] = []
        self.names: dict[str, int | Buffer] = {"destination": 0}  # of a node its number
        self.edges: set[Edge] = set()
        self.now, self.state = 0, "suspended"
        self.quanta = 0  # that were rendered
        # The accepted startRendering, and the suspensions to come by their frames: of each the
        # ordinal and the list.
        self.rendering: tuple[int, list[NumberedCall]] | None = None
        self.suspensions: dict[int, tuple[int, list[NumberedCall]]] = {}
        self.lines: list[str] = []
        self.last = ""  # the last line, when it is over
        self.calls_run = 0
        # When it is through, of each frame the values of its channels. Of all values that were
        # rendered, the greatest one without its sign, and their sum.
        self.values: list[tuple[int, ...]] | None = None
        self.peak = self.sum = 0

    def find(self, name: str, kinds: Sequence[str] = tuple(FIXED)) -> int:
        """The number of the node of this name. A name for nothing, for a buffer or for a node of
        another kind is refused."""
        number = self.names.get(name)
        if not isinstance(number, int) or self.nodes[number].kind not in kinds:
            raise Refused("TypeError")
        return number

    def find_buffer(self, name: str) -> Buffer:
        """The buffer of this name. A name for nothing or for a node is refused."""
        buffer = self.names.get(name)
        if not isinstance(buffer, Buffer):
            raise Refused("TypeError")
        return buffer

    def buffer_or_none(self, name: str | None) -> Buffer | None:
        """The same, and None where null stands for the name."""
        return None if name is None else self.find_buffer(name)

    def check_node_limit(self) -> None:
        """Refuses one more node where there are as many as there may be."""
        if len(self.nodes) >= NODE_LIMIT:
            raise profile("node-limit")

    def add_node(self, node: Node) -> str:
        """Gives the node the next number, and its name to it. The answer is that of the call."""
        self.check_node_limit()
        self.nodes.append(node)
        self.names[node.name] = len(self.nodes) - 1
        return "ok"

    def add_buffer(self, name: str, buffer: Buffer) -> None:
        """Gives the buffer its name, where all buffers together do not get too large."""
        if sum(it.channels * it.length for it in self.buffers + [buffer]) > BUFFER_LIMIT:
            raise profile("buffer-limit")
        self.buffers.append(buffer)
        self.names[name] = buffer

    def check_rate(self, it: Buffer | Recording) -> None:
        """Refuses a buffer or a recording at another rate than the context's."""
        if it.rate != self.rate:
            raise profile("resampling")

    def create(self, kind: str, name: str, value: int) -> str:
        """Makes a node of which no more has to be said than the value that a node takes."""
        if kind in ("splitter", "merger") and not 1 <= value <= 32:
            raise Refused("IndexSizeError")
        return self.add_node(Node(kind, name, value))

    def create_delay(self, call: Call) -> str:
        """Makes a delay, where all delays together do not keep too many frames."""
        delay = Delay(call, self.rate, self.now, self.quantum)
        self.check_node_limit()
        delays = [node for node in [*self.nodes, delay] if isinstance(node, Delay)]
        if sum(it.capacity for it in delays) > DELAY_LIMIT:
            raise profile("delay-limit")
        return self.add_node(delay)

    def create_source(self, call: Call) -> str:
        """Makes a buffer source, at a whole rate, with its buffer or without one."""
        buffer, rate = self.buffer_or_none(call.get("buffer")), call.get("playbackRate", ONE)
        if rate <= 0 or rate % ONE != 0:
            raise profile("playback-rate")
        if buffer:
            self.check_rate(buffer)
        return self.add_node(BufferSource(call, buffer))

    def create_convolver(self, call: Call) -> str:
        """Makes a convolver, with its response or without one, which cannot be written any more."""
        buffer = self.buffer_or_none(call.get("buffer"))
        answer = self.add_node(Convolver(call, buffer, self.rate))
        if buffer:
            buffer.is_acquired = True
        return answer

    def create_buffer(self, call: Call) -> str:
        """Makes a silent buffer of a shape that the recommendation asks for."""
        channels, length, rate = (call[key] for key in ("channels", "length", "rate"))
        if not (1 <= channels <= 32 and length > 0 and 8000 <= rate <= 96000):
            raise Refused("NotSupportedError")
        self.add_buffer(call["as"], Buffer(channels, length, rate))
        return "ok"

    def decode(self, call: Call) -> str:
        """Makes a buffer of a WAV file among the assets, which is read now."""
        data = asset(self.folder, call["path"])
        if data is None:
            raise Refused("NotFoundError")
        if len(data) > ASSET_LIMIT:
            raise profile("asset-size")
        try:
            it = recording_of(data)
        except WavFault:
            raise Refused("EncodingError")
        self.check_rate(it)
        self.add_buffer(call["as"], Buffer(it.channels, it.frames, it.rate, it))
        return "resolved"

    def shaper(self, call: Call) -> Shaper:
        """The wave shaper that a call names."""
        node = self.nodes[self.find(call["node"], ("shaper",))]
        assert isinstance(node, Shaper)
        return node

    def player(self, call: Call) -> BufferSource:
        """The buffer source that a call names."""
        node = self.nodes[self.find(call["node"], ("buffer source",))]
        assert isinstance(node, BufferSource)
        return node

    def set_curve(self, call: Call) -> str:
        """Sets a shaper's curve or takes it away, as the shaper allows it."""
        self.shaper(call).set_curve(call["curve"])
        return "ok"

    def set_oversample(self, call: Call) -> str:
        """Changes nothing: of the oversamplings none alone is in the profile."""
        self.shaper(call)
        check_oversample(call["value"])
        return "ok"

    def set_buffer(self, call: Call) -> str:
        """Gives a source that was not started its one buffer, or takes the buffer away."""
        node, buffer = self.player(call), self.buffer_or_none(call["buffer"])
        if buffer and node.was_set:
            raise Refused("InvalidStateError")
        if node.start is not None:
            raise profile("late-buffer")
        if buffer:
            self.check_rate(buffer)
            node.was_set = True
        node.buffer = buffer
        return "ok"

    def set_loop(self, call: Call) -> str:
        """Sets a part of the loop of a source that was not started."""
        node = self.player(call)
        if node.start is not None:
            raise profile("loop-change")
        setattr(node, LOOPS[call["op"]], call["value"])
        return "ok"

    def copy_to_channel(self, call: Call) -> str:
        """Writes samples into a buffer that no source was started with and no convolver was made
        with, as far as it goes."""
        buffer, channel, at = self.find_buffer(call["buffer"]), call["channel"], call.get("at", 0)
        if channel >= buffer.channels:
            raise Refused("IndexSizeError")
        if buffer.is_acquired:
            raise profile("buffer-acquired")
        for frame, value in enumerate(call["samples"], at):
            if frame < buffer.length:
                buffer.written[channel, frame] = value
        return "ok"

    def add_edge(self, edge: Edge) -> str:
        """Makes a connection. One that is there already needs no room."""
        if edge not in self.edges and len(self.edges) >= CONNECTION_LIMIT:
            raise profile("connection-limit")
        self.edges.add(edge)
        return "ok"

    def connect(self, call: Call) -> str:
        """Connects an output to an input."""
        source, target = self.find(call["from"]), self.find(call["to"])
        output, place = call.get("output", 0), call.get("input", 0)
        if source == 0:
            raise profile("destination-output")
        if output >= self.nodes[source].outputs or place >= self.nodes[target].inputs:
            raise Refused("IndexSizeError")
        return self.add_edge((source, output, target, place))

    def disconnect(self, call: Call) -> str:
        """Takes away the connections that a call means: from a node or an output on, all, those to
        parameters too; to a node or an input, those to inputs alone, of which there has to be
        one."""
        output, to, place = (call.get(key) for key in ("output", "to", "input"))
        source = self.find(call["from"])
        target = None if to is None else self.find(to)
        if source == 0:
            raise profile("destination-output")
        if output is not None and output >= self.nodes[source].outputs:
            raise Refused("IndexSizeError")
        if target is not None and place is not None and place >= self.nodes[target].inputs:
            raise Refused("IndexSizeError")
        meant = self.edges_of_form(source, output, target, place)
        if target is not None:  # connections to the parameters of a node have a call of their own
            meant = {edge for edge in meant if isinstance(edge[3], int)}
            if not meant:
                raise Refused("InvalidAccessError")
        self.edges -= meant
        return "ok"

    def edges_of_form(self, *form: Any) -> set[Edge]:
        """The connections with these ends, where None stands for any."""
        return {edge for edge in self.edges if all(f in (None, e) for f, e in zip(form, edge))}

    # Parameters.

    def parameter(self, name: str, parameter: str) -> int:
        """The number of the node of this name, which has such a parameter."""
        number = self.find(name)
        if parameter not in PARAMETERS.get(self.nodes[number].kind, ()):
            raise Refused("TypeError")
        return number

    def check_parameter(self, number: int, parameter: str) -> None:
        """What every call is refused with that names a parameter which none may change."""
        feature = PARAMETERS[self.nodes[number].kind][parameter]
        if feature:
            raise profile(feature)

    def connect_param(self, call: Call) -> str:
        """Connects an output to a parameter."""
        source, target = self.find(call["from"]), self.parameter(call["to"], call["param"])
        output = call.get("output", 0)
        if source == 0:
            raise profile("destination-output")
        self.check_parameter(target, call["param"])
        if output >= self.nodes[source].outputs:
            raise Refused("IndexSizeError")
        return self.add_edge((source, output, target, call["param"]))

    def disconnect_param(self, call: Call) -> str:
        """Takes away the connections from a node or an output to a parameter, of which there has to
        be one."""
        source, target = self.find(call["from"]), self.parameter(call["to"], call["param"])
        output = call.get("output")
        if source == 0:
            raise profile("destination-output")
        self.check_parameter(target, call["param"])
        if output is not None and output >= self.nodes[source].outputs:
            raise Refused("IndexSizeError")
        meant = self.edges_of_form(source, output, target, call["param"])
        if not meant:
            raise Refused("InvalidAccessError")
        self.edges -= meant
        return "ok"

    def automate(self, call: Call) -> str:
        """Edits the timeline of a parameter, or reads its value."""
        number = self.parameter(call["node"], call["param"])
        self.check_parameter(number, call["param"])
        timeline = self.nodes[number].timelines[call["param"]]
        if call["op"] in LEFT_OUT_EDITS:
            raise profile(LEFT_OUT_EDITS[call["op"]])
        if call["op"] == "readValue":
            return f"value {timeline.slot}"
        EDITS[call["op"]](timeline, call, self.now)
        return "ok"

    # Attributes, sources and the context.

    def set_attribute(self, call: Call) -> str:
        """Sets how many channels a node has or how it mixes. Where a kind of node fixes that, only
        the value that is there is accepted."""
        node, attribute = self.nodes[self.find(call["node"])], ATTRIBUTES[call["op"]]
        if attribute == "count" and not 1 <= call["value"] <= MOST_CHANNELS.get(node.kind, 32):
            raise Refused("NotSupportedError")
        if node.kind == "convolver" and call["value"] == "max":
            raise Refused("NotSupportedError")
        if attribute in FIXED[node.kind] and call["value"] != getattr(node, attribute):
            raise Refused("InvalidStateError")
        setattr(node, attribute, call["value"])
        return "ok"

    def schedule(self, call: Call) -> str:
        """Starts a source, once, or stops one that was started, at a time that is not past."""
        node = self.nodes[self.find(call["node"], SOURCES)]
        frame = max(call.get("when", 0), self.now)
        if (node.start is None) != (call["op"] == "start"):
            raise Refused("InvalidStateError")
        if min(node.times(call)) < 0:
            raise Refused("RangeError")
        if call["op"] == "start":
            node.started(frame, call)
        elif not node.ended:
            node.stop = frame
        return "ok"

    def suspend(self, ordinal: int, call: Call, held: list[NumberedCall]) -> str:
        """Notes a suspension at the next quantum's first frame from a time on; one frame has one at
        most."""
        frame = -(-call["time"] // self.quantum) * self.quantum  # rounded up
        if not self.now < frame < self.length or frame in self.suspensions:
            raise Refused("InvalidStateError")
        self.suspensions[frame] = ordinal, held
        return "pending"

    def start_rendering(self, ordinal: int, held: list[NumberedCall]) -> str:
        """Notes that the session is to be rendered when the main list is through, and once only."""
        if self.rendering is not None:
            raise Refused("InvalidStateError")
        self.rendering, self.state = (ordinal, held), "running"
        return "pending"

    def resume(self) -> str:
        """Lets a suspended session go on after the list that is being done."""
        if self.rendering is None or self.state == "closed":
            raise Refused("InvalidStateError")
        self.state = "running"
        return "resolved"

    def answer(self, ordinal: int, call: Call, held: list[NumberedCall]) -> str:
        """Does a call, and gives what its line says after its ordinal. It raises the refusal of one
        that is refused, which has changed nothing."""
        op = call["op"]
        if op in LEFT_OUT:
            raise profile(LEFT_OUT[op])
        return {
            "createConstantSource": lambda: self.create(
                "constant", call["as"], call.get("offset", ONE)
            ),
            "createGain": lambda: self.create("gain", call["as"], call.get("gain", ONE)),
            "createDelay": lambda: self.create_delay(call),
            "createChannelSplitter": lambda: self.create(
                "splitter", call["as"], call.get("numberOfOutputs", 6)
            ),
            "createChannelMerger": lambda: self.create(
                "merger", call["as"], call.get("numberOfInputs", 6)
            ),
            "createWaveShaper": lambda: self.add_node(Shaper(call)),
            "createIIRFilter": lambda: self.add_node(Filter(call)),
            "createConvolver": lambda: self.create_convolver(call),
            "createProcessor": lambda: self.add_node(Processor(call)),
            "createBufferSource": lambda: self.create_source(call),
            "createBuffer": lambda: self.create_buffer(call),
            "connect": lambda: self.connect(call),
            "disconnect": lambda: self.disconnect(call),
            "connectParam": lambda: self.connect_param(call),
            "disconnectParam": lambda: self.disconnect_param(call),
            **dict.fromkeys([*EDITS, *LEFT_OUT_EDITS, "readValue"], lambda: self.automate(call)),
            **dict.fromkeys(ATTRIBUTES, lambda: self.set_attribute(call)),
            "setCurve": lambda: self.set_curve(call),
            "setOversample": lambda: self.set_oversample(call),
            "setBuffer": lambda: self.set_buffer(call),
            **dict.fromkeys(LOOPS, lambda: self.set_loop(call)),
            "copyToChannel": lambda: self.copy_to_channel(call),
            "start": lambda: self.schedule(call),
            "stop": lambda: self.schedule(call),
            "suspend": lambda: self.suspend(ordinal, call, held),
            "startRendering": lambda: self.start_rendering(ordinal, held),
            "resume": self.resume,
            "decodeAudioData": lambda: self.decode(call),
            "readState": lambda: "state " + self.state,
            "readTime": lambda: f"time {self.now}",
        }[op]()

    def run(self, calls: list[NumberedCall]) -> None:
        """Does the calls of a list in their order, with a line for each."""
        for ordinal, call, held in calls:
            self.calls_run += 1
            try:
                text = self.answer(ordinal, call, held)
            except Refused as refused:
                text = ("rejected " if call["op"] in PROMISES else "throw ") + str(refused)
            self.lines.append(f"{ordinal} {text}")

    def settle(self, ordinal: int, held: list[NumberedCall]) -> None:
        """The promise of a call resolves, and the list that the call holds is run."""
        self.lines.append(f"{ordinal} resolved")
        self.run(held)

    def pass_quantum(self) -> None:
        """What comes after each quantum: sources end."""
        self.now += self.quantum
        self.quanta += 1
        for number, node in enumerate(self.nodes):
            end = None if node.ended else node.end()
            if end is not None and end <= self.now:
                node.ended = True
                self.lines.append(f"ended {number} {node.name}")

    def pass_quanta(self, end: int) -> None:
        """What comes after each quantum up to a frame, before which no call is run. The current
        values are then those of the last one's first frame."""
        while self.now < end:
            self.pass_quantum()
        for node in self.nodes:
            for timeline in node.timelines.values():
                timeline.slot = timeline.value(self.now - self.quantum)

    def rendered(self, end: int) -> list[tuple[int, ...]]:
        """The values from now on up to a frame."""
        values: list[tuple[int, ...]] = []
        rendering = Rendering(self.nodes, self.edges, self.quantum)
        for first, blocks in enumerate(rendering.quanta(self.now, end)):
            frames = list(zip(*blocks))[: end - self.now - self.quantum * first]
            values += frames
            flat = list(itertools.chain(*frames))
            self.peak = max(self.peak, max(flat), -min(flat))
            self.sum += sum(flat)
        return values

    @functools.cached_property
    def samples(self) -> list[list[int]]:
        """Of each frame that was rendered the samples of its channels, when the session is
        through."""
        return samples_of(self.values or [], 24)

    def replay(self, calls: list[NumberedCall]) -> str:
        """The last line. The other lines and the samples stand in the session afterwards. Nothing
        is changed between two suspensions, so what lies between them is rendered at once."""
        if not (
            1 <= self.channels <= 32
            and 1 <= self.length <= 2**25
            and 8000 <= self.rate <= 96000
            and self.channels * self.length <= 2**26
            and self.quantum in QUANTA
        ):
            return "end refused NotSupportedError"
        self.run(calls)
        if self.rendering is None:
            return "end idle"
        values = []
        while self.now < self.length:
            following = min(self.suspensions, default=self.length)
            if not self.is_checked:
                values += self.rendered(following)
            self.pass_quanta(following)
            if self.now < self.length:
                self.state = "suspended"
                self.settle(*self.suspensions.pop(self.now))
                if self.state == "suspended":
                    return f"end stalled {self.now}"
        self.values, self.state = None if self.is_checked else values, "closed"
        self.settle(*self.rendering)
        self.lines.append(f"complete {self.length}")
        return "end completed"


def samples_of(values: list[tuple[int, ...]], bits: int) -> list[list[int]]:
    """Of each frame the samples of so many bits."""
    channels = [samples_of_channel(channel, bits) for channel in zip(*values)]
    return [list(frame) for frame in zip(*channels)]


def wav_bytes(session: Session, bits: int = 24) -> bytes:
    """The WAV file of a session that completed, as the program writes it."""
    channels, rate, width = session.channels, session.rate, bits // 8
    samples = session.samples if bits == 24 else samples_of(session.values or [], bits)
    body = b"".join(s.to_bytes(width, "little", signed=True) for row in samples for s in row)
    padding = len(body) % 2
    return (
        b"RIFF"
        + struct.pack("<I", 36 + len(body) + padding)
        + b"WAVEfmt "
        + struct.pack(
            "<IHHIIHH", 16, 1, channels, rate, rate * channels * width, channels * width, bits
        )
        + b"data"
        + struct.pack("<I", len(body))
        + body
        + b"\0" * padding
    )


def file_of(session: Session, mode: str, bits: int = 24) -> bytes | None:
    """What OUT has of a session that is over and ran in this mode; None where it leaves no file.
    Unless it was refused, it leaves the script itself in mode `migrate`."""
    if mode == "render" and session.last == "end completed":
        return wav_bytes(session, bits)
    if mode == "migrate" and not session.last.startswith("end refused"):
        return script_text(session.script)
    return None


def summary_of(session: Session) -> str:
    """What is told in place of the lines: how many calls were run, quanta rendered, sources ended
    and calls refused, and, where it was rendered to its end, what the rendered values come to."""
    words = [line.split() for line in session.lines]
    numbers = {
        "calls": session.calls_run,
        "quanta": session.quanta,
        "ended": sum(first == "ended" for first, *_ in words),
        "refused": sum(second in ("throw", "rejected") for _, second, *_ in words),
    }
    if session.values is not None:
        numbers.update(peak=session.peak, sum=session.sum)
    return " ".join(["summary", *("%s %d" % it for it in numbers.items())])


def replayed(
    data: bytes, folder: str = os.curdir, is_checked: bool = False
) -> tuple[int, str, Session | None]:
    """What a script of these bytes gives, whose assets are in the folder: the status, the text, and
    the session when it is over. Where it is only checked, nothing is rendered."""
    try:
        script = script_of(data)
        session = Session(script, folder, is_checked)
        session.last = session.replay(numbered(script["calls"], 1)[0])
    except Fault as fault:
        return 4, f"script: {fault}\n", None
    except AssetFault:
        return 7, "", None
    status = 0 if session.last == "end completed" else 3
    return status, "\n".join([*session.lines, session.last]) + "\n", session
