"""Nodes, buffers and the assets that become buffers, by the rules of docs/PROFILE.md."""

import os
from collections.abc import Sequence

from waplay_tools.expecting.automation import Timeline
from waplay_tools.expecting.numbers import FIX, ONE, Block, Blocks, silence
from waplay_tools.expecting.reading import Call
from waplay_tools.expecting.wav_reading import Recording

Levels = dict[str, Block]  # of each parameter its values in a quantum

ASSET_LIMIT = 2**26  # bytes of a file

# The attributes of each kind of node that cannot change.
FIXED: dict[str, tuple[str, ...]] = {
    "destination": ("count", "mode"),
    "constant": (),
    "buffer source": (),
    "gain": (),
    "delay": (),
    "splitter": ("count", "mode", "interpretation"),
    "merger": ("count", "mode"),
    "shaper": (),
    "filter": (),
    "convolver": (),
    "processor": (),
}

# How many channels the channelCount of each kind of node may ask for that is not free to have 32.
MOST_CHANNELS = {"convolver": 2}

SOURCES = ("constant", "buffer source")

# The parameters of each kind of node that has any, with the feature where no call may change them.
PARAMETERS: dict[str, dict[str, str | None]] = {
    "constant": {"offset": None},
    "buffer source": {"playbackRate": "playback-rate-automation", "detune": "detune"},
    "gain": {"gain": None},
    "delay": {"delayTime": None},
}


class Node:
    """A node. The value is the first one of a constant's offset, a gain's gain or a delay's
    delayTime, the number of a splitter's outputs or of a merger's inputs, and the number of the
    destination's channels."""

    nominal = FIX  # the range of the values of its parameters

    def __init__(self, kind: str, name: str, value: int = 0) -> None:
        self.kind, self.name = kind, name
        self.timelines = {
            parameter: Timeline(value)
            for parameter, feature in PARAMETERS.get(kind, {}).items()
            if feature is None
        }
        self.inputs = {"constant": 0, "buffer source": 0, "merger": value}.get(kind, 1)
        self.outputs = value if kind == "splitter" else 1
        self.count, self.mode, self.interpretation = {
            "destination": (value, "explicit", "speakers"),
            "splitter": (value, "explicit", "discrete"),
            "merger": (1, "explicit", "speakers"),
        }.get(kind, (2, "max", "speakers"))
        self.start: int | None = None
        self.stop: int | None = None
        self.ended = False

    def end(self) -> int | None:
        """The frame from which a source is silent for good; None where nothing ends it."""
        if self.start is None or self.stop is None:
            return None
        return max(self.start, self.stop)

    def played_of(self, quantum: range) -> range:
        """The frames in which it plays, of those of a quantum."""
        end = self.end()
        if self.start is None:
            return quantum[:0]
        return range(
            max(self.start, quantum.start), quantum.stop if end is None else min(end, quantum.stop)
        )

    def times(self, call: Call) -> list[int]:
        """The times of a call that starts or stops it."""
        return [call.get("when", 0)]

    def started(self, frame: int, call: Call) -> None:
        """Notes that the source begins at a frame, by this call of start."""
        self.start = frame

    def sound(self, quantum: range, levels: Levels) -> Blocks:
        """The channels of a source in the quantum of these frames, in which its parameters have
        these values. One that plays in no frame of it has one, which is silent."""
        played = self.played_of(quantum)
        if not played:
            return [silence(len(quantum))]
        before = [0] * (played.start - quantum.start)
        after = [0] * (quantum.stop - played.stop)
        content = self.content(played, quantum.start, levels)
        return [[*before, *part, *after] for part in content]

    def content(self, played: range, first: int, levels: Levels) -> Blocks:
        """What the channels of a source have in the frames in which it plays."""
        return [levels["offset"][played.start - first : played.stop - first]]


class BufferSource(Node):
    """A source that plays a buffer. Its times are frames of the session, and its offset, its
    duration and the ends of its loop are frames of the buffer."""

    def __init__(self, call: Call, buffer: "Buffer | None") -> None:
        super().__init__("buffer source", call["as"])
        self.buffer, self.was_set = buffer, buffer is not None
        self.is_looping = call.get("loop", False)
        self.loop_start, self.loop_end = call.get("loopStart", 0), call.get("loopEnd", 0)
        self.rate = call.get("playbackRate", ONE) // ONE
        self.offset = 0
        self.duration: int | None = None

    def length(self) -> int:
        """The frames of the buffer, and 0 where there is none."""
        return self.buffer.length if self.buffer else 0

    def loop(self) -> tuple[int, int]:
        """The first frame of the buffer that is in the loop, and the first one behind the loop."""
        first, last = self.loop_start, self.loop_end
        if first >= 0 and last > 0 and first < last and first < self.length():
            return first, min(last, self.length())
        return 0, self.length()

    def times(self, call: Call) -> list[int]:
        """The times of a call that starts or stops it: a start has an offset and a duration too."""
        if call["op"] == "stop":
            return super().times(call)
        return super().times(call) + [call.get("offset", 0), call.get("duration") or 0]

    def started(self, frame: int, call: Call) -> None:
        """The same as of any source, and the buffer cannot be written any more."""
        super().started(frame, call)
        self.offset, self.duration = call.get("offset", 0), call.get("duration")
        if self.buffer:
            self.buffer.is_acquired = True

    def first(self) -> int:
        """The frame of the buffer that it begins with."""
        return min(self.offset, self.loop()[1] if self.is_looping else self.length())

    def played(self) -> int | None:
        """How many frames it plays, where that has a bound. The duration counts through the loop
        too."""
        if self.length() == 0:
            return 0
        content = self.duration
        if not self.is_looping:
            rest = self.length() - self.first()
            content = rest if content is None else min(rest, content)
        return None if content is None else -(-content // self.rate)  # rounded up

    def end(self) -> int | None:
        """Where its content, its duration or its stop ends it, whichever comes first."""
        if self.start is None:
            return None
        played = self.played()
        ends = [None if played is None else self.start + played, super().end()]
        return min((end for end in ends if end is not None), default=None)

    def positions(self, frames: range) -> list[int]:
        """The frames of the buffer that are heard at these frames."""
        assert self.start is not None
        begin, (first, last) = self.first() - self.start * self.rate, self.loop()
        places = [begin + frame * self.rate for frame in frames]
        if self.is_looping:
            return [
                first + (place - first) % (last - first) if place >= last else place
                for place in places
            ]
        return places

    def content(self, played: range, first: int, levels: Levels) -> Blocks:
        """What the buffer has at the frames in which it plays, of each channel."""
        assert self.buffer is not None  # without one it ends where it starts
        buffer, places = self.buffer, self.positions(played)
        return [buffer.samples(channel, places) for channel in range(buffer.channels)]


class Buffer:
    """A buffer: a recording, or else zeros, and what was written over it."""

    def __init__(
        self, channels: int, length: int, rate: int, recording: Recording | None = None
    ) -> None:
        self.channels, self.length, self.rate, self.recording = channels, length, rate, recording
        self.written: dict[tuple[int, int], int] = {}  # of channels and frames
        self.is_acquired = False

    def samples(self, channel: int, frames: Sequence[int]) -> list[int]:
        """The values at these frames: what was written there last, or the recording's, or 0."""
        there = self.recording.samples(channel, frames) if self.recording else [0] * len(frames)
        if not self.written:
            return there
        return [self.written.get((channel, at), value) for at, value in zip(frames, there)]

    def sample(self, channel: int, frame: int) -> int:
        """The same at one frame."""
        return self.samples(channel, [frame])[0]


class AssetFault(Exception):
    """An asset that is there and could not be read."""


def asset(folder: str, path: str) -> bytes | None:
    """The bytes of a file of the folder, so many of them that they tell whether there are too many;
    None where the system finds no file, and where the path could name one that is not in the
    folder."""
    if path.startswith("/") or ".." in path.split("/") or "\0" in path:
        return None
    try:
        with open(os.path.join(os.fsencode(folder), path.encode()), "rb") as file:
            return file.read(ASSET_LIMIT + 1)
    except (FileNotFoundError, NotADirectoryError):
        return None
    except OSError:
        raise AssetFault
