"""The samples of WAV files, of whole numbers and of floats: their peaks and sums, and how two files
differ."""

import array
import math
import operator
import struct
import sys
from collections.abc import Iterator, Sequence
from typing import NamedTuple

from waplay_tools import wav
from waplay_tools.expecting.wav_reading import WavFault, chunks_of, recording_of
from waplay_tools.reporting.text import BadInput

TOLERANCE = 2.0**-16  # what two samples may differ by, where nothing is said
STRETCH = 128  # frames in which differences are looked for together
FLOAT, EXTENSIBLE = 3, 0xFFFE  # tags of a format
FLOAT_FORM = bytes.fromhex("0300000000001000800000aa00389b71")  # of an extended format

FAULTS = {
    "NotRiff": "it does not begin as a RIFF file of the form WAVE",
    "DataFirst": "its samples come before their format",
    "NoFormat": "it has no whole chunk `fmt `",
    "UnknownTag": "its samples are neither PCM nor floats of 32 bits",
    "BadBits": "its samples have other than 8, 16, 24 or 32 bits",
    "BadShape": "its channels and its blocks do not fit",
    "NoData": "it has no whole frame",
}


class Sound:
    """The samples of a file, channel by channel, as the file has them: a sample s stands for
    s / full. Of floats those that are no finite numbers count as 0, and how many there were is
    `lost`."""

    def __init__(self, rate: int, bits: int, channels: list[array.array]) -> None:
        self.rate, self.bits, self.channels = rate, bits, channels
        self.frames = len(channels[0])
        self.is_float = channels[0].typecode == "f"
        self.full = 1 if self.is_float else 2 ** (bits - 1)  # what stands for 1.0
        self.lost = sum(map(_mend, channels)) if self.is_float else 0
        self.ends = [(min(channel), max(channel)) for channel in channels]

    def is_silent(self) -> bool:
        """Whether every sample is 0."""
        return not any(low or high for low, high in self.ends)

    def greatest(self) -> float:
        """The greatest magnitude of a sample, as a part of 1."""
        return max(max(-low, high) for low, high in self.ends) / self.full

    def clipped(self) -> int:
        """How many samples are cut off: of whole numbers those at either end of their range, of
        floats those outside -1 to 1."""
        low, high = (-1, 1) if self.is_float else (-self.full, self.full - 1)
        if self.is_float:
            return sum(
                sum(it > high or it < low for it in channel)
                for channel, ends in zip(self.channels, self.ends)
                if ends[1] > high or ends[0] < low
            )
        return sum(
            channel.count(end)
            for channel, ends in zip(self.channels, self.ends)
            for end in (low, high)
            if end in ends
        )


def _mend(samples: array.array) -> int:
    """Puts 0 for what is no finite number, and tells how many there were."""
    if math.isfinite(sum(samples)):
        return 0
    places = [at for at, it in enumerate(samples) if not math.isfinite(it)]
    for at in places:
        samples[at] = 0.0
    return len(places)


_SIGNS = bytes(255 if byte >= 128 else 0 for byte in range(256))  # the byte above the uppermost one
_SHIFTED = bytes(byte ^ 128 for byte in range(256))  # samples of 8 bits have an offset
_TYPES = {8: "b", 16: "h", 24: "i", 32: "i"}


def _numbers(data: bytes, bits: int) -> array.array:
    """The numbers of a file's samples."""
    if bits == 8:
        data = data.translate(_SHIFTED)
    elif bits == 24:
        wide = bytearray(len(data) // 3 * 4)
        for at in range(3):
            wide[at::4] = data[at::3]
        wide[3::4] = data[2::3].translate(_SIGNS)
        data = bytes(wide)
    return _in_order(array.array(_TYPES[bits], data))


def _in_order(numbers: array.array) -> array.array:
    """Numbers of a file, whose bytes begin with the lowest."""
    if sys.byteorder == "big":
        numbers.byteswap()
    return numbers


def _floats_of(data: bytes) -> tuple[int, int, array.array] | None:
    """The rate, the number of channels and the samples of a file of floats of 32 bits; None of any
    other file."""
    chunks = chunks_of(data)[0] if data[:4] == b"RIFF" and data[8:12] == b"WAVE" else []
    places = {name: (place + 8, size) for place, name, size in reversed(chunks)}
    if b"fmt " not in places or b"data" not in places or places[b"fmt "][1] < 16:
        return None
    place, size = places[b"fmt "]
    body = data[place : place + size].ljust(40, b"\0")
    tag, channels, rate, _, block, bits = struct.unpack("<HHIIHH", body[:16])
    is_float = tag == FLOAT or tag == EXTENSIBLE and body[24:40] == FLOAT_FORM
    if not is_float or bits != 32 or not 1 <= channels <= 32 or block != 4 * channels:
        return None
    place, size = places[b"data"]
    there = data[place : place + size]
    whole = there[: len(there) - len(there) % block]
    return (rate, channels, _in_order(array.array("f", whole))) if whole else None


def sound_of(data: bytes, name: str) -> Sound:
    """The samples of a WAV file's bytes. The name is that of the file, for a sentence on what is
    wrong."""
    found = _floats_of(data)
    if found:
        rate, count, samples, bits = *found, 32
    else:
        try:
            it = recording_of(data)
        except WavFault as fault:
            raise BadInput(
                f"{name} is no WAV file that can be read: {FAULTS[fault.args[0]].replace('`', '')}"
            ) from None
        rate, count, samples, bits = it.rate, it.channels, _numbers(it.data, it.bits), it.bits
    return Sound(rate, bits, [samples[at::count] for at in range(count)])


def frames_of(data: bytes) -> int | None:
    """How many frames a WAV file of PCM has; None of a file that is none."""
    try:
        return recording_of(data).frames
    except WavFault:
        return None


def front_of(data: bytes) -> bytes:
    """A WAV file of the first two channels of a WAV file of PCM, which has more."""
    it = recording_of(data)
    width = it.bits // 8
    block, size = it.channels * width, it.frames * 2 * width
    samples = bytearray(size)
    for at in range(2 * width):
        samples[at :: 2 * width] = it.data[at::block]
    return wav.file_of(wav.Form(2, it.rate, it.bits), bytes(samples))


def peak(samples: Sequence[float]) -> tuple[float, float, int]:
    """The greatest absolute value, the sample that has it, and the first frame of that."""
    low, high = min(samples), max(samples)
    greatest = max(-low, high)
    first = min(samples.index(it) for it in {low, high} if abs(it) == greatest)
    return greatest, samples[first], first


def parts_of(samples: Sequence[float], columns: int) -> Iterator[Sequence[float]]:
    """The samples of each of so many columns, or each by itself where there are fewer."""
    count = min(columns, len(samples))
    edges = [at * len(samples) // count for at in range(count + 1)]
    return (samples[first:last] for first, last in zip(edges, edges[1:]))


def spans(samples: Sequence[float], columns: int) -> list[tuple[float, float]]:
    """The lowest and the highest sample of each of so many columns, or of each frame where there
    are fewer frames than columns."""
    return [(min(part), max(part)) for part in parts_of(samples, columns)]


class Difference(NamedTuple):
    """Where two files differ: the sample of each as its file has it, and the second less the first
    as a part of 1."""

    frame: int
    channel: int
    here: float
    there: float
    less: float


class Place(NamedTuple):
    """Frames in which a difference is beyond the tolerance, from the first to the last one, with
    the greatest magnitude there. Between two places lies a whole stretch without one."""

    first: int
    last: int
    greatest: float


class Differences:
    """How the second file's samples differ from the first's, in the channels and frames that both
    have. A difference is the second sample less the first, as a part of 1. What is outside the
    range of whole numbers counts as its end, as a file of them can't hold more."""

    def __init__(self, first: Sound, second: Sound, tolerance: float = TOLERANCE) -> None:
        self.tolerance, self.other_channels = tolerance, len(second.channels)
        high = 1.0 - 1 / min((it.full for it in (first, second) if not it.is_float), default=2**23)
        self.channels = [
            array.array(
                "d",
                map(operator.sub, _parts(second, number, high), _parts(first, number, high)),
            )
            for number in range(min(len(first.channels), len(second.channels)))
        ]
        self.shapes = _shapes(first, second)
        self.count = sum(len(channel) - channel.count(0) for channel in self.channels)
        self.loud = [_loud_stretches(channel, tolerance) for channel in self.channels]
        self.beyond = sum(
            _beyond(channel[at : at + STRETCH], tolerance)
            for channel, loud in zip(self.channels, self.loud)
            for at in loud
        )
        self._sounds = first, second
        self.first = self._first()
        self.greatest = self._greatest()

    def agree(self) -> bool:
        """Whether no sample differs by more than the tolerance, and the files have one shape."""
        return not self.beyond and not any(what != "bits a sample" for what, _, _ in self.shapes)

    def _told(self, frame: int, channel: int) -> Difference:
        """The difference of a channel at a frame, with both samples."""
        here, there = (it.channels[channel][frame] for it in self._sounds)
        return Difference(frame, channel, here, there, self.channels[channel][frame])

    def _first(self) -> Difference | None:
        """The first difference beyond the tolerance."""
        found = [
            (next(it for it in range(loud[0], len(channel)) if abs(channel[it]) > self.tolerance),
             number)
            for number, (channel, loud) in enumerate(zip(self.channels, self.loud))
            if loud
        ]
        return self._told(*min(found)) if found else None

    def _greatest(self) -> Difference | None:
        """The greatest difference; of those that are as great the first frame, and there the first
        channel."""
        peaks = [(*peak(channel), number) for number, channel in enumerate(self.channels)]
        greatest, frame, channel = min((-it[0], it[2], it[3]) for it in peaks)
        return self._told(frame, channel) if greatest else None

    def places(self) -> list[Place]:
        """The places beyond the tolerance, of all channels together."""
        stretches = sorted(set().union(*self.loud))
        groups: list[list[int]] = []
        for at in stretches:
            if groups and at - groups[-1][-1] <= STRETCH:
                groups[-1].append(at)
            else:
                groups.append([at])
        return [self._place(group[0], group[-1] + STRETCH) for group in groups]

    def _place(self, begin: int, end: int) -> Place:
        """The place in these frames."""
        parts = [channel[begin:end] for channel in self.channels]
        frames = [
            begin + at for part in parts for at, it in enumerate(part) if abs(it) > self.tolerance
        ]
        return Place(min(frames), max(frames), max(peak(part)[0] for part in parts))


def _parts(sound: Sound, number: int, high: float) -> Sequence[float]:
    """The samples of a channel as parts of 1, those of floats within -1 and the greatest that whole
    numbers have."""
    samples, ends = sound.channels[number], sound.ends[number]
    if not sound.is_float:
        full = sound.full
        return [it / full for it in samples]
    if ends[0] >= -1.0 and ends[1] <= high:
        return samples
    return [min(max(it, -1.0), high) for it in samples]


def _loud_stretches(channel: array.array, tolerance: float) -> list[int]:
    """The first frames of the stretches in which a difference is beyond the tolerance."""
    starts = range(0, len(channel), STRETCH)
    return [at for at in starts if peak(channel[at : at + STRETCH])[0] > tolerance]


def _beyond(samples: array.array, tolerance: float) -> int:
    """How many differences are beyond the tolerance."""
    return sum(abs(it) > tolerance for it in samples)


def _shapes(first: Sound, second: Sound) -> list[tuple[str, int, int]]:
    """What else differs, in words: pairs of what the first and the second file have."""
    pairs = [
        ("channels", len(first.channels), len(second.channels)),
        ("frames", first.frames, second.frames),
        ("frames a second", first.rate, second.rate),
    ]
    if not first.is_float and not second.is_float:
        pairs.append(("bits a sample", first.bits, second.bits))
    return [pair for pair in pairs if pair[1] != pair[2]]
