"""Reads WAV files by the rules of docs/FORMATS.md, "Reading WAV files", in the plainest way: first
the whole list of chunks, and then the first case that holds.

tools/expected.py reads assets with it, and tools/wav_check.py compares the program's reading with
it. It has no code in common with the program.
"""

import functools
import struct
from collections.abc import Iterable

PCM = bytes.fromhex("0100000000001000800000aa00389b71")  # the subformat of an extended format


class WavFault(Exception):
    """What is wrong with a file: the name of the fault, and its place."""

    def __str__(self) -> str:
        return "%s(%d)" % self.args


class Recording:
    """What a file holds. Of its data are kept those bytes that are whole blocks."""

    def __init__(self, rate: int, channels: int, bits: int, data: bytes) -> None:
        self.rate, self.channels, self.bits, self.data = rate, channels, bits, data
        self.frames = len(data) // (channels * bits // 8)

    def samples(self, channel: int, frames: Iterable[int]) -> list[int]:
        """The values at these frames of a channel, in units of 2^-24."""
        width = self.bits // 8
        places = ((frame * self.channels + channel) * width for frame in frames)
        return [value(self.bits, self.data[place : place + width]) for place in places]


@functools.lru_cache(maxsize=2**16)
def value(bits: int, sample: bytes) -> int:
    """The nearest whole number to the sample in units of 2^-24, where halves go up."""
    if bits == 8:
        number = sample[0] - 128
    else:
        number = int.from_bytes(sample, "little", signed=True)
    numerator, denominator = number * 2**24, 2 ** (bits - 1)
    return (2 * numerator + denominator) // (2 * denominator)


def chunks_of(data: bytes) -> tuple[list[tuple[int, bytes, int]], int]:
    """The chunks as (place, name, size), and where their list ends."""
    found = []
    place = 12
    seen = set()
    while place + 8 <= len(data):
        name = data[place : place + 4]
        size = int.from_bytes(data[place + 4 : place + 8], "little")
        counts = name in (b"fmt ", b"data") and name not in seen
        if not counts and place + 8 + size > len(data):
            break
        seen.add(name)
        found.append((place, name, size))
        place += 8 + size + size % 2
    return found, place


def recording_of(data: bytes) -> Recording:
    """The recording that the bytes of a file are. It raises their fault where they are none."""
    if len(data) < 12 or data[:4] != b"RIFF" or data[8:12] != b"WAVE":
        raise WavFault("NotRiff", 0)
    chunks, end = chunks_of(data)
    formats = [chunk for chunk in chunks if chunk[1] == b"fmt "]
    datas = [chunk for chunk in chunks if chunk[1] == b"data"]
    if datas and (not formats or datas[0][0] < formats[0][0]):
        raise WavFault("DataFirst", datas[0][0])
    if not formats:
        raise WavFault("NoFormat", end)
    place, _, size = formats[0]
    body = data[place + 8 : place + 8 + size]
    if size < 16 or len(body) < size:
        raise WavFault("NoFormat", place)
    tag, channels, rate, _, block, bits = struct.unpack("<HHIIHH", body[:16])
    if tag != 1 and not (tag == 0xFFFE and size >= 40 and body[24:40] == PCM):
        raise WavFault("UnknownTag", place + 8)
    if bits not in (8, 16, 24, 32):
        raise WavFault("BadBits", place + 22)
    if not 1 <= channels <= 32 or block != channels * bits // 8:
        raise WavFault("BadShape", place + 10)
    if not datas:
        raise WavFault("NoData", end)
    place, _, size = datas[0]
    there = min(size, len(data) - (place + 8))
    if there < block:
        raise WavFault("NoData", place)
    return Recording(rate, channels, bits, data[place + 8 : place + 8 + there - there % block])
