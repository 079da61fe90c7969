"""WAV files of whole numbers: written as the program writes them, and their samples read back."""

import dataclasses
import struct
from itertools import chain


@dataclasses.dataclass(frozen=True)
class Form:
    """What a file's samples are: how many channels, frames a second, and bits a sample."""

    channels: int
    rate: int
    bits: int

    def __str__(self) -> str:
        return f"{self.channels} channels, {self.rate} frames a second, {self.bits} bits"


def file_of(form: Form, samples: bytes) -> bytes:
    """The file of these bytes of samples, which stand channel by channel within a frame."""
    step = form.channels * form.bits // 8
    padding = len(samples) % 2
    fields = (16, 1, form.channels, form.rate, form.rate * step, step, form.bits)
    head = b"RIFF" + struct.pack("<I", 36 + len(samples) + padding)
    head += b"WAVEfmt " + struct.pack("<IHHIIHH", *fields)
    return head + b"data" + struct.pack("<I", len(samples)) + samples + bytes(padding)


def wav_bytes(form: Form, channels: list[list[int]]) -> bytes:
    """The file with these samples, a list a channel; samples of 8 bits count from 0 to 255."""
    width, is_signed = form.bits // 8, form.bits > 8
    frames = zip(*channels, strict=True)
    return file_of(
        form, b"".join(it.to_bytes(width, "little", signed=is_signed) for it in chain(*frames))
    )


def form_of(data: bytes) -> Form | None:
    """The form of a file that begins as `file_of` writes it."""
    if len(data) < 44 or data[:4] != b"RIFF" or data[8:16] != b"WAVEfmt " or data[36:40] != b"data":
        return None
    channels, rate = struct.unpack_from("<HI", data, 22)
    (bits,) = struct.unpack_from("<H", data, 34)
    return Form(channels, rate, bits) if channels and bits in (16, 24) else None


def samples_of(data: bytes, form: Form) -> list[int]:
    """The samples of a file of this form, as they stand: channel by channel within a frame."""
    width = form.bits // 8
    (size,) = struct.unpack_from("<I", data, 40)
    body = data[44 : 44 + size]
    whole = len(body) - len(body) % (width * form.channels)
    return [
        int.from_bytes(body[at : at + width], "little", signed=True)
        for at in range(0, whole, width)
    ]
