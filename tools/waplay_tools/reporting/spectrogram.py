"""Spectrograms: how loud which frequencies are at which time, as a picture in the page."""

import struct
import zlib
from typing import Any

from waplay_tools.reporting.content import data_url
from waplay_tools.reporting.markup import Html, filled
from waplay_tools.reporting.text import grouped
from waplay_tools.reporting.wav_samples import Sound

try:
    import numpy
except ImportError:  # python3-numpy is not installed
    numpy = None  # type: ignore[assignment]

COLUMNS, ROWS = 600, 96
WINDOW = 2048  # frames of which one spectrum is made
LOWEST = 40.0  # hertz at the lower edge
QUIETEST = -100.0  # decibels of 1 that have the darkest colour

# Colours from the quietest to the loudest, between which the others lie.
_COLOURS = (
    (13, 8, 35), (75, 12, 107), (165, 44, 96), (229, 92, 48), (252, 173, 29), (252, 255, 164)
)


def lane(sound: Sound) -> Html:
    """The lane of a sound's spectrogram: the mean of the power of its channels. Where numpy is not
    installed a sentence says so."""
    if numpy is None:
        return Html('<p class="aside">There is no spectrogram: python3-numpy is not installed.</p>')
    if sound.is_silent():
        return Html()
    levels = _levels(sound)
    shades = numpy.clip((1 - levels / QUIETEST) * 255, 0, 255).astype(numpy.uint8)
    top = sound.rate / 2
    return filled(
        _LANE,
        ends=f"{LOWEST:g} to {grouped(int(top))} Hz, {QUIETEST:g} to 0 dB".replace("-", "\u2212"),
        label=f"Spectrogram: the loudest is {_loudest(levels, top)}",
        columns=shades.shape[1],
        rows=ROWS,
        source=Html(data_url("image/png", _png(shades))),
    )


_LANE = """<div class="lane-name"><span>Spectrogram</span><span class="aside">{ends}</span></div>\
<svg class="lane" role="img" aria-label="{label}" width="100%" height="110"><svg class="stretched"\
 data-width="{columns}" viewBox="0 0 {columns} {rows}" preserveAspectRatio="none" width="100%"\
 height="100%"><image width="{columns}" height="{rows}" preserveAspectRatio="none"\
 href="{source}"/></svg></svg>"""


def _levels(sound: Sound) -> Any:
    """How loud each row of frequencies is in each column of times, in decibels; the first row is
    the highest."""
    samples = numpy.array(sound.channels, dtype=numpy.float64) / sound.full
    frames = samples.shape[1]
    columns = max(1, min(COLUMNS, frames // 64))
    half = WINDOW // 2
    wide = numpy.pad(samples, ((0, 0), (half, half)))
    starts = (numpy.arange(columns) + 0.5) * frames / columns
    window = numpy.hanning(WINDOW)
    power = numpy.empty((columns, half + 1))
    for column, start in enumerate(starts.astype(int)):
        spectrum = numpy.fft.rfft(wide[:, start : start + WINDOW] * window)
        power[column] = (numpy.abs(spectrum * 2 / window.sum()) ** 2).mean(axis=0)
    edges = LOWEST * (sound.rate / 2 / LOWEST) ** (numpy.arange(ROWS + 1) / ROWS)
    places = numpy.clip(edges * WINDOW / sound.rate, 0, half).astype(int)
    rows = [power[:, a : max(a + 1, b)].max(axis=1) for a, b in zip(places, places[1:])]
    return 10 * numpy.log10(numpy.array(rows[::-1]) + 1e-20)


def _loudest(levels: Any, top: float) -> str:
    """The frequency that is loudest, in words."""
    row, column = numpy.unravel_index(levels.argmax(), levels.shape)
    hertz = LOWEST * (top / LOWEST) ** ((ROWS - row - 0.5) / ROWS)
    loud = f"{levels[row, column]:.0f}".replace("-", "\u2212")
    part = 100 * (column + 0.5) / levels.shape[1]
    return f"near {hertz:.0f} Hz, with {loud} dB, at {part:.0f} % of the time"


def _palette() -> bytes:
    """The 256 colours."""
    colours, steps = bytearray(), len(_COLOURS) - 1
    for shade in range(256):
        at = min(steps - 1, shade * steps // 255)
        part = shade * steps / 255 - at
        colours += bytes(
            round(a + (b - a) * part) for a, b in zip(_COLOURS[at], _COLOURS[at + 1])
        )
    return bytes(colours)


def _png(shades: Any) -> bytes:
    """A picture with a palette as a PNG file."""

    def chunk(kind: bytes, data: bytes) -> bytes:
        """A chunk of the file."""
        return struct.pack(">I", len(data)) + kind + data + struct.pack(
            ">I", zlib.crc32(kind + data)
        )

    height, width = shades.shape
    rows = b"".join(b"\0" + row.tobytes() for row in shades)
    header = struct.pack(">IIBBBBB", width, height, 8, 3, 0, 0, 0)
    return (
        b"\x89PNG\r\n\x1a\n"
        + chunk(b"IHDR", header)
        + chunk(b"PLTE", _palette())
        + chunk(b"IDAT", zlib.compress(rows, 9))
        + chunk(b"IEND", b"")
    )
