"""Draws the samples of a WAV file, a strip for each channel, as one SVG picture.

A strip has a line at 0, and 1.0 and -1.0 are at its edges; what is beyond is at the edges too. Its
columns are as many as there are frames, and 400 at the most: a column is a line from the least to
the greatest sample of its frames and the last one before them. Files of the same samples have the
same picture.
"""

import argparse
import sys
from collections.abc import Iterator, Sequence
from pathlib import Path

from waplay_tools.expecting.wav_reading import Recording, WavFault, recording_of  # noqa: E402

ONE = 2**24
COLUMNS = 400
WIDTH = 800  # of a strip, in pixels
HALF = 60  # of its height
GAP = 24  # between strips, where the text stands


def columns_of(samples: Sequence[int]) -> Iterator[tuple[int, int]]:
    """The least and the greatest sample of each column, and of the last frame before it."""
    count = min(COLUMNS, len(samples))
    ends = [column * len(samples) // count for column in range(count + 1)]
    for begin, end in zip(ends, ends[1:]):
        there = samples[max(0, begin - 1) : end]
        yield min(there), max(there)


def height(sample: int) -> int:
    """How far a sample lies below the upper edge of its strip, in whole pixels."""
    return HALF - (max(-ONE, min(ONE, sample)) * HALF + ONE // 2) // ONE


def outline(samples: Sequence[int], top: int) -> str:
    """The path of a strip's columns."""
    columns = list(columns_of(samples))
    lines = []
    for column, (least, greatest) in enumerate(columns):
        place = (2 * column + 1) * WIDTH // (2 * len(columns))
        upper, lower = top + height(greatest), top + height(least)
        lines.append(f"M{place} {upper}V{lower + (upper == lower)}")
    return "".join(lines)


def picture(recording: Recording) -> Iterator[str]:
    """The lines of the picture."""
    total = recording.channels * (2 * HALF + GAP)
    box = f'viewBox="0 0 {WIDTH} {total}"'
    yield f'<svg xmlns="http://www.w3.org/2000/svg" {box} font-family="sans-serif" font-size="12">'
    yield f'<rect width="{WIDTH}" height="{total}" fill="#fff"/>'
    for channel in range(recording.channels):
        top = channel * (2 * HALF + GAP)
        samples = recording.samples(channel, range(recording.frames))
        text = f"channel {channel}: {recording.frames} frames, {recording.rate} a second"
        yield f'<path d="M0 {top + HALF}H{WIDTH}" stroke="#bbb"/>'
        yield f'<path d="{outline(samples, top)}" stroke="#247" stroke-width="2"/>'
        yield f'<text x="0" y="{top + 2 * HALF + 14}">{text}</text>'
    yield "</svg>"


def main() -> int:
    """Prints the picture of the file that is named."""
    words = argparse.ArgumentParser(
        prog="tools/picture",
        description=__doc__,
        formatter_class=argparse.RawDescriptionHelpFormatter,
    )
    words.add_argument("wav", type=Path, metavar="WAV", help="the file; the picture is printed")
    path = words.parse_args().wav
    try:
        recording = recording_of(path.read_bytes())
    except (OSError, WavFault) as fault:
        print(f"picture: {path}: {fault}", file=sys.stderr)
        return 1
    print("\n".join(picture(recording)))
    return 0


if __name__ == "__main__":
    sys.exit(main())
