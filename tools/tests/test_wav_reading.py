"""Tests of how the second calculation reads WAV files: the places of faults, by hand."""

import unittest

from waplay_tools import wav
from waplay_tools.expecting.wav_reading import WavFault, recording_of
from waplay_tools.growths.scripts import ASSET

# One frame of 16 bits, whose `fmt ` chunk is at 12 and whose `data` chunk is at 36.
SMALL = wav.wav_bytes(wav.Form(1, 48000, 16), [[16384]])


def read(data: bytes) -> str | int:
    """How many frames a file has, or its fault."""
    try:
        return recording_of(data).frames
    except WavFault as fault:
        return str(fault)


class WavReading(unittest.TestCase):
    def test_fronts_of_a_file(self) -> None:
        wanted: list[str | int] = ["NotRiff(0)"] * 12 + ["NoFormat(12)"] * 11
        wanted += ["NoFormat(24)"] * 49 + ["NoData(72)"] * 10 + [1, 1, 2, 2]
        self.assertEqual([read(ASSET[:length]) for length in range(86)], wanted)

    def test_fields_of_a_file(self) -> None:
        self.assertEqual((len(SMALL), read(SMALL)), (46, 1))
        for at, byte, wanted in [
            (20, 3, "UnknownTag(20)"),
            (34, 12, "BadBits(34)"),
            (22, 0, "BadShape(22)"),
        ]:
            self.assertEqual(read(SMALL[:at] + bytes([byte]) + SMALL[at + 1 :]), wanted)
        self.assertEqual(read(SMALL[:12] + SMALL[36:] + SMALL[12:36]), "DataFirst(12)")


if __name__ == "__main__":
    unittest.main()
