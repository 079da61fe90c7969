"""Tests of convolutions: long ones of the program beside those of numpy, which is a package of
Debian, and those of the second calculation beside plain sums.

The program is the one that the variable WAPLAY names, or else the shipped one. Where neither is
there, or no numpy, the tests of it are skipped."""

import json
import os
import random
import subprocess
import tempfile
import unittest
from collections.abc import Sequence
from pathlib import Path

try:
    import numpy
except ImportError:
    numpy = None  # type: ignore[assignment]

from waplay_tools import wav
from waplay_tools.expecting.causal import Convolver
from waplay_tools.expecting.nodes import Buffer
from waplay_tools.expecting.numbers import QUANTA
from waplay_tools.places import SHIPPED

PROGRAM = Path(os.environ.get("WAPLAY") or SHIPPED).absolute()
ONE = 2**24
LOUDEST = 2**25
LONGEST = 2**14  # samples of a response
LOW, HIGH = -(2**31), 2**31 - 1
FRAMES = 20_000
RATE = 8000
SECONDS = 120  # for a run


def value_of(total: int) -> int:
    """The value of a sum of products: a half goes up, and it is held to the range."""
    return max(LOW, min(HIGH, (2 * total + ONE) // (2 * ONE)))


def sample_of(value: int, gain: int) -> int:
    """The sample of 24 bits of a value, behind a gain that keeps it in its range."""
    value = (2 * value * gain + ONE) // (2 * ONE)
    return max(-(2**23), min(2**23 - 1, (value + 1) // 2))


def sums_of(response: list[int], sound: list[int]) -> list[int]:
    """The exact sums of products, by numpy. As 64 bits do not hold them, each sample of the sound
    is parted at its 16th bit."""
    whole = numpy.array(sound, dtype=numpy.int64)
    above, below = (
        numpy.convolve(part, numpy.array(response, dtype=numpy.int64))[: len(sound)].tolist()
        for part in (whole >> 16, whole & 0xFFFF)
    )
    return [high * 2**16 + low for high, low in zip(above, below)]


def script_of(response: list[int], sound: list[int], gain: int) -> dict:
    """A script in which a buffer source plays a sound through a convolver and a gain."""
    calls: list[dict] = []
    for name, samples in ("response", response), ("sound", sound):
        shape = {"channels": 1, "length": len(samples), "rate": RATE}
        calls.append({"op": "createBuffer", "as": name, **shape})
        calls.append({"op": "copyToChannel", "buffer": name, "channel": 0, "samples": samples})
    room = {"buffer": "response", "disableNormalization": True}
    calls += [
        {"op": "createBufferSource", "as": "source", "buffer": "sound"},
        {"op": "createConvolver", "as": "room", **room},
        {"op": "createGain", "as": "gain", "gain": gain},
        {"op": "connect", "from": "source", "to": "room"},
        {"op": "connect", "from": "room", "to": "gain"},
        {"op": "connect", "from": "gain", "to": "destination"},
        {"op": "start", "node": "source"},
        {"op": "startRendering"},
    ]
    context = {"channels": 1, "length": FRAMES, "rate": RATE}
    return {"version": 1, "context": context, "calls": calls}


@unittest.skipUnless(os.access(PROGRAM, os.X_OK), "there is no program")
@unittest.skipUnless(numpy, "numpy is not installed")
class Long(unittest.TestCase):
    """The longest responses there may be."""

    def look_at(self, response: list[int], sound: list[int], gain: int) -> list[int]:
        """Compares the samples of the program with those of numpy, and gives them."""
        wanted = [sample_of(value_of(total), gain) for total in sums_of(response, sound)]
        data = json.dumps(script_of(response, sound, gain)).encode()
        with tempfile.TemporaryDirectory() as room:
            ran = subprocess.run(
                [PROGRAM, "out.wav"],
                input=data,
                capture_output=True,
                cwd=room,
                timeout=SECONDS,
                check=False,
            )
            self.assertEqual((ran.returncode, ran.stderr), (0, b""), ran.stdout)
            file = Path(room, "out.wav").read_bytes()
        self.assertEqual(list(wav.samples_of(file, wav.form_of(file))), wanted)
        return wanted

    def test_noise_in_a_room_of_noise(self) -> None:
        rng = random.Random("noise")
        response = [rng.randint(-(2**17), 2**17) for _ in range(LONGEST)]
        sound = [rng.randint(-ONE, ONE) for _ in range(FRAMES)]
        self.assertGreater(len(set(self.look_at(response, sound, ONE))), FRAMES // 2)

    def test_the_greatest_sums_that_come_back(self) -> None:
        half = LONGEST // 2
        rng = random.Random("sums")
        sound = [HIGH] * (FRAMES - 1000) + [HIGH - rng.randint(0, 9) for _ in range(1000)]
        found = self.look_at([LOUDEST] * half + [-LOUDEST] * half, sound, ONE // 256)
        self.assertEqual((found[half], found[LONGEST]), (2**22, 0))
        below = [-1 - value for value in sound]
        found = self.look_at([LOUDEST] * half + [-LOUDEST] * half, below, ONE // 256)
        self.assertEqual((found[half], found[LONGEST]), (-(2**22), 0))

    def test_ends_of_the_ranges(self) -> None:
        rng = random.Random("ends")
        response = [0] * LONGEST
        for _ in range(9):
            response[rng.randrange(LONGEST)] = rng.choice([LOUDEST, -LOUDEST, 1, -1])
        response[0], response[-1] = LOUDEST, -LOUDEST
        sound = [rng.choice([LOW, HIGH, 0, 1, -1, ONE, -ONE]) for _ in range(FRAMES)]
        self.look_at(response, sound, ONE // 256)


def plain(response: list[int], heard: Sequence[int]) -> int:
    """The value after these frames, the newest last."""
    return value_of(sum(tap * frame for tap, frame in zip(response, reversed(heard))))


class Second(unittest.TestCase):
    """The second calculation, which makes its sums by products of long numbers."""

    def test_its_sums_are_plain_ones(self) -> None:
        for number in range(12):
            rng = random.Random(f"plain {number}")
            length = rng.choice([1, 2, 127, 128, 129, 300])
            ends = [LOUDEST, -LOUDEST, 0, 1, -1]
            response = [rng.choice([*ends, rng.randint(-ONE, ONE)]) for _ in range(length)]
            buffer = Buffer(1, length, RATE)
            buffer.written = {(0, at): tap for at, tap in enumerate(response)}
            call = {"op": "createConvolver", "as": "room", "disableNormalization": True}
            node = Convolver(call, buffer, RATE)
            heard: list[int] = []
            quantum = rng.choice(QUANTA)
            for _ in range(4):
                block = [
                    rng.choice([LOW, HIGH, 0, 1, -1, rng.randint(LOW, HIGH)])
                    for _ in range(quantum)
                ]
                (found,) = node.filtered([block], quantum)
                wanted = []
                for frame in block:
                    heard.append(frame)
                    wanted.append(plain(response, heard))
                self.assertEqual(list(found), wanted)


if __name__ == "__main__":
    unittest.main()
