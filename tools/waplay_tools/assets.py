"""Makes the WAV files that the scripts in examples/ decode, from whole numbers alone.

Samples are made of three kinds of waves. A triangle of a period p is at frame f the distance of
f mod p from p / 2, in units of p / 4, less 1. A sine is made of two parabolas, which comes near
enough. Noise is the number that comes after the one before it by s -> (1103515245 s + 12345)
mod 2^31, of which the upper 15 bits count. Quotients are rounded down, so the same bytes come out
on every machine.
"""

import argparse
import sys
from collections.abc import Callable, Iterator
from dataclasses import dataclass

from waplay_tools import wav
from waplay_tools.places import EXAMPLES

FULL = 2**15  # 1.0 in units of a sample of 16 bits
TURN = 2**16  # a whole turn of a sine


@dataclass(frozen=True)
class Asset:
    """A file: its frames a second, its bits a sample, and what makes its channels."""

    rate: int
    bits: int
    make: Callable[[], list[list[int]]]


# Waves.


def triangle(frame: int, period: int, height: int) -> int:
    """A triangle that is `height` high, of an even period."""
    return height * (4 * abs(frame % period - period // 2) - period) // period


def sine(turn: int) -> int:
    """The sine of so many parts of a turn, in units of FULL: a parabola for a half, bent once."""
    x = TURN // 2 - turn % TURN
    arch = x * (TURN // 2 - abs(x)) // 2**13
    return arch + 225 * (arch * abs(arch) // FULL - arch) // 1000


def tone(millihertz: int, rate: int, frames: int) -> list[int]:
    """A sine of this frequency."""
    step = millihertz * 2**32 // (1000 * rate)
    return [sine(frame * step // TURN) for frame in range(frames)]


def noise(frames: int, height: int) -> list[int]:
    """So many numbers from -height up to height - 1."""
    values, state = [], 1
    for _ in range(frames):
        state = (1103515245 * state + 12345) % 2**31
        values.append((state // 2**16 - 2**14) * height // 2**14)
    return values


# What becomes of them.


def faded(value: int, frame: int, length: int) -> int:
    """The value as it is at this frame of so many, where it grows weaker in a straight line."""
    return value * (length - frame) // length


def decay(frames: int, half: int) -> Iterator[int]:
    """Levels from FULL down, which lose a half in about so many frames, and reach 0 at the end."""
    level = 2**30
    for frame in range(frames):
        yield faded(level // FULL, frame, frames)
        level -= level * 7 // (10 * half)


def struck(wave: list[int], half: int, height: int) -> list[int]:
    """The wave as it fades after a stroke, and begins with this height."""
    levels = decay(len(wave), half)
    return [value * level // FULL * height // FULL for value, level in zip(wave, levels)]


def mixed(*waves: list[int]) -> list[int]:
    """The sum of waves, as long as the longest."""
    length = max(map(len, waves))
    padded = (wave + [0] * (length - len(wave)) for wave in waves)
    return [sum(values) for values in zip(*padded)]


# The files of 8,000 frames a second.


def drum_loop() -> list[list[int]]:
    """Four beats, each in as many frames. The kick's period grows, so it falls."""
    kick = [faded(triangle(f, 80 + 2 * (f // 50), 110), f, 1000) for f in range(1000)]
    snare = [faded(value, f, 800) for f, value in enumerate(noise(800, 90))] + [0] * 200
    hat = [faded(value, f, 200) for f, value in enumerate(noise(200, 50))] + [0] * 800
    return [kick + hat + snare + hat]


def small_bell() -> list[list[int]]:
    """Two notes of a bell, struck once."""
    notes = [triangle(f, 10, 12000) + triangle(f, 14, 9000) for f in range(1600)]
    return [[faded(value, f, 1600) for f, value in enumerate(notes)]]


def chord() -> list[list[int]]:
    """One chord on the left, and another one on the right."""
    sides = (40, 32, 26), (36, 30, 24)
    return [
        [faded(sum(triangle(f, period, 2000000) for period in side), f, 800) for f in range(800)]
        for side in sides
    ]


# The drums of 44,100.


def kick() -> list[list[int]]:
    """A drum whose pitch falls from 190 Hz to 45 Hz, with a click at its front."""
    turn, wave, above = 0, [], 145_000
    for _ in range(12000):
        turn += (45_000 + above) * 2**16 // 44100
        above -= above // 1100
        wave.append(sine(turn // 1000))
    return [mixed(struck(wave, 2600, 27000), struck(noise(160, FULL), 40, 4000))]


def snare() -> list[list[int]]:
    """Noise, and a skin of 185 Hz below it."""
    skin = struck(tone(185_000, 44100, 9000), 1100, 11000)
    return [mixed(struck(noise(9000, FULL), 1500, 13000), skin)]


def bright(frames: int, height: int) -> list[int]:
    """Noise without its low part: of each number the one before it is taken away."""
    values = noise(frames + 1, height)
    return [(value - before) // 2 for before, value in zip(values, values[1:])]


def hat() -> list[list[int]]:
    """Bright noise, cut short."""
    return [struck(bright(3000, FULL), 420, 11000)]


def beat() -> list[list[int]]:
    """A second of four eighths: kick, hat, snare and hat."""
    one, two, three = (make()[0] for make in (kick, hat, snare))
    eighths = (one, two, three, two)
    return [[value for drum in eighths for value in (drum + [0] * 11025)[:11025]]]


# The instruments.


def pick() -> list[list[int]]:
    """A burst that sets a string going, as long as the longest string: noise, from which the same
    is taken away 64 frames later, as where a string is plucked near its end."""
    burst = noise(400, 16000)
    return [[value - before for value, before in zip(burst, [0] * 64 + burst)]]


def saw() -> list[list[int]]:
    """One period of a saw of 24 partials. At the rates 2, 3, 4 it has the notes of a horn."""
    frames = 1604
    return [
        [
            sum(sine(frame * partial * TURN // frames) // partial for partial in range(1, 25))
            * 3
            // 8
            for frame in range(frames)
        ]
    ]


# The partials of a bell: their thousandths of its frequency, heights, and half lives in frames.
PARTIALS = (
    (500, 5200, 16000),
    (1000, 6600, 9000),
    (1200, 5200, 7000),
    (1500, 2600, 4000),
    (2000, 6200, 5000),
    (3010, 2600, 2400),
    (4100, 1600, 1200),
)


def bell(hertz: int) -> Callable[[], list[list[int]]]:
    """A bell of this frequency, with the partials of church bells: one at a half, a minor third."""

    def make() -> list[list[int]]:
        """The sum of the partials, each struck at once and fading by itself."""
        waves = (
            struck(tone(hertz * part, 44100, 40000), half, height)
            for part, height, half in PARTIALS
        )
        return [mixed(*waves)]

    return make


def marimba() -> list[list[int]]:
    """A wooden bar: a note, its fourth partial, and a knock."""
    note = struck(tone(220_000, 48000, 24000), 3600, 17000)
    upper = struck(tone(880_000, 48000, 24000), 900, 5500)
    return [mixed(note, upper, struck(tone(2_200_000, 48000, 3000), 250, 4000))]


def pad() -> list[list[int]]:
    """A chord that loops: all frequencies are even, so half a second has whole periods of them."""
    sides = (220, 276, 330, 440, 554), (222, 278, 332, 438, 556)
    return [
        [value * 5 // 32 for value in mixed(*(tone(hertz * 1000, 44100, 22050) for hertz in side))]
        for side in sides
    ]


def slow() -> list[list[int]]:
    """One period of a sine, a fifth of a second long, that moves other values."""
    return [[sine(frame * TURN // 8820) * 32767 // FULL for frame in range(8820)]]


def choir() -> list[list[int]]:
    """A voice of 20 partials of 110 Hz, which goes from a dark vowel to a bright one."""
    frames, waves = 48000, []
    for partial in range(1, 21):
        dark, bright = (max(0, 12 - 2 * abs(partial - at)) for at in (3, 9))
        wave = tone(110_000 * partial, 48000, frames)
        waves.append(
            [
                value * (dark * (frames - frame) + bright * frame) // frames // 72
                for frame, value in enumerate(wave)
            ]
        )
    return [mixed(*waves)]


def pulse() -> list[list[int]]:
    """What a voice sets out from: a push of air that grows, and stops at once. The loop around it
    makes the note."""
    return [[30000 * frame * frame // 2304 for frame in range(48)] + [15000, 5000] + [0] * 110]


# The first echoes of a room: when they come, in frames, and how high they are.
ECHOES = ((177, 15000), (263, -11000), (418, 10000), (599, -8000), (761, 7000), (1034, -6000))


def room() -> list[list[int]]:
    """A second of a room, as it answers a clap: some walls one by one, then all of them at once,
    duller than they were: of each number the mean with the one before it."""
    values = noise(15601, FULL)
    dull = [(value + before) // 2 for before, value in zip(values, values[1:])]
    answer = [0] * 400 + struck(dull, 1500, 9000)
    for frame, height in ECHOES:
        answer[frame] += height
    return [answer]


ASSETS = {
    "drum_loop.wav": Asset(8000, 8, drum_loop),
    "bell.wav": Asset(8000, 16, small_bell),
    "chord.wav": Asset(8000, 24, chord),
    "beat.wav": Asset(44100, 16, beat),
    "kick.wav": Asset(44100, 16, kick),
    "snare.wav": Asset(44100, 16, snare),
    "hat.wav": Asset(44100, 16, hat),
    "pick.wav": Asset(44100, 16, pick),
    "saw.wav": Asset(44100, 16, saw),
    "pad.wav": Asset(44100, 16, pad),
    "slow.wav": Asset(44100, 16, slow),
    "bell_1.wav": Asset(44100, 16, bell(880)),
    "bell_2.wav": Asset(44100, 16, bell(784)),
    "bell_3.wav": Asset(44100, 16, bell(698)),
    "bell_4.wav": Asset(44100, 16, bell(587)),
    "marimba.wav": Asset(48000, 16, marimba),
    "choir.wav": Asset(48000, 16, choir),
    "pulse.wav": Asset(16000, 16, pulse),
    "room.wav": Asset(16000, 16, room),
}


def file_of(asset: Asset, channels: list[list[int]]) -> bytes:
    """The file of an asset with these channels. In a file samples of 8 bits count from 0 up."""
    offset = 128 if asset.bits == 8 else 0
    stored = [[value + offset for value in samples] for samples in channels]
    return wav.wav_bytes(wav.Form(len(stored), asset.rate, asset.bits), stored)


def main() -> int:
    """Writes the files, or looks at those that are there."""
    words = argparse.ArgumentParser(
        prog="tools/assets",
        description=__doc__,
        formatter_class=argparse.RawDescriptionHelpFormatter,
    )
    words.add_argument(
        "--check",
        action="store_true",
        help="write nothing; name each file that is otherwise (status 1 if any)",
    )
    words.add_argument(
        "--sums",
        action="store_true",
        help="write nothing; print size, frames, greatest sample and sums of each",
    )
    arguments = words.parse_args()
    wrong = 0
    for name, asset in ASSETS.items():
        channels = asset.make()
        data = file_of(asset, channels)
        path = EXAMPLES / name
        if arguments.sums:
            peak = max(abs(value) for channel in channels for value in channel)
            size = f"{len(data)} bytes, {len(channels[0])} frames"
            print(f"{name} {size}, peak {peak}, sums", *(sum(it) for it in channels))
        elif not arguments.check:
            path.write_bytes(data)
        elif not path.exists() or path.read_bytes() != data:
            wrong += 1
            print(f"{path}: other bytes than tools/assets makes")
    return 1 if wrong else 0


if __name__ == "__main__":
    sys.exit(main())
