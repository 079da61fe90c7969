"""Compares what wav_io::decode gives for WAV files with a second calculation.

The files are made by Python's module wave and, where it is found, by sox: 8, 16, 24 and 32 bits, 1
to 8 channels, odd sizes, LIST and fact chunks, WAVE_FORMAT_EXTENSIBLE. Others are those with bytes
changed, left out or put in, chunks moved and ends cut off. Of each file the answer is compared:
rate, channels, frames and a digest of all samples, or the fault with its place.

It prints a line for each difference, then how often each answer came up, and last how many files
differ. The status is 0 where none does and each kind of answer came up.
"""

import argparse
import collections
import io
import os
import random
import shutil
import struct
import subprocess
import sys
import tempfile
import wave
from collections.abc import Callable

from waplay_tools.expecting.wav_reading import PCM, WavFault, recording_of
from waplay_tools.places import TOP

PROGRAM = TOP / "crates" / "wav_dump" / "out" / "wav_dump"
ANSWERS = "samples NotRiff NoFormat UnknownTag BadBits BadShape NoData DataFirst".split()
FACTOR = 6364136223846793005


# The answers.


def line(data: bytes) -> str:
    """The line that the program has to write for a file."""
    try:
        recording = recording_of(data)
    except WavFault as fault:
        return str(fault)
    digest = 0
    for channel in range(recording.channels):
        for sample in recording.samples(channel, range(recording.frames)):
            digest = (digest * FACTOR + sample % 2**32) % 2**64
    return f"{recording.rate} {recording.channels} {recording.frames} {digest}"


# The files.


def chunk(name: bytes, body: bytes, padded: bool = True) -> bytes:
    """A chunk of a RIFF file, which may lack the zero byte behind an odd body."""
    return name + struct.pack("<I", len(body)) + body + (b"\0" if padded and len(body) % 2 else b"")


def riff(*chunks: bytes) -> bytes:
    """A WAV file of these chunks."""
    body = b"WAVE" + b"".join(chunks)
    return b"RIFF" + struct.pack("<I", len(body)) + body


def made_by_wave(rng: random.Random) -> bytes:
    """A file of random shape and samples that Python's module wave writes."""
    width, channels = rng.choice((1, 2, 3, 4)), rng.randint(1, 8)
    out = io.BytesIO()
    with wave.open(out, "wb") as file:
        file.setnchannels(channels)
        file.setsampwidth(width)
        file.setframerate(rng.choice((8000, 44100, 48000, 96000, 11025)))
        file.writeframes(rng.randbytes(rng.randint(0, 40) * width * channels))
    return out.getvalue()


def made_by_hand(rng: random.Random, rate: int | None = None) -> bytes:
    """With other chunks around, with an extension, with sizes that are odd or promise too much. The
    rate is one of two, where none is given."""
    width, channels = rng.choice((1, 2, 3, 4)), rng.randint(1, 8)
    bits, block = 8 * width, width * channels
    rate = rate or rng.choice((44100, 48000))
    fields = struct.pack("<HIIHH", channels, rate, rng.getrandbits(32), block, bits)
    form = rng.choice(("plain", "longer", "extended"))
    if form == "extended":
        body = (
            b"\xfe\xff"
            + fields
            + struct.pack("<HHI", 22, bits, rng.getrandbits(8))
            + PCM
            + rng.randbytes(rng.choice((0, 0, 3)))
        )
    else:
        body = (
            b"\x01\0"
            + fields
            + (rng.randbytes(rng.choice((1, 2, 24))) if form == "longer" else b"")
        )
    samples = rng.randbytes(rng.randint(0, 24) * block + rng.choice((0, 0, 1, block // 2)))

    def others() -> list[bytes]:
        """Some chunks that are to be passed over."""
        names = (b"LIST", b"fact", b"bext", b"Data", b"fmt\0")
        return [
            chunk(rng.choice(names), rng.randbytes(rng.randint(0, 9)))
            for _ in range(rng.choice((0, 0, 1, 3)))
        ]

    data = chunk(b"data", samples, rng.random() < 0.7)
    if rng.random() < 0.2:
        data = b"data" + struct.pack("<I", rng.choice((2**32 - 1, len(samples) + 5))) + samples
    parts = [*others(), chunk(b"fmt ", body), *others(), data, *others()]
    if rng.random() < 0.1:
        parts.insert(rng.randrange(len(parts) + 1), rng.choice(parts))
    if rng.random() < 0.1:
        cut = (
            rng.choice((b"fmt ", b"data", b"LIST"))
            + struct.pack("<I", rng.choice((2**32 - 1, 2000)))
            + rng.randbytes(5)
        )
        parts.insert(rng.randrange(len(parts) + 1), cut)
    if rng.random() < 0.1:
        rng.shuffle(parts)
    return riff(*parts)


def made_by_sox(folder: str) -> list[bytes]:
    """Some files of sox, of 1 to 8 channels and every width; none where it is not found."""
    sox = shutil.which("sox")
    if not sox:
        return []
    files = []
    for channels in range(1, 9):
        for bits in (8, 16, 24, 32):
            path = os.path.join(folder, f"{channels}-{bits}.wav")
            encoding = "unsigned-integer" if bits == 8 else "signed-integer"
            words = [
                sox,
                "-n",
                "-r",
                "48000",
                "-c",
                str(channels),
                "-b",
                str(bits),
                "-e",
                encoding,
                path,
            ]
            subprocess.run(
                words + ["synth", "23s", "whitenoise"], check=True, stderr=subprocess.DEVNULL
            )
            with open(path, "rb") as file:
                files.append(file.read())
    return files


# Two of three files are made by hand.
MAKES: list[Callable[[random.Random], bytes]] = [made_by_wave, made_by_hand, made_by_hand]


def mutated(rng: random.Random, data: bytes) -> bytes:
    """The file with one to three changes, most of them near its start, where its fields are."""
    data = bytearray(data)
    for _ in range(rng.randint(1, 3)):
        place = (
            rng.randrange(len(data) + 1)
            if rng.random() < 0.3
            else rng.randrange(min(90, len(data)) + 1)
        )
        change = rng.choice(("byte", "bit", "small", "cut", "out", "in", "size", "name"))
        if change == "cut":
            del data[place:]
        elif change == "out":
            del data[place : place + rng.randint(1, 9)]
        elif change == "in":
            data[place:place] = rng.choice(
                (rng.randbytes(rng.randint(1, 9)), chunk(b"junk", rng.randbytes(rng.randint(0, 5))))
            )
        elif place < len(data):
            if change == "byte":
                data[place] = rng.getrandbits(8)
            elif change == "bit":
                data[place] ^= 1 << rng.randrange(8)
            elif change == "small":
                data[place] = (data[place] + rng.choice((1, 255))) % 256
            elif change == "size":
                data[place : place + 4] = struct.pack(
                    "<I", rng.choice((0, 1, 15, 16, 39, 40, 2**31, 2**32 - 1, 2**32 - 9))
                )
            else:
                data[place : place + 4] = rng.choice((b"data", b"fmt ", b"RIFF", b"WAVE", b"LIST"))
    return bytes(data)


def made(count: int, seed: int) -> list[bytes]:
    """So many files of a seed: those of sox, and made ones, of which most are changed."""
    with tempfile.TemporaryDirectory() as folder:
        sources = made_by_sox(folder)
    print(f"files of sox: {len(sources)}")
    files = list(sources)
    while len(files) < count:
        rng = random.Random(f"{seed} {len(files)}")
        data = rng.choice(MAKES)(rng)
        if sources and rng.random() < 0.1:
            data = rng.choice(sources)
        files.append(mutated(rng, data) if rng.random() < 0.75 else data)
    return files[:count]


def main() -> int:
    """Compares files, or prints answers."""
    parser = argparse.ArgumentParser(
        prog="tools/wav-check",
        description=__doc__,
        formatter_class=argparse.RawDescriptionHelpFormatter,
    )
    parser.add_argument(
        "--count", type=int, default=20000, help="how many files, 20,000 by default"
    )
    parser.add_argument("--seed", type=int, default=1, help="the seed of the files, 1 by default")
    parser.add_argument(
        "--program",
        default=PROGRAM,
        metavar="FILE",
        help="the program, that which the gate leaves in crates/wav_dump/out by default",
    )
    parser.add_argument(
        "--line",
        nargs="+",
        metavar="FILE",
        help="print the answers of the second calculation to these files alone",
    )
    words = parser.parse_args()
    if words.line:
        for path in words.line:
            with open(path, "rb") as file:
                print(line(file.read()))
        return 0
    files = made(words.count, words.seed)
    given = b"".join(struct.pack("<I", len(data)) + data for data in files)
    run = subprocess.run([words.program], input=given, stdout=subprocess.PIPE, check=True)
    found = run.stdout.decode().splitlines()
    wrong = abs(len(found) - len(files))
    times: collections.Counter[str] = collections.Counter()
    for number, (data, answer) in enumerate(zip(files, found)):
        want = line(data)
        times[want.split("(")[0] if "(" in want else "samples"] += 1
        if answer != want:
            wrong += 1
            print(f"file {number}: {answer} in place of {want}: {data[:96].hex()}")
    for answer in ANSWERS:
        print(f"{answer}: {times[answer]}")
    print(f"{wrong} of {len(files)} files differ")
    return 1 if wrong or not all(times[answer] for answer in ANSWERS) else 0


if __name__ == "__main__":
    sys.exit(main())
