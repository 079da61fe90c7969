"""What was recorded of a context: its script, its assets, what the browser rendered."""

import array
import base64
import dataclasses
import json
import re
import struct
import sys
from collections.abc import Callable
from pathlib import Path
from typing import Any


def words_of(text: str, kind: str) -> array.array:
    """The numbers of a base64 text of little-endian words: i for whole numbers, f for floats."""
    words = array.array(kind, base64.b64decode(text))
    if sys.byteorder == "big":
        words.byteswap()
    return words


def words_in_chunks(count: int, kind: str, chunk_from: Callable[[int], str]) -> array.array:
    """Numbers that come in pieces: `chunk_from` gives the text of those from a first one on."""
    words = array.array(kind)
    while len(words) < count:
        words += words_of(chunk_from(len(words)), kind)
    return words


def interleaved(channels: list[array.array]) -> array.array:
    """The samples of all channels, frame by frame."""
    words = array.array(channels[0].typecode, bytes(4 * len(channels) * len(channels[0])))
    for number, samples in enumerate(channels):
        words[number::len(channels)] = samples
    return words


def wav_of_words(words: array.array, channels: int, rate: int, tag: int) -> bytes:
    """A WAV file of words of 32 bits: tag 1 for whole numbers, 3 for floats."""
    if sys.byteorder == "big":
        words = words[:]
        words.byteswap()
    data = words.tobytes()
    extra = struct.pack("<H", 0) if tag == 3 else b""  # the size of an extension
    form = struct.pack("<HHIIHH", tag, channels, rate, rate * channels * 4, channels * 4, 32)
    form += extra
    fact = struct.pack("<4sII", b"fact", 4, len(words) // channels) if tag == 3 else b""
    body = b"WAVE" + struct.pack("<4sI", b"fmt ", len(form)) + form + fact
    body += struct.pack("<4sI", b"data", len(data)) + data
    return b"RIFF" + struct.pack("<I", min(len(body), 2**32 - 1)) + body


def greatest(channels: list[array.array]) -> float:
    """The greatest magnitude of all samples."""
    return max((max(max(samples), -min(samples)) for samples in channels if samples), default=0.0)


def clipped(channels: list[array.array]) -> int:
    """How many samples are outside -1 to 1."""
    if greatest(channels) <= 1:
        return 0
    return sum(abs(sample) > 1 for samples in channels for sample in samples)


@dataclasses.dataclass
class Asset:
    """A buffer's samples as a file."""

    path: str
    channels: int
    length: int
    rate: int
    words: array.array


@dataclasses.dataclass
class Recorded:
    """What the browser tells of one context. Contexts are numbered through all frames."""

    number: int
    script: str
    lines: list[str]
    verdict: str
    kinds: list[dict[str, Any]]
    outcomes: dict[int, str]
    assets: list[Asset] = dataclasses.field(default_factory=list)
    rendered: list[array.array] | None = None
    rate: int = 0
    troubles: list[str] = dataclasses.field(default_factory=list)  # of its page
    frozen: list[dict[str, str]] = dataclasses.field(default_factory=list)  # name, kind and why
    live: float = 1.0  # how much of the sound comes through nothing that is frozen
    calls: int = 0

    @property
    def grades(self) -> set[str]:
        """The grades of its losses."""
        return {loss["grade"] for loss in self.kinds}

    @property
    def is_silent(self) -> bool:
        """Whether the browser rendered samples, and each of them is 0."""
        return bool(self.rendered) and greatest(self.rendered or []) == 0

    @property
    def seconds(self) -> float:
        """How long the piece is."""
        place = self.script.index('"context": ') + len('"context": ')
        context, _ = json.JSONDecoder().raw_decode(self.script, place)
        return context["length"] / context["rate"] if context["rate"] else 0.0

    def kind_of(self, grade: str) -> str:
        """The first kind of loss that has a grade."""
        return next(loss["kind"] for loss in self.kinds if loss["grade"] == grade)

    def worst_lines(self) -> list[str]:
        """The lines of the losses that change what is heard."""
        return [line for line in self.lines if line.startswith(("refused ", "silent ", "heard "))]

    def sound_lines(self) -> list[str]:
        """A line on samples that are cut off in a WAV file of whole numbers."""
        count = clipped(self.rendered or [])
        return [f"clipped: {count} samples are outside -1 to 1, and a WAV file of the program has "
                "the nearest that it can hold"] if count else []

    def files(self) -> dict[str, bytes]:
        """All files but the report, by their names."""
        files = {f"{self.number}.json": self.script.encode()}
        for asset in self.assets:
            files[asset.path] = wav_of_words(asset.words, asset.channels, asset.rate, 1)
        if self.rendered:
            files[f"{self.number}.browser.wav"] = wav_of_words(
                interleaved(self.rendered), len(self.rendered), self.rate, 3)
        return files

    def write(self, folder: Path) -> None:
        """Writes all but the report."""
        for name, data in self.files().items():
            (folder / name).write_bytes(data)

    def write_report(self, folder: Path, further: list[str]) -> None:
        """Writes the report: what was lost, what the page did wrong, and lines of a replay."""
        lines = [*self.lines, *self.sound_lines(), *self.troubles, *further,
                 f"verdict: {self.verdict}"]
        text = "".join(f"{line}\n" for line in lines)
        (folder / f"{self.number}.report.txt").write_text(text, encoding="utf-8")


def take_out(ask: Callable[[str], Any], inside: int, number: int) -> Recorded | None:
    """A context of a document, by its number inside of it; None where it did not start rendering.
    It is called `number` outside. `ask` gives the value of an expression in the document."""
    result = ask(f"waplayRecorder.result({inside}, {number})")
    if not result["started"]:
        return None
    recorded = Recorded(number, result["script"], result["lines"], result["verdict"],
                        result["kinds"], dict(result["outcomes"]), frozen=result["frozen"],
                        live=result["live"], calls=result["calls"])
    for place, asset in enumerate(result["assets"]):
        count = asset["channels"] * asset["length"]
        words = words_in_chunks(
            count, "i", lambda first: ask(f"waplayRecorder.assetChunk({place}, {first})"))
        recorded.assets.append(Asset(**asset, words=words))
    shape = result["rendered"]
    if shape:
        recorded.rate = int(shape["rate"])
        recorded.rendered = [
            words_in_chunks(shape["length"], "f", lambda first: ask(
                f"waplayRecorder.renderedChunk({channel}, {first})"))
            for channel in range(shape["channels"])]
    recorded.lines[0] = re.sub(r"^context .+?:", f"context {number}:", recorded.lines[0])
    return recorded


def rename(recorded: Recorded) -> None:
    """Puts the number of a context in the place of an @, where it was not known in the page."""
    for asset in recorded.assets:
        path = asset.path.replace("@-", f"{recorded.number}-", 1)
        recorded.script = recorded.script.replace(f'"path":"{asset.path}"', f'"path":"{path}"')
        asset.path = path
