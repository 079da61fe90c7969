"""What a page of a report shows: files with their sounds, and one session or context with all that
is known of it."""

import base64
import dataclasses
import functools
import os
import urllib.parse

from waplay_tools.reporting.explained import Explained
from waplay_tools.reporting.following import Session
from waplay_tools.reporting.text import decimal
from waplay_tools.reporting.unheard import Unheard
from waplay_tools.reporting.wav_samples import Differences, Sound

MOST_BYTES = 3 * 2**20  # of the files that are put into one page
MOST_WHOLE = 64 * 2**20  # of those of a page that is to have them all


@dataclasses.dataclass
class File:
    """A WAV file: its path, its bytes and its samples, and what it is called in the page."""

    path: str
    data: bytes
    sound: Sound
    label: str = "The sound"


@dataclasses.dataclass
class Loss:
    """What a recording lost: a line of the recorder's report."""

    grade: str
    kind: str
    told: str
    calls: list[int] = dataclasses.field(default_factory=list)


@dataclasses.dataclass
class Content:
    """A session, or a context of a take. The title is empty where a page has only one; the lines
    are what else the recorder tells."""

    session: Session
    title: str = ""
    wav_name: str | None = None
    sound: File | None = None
    other: File | None = None
    differences: Differences | None = None
    losses: list[Loss] = dataclasses.field(default_factory=list)
    verdict: str = ""
    lines: list[str] = dataclasses.field(default_factory=list)
    frozen: set[str] = dataclasses.field(default_factory=set)  # names of nodes
    # The words that name its script, its transcript and its file in a command, and the folder in
    # which they do, if that is told.
    paths: list[str] = dataclasses.field(default_factory=list)
    paths_of: str = ""
    explained: Explained | None = None

    @property
    def rate(self) -> int:
        """Frames a second of its context."""
        return self.session.script.context("rate")

    @property
    def frames(self) -> int:
        """How many frames it has."""
        return self.sound.sound.frames if self.sound else max(1, self.session.length)

    @functools.cached_property
    def unheard(self) -> Unheard | None:
        """What is not heard of it; None where it has no samples."""
        return Unheard(self.session) if self.session.end().word == "completed" else None


class Room:
    """How many bytes of sounds a page may still hold, and the folder in which it will stand, from
    which it names those that are too long."""

    def __init__(self, folder: str = ".", most: int | None = None) -> None:
        self.folder = folder
        self.left = MOST_BYTES if most is None else most

    def take(self, data: bytes) -> bool:
        """Whether there is room for a file; then it has less afterwards."""
        if len(data) > self.left:
            return False
        self.left -= len(data)
        return True

    def link(self, path: str) -> str:
        """The address of a file beside the page."""
        return urllib.parse.quote(os.fsencode(os.path.relpath(path, self.folder)))


def data_url(kind: str, data: bytes) -> str:
    """Bytes as an address that holds them."""
    return f"data:{kind};base64,{base64.b64encode(data).decode()}"


def value_text(sample: float, sound: Sound) -> str:
    """A sample as a part of 1."""
    return decimal(sample, sound.full)


def level(value: float) -> str:
    """A magnitude with three digits, as people write it."""
    return f"{value:.3g}".replace("e-0", "e-").replace("-", "\u2212")
