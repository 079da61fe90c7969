"""Pages of sessions, of takes, of two runs and of an archive, for the tests of how they are
shown."""

import array
import json
import os
from collections.abc import Iterator
from pathlib import Path
from typing import Any, NamedTuple

import fixtures
from test_report_take import REPORT, take
from waplay_tools.archive import summary
from waplay_tools.archive.adding import Program
from waplay_tools.archive.verifying import Result
from waplay_tools.expecting import sessions
from waplay_tools.recorder.results import wav_of_words
from waplay_tools.reporting.wav_samples import sound_of

MANY_EVENTS = 13_000
BEYOND = 1.5  # the samples of a browser's sound that no file of waplay can hold


class Shown(NamedTuple):
    """What a page of a session is made of."""

    name: str
    script: bytes
    transcript: str
    sound: bytes | None = None
    other: bytes | None = None
    explained: tuple[str, ...] = ()  # the frame and the channel


def sessions_shown() -> Iterator[Shown]:
    """The sessions of which there is a page."""
    data, text, sound = fixtures.resumed()
    other = bytearray(sound[:-600])  # 200 frames fewer
    other[44 + 3 * 700] ^= 0x55
    other[44 + 3 * 900 + 1] ^= 0x33
    wide = fixtures.script([{"op": "startRendering"}], 32, 30000)
    quiet = fixtures.wav(
        [[(frame * channel) % 999 for frame in range(30000)] for channel in range(32)]
    )
    yield Shown("resumed", data, text, sound, bytes(other))
    yield Shown("stalled", *fixtures.suspended())
    yield Shown("hostile", *fixtures.hostile())
    yield Shown("ended", *fixtures.session_of_case("hi_hat_choked"))
    yield Shown("decoded", *fixtures.session_of_case("drum_loop"))
    yield Shown("refused", *fixtures.session_of_case("refused_calls"))
    yield Shown("unheard", *unheard())
    lines = "1 pending\n1 resolved\ncomplete 30000\nend completed\n"
    yield Shown("wide", wide, lines, quiet)
    yield Shown("x" * 120, b'{"version": 1, "context": [}', "script: BadJson\n")
    yield Shown("fault", fixtures.script([{"op": "<b>" * 100}]), "script: 1 op UnknownOp\n")
    yield Shown("explained", *fixtures.session_of_case("feedback_delay"), explained=("2000", "0"))
    idle = fixtures.script([{"op": "createGain", "as": "g" * 64}])
    yield Shown("idle", idle, "1 ok\nend idle\n")


def unheard() -> tuple[bytes, str, bytes]:
    """A session of which much is not heard: reads, refusals, and nodes with long names."""
    names = ["m" * 64, *(f"meter{at}" for at in range(30))]
    calls: list[dict[str, Any]] = [{"op": "createOscillator", "as": "o"}]
    for name in names:
        calls += [{"op": "createGain", "as": name}, {"op": "readTime"},
                  {"op": "createDelay", "as": name}]
    late = {"op": "startRendering", "then": [{"op": "readState"}]}
    data = fixtures.script([*calls, {"op": "suspend", "time": 0, "then": calls[:1]}, late])
    _, text, session = sessions.replayed(data)
    assert session is not None
    return data, text, sessions.wav_bytes(session)


def loud(calls: list[dict[str, Any]]) -> list[dict[str, Any]]:
    """Calls of a piece with a pluck, a refused compressor and an edit while it plays."""
    return [
        {"op": "createConstantSource", "as": "c", "offset": 2**22},
        {"op": "createGain", "as": "fade"},
        {"op": "connect", "from": "c", "to": "fade"},
        {"op": "connect", "from": "fade", "to": "destination"},
        {"op": "linearRampToValueAtTime", "node": "fade", "param": "gain", "value": 0,
         "time": 9600},
        {"op": "start", "node": "c"},
        {"op": "suspend", "time": 4800, "then": [
            {"op": "disconnect", "from": "fade"},
            {"op": "connect", "from": "c", "to": "destination"}, {"op": "resume"}]},
        *calls,
        {"op": "startRendering"},
    ]


def write_take(path: str, data: bytes, level: float) -> bytes:
    """Writes a take of a script, of which the browser rendered this level for a while. Gives what
    the browser rendered."""
    name = os.path.basename(path)
    os.mkdir(path)
    take(path, data)
    sound = sound_of(fixtures.read(path, "1.wav"), "it")
    samples = [value / 2**23 for pair in zip(*sound.channels) for value in pair]
    samples[200:400] = [level] * 200
    rendered = wav_of_words(array.array("f", samples), 2, 48000, 3)
    fixtures.write(path, "1.browser.wav", rendered)
    fixtures.write(path, "1.report.txt", REPORT)
    fixtures.write(path, "take.json", json.dumps({"page": "x" * 90, "title": name}))
    return rendered


def takes_shown(folder: str, events: int = MANY_EVENTS) -> Iterator[tuple[str, str]]:
    """The pages of takes, of two runs and of an archive: of each its name and its path. The long
    take has so many events."""
    names = [f"level{at}" for at in range(50)]
    many = [{"op": "createGain", "as": name} for name in names]
    many += [{"op": "setValueAtTime", "node": names[at % 50], "param": "gain", "value": at,
              "time": 9600 + at} for at in range(events)]
    refused = [{"op": "createDynamicsCompressor", "as": "k"},
               {"op": "connect", "from": "c", "to": "k"}]
    silent = [{"op": "createDynamicsCompressor", "as": "k"}, {"op": "startRendering"}]
    for name, calls, length, level in (
        ("take", loud(refused), 9600, 0.75), ("long", loud(many), 24000, 0.75),
        ("beside", loud([]), 240_000, BEYOND), ("silent", silent, 9600, 0.75),
    ):
        path = os.path.join(folder, name)
        data = fixtures.script(calls, 2, length)
        rendered = write_take(path, data, level)
        if name == "take":
            take(path, data, rendered, number=2)
        page = os.path.join(path, "report.html")
        assert fixtures.run("report", path, "-o", page).returncode == 0
        yield name, page
    page = os.path.join(folder, "compared.html")
    words = [os.path.join(folder, name) for name in ("take", "long")]
    assert fixtures.run("compare", *words, "-o", page).returncode == 1
    yield "compared", page
    results = [Result("piece", ["data/1.wav has another digest"]), Result("other", [], 1)]
    summary.write(Path(folder), results, ["line 1 was changed"], Program("waplay", "ab" * 32))
    yield "archive", os.path.join(folder, "verified.html")


def paths_of_all(folder: str, events: int = MANY_EVENTS) -> dict[str, str]:
    """The paths of all pages by their names, which are written into a folder. The long take has so
    many events."""
    paths = {}
    for it in sessions_shown():
        words = fixtures.written(folder, it.name, it.script, it.transcript, it.sound)
        if it.other:
            words += ["--against", fixtures.write(folder, "other.wav", it.other)]
        if it.explained:
            words += ["--explain", *it.explained]
        ran = fixtures.run("report", *words)
        assert ran.returncode == 0, ran.stderr
        paths[it.name] = fixtures.write(folder, it.name[:20] + ".html", ran.stdout)
    return {**paths, **dict(takes_shown(folder, events))}
