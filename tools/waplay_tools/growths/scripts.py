"""The runs whose growths are refused."""

import json
from typing import Any, NamedTuple

Call = dict[str, Any]
ONE = 2**24

# Frame 5 of a constant, derived.
DERIVATION = b"""count 0 1 0 = 1
count 0 0 0 = 1
par 5 1 offset = 16777216
out 5 1 0 0 = 16777216
in 5 0 0 0 = 16777216
out 5 0 0 0 = 16777216
"""

# Two frames of 0.5 and -0.5 behind a chunk that is passed over, and one byte more.
ASSET = bytes.fromhex(
    "52494646ffffffff574156454c4953540300000041424300666d742028000000feff010080bb000000770100"
    "020010001600100004000000"
    "0100000000001000800000aa00389b7164617461ffffffff004000c001"
)


class Run(NamedTuple):
    """A run: what it shows, its script, and its words."""

    shows: str
    given: bytes
    words: tuple[str, ...] = ("out.wav",)


def script(length: int, *calls: Call, **more: int) -> bytes:
    """A script of these calls in one channel, which is rendered. Its context may have more."""
    context = {"channels": 1, "length": length, "rate": 48000, **more}
    whole = {"version": 1, "context": context, "calls": [*calls, {"op": "startRendering"}]}
    return json.dumps(whole).encode()


def joined(*names: str) -> list[Call]:
    """Connections from each node to the next."""
    return [{"op": "connect", "from": a, "to": b} for a, b in zip(names, names[1:])]


CONSTANT: Call = {"op": "createConstantSource", "as": "c"}
START: Call = {"op": "start", "node": "c"}
OFFSET = {"node": "c", "param": "offset"}
CURVE: Call = {
    "op": "setValueCurveAtTime",
    **OFFSET,
    "values": [0, ONE],
    "time": 0,
    "duration": 256,
}
IMPULSE: list[Call] = [
    {"op": "createBuffer", "as": "b", "channels": 1, "length": 1, "rate": 48000},
    {"op": "copyToChannel", "buffer": "b", "channel": 0, "samples": [ONE]},
    {"op": "createBufferSource", "as": "s", "buffer": "b"},
    {"op": "start", "node": "s"},
]
ECHO: list[Call] = [
    {"op": "createDelay", "as": "d"},
    {"op": "createGain", "as": "g", "gain": ONE // 2},
    *joined("s", "d", "g", "d"),
    *joined("g", "destination"),
]
HELD: list[Call] = [
    {"op": "cancelScheduledValues", **OFFSET, "time": 256},
    {"op": "readValue", **OFFSET},
    {"op": "resume"},
]
DECODED: list[Call] = [
    {"op": "decodeAudioData", "as": "b", "path": "two.wav"},
    {"op": "createBufferSource", "as": "s", "buffer": "b"},
    {"op": "start", "node": "s"},
    *joined("s", "destination"),
]
FILTER: Call = {
    "op": "createIIRFilter",
    "as": "i",
    "feedforward": [ONE],
    "feedback": [ONE, -ONE // 2],
}
ROOM: Call = {"op": "createConvolver", "as": "v", "buffer": "b", "disableNormalization": True}
SUM: Call = {
    "op": "createProcessor",
    "as": "p",
    "code": ["load 0", "in", "add", "dup", "store 0"],
}
STEREO: list[Call] = [
    {"op": "createBuffer", "as": "t", "channels": 2, "length": 1, "rate": 48000},
    {"op": "createBufferSource", "as": "u", "buffer": "t"},
    {"op": "start", "node": "u", "when": 200},
]
BENT: Call = {"op": "createWaveShaper", "as": "w", "curve": [-ONE, 0, ONE]}

ONE_QUANTUM = script(128, CONSTANT, *joined("c", "destination"), START)

RUNS = [
    Run("a constant for one quantum", ONE_QUANTUM),
    Run(
        "a curve that is cancelled at a suspension",
        script(
            384,
            CONSTANT,
            CURVE,
            {"op": "suspend", "time": 256, "then": HELD},
            *joined("c", "destination"),
            START,
        ),
    ),
    Run("feedback through one delay", script(384, *IMPULSE, *joined("s", "destination"), *ECHO)),
    Run("an asset that is decoded and played", script(128, *DECODED)),
    Run("a convolver", script(384, *IMPULSE, ROOM, *joined("s", "v", "destination"))),
    Run(
        "a processor that comes to have two channels",
        script(
            384, *IMPULSE, *STEREO, SUM, *joined("s", "p", "destination"), *joined("u", "p")
        ),
    ),
    Run(
        "a delay in a cycle, a filter, a shaper, a timeline and buffers",
        script(
            512,
            *IMPULSE,
            *ECHO,
            FILTER,
            BENT,
            CONSTANT,
            CURVE,
            START,
            *joined("s", "i", "w", "destination"),
            {"op": "connectParam", "from": "c", "to": "g", "param": "gain"},
            {"op": "suspend", "time": 256, "then": [*DECODED, {"op": "resume"}]},
        ),
    ),
    Run(
        "a script that is migrated",
        script(
            384, CONSTANT, CURVE, SUM, {"op": "suspend", "time": 256, "then": HELD}, *DECODED, START
        ),
        ("--mode", "migrate", "out.wav"),
    ),
    Run(
        "a script of version 2",
        script(128, CONSTANT, START, {"op": "stop", "node": "c", "when": "0.001"}).replace(
            b'"version": 1', b'"version": 2'
        ),
    ),
    Run("a script with a fault", script(128, CONSTANT, {"op": "createFoo"})),
    Run("a command line that has no reading", b"", ("--bits", "8", "out.wav")),
    *[
        Run(
            f"feedback through one delay in quanta of {quantum:,} frames",
            script(384, *IMPULSE, *joined("s", "destination"), *ECHO, renderQuantum=quantum),
        )
        for quantum in (32, 1024)
    ],
]

# Runs of waexplain.
EXPLAIN_RUNS = [
    Run("a constant that is derived", ONE_QUANTUM, ("derive", "5", "0", "out.wav")),
    Run("a derivation that is checked", ONE_QUANTUM, ("check", "derivation.txt")),
    Run(
        "feedback through one delay that is derived",
        script(384, *IMPULSE, *joined("s", "destination"), *ECHO),
        ("derive", "300", "0", "out.wav"),
    ),
    Run(
        "a processor, a filter and a shaper that are derived",
        script(384, *IMPULSE, SUM, FILTER, BENT, *joined("s", "p", "i", "w", "destination")),
        ("derive", "40", "0", "out.wav"),
    ),
    Run(
        "a convolver that is derived",
        script(384, *IMPULSE, ROOM, *joined("s", "v", "destination")),
        ("derive", "0", "0", "out.wav"),
    ),
    Run("an asset that is decoded", script(128, *DECODED), ("derive", "1", "0", "out.wav")),
    Run("a sample that is not rendered", ONE_QUANTUM, ("derive", "128", "0", "out.wav")),
    Run("a text that is not there", ONE_QUANTUM, ("check", "nowhere.txt")),
    Run("a text that is none", ONE_QUANTUM, ("check", "beside")),
    Run(
        "a session that does not start",
        ONE_QUANTUM.replace(b', {"op": "startRendering"}', b""),
        ("check", "derivation.txt"),
    ),
    Run("a fault of a call", script(128, {"op": "createFoo"}), ("check", "derivation.txt")),
    Run("words without a reading", b"", ("derive",)),
]

# A constant, an oscillator that is refused, and a gain that leads nowhere.
UNHEARD: list[Call] = [{"op": "createGain", "as": "g"}, *joined("c", "g")]
OSCILLATOR: Call = {"op": "createOscillator", "as": "o"}
PRUNED = script(128, OSCILLATOR, CONSTANT, *joined("c", "destination"), START, *UNHEARD)

# Runs of waprune.
PRUNE_RUNS = [
    Run("a constant and what is not heard", PRUNED),
    Run("a script of which each call is heard", ONE_QUANTUM),
    Run(
        "lists of suspensions, a timeline and a read",
        script(
            384,
            CONSTANT,
            CURVE,
            {"op": "suspend", "time": 128, "then": [*UNHEARD, {"op": "resume"}]},
            {"op": "suspend", "time": 256, "then": HELD},
            *joined("c", "destination"),
            START,
        ),
    ),
    Run("an asset that is decoded", script(128, *DECODED, *UNHEARD)),
    Run(
        "a convolver, a processor, a filter, a shaper and a delay in a cycle",
        script(
            384,
            *IMPULSE,
            *[ROOM, SUM, FILTER, BENT],
            *ECHO,
            *joined("s", "v", "p", "destination"),
            *joined("s", "i", "w"),
        ),
    ),
    Run(
        "a script of version 2",
        script(128, CONSTANT, START, {"op": "stop", "node": "c", "when": "0.001"}).replace(
            b'"version": 1', b'"version": 2'
        ),
    ),
    Run(
        "a session that does not start",
        ONE_QUANTUM.replace(b', {"op": "startRendering"}', b""),
    ),
    Run("a fault of a call", script(128, CONSTANT, {"op": "createFoo"})),
    Run("words without a reading", b"", ("-x",)),
]

# The runs of each program, by its name.
RUNS_OF = {"waplay": RUNS, "waexplain": EXPLAIN_RUNS, "waprune": PRUNE_RUNS}
