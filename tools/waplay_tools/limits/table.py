"""The table of limits: of each its number, how a run meets it, and the answers at the number and
one past it. The answers are those of docs/FORMATS.md and docs/PROFILE.md."""

import dataclasses
from collections.abc import Callable
from pathlib import Path

from waplay_tools.cases.case import Case, case_of
from waplay_tools.expecting.numbers import QUANTA
from waplay_tools.limits import meetings
from waplay_tools.limits.meetings import Members, calls, context, items, letters

IDLE = "end idle"
REFUSED = "end refused NotSupportedError"
BAD_JSON = "script: BadJson"
OUT_OF_RANGE = "script: 1 {} OutOfRange"
TOO_LONG = "nothing"  # status 5
USAGE = "words: waplay [--bits 16|24] [--order up|down] [--mode render|check|migrate] [--gen N] OUT"
LOAD = "summary calls 1768 quanta 3750 ended 200 refused 0"
PROFILE = "NotSupportedError profile:"
THROWS = "throw "
REJECTED = "rejected "

# The status of a run with such a last line, and 3 for any other.
STATUSES = {TOO_LONG: 5, USAGE: 2, LOAD: 0}


@dataclasses.dataclass(frozen=True)
class Limit:
    """A limit: what it counts, its number, and the run that meets it with a number of those. `at`
    is the answer at the limit's number, and `past` that one past it: the answer of the last call,
    or the only line where no call is run."""

    counts: str
    number: int
    met: Callable[[int], Members]
    at: str
    past: str
    step: int = 1  # -1 where there may not be fewer
    only_program: str | None = None

    def cases(self) -> list[Case]:
        """The case at the number, and the one past it."""
        numbers = [(self.number, self.at), (self.number + self.step, self.past)]
        return [self._case(number, answer) for number, answer in numbers]

    def _case(self, number: int, answer: str) -> Case:
        """The case that has so many."""
        members = self.met(number)
        status = 4 if answer.startswith("script: ") else STATUSES.get(answer, 3)
        told = {
            "shows": f"{self.counts}: {number:,}",
            "from": "docs/FORMATS.md and docs/PROFILE.md",
            "status": status,
            "transcript": lines_of(members, answer),
        }
        only = {"only_program": self.only_program} if self.only_program else {}
        return case_of({**members, **told, **only}, Path(f"{self.counts}.json"))


def lines_of(members: Members, answer: str) -> list[str]:
    """The lines of a run whose last call has this answer, or that has this one line."""
    whole_lines = ("script: ", "end ", "words: ")
    if answer == TOO_LONG:
        return []
    if answer == LOAD:
        return [LOAD, "end completed"]
    if answer.startswith(whole_lines):
        return [answer]
    last = len(members["script"]["calls"])
    return [f"1..{last - 1} ok", f"{last} {answer}", IDLE]


def both(
    counts: str, low: int, high: int, met: Callable[[int], Members], *answers: str
) -> list[Limit]:
    """A range: the limit below and the one above. There are the answers within and without, or
    those at the low end, below it, at the high end and above it."""
    at_low, below, at_high, above = (answers * 2)[:4]
    return [
        Limit(f"least {counts}", low, met, at_low, below, -1),
        Limit(f"most {counts}", high, met, at_high, above),
    ]


GAIN = {"op": "createGain", "as": "g"}
CONSTANT = {"op": "createConstantSource", "as": "c"}
SHAPER = {"op": "createWaveShaper", "as": "w"}
BUFFER = {"op": "createBuffer", "as": "b", "channels": 1, "length": 1, "rate": 8000}
FILTER = {"op": "createIIRFilter", "as": "i", "feedforward": [1], "feedback": [1]}
CONVOLVER = {"op": "createConvolver", "as": "v", "disableNormalization": True}
START = {"op": "start", "node": "c"}
OF_GAIN = {"node": "g", "param": "gain"}
CURVE = {"op": "setValueCurveAtTime", **OF_GAIN, "values": [0, 0], "time": 0, "duration": 1}
SET = {"op": "setValueAtTime", **OF_GAIN, "value": 0}
SUSPEND = {"op": "suspend"}

# Those of a session: what there may be in all.
SESSION = [
    Limit(
        "nodes, the destination among them",
        1024,
        meetings.nodes,
        "ok",
        THROWS + PROFILE + "node-limit",
    ),
    Limit("connections", 8192, meetings.connections, "ok", THROWS + PROFILE + "connection-limit"),
    Limit(
        "samples in all buffers",
        2**27,
        meetings.buffer_samples,
        "ok",
        THROWS + PROFILE + "buffer-limit",
    ),
    *[
        Limit(
            f"frames in all delays, in quanta of {quantum:,}",
            2**22,
            meetings.delay_frames(quantum),
            "ok",
            THROWS + PROFILE + "delay-limit",
        )
        for quantum in (32, 128, 1024)
    ],
    Limit(
        "delays of a quantum of 1,024 frames, beside 15 longest ones",
        256,
        meetings.short_delays,
        "ok",
        THROWS + PROFILE + "delay-limit",
    ),
    Limit(
        "bytes of an asset",
        2**26,
        meetings.asset_bytes,
        REJECTED + "EncodingError",
        REJECTED + PROFILE + "asset-size",
    ),
    Limit(
        "channels times length of a context",
        2**26,
        meetings.frames_of_two_channels,
        IDLE,
        REFUSED,
    ),
    *both("channels of a context", 1, 32, context("channels"), IDLE, REFUSED),
    *both("frames of a context", 1, 2**25, context("length"), IDLE, REFUSED),
    *both("rate of a context", 8000, 96000, context("rate"), IDLE, REFUSED),
    *[
        limit
        for size in QUANTA
        for limit in both(
            f"render quantum near {size:,}", size, size, context("renderQuantum"), IDLE, REFUSED
        )
    ],
]

# Those of a text.
TEXT = [
    Limit(
        "bytes of a script",
        2**24,
        meetings.script_bytes,
        IDLE,
        TOO_LONG,
        only_program="the second calculation reads scripts of any length",
    ),
    Limit("arrays and objects, one in another", 127, meetings.nesting, IDLE, BAD_JSON),
    Limit("lists around a call", 62, meetings.held_lists, REJECTED + "InvalidStateError", BAD_JSON),
    Limit("exponent of a number", 308, meetings.exponent, IDLE, BAD_JSON),
    *both("letters of a new name", 1, 64, letters(GAIN, "as"), "ok", OUT_OF_RANGE.format("as")),
    *both(
        "bytes of a path",
        1,
        255,
        letters({"op": "decodeAudioData", "as": "b"}, "path"),
        REJECTED + "NotFoundError",
        OUT_OF_RANGE.format("path"),
    ),
]

# Those of numbers, of which each kind of field has its own.
NUMBERS = [
    *both(
        "fix",
        -(2**31),
        2**31 - 1,
        calls(last=GAIN, field="gain"),
        "ok",
        OUT_OF_RANGE.format("gain"),
    ),
    *both(
        "time",
        -(2**40),
        2**40,
        calls(last=SUSPEND, field="time"),
        REJECTED + "InvalidStateError",
        OUT_OF_RANGE.format("time"),
    ),
    *both(
        "count",
        0,
        2**32 - 1,
        calls(last={"op": "setChannelCount", "node": "destination"}, field="value"),
        THROWS + "NotSupportedError",
        OUT_OF_RANGE.format("value"),
    ),
    *both(
        "whole number",
        -(2**63),
        2**64 - 1,
        calls(last=GAIN, field="gain"),
        OUT_OF_RANGE.format("gain"),
        "script: 1 gain WrongKind",
    ),
    *both(
        "number that is pushed",
        -(2**31),
        2**31 - 1,
        meetings.instruction("push", "add"),
        "ok",
        OUT_OF_RANGE.format("code"),
    ),
    *both(
        "number of another instruction",
        0,
        2**31 - 1,
        meetings.instruction("skip"),
        "ok",
        "script: 1 code WrongKind",
        THROWS + PROFILE + "program",
        OUT_OF_RANGE.format("code"),
    ),
    Limit(
        "digits of a number that is pushed",
        10,
        meetings.instruction_digits,
        "ok",
        OUT_OF_RANGE.format("code"),
    ),
    *both("version", 1, 2, meetings.version, IDLE, "script: 0 version OutOfRange"),
    Limit(
        "digits of seconds before the point",
        10,
        meetings.seconds(lambda number: "0" * number),
        THROWS + "TypeError",
        "script: 1 when WrongKind",
    ),
    Limit(
        "digits of seconds behind the point",
        9,
        meetings.seconds(lambda number: "0." + "0" * number),
        THROWS + "TypeError",
        "script: 1 when WrongKind",
    ),
    *both(
        "thousandths of a second, at 8000 frames a second",
        -(2**37),
        2**37,
        meetings.seconds(meetings.thousandths, rate=8000),
        THROWS + "TypeError",
        OUT_OF_RANGE.format("when"),
    ),
    Limit(
        "time of a start",
        0,
        calls(CONSTANT, last=START, field="when"),
        "ok",
        THROWS + "RangeError",
        -1,
    ),
    Limit(
        "time of an event", 0, calls(GAIN, last=SET, field="time"), "ok", THROWS + "RangeError", -1
    ),
    Limit(
        "frames of a curve",
        1,
        calls(GAIN, last=CURVE, field="duration"),
        "ok",
        THROWS + "RangeError",
        -1,
    ),
    Limit(
        "frame of a suspension, of 257 frames in all",
        256,
        calls(last=SUSPEND, field="time", length=257),
        "pending",
        REJECTED + "InvalidStateError",
    ),
    Limit(
        "frame of a suspension behind the start",
        1,
        calls(last=SUSPEND, field="time", length=129),
        "pending",
        REJECTED + "InvalidStateError",
        -1,
    ),
    *[
        Limit(
            f"frame of a suspension, of two quanta of {quantum:,} in all",
            quantum,
            calls(last=SUSPEND, field="time", length=2 * quantum, renderQuantum=quantum),
            "pending",
            REJECTED + "InvalidStateError",
        )
        for quantum in QUANTA
    ],
]

# Those of nodes and buffers.
OBJECTS = [
    Limit(
        "points of a parameter's curve",
        2,
        items(GAIN, last=CURVE, field="values"),
        "ok",
        THROWS + "InvalidStateError",
        -1,
    ),
    Limit(
        "points of a shaper's curve",
        2,
        items(last=SHAPER, field="curve"),
        "ok",
        THROWS + "InvalidStateError",
        -1,
    ),
    Limit(
        "points of a curve that is set",
        2,
        items(SHAPER, last={"op": "setCurve", "node": "w"}, field="curve"),
        "ok",
        THROWS + "InvalidStateError",
        -1,
    ),
    *both(
        "coefficients fed forward",
        1,
        20,
        items(last=FILTER, field="feedforward"),
        "ok",
        THROWS + "NotSupportedError",
    ),
    *both(
        "coefficients fed back",
        1,
        20,
        items(last=FILTER, field="feedback"),
        "ok",
        THROWS + "NotSupportedError",
    ),
    *both(
        "outputs of a splitter",
        1,
        32,
        calls(last={"op": "createChannelSplitter", "as": "p"}, field="numberOfOutputs"),
        "ok",
        THROWS + "IndexSizeError",
    ),
    *both(
        "inputs of a merger",
        1,
        32,
        calls(last={"op": "createChannelMerger", "as": "m"}, field="numberOfInputs"),
        "ok",
        THROWS + "IndexSizeError",
    ),
    *both(
        "channelCount",
        1,
        32,
        calls(GAIN, last={"op": "setChannelCount", "node": "g"}, field="value"),
        "ok",
        THROWS + "NotSupportedError",
    ),
    *both(
        "channelCount of a convolver",
        1,
        2,
        calls(CONVOLVER, last={"op": "setChannelCount", "node": "v"}, field="value"),
        "ok",
        THROWS + "NotSupportedError",
    ),
    Limit(
        "channels of a response",
        1,
        meetings.response_shape("channels"),
        "ok",
        THROWS + PROFILE + "response-channels",
    ),
    Limit(
        "frames of a response",
        2**14,
        meetings.response_shape("length"),
        "ok",
        THROWS + PROFILE + "long-response",
    ),
    *both(
        "sample of a response",
        -(2**25),
        2**25,
        meetings.response_sample,
        "ok",
        THROWS + PROFILE + "loud-response",
    ),
    *both(
        "instructions of a program",
        1,
        256,
        meetings.instructions,
        "ok",
        THROWS + PROFILE + "program",
    ),
    Limit(
        "values on the stack of a program",
        32,
        meetings.operands,
        "ok",
        THROWS + PROFILE + "program",
    ),
    Limit(
        "cell that is loaded",
        15,
        meetings.instruction("load", "add"),
        "ok",
        THROWS + PROFILE + "program",
    ),
    Limit(
        "cell that is stored",
        15,
        meetings.instruction("store", "in"),
        "ok",
        THROWS + PROFILE + "program",
    ),
    Limit(
        "divisor of a program",
        1,
        meetings.instruction("div"),
        "ok",
        THROWS + PROFILE + "program",
        -1,
    ),
    Limit(
        "place at which a program of three instructions goes on",
        3,
        meetings.jump_to,
        "ok",
        THROWS + PROFILE + "program",
    ),
    *both(
        "channels of a buffer",
        1,
        32,
        calls(last=BUFFER, field="channels"),
        "ok",
        THROWS + "NotSupportedError",
    ),
    Limit(
        "frames of a buffer",
        1,
        calls(last=BUFFER, field="length"),
        "ok",
        THROWS + "NotSupportedError",
        -1,
    ),
    *both(
        "rate of a buffer",
        8000,
        96000,
        calls(last=BUFFER, field="rate"),
        "ok",
        THROWS + "NotSupportedError",
    ),
    Limit(
        "channel that is written",
        0,
        calls(BUFFER, last={"op": "copyToChannel", "buffer": "b", "samples": []}, field="channel"),
        "ok",
        THROWS + "IndexSizeError",
    ),
    *both(
        "maxDelayTime",
        1,
        2**28,
        calls(last={"op": "createDelay", "as": "d"}, field="maxDelayTime"),
        "ok",
        THROWS + "NotSupportedError",
        "ok",
        THROWS + PROFILE + "long-delay",
    ),
    Limit(
        "playbackRate",
        2**24,
        calls(last={"op": "createBufferSource", "as": "s"}, field="playbackRate"),
        "ok",
        THROWS + PROFILE + "playback-rate",
        -1,
    ),
]

WORDS_APART = "the second calculation is not told of words"

# Those of a command line.
WORDS = [
    Limit("number of a load", 9999, meetings.generated, LOAD, USAGE, only_program=WORDS_APART),
    *[
        dataclasses.replace(limit, only_program=WORDS_APART)
        for limit in both("digits of a load's number", 1, 4, meetings.digits, LOAD, USAGE)
        + both("words that are OUT", 1, 1, meetings.words, IDLE, USAGE)
    ],
    *[
        Limit(
            f"uses of {option}",
            1,
            meetings.option_uses(option, text),
            answer,
            USAGE,
            only_program=WORDS_APART,
        )
        for option, text, answer in (
            ("--bits", "16", IDLE),
            ("--order", "down", IDLE),
            ("--mode", "check", IDLE),
        )
    ],
    Limit("letters of OUT", 1, meetings.out_bytes, IDLE, USAGE, -1, only_program=WORDS_APART),
]

TABLE = [*SESSION, *TEXT, *NUMBERS, *OBJECTS, *WORDS]
