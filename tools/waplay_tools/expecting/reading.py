"""Scripts: what their bytes are, and their first fault. The rules are those of docs/FORMATS.md."""

import json
import re
from collections.abc import Callable, Mapping
from typing import Any, NoReturn

from waplay_tools.expecting.numbers import DEFAULT_QUANTUM, ONE, rounded_quotient
from waplay_tools.expecting.programs import cause_of

Call = dict[str, Any]  # a call of a script, by its fields
NumberedCall = tuple[int, Call, list[Any]]  # its ordinal, itself, and the numbered calls it holds

# The features of the operations that are left out.
LEFT_OUT = dict(
    pair.split(":")
    for pair in """
    createOscillator:oscillator createPeriodicWave:periodic-wave createBiquadFilter:biquad
    createStereoPanner:stereo-panner createPanner:panner createDynamicsCompressor:compressor
    createAnalyser:analyser setListener:listener createMediaElementSource:media-element-source
    createMediaStreamSource:media-stream-source
    createMediaStreamTrackSource:media-stream-track-source
    createMediaStreamDestination:media-stream-destination
    createScriptProcessor:script-processor createAudioWorkletNode:audio-worklet""".split()
)

# Of a field that is read its name, its kind, and its default where it has one.
Field = tuple[str, str] | tuple[str, str, Any]

PARAMETER: list[Field] = [("node", "name"), ("param", "name")]
HELD: Field = ("then", "calls", [])

# The fields of the operations that are read. Null is a value of a field whose default is null, and
# of one whose kind says so.
OPERATIONS: dict[str, list[Field]] = {
    "createConstantSource": [("as", "new name"), ("offset", "fix", ONE)],
    "createGain": [("as", "new name"), ("gain", "fix", ONE)],
    "createDelay": [("as", "new name"), ("maxDelayTime", "fix", ONE), ("delayTime", "fix", 0)],
    "createChannelSplitter": [("as", "new name"), ("numberOfOutputs", "count", 6)],
    "createChannelMerger": [("as", "new name"), ("numberOfInputs", "count", 6)],
    "createWaveShaper": [
        ("as", "new name"),
        ("curve", "list", None),
        ("oversample", "none 2x 4x", "none"),
    ],
    "createIIRFilter": [("as", "new name"), ("feedforward", "list"), ("feedback", "list")],
    "createConvolver": [
        ("as", "new name"),
        ("buffer", "name", None),
        ("disableNormalization", "bool", False),
    ],
    "createProcessor": [("as", "new name"), ("code", "code")],
    "createBufferSource": [
        ("as", "new name"),
        ("buffer", "name", None),
        ("loop", "bool", False),
        ("loopStart", "time", 0),
        ("loopEnd", "time", 0),
        ("playbackRate", "fix", ONE),
    ],
    "createBuffer": [
        ("as", "new name"),
        ("channels", "count"),
        ("length", "count"),
        ("rate", "count"),
    ],
    "connect": [("from", "name"), ("output", "count", 0), ("to", "name"), ("input", "count", 0)],
    "disconnect": [
        ("from", "name"),
        ("output", "count", None),
        ("to", "name", None),
        ("input", "count", None),
    ],
    "connectParam": [("from", "name"), ("output", "count", 0), ("to", "name"), ("param", "name")],
    "disconnectParam": [
        ("from", "name"),
        ("to", "name"),
        ("param", "name"),
        ("output", "count", None),
    ],
    "setValue": [*PARAMETER, ("value", "fix")],
    "setValueAtTime": [*PARAMETER, ("value", "fix"), ("time", "time")],
    "linearRampToValueAtTime": [*PARAMETER, ("value", "fix"), ("time", "time")],
    "setValueCurveAtTime": [*PARAMETER, ("values", "list"), ("time", "time"), ("duration", "time")],
    "cancelScheduledValues": [*PARAMETER, ("time", "time")],
    "cancelAndHoldAtTime": [*PARAMETER, ("time", "time")],
    "setAutomationRate": [*PARAMETER, ("value", "a-rate k-rate")],
    "exponentialRampToValueAtTime": PARAMETER,
    "setTargetAtTime": PARAMETER,
    "readValue": PARAMETER,
    "setChannelCount": [("node", "name"), ("value", "count")],
    "setChannelCountMode": [("node", "name"), ("value", "max clamped-max explicit")],
    "setChannelInterpretation": [("node", "name"), ("value", "speakers discrete")],
    "setCurve": [("node", "name"), ("curve", "list or null")],
    "setOversample": [("node", "name"), ("value", "none 2x 4x")],
    "setBuffer": [("node", "name"), ("buffer", "name or null")],
    "setLoop": [("node", "name"), ("value", "bool")],
    "setLoopStart": [("node", "name"), ("value", "time")],
    "setLoopEnd": [("node", "name"), ("value", "time")],
    "copyToChannel": [
        ("buffer", "name"),
        ("channel", "count"),
        ("samples", "list"),
        ("at", "count", 0),
    ],
    "start": [
        ("node", "name"),
        ("when", "time", 0),
        ("offset", "time", 0),
        ("duration", "time", None),
    ],
    "stop": [("node", "name"), ("when", "time", 0)],
    "suspend": [("time", "time"), HELD],
    "startRendering": [HELD],
    "resume": [],
    "decodeAudioData": [("as", "new name"), ("path", "path")],
    "readState": [],
    "readTime": [],
}

# Those that are left out are read too; none of their fields is.
READ: dict[str, list[Field]] = OPERATIONS | {op: [] for op in LEFT_OUT}

# The fields of the context.
CONTEXT: list[Field] = [
    ("channels", "count"),
    ("length", "count"),
    ("rate", "count"),
    ("renderQuantum", "count", DEFAULT_QUANTUM),
]

# The ranges of the kinds that are whole numbers.
RANGES = {
    "fix": (-(2**31), 2**31 - 1),
    "time": (-(2**40), 2**40),
    "count": (0, 2**32 - 1),
}


VERSIONS = (1, 2)

# A time in version 2: seconds.
SECONDS = re.compile(r"(-?[0-9]{1,10})(?:\.([0-9]{1,9}))?")

MOST_NESTED = 127  # arrays and objects, one in another
TOO_DEEP = f"arrays and objects nest deeper than {MOST_NESTED}"


class Fault(Exception):
    """A fault of a script, with what its line says."""


class Members(list):
    """The members of a JSON object as they are written, repeated ones too."""


def bad_json(*_: object) -> NoReturn:
    """Refuses NaN and the infinities, which Python reads and JSON does not have; a hook of the
    reader, whatever it is given."""
    raise ValueError("a word that JSON does not have")


def in_binary64(text: str) -> str:
    """The text of a number that a binary64 floating-point number can hold."""
    if abs(float(text)) == float("inf"):
        raise ValueError("a number that is too large")
    return text


def is_whole(text: str) -> bool:
    """Whether a text without fraction or exponent is a whole number of 64 bits, which `-0` is
    not."""
    return text != "-0" and len(text) <= 20 and -(2**63) <= int(text) < 2**64


def looked_through(value: Any, room: int) -> Any:
    """The value with objects for members, of which the last of a name counts. There is room for so
    many arrays and objects, one in another. It refuses lone surrogates."""
    if isinstance(value, list) and room == 0:
        raise ValueError(TOO_DEEP)
    if isinstance(value, Members):
        return {looked_through(key, 0): looked_through(it, room - 1) for key, it in value}
    if isinstance(value, list):
        return [looked_through(it, room - 1) for it in value]
    if isinstance(value, str):
        try:
            value.encode()
        except UnicodeEncodeError:
            raise ValueError("an escape of a lone surrogate") from None
    return value


def json_of(data: bytes, number: Callable[[str], Any] = float) -> Any:
    """The JSON value that the bytes are; it raises ValueError with a reason where they are none. A
    number that is not whole is what `number` makes of its text."""
    try:
        value = json.loads(
            data.decode(),
            object_pairs_hook=Members,
            parse_constant=bad_json,
            parse_float=lambda text: number(in_binary64(text)),
            parse_int=lambda text: int(text) if is_whole(text) else number(in_binary64(text)),
        )
        return looked_through(value, MOST_NESTED)
    except UnicodeDecodeError as error:
        raise ValueError(f"byte {error.start} is not UTF-8") from None
    except RecursionError:
        raise ValueError(TOO_DEEP) from None


def frame_of(value: Any, rate: int) -> int | None:
    """The frame that seconds in text are at a rate, a half going up; None where the value is no
    such text."""
    told = SECONDS.fullmatch(value) if isinstance(value, str) else None
    if told is None:
        return None
    before, behind = told[1], told[2] or ""
    return rounded_quotient(int(before + behind) * rate, 10 ** len(behind))


def cause(value: Any, kind: str, rate: int | None = None) -> str | None:
    """What is wrong with a value that is to be of the kind, if anything is. A kind that is none of
    the others is a list of words. With a rate, times are seconds in text."""
    if kind == "time" and rate is not None:
        value = frame_of(value, rate)
    if kind in RANGES:
        low, high = RANGES[kind]
        return (
            "WrongKind"
            if type(value) is not int
            else None
            if low <= value <= high
            else "OutOfRange"
        )
    if kind in ("object", "calls", "bool"):
        return (
            None
            if isinstance(value, {"object": dict, "calls": list, "bool": bool}[kind])
            else "WrongKind"
        )
    if kind in ("list", "code"):
        if not isinstance(value, list):
            return "WrongKind"
        causes = [cause_of(it) if kind == "code" else cause(it, "fix") for it in value]
        return next((wrong for wrong in ("WrongKind", "OutOfRange") if wrong in causes), None)
    if not isinstance(value, str):
        return "WrongKind"
    if kind == "path":
        fits = 1 <= len(value.encode()) <= 255
    elif kind == "new name":
        is_name = re.fullmatch("[A-Za-z0-9_-]{1,64}", value) is not None
        fits = is_name and value != "destination"
    else:
        fits = kind in ("name", "param") or value in kind.split()
    return None if fits else "OutOfRange"


def look_at(
    ordinal: int,
    members: dict[str, Any],
    field: str,
    kind: str,
    *default: Any,
    rate: int | None = None,
) -> None:
    """Raises the fault of a field of the call with this ordinal, if it has one. A field without a
    default has to be there. With a rate, times are seconds in text."""
    if field not in members:
        wrong = None if default else "MissingField"
    elif members[field] is None and (default == (None,) or kind.endswith(" or null")):
        wrong = None
    else:
        wrong = cause(members[field], kind.replace(" or null", ""), rate)
    if wrong:
        raise Fault(f"{ordinal} {field} {wrong}")


def look_at_call(
    ordinal: int, call: Any, operations: Mapping[str, list[Field]], rate: int | None = None
) -> None:
    """Raises the first fault of a call that is to be one of the operations, if it has one. With a
    rate, its times are seconds in text."""
    if not isinstance(call, dict):
        raise Fault(f"{ordinal} call WrongKind")
    op = call.get("op")
    if not isinstance(op, str) or op not in operations:
        raise Fault(f"{ordinal} op UnknownOp")
    for field in operations[op]:
        look_at(ordinal, call, *field, rate=rate)
    if op == "disconnect" and call.get("input") is not None:
        for needed in ("to", "output"):
            if call.get(needed) is None:
                raise Fault(f"{ordinal} {needed} MissingField")


def look_at_calls(calls: list[Any], first: int, rate: int | None = None) -> int:
    """Looks at the calls of a list, and at those that they hold. The answer is the next ordinal.
    With a rate, times are seconds in text."""
    for call in calls:
        look_at_call(first, call, READ, rate)
        first += 1
        if HELD in READ[call["op"]]:
            first = look_at_calls(call.get("then", []), first, rate)
    return first


def in_frames(call: Call, rate: int, operations: Mapping[str, list[Field]] = READ) -> Call:
    """A call without a fault whose times are seconds in text, and those that it holds, with their
    frames in place of the seconds."""
    changed = dict(call)
    for field, kind, *_ in operations[call["op"]]:
        if kind == "time" and call.get(field) is not None:
            changed[field] = frame_of(call[field], rate)
        if kind == "calls":
            changed[field] = [in_frames(it, rate, operations) for it in call.get(field, [])]
    return changed


def look_at_head(script: Any) -> None:
    """Raises the first fault of what stands around the calls of a script, if it has one."""
    if not isinstance(script, dict):
        raise Fault("0 script WrongKind")
    look_at(0, script, "version", "count")
    if script["version"] not in VERSIONS:
        raise Fault("0 version OutOfRange")
    look_at(0, script, "context", "object")
    for field in CONTEXT:
        look_at(0, script["context"], *field)
    look_at(0, script, "calls", "calls")


def rate_of(script: dict[str, Any]) -> int | None:
    """The rate at which the times of a script are seconds, in version 2; None where they are
    frames. There is no fault in what stands around the calls."""
    return script["context"]["rate"] if script["version"] == 2 else None


def script_of(data: bytes) -> dict[str, Any]:
    """The script that the bytes are. Its times are frames in either version."""
    try:
        script = json_of(data)
    except ValueError:
        raise Fault("BadJson") from None
    look_at_head(script)
    rate = rate_of(script)
    look_at_calls(script["calls"], 1, rate)
    if rate is not None:
        script["calls"] = [in_frames(call, rate) for call in script["calls"]]
    return script


def numbered(calls: list[Call], first: int) -> tuple[list[NumberedCall], int]:
    """The calls of a list with their ordinals and the lists that they hold, and the next
    ordinal."""
    done: list[NumberedCall] = []
    for call in calls:
        ordinal = first
        held: list[NumberedCall] = []
        first += 1
        if HELD in OPERATIONS.get(call["op"], []):
            held, first = numbered(call.get("then", []), first)
        done.append((ordinal, call, held))
    return done, first
