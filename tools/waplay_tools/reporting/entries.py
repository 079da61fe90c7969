"""The operations of the script format: of each its fields, their kinds and their defaults. They are
those of version 1; in version 2 a time is seconds in text.

These are all operations of the format, also those that the program does not read yet. A field is
its name, its kind, and its default where it has one. A kind that is none of KINDS is a list of
words. Null is a value of a field whose default is null, and of one whose kind ends with "or null".
"""

from typing import Any

from waplay_tools.expecting.programs import NUMBERS, STACK
from waplay_tools.expecting.reading import RANGES, Field

Fields = dict[str, list[Field]]  # of an operation

ONE = 2**24

KINDS = (*RANGES, "bool", "list", "name", "param", "new name", "path", "code", "calls", "object")

PARAMETERS = ("offset", "gain", "delayTime", "playbackRate", "detune")

NEW_NAME = "^[A-Za-z0-9_-]{1,64}$"
SECONDS = r"^-?[0-9]{1,10}(\.[0-9]{1,9})?$"


def _at_most(most: int) -> str:
    """The pattern of the whole numbers from 0 to this one of several digits, with zeros in front of
    them or without."""
    text = str(most)
    parts = [f"[0-9]{{1,{len(text) - 1}}}", text]
    for at, digit in enumerate(text):  # those that differ first here
        parts.append(f"{text[:at]}[{int(at == 0)}-{int(digit) - 1}][0-9]{{{len(text) - at - 1}}}")
    return f"0*(?:{'|'.join(part for part in parts if '[0--1]' not in part)})"


_PLAIN = "|".join(word for word in STACK if word not in NUMBERS)
_WITHOUT_SIGN = "|".join(word for word in NUMBERS if word != "push")
_NUMBER = _at_most(NUMBERS["load"][1])

# An instruction of a program.
INSTRUCTION = (
    f"^(?:{_PLAIN}|push (?:-?{_NUMBER}|-0*{-NUMBERS['push'][0]})|(?:{_WITHOUT_SIGN}) {_NUMBER})$"
)

_NEW = ("as", "new name")
_NODE = ("node", "name")
_PARAM = ("param", "param")
_THEN: Field = ("then", "calls", [])

CREATIONS: Fields = {
    "createConstantSource": [_NEW, ("offset", "fix", ONE)],
    "createGain": [_NEW, ("gain", "fix", ONE)],
    "createDelay": [_NEW, ("maxDelayTime", "fix", ONE), ("delayTime", "fix", 0)],
    "createChannelSplitter": [_NEW, ("numberOfOutputs", "count", 6)],
    "createChannelMerger": [_NEW, ("numberOfInputs", "count", 6)],
    "createWaveShaper": [_NEW, ("curve", "list", None), ("oversample", "none 2x 4x", "none")],
    "createIIRFilter": [_NEW, ("feedforward", "list"), ("feedback", "list")],
    "createConvolver": [
        _NEW,
        ("buffer", "name", None),
        ("disableNormalization", "bool", False),
    ],
    "createProcessor": [_NEW, ("code", "code")],
    "createBufferSource": [
        _NEW,
        ("buffer", "name", None),
        ("loop", "bool", False),
        ("loopStart", "time", 0),
        ("loopEnd", "time", 0),
        ("playbackRate", "fix", ONE),
    ],
    "createBuffer": [_NEW, ("channels", "count"), ("length", "count"), ("rate", "count")],
}

# The node that a creation makes, as it is called in words.
NODES = {
    "createConstantSource": "constant source",
    "createGain": "gain",
    "createDelay": "delay",
    "createChannelSplitter": "channel splitter",
    "createChannelMerger": "channel merger",
    "createWaveShaper": "wave shaper",
    "createIIRFilter": "IIR filter",
    "createConvolver": "convolver",
    "createProcessor": "processor",
    "createBufferSource": "buffer source",
}

CONNECTIONS: Fields = {
    "connect": [("from", "name"), ("output", "count", 0), ("to", "name"), ("input", "count", 0)],
    "connectParam": [("from", "name"), ("output", "count", 0), ("to", "name"), _PARAM],
    "disconnect": [
        ("from", "name"),
        ("output", "count", None),
        ("to", "name", None),
        ("input", "count", None),
    ],
    "disconnectParam": [("from", "name"), ("to", "name"), _PARAM, ("output", "count", None)],
}

ATTRIBUTES: Fields = {
    "setChannelCount": [_NODE, ("value", "count")],
    "setChannelCountMode": [_NODE, ("value", "max clamped-max explicit")],
    "setChannelInterpretation": [_NODE, ("value", "speakers discrete")],
    "setCurve": [_NODE, ("curve", "list or null")],
    "setOversample": [_NODE, ("value", "none 2x 4x")],
    "setBuffer": [_NODE, ("buffer", "name or null")],
    "setLoop": [_NODE, ("value", "bool")],
    "setLoopStart": [_NODE, ("value", "time")],
    "setLoopEnd": [_NODE, ("value", "time")],
    "copyToChannel": [
        ("buffer", "name"),
        ("channel", "count"),
        ("samples", "list"),
        ("at", "count", 0),
    ],
}

SOURCES: Fields = {
    "start": [_NODE, ("when", "time", 0), ("offset", "time", 0), ("duration", "time", None)],
    "stop": [_NODE, ("when", "time", 0)],
}

PARAMETER_CALLS: Fields = {
    "setValue": [_NODE, _PARAM, ("value", "fix")],
    "setValueAtTime": [_NODE, _PARAM, ("value", "fix"), ("time", "time")],
    "linearRampToValueAtTime": [_NODE, _PARAM, ("value", "fix"), ("time", "time")],
    "setValueCurveAtTime": [
        _NODE,
        _PARAM,
        ("values", "list"),
        ("time", "time"),
        ("duration", "time"),
    ],
    "cancelScheduledValues": [_NODE, _PARAM, ("time", "time")],
    "cancelAndHoldAtTime": [_NODE, _PARAM, ("time", "time")],
    "setAutomationRate": [_NODE, _PARAM, ("value", "a-rate k-rate")],
    "exponentialRampToValueAtTime": [_NODE, _PARAM],
    "setTargetAtTime": [_NODE, _PARAM],
    "readValue": [_NODE, _PARAM],
}

CONTEXT_CALLS: Fields = {
    "suspend": [("time", "time"), _THEN],
    "startRendering": [_THEN],
    "resume": [],
    "decodeAudioData": [_NEW, ("path", "path")],
    "readState": [],
    "readTime": [],
}

# The operations that are left out of the profile: none of their fields is read. Each has its
# feature.
LEFT_OUT = {
    "createOscillator": "oscillator",
    "createPeriodicWave": "periodic-wave",
    "createBiquadFilter": "biquad",
    "createStereoPanner": "stereo-panner",
    "createPanner": "panner",
    "createDynamicsCompressor": "compressor",
    "createAnalyser": "analyser",
    "setListener": "listener",
    "createMediaElementSource": "media-element-source",
    "createMediaStreamSource": "media-stream-source",
    "createMediaStreamTrackSource": "media-stream-track-source",
    "createMediaStreamDestination": "media-stream-destination",
    "createScriptProcessor": "script-processor",
    "createAudioWorkletNode": "audio-worklet",
}

GROUPS: dict[str, Fields] = {
    "creations": CREATIONS,
    "connections": CONNECTIONS,
    "attributes": ATTRIBUTES,
    "sources": SOURCES,
    "parameters": PARAMETER_CALLS,
    "contextCalls": CONTEXT_CALLS,
    "leftOut": {op: [] for op in LEFT_OUT},
}
OPERATIONS = {op: fields for group in GROUPS.values() for op, fields in group.items()}

# The calls that answer with a promise, those whose promise stays pending, and those that answer
# with a value.
PROMISES = ("suspend", "startRendering", "resume", "decodeAudioData")
PENDING = ("suspend", "startRendering")
READS = {"readValue": "value", "readState": "state", "readTime": "time"}


def fields_of(op: Any) -> list[Field]:
    """The fields of an operation; none of one that the format does not have."""
    return OPERATIONS.get(op, [])


def holds_calls(op: Any) -> bool:
    """Whether an operation has a list of calls."""
    return isinstance(op, str) and _THEN in fields_of(op)
