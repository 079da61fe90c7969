"""The schema of scripts of both versions, made of the table of operations, so that they say the
same.

What hangs on the version, which are times and all that has one, stands in it twice: what is for
version 2 has a 2 behind its name.
"""

import json
from typing import Any

from waplay_tools.expecting.numbers import DEFAULT_QUANTUM
from waplay_tools.reporting import entries, rules
from waplay_tools.reporting.text import grouped

# What an operation does, for those who write scripts.
DOES = {
    "createConstantSource": "A source that plays one value.",
    "createGain": "A node that multiplies by its gain.",
    "createDelay": "A node that delays, by seconds in units of 2^-24.",
    "createChannelSplitter": "A node with an output for each channel.",
    "createChannelMerger": "A node with an input for each channel.",
    "createWaveShaper": "A node that bends each sample by a curve.",
    "createIIRFilter": "A filter with these coefficients.",
    "createConvolver": (
        "A node that convolves with a buffer. Its disableNormalization can only be true."
    ),
    "createProcessor": "A node that runs a program on each sample of each channel.",
    "createBufferSource": (
        "A source that plays a buffer. Its loop is in frames of the buffer, and its rate is whole."
    ),
    "createBuffer": "A silent buffer.",
    "connect": "Connects an output of a node to an input of a node.",
    "connectParam": "Connects an output of a node to a parameter of a node.",
    "disconnect": "Takes connections away: all of `from`, or those that the further fields choose.",
    "disconnectParam": "Takes connections to a parameter away.",
    "setChannelCount": "Sets the channelCount of a node.",
    "setChannelCountMode": "Sets the channelCountMode of a node.",
    "setChannelInterpretation": "Sets the channelInterpretation of a node.",
    "setCurve": "Sets the curve of a wave shaper; null takes it away.",
    "setOversample": "Sets the oversampling of a wave shaper, which can only be `none`.",
    "setBuffer": "Sets the buffer of a buffer source; null takes it away.",
    "setLoop": "Sets whether a buffer source loops.",
    "setLoopStart": "Sets the first frame of a buffer source's loop.",
    "setLoopEnd": "Sets the frame behind a buffer source's loop.",
    "copyToChannel": "Writes samples into a channel of a buffer.",
    "start": "Starts a source. Offset and duration are frames of a buffer source's buffer.",
    "stop": "Stops a source.",
    "setValue": "Sets the value of a parameter now.",
    "setValueAtTime": "Sets the value of a parameter at a frame.",
    "linearRampToValueAtTime": "Leads a parameter in a line to a value at a frame.",
    "setValueCurveAtTime": "Leads a parameter along a curve of values.",
    "cancelScheduledValues": "Takes away what is scheduled from a frame on.",
    "cancelAndHoldAtTime": (
        "Takes away what is scheduled from a frame on, and holds the value that is reached there."
    ),
    "setAutomationRate": "Sets how often a parameter is computed.",
    "exponentialRampToValueAtTime": (
        "Is always refused: an exponential ramp is no part of the profile."
    ),
    "setTargetAtTime": "Is always refused: approaching a target is no part of the profile.",
    "readValue": "Reads the value of a parameter.",
    "suspend": (
        "Suspends rendering at a frame, rounded up to the end of a render quantum; then its list of"
        " calls is done."
    ),
    "startRendering": "Starts rendering; its list of calls is done when the length is reached.",
    "resume": "Resumes rendering, from within the list of a suspension.",
    "decodeAudioData": "Reads a WAV file of the folder of assets into a buffer.",
    "readState": "Reads the state of the context.",
    "readTime": "Reads the time of the context, in frames.",
}

_UNITS = {
    "fix": "A value in units of 2^-24: 16777216 is 1.",
    "time": "A time in frames.",
    "count": "How many there are, or the number of one of them.",
}


def _ref(name: str) -> dict[str, Any]:
    """What stands for the definition of this name."""
    return {"$ref": "#/$defs/" + name}


def _kinds() -> dict[str, Any]:
    """The definitions of the kinds of fields."""
    kinds = {}
    for kind, (low, high) in entries.RANGES.items():
        told = "%s A whole number, written without fraction and exponent, from %s to %s."
        told = (told % (_UNITS[kind], grouped(low), grouped(high))).replace("\u2212", "-")
        kinds[kind] = {"description": told, "type": "integer", "minimum": low, "maximum": high}
    kinds["list"] = {
        "description": "Values in units of 2^-24.",
        "type": "array",
        "items": _ref("fix"),
    }
    kinds["name"] = {
        "description": (
            "The name of an object. Whether there is one is asked when the call is done."
        ),
        "type": "string",
    }
    kinds["newName"] = {
        "description": (
            "The name that an object is given: 1 to 64 ASCII letters, digits, _ or -, and not"
            " destination."
        ),
        "type": "string",
        "pattern": entries.NEW_NAME,
        # To some engines the end of the pattern is also before a last line feed.
        "not": {"anyOf": [{"const": "destination"}, {"pattern": "[^A-Za-z0-9_-]"}]},
    }
    kinds["param"] = {
        "description": (
            "The name of a parameter. Whether the node has it is asked when the call is done."
        ),
        "type": "string",
        "examples": list(entries.PARAMETERS),
    }
    kinds["path"] = {
        "description": (
            "The path of a file in the folder of assets: 1 to 255 bytes of UTF-8. A schema counts"
            " characters, which may be fewer."
        ),
        "type": "string",
        "minLength": 1,
        "maxLength": 255,
    }
    return {**kinds, "code": _code(), **_versioned_kinds()}


def _code() -> dict[str, Any]:
    """The definition of a program."""
    return {
        "description": (
            "A program. Whether it is accepted is asked when the call is done: it has 1 to 256"
            " instructions, and none of them can go wrong."
        ),
        "type": "array",
        "items": {
            "type": "string",
            "pattern": entries.INSTRUCTION,
            # To some engines the end of the pattern is also before a last line feed.
            "not": {"pattern": "[^a-z0-9 -]"},
        },
        "examples": [["load 0", "in", "add", "div 2", "dup", "store 0"]],
    }


def _versioned_kinds() -> dict[str, Any]:
    """The definitions of the kinds of fields that hang on the version."""
    kinds = {}
    for behind in ("", "2"):
        kinds["calls" + behind] = {
            "description": "A list of calls.",
            "type": "array",
            "items": _ref("call" + behind),
        }
    kinds["time2"] = {
        "description": (
            "A time in seconds, as text: an optional minus, 1 to 10 digits, and optionally a point"
            " with 1 to 9 digits. It stands for the nearest frame, of two the later one."
        ),
        "type": "string",
        "pattern": entries.SECONDS,
        # To some engines the end of the pattern is also before a last line feed.
        "not": {"pattern": "[^0-9.-]"},
        "examples": ["0.5", "0.002666667"],
    }
    return kinds


def _is_versioned(op: str) -> bool:
    """Whether the calls of an operation hang on the version."""
    return any(kind in ("time", "calls") for _, kind, *_ in entries.fields_of(op))


def _of_version(name: str, version: int) -> str:
    """The name of what hangs on the version."""
    return name + "2" if version == 2 else name


def _field(kind: str, default: list[Any], version: int) -> dict[str, Any]:
    """The schema of a field."""
    base = kind.replace(" or null", "")
    if version == 2 and base in ("time", "calls"):
        base, default = base + "2", ["0" if it == 0 else it for it in default]
    schema: dict[str, Any]
    if base == "bool":
        schema = {"type": "boolean"}
    elif " " in base and base != "new name":
        schema = {"enum": base.split()}
    else:
        schema = _ref("newName" if base == "new name" else base)
    if kind.endswith(" or null") or default == [None]:
        schema = {"anyOf": [schema, {"type": "null"}]}
    return {**schema, "default": default[0]} if default else schema


def _operation(op: str, version: int) -> dict[str, Any]:
    """The schema of the calls of one operation."""
    if op in entries.LEFT_OUT:
        told = (
            "Is always refused, with the feature %s, and none of its fields is read."
            % entries.LEFT_OUT[op]
        )
    else:
        told = DOES[op]
    fields = entries.fields_of(op)
    schema: dict[str, Any] = {"description": told, "properties": {"op": {"const": op}}}
    schema["properties"].update(
        (name, _field(kind, default, version)) for name, kind, *default in fields
    )
    schema["required"] = ["op"] + [name for name, _, *default in fields if not default]
    if op == "disconnect":
        schema["if"] = {"required": ["input"], "properties": {"input": {"not": {"type": "null"}}}}
        schema["then"] = {
            "required": ["to", "output"],
            "properties": {"to": {"type": "string"}, "output": {"type": "integer"}},
        }
    return schema


def _where(op: dict[str, Any], name: str) -> dict[str, Any]:
    """The schema of this name, where the operation is so."""
    return {"if": {"required": ["op"], "properties": {"op": op}}, "then": _ref(name)}


def _groups(version: int) -> dict[str, Any]:
    """The definitions of the groups of operations that hang on the version, each of which chooses
    by the operation."""
    return {
        _of_version(name, version): {
            "description": "The calls of one of these operations.",
            "allOf": [
                _where({"const": op}, _of_version(op, version) if _is_versioned(op) else op)
                for op in group
            ],
        }
        for name, group in entries.GROUPS.items()
        if version == 1 or any(map(_is_versioned, group))
    }


def _call(operations: list[str], version: int) -> dict[str, Any]:
    """The definition of a call, which chooses the group by the operation."""
    groups = _groups(version)
    return {
        "description": "A call: its operation and its fields. Further members are ignored.",
        "type": "object",
        "required": ["op"],
        "properties": {"op": {"description": "The operation.", "enum": operations}},
        "allOf": [
            _where(
                {"enum": list(group)},
                _of_version(name, version) if _of_version(name, version) in groups else name,
            )
            for name, group in entries.GROUPS.items()
        ],
    }


def _version(version: int, told: str) -> dict[str, Any]:
    """What the calls of a script are in a version."""
    return {
        "title": f"Version {version}: {told}",
        "properties": {
            "version": {"const": version},
            "calls": _ref(_of_version("calls", version)),
        },
    }


def _definitions() -> dict[str, Any]:
    """All definitions, those of version 1 first."""
    operations = list(entries.OPERATIONS)
    versioned = [op for op in operations if _is_versioned(op)]
    return {
        **_kinds(),
        "call": _call(operations, 1),
        **_groups(1),
        **{op: _operation(op, 1) for op in operations},
        "call2": _call(operations, 2),
        **_groups(2),
        **{op + "2": _operation(op, 2) for op in versioned},
    }


def _context() -> dict[str, Any]:
    """The schema of a context."""
    count = _ref("count")
    return {
        "description": (
            rules.CONTEXT
            + " A context out of these ranges is no fault of the script: the session refuses it."
        ),
        "type": "object",
        "required": ["channels", "length", "rate"],
        "properties": {
            "channels": count,
            "length": {**count, "description": "Frames."},
            "rate": {**count, "description": "Frames a second."},
            "renderQuantum": {
                **count,
                "description": "Frames that are rendered at a time.",
                "default": DEFAULT_QUANTUM,
            },
        },
    }


def schema() -> dict[str, Any]:
    """The schema of scripts."""
    return {
        "$schema": "https://json-schema.org/draft/2020-12/schema",
        "$id": "urn:waplay:script",
        "title": "A script of waplay",
        "description": (
            "A session of the Web Audio API in whole numbers. Further members are ignored"
            " everywhere."
        ),
        "$comment": (
            "Written by tools/makeschema, which has the operations from"
            " tools/waplay_tools/reporting/entries.py."
        ),
        "type": "object",
        "required": ["version", "context", "calls"],
        "properties": {
            "version": {
                "description": "The version of the format: 1 with times in frames, 2 in seconds.",
                "type": "integer",
                "enum": [1, 2],
            },
            "context": _context(),
            "calls": {"description": "The main list of calls.", "type": "array"},
        },
        "oneOf": [
            _version(1, "times are frames, as whole numbers"),
            _version(2, "times are seconds, as texts"),
        ],
        "$defs": _definitions(),
    }


def text() -> str:
    """The schema as the file has it."""
    return json.dumps(schema(), indent=2, ensure_ascii=False) + "\n"
