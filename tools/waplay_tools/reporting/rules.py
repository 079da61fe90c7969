"""The rules by which calls are refused, and the faults of scripts, in words."""

from typing import Any

from waplay_tools.expecting.programs import NUMBERS
from waplay_tools.reporting import entries
from waplay_tools.reporting.following import Row
from waplay_tools.reporting.script_reading import Call, Script
from waplay_tools.reporting.text import as_it_is, grouped, shown
from waplay_tools.reporting.transcript_reading import Line

# The rule of each feature, where it does not hang on the operation.
FEATURES = {
    "oscillator": "Oscillators are not part of the profile.",
    "periodic-wave": "Periodic waves, which only oscillators use, are not part of the profile.",
    "biquad": "Biquad filters are not part of the profile; an IIR filter may take their place.",
    "stereo-panner": "Stereo panners are not part of the profile.",
    "panner": "Panners are not part of the profile.",
    "listener": "The listener, which only panners use, is not part of the profile.",
    "compressor": "Dynamics compressors are not part of the profile.",
    "analyser": "Analysers are not part of the profile.",
    "media-element-source": (
        "Sources of media elements are not part of the profile: nothing is played from a page."
    ),
    "media-stream-source": (
        "Sources of media streams are not part of the profile: nothing live is heard."
    ),
    "media-stream-track-source": (
        "Sources of tracks of media streams are not part of the profile: nothing live is heard."
    ),
    "media-stream-destination": "Destinations that are media streams are not part of the profile.",
    "script-processor": "Nodes that run a page's own code are not part of the profile.",
    "audio-worklet": "Nodes that run a page's own code are not part of the profile.",
    "exponential-ramp": (
        "Exponential ramps are not part of the profile; linear ramps and curves are."
    ),
    "set-target": (
        "Approaching a target exponentially is not part of the profile; linear ramps and curves"
        " are."
    ),
    "oversample": "A wave shaper does not oversample: `none` is the only word that is accepted.",
    "resampling": "Nothing is resampled: the rate of the buffer or file has to be the context's.",
    "playback-rate": "A playback rate is 1, 2, 3 and so on: a positive multiple of 16777216.",
    "playback-rate-automation": (
        "The playback rate of a source stays as it was created: no call reads or changes it."
    ),
    "detune": "Detuning is not part of the profile: no call reads or changes it.",
    "loop-change": "The loop of a source can't be changed once the source was started.",
    "late-buffer": "The buffer of a source can't be set once the source was started.",
    "buffer-acquired": (
        "A buffer can't be written once a source that has it was started or a convolver was made"
        " with it."
    ),
    "destination-output": "The destination has no output that could be connected or disconnected.",
    "long-delay": "A delay may be at most 16 seconds long: a `maxDelayTime` of 268435456.",
    "normalization": (
        "The response of a convolver is taken as it is: `disableNormalization` has to be true."
    ),
    "response-channels": "The response of a convolver has one channel.",
    "long-response": "The response of a convolver may have at most 16,384 frames.",
    "loud-response": (
        "A sample of a convolver's response is from -33554432 to 33554432, which is from -2 to 2."
    ),
    "program": (
        "A processor's program is accepted where nothing in it can go wrong. Its places are counted"
        " from 0."
    ),
    "asset-size": "A file may have at most 67,108,864 bytes.",
    "node-limit": "A session may have at most 1,024 nodes, the destination among them.",
    "connection-limit": "A session may have at most 8,192 connections.",
    "buffer-limit": "All buffers of a session may have at most 134,217,728 samples together.",
    "delay-limit": "The delays of a session would hold more than they may together.",
}

_LISTS = "Each of the two lists has from 1 to 20 items."
_CURVE = (
    "A curve has 2 points or more, and is set once: taking it away does not make room for another"
    " one."
)
_IN_CURVE = (
    "The time lies within a curve of values, during which nothing else may set the parameter."
)
_SOURCE_TIMES = (
    "A source has no negative `when`, and a buffer source no negative `offset` or `duration`."
)

# The rule of each operation and exception that names no feature.
_OF_OPERATION: dict[tuple[str, str | None], str] = {
    ("createDelay", "NotSupportedError"): "The `maxDelayTime` of a delay is above 0.",
    ("createChannelSplitter", "IndexSizeError"): "A splitter has from 1 to 32 outputs.",
    ("createChannelMerger", "IndexSizeError"): "A merger has from 1 to 32 inputs.",
    ("createWaveShaper", "InvalidStateError"): "A curve has 2 points or more.",
    ("createIIRFilter", "NotSupportedError"): _LISTS,
    (
        "createIIRFilter",
        "InvalidStateError",
    ): (
        "At least one feedforward coefficient differs from 0, and so does the first feedback"
        " coefficient."
    ),
    (
        "createBuffer",
        "NotSupportedError",
    ): (
        "A buffer has from 1 to 32 channels, 1 frame or more, and from 8,000 to 96,000 frames a"
        " second."
    ),
    (
        "connect",
        "IndexSizeError",
    ): (
        "`output` is the number of an output of `from`, and `input` that of an input of `to`, "
        "both counted from 0: one of them is not there."
    ),
    (
        "connectParam",
        "IndexSizeError",
    ): "`output` is the number of an output of `from`, counted from 0: it is not there.",
    (
        "disconnect",
        "IndexSizeError",
    ): (
        "`output` is the number of an output of `from`, and `input` that of an input of "
        "`to`, both counted from 0: one of them is not there."
    ),
    ("disconnect", "InvalidAccessError"): "There is no connection that the call means.",
    (
        "disconnectParam",
        "IndexSizeError",
    ): "`output` is the number of an output of `from`, counted from 0: it is not there.",
    ("disconnectParam", "InvalidAccessError"): "There is no connection that the call means.",
    (
        "setChannelCount",
        "NotSupportedError",
    ): "A channelCount is from 1 to 32, and that of a convolver 1 or 2.",
    (
        "setChannelCount",
        "InvalidStateError",
    ): "The channelCount of this node is fixed, and the value is another one.",
    (
        "setChannelCountMode",
        "NotSupportedError",
    ): "The channelCountMode of a convolver is `clamped-max` or `explicit`.",
    (
        "setChannelCountMode",
        "InvalidStateError",
    ): "The channelCountMode of this node is fixed, and the value is another one.",
    (
        "setChannelInterpretation",
        "InvalidStateError",
    ): "The channelInterpretation of this node is fixed, and the value is another one.",
    ("setCurve", "InvalidStateError"): _CURVE,
    (
        "setBuffer",
        "InvalidStateError",
    ): (
        "A buffer is set once, at creation or later: taking it away does not make room for another"
        " one."
    ),
    (
        "copyToChannel",
        "IndexSizeError",
    ): "The buffer has no channel with this number; channels are counted from 0.",
    ("start", "InvalidStateError"): "A source is started once.",
    ("start", "RangeError"): _SOURCE_TIMES,
    ("stop", "InvalidStateError"): "A source can't be stopped before it was started.",
    ("stop", "RangeError"): "A source has no negative `when`.",
    (
        "setValue",
        "NotSupportedError",
    ): "A curve of values is under way, during which nothing else may set the parameter.",
    ("setValueAtTime", "RangeError"): "A time is not negative.",
    ("setValueAtTime", "NotSupportedError"): _IN_CURVE,
    ("linearRampToValueAtTime", "RangeError"): "A time is not negative.",
    ("linearRampToValueAtTime", "NotSupportedError"): _IN_CURVE,
    ("setValueCurveAtTime", "InvalidStateError"): "A curve of values has 2 or more of them.",
    (
        "setValueCurveAtTime",
        "RangeError",
    ): "A curve's time is not negative, and its duration is above 0.",
    (
        "setValueCurveAtTime",
        "NotSupportedError",
    ): (
        "A curve of values does not begin within another one, and no event lies between its first"
        " frame and its end."
    ),
    ("cancelScheduledValues", "RangeError"): "A time is not negative.",
    ("cancelAndHoldAtTime", "RangeError"): "A time is not negative.",
    (
        "suspend",
        "InvalidStateError",
    ): (
        "A suspension comes at the end of a quantum, rounded up, after the present and before the"
        " length; one end has one suspension."
    ),
    ("startRendering", "InvalidStateError"): "Rendering is started once.",
    (
        "resume",
        "InvalidStateError",
    ): "There is nothing to resume before rendering was started and after it was finished.",
    ("decodeAudioData", "NotFoundError"): "There is no file at this path in the folder of assets.",
    (
        "decodeAudioData",
        "EncodingError",
    ): "The file is no WAV file with PCM samples of 8, 16, 24 or 32 bits.",
}

# Where no rule is told apart, as in transcripts of programs with more operations.
_OF_EXCEPTION = {
    "NotSupportedError": "The values of the call are not supported.",
    "InvalidStateError": "The call is not possible in the state that its object is in.",
    "InvalidAccessError": "What the call names is not there.",
    "IndexSizeError": "A number of the call is past what there is.",
    "RangeError": "A time of the call is out of its range.",
    "TypeError": "A name of the call stands for no object that the call asks for.",
    "NotFoundError": "There is no such file.",
    "EncodingError": "The file can't be decoded.",
}

_BUFFER_SOURCE = "`node` has to stand for a buffer source"
_PARAMETER = "`node` has to stand for a node that has the parameter `param`"

# What the names of an operation have to stand for; else it is a TypeError.
_NAMES = {
    "createConvolver": "`buffer` has to stand for a buffer",
    "createBufferSource": "`buffer` has to stand for a buffer",
    "connect": "`from` and `to` have to stand for nodes",
    "connectParam": (
        "`from` and `to` have to stand for nodes, and `to` has to have the parameter `param`"
    ),
    "disconnect": "`from`, and `to` where it is there, have to stand for nodes",
    "disconnectParam": (
        "`from` and `to` have to stand for nodes, and `to` has to have the parameter `param`"
    ),
    "setCurve": "`node` has to stand for a wave shaper",
    "setOversample": "`node` has to stand for a wave shaper",
    "setBuffer": _BUFFER_SOURCE + ", and `buffer`, where it is not null, for a buffer",
    "setLoop": _BUFFER_SOURCE,
    "setLoopStart": _BUFFER_SOURCE,
    "setLoopEnd": _BUFFER_SOURCE,
    "copyToChannel": "`buffer` has to stand for a buffer",
    "start": "`node` has to stand for a constant source or a buffer source",
    "stop": "`node` has to stand for a constant source or a buffer source",
    "setChannelCount": "`node` has to stand for a node",
    "setChannelCountMode": "`node` has to stand for a node",
    "setChannelInterpretation": "`node` has to stand for a node",
    **dict.fromkeys(entries.PARAMETER_CALLS, _PARAMETER),
}

CONTEXT = (
    "A context has from 1 to 32 channels, from 1 to 33,554,432 frames, from 8,000 to 96,000 frames"
    " a second, at most 67,108,864 samples, and a render quantum of 32, 64, 128, 256, 512 or 1,024"
    " frames."
)


def rule(op: Any, exception: str | None, feature: str | None) -> str:
    """The rule by which a call of the operation was refused so, with code between backquotes."""
    if feature:
        return FEATURES.get(feature, "The profile leaves this out.")
    if exception == "TypeError" and op in _NAMES:
        return _NAMES[op] + "."
    return _OF_OPERATION.get((op, exception), _OF_EXCEPTION.get(exception or "", ""))


_KINDS = {
    "bool": "true or false",
    "list": "an array of whole numbers, each from %s to %s" % tuple(
        map(grouped, entries.RANGES["fix"])
    ),
    "name": "a string, the name of an object",
    "param": "a string, the name of a parameter",
    "new name": "a string of 1 to 64 ASCII letters, digits, `_` or `-`, and not `destination`",
    "path": "a string of 1 to 255 bytes",
    "code": (
        "an array of instructions, each a string of a word and for some words a space and a number,"
        " %s to %s for `push` and 0 to %s for the others"
        % tuple(map(grouped, (*NUMBERS["push"], NUMBERS["load"][1])))
    ),
    "calls": "an array of calls",
    "object": "an object",
    **{
        kind: "a whole number from %s to %s" % tuple(map(grouped, ends))
        for kind, ends in entries.RANGES.items()
    },
}

_SECONDS = (
    "a string of seconds: an optional minus, 1 to 10 digits, and optionally a point with 1 to 9"
    " digits, for a frame from %s to %s" % tuple(map(grouped, entries.RANGES["time"]))
)

_SCRIPT_FIELDS = {
    "script": "object",
    "version": "count",
    "context": "object",
    "channels": "count",
    "length": "count",
    "rate": "count",
    "renderQuantum": "count",
    "calls": "calls",
}


def kind_in_words(kind: str, default: list[Any]) -> str:
    """What a field of the kind may be."""
    base = kind.replace(" or null", "")
    told = _KINDS.get(base) or "one of the words " + ", ".join(f"`{word}`" for word in base.split())
    return told + (", or null" if default == [None] or kind != base else "")


def _field(ordinal: int | None, field: str | None, op: Any, version: int) -> str:
    """What a field that has a fault may be, in words."""
    if ordinal == 0:
        return "1 or 2" if field == "version" else _KINDS[_SCRIPT_FIELDS.get(field or "", "object")]
    for name, kind, *default in entries.fields_of(op):
        if name == field and kind == "time" and version == 2:
            return _SECONDS + (", or null" if default == [None] else "")
        if name == field:
            return kind_in_words(kind, default)
    return "an object"


def fault(line: Line, call: Call | None, script: Script) -> str:
    """The fault of a script that a line tells, in words."""
    if line.word == "BadJson":
        return f"The script is no JSON text: {script.reason}."
    if line.word == "UnknownOp":
        if call and isinstance(call.op, str) and call.op in entries.OPERATIONS:
            return "The program that wrote the transcript does not read this operation."
        told = (
            "has no member `op`"
            if not call or "op" not in call.members
            else f"has the `op` {as_it_is(shown(call.op))}"
        )
        return f"The call {told}, which is no operation."
    of = f"Call {grouped(line.ordinal)}" if line.ordinal else "The script"
    wanted = _field(line.ordinal, line.field, call.op if call else None, script.version())
    if line.word == "MissingField":
        if call and call.op == "disconnect" and line.field != "from":
            return (
                f"An `input` of `disconnect` needs `to` and `output` beside it: `{line.field}` is"
                " missing."
            )
        return f"{of} has no member `{line.field}`, which has to be there: {wanted}."
    if line.field == "script":
        return "The script is no object."
    if line.field == "call":
        return f"{of} is no object."
    members = call.members if call else {}
    found = f" It is {as_it_is(shown(members[line.field]))}." if line.field in members else ""
    told = "is of another kind" if line.word == "WrongKind" else "is out of range"
    return f"`{line.field}` {told}: it has to be {wanted}.{found}"


# What the last line says of a session.
_ENDS = {
    "completed": "The context was rendered to its length, and the WAV file was written.",
    "idle": "Rendering was not started: nothing was rendered, and no file was written.",
    "stalled": "The suspension was not resumed by its list: no file was written.",
    "refused": CONTEXT + " No call was run.",
}


def meaning(row: Row, script: Script) -> str:
    """What a line says, in words; an empty text where it speaks for itself."""
    line, call = row.line, row.call
    if line.kind in ("throw", "rejected") and call:
        return (rule(call.op, line.exception, line.feature) + " " + row.detail).strip()
    if line.kind == "script":
        return fault(line, call, script)
    if line.kind == "end":
        return _ENDS[line.word or ""]
    if line.kind == "ended":
        return row.detail
    if line.kind == "complete":
        return "The complete event, with the context's length in frames."
    if line.kind == "resolved" and call and call.op in entries.PENDING:
        return f"The promise of call {call.ordinal}."
    return ""
