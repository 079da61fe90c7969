"""The answers that are to come up among those of random scripts."""

import re
from collections.abc import Iterator

from waplay_tools.expecting.automation import LEFT_OUT_EDITS
from waplay_tools.expecting.reading import LEFT_OUT, NumberedCall, numbered
from waplay_tools.expecting.sessions import LOOPS, PROMISES
from waplay_tools.random_scripts.kinds import Script

# The answers that are to come up, as they stand behind an ordinal or at the end, without numbers.
ANSWERS = """ok
pending
resolved
state suspended
state running
state closed
time
ended
complete
end completed
end idle
end refused NotSupportedError
script: BadJson
script: MissingField
script: WrongKind
script: UnknownOp
script: OutOfRange""".split(
    "\n"
)

# Those that come up where assets are read. The last is no answer, but stands for a run that has
# none.
UNREAD = "no transcript, since an asset cannot be read"
ASSET_ANSWERS = ["decodeAudioData resolved", UNREAD]

# Those that come up where suspensions are read.
SUSPENSION_ANSWERS = ["suspend resolved", "end stalled"]

# Those that come up where an operation is read.
OF_SOME = {
    "decodeAudioData": ASSET_ANSWERS,
    "readValue": ["value"],
    "suspend": SUSPENSION_ANSWERS,
}
# The refusals that are to come up, of each operation.
PROFILE = "NotSupportedError profile:"
OF_PARAMETERS = ["TypeError", PROFILE + "playback-rate-automation", PROFILE + "detune"]
REFUSALS = {
    "createConstantSource": [PROFILE + "node-limit"],
    "createGain": [PROFILE + "node-limit"],
    "createChannelSplitter": ["IndexSizeError", PROFILE + "node-limit"],
    "createChannelMerger": ["IndexSizeError", PROFILE + "node-limit"],
    "createWaveShaper": [PROFILE + "oversample", "InvalidStateError", PROFILE + "node-limit"],
    "createIIRFilter": ["NotSupportedError", "InvalidStateError", PROFILE + "node-limit"],
    "createConvolver": [
        "TypeError",
        PROFILE + "normalization",
        PROFILE + "response-channels",
        PROFILE + "resampling",
        PROFILE + "long-response",
        PROFILE + "loud-response",
        PROFILE + "node-limit",
    ],
    "createProcessor": [PROFILE + "program", PROFILE + "node-limit"],
    "createDelay": [
        "NotSupportedError",
        PROFILE + "long-delay",
        PROFILE + "node-limit",
        PROFILE + "delay-limit",
    ],
    "setCurve": ["TypeError", "InvalidStateError"],
    "setOversample": ["TypeError", PROFILE + "oversample"],
    "connect": [
        "TypeError",
        PROFILE + "destination-output",
        "IndexSizeError",
        PROFILE + "connection-limit",
    ],
    "disconnect": [
        "TypeError",
        PROFILE + "destination-output",
        "IndexSizeError",
        "InvalidAccessError",
    ],
    "connectParam": [
        *OF_PARAMETERS,
        PROFILE + "destination-output",
        "IndexSizeError",
        PROFILE + "connection-limit",
    ],
    "disconnectParam": [
        *OF_PARAMETERS,
        PROFILE + "destination-output",
        "IndexSizeError",
        "InvalidAccessError",
    ],
    "setValue": [*OF_PARAMETERS, "NotSupportedError"],
    "setValueAtTime": [*OF_PARAMETERS, "RangeError", "NotSupportedError"],
    "linearRampToValueAtTime": [*OF_PARAMETERS, "RangeError", "NotSupportedError"],
    "setValueCurveAtTime": [*OF_PARAMETERS, "InvalidStateError", "RangeError", "NotSupportedError"],
    "cancelScheduledValues": [*OF_PARAMETERS, "RangeError"],
    "cancelAndHoldAtTime": [*OF_PARAMETERS, "RangeError"],
    "setAutomationRate": OF_PARAMETERS,
    "readValue": OF_PARAMETERS,
    **{op: [*OF_PARAMETERS, PROFILE + feature] for op, feature in LEFT_OUT_EDITS.items()},
    "setChannelCount": ["TypeError", "NotSupportedError", "InvalidStateError"],
    "setChannelCountMode": ["TypeError", "NotSupportedError", "InvalidStateError"],
    "setChannelInterpretation": ["TypeError", "InvalidStateError"],
    "start": ["TypeError", "InvalidStateError", "RangeError"],
    "stop": ["TypeError", "InvalidStateError", "RangeError"],
    "createBufferSource": [
        "TypeError",
        PROFILE + "playback-rate",
        PROFILE + "resampling",
        PROFILE + "node-limit",
    ],
    "createBuffer": ["NotSupportedError", PROFILE + "buffer-limit"],
    "setBuffer": [
        "TypeError",
        "InvalidStateError",
        PROFILE + "late-buffer",
        PROFILE + "resampling",
    ],
    **dict.fromkeys(LOOPS, ["TypeError", PROFILE + "loop-change"]),
    "copyToChannel": ["TypeError", "IndexSizeError", PROFILE + "buffer-acquired"],
    "decodeAudioData": [
        "NotFoundError",
        PROFILE + "asset-size",
        "EncodingError",
        PROFILE + "resampling",
        PROFILE + "buffer-limit",
    ],
    **dict.fromkeys(("suspend", "startRendering", "resume"), ["InvalidStateError"]),
    **{op: [PROFILE + feature] for op, feature in LEFT_OUT.items()},
}


def operations_of(numbered: list[NumberedCall]) -> dict[int, str]:
    """Of each ordinal of these calls and those that they hold, the operation."""
    operations: dict[int, str] = {}
    for ordinal, call, held in numbered:
        operations.update({ordinal: call["op"], **operations_of(held)})
    return operations


def answers_of(script: Script, text: str) -> Iterator[str]:
    """The answers of a transcript as ANSWERS has them, and refusals with their operations before
    them."""
    operations = (
        {} if text.startswith("script: ") else operations_of(numbered(script["calls"], 1)[0])
    )
    if text == "":
        yield UNREAD
    for line in text.splitlines():
        if line.startswith("script: "):
            yield re.sub(r"^script: \d+ \S+ ", "script: ", line)
        elif re.match(r"(ended|complete|\d+ time|\d+ value) ", line):
            yield re.sub(r"^(?:\d+ )?(\w+) .*", r"\1", line)
        elif re.match(r"\d+ (throw|rejected) ", line) or (
            line.endswith(" resolved")
            and operations[int(line.split()[0])] in ("decodeAudioData", "suspend")
        ):
            yield operations[int(line.split()[0])] + " " + line.split(" ", 1)[1]
        else:
            yield re.sub(r"^\d+ | \d+$", "", line)


def wanted_answers(read: list[str]) -> list[str]:
    """The answers that are to come up where these operations are read."""
    wanted = list(ANSWERS)
    for op, answers in OF_SOME.items():
        wanted += answers if op in read else []
    for op, refusals in REFUSALS.items():
        if op in read or op in LEFT_OUT:
            how = "rejected" if op in PROMISES else "throw"
            wanted += [f"{op} {how} {refusal}" for refusal in refusals]
    return wanted
