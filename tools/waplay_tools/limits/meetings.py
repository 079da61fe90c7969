"""Runs that meet a limit: each function makes the members of a case that has so many of what the
limit counts. Of calls the last one is the one that meets it; those before are done."""

import json
from collections.abc import Callable
from typing import Any

Members = dict[str, Any]
Call = dict[str, Any]

RATE = 16384  # at it a frame of a delay is 1,024 of its units, so that frames are told exactly
UNITS_A_FRAME = 2**24 // RATE
LONGEST_DELAY = 16 * RATE  # frames


def script(calls: list[Call], **context: int) -> Members:
    """A script of these calls, in a context of one frame where nothing else is said."""
    whole = {"channels": 1, "length": 1, "rate": RATE, **context}
    return {"script": {"version": 1, "context": whole, "calls": calls}}


def context(member: str, **others: int) -> Callable[[int], Members]:
    """Without calls, in a context whose member has the number."""
    return lambda number: script([], **{**others, member: number})


def calls(*before: Call, last: Call, field: str, **others: int) -> Callable[[int], Members]:
    """Calls whose last one has the number in this field."""
    return lambda number: script([*before, {**last, field: number}], **others)


def items(*before: Call, last: Call, field: str) -> Callable[[int], Members]:
    """Calls whose last one has a list of so many items in this field."""
    return lambda number: script([*before, {**last, field: [1] * number}])


def letters(last: Call, field: str) -> Callable[[int], Members]:
    """A call that has a text of so many letters in this field."""
    return lambda number: script([{**last, field: "x" * number}])


def script_bytes(number: int) -> Members:
    """A script without calls, and blanks behind it."""
    return {"input": json.dumps(script([])["script"]).ljust(number)}


def nesting(number: int) -> Members:
    """A script that holds arrays in a member that nothing reads; the script is the outermost."""
    text = json.dumps(script([])["script"])
    return {"input": text[:-1] + ', "x": ' + "[" * (number - 1) + "]" * (number - 1) + "}"}


def held_lists(number: int) -> Members:
    """A call within so many lists of suspensions, one in another, of which none is done."""
    call: Call = {"op": "readTime"}
    for _ in range(number):
        call = {"op": "suspend", "time": 0, "then": [call]}
    return script([call])


def exponent(number: int) -> Members:
    """A number with this exponent in a member that nothing reads."""
    return {"input": json.dumps(script([])["script"])[:-1] + f', "x": 1e{number}}}'}


def version(number: int) -> Members:
    """A script of this version, without calls."""
    members = script([])
    members["script"]["version"] = number
    return members


def seconds(text_of: Callable[[int], str], **context: int) -> Callable[[int], Members]:
    """A call of version 2 that is refused, whose time is the text of the number."""

    def made(number: int) -> Members:
        """The script of the number."""
        members = script([{"op": "stop", "node": "x", "when": text_of(number)}], **context)
        members["script"]["version"] = 2
        return members

    return made


def thousandths(number: int) -> str:
    """So many thousandths of a second, as text."""
    whole, rest = divmod(abs(number), 1000)
    return f"{'-' if number < 0 else ''}{whole}.{rest:03}"


def nodes(number: int) -> Members:
    """So many nodes, the destination among them."""
    return script([{"op": "createGain", "as": "g"}] * (number - 1))


def connections(number: int) -> Members:
    """A splitter and nine mergers, and so many connections from the one to the others."""
    mergers = [
        {"op": "createChannelMerger", "as": f"m{at}", "numberOfInputs": 32} for at in range(9)
    ]
    made = [
        {
            "op": "connect",
            "from": "p",
            "output": at % 32,
            "to": f"m{at // 1024}",
            "input": at // 32 % 32,
        }
        for at in range(number)
    ]
    return script(
        [{"op": "createChannelSplitter", "as": "p", "numberOfOutputs": 32}, *mergers, *made]
    )


def buffer_samples(number: int) -> Members:
    """Two buffers of so many samples in all."""
    most = 32 * 2**22 - 2**22
    shapes = [(31, 2**22), (1, number - most)]
    return script(
        [
            {"op": "createBuffer", "as": "b", "channels": channels, "length": length, "rate": RATE}
            for channels, length in shapes
        ]
    )


def delay_frames(quantum: int) -> Callable[[int], Members]:
    """Delays that keep the number of frames in all, where a quantum has so many: longest ones, one
    that is a quantum shorter, and one that has what is left, which is a quantum at least."""

    def made(number: int) -> Members:
        """The script of the number."""
        longest = number // LONGEST_DELAY - 1
        last = number - longest * LONGEST_DELAY - (LONGEST_DELAY - quantum)
        lengths = [*[LONGEST_DELAY] * longest, LONGEST_DELAY - quantum, last]
        creations = [
            {"op": "createDelay", "as": "d", "maxDelayTime": length * UNITS_A_FRAME}
            for length in lengths
        ]
        return script(creations, renderQuantum=quantum)

    return made


def short_delays(number: int) -> Members:
    """So many delays of a frame, each of which has a quantum of 1,024, behind 15 longest ones."""
    lengths = [*[LONGEST_DELAY] * 15, *[1] * number]
    creations = [
        {"op": "createDelay", "as": "d", "maxDelayTime": length * UNITS_A_FRAME}
        for length in lengths
    ]
    return script(creations, renderQuantum=1024)


def response(samples: list[int], **shape: int) -> Members:
    """A convolver whose response is a buffer of this shape, with these samples."""
    whole = {"channels": 1, "length": 1, "rate": RATE, **shape}
    return script(
        [
            {"op": "createBuffer", "as": "b", **whole},
            {"op": "copyToChannel", "buffer": "b", "channel": 0, "samples": samples},
            {"op": "createConvolver", "as": "v", "buffer": "b", "disableNormalization": True},
        ]
    )


def response_shape(member: str) -> Callable[[int], Members]:
    """A convolver whose response has the number in its shape."""
    return lambda number: response([], **{member: number})


def response_sample(number: int) -> Members:
    """A convolver whose response has this sample alone."""
    return response([number])


def program(*code: str) -> Members:
    """A processor with this program."""
    return script([{"op": "createProcessor", "as": "p", "code": list(code)}])


def instructions(number: int) -> Members:
    """A program of so many instructions, which negates its input again and again."""
    return program(*["in", *["neg"] * (number - 1)][:number])


def operands(number: int) -> Members:
    """A program that has so many values on its stack, and adds them up."""
    return program(*["in"] * number, *["add"] * (number - 1))


def instruction(text: str, *behind: str) -> Callable[[int], Members]:
    """A program whose second instruction has the number."""
    return lambda number: program("in", f"{text} {number}", *behind)


def jump_to(number: int) -> Members:
    """A program of three instructions whose jump goes on at this place."""
    return program("in", "dup", f"skipz {number - 3}")


def instruction_digits(number: int) -> Members:
    """A program with a number of so many digits."""
    return program(f"push {10 ** (number - 1)}")


def asset_bytes(number: int) -> Members:
    """An asset of so many zero bytes, which are no WAV file."""
    decode = {"op": "decodeAudioData", "as": "b", "path": "zeros"}
    return {**script([decode]), "files": {"zeros": {"zeros": number}}}


def frames_of_two_channels(number: int) -> Members:
    """A context of two channels with so many samples, or of five where the number is odd."""
    channels = 2 if number % 2 == 0 else 5
    assert number % channels == 0
    return script([], channels=channels, length=number // channels)


def generated(number: int) -> Members:
    """The load of this number, without samples."""
    return {"words": ["--gen", str(number), "--mode", "check", "out.wav"], "input": ""}


def digits(number: int) -> Members:
    """The load of 0, whose number is written with so many digits."""
    return {"words": ["--gen", "0" * number, "--mode", "check", "out.wav"], "input": ""}


def words(number: int) -> Members:
    """So many words that are no options."""
    return {**script([]), "words": ["out.wav"] * number}


def option_uses(option: str, text: str) -> Callable[[int], Members]:
    """An option that stands so many times."""
    return lambda number: {**script([]), "words": [option, text] * number + ["out.wav"]}


def out_bytes(number: int) -> Members:
    """An OUT of so many letters; one letter is enough."""
    return {**script([]), "words": ["x" * number]}
