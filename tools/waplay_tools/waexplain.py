"""What waexplain answers, by the second calculation."""

from collections.abc import Callable
from typing import NamedTuple

from waplay_tools.expecting.nodes import AssetFault, asset
from waplay_tools.explaining.checking import verdict
from waplay_tools.explaining.deriving import MOST_BYTES, TooLong, derivation, sample_key
from waplay_tools.explaining.tape import NoTape, Tape, tape_of
from waplay_tools.explaining.words import is_place
from waplay_tools.script_tools import MOST_BYTES as MOST_OF_SCRIPT
from waplay_tools.script_tools import are_texts

USAGE = "words: waexplain derive FRAME CHANNEL OUT | check IN\n"


class Answer(NamedTuple):
    """A status, the text that is printed, and the derivation where there is one."""

    status: int
    text: str
    derivation: str | None = None


def derived(tape: Tape, frame: int, channel: int) -> Answer:
    """The answer where a sample is derived."""
    if frame >= tape.length or channel >= tape.channels:
        return Answer(13, "out of range\n")
    try:
        lines = derivation(tape, sample_key(frame, channel))
    except TooLong:
        return Answer(11, "too long\n")
    return Answer(0, f"facts {len(lines)}\n", "".join(lines))


def checked(tape: Tape, text: bytes | None) -> Answer:
    """The answer where a text is checked; None is that of a file that is not there."""
    if text is None:
        line = "invalid missing\n"
    elif len(text) > MOST_BYTES:
        line = "invalid long\n"
    else:
        line = verdict(tape, text)
    return Answer(0 if line.startswith("valid") else 12, line)


def answered(data: bytes, folder: str, answer: Callable[[Tape], Answer]) -> Answer:
    """The answer to the tape of a script of these bytes, whose assets are in the folder; or the one
    that says why there is no tape."""
    try:
        return answer(tape_of(data, folder))
    except NoTape as no_tape:
        return Answer(no_tape.status, f"{no_tape.line}\n")
    except AssetFault:
        return Answer(7, "")


class Derive(NamedTuple):
    """Words that ask for the derivation of a sample, and the file that it is written to."""

    frame: int
    channel: int
    out: str


class Check(NamedTuple):
    """Words that ask whether the text of a file is a derivation."""

    text: str


def request_of(words: list[str]) -> Derive | Check | None:
    """What words ask for; None where they have no reading, as one that is not UTF-8."""
    if not are_texts(words):
        return None
    match words:
        case ["derive", frame, channel, out] if is_place(frame) and is_place(channel):
            return Derive(int(frame), int(channel), out)
        case ["check", text]:
            return Check(text)
    return None


def answer_to(words: list[str], data: bytes, folder: str) -> Answer:
    """The answer to these words and a script of these bytes, in a folder."""
    asked = request_of(words)
    if asked is None:
        return Answer(2, USAGE)
    if len(data) > MOST_OF_SCRIPT:
        return Answer(5, "")
    if isinstance(asked, Derive):
        frame, channel, _ = asked
        return answered(data, folder, lambda tape: derived(tape, frame, channel))
    name = asked.text
    return answered(
        data, folder, lambda tape: checked(tape, asset(folder, name) if name else None)
    )
