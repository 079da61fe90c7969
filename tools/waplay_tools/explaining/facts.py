"""Facts: what is said of a session at one place, and the lines in which it is said."""

import re
from collections.abc import Callable
from typing import NamedTuple

from waplay_tools.expecting.graph import End
from waplay_tools.expecting.programs import CELLS

# What a fact says: one number, and of a processor's history its cells behind it.
Numbers = tuple[int, ...]


class Count(NamedTuple):
    """How many channels an output of an end has in a quantum."""

    quantum: int
    end: End
    output: int
    word: str = "count"


class In(NamedTuple):
    """What an input of an end hears at a frame on a channel."""

    frame: int
    end: End
    input: int
    channel: int
    word: str = "in"


class Par(NamedTuple):
    """What the value of a parameter is at a frame."""

    frame: int
    node: int
    name: str
    word: str = "par"


class Hist(NamedTuple):
    """What a node that remembers makes of a channel at a frame, also where it has no such channel
    or is muted."""

    frame: int
    node: int
    channel: int
    word: str = "hist"


class Out(NamedTuple):
    """What an output of an end carries at a frame on a channel."""

    frame: int
    end: End
    output: int
    channel: int
    word: str = "out"


# What a fact is about. The word at its end tells one form from another.
Key = Count | In | Par | Hist | Out


class Fact(NamedTuple):
    """A key, and what is said of it."""

    key: Key
    numbers: Numbers


def text_of(fact: Fact) -> str:
    """The line of a fact, with its end."""
    *places, word = fact.key
    texts = [_place_text(place) for place in places]
    return f"{word} {' '.join(texts)} = {' '.join(map(str, fact.numbers))}\n"


def _place_text(place: object) -> str:
    """A part of a key as it is written. An end is the number of its node, and a writer has a w
    behind it."""
    if isinstance(place, End):
        return f"{place.node}{'w' if place.is_writer else ''}"
    return str(place)


_NATURAL = rb"(0|[1-9][0-9]{0,19})"
_END = rb"((?:0|[1-9][0-9]{0,19})w?)"
_NAME = rb"(offset|gain|delayTime)"
_NUMBER = rb"(?:0|-?[1-9][0-9]{0,19})"


def _form(word: bytes, *places: bytes) -> re.Pattern[bytes]:
    """The form of the lines that begin with a word and have these parts behind it."""
    more = b"(?: %b){%d}" % (_NUMBER, CELLS)
    value = b"(%b%b)" % (_NUMBER, b"(?:%b)?" % more if word == b"hist" else b"")
    return re.compile(b" ".join([word, *places, b"=", value]))


def _end_of(text: bytes) -> End:
    """The end that is written so."""
    return End(int(text.rstrip(b"w")), text.endswith(b"w"))


# Of each word the form of its lines, and the key that the parts of one make.
_FORMS: dict[bytes, tuple[re.Pattern[bytes], Callable[..., Key]]] = {
    b"count": (
        _form(b"count", _NATURAL, _END, _NATURAL),
        lambda j, e, o: Count(int(j), _end_of(e), int(o)),
    ),
    b"in": (
        _form(b"in", _NATURAL, _END, _NATURAL, _NATURAL),
        lambda f, e, i, c: In(int(f), _end_of(e), int(i), int(c)),
    ),
    b"par": (
        _form(b"par", _NATURAL, _NATURAL, _NAME),
        lambda f, n, name: Par(int(f), int(n), name.decode()),
    ),
    b"hist": (
        _form(b"hist", _NATURAL, _NATURAL, _NATURAL),
        lambda f, n, c: Hist(int(f), int(n), int(c)),
    ),
    b"out": (
        _form(b"out", _NATURAL, _END, _NATURAL, _NATURAL),
        lambda f, e, o, c: Out(int(f), _end_of(e), int(o), int(c)),
    ),
}


def fact_of(line: bytes) -> Fact | None:
    """The fact that a line says, without its end; None where it has no form of a fact. Numbers are
    written in one way alone: without a plus, without zeros in front, and never as -0."""
    form, made = _FORMS.get(line.partition(b" ")[0], (None, None))
    found = form.fullmatch(line) if form else None
    if not found or not made:
        return None
    *places, value = found.groups()
    return Fact(made(*places), tuple(int(number) for number in value.split(b" ")))
