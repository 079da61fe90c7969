"""Checking: whether each fact of a text follows from those above it."""

from typing import NamedTuple

from waplay_tools.explaining.equations import Equations
from waplay_tools.explaining.facts import Fact, Key, Numbers, fact_of, text_of
from waplay_tools.explaining.tape import Tape


class Wrong(NamedTuple):
    """The first line that is wrong, from 1 on, and why: it is no fact, it lacks a need, or it has
    another value."""

    line: int
    why: str


def checked(tape: Tape, text: bytes) -> Fact | Wrong | None:
    """The last fact of a text in which each one follows from those above it; of another text its
    first wrong line, and None of the empty one. A rest without an end of line is a line that is no
    fact. A fact may stand more than once."""
    equations = Equations(tape)
    known: dict[Key, Numbers] = {}
    *lines, rest = text.split(b"\n")
    fact: Fact | None = None
    for number, line in enumerate(lines, 1):
        fact = fact_of(line)
        why = fault_of(equations, known, fact)
        if why or fact is None:
            return Wrong(number, why)
        known[fact.key] = fact.numbers
    return Wrong(len(lines) + 1, "no fact") if rest else fact


def fault_of(equations: Equations, known: dict[Key, Numbers], fact: Fact | None) -> str:
    """What is wrong with a fact below facts that are known; nothing where that is all right."""
    if fact is None or not equations.is_fact(fact):
        return "no fact"
    equation = equations.of(fact.key)
    try:
        need = next(equation)
        while need in known:
            need = equation.send(known[need])
    except StopIteration as end:
        return "" if end.value == fact.numbers else "another value"
    return "lacks a need"


def verdict(tape: Tape, text: bytes) -> str:
    """The line that says whether a text is checked."""
    found = checked(tape, text)
    if found is None:
        return "invalid empty\n"
    if isinstance(found, Wrong):
        return f"invalid {found.line}\n"
    return f"valid {text_of(found)}"
