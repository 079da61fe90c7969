"""Deriving: the facts that a sample hangs on, each behind those that it needs."""

from collections.abc import Mapping

from waplay_tools.expecting.graph import End
from waplay_tools.explaining.equations import Equation, Equations
from waplay_tools.explaining.facts import Fact, Key, Numbers, Out, text_of
from waplay_tools.explaining.tape import Tape

MOST_KEYS = 2**20
MOST_BYTES = 2**26


class TooLong(Exception):
    """A derivation of too many facts or of too many bytes."""


def sample_key(frame: int, channel: int) -> Key:
    """The key of a sample: what the destination carries."""
    return Out(frame, End(0, False), 0, channel)


def needs_of(equations: Equations, key: Key, known: Mapping[Key, Numbers]) -> list[Key]:
    """What a key needs, in order, where all of that is known."""
    equation, needs = equations.of(key), []
    try:
        needs.append(next(equation))
        while True:
            needs.append(equation.send(known[needs[-1]]))
    except StopIteration:
        return needs


def derivation(tape: Tape, key: Key) -> list[str]:
    """The lines of the facts that a key hangs on, and last its own. Each key stands once, and its
    needs are derived one after the other."""
    equations = Equations(tape)
    known: dict[Key, Numbers] = {}
    open_keys: list[tuple[Key, Equation]] = [(key, equations.of(key))]
    lines: list[str] = []
    room = MOST_BYTES
    told: Numbers | None = None  # what the last need says
    while open_keys:
        place, equation = open_keys[-1]
        try:
            need = next(equation) if told is None else equation.send(told)
        except StopIteration as end:
            known[place] = told = end.value
            lines.append(text_of(Fact(place, end.value)))
            room -= len(lines[-1])
            if room < 0:
                raise TooLong
            open_keys.pop()
            continue
        told = known.get(need)
        if told is None:
            open_keys.append((need, equations.of(need)))
            if len(known) + len(open_keys) > MOST_KEYS:
                raise TooLong
    return lines
