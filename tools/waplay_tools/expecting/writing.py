"""Scripts of version 2 as they are written. The rules are those of docs/FORMATS.md."""

import json
from typing import Any

from waplay_tools.expecting.numbers import DEFAULT_QUANTUM, rounded_quotient
from waplay_tools.expecting.programs import NUMBERS, code_of
from waplay_tools.expecting.reading import READ, Call

BILLION = 10**9


def seconds_of(frame: int, rate: int) -> str:
    """The seconds that a frame has at a rate: nine digits behind the point, a half going up."""
    billionths = rounded_quotient(frame * BILLION, rate)
    whole, rest = divmod(abs(billionths), BILLION)
    return f"{'-' if billionths < 0 else ''}{whole}.{rest:09}"


def instructions(code: list[str]) -> list[str]:
    """The instructions of a program, without zeros in front of their numbers."""
    return [f"{word} {number}" if word in NUMBERS else word for word, number in code_of(code)]


def written(value: Any, kind: str, rate: int) -> Any:
    """The JSON value of a field of this kind."""
    if kind == "time" and value is not None:
        return seconds_of(value, rate)
    if kind == "code":
        return instructions(value)
    if kind == "calls":
        return [written_call(call, rate) for call in value]
    return value


def written_call(call: Call, rate: int) -> Call:
    """The JSON object of a call: all fields of its entry, those that are absent with their
    defaults, but no list of calls that is empty."""
    members: Call = {"op": call["op"]}
    for field, kind, *default in READ[call["op"]]:
        value = call[field] if field in call else default[0]
        if kind != "calls" or value:
            members[field] = written(value, kind, rate)
    return members


def script_text(script: dict[str, Any]) -> bytes:
    """The text of a script whose times are frames: version 2, without white space, and the members
    of each object in the order of their bytes."""
    context = {"renderQuantum": DEFAULT_QUANTUM, **script["context"]}
    value = {
        "version": 2,
        "context": {
            field: context[field] for field in ("channels", "length", "rate", "renderQuantum")
        },
        "calls": [written_call(call, context["rate"]) for call in script["calls"]],
    }
    text = json.dumps(value, ensure_ascii=False, separators=(",", ":"), sort_keys=True)
    return text.encode()
