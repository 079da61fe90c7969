"""What a case writes short: runs of numbers, calls that are made again, ranges of lines."""

import json
import re
from typing import Any

_PLACE = re.compile(r"\{(\w+)((?:[*+-]\d+)*)\}")
_STEP = re.compile(r"([*+-])(\d+)")
_RANGE = re.compile(r"(\d+)\.\.(\d+) (.*)")


def runs_in(runs: list[list[Any]]) -> list[int]:
    """The numbers of runs: how many, the first one, and what each has more than the one before; or
    how many times, and the runs that come so often."""
    numbers: list[int] = []
    for count, first, *step in runs:
        numbers += [first + step[0] * at for at in range(count)] if step else runs_in(first) * count
    return numbers


def runs_of(numbers: list[int]) -> list[list[int]]:
    """Runs that have these numbers, each as long as it goes. Two numbers that differ are no run."""
    runs, at = [], 0
    while at < len(numbers):
        step = numbers[at + 1] - numbers[at] if at + 1 < len(numbers) else 0
        end = at + 1
        while end < len(numbers) and numbers[end] - numbers[end - 1] == step:
            end += 1
        if end - at == 2 and step:
            end, step = at + 1, 0
        runs.append([end - at, numbers[at], step])
        at = end
    return runs


def lines_in(lines: list[str]) -> list[str]:
    """The lines, where `2..5 ok` stands for four of them."""
    all_lines = []
    for line in lines:
        several = _RANGE.fullmatch(line)
        if several:
            first, last = int(several[1]), int(several[2])
            all_lines += [f"{number} {several[3]}" for number in range(first, last + 1)]
        else:
            all_lines.append(line)
    return all_lines


def calls_in(calls: list[Any]) -> list[Any]:
    """The calls, where {"for": "n", "first": 0, "last": 5, "calls": [..]} is six times those.

    In them "{n}" is the number, and "{n*128+1}" what it comes to, from left to right.
    """
    return _calls(calls, {})


def script_bytes(told: dict[str, Any]) -> bytes:
    """The text of a script whose calls may be written short."""
    script = dict(told)
    if isinstance(script.get("calls"), list):
        script["calls"] = calls_in(script["calls"])
    return json.dumps(script).encode()


def _calls(calls: list[Any], numbers: dict[str, int]) -> list[Any]:
    made = []
    for call in calls:
        if isinstance(call, dict) and "for" in call:
            for number in range(call["first"], call["last"] + 1):
                made += _calls(call["calls"], {**numbers, call["for"]: number})
        else:
            made.append(_value(call, numbers))
    return made


def _value(value: Any, numbers: dict[str, int]) -> Any:
    """A value of a call, with its places filled and its runs written out."""
    if isinstance(value, dict):
        if set(value) == {"runs"}:
            return runs_in(value["runs"])
        return {
            name: (
                _calls(it, numbers)
                if name == "then" and isinstance(it, list)
                else _value(it, numbers)
            )
            for name, it in value.items()
        }
    if isinstance(value, list):
        return [_value(it, numbers) for it in value]
    return _filled(value, numbers) if isinstance(value, str) and numbers else value


def _filled(text: str, numbers: dict[str, int]) -> Any:
    whole = _PLACE.fullmatch(text)
    if whole and whole[1] in numbers:
        return _number(whole, numbers)
    return _PLACE.sub(lambda it: str(_number(it, numbers)) if it[1] in numbers else it[0], text)


def _number(place: re.Match[str], numbers: dict[str, int]) -> int:
    number = numbers[place[1]]
    for sign, other in _STEP.findall(place[2]):
        number = {"*": number * int(other), "+": number + int(other), "-": number - int(other)}[
            sign
        ]
    return number
