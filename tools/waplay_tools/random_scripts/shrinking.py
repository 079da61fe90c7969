"""Makes a script smaller that a program differs on."""

import copy
from collections.abc import Iterator
from pathlib import Path
from typing import Any

from waplay_tools.random_scripts.comparing import differences
from waplay_tools.random_scripts.kinds import Script
from waplay_tools.shrinking import shortened


def lists_of(calls: Any) -> Iterator[list]:
    """A list of calls, and those that its calls hold."""
    if isinstance(calls, list):
        yield calls
        for call in calls:
            if isinstance(call, dict):
                yield from lists_of(call.get("then"))


def list_at(script: Script, number: int) -> list:
    """The list of calls with this number; an empty one where there are not so many."""
    lists = list(lists_of(script.get("calls")))
    return lists[number] if number < len(lists) else []


def shrunk_at(program: Path, script: Script, number: int) -> Script:
    """The script without calls of one list that no difference hangs on."""

    def with_calls(calls: list) -> Script:
        """The script with these calls in that list."""
        other = copy.deepcopy(script)
        list_at(other, number)[:] = calls
        return other

    calls = list_at(script, number)
    return with_calls(
        shortened(calls, lambda less: bool(differences(program, with_calls(less))[0]))
    )


def shrunk(program: Path, script: Script) -> Script:
    """The script without calls that no difference hangs on, first those of its main list."""
    number = 0
    while number < len(list(lists_of(script.get("calls")))):
        script = shrunk_at(program, script, number)
        number += 1
    return script
