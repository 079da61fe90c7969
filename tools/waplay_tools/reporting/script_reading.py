"""Reads scripts: their calls with ordinals, and their first fault by the rules of docs/FORMATS.md.

Calls are also given of a script with a fault, as far as there are any, so that a fault can be shown
where it stands. It reads all operations of the format, also those that the program does not read
yet. The times of its calls are frames in either version: what stands for the seconds of version 2.
"""

from typing import Any

from waplay_tools.expecting import reading
from waplay_tools.expecting.numbers import DEFAULT_QUANTUM, QUANTA
from waplay_tools.reporting import entries
from waplay_tools.reporting.text import BadInput, Written, visible


class Call:
    """A call of a script: what stands at its place, its ordinal, and the ordinals around it."""

    def __init__(self, ordinal: int, value: Any, holder: int, depth: int) -> None:
        self.ordinal, self.value, self.holder, self.depth = ordinal, value, holder, depth
        self.members: dict[str, Any] = value if isinstance(value, dict) else {}
        self.op: Any = self.members.get("op")
        self.held: list[int] = []  # the ordinals of the calls of its list

    def field(self, name: str) -> Any:
        """The value of a field, which is its default where it is absent."""
        for field, _, *default in entries.fields_of(self.op):
            if field == name:
                return self.members.get(name, *default)
        return None


class Script:
    """A script: its value, its calls in document order, and its first fault if it has one."""

    def __init__(self, value: Any, calls: list[Call], fault: str | None, reason: str = "") -> None:
        self.value, self.calls, self.fault, self.reason = value, calls, fault, reason
        # None stands for the ordinal of a line that has none, and so for no call.
        self.by_ordinal: dict[int | None, Call] = {call.ordinal: call for call in calls}

    def version(self) -> int:
        """The version of the format in which it is written; 1 where that can't be told."""
        version = self.value.get("version") if isinstance(self.value, dict) else None
        return version if type(version) is int and version in reading.VERSIONS else 1

    def context(self, name: str) -> int:
        """A number of the context; 0 where the script has a fault there."""
        context = self.value.get("context") if isinstance(self.value, dict) else None
        number = context.get(name) if isinstance(context, dict) else None
        return number if type(number) is int else 0

    def quantum(self) -> int:
        """The frames of a render quantum; those by default where the context tells none that there
        are."""
        told = self.context("renderQuantum")
        return told if told in QUANTA else DEFAULT_QUANTUM


def _put_frames(call: Call, rate: int) -> None:
    """Puts frames in the place of the seconds of a call. What has a fault stays."""
    for field, kind, *_ in entries.fields_of(call.op if isinstance(call.op, str) else None):
        written = call.members.get(field)
        if kind == "time" and reading.cause(written, kind, rate) is None:
            call.members[field] = reading.frame_of(written, rate)


def _look_at(value: Any, calls: list[Call]) -> None:
    """Raises the first fault of a script, if it has one. Afterwards its times are frames."""
    reading.look_at_head(value)
    rate = reading.rate_of(value)
    try:
        for call in calls:
            reading.look_at_call(call.ordinal, call.value, entries.OPERATIONS, rate)
    finally:
        for call in calls if rate is not None else []:
            _put_frames(call, rate or 0)


def _numbered(values: list[Any], holder: int, depth: int, calls: list[Call]) -> list[int]:
    """Appends the calls of a list, and those that they hold, in document order. The answer is the
    ordinals of the calls of the list itself."""
    ordinals = []
    for value in values:
        call = Call(len(calls) + 1, value, holder, depth)
        calls.append(call)
        ordinals.append(call.ordinal)
        held = call.members.get("then")
        if entries.holds_calls(call.op) and isinstance(held, list):
            call.held = _numbered(held, call.ordinal, depth + 1, calls)
    return ordinals


def script_of(data: bytes) -> Script:
    """The script that the bytes are, with its first fault if it has one."""
    try:
        value = reading.json_of(data, Written)
    except ValueError as error:
        return Script(None, [], "BadJson", str(error))
    calls: list[Call] = []
    listed = value.get("calls") if isinstance(value, dict) else None
    _numbered(listed if isinstance(listed, list) else [], 0, 0, calls)
    try:
        _look_at(value, calls)
    except reading.Fault as fault:
        return Script(value, calls, str(fault))
    return Script(value, calls, None)


def bytes_of(path: str) -> bytes:
    """The bytes of a file that a tool is handed."""
    try:
        with open(path, "rb") as file:
            return file.read()
    except (OSError, ValueError) as error:
        reason = getattr(error, "strerror", None) or "no path of a file"
        raise BadInput(f"{visible(path)} can't be read: {reason}") from None
