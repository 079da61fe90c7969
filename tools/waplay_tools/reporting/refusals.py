"""Why calls were refused: which refusals are causes, and which only follow from another one."""

from waplay_tools.reporting import entries
from waplay_tools.reporting.following import Row, Session
from waplay_tools.reporting.script_reading import Call


# What was called, how it was refused, and why, where the same answer has several reasons.
Key = tuple[str, str, str]


class Cause:
    """A cause of refusals: what was called and how it was refused, the calls of which this holds,
    and the calls that were refused since those made no object."""

    def __init__(self, row: Row) -> None:
        self.row = row
        self.calls: list[int] = []
        self.following: list[int] = []

    def answer(self) -> str:
        """The exception, and the feature that is left out."""
        return self.row.line.answer()

    def count(self) -> int:
        """How many refusals it explains."""
        return len(self.calls) + len(self.following)


def _made_by(call: Call) -> str | None:
    """The name that a call would have given to what it makes."""
    name = call.members.get("as")
    return name if isinstance(name, str) else None


def _missing(call: Call, lost: dict[str, Cause]) -> Cause | None:
    """The cause of a call whose names stand for nothing, as an earlier call was refused."""
    for field, kind, *_ in entries.fields_of(call.op):
        name = call.members.get(field)
        if kind.startswith("name") and isinstance(name, str) and name in lost:
            return lost[name]
    return None


def causes_of(session: Session) -> list[Cause]:
    """The causes of all refused calls, first those that explain most."""
    found: dict[Key, Cause] = {}
    lost: dict[str, Cause] = {}  # of names that stand for nothing, why
    for row in (row for part in session.parts for row in part.rows):
        call = row.call
        if call is None or row.line.kind not in ("ok", "resolved", "throw", "rejected"):
            continue
        name = _made_by(call)
        if row.line.kind in ("ok", "resolved"):
            if name is not None:
                lost.pop(name, None)
            continue
        cause = _missing(call, lost) if row.line.exception == "TypeError" else None
        if cause:
            cause.following.append(call.ordinal)
        else:
            cause = _own_cause(found, row, call)
        if name is not None:
            lost.setdefault(name, cause)
    return sorted(found.values(), key=lambda cause: (-cause.count(), cause.calls[0]))


def _own_cause(found: dict[Key, Cause], row: Row, call: Call) -> Cause:
    """The cause of a call that was refused for itself."""
    why = row.detail if row.line.feature == "program" else ""
    key = (str(call.op), row.line.answer(), why)
    cause = found.setdefault(key, Cause(row))
    cause.calls.append(call.ordinal)
    return cause
