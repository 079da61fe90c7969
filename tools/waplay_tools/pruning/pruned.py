"""Pruned scripts: those that are left of scripts without the calls that are not heard."""

from collections.abc import Iterable
from typing import Any, NamedTuple

from waplay_tools.expecting.reading import HELD, READ, Call, NumberedCall, numbered
from waplay_tools.expecting.sessions import replayed
from waplay_tools.pruning.heard import Hearing, every
from waplay_tools.script_tools import MOST_BYTES


class Pruned(NamedTuple):
    """A pruned script, and how many calls it has of how many. Its times are frames."""

    script: dict[str, Any]
    kept: int
    of: int


class NotPruned(Exception):
    """A script that is too long or whose session does not complete: the status, and the line that
    says why, which is empty where nothing does."""

    def __init__(self, status: int, line: str) -> None:
        super().__init__(line)
        self.status, self.line = status, line


def _written(calls: list[NumberedCall]) -> list[Call]:
    """Calls, those that hold others with these in their lists."""
    return [
        {**call, "then": _written(held)} if HELD in READ[call["op"]] else call
        for _, call, held in calls
    ]


def pruned_by(script: dict[str, Any], lines: Iterable[str]) -> Pruned:
    """The pruned script of one whose session completed with these lines. Its times are frames."""
    hearing = Hearing(numbered(script["calls"], 1)[0], lines)
    kept = hearing.kept()
    counts = (sum(1 for _ in every(calls)) for calls in (kept, hearing.calls))
    return Pruned({**script, "calls": _written(kept)}, *counts)


def pruned(data: bytes, folder: str) -> Pruned:
    """The pruned script of one of these bytes, whose assets are in the folder."""
    if len(data) > MOST_BYTES:
        raise NotPruned(5, "")
    status, text, session = replayed(data, folder, is_checked=True)
    if status != 0 or session is None:
        raise NotPruned(status, "".join(text.splitlines()[-1:]))
    return pruned_by(session.script, session.lines)
