"""How the calls of two scripts differ: what is new, gone, changed, or at another place.

Names are made by counting, so one more gain gives all later gains other names. So calls are set
beside each other by what their names stand for, and names may differ where each has one
counterpart.
"""

import collections
import dataclasses
import difflib
from typing import Any

from waplay_tools.expecting.numbers import DEFAULT_QUANTUM
from waplay_tools.reporting import entries
from waplay_tools.reporting.difference import call_text
from waplay_tools.reporting.script_reading import Call, Script
from waplay_tools.reporting.text import shown

SIGNS = {"same": " ", "changed": "|", "gone": "\u2212", "new": "+", "moved": "~"}


@dataclasses.dataclass
class Change:
    """A call of the old script and its counterpart in the new one; one of them is None where it is
    gone or new. A call that moved has its counterpart at another place."""

    kind: str
    old: Call | None
    new: Call | None

    def text(self) -> str:
        """The calls in one line."""
        texts = [call_text(it) for it in (self.old, self.new) if it is not None]
        if self.kind == "changed" and texts[0] != texts[1]:
            return f"{texts[0]}  \u2192  {texts[1]}"
        return texts[-1]


class Names:
    """What the names of a script stand for, from call to call."""

    def __init__(self) -> None:
        self.kinds = {"destination": "destination"}

    def told(self, call: Call) -> str:
        """A call with the kinds of what its names stand for in the place of the names. A field that
        is absent has its default."""
        if not isinstance(call.op, str) or call.op not in entries.OPERATIONS:
            return f"{call.depth} {shown(call.value)}"
        words: list[str] = [str(call.depth), call.op]
        for field, kind, *_ in entries.fields_of(call.op):
            value = call.field(field)
            if kind in ("calls", "new name"):
                continue
            if kind.startswith("name") and isinstance(value, str):
                value = self.kinds.get(value, "nothing")
            words.append(f"{field}={value!r}")
        name = call.members.get("as")
        if isinstance(name, str):
            self.kinds[name] = entries.NODES.get(call.op, call.op)
        return " ".join(words)


def names_in(call: Call) -> list[tuple[str, str]]:
    """The names that stand in a call, each with its field."""
    if not isinstance(call.op, str):
        return []
    found = []
    for field, kind, *_ in entries.fields_of(call.op):
        value = call.members.get(field)
        if isinstance(value, str) and (kind.startswith("name") or kind == "new name"):
            found.append((field, value))
    return found


class Renamed:
    """Which name of the new script stands for which of the old one."""

    def __init__(self) -> None:
        self.new_of: dict[str, str] = {}
        self.old_of: dict[str, str] = {}

    def agree(self, old: Call, new: Call) -> bool:
        """Whether the names of two calls are counterparts. Those that the calls make become it."""
        is_alike = True
        for (field, one), (_, two) in zip(names_in(old), names_in(new)):
            if field == "as":
                self.new_of[one], self.old_of[two] = two, one
            elif self.new_of.get(one, one) != two or self.old_of.get(two, two) != one:
                is_alike = False
        return is_alike


def changes_of(old: Script, new: Script) -> list[Change]:
    """All calls of both scripts, in the order of the new one."""
    names = Names(), Names()
    told = [[its.told(call) for call in script.calls] for its, script in zip(names, (old, new))]
    renamed, found = Renamed(), []
    for kind, a, b, c, d in _blocks(*told):
        ones, twos = old.calls[a:b], new.calls[c:d]
        if kind == "equal":
            for one, two in zip(ones, twos):
                found.append(Change("same" if renamed.agree(one, two) else "changed", one, two))
        else:
            found += _replaced(ones, twos, renamed)
    _find_moved(found)
    return found


def _blocks(ones: list[str], twos: list[str]) -> list[tuple[str, int, int, int, int]]:
    """The blocks of lines that are alike or not. What both begin and end with is set apart first,
    as it is mostly all."""
    front = 0
    while front < min(len(ones), len(twos)) and ones[front] == twos[front]:
        front += 1
    back = 0
    while back < min(len(ones), len(twos)) - front and ones[-1 - back] == twos[-1 - back]:
        back += 1
    ends = len(ones) - back, len(twos) - back
    matcher = difflib.SequenceMatcher(None, ones[front : ends[0]], twos[front : ends[1]], False)
    middle = [(kind, a + front, b + front, c + front, d + front)
              for kind, a, b, c, d in matcher.get_opcodes()]
    return [
        ("equal", 0, front, 0, front),
        *middle,
        ("equal", ends[0], len(ones), ends[1], len(twos)),
    ]


def _replaced(ones: list[Call], twos: list[Call], renamed: Renamed) -> list[Change]:
    """The changes of a block that is another one: calls of the same operation, one for one, are
    changed, and the rest is gone or new."""
    found, at = [], 0
    for one in ones:
        place = next((it for it in range(at, len(twos)) if twos[it].op == one.op), None)
        if place is None:
            found.append(Change("gone", one, None))
            continue
        found += [Change("new", None, two) for two in twos[at:place]]
        renamed.agree(one, twos[place])
        found.append(Change("changed", one, twos[place]))
        at = place + 1
    return found + [Change("new", None, two) for two in twos[at:]]


def _find_moved(changes: list[Change]) -> None:
    """Calls that are gone at one place and new at another one have moved."""
    gone: dict[str, list[Change]] = collections.defaultdict(list)
    for change in changes:
        if change.kind == "gone" and change.old:
            gone[call_text(change.old)].append(change)
    for change in changes:
        if change.kind == "new" and change.new and gone[call_text(change.new)]:
            origin = gone[call_text(change.new)].pop(0)
            change.kind, change.old = "moved", origin.old
            changes.remove(origin)


def head_of(script: Script) -> dict[str, Any]:
    """What a script says of its context. It has a render quantum, also where it tells none."""
    value = script.value if isinstance(script.value, dict) else {}
    context = value.get("context")
    return {"renderQuantum": DEFAULT_QUANTUM, **context} if isinstance(context, dict) else {}
