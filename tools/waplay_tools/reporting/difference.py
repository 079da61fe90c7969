"""Two transcripts side by side, by call."""

import collections
from typing import Any

from waplay_tools.reporting import entries
from waplay_tools.reporting.following import answers
from waplay_tools.reporting.script_reading import Call, Script
from waplay_tools.reporting.text import BadInput, quoted, shown, visible
from waplay_tools.reporting.transcript_reading import Line

SIGNS = {"same": " ", "other": "|", "left": "<", "right": ">", "moved": "~"}


Key = tuple[Any, ...]  # what a line answers


class Pair:
    """A line of the first transcript, the line of the second that answers the same, and how they
    differ."""

    def __init__(self, left: Line | None, right: Line | None) -> None:
        self.left, self.right = left, right
        if left is None or right is None:
            self.kind = "right" if left is None else "left"
        else:
            self.kind = "same" if left.text == right.text else "other"

    def line(self) -> Line:
        """The line that is there, the first one's where both are."""
        line = self.left or self.right
        assert line is not None  # a pair has one at least
        return line


def _keys(lines: list[Line]) -> dict[Key, Line]:
    """The lines by what they answer: a call, its promise, the end of a source, or the session's
    end."""
    keyed: dict[Key, Line] = {}
    seen: collections.Counter[Key] = collections.Counter()
    for line in lines:
        key: Key
        if line.kind == "script":
            key = ("end",)
        elif line.ordinal is not None:
            key = ("call", line.ordinal)
        else:
            key = (line.kind, line.number if line.kind == "ended" else None)
        seen[key] += 1
        keyed[key + (seen[key],)] = line
    return keyed


def pairs_of(left: list[Line], right: list[Line]) -> list[Pair]:
    """The lines of two transcripts in pairs, in the order of the first; a line that only the second
    has comes behind the one that it follows there."""
    ones, twos = _keys(left), _keys(right)
    order: list[Key | None] = [None, *ones]
    last: Key | None = None
    behind: dict[Key | None, list[Key]] = collections.defaultdict(list)
    for key in twos:
        if key not in ones:
            behind[last].append(key)
        else:
            last = key
    pairs = []
    for before in order:
        if before is not None:
            pairs.append(Pair(ones[before], twos.get(before)))
        pairs += [Pair(None, twos[other]) for other in behind[before]]
    _find_moved(pairs)
    return pairs


def _find_moved(pairs: list[Pair]) -> None:
    """Marks the pairs of equal lines whose order is another one in the second transcript."""
    latest = 0
    for pair in pairs:
        if pair.right is None or pair.left is None:
            continue
        if pair.right.place < latest and pair.kind == "same":
            pair.kind = "moved"
        latest = max(latest, pair.right.place)


def parting(left: list[Line], right: list[Line]) -> int | None:
    """The place of the first lines that differ, counted from 1; None where there is none."""
    for place, (one, two) in enumerate(zip(left, right), 1):
        if one.text != two.text:
            return place
    return None if len(left) == len(right) else min(len(left), len(right)) + 1


def call_text(call: Call) -> str:
    """A call in one line: its operation, its fields, and of its list how long it is."""
    if not isinstance(call.op, str) or call.op not in entries.OPERATIONS:
        return shown(call.value)
    words = [call.op]
    for field, kind, *_ in entries.fields_of(call.op):
        if field in call.members:
            value = f"[{len(call.held)}]" if kind == "calls" else shown(call.members[field])
            words.append(f"{field}={value}")
    return " ".join(words)


def _sentence(
    left: list[Line], right: list[Line], names: tuple[str, str], script: Script | None
) -> str:
    """Where two transcripts part."""
    place = parting(left, right) or 0
    lines = [lines[place - 1] if place <= len(lines) else None for lines in (left, right)]
    told = [
        f"nothing, after {len(all_lines)} lines" if line is None else visible(line.text)
        for line, all_lines in zip(lines, (left, right))
    ]
    parts = [
        f"The transcripts part at line {place}.",
        f"  {names[0]}: {told[0]}",
        f"  {names[1]}: {told[1]}",
    ]
    ordinals = sorted({line.ordinal for line in lines if line is not None and line.ordinal})
    for ordinal in ordinals:
        call = script.by_ordinal.get(ordinal) if script else None
        if call:
            parts.append(f"  call {ordinal}: {call_text(call)}")
    return "\n".join(parts)


def _seen(pairs: list[Pair], context: int) -> set[int]:
    """The places of the pairs that are shown: those that differ, and so many before and after
    each."""
    seen: set[int] = set()
    for at, pair in enumerate(pairs):
        if pair.kind != "same":
            seen.update(range(max(0, at - context), min(len(pairs), at + context + 1)))
    return seen


def table(pairs: list[Pair], script: Script | None, context: int | None) -> str:
    """The pairs side by side. Of those that are alike so many are shown around each that differs,
    and all where that is None."""
    seen = set(range(len(pairs))) if context is None else _seen(pairs, context)
    texts = [
        [visible(line.text) if line else "" for line in (pair.left, pair.right)] for pair in pairs
    ]
    widths = [max([1] + [len(texts[at][side]) for at in seen]) for side in (0, 1)]
    head = "  %-*s | %-*s%s" % (
        widths[0],
        "A",
        widths[1],
        "B",
        " | the script's call" if script else "",
    )
    rows, before = [head.rstrip()], -1
    for at in sorted(seen):
        if at > before + 1:
            rows.append(f"  ... {at - before - 1} alike")
        before = at
        ordinal = pairs[at].line().ordinal
        call = script.by_ordinal.get(ordinal) if script else None
        row = "%s %-*s | %-*s" % (
            SIGNS[pairs[at].kind],
            widths[0],
            texts[at][0],
            widths[1],
            texts[at][1],
        )
        rows.append((row + (f" | {call_text(call)}" if call else "")).rstrip())
    if before < len(pairs) - 1:
        rows.append(f"  ... {len(pairs) - 1 - before} alike")
    return "\n".join(rows)


def differences(
    left: list[Line],
    right: list[Line],
    names: tuple[str, str],
    script: Script | None = None,
    context: int | None = 3,
) -> str:
    """What is printed of two transcripts that differ."""
    pairs = pairs_of(left, right)
    counts = collections.Counter(pair.kind for pair in pairs)
    words = [
        ("same", "alike"),
        ("other", "other in A than in B"),
        ("left", "only in A"),
        ("right", "only in B"),
        ("moved", "at another place in B"),
    ]
    told = ", ".join(
        f"{counts[kind]} {text}" for kind, text in words if counts[kind] or kind == "same"
    )
    return "%s\n\n%s\n\nLines: %s.\n" % (
        _sentence(left, right, names, script),
        table(pairs, script, context),
        told,
    )


def check(script: Script, lines: list[Line], names: tuple[str, str]) -> None:
    """Raises BadInput where a line answers no call of the script, or is no answer of its operation.
    More is not asked for: of two transcripts one may be wrong."""
    for line in lines:
        if line.ordinal is None or line.ordinal == 0:
            continue
        call = script.by_ordinal.get(line.ordinal)
        why = "the script has no such call"
        if call is not None:
            is_promise = line.kind == "resolved" and call.op in entries.PENDING
            if line.kind == "script" or line.kind in answers(call.op) or is_promise:
                continue
            why = f"it is no answer of {shown(call.op)}"
        raise BadInput(
            "%s does not belong to %s: line %d is %s, and %s"
            % (names[1], names[0], line.place, quoted(line.text), why)
        )
