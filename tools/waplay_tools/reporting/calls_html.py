"""The transcript beside the script's calls, as tables of HTML."""

from collections.abc import Iterator
from typing import Any

from waplay_tools.reporting import entries, rules
from waplay_tools.reporting.difference import call_text
from waplay_tools.reporting.following import Row, Session
from waplay_tools.reporting.markup import Html, escaped, filled, isolated, joined, sentence
from waplay_tools.reporting.script_reading import Call, Script
from waplay_tools.reporting.tables import MOST_ROWS, more_rows, plain
from waplay_tools.reporting.text import LONG, counted, fix_text, grouped, shown

MANY_LINES = 100  # from which on the transcript is folded
MOST_LINES = 1000  # from which on it is a plain text

# Of each class of rows its sign. The word that goes with it is in the row's own text.
SIGNS = {
    "accepted": "\u2713",
    "refused": "\u2715",
    "waiting": "\u2026",
    "read": "=",
    "event": "\u25a0",
    "end": "\u2590",
}

_CLASSES = {
    "ok": "accepted",
    "resolved": "accepted",
    "throw": "refused",
    "rejected": "refused",
    "script": "refused",
    "pending": "waiting",
    "value": "read",
    "state": "read",
    "time": "read",
    "ended": "event",
    "complete": "event",
    "end": "end",
}


def class_of(row: Row) -> str:
    """The class of a row: what its colour and its sign tell."""
    return "refused" if row.line.is_refusal() else _CLASSES[row.line.kind]


def _decimal(value: int) -> Html:
    """A value in units of 2^-24, as an aside."""
    return filled(' <span class="aside">({text})</span>', text=fix_text(value))


def _field(name: str, value: Any, kind: str) -> Html:
    """A field of a call with its value."""
    return filled(
        '<span class="field"><i>{name}</i> {value}{aside}</span>',
        name=isolated(name if len(name) <= LONG else name[:LONG] + "\u2026"),
        value=isolated(shown(value)),
        aside=_decimal(value) if kind == "fix" and type(value) is int else "",
    )


def _operation(call: Call) -> Html:
    """The operation of a call, or what stands in its place."""
    if "op" not in call.members:
        return escaped("no op")
    if isinstance(call.op, str) and call.op in entries.OPERATIONS:
        return escaped(call.op)
    return filled("op {op}", op=isolated(shown(call.op)))


def call_html(call: Call) -> Html:
    """A call in one paragraph: its operation, the fields that it has, the list that it holds, and
    the members that nothing reads."""
    if not isinstance(call.value, dict):
        return filled('<code class="call">{value}</code>', value=isolated(shown(call.value)))
    op = call.op if isinstance(call.op, str) else None
    parts = [filled("<b>{operation}</b>", operation=_operation(call))]
    known = {"op"}
    for name, kind, *_ in entries.fields_of(op):
        known.add(name)
        if name in call.members:
            value = call.members[name]
            is_list = kind == "calls" and isinstance(value, list)
            parts.append(_held(call) if is_list else _field(name, value, kind))
    ignored = [_field(name, value, "") for name, value in call.members.items() if name not in known]
    return filled(
        '<code class="call">{parts}</code>{ignored}',
        parts=joined(parts, " "),
        ignored=_ignored(ignored) if ignored else "",
    )


def _ignored(fields: list[Html]) -> Html:
    """The members that nothing reads, of which some are shown."""
    return filled(
        ' <span class="ignored">not read: <code>{fields}</code></span>{more}',
        fields=joined(fields[:8], " "),
        more=f" and {counted(len(fields) - 8, 'more member')}" if len(fields) > 8 else "",
    )


def _held(call: Call) -> Html:
    """The list of a call, by the ordinals of its first calls."""
    told = "no call"
    if len(call.held) == 1:
        told = f"call {call.held[0]}"
    elif call.held:
        told = f"{len(call.held)} calls from {call.held[0]} on"
    return filled('<span class="field"><i>then</i> [{told}]</span>', told=told)


def _is_told(row: Row) -> bool:
    """Whether a line tells an event: an end, or that a promise that was pending is resolved."""
    if row.line.kind == "resolved" and row.call:
        return row.call.op in entries.PENDING
    return row.line.kind in ("ended", "complete", "end")


def _note(row: Row, script: Script) -> Html:
    """What a line says, in words; nothing where it speaks for itself."""
    told = rules.meaning(row, script)
    words = {"throw": "Refused: ", "rejected": "Refused: ", "script": "Fault: "}
    word = words.get(row.line.kind)
    return filled(
        '<p class="rule">{word}{told}</p>' if told else "",
        word=filled("<strong>{word}</strong>", word=word) if word else "",
        told=sentence(told),
    )


_ROW = """<tr role="row" class="{name}"><td role="cell" class="number">{ordinal}</td><td\
 role="cell" class="answer"><span class="sign" aria-hidden="true">{sign}</span>\
 <code>{answer}</code>{aside}</td><td role="cell" class="called">{code}{note}</td></tr>"""


def _row(row: Row, script: Script) -> Html:
    """A row of the table of the transcript."""
    name, line = class_of(row), row.line
    has_ordinal = line.ordinal is not None and line.kind != "script"
    return filled(
        _ROW,
        name=name + (" told" if _is_told(row) else ""),
        ordinal=line.ordinal if has_ordinal else "",
        sign=SIGNS[name],
        answer=Html(escaped(line.answer()).replace(" profile:", " <wbr>profile:")),
        aside=_decimal(line.number) if line.kind == "value" and line.number is not None else "",
        code=call_html(row.call) if row.call else "",
        note=_note(row, script),
    )


def _filters(session: Session, key: str) -> Html:
    """The choice of rows, which needs no script. The key tells the parts of a page apart."""
    refused = sum(line.is_refusal() for line in session.lines)
    events = sum(_is_told(row) for part in session.parts for row in part.rows)
    choices = [
        ("all", "All lines", len(session.lines)),
        ("refusals", "Refusals", refused),
        ("events", "Events", events),
    ]
    inputs = (
        filled(
            '<label><input type="radio" name="rows-{key}" class="only-{name}"{checked}> {text}'
            ' <span class="aside">({count})</span></label>',
            key=key,
            name=name,
            checked=" checked" if name == "all" else "",
            text=text,
            count=grouped(count),
        )
        for name, text, count in choices
    )
    return filled(
        '<fieldset class="filters"><legend>Show</legend>{inputs}</fieldset>', inputs=joined(inputs)
    )


_LEGEND = [
    ("accepted", "accepted"),
    ("refused", "refused"),
    ("waiting", "promise is pending"),
    ("read", "value was read"),
    ("event", "event"),
    ("end", "end"),
]

_SIGN = '<li class="{name}"><span class="sign" aria-hidden="true">{sign}</span> {text}</li>'

_PART = """<tbody role="rowgroup"><tr role="row" class="part">\
<th role="rowheader" colspan="3" scope="rowgroup">{title}</th></tr>
{rows}
</tbody>"""

_TABLE = """{filters}
<ul class="legend" aria-label="Signs of the lines">{legend}</ul>
<div class="scroll" tabindex="0" role="region" aria-label="Transcript beside the calls">
<table role="table" class="transcript">
<caption class="unseen">The lines of the transcript in their order, each beside its call</caption>
<thead role="rowgroup"><tr role="row"><th role="columnheader" scope="col" class="number">Call</th>
<th role="columnheader" scope="col">Answer</th>
<th role="columnheader" scope="col">What was called, and the rule</th></tr></thead>
{parts}
</table></div>"""

_TRANSCRIPT = """<h3>Transcript and calls</h3>
<div class="rows">{shown}</div>"""

_FOLDED = """<details><summary>{count}</summary>
{shown}
</details>"""


def _table(session: Session, key: str) -> Html:
    """The transcript as a table."""
    legend = (filled(_SIGN, name=name, sign=SIGNS[name], text=text) for name, text in _LEGEND)
    parts = (
        filled(
            _PART,
            title=part.title,
            rows=joined((_row(row, session.script) for row in part.rows), "\n"),
        )
        for part in session.parts
    )
    return filled(
        _TABLE, filters=_filters(session, key), legend=joined(legend), parts=joined(parts, "\n")
    )


def _plain_lines(session: Session) -> Iterator[str]:
    """The transcript as lines of text, each beside its call."""
    for part in session.parts:
        yield f"-- {part.title}"
        for row in part.rows:
            answer = row.line.text if row.line.kind == "script" else row.line.answer()
            sign = SIGNS[class_of(row)]
            number = "" if row.line.ordinal is None else str(row.line.ordinal)
            yield f"{number:>6} {sign} {answer:<12} {call_text(row.call) if row.call else ''}"


def transcript_html(session: Session, key: str = "") -> Html:
    """The part of the transcript: a table, which is folded where it is long, and plain lines where
    it is very long. The key tells the parts of a page apart."""
    count = len(session.lines)
    if count > MOST_LINES:
        shown = plain("Transcript beside the calls", _plain_lines(session))
    else:
        shown = _table(session, key)
    if count > MANY_LINES:
        shown = filled(_FOLDED, count=f"All {grouped(count)} lines", shown=shown)
    return filled(_TRANSCRIPT, shown=shown)


_NOT_RUN = """<h3>Calls that were not run</h3>
<p>{calls} of the script {have} no line: the script or the context was refused, or the call stands\
 in a list
whose promise was rejected or never resolved.</p>
<div class="scroll" tabindex="0" role="region" aria-label="Calls that were not run">
<table><caption class="unseen">Calls that were not run</caption>
<thead><tr><th scope="col" class="number">Call</th>
<th scope="col">What would have been called</th></tr></thead>
<tbody>
{rows}
</tbody></table></div>{more}"""


def not_run_html(session: Session) -> Html:
    """The part of the calls that were not run; nothing where there are none."""
    if not session.not_run:
        return Html()
    rows = (
        filled(
            '<tr><td class="number">{ordinal}</td><td>{call}</td></tr>',
            ordinal=call.ordinal,
            call=call_html(call),
        )
        for call in session.not_run[:MOST_ROWS]
    )
    return filled(
        _NOT_RUN,
        calls=counted(len(session.not_run), "call"),
        have="has" if len(session.not_run) == 1 else "have",
        rows=joined(rows, "\n"),
        more=more_rows(len(session.not_run), "calls more"),
    )
