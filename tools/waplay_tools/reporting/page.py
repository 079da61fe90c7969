"""The page of a report: one file, with all sessions or contexts that it is of."""

import base64
import dataclasses
import hashlib
import os
from collections.abc import Iterator

from waplay_tools.expecting.numbers import DEFAULT_QUANTUM
from waplay_tools.reporting import (
    calls_html,
    explained_html,
    graph_html,
    judging,
    notes_html,
    refusals_html,
    sound_html,
    unheard_html,
    waveform,
)
from waplay_tools.reporting.content import Content, Room
from waplay_tools.reporting.judging import Finding
from waplay_tools.reporting.markup import Html, filled, isolated, joined, seconds
from waplay_tools.reporting.text import counted, grouped

HERE = os.path.dirname(os.path.abspath(__file__))

Facts = list[tuple[str, str]]


@dataclasses.dataclass
class Heading:
    """What a page is headed by: the piece, what is known of it, and findings on all of it."""

    title: str
    facts: Facts = dataclasses.field(default_factory=list)
    findings: list[Finding] = dataclasses.field(default_factory=list)


def _own(name: str) -> Html:
    """The text of a file of this folder that goes into the page."""
    with open(os.path.join(HERE, name), encoding="utf-8") as file:
        return Html(file.read())


def _hash(text: str) -> str:
    """The source that a page's policy names for a text of its own."""
    return f"'sha256-{base64.b64encode(hashlib.sha256(text.encode()).digest()).decode()}'"


def _facts(content: Content) -> Iterator[tuple[str, str]]:
    """The facts of a session, each with its name."""
    session = content.session
    script, end = session.script, session.end()
    yield "Script", isolated(session.script_name)
    yield "Transcript", isolated(session.transcript_name)
    yield "Last line", filled("<code>{line}</code>", line=end.text)
    if end.kind == "script":
        yield "Calls", grouped(len(script.calls))
    else:
        length, rate = script.context("length"), script.context("rate")
        channels = counted(script.context("channels"), "channel")
        frames = counted(length, "frame")
        yield "Context", f"{channels}, {frames}, {grouped(rate)} frames a second"
        quantum = script.context("renderQuantum")
        if quantum not in (0, DEFAULT_QUANTUM):
            yield "Render quantum", counted(quantum, "frame")
        yield "Duration", seconds(length, rate)
        refused = grouped(session.count("throw", "rejected"))
        unheard = content.unheard.count() if content.unheard else 0
        more = f", {grouped(unheard)} not heard" if unheard else ""
        yield "Calls", f"{grouped(len(script.calls))}, {refused} refused{more}"
        yield "Sources that ended", grouped(session.count("ended"))
        yield "Suspensions", grouped(
            sum(mark.kind in ("suspended", "stalled") for mark in session.marks)
        )
    if content.sound:
        sound = content.sound.sound
        kind = "floats of 32 bits" if sound.is_float else f"{sound.bits} bits"
        yield "Samples", f"{kind}, greatest absolute value {sound.greatest():.6f}"
    if content.verdict:
        yield "Verdict of the recorder", content.verdict


def facts_html(facts: Facts) -> Html:
    """A list of facts."""
    rows = (
        filled("<div><dt>{name}</dt><dd>{fact}</dd></div>", name=name, fact=fact)
        for name, fact in facts
    )
    return filled('<dl class="facts">{rows}</dl>', rows=joined(rows))


def findings_html(found: list[Finding]) -> Html:
    """Findings as a list, each with its sign."""
    rows = (
        filled(
            '<li class="outcome {grade}"><span class="sign" aria-hidden="true">{sign}</span>'
            " <span>{text}</span></li>",
            grade=it.grade,
            sign=judging.SIGNS[it.grade],
            text=it.text,
        )
        for it in found
    )
    return filled('<ul class="findings">{rows}</ul>' if found else "", rows=joined(rows))


def _losses_html(content: Content) -> Html:
    """What the recorder lost, and what else it tells."""
    if not content.losses and not content.lines:
        return Html()
    rows = (
        filled(_LOSS, grade=loss.grade, kind=loss.kind, told=loss.told) for loss in content.losses
    )
    lines = (filled("<li>{line}</li>", line=line) for line in content.lines)
    return filled(
        _LOSSES,
        table=filled(_LOSS_TABLE, rows=joined(rows)) if content.losses else "",
        lines=filled('<ul class="lines">{lines}</ul>', lines=joined(lines)),
    )


_LOSSES = """<h3>What the recorder tells</h3>
{table}{lines}"""

# Its roles are named, as a narrow page shows it as blocks, and then browsers take it for no table.
_LOSS_TABLE = """<div class="scroll" tabindex="0" role="region" aria-label="Losses">
<table role="table" class="losses" aria-label="Losses"><thead role="rowgroup"><tr role="row">\
<th role="columnheader" scope="col">Grade</th><th role="columnheader" scope="col">Kind</th>\
<th role="columnheader" scope="col">What it is</th></tr></thead>
<tbody role="rowgroup">{rows}</tbody></table></div>"""

_LOSS = """<tr role="row"><th role="rowheader" scope="row">{grade}</th>\
<td role="cell"><code>{kind}</code></td><td role="cell">{told}</td></tr>"""


def _no_sound(content: Content) -> Html:
    """The part in place of the sound, where the session wrote no file."""
    told = filled(
        "The session wrote no WAV file.{more}",
        more=filled(
            " What is at {name} is not of this session, and was not read.",
            name=isolated(content.wav_name),
        )
        if content.wav_name
        else "",
    )
    session = content.session
    return sound_html.no_sound_html(told, session.marks, session.length, content.rate)


_CONTENT = """<section class="context" id="{key}" aria-labelledby="{key}-title">
<h2 id="{key}-title">{title}</h2>
{findings}
{facts}
{body}
</section>"""


def content_html(content: Content, room: Room, key: str, is_alone: bool) -> Html:
    """The section of a session. Where it is alone, what is found stands at the top of the page."""
    has_time = content.session.script.context("length") > 0
    lanes = Html()
    if has_time:
        lanes = joined([notes_html.note_lanes(content), notes_html.automation_lanes(content)])
    body = [
        explained_html.explained_html(content),
        refusals_html.refusals_html(content.session),
        _losses_html(content),
        sound_html.sound_html(content, room, lanes) if content.sound else _no_sound(content),
        notes_html.notes_table(content) if has_time else Html(),
        graph_html.graph_html(content),
        unheard_html.unheard_html(content),
        calls_html.transcript_html(content.session, key),
        calls_html.not_run_html(content.session),
    ]
    return filled(
        _CONTENT,
        key=key,
        title=content.title or "Session",
        findings="" if is_alone else findings_html(judging.findings(content)),
        facts=facts_html(list(_facts(content))),
        body=joined(body, "\n"),
    )


def _links(contents: list[Content]) -> Html:
    """The list of the contexts of a page, each with its gravest finding."""
    if len(contents) == 1:
        return Html()
    rows = []
    for number, content in enumerate(contents, 1):
        found = judging.findings(content)
        grade = judging.worst(found)
        row = (
            '<li class="outcome {grade}"><span class="sign" aria-hidden="true">{sign}</span>'
            ' <span><a href="#part-{number}">{title}</a>: {text}</span></li>'
        )
        rows.append(
            filled(row, grade=grade, sign=judging.SIGNS[grade], number=number,
                   title=content.title, text=found[0].text)
        )
    return filled('<ul class="findings" aria-label="Contexts">{rows}</ul>', rows=joined(rows))


def page(heading: Heading, contents: list[Content], room: Room) -> Html:
    """The page of these sessions or contexts."""
    is_alone = len(contents) == 1
    found = heading.findings + (judging.findings(contents[0]) if is_alone else [])
    found.sort(key=lambda it: judging.GRADES.index(it.grade))
    top = [findings_html(found), _links(contents)]
    top += [facts_html(heading.facts)] if heading.facts else []
    sections = [
        content_html(content, room, f"part-{number}", is_alone)
        for number, content in enumerate(contents, 1)
    ]
    return framed(heading.title, joined(top, "\n"), joined(sections, "\n"))


def framed(title: str, top: Html, body: Html) -> Html:
    """A whole page, whose policy allows its own script and style alone."""
    style, code = _own("page.css"), _own("page.js")
    return filled(
        _FRAME,
        policy=Html(_POLICY.format(script=_hash(code), style=_hash(style))),
        title=title,
        heading=isolated(title),
        style=style,
        script=code,
        signs=waveform.signs(),
        top=top,
        body=body,
    )


_POLICY = (
    "default-src 'none'; media-src data: file: 'self'; img-src data:; script-src {script};"
    " style-src {style}; base-uri 'none'; form-action 'none'"
)

_FRAME = """<!DOCTYPE html>
<html lang="en">
<head>
<meta charset="utf-8">
<meta http-equiv="Content-Security-Policy" content="{policy}">
<meta name="viewport" content="width=device-width, initial-scale=1">
<meta name="color-scheme" content="light dark">
<title>{title} \u2013 waplay report</title>
<style>{style}</style>
</head>
<body>
{signs}
<header>
<p class="product">waplay report</p>
<h1>{heading}</h1>
{top}
</header>
<main>
{body}
</main>
<script>{script}</script>
</body>
</html>
"""
