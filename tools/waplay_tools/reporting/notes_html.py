"""Lanes of what a session does over time: from when to when each source plays, and how parameters
move."""

import itertools
from collections.abc import Iterator
from typing import NamedTuple

from waplay_tools.reporting.content import Content
from waplay_tools.reporting.markup import Html, filled, joined, seconds
from waplay_tools.reporting.sources import Thing
from waplay_tools.reporting.tables import (
    MOST_ROWS,
    folded,
    frame_html,
    head,
    more_rows,
    numbers,
    table,
)
from waplay_tools.reporting.text import counted, decimal, grouped

MOST_LANES = 24  # of notes, and of parameters
MOST_NOTES = 3000  # that are drawn
MANY_NOTES = 400  # from which on they are drawn without their names, so that a page opens soon
MOST_POINTS = 400  # of one curve
COLUMNS = 800  # of a parameter's line that has more points than can be seen
ROW = 18  # units of height of a lane of notes
HEIGHT = 40  # of a lane of a parameter
LETTER, NARROW = 7.5, 340  # pixels of a letter, and of the narrowest page
ONE = 2**24


class Note(NamedTuple):
    """A source that was started, and the frames between which it plays."""

    thing: Thing
    first: int
    last: int


def notes_of(content: Content) -> list[Note]:
    """The sources that were started, by when. One that is never over plays to the end."""
    end = content.frames
    found = []
    for it in content.session.book.nodes:
        if it.start is not None and it.start < end:
            last = it.ends()[1]
            found.append(Note(it, it.start, min(end, end if last is None else last)))
    return sorted(found, key=lambda note: (note.first, note.thing.number or 0))


def voices_of(notes: list[Note]) -> list[list[Note]]:
    """The notes in as few lists as there are notes at a time, so that in none one lies over
    another."""
    ends: list[int] = []
    packed: list[list[Note]] = []
    for note in notes:
        free = next((at for at, end in enumerate(ends) if end <= note.first), len(ends))
        if free == len(ends):
            ends.append(0)
            packed.append([])
        ends[free] = max(note.last, note.first + 1)
        packed[free].append(note)
    return packed


def lanes_of(notes: list[Note]) -> list[tuple[str, list[Note]]]:
    """The lanes with their names: one for each buffer and for constant sources, or as many as there
    are of its sources at a time where these lanes are not many. Where there are many buffers they
    are as few as there are sources at a time."""
    named: dict[str, list[Note]] = {}
    for note in notes:
        it = note.thing
        named.setdefault(it.buffer.name if it.buffer else it.kind + "s", []).append(note)
    if len(named) > MOST_LANES // 2:
        return [(f"voice {at}", lane) for at, lane in enumerate(voices_of(notes), 1)]
    lanes = []
    for name, its in named.items():
        voices = voices_of(its)
        told = [f"{name}, voice {at}" for at in range(1, len(voices) + 1)]
        lanes += list(zip(told if len(voices) > 1 else [name], voices))
    return lanes if len(lanes) <= MOST_LANES // 2 else list(named.items())


_NOTE = """<svg class="placed note" data-low="{low}" data-high="{high}" data-name="{name}"\
 x="{x:.3f}%" y="2" width="{width:.3f}%" height="14"><title>{title}</title>\
<rect width="100%" height="14"/><text x="3" y="11">{shown}</text></svg>"""

_BARE = """<rect class="placed note" data-low="{low}" data-high="{high}" x="{x:.3f}%" y="2"\
 width="{width:.3f}%" height="14"><title>{title}</title></rect>"""

_LANE = """<div class="lane-name"><span>{name}</span><span class="aside">{told}</span></div>\
<svg class="lane notes" role="img" aria-label="{label}" width="100%"\
 height="{height}">{notes}</svg>"""


def _note(note: Note, frames: int, is_bare: bool) -> Html:
    """A note in its lane; its name is there where it has room on a narrow page, and is told by its
    title alone where it is bare."""
    width = max(0.0, 100 * (note.last - note.first) / frames)
    name = note.thing.name
    has_room = width / 100 * NARROW > LETTER * len(name) + 6
    return filled(
        _BARE if is_bare else _NOTE,
        low=note.first,
        high=note.last,
        x=100 * note.first / frames,
        width=width,
        title=f"{name}, frames {grouped(note.first)} to {grouped(note.last)}",
        name=name,
        shown=name if has_room else "",
    )


def note_lanes(content: Content) -> Html:
    """The lanes of the notes."""
    every = notes_of(content)
    lanes, is_bare = lanes_of(every), len(every) > MANY_NOTES
    drawn, left = [], MOST_NOTES
    for name, notes in lanes[:MOST_LANES]:
        starts = counted(len(notes), "start")
        drawn.append(
            filled(
                _LANE,
                name=name,
                told=starts,
                label=f"Notes of {name}: {starts}; the table of notes has them",
                height=ROW,
                notes=joined(_note(note, content.frames, is_bare) for note in notes[:left]),
            )
        )
        left = max(0, left - len(notes))
    if len(lanes) > MOST_LANES:
        more = counted(len(lanes) - MOST_LANES, "more lane")
        drawn.append(filled('<p class="aside">and {more} of notes</p>', more=more))
    return joined(drawn)


def notes_table(content: Content) -> Html:
    """The table of the notes."""
    notes = notes_of(content)
    if not notes:
        return Html()
    rows = [
        filled(
            "<tr><td>{name}</td><td>{what}</td>{cells}</tr>",
            name=note.thing.name,
            what=note.thing.buffer.name if note.thing.buffer else note.thing.kind,
            cells=numbers(
                frame_html(note.first),
                seconds(note.first, content.rate),
                grouped(note.last),
                note.thing.call.ordinal if note.thing.call else "",
            ),
        )
        for note in notes[:MOST_ROWS]
    ]
    titles = head(("Source", "Plays"), ("Starts at frame", "Time", "Ends at frame", "Call"))
    shown = joined([table("numbers", "Notes", titles, rows), more_rows(len(notes), "notes more")])
    return folded(f"Starts and ends ({grouped(len(notes))})", shown, len(notes), is_open=False)


class Point(NamedTuple):
    """A value that a parameter has at a frame."""

    frame: int
    value: int


def points_of(thing: Thing, param: str, first: int, frames: int) -> Iterator[Point]:
    """The points between which the events of a parameter draw its line, as far as the calls show
    it: cancelled events are left out, holds end the line."""
    value, kept = first, _kept(thing, param)
    yield Point(0, value)
    for now, call in kept:
        time, op = max(now, call.field("time") or 0), call.op
        if op in ("setValue", "setValueAtTime"):
            yield Point(time if op != "setValue" else now, value)
            value = call.field("value")
            yield Point(time if op != "setValue" else now, value)
        elif op == "linearRampToValueAtTime":
            value = call.field("value")
            yield Point(time, value)
        elif op == "setValueCurveAtTime":
            values, duration = call.field("values"), call.field("duration")
            step = max(1, len(values) // MOST_POINTS)
            for at in range(0, len(values), step):
                value = values[at]
                yield Point(time + duration * at // max(1, len(values) - 1), value)
            value = values[-1]
            yield Point(time + duration, value)
    yield Point(frames, value)


def line_of(thing: Thing, param: str, content: Content) -> list[Point]:
    """The points of a parameter's line, as many as can be seen. The value that it has by default
    does not count where another one is set at once."""
    first = thing.call.field(param) if thing.call else None
    points = list(points_of(thing, param, first or 0, content.frames))
    while len(points) > 1 and points[1].frame == 0:
        del points[0]
    if len(points) <= 4 * COLUMNS:
        return points
    columns: dict[int, list[Point]] = {}
    for point in points:
        columns.setdefault(point.frame * COLUMNS // max(1, content.frames), []).append(point)
    ends = ({min(its, key=lambda it: it.value), max(its, key=lambda it: it.value)}
            for its in columns.values())
    return [point for both in ends for point in sorted(both)]


def _kept(thing: Thing, param: str) -> list:
    """The events of a parameter without those that a later call cancelled, in order of time."""
    kept: list = []
    for now, call in thing.events:
        if call.field("param") != param:
            continue
        if call.op in ("cancelScheduledValues", "cancelAndHoldAtTime"):
            limit = max(now, call.field("time"))
            kept = [it for it in kept if (it[1].field("time") or it[0]) < limit]
        elif call.op != "setAutomationRate":
            kept.append((now, call))
    return sorted(kept, key=lambda it: max(it[0], it[1].field("time") or 0))


_PARAMETER = """<div class="lane-name"><span>{name}</span><span class="aside">{ends}</span></div>\
<svg class="lane" role="img" aria-label="{label}" width="100%" height="{height}">\
<svg class="stretched" data-width="{frames}" viewBox="0 0 {frames} 100"\
 preserveAspectRatio="none" width="100%" height="100%"><path class="automation" d="{path}"/>\
</svg></svg>"""


def _parameter(thing: Thing, param: str, content: Content) -> Html:
    """The lane of a parameter's automation; nothing of one that has one value all the time."""
    points = line_of(thing, param, content)
    low, high = min(it.value for it in points), max(it.value for it in points)
    if low == high:
        return Html()
    span = high - low
    places = (f"{it.frame},{95 - 90 * (it.value - low) / span:.1f}" for it in points)
    name = f"{thing.name}.{param}"
    ends = f"{decimal(low, ONE)} to {decimal(high, ONE)}"
    count = counted(sum(it[1].field("param") == param for it in thing.events), "event")
    return filled(
        _PARAMETER,
        name=name,
        ends=f"{count}, {ends}",
        label=f"Automation of {name}: {count}, from {ends}",
        height=HEIGHT,
        frames=content.frames,
        path="M" + "L".join(places),
    )


def automated(content: Content) -> list[tuple[Thing, str]]:
    """The parameters that calls move, in the order of their nodes."""
    found: dict[tuple[int, str], tuple[Thing, str]] = {}
    for it in content.session.book.nodes:
        for _, call in it.events:
            found.setdefault((it.number or 0, call.field("param")), (it, call.field("param")))
    return list(found.values())


def automation_lanes(content: Content) -> Html:
    """The lanes of the parameters that move."""
    every = automated(content)
    lanes = (_parameter(thing, param, content) for thing, param in every)
    drawn = list(itertools.islice((lane for lane in lanes if lane), MOST_LANES))
    if len(every) > len(drawn):
        more = counted(len(every) - len(drawn), "more parameter has", "more parameters have")
        drawn.append(filled('<p class="aside">{more} calls as well.</p>', more=more))
    return joined(drawn)
