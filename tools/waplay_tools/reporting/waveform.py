"""Waveforms as SVG, which are there without a script, and the marks of the time line."""

import array
import base64
import collections
import math
from collections.abc import Sequence

from waplay_tools.reporting.following import Mark
from waplay_tools.reporting.markup import Html, filled, joined, seconds
from waplay_tools.reporting.text import grouped
from waplay_tools.reporting.wav_samples import Sound, parts_of, peak, spans

Placed = tuple[Mark, str]  # with where it stands, in percent of the width

COLUMNS = 800
MOST_LINES = 40  # of marks of one kind across a lane
MANY_MARKS = 400  # from which on those that are close together are drawn as one
HEIGHT = 200  # of the drawing's own units
REACH = 96  # how far the drawing goes up and down from its middle
FINE_COLUMNS = 8192  # of a sound that is not in the page, for zooming
DEEPEST = -144.0  # decibels at the lower edge of a drawing of differences
WIDEST = 128.0  # the greatest scale of a drawing: values of waplay lie below it

# Of each kind of mark its row on the time line, the drawing of its sign, and its word.
MARKS = {
    "ended": (0, "M-5,-5H5V5H-5Z", "a source ended"),
    "suspended": (1, "M0,-6L6,0L0,6L-6,0Z", "suspended and resumed"),
    "stalled": (1, "M-5,-5L5,5M5,-5L-5,5", "suspended and not resumed"),
    "first": (2, "M-6,5L0,-6L6,5Z", "the first difference beyond the tolerance"),
    "greatest": (3, "M-6,-5L0,6L6,-5Z", "the greatest difference"),
}


BAND = Html(
    '<svg class="lone-sign" width="22" height="14" viewBox="0 -7 22 14" aria-hidden="true">'
    '<rect class="band ended" x="1" y="-3" width="20" height="6"/></svg>'
)


def scale_of(sounds: list[Sound]) -> float:
    """The power of two that the drawing goes up and down to: the least that holds all samples, at
    most that of waplay's values, and 1 of silence."""
    greatest = max((sound.greatest() for sound in sounds), default=0)
    scale = 1.0
    while scale / 2 >= greatest > 0:
        scale /= 2
    while scale < min(greatest, WIDEST):
        scale *= 2
    return scale


def path_of(columns: list[tuple[float, float]], full: float) -> Html:
    """The outline of columns, each of which holds from its lowest to its highest sample."""

    def height(value: float) -> str:
        """How far below the upper edge a value stands."""
        return (f"{HEIGHT / 2 - value * REACH / full:.1f}").replace(".0", "")

    upper, lower = [height(high) for _, high in columns], [height(low) for low, _ in columns]
    there = "V".join(f"{place}H{at}" for at, place in enumerate(upper, 1))
    back = "".join(f"V{place}H{len(lower) - at}" for at, place in enumerate(reversed(lower), 1))
    return Html(f"M0,{there}{back}Z")


def decibels(magnitude: float) -> float:
    """A magnitude as decibels of 1, at least those of the lower edge."""
    return max(DEEPEST, 20 * math.log10(magnitude)) if magnitude else DEEPEST


def depth_of(magnitude: float) -> str:
    """How far below the upper edge of a drawing of decibels a magnitude stands."""
    return f"{max(0.0, HEIGHT * decibels(magnitude) / DEEPEST):.1f}".replace(".0", "")


def decibel_path(magnitudes: list[float]) -> Html:
    """The outline of columns that stand on the lower edge, by their magnitudes."""
    steps = "".join(f"V{depth_of(it)}H{at}" for at, it in enumerate(magnitudes, 1))
    return Html(f"M0,{HEIGHT}{steps}V{HEIGHT}Z")


def fine_columns(samples: Sequence[float], full: float) -> Html:
    """Columns for zooming, as a page has them: the lowest and the highest sample of each, of which
    full is 32767. What is beyond full stands at the edge."""
    part = 32767 / full
    found = (round(it * part) for pair in spans(samples, FINE_COLUMNS) for it in pair)
    numbers = array.array("h", (min(32767, max(-32767, it)) for it in found))
    return Html(base64.b64encode(numbers.tobytes()).decode())


_LINE = '<line class="placed {kind}" data-low="{low}" x1="{place}" x2="{place}" y1="0" y2="100%"/>'

_LANE = """<svg class="lane" role="img" aria-label="{label}" width="100%" height="88"><svg\
 class="drawing" {attributes} viewBox="0 0 {width} {height}" preserveAspectRatio="none"\
 width="100%" height="100%">{paths}</svg>{lines}</svg>"""


def lane(
    columns: int, samples: int, frames: int, label: str, attributes: Html, inside: Html
) -> Html:
    """A drawing of so many columns, for so many samples of the frames that the width stands for.
    The label says in words what it shows; inside are its paths and the lines of marks."""
    paths, lines = inside.split("<!-- marks -->")
    return filled(
        _LANE,
        label=label,
        attributes=attributes,
        width="%.6g" % (columns * frames / samples),
        height=HEIGHT,
        paths=Html(paths),
        lines=Html(lines),
    )


_INSIDE = """<path class="envelope" d="{outline}"/>{other}<path class="zero"\
 d="M0,{middle}H{width}"/><!-- marks -->{lines}"""


def _lines(marks: list[Placed]) -> Html:
    """The lines of marks across a lane. Those of a kind that has many would hide what is drawn, and
    stand on the time line alone."""
    counts = collections.Counter(mark.kind for mark, _ in marks)
    return joined(
        filled(_LINE, kind=mark.kind, low=mark.low, place=place)
        for mark, place in marks
        if counts[mark.kind] <= MOST_LINES
    )


def wave_inside(
    samples: Sequence[float], full: float, marks: list[Placed], other: Html = Html()
) -> Html:
    """What a lane of one channel has: its outline, the outline of another sound over it, and the
    marks."""
    columns = spans(samples, COLUMNS)
    return filled(
        _INSIDE,
        outline=path_of(columns, full),
        other=other,
        middle=HEIGHT // 2,
        width=COLUMNS,
        lines=_lines(marks),
    )


def other_path(samples: Sequence[float], full: float) -> Html:
    """The outline of the other sound, which lies over that of the first."""
    outline = path_of(spans(samples, COLUMNS), full)
    return filled('<path class="other" d="{outline}"/>', outline=outline)


_DECIBELS = """<path class="envelope" d="{outline}"/><path class="tolerance"\
 d="M0,{depth}H{width}"/><!-- marks -->{lines}"""


def decibel_inside(
    differences: Sequence[float], tolerance: float, marks: list[Placed]
) -> Html:
    """What a lane of differences has: how great they are, on a scale in decibels, and the
    tolerance."""
    magnitudes = [peak(part)[0] for part in parts_of(differences, COLUMNS)]
    return filled(
        _DECIBELS,
        outline=decibel_path(magnitudes),
        depth=depth_of(tolerance),
        width=COLUMNS,
        lines=_lines(marks),
    )


def placed(marks: list[Mark], frames: int) -> list[Placed]:
    """Marks with where they stand, in percent of the width; of those of a kind and a place the
    first. A mark past the length stands at the end."""
    digits = 3 if len(marks) <= MANY_MARKS else 1
    found: dict[tuple[str, str], Placed] = {}
    for mark in marks:
        if mark.low == mark.high:
            place = f"{min(100, 100 * mark.low / frames):.{digits}f}%"
            found.setdefault((mark.kind, place), (mark, place))
    return list(found.values())


_BAND = """<rect class="placed band {kind}" data-low="{low}" data-high="{high}" x="{begin:.3f}%"\
 width="{width:.3f}%" y="{y}" height="6"/>"""

_USE = '<use class="placed {kind}" data-low="{low}" href="#sign-{kind}" x="{place}" y="{y}"/>'


def _drawn(marks: list[Mark], frames: int, rows: list[int]) -> list[Html]:
    """The drawings of the marks, each in the row of its kind: first those that are spans."""
    heights = {kind: 12 + 18 * rows.index(MARKS[kind][0]) for kind in {it.kind for it in marks}}
    drawn = []
    for mark in marks[:MANY_MARKS]:
        if mark.low != mark.high:
            low, high = (100 * min(frame, frames) / frames for frame in (mark.low, mark.high))
            drawn.append(
                filled(
                    _BAND,
                    kind=mark.kind,
                    low=mark.low,
                    high=mark.high,
                    begin=low,
                    width=high - low,
                    y=heights[mark.kind] - 3,
                )
            )
    for mark, place in placed(marks, frames):
        y = heights[mark.kind]
        drawn.append(filled(_USE, kind=mark.kind, low=mark.low, place=place, y=y))
    return drawn


_TICK = '<line class="tick" x1="{at}%" x2="{at}%" y1="{top}" y2="{end}"/>'

_TEXTS = """<text class="at-{at}" x="{at}%" y="{upper}">{frame}</text><text class="at-{at} aside"\
 x="{at}%" y="{lower}">{time}</text>"""

_TIME_LINE = """<svg class="time" role="img" aria-label="{label}" width="100%" height="{height}">\
<line class="axis" x1="0" x2="100%" y1="{top}" y2="{top}"/>{ticks}{texts}{drawn}</svg>"""


def time_line(marks: list[Mark], frames: int, rate: int) -> Html:
    """The time line: the marks, each kind in its row, and the frames and times at the ends and the
    middle."""
    rows = sorted({MARKS[mark.kind][0] for mark in marks})
    top = 6 + 18 * len(rows)
    ticks = (
        filled(_TICK, at=at, top=top, end=top + (8 if at % 50 == 0 else 5))
        for at in range(0, 101, 10)
    )
    texts = (
        filled(
            _TEXTS,
            at=at,
            upper=top + 24,
            frame=grouped(frames * at // 100),
            lower=top + 40,
            time=seconds(frames * at // 100, rate),
        )
        for at in (0, 50, 100)
    )
    return filled(
        _TIME_LINE,
        label=f"Time line from frame 0 to {grouped(frames)}. The table of events has its marks.",
        height=top + 46,
        top=top,
        ticks=joined(ticks),
        texts=joined(texts),
        drawn=joined(_drawn(marks, frames, rows)),
    )


_ARROW_END = Html(
    '<marker id="arrow-end" viewBox="0 0 8 8" refX="8" refY="4" markerWidth="8" markerHeight="8"'
    ' orient="auto"><path d="M0,1L8,4L0,7Z"/></marker>'
)


def signs() -> Html:
    """The definitions of the marks' signs, once in a page."""
    paths = (
        filled('<path id="sign-{kind}" d="{path}"/>', kind=kind, path=path)
        for kind, (_, path, _) in MARKS.items()
    )
    return filled(
        '<svg class="unseen" width="0" height="0" aria-hidden="true"><defs>{paths}{arrow}</defs>'
        "</svg>",
        paths=joined(paths),
        arrow=_ARROW_END,
    )


def sign(kind: str) -> Html:
    """A mark's sign by itself."""
    return filled(
        '<svg class="lone-sign {kind}" width="14" height="14" viewBox="-7 -7 14 14"'
        ' aria-hidden="true"><use href="#sign-{kind}"/></svg>',
        kind=kind,
    )
