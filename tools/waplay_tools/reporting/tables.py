"""Tables of HTML, and what lists have in common that may be long."""

from collections.abc import Iterable

from waplay_tools.reporting.markup import Html, filled, joined
from waplay_tools.reporting.text import counted, grouped

MANY_ROWS = 24  # from which on a list is folded
MOST_ROWS = 200  # of a table; what a list has more is told as a number


def numbers(*cells: str | int) -> Html:
    """Cells of numbers."""
    return joined(filled('<td class="number">{cell}</td>', cell=cell) for cell in cells)


_TABLE = """<div class="scroll" tabindex="0" role="region" aria-label="{label}">
<table class="{name}" aria-label="{label}">
{head}
<tbody>
{rows}
</tbody></table></div>"""


def table(name: str, label: str, head: Html, rows: Iterable[Html]) -> Html:
    """A table in a box in which it can be scrolled; both have the label."""
    return filled(_TABLE, name=name, label=label, head=head, rows=joined(rows, "\n"))


def head(
    words: tuple[str, ...] = (), figures: tuple[str, ...] = (), last: tuple[str, ...] = ()
) -> Html:
    """The head of a table: columns of words, then of numbers, then again of words."""
    cells = (
        filled('<th scope="col"{number}>{text}</th>', number=number, text=text)
        for texts, number in ((words, ""), (figures, Html(' class="number"')), (last, ""))
        for text in texts
    )
    return filled("<thead><tr>{cells}</tr></thead>", cells=joined(cells))


def frame_html(frame: int) -> Html:
    """A frame, which a script makes a button that shows it."""
    return filled(
        '<span class="frame" data-frame="{frame}">{text}</span>', frame=frame, text=grouped(frame)
    )


_FOLDED = """<details{is_open}><summary>{title}</summary>
{body}
</details>"""


def folded(title: str, body: Html, count: int = 0, is_open: bool | None = None) -> Html:
    """A part that is folded where it has many rows."""
    shown = count <= MANY_ROWS if is_open is None else is_open
    return filled(_FOLDED, is_open=Html(" open") if shown else "", title=title, body=body)


def more_rows(count: int, what: str = "more") -> Html:
    """A line on the rows that a table leaves out, if any."""
    left = count - MOST_ROWS
    return filled('<p class="aside">and {left} {what}</p>' if left > 0 else "",
                  left=grouped(left), what=what)


_PLAIN = """<div class="scroll plain" tabindex="0" role="region" aria-label="{label}">\
<pre>{text}</pre></div>"""


def plain(label: str, lines: Iterable[str]) -> Html:
    """A long list as plain lines, which a browser lays out at once."""
    return filled(_PLAIN, label=label, text=joined((filled("{it}", it=it) for it in lines), "\n"))


def ordinals(calls: list[int], most: int = 12) -> str:
    """Numbers of calls in words, those that follow each other as one span."""
    runs: list[list[int]] = []
    for call in calls:
        if runs and call == runs[-1][-1] + 1:
            runs[-1][1:] = [call]
        else:
            runs.append([call])
    told = ", ".join(" to ".join(grouped(it) for it in run) for run in runs[:most])
    if len(runs) > most:
        told += f" and at {counted(len(runs) - most, 'more place')}"
    return told
