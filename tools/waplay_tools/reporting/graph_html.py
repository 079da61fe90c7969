"""The part of a page on the graph: a picture of its nodes and connections, and what changed
when."""

from collections.abc import Iterator

from waplay_tools.reporting import graph, graph_layout
from waplay_tools.reporting.content import Content
from waplay_tools.reporting.graph_layout import LINE, PADDING, Drawn, Layout, Placed
from waplay_tools.reporting.markup import Html, filled, joined
from waplay_tools.reporting.sources import Link
from waplay_tools.reporting.tables import folded, plain
from waplay_tools.reporting.text import counted, grouped

MOST_BOXES = 160  # of a picture that people can read
EDGE = 2  # pixels around it, for the lines of the outermost boxes

_BOX = """<g class="box {kinds}"><rect x="{x:.1f}" y="{y:.1f}" width="{width:.1f}"\
 height="{height:.1f}" rx="5"/>{lines}</g>"""

_LINE = '<text x="{x:.1f}" y="{y:.1f}"{quiet}>{text}</text>'

_ARROW = '<path class="arrow{passing}" d="{path}" marker-end="url(#arrow-end)"/>'

_LABEL = '<text class="arrow-label" x="{x:.1f}" y="{y:.1f}">{text}</text>'

_PICTURE = """<div class="scroll graph" tabindex="0" role="region" aria-label="{label}">\
<svg role="img" aria-label="{label}" width="{width:.0f}" height="{height:.0f}"\
 viewBox="{edge} {edge} {width:.0f} {height:.0f}">{arrows}{boxes}{labels}</svg></div>"""


def _box(placed: Placed) -> Html:
    """A box with its lines of text."""
    box = placed.box
    left, top = placed.x - placed.width / 2, placed.y - placed.height / 2
    lines = [
        filled(
            _LINE,
            x=placed.x,
            y=top + PADDING + LINE * at + 9,
            quiet=Html(' class="quiet"') if at else "",
            text=text,
        )
        for at, text in enumerate(box.lines())
    ]
    kinds = " ".join(flag.replace(" ", "-") for flag in box.flags)
    if box.kind == "destination":
        kinds += " destination"
    return filled(
        _BOX, kinds=kinds, x=left, y=top, width=placed.width, height=placed.height,
        lines=joined(lines),
    )


def _arrow(drawn: Drawn) -> Html:
    """An arrow."""
    return filled(_ARROW, passing="" if drawn.arrow.is_lasting else " passing", path=drawn.path)


def _label(drawn: Drawn) -> Html:
    """The label of an arrow."""
    x, y = drawn.label_at
    return filled(_LABEL, x=x, y=y - 2, text=drawn.arrow.label)


def _picture(made: Layout, label: str) -> Html:
    """The picture as SVG. Labels stand over all arrows."""
    return filled(
        _PICTURE,
        label=label,
        edge=-EDGE,
        width=made.width + 2 * EDGE,
        height=made.height + 2 * EDGE,
        arrows=joined(map(_arrow, made.arrows)),
        boxes=joined(map(_box, made.boxes)),
        labels=joined(_label(it) for it in made.arrows if it.arrow.label),
    )


def _link_text(link: Link) -> str:
    """A connection in words."""
    end = f"{link.end.name}.{link.place}" if isinstance(link.place, str) else link.end.name
    ports = [f"output {link.output}"] if link.output else []
    ports += [f"input {link.place}"] if link.place and not isinstance(link.place, str) else []
    return f"{link.start.name} \u2192 {end}" + (f" ({', '.join(ports)})" if ports else "")


def _change_lines(content: Content) -> Iterator[str]:
    """What changes at which frame."""
    for frame, (come, gone) in graph.changes_of(content.session.book).items():
        yield f"frame {grouped(frame)}, {frame / max(1, content.rate):.6g} s"
        yield from (f"  + {_link_text(link)}" for link in come)
        yield from (f"  \u2212 {_link_text(link)}" for link in gone)


_GRAPH = """<h3>Graph</h3>
<p>{told}</p>
{shown}
{changes}"""

_LEGEND = Html(
    '<p class="aside">Dashed arrows are taken away at a suspension. Boxes with a count are nodes of'
    " one kind with the same connections. Muted: in a cycle without a delay. Baked: a source that"
    " plays what the browser made of it alone. Frozen: what the browser made of a node and all that"
    " feeds it.</p>"
)


def graph_html(content: Content) -> Html:
    """The part on the graph; nothing of a session that made no node."""
    book = content.session.book
    if len(book.nodes) == 1:
        return Html()
    drawing = graph.picture_of(content)
    counts: dict[str, int] = {}
    for it in book.nodes:
        counts[it.kind] = counts.get(it.kind, 0) + 1
    kinds = ", ".join(
        counted(count, kind) for kind, count in sorted(counts.items()) if kind != "destination"
    )
    told = f"{kinds}; {counted(len(book.links), 'connection')}."
    label = f"Graph: {told}"
    if len(drawing.boxes) > MOST_BOXES:
        boxes = grouped(len(drawing.boxes))
        shown = filled("<p>It has {boxes} different parts, too many to draw.</p>", boxes=boxes)
        lines = [_link_text(link) for link in book.links]
        shown = Html(shown + folded("Connections", plain("Connections", lines), is_open=False))
    else:
        shown = Html(_picture(graph_layout.layout(drawing), label) + _LEGEND)
    changes = list(_change_lines(content))
    count = sum(not line.startswith(" ") for line in changes)
    after = folded(
        f"What changed at suspensions ({grouped(count)})",
        plain("Changes of the graph", changes),
        len(changes),
    )
    return filled(_GRAPH, told=told, shown=shown, changes=after if changes else "")
