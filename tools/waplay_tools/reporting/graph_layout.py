"""Where the boxes and arrows of a graph are drawn: by graphviz where it is installed, else in plain
columns."""

import dataclasses
import shlex
import shutil
import subprocess
from collections.abc import Iterator

from waplay_tools.reporting.graph import Arrow, Box, Picture

LETTER, LINE = 7.2, 16  # pixels of a letter's width, and of a line's height
PADDING, GAP_X, GAP_Y = 8, 56, 18
INCH = 72.0
SECONDS = 20  # that graphviz may take


@dataclasses.dataclass
class Placed:
    """A box in the picture: its middle and its size, in pixels."""

    box: Box
    x: float
    y: float
    width: float
    height: float


@dataclasses.dataclass
class Drawn:
    """An arrow in the picture: a path of SVG, and the place of its label."""

    arrow: Arrow
    path: str
    label_at: tuple[float, float]


@dataclasses.dataclass
class Layout:
    """A picture with its places."""

    width: float
    height: float
    boxes: list[Placed]
    arrows: list[Drawn]
    by: str


def size_of(box: Box) -> tuple[float, float]:
    """The width and height of a box."""
    lines = box.lines()
    return max(map(len, lines)) * LETTER + 2 * PADDING, len(lines) * LINE + 2 * PADDING - 4


def layout(picture: Picture) -> Layout:
    """The places of a picture."""
    return by_graphviz(picture) or in_columns(picture)


def _dot_text(picture: Picture) -> Iterator[str]:
    """The picture in graphviz' language. Boxes and arrows are named by numbers alone."""
    yield "digraph { rankdir=LR; nodesep=0.25; ranksep=0.6; node [shape=box fixedsize=true];"
    for box in picture.boxes:
        width, height = (it / INCH for it in size_of(box))
        yield f'{box.number} [width={width:.3f} height={height:.3f} label=""];'
    for number, arrow in enumerate(picture.arrows):
        label = f' label="{"m" * len(arrow.label)}" fontsize=11' if arrow.label else ""
        yield f'{arrow.start} -> {arrow.end} [color="{number}"{label}];'
    yield "}"


def by_graphviz(picture: Picture) -> Layout | None:
    """The places that graphviz finds; None where it is not installed, or does not come to an
    end."""
    dot = shutil.which("dot")
    if not dot:
        return None
    try:
        run = subprocess.run([dot, "-Tplain"], input="\n".join(_dot_text(picture)), text=True,
                             capture_output=True, timeout=SECONDS, check=True)
    except (OSError, subprocess.SubprocessError):
        return None
    made = Layout(0, 0, [], [], "graphviz")
    boxes = {str(box.number): box for box in picture.boxes}
    for line in run.stdout.splitlines():
        words = shlex.split(line)
        if words[0] == "graph":
            made.width, made.height = float(words[2]) * INCH, float(words[3]) * INCH
        elif words[0] == "node":
            x, y, width, height = (float(it) * INCH for it in words[2:6])
            made.boxes.append(Placed(boxes[words[1]], x, made.height - y, width, height))
        elif words[0] == "edge":
            made.arrows.append(_edge(words, picture, made.height))
    return made


def _edge(words: list[str], picture: Picture, height: float) -> Drawn:
    """An arrow, as graphviz tells it: its ends, the points of its curve, perhaps its label, and its
    style and colour. The colour is its number."""
    count = int(words[3])
    numbers = [float(it) * INCH for it in words[4 : 4 + 2 * count]]
    points = [(x, height - y) for x, y in zip(numbers[::2], numbers[1::2])]
    rest = words[4 + 2 * count :]
    middle = points[len(points) // 2]
    if len(rest) == 5:
        middle = float(rest[1]) * INCH, height - float(rest[2]) * INCH
    told = [f"{x:.1f},{y:.1f}" for x, y in points]
    return Drawn(picture.arrows[int(rest[-1])], f"M{told[0]}C{' '.join(told[1:])}", middle)


def _ranks(picture: Picture) -> dict[int, int]:
    """The column of each box, counted from the destination; arrows back do not count."""
    before: dict[int, list[int]] = {box.number: [] for box in picture.boxes}
    for arrow in picture.arrows:
        before[arrow.end].append(arrow.start)
    ranks: dict[int, int] = {}
    ends = [box.number for box in picture.boxes if box.kind == "destination"]
    for root in [*ends, *before]:
        level = [root] if root not in ranks else []
        depth = 0
        while level:
            ranks.update((number, depth) for number in level)
            level = sorted({it for number in level for it in before[number] if it not in ranks})
            depth += 1
    most = max(ranks.values())
    return {number: most - rank for number, rank in ranks.items()}


def in_columns(picture: Picture) -> Layout:
    """Plain columns, each box one column before the nearest that it leads to."""
    ranks = _ranks(picture)
    columns: dict[int, list[Box]] = {}
    for box in picture.boxes:
        columns.setdefault(ranks[box.number], []).append(box)
    made = Layout(0, 0, [], [], "columns")
    left = float(PADDING)
    for rank in sorted(columns):
        widest = max(size_of(box)[0] for box in columns[rank])
        top = float(PADDING)
        for box in columns[rank]:
            width, height = size_of(box)
            made.boxes.append(Placed(box, left + widest / 2, top + height / 2, width, height))
            top += height + GAP_Y
        made.height = max(made.height, top)
        left += widest + GAP_X
    made.width = left - GAP_X + PADDING
    places = {it.box.number: it for it in made.boxes}
    made.arrows = [_straight(arrow, places) for arrow in picture.arrows]
    return made


def _straight(arrow: Arrow, places: dict[int, Placed]) -> Drawn:
    """An arrow from the right of a box to the left of another one."""
    start, end = places[arrow.start], places[arrow.end]
    x, y = start.x + start.width / 2, start.y
    to_x, to_y = end.x - end.width / 2, end.y
    bend = max(GAP_X / 2, abs(to_x - x) / 2)
    path = f"M{x:.1f},{y:.1f}C{x + bend:.1f},{y:.1f} {to_x - bend:.1f},{to_y:.1f}"
    return Drawn(arrow, f"{path} {to_x:.1f},{to_y:.1f}", ((x + to_x) / 2, (y + to_y) / 2))
