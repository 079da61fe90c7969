"""The picture of the crates: their rooms, and the way from a script's bytes to a WAV file's."""

import dataclasses

from waplay_tools.reference.house import House
from waplay_tools.reference.scanning import Unreadable

# The rooms, the topmost first. Of each crate: its column, its name, and what it is in few words.
ROOMS = """
The run
    0 waplay          the program
    1 replay_top      the call run
    2 command_line    the words
    3 io_edge         reading, writing
    4 transcript      lines, their text
    5 wav_io          WAV files
The script
    0 load_gen        generated ones
    1 script_ast      calls, fields
    2 script_fields   members of objects
    3 script_json     bytes to calls
    4 script_text     calls to bytes
    5 answers         text, then file
Calls
    1 name_book       names of objects
    2 ctx_state       when it renders
    3 session         calls and quanta
    4 control_side    what a call does
    5 control_msgs    changes, in a queue
Rendering
    0 cycle_order     in which order
    1 automation      parameter values
    2 delay_bank      all delays
    3 filter_bank     all causal nodes
    4 quantum_blocks  a quantum each
    5 quantum_render  one pass
Why it is so
    0 waexplain       the program
    1 explain_top     the call run
    2 equations       what follows
    3 derivations     needs of facts
    4 explain         facts, their lines
What is heard
    0 waprune         the program
    1 prune_top       the call run
    2 prune_script    which calls stay
    3 prune           parts of worlds
The graph
    0 conn_graph      connections
    1 node_table      nodes
    2 buffer_store    buffers
    3 meaning         worlds and values
One thing each
    0 param_events    timelines
    1 param_cursor    places in them
    2 sched_source    starts and stops
    3 shaper_iir      filters, shapers
    4 convolve        convolvers
    5 worklet         programs
Samples
    0 mix_rules       who gets what
    1 channel_mix     up- and down-mix
    2 delay_line      a ring of frames
    3 lane_kern       loops over them
The ground
    0 wa_base         numbers, words
    1 law_base        laws, no audio
    2 json_tree       JSON values
"""
# The way: of each step, from which crate to which one, and what goes there. `-` is outside.
WAY = """
- command_line words
- io_edge script
io_edge script_json bytes
script_json session calls
session control_side
control_side control_msgs
control_side transcript lines
control_msgs quantum_render changes
quantum_render wav_io samples
transcript - text
wav_io - file
"""
LEFT, TOP, STEP_X, STEP_Y, WIDTH, HEIGHT = 118, 50, 152, 72, 132, 46
STYLE = """text { font-family: sans-serif; font-size: 12px; fill: #222 }
.name { font-family: monospace; font-size: 13px; font-weight: bold }
.small { font-size: 11px; fill: #555 }
.room { font-size: 13px; fill: #444 }
.band { fill: #f4f5f7 }
.crate { fill: #fff; stroke: #8a8f98 }
.onway { fill: #e3effc; stroke: #2f6fb3 }
.way { fill: none; stroke: #2f6fb3; stroke-width: 2; marker-end: url(#tip) }
.told { fill: #2f6fb3 }"""
TIP = (
    '<marker id="tip" viewBox="0 0 8 8" refX="6" refY="4" markerWidth="5" markerHeight="5"'
    ' orient="auto"><path d="M0 0L8 4L0 8Z" fill="#2f6fb3"/></marker>'
)


@dataclasses.dataclass(frozen=True)
class Box:
    """A crate's box, by its left upper corner."""

    x: int
    y: int
    name: str
    about: str

    def middle(self) -> int:
        """The middle of the box, from the left."""
        return self.x + WIDTH // 2

    def lines(self, is_on_way: bool) -> list[str]:
        """The box as it is drawn."""
        sort = "crate onway" if is_on_way else "crate"
        place = f'x="{self.x}" y="{self.y}" width="{WIDTH}" height="{HEIGHT}"'
        middle = f'x="{self.middle()}" text-anchor="middle"'
        return [
            f'<rect class="{sort}" {place} rx="5"/>',
            f'<text class="name" y="{self.y + 20}" {middle}>{self.name}</text>',
            f'<text class="small" y="{self.y + 36}" {middle}>{self.about}</text>',
        ]


def rooms() -> dict[str, list[tuple[int, str, str]]]:
    """The crates of each room: column, name, and what it is."""
    found: dict[str, list[tuple[int, str, str]]] = {}
    room = ""
    for line in ROOMS.strip().splitlines():
        if line.startswith(" "):
            column, name, about = line.split(maxsplit=2)
            found[room].append((int(column), name, about))
        else:
            room = line
            found[room] = []
    return found


def boxes(house: House) -> dict[str, Box]:
    """The box of each crate; raises Unreadable where crates.txt has others."""
    found = {
        name: Box(LEFT + column * STEP_X, TOP + row * STEP_Y + 14, name, about)
        for row, crates in enumerate(rooms().values())
        for column, name, about in crates
    }
    differing = sorted(set(found) ^ set(house.product))
    if differing:
        raise Unreadable(f"reference/picture.py and crates.txt differ in {', '.join(differing)}")
    return found


def path_of(begin: Box | None, end: Box | None) -> tuple[str, int, int]:
    """The line of a step, and the place of its word."""
    if begin is None:
        assert end is not None  # a step has an end in the picture at least
        return f"M{end.middle()} 22V{end.y - 3}", end.middle() + 7, 36
    if end is None:
        return f"M{begin.middle()} {begin.y}V22", begin.middle() + 7, 42
    if begin.y == end.y:
        return f"M{begin.x + WIDTH} {begin.y + 23}H{end.x - 3}", 0, 0
    if begin.x == end.x and end.y - begin.y == STEP_Y:
        below = begin.y + HEIGHT
        return f"M{begin.middle()} {below}V{end.y - 3}", begin.middle() + 7, below + 17
    above = end.y + HEIGHT
    if begin.y - above < 2 * STEP_Y:
        return f"M{begin.middle()} {begin.y}V{above + 4}", begin.middle() + 7, above + 52
    right = begin.x + WIDTH + 26
    line = f"M{begin.x + WIDTH} {begin.y + 23}H{right}V{end.y + 23}H{end.x + WIDTH + 4}"
    return line, right + 6, above + 52


def way_lines(found: dict[str, Box]) -> list[str]:
    """The way as it is drawn."""
    lines = []
    for step in WAY.strip().splitlines():
        begin, end, *told = step.split()
        line, x, y = path_of(found.get(begin), found.get(end))
        lines.append(f'<path class="way" d="{line}"/>')
        lines += [f'<text class="told" x="{x}" y="{y}">{it}</text>' for it in told]
    return lines


def svg(house: House) -> str:
    """The picture."""
    found = boxes(house)
    width, height = LEFT + 6 * STEP_X + 70, TOP + len(rooms()) * STEP_Y + 6
    size = f'width="{width}" height="{height}"'
    lines = [
        f'<svg xmlns="http://www.w3.org/2000/svg" viewBox="0 0 {width} {height}" {size}>',
        "<title>The crates of the programs, and the way from a script to a file</title>",
        f"<style>{STYLE}</style>",
        TIP,
        f'<rect {size} fill="#fff"/>',
    ]
    for row, room in enumerate(rooms()):
        y = TOP + row * STEP_Y + 6
        place = f'x="4" y="{y}" width="{width - 8}" height="{HEIGHT + 16}"'
        lines.append(f'<rect class="band" {place}/>')
        lines.append(f'<text class="room" x="12" y="{y + 36}">{room}</text>')
    lines += way_lines(found)
    on_way = set(WAY.split())
    for box in found.values():
        lines += box.lines(box.name in on_way)
    return "\n".join([*lines, "</svg>"]) + "\n"
