"""What scripts are made of: ranges of values, the kinds of nodes, buffers and assets."""

from collections.abc import Callable
from typing import Any, NamedTuple

from waplay_tools.expecting.automation import EDITS, LEFT_OUT_EDITS
from waplay_tools.expecting.sessions import LOOPS

Call = dict[str, Any]
Calls = list[Call]
Script = dict[str, Any]
Make = Callable[[], Call]

FIX = (-(2**31), 2**31 - 1)
TIME = 2**40
ONE = 2**24
AUTOMATED = [*EDITS, *LEFT_OUT_EDITS, "readValue"]  # the operations on one parameter
SHAPERS = {"createWaveShaper", "setCurve", "setOversample"}
BUFFERS = {"createBuffer", "copyToChannel", "createBufferSource", "setBuffer", *LOOPS}


class Kind(NamedTuple):
    """A kind of node: how often one is made, and by which method of the maker; how many inputs and
    outputs it has, whether it starts and stops, and its parameter that calls can change."""

    often: int
    make: str
    inputs: int
    outputs: int
    plays: bool
    parameter: str | None


# The kinds of nodes, by the operation that makes them.
KINDS = {
    "createConstantSource": Kind(10, "create_constant", 0, 1, True, "offset"),
    "createBufferSource": Kind(10, "create_buffer_source", 0, 1, True, None),
    "createGain": Kind(14, "create_gain", 1, 1, False, "gain"),
    "createChannelSplitter": Kind(5, "create_splitter", 1, 6, False, None),
    "createChannelMerger": Kind(5, "create_merger", 6, 1, False, None),
    "createWaveShaper": Kind(6, "create_shaper", 1, 1, False, None),
    "createIIRFilter": Kind(6, "create_filter", 1, 1, False, None),
    "createConvolver": Kind(5, "create_convolver", 1, 1, False, None),
    "createProcessor": Kind(5, "create_processor", 1, 1, False, None),
    "createDelay": Kind(12, "create_delay", 1, 1, False, "delayTime"),
}


class Sound(NamedTuple):
    """What is kept of a buffer: what a node has, so that a call can take it for one, and its
    size."""

    inputs: int
    outputs: int
    plays: bool
    channels: int
    length: int
    parameter: str | None = None


Named = Kind | Sound  # what a name of a script may stand for
Fits = Callable[[Named], Any]  # whether it is what a call wants, by the truth of the answer


class Link(NamedTuple):
    """An asset that is a link to this path."""

    target: str


# What stands at a path: bytes, so many zero bytes, a link, or None for a folder.
Asset = bytes | int | Link | None
Assets = dict[str, Asset]
