"""How often each call and each shape of a script is made, and by which function of the maker."""

from typing import Any

from waplay_tools.expecting.sessions import ATTRIBUTES
from waplay_tools.random_scripts.kinds import AUTOMATED, BUFFERS, SHAPERS

# How often each operation is called, which method of the maker makes a call of it, with what words
# behind it, and what the program has to read for it.
OPERATIONS: list[tuple] = [
    (24, "create_node"),
    (30, "connect"),
    (10, "disconnect"),
    (14, "set_attribute", *ATTRIBUTES),
    (16, "start"),
    (8, "stop"),
    (2, "start_rendering"),
    (6, "read"),
    (2, "left_out"),
    (6, "create_buffer", *BUFFERS),
    (6, "decode", "decodeAudioData", *BUFFERS),
    (8, "copy_to_channel", *BUFFERS),
    (6, "set_buffer", *BUFFERS),
    (6, "set_loop", *BUFFERS),
    (6, "set_curve", *SHAPERS),
    (2, "set_oversample", *SHAPERS),
    (8, "connect_param", "connectParam"),
    (4, "disconnect_param", "disconnectParam"),
    *[(3, f"edit {op}", op) for op in AUTOMATED],
    (3, "suspend", "suspend"),
]

# The same of what is changed at a suspension.
CHANGES: list[tuple] = [
    (6, "voice"),
    (4, "sampled", *BUFFERS),
    (8, "rewired"),
    (6, "disconnect"),
    (10, "moved", *AUTOMATED),
    (6, "any_edit", *AUTOMATED),
    (3, "values_read", "readValue"),
    (3, "connect_param", "connectParam"),
    (2, "disconnect_param", "disconnectParam"),
    (4, "start"),
    (4, "stop"),
    (4, "set_attribute", *ATTRIBUTES),
    (5, "set_curve", *SHAPERS),
    (1, "set_oversample", *SHAPERS),
    (2, "copy_to_channel", *BUFFERS),
    (2, "set_buffer", *BUFFERS),
    (2, "set_loop", *BUFFERS),
    (3, "read"),
    (4, "suspend", "suspend"),
    (8, "any_call"),
    (8, "looped", "createDelay"),
    (6, "unlooped", "createDelay"),
    (2, "widened", "createDelay", "createChannelMerger"),
    (4, "passing", "createDelay", *BUFFERS),
]

# How often a script has each shape. The last four take long to work out, or much memory to run.
SHAPES = [
    (1200, "mixed"),
    (1000, "graph"),
    (600, "wide"),
    (600, "woven"),
    (1200, "played"),
    (2000, "automated"),
    (1000, "bent"),
    (1500, "filtered"),
    (300, "faulty"),
    (100, "unrendered"),
    (2, "cables"),
    (4, "crowd"),
    (2, "tangle"),
    (3, "store"),
]

# The same of shapes that want delays. That of lines takes long to make.
DELAY_SHAPES = [
    (6000, "delayed"),
    (1500, "crossed"),
    (60, "lines"),
    (1500, "convolved"),
]

# The same of shapes that want processors, which are in some of the scripts.
PROCESSOR_SHAPES = [(15000, "processed")]

# What stands in a program now and then, and is no instruction, or has a number that is none.
NO_INSTRUCTIONS: list[Any] = [
    "",
    "add ",
    " add",
    "add 1",
    "push",
    "push ",
    "push  1",
    "push +1",
    "push 1.0",
    "push 0x1",
    "push --1",
    "push \u0661",
    "load -0",
    "store -1",
    "skip",
    "Dup",
    "in\n",
    "push 2147483648",
    "push -2147483649",
    "div 2147483648",
    "skipz 00099999999999",
    "load " + "9" * 5000,
    7,
    None,
    ["in"],
]

# What a member is spoiled with: much of it is of a wrong kind or out of range for most fields.
SPOILED: list[Any] = [
    None,
    True,
    0,
    1,
    -1,
    1.0,
    1e2,
    2**31,
    2**32,
    2**40 + 1,
    2**63,
    2**64,
    -(2**63) - 1,
    "",
    "n1",
    "x" * 65,
    "a b",
    "destination",
    "\ud800",
    "max",
    "k-rate",
    "Explicit",
    "discrete",
    "connect",
    "createFoo",
    [],
    {},
    [7],
    [{}],
    False,
    [2**31],
    [0.5, 2**31],
    "x" * 256,
    "\u00e9" * 128,
    2**24,
    "2x",
    "none",
    [2**31, 1],
]

# What a context may tell of the frames of a render quantum, and is refused for.
NO_QUANTA = [0, 1, 31, 33, 63, 65, 96, 100, 127, 129, 255, 257, 1000, 1023, 1025, 2048, 2**32 - 1]

# What the program has to read for a shape. Where it does not, a graph is made.
CHANNELS = ("createChannelSplitter", "createChannelMerger")
NEEDED = {
    "wide": [*ATTRIBUTES],
    "played": [*BUFFERS],
    "store": [*BUFFERS],
    "automated": [*AUTOMATED, "connectParam", "disconnectParam"],
    "bent": [*SHAPERS, *AUTOMATED, "connectParam"],
    "filtered": ["createIIRFilter", *AUTOMATED, "connectParam"],
    "delayed": [*BUFFERS, *AUTOMATED, "connectParam", *CHANNELS],
    "crossed": [*AUTOMATED, "connectParam", *CHANNELS],
    "convolved": ["createConvolver", *BUFFERS, *AUTOMATED, "connectParam", *CHANNELS],
    "processed": ["createProcessor", *BUFFERS, *AUTOMATED, "connectParam", *CHANNELS],
    "woven": [*CHANNELS],
    "cables": [*CHANNELS],
}

# How often a script of a shape begins with buffers, a half where it is not here.
WITH_BUFFERS = {
    "played": 1,
    "filtered": 0.8,
    "delayed": 0.8,
    "convolved": 0.8,
    "processed": 0.5,
    **dict.fromkeys(("crowd", "tangle", "cables", "store", "lines"), 0),
}

# The shapes between whose calls there may be some that have to do with parameters.
SPRINKLED = ("graph", "wide", "woven", "played", "cables", "tangle")
