"""The worst scripts that are known, each of one kind: much that is asked for in few bytes."""

import dataclasses
import functools
import json
import random
from collections.abc import Callable, Iterable, Iterator
from typing import Any

from waplay_tools import wav
from waplay_tools.random_scripts.kinds import TIME, Asset, Call

MOST = 2**24  # bytes of a script
RATE = 16384
LONGEST_DELAY = 2**28
LONGEST = 2**18  # the frames of such a delay
ASSET = 2**26 - 44  # the samples of the longest asset
PAGE = 128  # samples that a buffer keeps beside each other where it was written
LEFT = 2**27 - ASSET - 32 * 128 - 2**14 - 2  # samples that all at once has room for beside that
CHECKED = ("--mode", "check", "out.wav")
MIGRATED = ("--mode", "migrate", "out.json")
DERIVED = ("derive", "12800", "0", "why.txt")


@dataclasses.dataclass(frozen=True)
class Worst:
    """A script: what it shows, how its text is made, the words and the name of the program that
    reads it, and how its assets are."""

    shows: str
    text: Callable[[], str]
    words: tuple[str, ...] = ("out.wav",)
    assets: Callable[[], dict[str, Asset]] = dict
    program: str = "waplay"


def text_of(calls: Iterable[Call], **context: int) -> str:
    """The text of a script of these calls, in one channel and one frame where no more is said."""
    whole = {"channels": 1, "length": 1, "rate": RATE, **context}
    lines = ",".join(json.dumps(call, separators=(",", ":")) for call in calls)
    return f'{{"version":1,"context":{json.dumps(whole)},"calls":[{lines}]}}'


def filled(before: str, part: str, behind: str) -> str:
    """A text with a part as often as a script has room for it."""
    times = (MOST - len(before) - len(behind)) // len(part)
    return before + part * times + behind


def extended(script: str, calls: Iterable[Call]) -> str:
    """A script, and before rendering starts as many of the calls as there is room for."""
    last = script.rindex('{"op":"startRendering"')
    room = MOST - len(script)
    parts = []
    for call in calls:
        part = json.dumps(call, separators=(",", ":")) + ","
        room -= len(part)
        if room < 0:
            break
        parts.append(part)
    return script[:last] + "".join(parts) + script[last:]


def member_of(part: str, last: str) -> Callable[[], str]:
    """A script with a list of parts in a member that nothing reads."""
    return lambda: filled(text_of([])[:-1] + ',"x":[', part, last + "]}")


def repeated(call: Call, size: int) -> str:
    """A script of this many bytes, or somewhat fewer, of one call again and again."""
    part = json.dumps(call, separators=(",", ":")) + ","
    text = text_of([])[:-2]
    return text + (part * ((size - len(text) - 2) // len(part)))[:-1] + "]}"


def listed(call: Call, field: str, before: list[Call]) -> Callable[[], str]:
    """A script with a call whose list is as long as there is room."""
    text = text_of([*before, {**call, field: []}])
    front, behind = text.rsplit("[]", 1)
    return lambda: filled(front + "[", "0,", "0]" + behind)


GAIN: Call = {"op": "createGain", "as": "g"}
OF_GAIN: Call = {"node": "g", "param": "gain"}
START = {"op": "startRendering"}
LARGEST: Call = {"op": "createBuffer", "as": "b", "channels": 32, "length": 2**22, "rate": RATE}


def events(count: int, step: int) -> str:
    """Values that are set at times a step apart, falling where it is below 0, and a frame."""
    first = 0 if step > 0 else -step * count
    sets = [
        {"op": "setValueAtTime", **OF_GAIN, "value": 0, "time": first + step * number}
        for number in range(count)
    ]
    return text_of([GAIN, *sets, START])


def events_in_any_order(count: int) -> str:
    """Values that are set at random times, and a frame."""
    rng = random.Random(count)
    sets = [
        {"op": "setValueAtTime", **OF_GAIN, "value": 0, "time": rng.randrange(TIME)}
        for _ in range(count)
    ]
    return text_of([GAIN, *sets, START])


def edits_behind(count: int, edit: Call, times: int) -> str:
    """A long timeline, and an edit at its end again and again, which changes nothing."""
    sets = ({"op": "setValueAtTime", **OF_GAIN, "value": 0, "time": at} for at in range(count))
    return text_of([GAIN, *sets, *[{**edit, **OF_GAIN, "time": TIME}] * times])


def splitter() -> Iterator[Call]:
    """A splitter into eight mergers, with as many connections as there may be."""
    yield {"op": "createChannelSplitter", "as": "p", "numberOfOutputs": 32}
    for merger in range(8):
        yield {"op": "createChannelMerger", "as": f"m{merger}", "numberOfInputs": 32}
    yield from cables()


def cables() -> Iterator[Call]:
    """The connections of the splitter."""
    for at in range(8192):
        yield cable(at)


def cable(at: int) -> Call:
    """One of them."""
    output, place = at % 32, at // 32 % 32
    return {"op": "connect", "from": "p", "output": output, "to": f"m{at // 1024}", "input": place}


def again(calls: list[Call], times: int) -> str:
    """Calls behind the splitter again and again, and a frame."""
    return text_of([*splitter(), *calls * times, START])


def suspended(count: int, before: Iterable[Call], lists: Callable[[int], list[Call]]) -> str:
    """A suspension in each of so many quanta, with its list."""
    suspensions = [
        {"op": "suspend", "time": 128 * number, "then": [*lists(number), {"op": "resume"}]}
        for number in range(1, count + 1)
    ]
    return text_of([*before, *suspensions, START], length=128 * (count + 1))


def round_of(made: Call) -> str:
    """A thousand nodes, each connected to the eight behind it and the last ones to the first. One
    of the connections goes and comes at suspensions."""
    calls = [{**made, "as": f"n{number}"} for number in range(1000)]
    for number in range(1000):
        for further in range(number + 1, number + 9):
            calls.append({"op": "connect", "from": f"n{number}", "to": f"n{further % 1000}"})
    ends = {"from": "n4", "to": "n5"}
    changes = [{"op": "disconnect", **ends}, {"op": "connect", **ends}]
    return suspended(100, calls, lambda number: [changes[(number + 1) % 2]])


SHORT_DELAY: Call = {"op": "createDelay", "maxDelayTime": 128 * 1024}


def round_of_gains() -> str:
    """A cycle through all nodes there may be, which is cut and closed at suspensions."""
    gains = [{"op": "createGain", "as": f"n{number}"} for number in range(1023)]
    joined = [
        {"op": "connect", "from": f"n{number}", "to": f"n{(number + 1) % 1023}"}
        for number in range(1023)
    ]
    cut = {"op": "disconnect", "from": "n0", "to": "n1"}
    changes = [cut, joined[0]]
    return suspended(100, [*gains, *joined], lambda number: [changes[(number + 1) % 2]])


def played_and_changed() -> str:
    """The asset, played through a gain that changes at each of 100 suspensions."""
    played: list[Call] = [
        {"op": "decodeAudioData", "as": "b", "path": "long.wav"},
        {"op": "createBufferSource", "as": "s", "buffer": "b"},
        {"op": "createGain", "as": "g"},
        {"op": "connect", "from": "s", "to": "g"},
        {"op": "connect", "from": "g", "to": "destination"},
        {"op": "start", "node": "s"},
    ]
    change: Call = {"op": "setValue", "node": "g", "param": "gain"}
    return suspended(100, played, lambda number: [{**change, "value": number}])


def written_at_suspensions() -> str:
    """A sample that is written into the largest buffer at each of 100 suspensions."""
    write: Call = {"op": "copyToChannel", "buffer": "b", "channel": 0, "samples": [1]}
    return suspended(100, [LARGEST], lambda number: [{**write, "at": number}])


def changed_beside_connections() -> str:
    """A gain that changes at each of 1,000 suspensions, beside all 8,192 connections."""
    change: Call = {"op": "setValue", "node": "g", "param": "gain"}
    made: list[Call] = [*splitter(), *cables(), {"op": "createGain", "as": "g"}]
    return suspended(1000, made, lambda number: [{**change, "value": number}])


def made_at_suspensions() -> str:
    """A gain that is made and connected at each of 1,000 suspensions."""
    return suspended(
        1000,
        [],
        lambda number: [
            {"op": "createGain", "as": f"n{number}"},
            {"op": "connect", "from": f"n{number}", "to": "destination"},
        ],
    )


def cut_at_suspensions() -> str:
    """All 8,192 connections of the splitter, which go and come at each of 20 suspensions."""
    whole = [{"op": "disconnect", "from": "p"}, *cables()]
    return suspended(20, splitter(), lambda _: whole)


def scheduled() -> str:
    """Suspensions whose times fall."""
    count = 200000
    calls = ({"op": "suspend", "time": 128 * (count - number)} for number in range(count))
    return text_of(calls, length=128 * (count + 1))


def named() -> str:
    """Buffers of one sample, each with a name of its own."""
    shape = {"channels": 1, "length": 1, "rate": RATE}
    return text_of({"op": "createBuffer", "as": f"b{at}", **shape} for at in range(200000))


def wide_source(samples: list[int], loop: bool = True) -> list[Call]:
    """A buffer with 32 channels of these samples, and a source that plays it."""
    shape = {"channels": 32, "length": len(samples), "rate": RATE}
    written = {"op": "copyToChannel", "buffer": "b", "samples": samples}
    return [
        {"op": "createBuffer", "as": "b", **shape},
        *[{**written, "channel": channel} for channel in range(32)],
        {"op": "createBufferSource", "as": "s", "buffer": "b", "loop": loop},
        {"op": "start", "node": "s"},
    ]


def delays() -> list[Call]:
    """As many frames of delays as there may be, each with 32 channels."""
    calls = wide_source(list(range(128)))
    for number in range(16):
        name = f"d{number}"
        delay = {
            "op": "createDelay",
            "as": name,
            "maxDelayTime": LONGEST_DELAY,
            "delayTime": 2**20,
        }
        calls += [delay, {"op": "connect", "from": "s", "to": name}]
        calls.append({"op": "connect", "from": name, "to": "destination"})
    return calls


def rooms(count: int) -> list[Call]:
    """So many convolvers of the longest and loudest response, which hear two channels."""
    response: Call = {"op": "createBuffer", "as": "h", "channels": 1, "length": 2**14, "rate": RATE}
    calls: list[Call] = [response, {**response, "as": "b", "channels": 2, "length": 1}]
    loudest = {"op": "copyToChannel", "channel": 0}
    calls.append({**loudest, "buffer": "h", "samples": [2**25] * 2**14})
    calls.append({**loudest, "buffer": "b", "samples": [2**31 - 1]})
    calls.append({"op": "createBufferSource", "as": "s", "buffer": "b", "loop": True})
    calls.append({"op": "start", "node": "s"})
    for number in range(count):
        name = f"v{number}"
        room = {"op": "createConvolver", "as": name, "buffer": "h", "disableNormalization": True}
        calls += [room, {"op": "connect", "from": "s", "to": name}]
        calls.append({"op": "connect", "from": name, "to": "destination"})
    return calls


def all_at_once() -> str:
    """The largest buffers, delays and rendering, and convolvers, which come to hear a quantum once
    the delays are full. Two assets are decoded for the buffers, since one that is created takes no
    memory. Then the first one is decoded again, for which no room is left, and the session is
    stalled."""
    decoded = {"op": "decodeAudioData", "as": "w", "path": "long.wav"}
    rest = {"op": "decodeAudioData", "as": "r", "path": "rest.wav"}
    made = rooms(1005)
    joined = [it for it in made if it["op"] == "connect"]
    calls = [decoded, rest, *delays(), *(it for it in made if it["op"] != "connect")]
    for number, it in enumerate([[*joined, {"op": "resume"}], [decoded]]):
        calls.append({"op": "suspend", "time": LONGEST + 128 * number, "then": it})
    return text_of([*calls, START], channels=32, length=2**21)


def all_at_once_in_full_length() -> str:
    """All at once, and before rendering starts writes into the decoded buffers, as many as there is
    room for. No call is known that keeps more memory for its bytes."""
    return extended(all_at_once(), writes("wr", 1, LEFT))


def longest_programs() -> str:
    """As many processors as there may be, of the longest program, which hear 32 channels for three
    quanta."""
    calls = wide_source(list(range(384)), loop=False)
    code = ["load 0", *["in", "mul", "in", "div 2147483647", "add"] * 50, "in", "add"]
    code += ["dup", "store 0", "neg"]
    for number in range(1022):
        name = f"p{number}"
        calls += [
            {"op": "createProcessor", "as": name, "code": code},
            {"op": "connect", "from": "s", "to": name},
            {"op": "connect", "from": name, "to": "destination"},
        ]
    return text_of([*calls, START], length=384)


def sources_that_end(quantum: int) -> str:
    """As many sources as there may be, in the longest session; the last frame ends them."""
    calls: list[Call] = []
    for number in range(1023):
        calls.append({"op": "createConstantSource", "as": f"c{number}"})
        calls.append({"op": "start", "node": f"c{number}"})
        calls.append({"op": "stop", "node": f"c{number}", "when": 2**25})
    return text_of([*calls, START], length=2**25, renderQuantum=quantum)


def largest_blocks() -> str:
    """As many gains as there may be, which hear 32 channels for a quantum of 1,024 frames."""
    calls = wide_source([1, 2])
    for number in range(1022):
        name = f"g{number}"
        calls += [
            {"op": "createGain", "as": name},
            {"op": "connect", "from": "s", "to": name},
            {"op": "connect", "from": name, "to": "destination"},
        ]
    return text_of([*calls, START], channels=32, length=1024, renderQuantum=1024)


def writes(buffers: str, channels: int, frames: int) -> Iterator[Call]:
    """Writes into all pages of buffers with names of one letter. Each is of two samples, the last
    of a page and the first of the next one, so that it takes memory for both."""
    for at in range(PAGE - 1, frames - 1, 2 * PAGE):
        for name in buffers:
            for channel in range(channels):
                place = {"buffer": name, "channel": channel, "samples": [0, 0], "at": at}
                yield {"op": "copyToChannel", **place}


def created_and_written() -> str:
    """As many samples in a created buffer as there may be, and as many writes into it as there is
    room for."""
    return extended(text_of([LARGEST, START]), writes("b", 32, 2**22))


def decoded_and_written() -> str:
    """The same with two buffers that are decoded."""
    made = [{"op": "decodeAudioData", "as": name, "path": "long.wav"} for name in "ab"]
    return extended(text_of([*made, START]), writes("ab", 1, ASSET))


def recording(frames: int, rate: int) -> bytes:
    """An asset of samples of 8 bits."""
    return wav.file_of(wav.Form(1, rate, 8), bytes(frames))


def long_asset(rate: int) -> Callable[[], dict[str, Asset]]:
    """The longest asset."""
    return lambda: {"long.wav": recording(ASSET, rate)}


def both_assets() -> dict[str, Asset]:
    """The longest asset, and one of as many samples as all at once leaves room for."""
    return {**long_asset(RATE)(), "rest.wav": recording(LEFT, RATE)}


def decodes(count: int) -> str:
    """The asset, which is decoded so many times."""
    return text_of([{"op": "decodeAudioData", "as": "b", "path": "long.wav"}] * count)


def refused_disconnect() -> Call:
    """A disconnect of the splitter from a node that it is not connected to."""
    return {"op": "disconnect", "from": "p", "to": "destination"}


def back_and_forth() -> list[Call]:
    """One of the connections, which goes and comes."""
    ends: dict[str, Any] = cable(8191)
    return [{**ends, "op": "disconnect"}, ends]


TIMELINES = [
    Worst("100,000 events in rising order of time", lambda: events(100000, 1)),
    Worst("50,000 events in falling order of time", lambda: events(50000, -1)),
    Worst("100,000 events in falling order of time", lambda: events(100000, -1)),
    Worst("100,000 events in any order of time", lambda: events_in_any_order(100000)),
    Worst(
        "10,000 cancels behind 50,000 events",
        lambda: edits_behind(50000, {"op": "cancelScheduledValues"}, 10000),
    ),
    Worst(
        "a curve with all points there is room for",
        listed(
            {**OF_GAIN, "op": "setValueCurveAtTime", "time": 0, "duration": 1}, "values", [GAIN]
        ),
    ),
]
CONNECTIONS = [
    Worst("8,192 connections", lambda: again([], 0)),
    Worst("100,000 connects that stand already, the last", lambda: again([cable(8191)], 100000)),
    Worst("100,000 connects that stand already, the first", lambda: again([cable(0)], 100000)),
    Worst("100,000 refused disconnects", lambda: again([refused_disconnect()], 100000)),
    Worst("40,000 disconnects and connects", lambda: again(back_and_forth(), 40000)),
    Worst("all 8,192 disconnected and connected, 20 times", cut_at_suspensions),
]
GRAPHS = [
    Worst("100 changes of 1,000 gains", lambda: round_of({"op": "createGain"})),
    Worst("100 changes of 1,000 delays", lambda: round_of(SHORT_DELAY)),
    Worst("100 changes of a cycle through 1,023 gains", round_of_gains),
    Worst("a gain made at each of 1,000 suspensions", made_at_suspensions),
]
TEXTS = [
    Worst("16 MiB of objects that nothing reads", member_of('{"":0},', "0")),
    Worst("16 MiB of empty objects", member_of("{},", "0")),
    Worst("16 MiB of arrays", member_of("[],", "0")),
    Worst("16 MiB of arrays within arrays", member_of("[" * 120 + "]" * 120 + ",", "0")),
    Worst("16 MiB of arrays of five numbers", member_of("[0,0,0,0,0],", "0")),
    Worst("16 MiB of numbers", member_of("0,", "0")),
    Worst("16 MiB of texts", member_of('"",', "0")),
    Worst("a text of 16 MiB", lambda: filled(text_of([])[:-1] + ',"x":"', "\\u0000", '"}')),
    Worst(
        "16 MiB of calls",
        lambda: filled(text_of([])[:-2], '{"op":"resume"},', '{"op":"resume"}]}'),
    ),
    Worst(
        "16 MiB of samples",
        listed(
            {"op": "copyToChannel", "buffer": "b", "channel": 0},
            "samples",
            [{"op": "createBuffer", "as": "b", "channels": 1, "length": 1, "rate": RATE}],
        ),
    ),
]
MIGRATIONS = [
    Worst(
        "12 MiB of times that are migrated",
        lambda: repeated({"op": "stop", "node": "c", "when": -TIME}, 12 * 2**20),
        MIGRATED,
    ),
    Worst(
        "12 MiB of samples that are migrated",
        lambda: repeated(
            {"op": "copyToChannel", "buffer": "b", "channel": 0, "samples": [0] * 10**6},
            12 * 2**20,
        ),
        MIGRATED,
    ),
    Worst(
        "12 MiB of controls in names that are migrated",
        lambda: repeated({"op": "readValue", "node": "\0" * 10**5, "param": ""}, 12 * 2**20),
        MIGRATED,
    ),
    Worst(
        "all calls there is room for, migrated to three times as much",
        lambda: repeated({"op": "start", "node": "c"}, MOST),
        MIGRATED,
    ),
]
ROOM = [
    Worst(
        "10 decodings of a 64 MiB asset of another rate",
        lambda: decodes(10),
        assets=long_asset(44100),
    ),
    Worst("10 decodings of a 64 MiB asset", lambda: decodes(10), assets=long_asset(RATE)),
    Worst("the largest buffers", lambda: text_of([LARGEST, START])),
    Worst("the largest buffers, created, and 16 MiB of writes", created_and_written),
    Worst(
        "the largest buffers, decoded, and 16 MiB of writes",
        decoded_and_written,
        assets=long_asset(RATE),
    ),
    Worst(
        "the largest delays, of 32 channels",
        lambda: text_of([*delays(), START], length=2 * LONGEST),
    ),
    Worst(
        "a quantum of 1,022 convolvers of the longest response",
        lambda: text_of([*rooms(1022), START], length=128),
    ),
    Worst("three quanta of 1,022 processors of the longest program", longest_programs),
    Worst("the largest rendering", lambda: text_of([START], channels=2, length=2**25)),
    Worst(
        "the largest rendering in quanta of 32 frames",
        lambda: text_of([START], channels=2, length=2**25, renderQuantum=32),
    ),
    Worst("a quantum of 1,024 frames of 1,022 gains of 32 channels", largest_blocks),
    *[
        Worst(
            f"1,023 sources in the longest session in quanta of {quantum}, checked",
            functools.partial(sources_that_end, quantum),
            CHECKED,
        )
        for quantum in (32, 128)
    ],
    Worst("200,000 suspensions in falling order of time", scheduled, CHECKED),
    Worst("200,000 names", named),
    Worst("all of a session at its limit at once", all_at_once, assets=both_assets),
    Worst(
        "all of a session at its limit at once, in 16 MiB of calls",
        all_at_once_in_full_length,
        assets=both_assets,
    ),
]
EXPLAINED = [
    Worst(
        "a sample of a 64 MiB asset after 100 changes, derived",
        played_and_changed,
        DERIVED,
        long_asset(RATE),
        "waexplain",
    ),
    Worst(
        "a sample after 100 writes into the largest buffer, derived",
        written_at_suspensions,
        DERIVED,
        program="waexplain",
    ),
    Worst(
        "a sample after 1,000 changes beside 8,192 connections, derived",
        changed_beside_connections,
        DERIVED,
        program="waexplain",
    ),
]
TABLE = [*TIMELINES, *CONNECTIONS, *GRAPHS, *TEXTS, *MIGRATIONS, *ROOM, *EXPLAINED]
