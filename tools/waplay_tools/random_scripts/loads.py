"""The scripts that speed is measured with."""

import json
import os
from collections.abc import Callable

from waplay_tools import wav
from waplay_tools.expecting.reading import OPERATIONS as FIELDS
from waplay_tools.random_scripts.assets import write_assets
from waplay_tools.random_scripts.kinds import ONE, Call, Calls, Script


def in_quanta(quantum: int, load: Callable[[], Script]) -> Callable[[], Script]:
    """The same load in render quanta of so many frames."""

    def made() -> Script:
        """The script."""
        script = load()
        script["context"]["renderQuantum"] = quantum
        return script

    return made


def script_with(channels: int, length: int, calls: Calls) -> Script:
    """A script at 48,000 frames a second that does these calls and is rendered."""
    return {
        "version": 1,
        "context": {"channels": channels, "length": length, "rate": 48000},
        "calls": calls + [{"op": "startRendering"}],
    }


def sounding(name: str, offset: int) -> Calls:
    """A constant source that starts."""
    return [
        {"op": "createConstantSource", "as": name, "offset": offset},
        {"op": "start", "node": name},
    ]


def gain(name: str, value: int, *sources: str) -> Calls:
    """A gain to which these sources are connected."""
    return [{"op": "createGain", "as": name, "gain": value}] + [
        joined(source, name) for source in sources
    ]


def joined(source: str, target: str) -> Call:
    """A connection from the first output to the first input."""
    return {"op": "connect", "from": source, "to": target}


def pairs_of_constants_and_gains() -> Script:
    """200 constants, each through a gain of its own."""
    calls = []
    for i in range(200):
        calls += sounding(f"c{i}", 1000 * i) + gain(f"g{i}", ONE // 2 + i, f"c{i}")
        calls.append(joined(f"g{i}", "destination"))
    return script_with(2, 480000, calls)


def chain_of_gains() -> Script:
    """A constant through 400 gains, each by 2^-24 above or below 1.0."""
    calls = sounding("g0", ONE // 2)
    for i in range(1, 401):
        calls += gain(f"g{i}", ONE - 1 if i % 2 else ONE + 1, f"g{i - 1}")
    return script_with(1, 480000, calls + [joined("g400", "destination")])


def layers_of_gains() -> Script:
    """30 layers of 30 gains, each of which hears nine of the layer before."""
    calls = [call for i in range(30) for call in sounding(f"g0-{i}", 100000 * i)]
    for layer in range(1, 31):
        for i in range(30):
            before = [f"g{layer - 1}-{(i + k) % 30}" for k in range(9)]
            calls += gain(f"g{layer}-{i}", ONE // 9, *before)
    return script_with(1, 48000, calls + [joined(f"g30-{i}", "destination") for i in range(30)])


def as_many_nodes_as_there_may_be() -> Script:
    """A constant that 1,022 gains hear."""
    calls = sounding("c", ONE)
    for i in range(1022):
        calls += gain(f"g{i}", ONE // 1024, "c") + [joined(f"g{i}", "destination")]
    return script_with(1, 48000, calls)


def stereo_gains_into_six_channels() -> Script:
    """200 constants through gains of two channels, which are mixed up to six."""
    calls = []
    for i in range(200):
        calls += sounding(f"c{i}", 500 * i) + gain(f"g{i}", ONE, f"c{i}")
        calls.append({"op": "setChannelCountMode", "node": f"g{i}", "value": "explicit"})
        calls.append(joined(f"g{i}", "destination"))
    return script_with(6, 480000, calls)


def stereo_mergers_into_six_channels() -> Script:
    """200 mergers of two constants each, which are mixed up to six channels."""
    calls = []
    for i in range(200):
        calls += sounding(f"l{i}", 500 * i) + sounding(f"r{i}", -250 * i)
        calls.append({"op": "createChannelMerger", "as": f"m{i}", "numberOfInputs": 2})
        calls += [joined(f"l{i}", f"m{i}"), {**joined(f"r{i}", f"m{i}"), "input": 1}]
        calls.append(joined(f"m{i}", "destination"))
    return script_with(6, 480000, calls)


def stereo_loops(count: int = 32, frames: int = 480000) -> Script:
    """32 sources, or so many, that play the same stereo buffer in loops of several lengths."""
    calls = [{"op": "createBuffer", "as": "b", "channels": 2, "length": 4800, "rate": 48000}]
    for channel, step in enumerate((700, -900)):
        samples = [step * (i % 960 - 480) for i in range(4800)]
        calls.append({"op": "copyToChannel", "buffer": "b", "channel": channel, "samples": samples})
    for i in range(count):
        calls.append(
            {
                "op": "createBufferSource",
                "as": f"s{i}",
                "buffer": "b",
                "loop": True,
                "loopStart": 10 * i,
                "loopEnd": 4800 - 7 * i,
            }
        )
        calls += [
            {"op": "start", "node": f"s{i}", "offset": 100 * i},
            joined(f"s{i}", "destination"),
        ]
    return script_with(2, frames, calls)


def loops_through(length: int, creation: Call, count: int = 32, frames: int = 480000) -> Script:
    """The same loops, each through so many nodes of this creation behind one another."""
    loops = stereo_loops(count, frames)["calls"]
    calls = [call for call in loops if call["op"] not in ("connect", "startRendering")]
    for i in range(count):
        row = [f"n{i}-{k}" for k in range(length)]
        calls += [{**creation, "as": name} for name in row]
        calls += [joined(*pair) for pair in zip([f"s{i}", *row], [*row, "destination"])]
    return script_with(2, frames, calls)


def loops_through_shapers() -> Script:
    """The loops, each through six wave shapers of 129 points."""
    curve = [
        ONE * k * (12288 - k * k) // 2**20 for k in range(-64, 65)
    ]  # 3/4 x - 1/4 x^3 of x = k / 64
    return loops_through(6, {"op": "createWaveShaper", "curve": curve})


def loops_through_filters() -> Script:
    """The loops, each through six filters of order 2."""
    back = [ONE, -15 * ONE // 8, 15 * ONE // 16]  # it rings for some 30 frames
    return loops_through(
        6,
        {
            "op": "createIIRFilter",
            "feedforward": [ONE // 64, ONE // 32, ONE // 64],
            "feedback": back,
        },
    )


def loops_through_processors() -> Script:
    """The loops, each through a processor of 25 instructions: three filters of one pole."""
    pole = ["load {k}", "sub", "push 4194304", "mul", "load {k}", "add", "dup", "store {k}"]
    code = ["in", *(it.format(k=k) for k in range(3) for it in pole)]
    return loops_through(1, {"op": "createProcessor", "code": code})


def loops_through_long_filters() -> Script:
    """The loops, each through a filter with as many coefficients as there may be."""
    back = [ONE, *(ONE // (40 + k) for k in range(19))]
    return loops_through(
        1,
        {
            "op": "createIIRFilter",
            "feedforward": [ONE // (k + 9) for k in range(20)],
            "feedback": back,
        },
    )


def loops_through_rooms(count: int, length: int) -> Script:
    """So many of the loops, each through a convolver with a response of this length, which dies
    away, for 48,000 frames."""
    samples = [(-1) ** k * ONE * (length - k) // (8 * length) for k in range(length)]
    response = {"channels": 1, "length": length, "rate": 48000}
    room = {"op": "createConvolver", "buffer": "room", "disableNormalization": True}
    script = loops_through(1, room, count, 48000)
    made: Calls = [
        {"op": "createBuffer", "as": "room", **response},
        {"op": "copyToChannel", "buffer": "room", "channel": 0, "samples": samples},
    ]
    return {**script, "calls": made + script["calls"]}


def loop_through_the_longest_room() -> Script:
    """One of the loops through a response of as many samples as there may be."""
    return loops_through_rooms(1, 2**14)


def loops_through_small_rooms() -> Script:
    """All 32 loops through responses of 300 samples."""
    return loops_through_rooms(32, 300)


def largest_asset() -> Script:
    """A file of as many bytes as there may be, decoded and played."""
    calls = [
        {"op": "decodeAudioData", "as": "b", "path": "largest.wav"},
        joined("s", "destination"),
    ]
    calls[1:1] = [
        {"op": "createBufferSource", "as": "s", "buffer": "b"},
        {"op": "start", "node": "s"},
    ]
    return script_with(2, 480000, calls)


def largest_wav() -> bytes:
    """A file of 64 MiB, two channels of 16 bits."""
    size = 2**26 - 44
    samples = bytes(range(256)) * (size // 256) + bytes(size % 256)
    return wav.file_of(wav.Form(2, 48000, 16), samples)


def voices_with_ramps() -> Script:
    """200 voices, whose numbers are drawn: a constant that starts and stops, and a gain that goes
    up or down."""
    state, calls = 0, []

    def draw(most: int) -> int:
        """A number below this one."""
        nonlocal state
        state = (1103515245 * state + 12345) % 2**31
        return state // 2**16 % most

    for i in range(200):
        a, b, d, _ = draw(2048), draw(32768), draw(4096), draw(240)
        source, fade = f"c{i}", f"g{i}"
        calls += [
            {"op": "createConstantSource", "as": source, "offset": (a - 1024) * 64},
            *gain(fade, 0),
        ]
        calls += [
            edited("setValueAtTime", fade, 0, 0),
            edited("linearRampToValueAtTime", fade, 256 * b, 1 + 64 * d),
        ]
        calls += [joined(source, fade), joined(fade, "destination")]
        calls += [
            {"op": "start", "node": source, "when": 128 * (i % 50)},
            {"op": "stop", "node": source, "when": 240000 + 128 * i},
        ]
    return script_with(2, 480000, calls)


def edited(op: str, name: str, value: int, time: int) -> Call:
    """A timed call on the gain of a node."""
    return {"op": op, "node": name, "param": "gain", "value": value, "time": time}


def timelines(count: int, events: int) -> Script:
    """So many gains of one constant, and in the timeline of each so many events, three sets and a
    ramp by turns, from the first frame of 9,600 on. A script has no room for many more than 200,000
    events."""
    calls = sounding("c", ONE)
    for i in range(count):
        name = f"g{i}"
        calls += gain(name, 0, "c") + [joined(name, "destination")]
        for k in range(events):
            op = "linearRampToValueAtTime" if k % 4 == 3 else "setValueAtTime"
            calls.append(edited(op, name, 10 * k + i, 9600 * k // events))
    return script_with(1, 9600, calls)


def many_timelines() -> Script:
    """1,000 timelines of 200 events each."""
    return timelines(1000, 200)


def long_timelines() -> Script:
    """200 timelines of 1,000 events each."""
    return timelines(200, 1000)


def many_reads_of_the_state() -> Script:
    """100,000 reads of the context's state."""
    return script_with(1, 128, [{"op": "readState"}] * 100000)


def suspension(time: int, *calls: Call) -> Call:
    """A suspension whose list has these calls, and resumes."""
    return {"op": "suspend", "time": time, "then": [*calls, {"op": "resume"}]}


def voices_with_suspensions() -> Script:
    """The voices, and a suspension behind each quantum but the last, which sets one of their
    gains."""
    script = voices_with_ramps()
    calls = [
        suspension(
            128 * k,
            {
                "op": "setValue",
                "node": f"g{k % 200}",
                "param": "gain",
                "value": 2**12 * (k % 999),
            },
        )
        for k in range(1, 3750)
    ]
    return {**script, "calls": script["calls"][:-1] + calls + script["calls"][-1:]}


def many_suspensions() -> Script:
    """A suspension behind each quantum but the last, whose list resumes and does nothing else."""
    calls = sounding("c", ONE // 2) + [joined("c", "destination")]
    return script_with(1, 128 * 100001, calls + [suspension(128 * k) for k in range(1, 100001)])


def write_loads(folder: str) -> None:
    """Writes the loads whose operations are read, with their assets."""
    os.makedirs(folder, exist_ok=True)
    for name, load in LOADS.items():
        script = load()
        if all(call["op"] in FIELDS for call in script["calls"]):
            assets = {"largest.wav": largest_wav()} if load is largest_asset else {}
            text = json.dumps(script)
            if len(text) > 2**24:  # what a script may have
                text = json.dumps(script, separators=(",", ":"))
            write_assets(folder, {name + ".json": text.encode(), **assets})


LOADS: dict[str, Callable[[], Script]] = {
    "a": pairs_of_constants_and_gains,  # 200 constants into 200 gains, 2 channels, 480,000 frames
    "b": chain_of_gains,  # 400 gains one behind the other, 1 channel, 480,000 frames
    "c": layers_of_gains,  # 30 layers of 30 gains with 9 connections each, 48,000 frames
    "d": as_many_nodes_as_there_may_be,  # a constant into 1,022 gains, 48,000 frames
    "e": stereo_gains_into_six_channels,  # 200 constants, by stereo gains into 5.1, 480,000 frames
    "f": stereo_mergers_into_six_channels,  # 200 mergers of two constants into 5.1, 480,000 frames
    "g": stereo_loops,  # 32 sources of a stereo buffer that loop, 480,000 frames
    "h": largest_asset,  # a file of 64 MiB is decoded and played, 480,000 frames
    "i": voices_with_ramps,  # 200 constants into 200 gains with a ramp, 2 channels, 480,000 frames
    "j": many_timelines,  # 1,000 gains with 200 events each, 9,600 frames
    "k": long_timelines,  # 200 gains with 1,000 events each, 9,600 frames
    "l": many_reads_of_the_state,  # 100,000 calls of readState, 128 frames
    "m": voices_with_suspensions,  # i with 3,749 suspensions, each of which sets one gain
    "n": many_suspensions,  # a constant and 100,000 suspensions, 1 channel, 12,800,128 frames
    "o": loops_through_shapers,  # g, each loop through 6 shapers with a curve of 129 points
    "p": loops_through_filters,  # g, each loop through 6 filters of order 2
    "q": loops_through_long_filters,  # g, each loop through a filter of order 19
    "r": loop_through_the_longest_room,  # a loop of g through 16,384 taps, 48,000 frames
    "s": loops_through_small_rooms,  # g, each loop through a convolver of 300 taps, 48,000 frames
    "t": loops_through_processors,  # g, each loop through a program of 25 instructions
    "u": in_quanta(32, voices_with_ramps),  # i in quanta of 32 frames
    "v": in_quanta(1024, voices_with_ramps),  # i in quanta of 1,024 frames
}
