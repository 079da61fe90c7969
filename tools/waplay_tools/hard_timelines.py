"""Compares waplay with tools/expected.py on scripts that are hard on parameters and their
timelines, and measures it.

They are: every operation on a parameter, on parameters that none may change and on nodes without
the parameter; times and durations at the ends of their range and past them; curves of no point, of
one, and of 100,000, also over fewer frames than they have points; 10,000 events in one timeline,
put in forwards, backwards, at one time and at random, and taken away by cancels and holds, at
suspensions too; 1,000 timelines of as many events as a script has room for, and one of 1,000 events
each, which is too long; and 100,000 reads of a value and of the state.

Of each script the status, the transcript and every byte of the file are compared. It prints a line
for each with the user time and the peak memory of the run, and last how many differ. The status is
0 where none does. It needs Python 3 and GNU time.
"""

import argparse
import json
import os
import random
import shutil
import subprocess
import sys
import tempfile
from collections.abc import Callable, Iterator
from typing import Any

from waplay_tools.expecting.automation import EDITS, LEFT_OUT_EDITS
from waplay_tools.expecting.sessions import replayed, wav_bytes
from waplay_tools.places import SHIPPED
from waplay_tools.random_scripts.kinds import FIX, ONE, TIME, Call, Calls, Script
from waplay_tools.random_scripts.loads import (
    edited,
    gain,
    joined,
    many_reads_of_the_state,
    script_with,
    sounding,
    suspension,
)

LONGEST = 2**24  # bytes of a script
Given = tuple[int, bytes, bytes | None]  # status, transcript and WAV file
TIMED = [
    "setValueAtTime",
    "linearRampToValueAtTime",
    "setValueCurveAtTime",
    "cancelScheduledValues",
    "cancelAndHoldAtTime",
]
FIELDS: dict[str, Any] = {"value": 1, "time": 0, "values": [0, ONE], "duration": 128}
NEEDED = {
    "setValue": ["value"],
    "setValueAtTime": ["value", "time"],
    "linearRampToValueAtTime": ["value", "time"],
    "setValueCurveAtTime": ["values", "time", "duration"],
    "cancelScheduledValues": ["time"],
    "cancelAndHoldAtTime": ["time"],
}


def operation(op: str, node: str, param: str, **fields: Any) -> Call:
    """A call of an operation on a parameter."""
    call: Call = {"op": op, "node": node, "param": param}
    call.update({name: FIELDS[name] for name in NEEDED.get(op, [])})
    if op == "setAutomationRate":
        call["value"] = "k-rate"
    return {**call, **fields}


def played(calls: Calls, length: int = 512) -> Script:
    """The calls on the gain of `g`, through which a constant of 1.0 sounds. The gain is read before
    and after them."""
    read = operation("readValue", "g", "gain")
    return script_with(
        1,
        length,
        sounding("c", ONE) + gain("g", 0, "c") + [joined("g", "destination"), read, *calls, read],
    )


def put_in(op: str, **fields: Any) -> Call:
    """A call of an operation on the gain that `played` renders."""
    return operation(op, "g", "gain", **fields)


# One script for each function, or several.


def every_parameter() -> Script:
    """Each operation on each parameter and on names that are none, of nodes of all kinds, of the
    destination and of no node."""
    nodes = {
        "c": "createConstantSource",
        "g": "createGain",
        "d": "createDelay",
        "s": "createBufferSource",
        "w": "createWaveShaper",
        "p": "createChannelSplitter",
        "m": "createChannelMerger",
    }
    calls = [{"op": op, "as": name} for name, op in nodes.items()]
    for op in [*EDITS, *LEFT_OUT_EDITS, "readValue"]:
        for node in [*nodes, "destination", "nobody", ""]:
            for param in [
                "offset",
                "gain",
                "delayTime",
                "playbackRate",
                "detune",
                "frequency",
                "Gain",
                "",
            ]:
                calls.append(operation(op, node, param))
    for op in ["connectParam", "disconnectParam"]:
        for node in [*nodes, "destination", "nobody"]:
            for param in ["offset", "gain", "delayTime", "playbackRate", "detune", "frequency", ""]:
                calls.append({"op": op, "from": "c", "to": node, "param": param})
    return script_with(1, 256, calls)


def times() -> Script:
    """Times within their range, before now too, and durations. None of them is a fault."""
    calls = []
    for time in [-TIME, -1, 0, 1, 127, 128, 511, 512, 2**31, 2**32, TIME - 1, TIME]:
        for op in TIMED:
            calls.append(put_in(op, time=time))
        for duration in [-TIME, -1, 0, 1, 2, TIME - 1, TIME]:
            calls.append(put_in("setValueCurveAtTime", time=time, duration=duration))
            calls.append(put_in("cancelScheduledValues", time=max(0, time)))
    late = [put_in(op, time=time) for op in TIMED for time in [-TIME, -1, 0, 127, 128, 129, TIME]]
    return played(calls + [suspension(128, *late), suspension(256, *late[::-1])])


def faults() -> dict[str, Script]:
    """Of each operation with a time one script for each that is none, and of curves for each
    duration."""
    scripts = {}
    wrong = [TIME + 1, -TIME - 1, 2**63, 2**64, -(2**63) - 1, 1.0, 0.5, "0", None, [0], True]
    for op in TIMED:
        for i, time in enumerate(wrong):
            scripts[f"{op}_time_{i}"] = played([put_in(op, time=time)])
    for i, duration in enumerate(wrong):
        scripts[f"duration_{i}"] = played([put_in("setValueCurveAtTime", duration=duration)])
    for i, values in enumerate(
        [[2**31], [0.5, 2**31], [None], 0, None, {}, "", [[0, 1]], [-(2**31) - 1, 0]]
    ):
        scripts[f"values_{i}"] = played([put_in("setValueCurveAtTime", values=values)])
    return scripts


def points(count: int) -> list[int]:
    """So many values from the whole range, the same ones each time."""
    rng = random.Random("points")
    return [rng.randint(*FIX) for _ in range(count)]


def short_curves() -> Script:
    """Curves of up to 3 points over up to 3 frames, among them those that are refused."""
    calls = []
    for count in [0, 1, 2, 3]:
        for duration in [0, 1, 2, 3]:
            for time in [-1, 0, 100 * count + 10 * duration]:
                calls.append(
                    put_in(
                        "setValueCurveAtTime", values=points(count), time=time, duration=duration
                    )
                )
    return played(calls)


def long_curve(duration: int, rate: str = "a-rate") -> Script:
    """A curve of 100,000 points over this duration, and a value behind it."""
    calls = [
        put_in("setAutomationRate", value=rate),
        put_in("setValueCurveAtTime", values=points(100000), time=5, duration=duration),
        put_in("setValueAtTime", time=min(TIME, 5 + duration), value=ONE),
    ]
    return played(calls, 4096)


def curves_in_a_row() -> Script:
    """2,000 curves of 5 points over 3 frames each, one behind the other."""
    return played(
        [
            put_in("setValueCurveAtTime", values=points(5), time=3 * k, duration=3)
            for k in range(2000)
        ],
        6100,
    )


def events(order: str) -> Calls:
    """10,000 events of one timeline, sets and ramps by turns, in this order of their times."""
    rng, times = random.Random(order), [2 * k for k in range(10000)]
    if order == "backwards":
        times.reverse()
    if order == "at_random":
        rng.shuffle(times)
    if order == "at_one_time":
        times = [300] * 10000
    return [
        put_in(
            "linearRampToValueAtTime" if k % 3 else "setValueAtTime",
            time=time,
            value=rng.randint(-ONE, ONE),
        )
        for k, time in enumerate(times)
    ]


def events_in(order: str) -> Script:
    """The 10,000 events in this order, rendered until the last of them has come."""
    return played(events(order), 20100)


def events_cancelled() -> Script:
    """10,000 events, and cancels and holds that take them away from behind, at suspensions too."""
    calls = events("at_random")
    for k in range(20000, 10000, -100):
        calls.append(put_in("cancelScheduledValues" if k % 200 else "cancelAndHoldAtTime", time=k))
    for time in range(1280, 10000, 1280):
        calls.append(
            suspension(
                time,
                put_in("readValue"),
                put_in("cancelAndHoldAtTime", time=20000 - time),
                put_in("setValue", value=time),
                put_in("readValue"),
            )
        )
    calls.append(suspension(10240, put_in("cancelScheduledValues", time=0), put_in("readValue")))
    return played(calls, 20100)


def events_at_suspensions() -> Script:
    """An event before each of 1,000 quanta, and one that lies far behind."""
    return played(
        [
            suspension(
                128 * k,
                put_in("linearRampToValueAtTime", time=128 * k + 64, value=k * 100),
                put_in("setValueAtTime", time=TIME - k),
            )
            for k in range(1, 1001)
        ],
        128 * 1001,
    )


def many_reads() -> Script:
    """100,000 reads of a value."""
    return script_with(
        1, 128, gain("g", 7) + [{"op": "readValue", "node": "g", "param": "gain"}] * 100000
    )


def reads_of_a_long_timeline() -> Script:
    """50,000 reads of a value whose timeline has 10,000 events, with as many of the state
    between."""
    return played(events("at_random") + [put_in("readValue"), {"op": "readState"}] * 50000, 20100)


def as_many_timelines(events: int) -> Script:
    """1,000 timelines of so many events, in as few bytes as may be: sets and ramps, of which half
    go backwards."""
    calls: Calls = [{"op": "createConstantSource", "as": "c"}, {"op": "start", "node": "c"}]
    for i in range(1000):
        name = f"{i:x}"
        calls += [
            {"op": "createGain", "as": name, "gain": 0},
            joined("c", name),
            joined(name, "destination"),
        ]
        for k in range(events):
            op = "linearRampToValueAtTime" if k % 4 == 3 else "setValueAtTime"
            calls.append(edited(op, name, 9 * k + i, 10 * (k if i % 2 else events - k)))
    return script_with(1, 2560, calls)


def many_timelines_at_once() -> Script:
    """1,000 timelines of as many events as a script has room for: values that are set before the
    first frame."""
    calls: Calls = [{"op": "createConstantSource", "as": "c"}, {"op": "start", "node": "c"}]
    for i in range(1000):
        name = f"{i:x}"
        calls += [{"op": "createGain", "as": name}, joined("c", name), joined(name, "destination")]
        calls += [
            {"op": "setValue", "node": name, "param": "gain", "value": k % 10} for k in range(285)
        ]
    return script_with(1, 2560, calls)


SCRIPTS: dict[str, Callable[[], dict[str, Any]]] = {
    "every_parameter": every_parameter,
    "times": times,
    "faults": faults,
    "short_curves": short_curves,
    "curve_over_its_points": lambda: long_curve(99999),
    "curve_over_fewer_frames": lambda: long_curve(1000),
    "curve_over_one_frame": lambda: long_curve(1),
    "curve_over_many_frames": lambda: long_curve(TIME),
    "curve_at_k_rate": lambda: long_curve(3000, "k-rate"),
    "curves_in_a_row": curves_in_a_row,
    "events_forwards": lambda: events_in("forwards"),
    "events_backwards": lambda: events_in("backwards"),
    "events_at_random": lambda: events_in("at_random"),
    "events_at_one_time": lambda: events_in("at_one_time"),
    "events_cancelled": events_cancelled,
    "events_at_suspensions": events_at_suspensions,
    "many_reads": many_reads,
    "many_reads_of_the_state": many_reads_of_the_state,
    "reads_of_a_long_timeline": reads_of_a_long_timeline,
    "many_timelines": lambda: as_many_timelines(200),
    "many_timelines_at_once": many_timelines_at_once,
    "too_many_timelines": lambda: as_many_timelines(1000),
}


def scripts_of(names: list[str]) -> Iterator[tuple[str, bytes]]:
    """The scripts of these names, as bytes, by name. Those of several have a number behind it."""
    for name in names:
        made = SCRIPTS[name]()
        several = (
            {name: made}
            if "version" in made
            else {name + "_" + part: it for part, it in made.items()}
        )
        for each, script in several.items():
            yield each, json.dumps(script, separators=(",", ":")).encode()


def expected(data: bytes) -> Given:
    """The status, the text and the file of a script, or None where there is none."""
    if len(data) > LONGEST:
        return 5, b"", None
    status, text, session = replayed(data)
    return status, text.encode(), wav_bytes(session) if session and status == 0 else None


def measured(program: str, data: bytes, folder: str) -> tuple[Given, float, float]:
    """What the program gives, with its user time in seconds and its peak memory in MiB."""
    out, times = os.path.join(folder, "out.wav"), os.path.join(folder, "times")
    ran = subprocess.run(
        [shutil.which("time") or "time", "-q", "-o", times, "-f", "%U %M", program, out],
        input=data,
        stdout=subprocess.PIPE,
        timeout=600,
    )
    file = None
    if os.path.exists(out):
        with open(out, "rb") as wav:
            file = wav.read()
        os.remove(out)
    with open(times) as lines:
        seconds, memory = lines.read().split()[-2:]
    return (ran.returncode, ran.stdout, file), float(seconds), int(memory) / 1024


def compare(program: str, names: list[str]) -> int:
    """Compares the scripts of these names, tells what each took and what differs, and gives the
    status."""
    count = wrong = 0
    with tempfile.TemporaryDirectory() as folder:
        for name, data in scripts_of(names):
            found, seconds, memory = measured(program, data, folder)
            wanted = expected(data)
            different = [
                what
                for what, a, b in zip(
                    (f"status {found[0]}", "transcript", "WAV file"), found, wanted
                )
                if a != b
            ]
            print(
                "%s: %.2f s, %.1f MiB, %d bytes, status %d%s"
                % (
                    name,
                    seconds,
                    memory,
                    len(data),
                    found[0],
                    "".join(", DIFFERS: " + it for it in different),
                ),
                flush=True,
            )
            count += 1
            wrong += bool(different)
    print(f"{count} scripts, {wrong} differences")
    return 1 if wrong else 0


def main() -> int:
    """Compares scripts, or writes them."""
    parser = argparse.ArgumentParser(
        prog="tools/hard-timelines",
        description=__doc__,
        formatter_class=argparse.RawDescriptionHelpFormatter,
    )
    parser.add_argument(
        "names", nargs="*", metavar="NAME", help="a script; all of them where none is named"
    )
    parser.add_argument(
        "--program",
        default=SHIPPED,
        metavar="FILE",
        help="the program; the shipped one by default",
    )
    parser.add_argument(
        "--write",
        metavar="FOLDER",
        help="write the scripts to FOLDER/NAME.json, and compare nothing",
    )
    words = parser.parse_args()
    names, program = words.names or list(SCRIPTS), os.path.abspath(words.program)
    unknown = [name for name in names if name not in SCRIPTS]
    if unknown:
        print(f"tools/hard-timelines: no script has the name {ascii(unknown[0])}", file=sys.stderr)
        return 2
    if words.write:
        os.makedirs(words.write, exist_ok=True)
        for name, data in scripts_of(names):
            with open(os.path.join(words.write, name + ".json"), "wb") as file:
                file.write(data)
        return 0
    if not os.access(program, os.X_OK):
        print(f"tools/hard-timelines: there is no program {program}", file=sys.stderr)
        return 2
    return compare(program, names)


if __name__ == "__main__":
    sys.exit(main())
