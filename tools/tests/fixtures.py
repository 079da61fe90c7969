"""Scripts, transcripts and WAV files that the tests of tools are given."""

import json
import os
import random
import shlex
import subprocess
import sys
from pathlib import Path

from waplay_tools.cases.case import read_case
from waplay_tools.expecting import sessions
from waplay_tools.places import CASES, EXAMPLES, PROGRAMS, TOP
from waplay_tools.wav import Form, wav_bytes

TOOLS = TOP / "tools"

# The cases that the tests of tools take: sessions of each kind of node, of refusals, and of
# suspensions.
SESSIONS = (
    "balance_control",
    "constant",
    "cue_that_never_comes",
    "disconnecting",
    "drum_loop",
    "edited_while_it_plays",
    "feedback_delay",
    "fold_down_five_point_one",
    "hi_hat_choked",
    "low_pass_on_an_impulse",
    "merger_fixed_attributes",
    "mono_and_stereo_files",
    "one_shot_cut_by_stop",
    "ramp_held_where_it_is",
    "refused_calls",
    "six_channels",
    "soft_clipping",
    "sustained_note",
    "tremolo",
    "voice_piano_and_room",
)

HOSTILE_NAMES = [
    "</script><script>window.hurt=1</script>",
    '"><img src=x onerror="window.hurt=1">',
    "' onmouseover='window.hurt=1",
    "<!--",
    "]]>",
    "<svg onload=window.hurt=1>",
    "&lt;b&gt;",
    "javascript:window.hurt=1",
    "\u0000\u0007\u001b[31m",
    "\u202eabc\u202c",
    "\u00e9\u4e2d\u6587 \U0001f3b9 \u05e9\u05dc\u05d5\u05dd"
    " \u0627\u0644\u0639\u0631\u0628\u064a\u0629",
    "x" * 300,
    "\u2028line\u2029",
    "{{constructor}}",
    "`code` ${1}",
    "%s %d %(title)s",
    "\\u003cscript>",
    "a\nb\tc",
]


def tried(name):
    """The file of a program that tests run: that which the variable of its name has, or else the
    shipped one."""
    return Path(os.environ.get(name.upper()) or PROGRAMS[name]).absolute()


def wav(channels, rate=48000, bits=24):
    """The bytes of a WAV file with these channels of samples."""
    stored = [[sample + (128 if bits == 8 else 0) for sample in samples] for samples in channels]
    return wav_bytes(Form(len(channels), rate, bits), stored)


def script(calls, channels=1, length=128, rate=48000, version=1, **more):
    """The bytes of a script. Its context may have more members."""
    context = {"channels": channels, "length": length, "rate": rate, **more}
    return json.dumps({"version": version, "context": context, "calls": calls}).encode()


def run(tool, *words, **more):
    """A tool that has run with these words."""
    return subprocess.run([os.path.join(TOOLS, tool), *words], capture_output=True, **more)


def program(folder, text):
    """Writes a program of this text in Python, which finds the tools and the tests, and gives its
    path."""
    words = [sys.executable, "-S", write(folder, "program.py", text)]  # which starts faster
    paths = f"{TOOLS}:{TOOLS / 'tests'}"
    start = (
        f'PYTHONDONTWRITEBYTECODE=1 PYTHONPATH={shlex.quote(paths)} exec {shlex.join(words)} "$@"'
    )
    path = write(folder, "program", f"#!/bin/sh\n{start}\n")
    os.chmod(path, 0o755)
    return path


def write(folder, name, data):
    """Writes a file, and gives its path."""
    path = os.path.join(folder, name)
    with open(path, "wb") as file:
        file.write(data if isinstance(data, bytes) else data.encode())
    return path


def read(folder, name):
    """The bytes of a file."""
    with open(os.path.join(folder, name), "rb") as file:
        return file.read()


def script_of_case(name):
    """The bytes of the script of the case of this name, of the first subject that has one."""
    path = min(CASES.glob(f"*/{name}.json"))
    return read_case(path).input_bytes() + b"\n"


def session_of_case(name):
    """The bytes of a case's script, its transcript and its WAV file, if any, as they are worked
    out."""
    data = script_of_case(name)
    status, text, session = sessions.replayed(data, EXAMPLES)
    return data, text, sessions.wav_bytes(session) if status == 0 else None


def written(folder, name, data, text, sound=None):
    """Writes a script, its transcript and its WAV file, and gives their paths."""
    paths = [write(folder, name + ".json", data), write(folder, name + ".txt", text)]
    return paths + ([write(folder, name + ".wav", sound)] if sound else [])


def hostile():
    """A script whose names, paths and members are hostile, with its transcript and its WAV file."""
    calls = [{"op": "createGain", "as": "g"}]
    for name in HOSTILE_NAMES:
        calls += [
            {"op": "connect", "from": "g", "to": name},
            {"op": "createOscillator", name: name, "as": [name]},
            {"op": "decodeAudioData", "as": "b", "path": name[:255]},
            {"op": "createGain", "as": "h", "note": {name: name}},
        ]
    data = script(calls + [{"op": "startRendering"}])
    _, text, session = sessions.replayed(data, os.path.join(TOP, "nowhere"))
    return data, text, sessions.wav_bytes(session)


def suspended(length=2048):
    """A script with suspensions, delays, shapers, filters and automation, which no program has to
    read for this: its transcript is written by hand."""
    calls = [
        {"op": "createConstantSource", "as": "c"},
        {"op": "createDelay", "as": "d", "delayTime": 65536},
        {
            "op": "createWaveShaper",
            "as": "w",
            "curve": [-16777216, 0, 16777216],
            "oversample": "2x",
        },
        {"op": "createWaveShaper", "as": "w", "curve": [-16777216, 0, 16777216]},
        {
            "op": "createIIRFilter",
            "as": "f",
            "feedforward": [16777216],
            "feedback": [16777216, -8388608],
        },
        {"op": "connect", "from": "c", "to": "d"},
        {"op": "connectParam", "from": "c", "to": "d", "param": "delayTime"},
        {"op": "setValueAtTime", "node": "d", "param": "delayTime", "value": 65536, "time": -1},
        {"op": "linearRampToValueAtTime", "node": "c", "param": "offset", "value": 0, "time": 1024},
        {
            "op": "setValueCurveAtTime",
            "node": "c",
            "param": "offset",
            "values": [0, 1],
            "time": 0,
            "duration": 64,
        },
        {"op": "exponentialRampToValueAtTime", "node": "c", "param": "offset"},
        {"op": "readValue", "node": "c", "param": "offset"},
        {"op": "start", "node": "c"},
        {
            "op": "suspend",
            "time": 500,
            "then": [
                {"op": "stop", "node": "c", "when": 1000},
                {"op": "readTime"},
                {"op": "cancelAndHoldAtTime", "node": "c", "param": "gain", "time": 0},
                {"op": "resume"},
            ],
        },
        {"op": "suspend", "time": 510},
        {
            "op": "suspend",
            "time": 1500,
            "then": [{"op": "disconnectParam", "from": "c", "to": "d", "param": "delayTime"}],
        },
        {"op": "startRendering", "then": [{"op": "readState"}]},
    ]
    lines = (
        ["ok"] * 2
        + ["throw NotSupportedError profile:oversample"]
        + ["ok"] * 4
        + ["throw RangeError", "ok"]
    )
    lines += [
        "throw NotSupportedError",
        "throw NotSupportedError profile:exponential-ramp",
        "value -16777216",
        "ok",
    ]
    lines += ["pending"]
    text = ["%d %s" % numbered for numbered in enumerate(lines, 1)]
    text += [
        "19 rejected InvalidStateError",
        "20 pending",
        "22 pending",
        "14 resolved",
        "15 ok",
        "16 time 512",
        "17 throw TypeError",
        "18 resolved",
        "ended 1 c",
        "20 resolved",
        "21 ok",
        "end stalled 1536",
    ]
    return script(calls, length=length), "\n".join(text) + "\n"


def resumed():
    """The same session with its second suspension resumed, so that it is rendered, and a WAV file
    of its size."""
    data, text = suspended()
    value = json.loads(data)
    value["calls"][15]["then"].append({"op": "resume"})
    text = text.replace("22 pending", "23 pending").replace(
        "21 ok\nend stalled 1536\n",
        "21 ok\n22 resolved\n23 resolved\n24 state closed\ncomplete 2048\nend completed\n",
    )
    rng = random.Random("resumed")
    return (
        json.dumps(value).encode(),
        text,
        wav([[rng.randint(-(2**20), 2**20) >> (frame // 500) for frame in range(2048)]]),
    )
