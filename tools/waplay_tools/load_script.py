"""Writes a script that is a load: 200 voices of a constant and a gain with a ramp, of which each
eighth goes through a delay that is fed back. Its numbers are drawn from a number from 0 to 9,999,
so that there are as many loads.

The draws are those of a linear congruential generator: of 31 bits of state, the highest 15 are
drawn from. With every N there are 1,768 calls, and 451 nodes with the destination. It needs Python
3 and nothing else.
"""

import argparse
import json
import sys
from typing import Any

Call = dict[str, Any]

VOICES = 200
HALFTIME = 240000
LENGTH, RATE = 480000, 48000
HALF = 2**23


class Draws:
    """The drawn numbers of a load."""
    def __init__(self, number: int) -> None:
        self.state = number

    def draw(self, count: int) -> int:
        """A number below the count."""
        self.state = (1103515245 * self.state + 12345) % 2**31
        return self.state // 2**16 % count


def connected(source: str, target: str) -> Call:
    """A call that connects two nodes, at their first output and input."""
    return {"op": "connect", "from": source, "to": target}


def echo(i: int, time: int) -> list[Call]:
    """A delay of this voice, which is heard, and fed back by a half."""
    voice, delay, feedback = f"g{i}", f"d{i}", f"f{i}"
    return [
        {"op": "createDelay", "as": delay, "delayTime": time},
        {"op": "createGain", "as": feedback, "gain": HALF},
        connected(voice, delay),
        connected(delay, feedback),
        connected(feedback, delay),
        connected(delay, "destination"),
    ]


def voice(i: int, draws: Draws) -> list[Call]:
    """The calls of a voice: a source that starts and stops, a gain with a ramp, and of each eighth
    the echo."""
    offset, top, length, time = (draws.draw(count) for count in (2048, 32768, 4096, 240))
    source, fade = f"c{i}", f"g{i}"
    gain = {"node": fade, "param": "gain"}
    calls = [
        {"op": "createConstantSource", "as": source, "offset": (offset - 1024) * 64},
        {"op": "createGain", "as": fade, "gain": 0},
        {"op": "setValueAtTime", **gain, "value": 0, "time": 0},
        {"op": "linearRampToValueAtTime", **gain, "value": top * 256, "time": 1 + 64 * length},
        connected(source, fade),
    ]
    calls += echo(i, time * 65536) if i % 8 == 7 else [connected(fade, "destination")]
    return calls + [
        {"op": "start", "node": source, "when": 128 * (i % 50)},
        {"op": "stop", "node": source, "when": HALFTIME + 128 * i},
    ]


def script(number: int) -> dict[str, Any]:
    """The script of a number."""
    draws = Draws(number)
    calls = [call for i in range(VOICES) for call in voice(i, draws)]
    cuts = [
        {"op": "setValue", "node": f"g{i}", "param": "gain", "value": 0}
        for i in range(0, VOICES, 5)
    ]
    calls += [
        {"op": "suspend", "time": HALFTIME, "then": [*cuts, {"op": "resume"}]},
        {"op": "startRendering"},
    ]
    return {
        "version": 1,
        "context": {"channels": 2, "length": LENGTH, "rate": RATE},
        "calls": calls,
    }


def main() -> int:
    """Prints the script."""
    words = argparse.ArgumentParser(
        prog="tools/load-script",
        description=__doc__,
        formatter_class=argparse.RawDescriptionHelpFormatter,
    )
    words.add_argument("number", type=int, metavar="N", help="the number of the load, 0 to 9999")
    number = words.parse_args().number
    if not 0 <= number <= 9999:
        print("load-script: a number from 0 to 9999 is wanted", file=sys.stderr)
        return 2
    print(json.dumps(script(number)))
    return 0


if __name__ == "__main__":
    sys.exit(main())
