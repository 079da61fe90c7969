"""A small script that stands for a load: programs of tests generate it, so it needs little."""

from waplay_tools.load_script import connected


def small(number):
    """The small script of a number."""
    calls = [
        {"op": "createConstantSource", "as": "c", "offset": 5001 - number},
        connected("c", "destination"),
        {"op": "start", "node": "c", "when": 3},
        {"op": "stop", "node": "c", "when": 140},
        {"op": "start", "node": "c"},
        {"op": "suspend", "time": 128, "then": [{"op": "resume"}]},
        {"op": "startRendering"},
    ]
    return {"version": 1, "context": {"channels": 2, "length": 300, "rate": 48000}, "calls": calls}
