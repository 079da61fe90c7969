"""Random scripts in version 2: the same sessions, or nearly so, with seconds in place of frames."""

import random
from typing import Any

from waplay_tools.expecting.reading import READ
from waplay_tools.expecting.writing import seconds_of
from waplay_tools.random_scripts.comparing import Of
from waplay_tools.random_scripts.kinds import Assets, Call, Script

NO_SECONDS: list[Any] = ["", "-", ".5", "1.", "+1", "1e3", " 1", "12345678901", "9999999999", 1]


def seconds_near(rng: random.Random, frame: int, rate: int) -> Any:
    """A text that stands for the frame, mostly, or for one nearby; now and then something that is
    no seconds."""
    if rng.random() < 0.0005:
        return rng.choice(NO_SECONDS)
    text = seconds_of(frame, rate)
    some = rng.random()
    if some < 0.2:
        text = text.rstrip("0").rstrip(".")
    elif some < 0.3:
        text = text[: -rng.randint(1, 8)].rstrip(".")
    elif some < 0.4 and frame >= 0:
        before, point, behind = text.partition(".")
        text = before.zfill(rng.randint(1, 10)) + point + behind
    return "-" + text if frame == 0 and rng.random() < 0.2 else text


def _in_seconds(rng: random.Random, calls: Any, rate: int) -> Any:
    """The calls of a list with seconds in place of frames. What is no call or no frame stays."""
    if not isinstance(calls, list):
        return calls
    return [_call(rng, it, rate) if isinstance(it, dict) else it for it in calls]


def _call(rng: random.Random, call: Call, rate: int) -> Call:
    """The same of a call and of those that it holds."""
    op, changed = call.get("op"), dict(call)
    for field, kind, *_ in READ.get(op, []) if isinstance(op, str) else []:
        if kind == "time" and type(call.get(field)) is int:
            changed[field] = seconds_near(rng, call[field], rate)
        if kind == "calls" and field in call:
            changed[field] = _in_seconds(rng, call[field], rate)
    return changed


def in_version_2(rng: random.Random, script: Script) -> Script:
    """A script of version 1 in version 2. One whose version or rate is spoiled stays as it is."""
    context = script.get("context")
    rate = context.get("rate") if isinstance(context, dict) else None
    if script.get("version") != 1 or type(rate) is not int or rate <= 0:
        return script
    return {**script, "version": 2, "calls": _in_seconds(rng, script.get("calls"), rate)}


class Versions:
    """The scripts of a seed and a number in a version; without one half of them are in each."""

    def __init__(self, script_of: Of, version: int | None) -> None:
        self.script_of, self.version = script_of, version

    def __call__(self, seed: int, number: int) -> tuple[Script, Assets]:
        """The script and its assets."""
        script, assets = self.script_of(seed, number)
        rng = random.Random(f"{seed} {number} version")
        version = self.version or rng.choice([1, 2])
        return (in_version_2(rng, script) if version == 2 else script), assets
