"""Where Chromium is known to depart from the profile, as far as the calls of a script show it."""

import itertools
from collections.abc import Iterable, Iterator
from typing import Any

from waplay_tools.expecting.numbers import DEFAULT_QUANTUM
from waplay_tools.recorder.channels import Call, Channels
from waplay_tools.recorder.hearing import (Spans, Ways, has_idle_node, has_idle_timeline, reached,
                                           ways_of)


def all_calls(calls: list[Call]) -> Iterator[Call]:
    """The calls in order of their ordinals."""
    for call in calls:
        yield call
        yield from all_calls(call.get("then", []))


def cycles_of(edges: Ways) -> list[set[str]]:
    """For each node the nodes that lie on ways from it back to itself."""
    back = ways_of((end, start) for start, ends in edges.items() for end in ends)
    return [reached(edges[node], edges) & reached(back.get(node, ()), back) for node in edges]


def changes_at_once(call: Call) -> bool:
    """Whether a call may change the next sample."""
    return call["op"].startswith(("connect", "disconnect", "setChannel", "setValue"))


def is_at_an_edge(time: int, length: int, quantum: int) -> bool:
    """Whether a suspension is at frame 0, at the length, or rounded up by quanta of so many frames
    to the length or past it."""
    return time == 0 or time <= length <= -(-time // quantum) * quantum


def is_at_its_most(calls: list[Call], delay: Call) -> bool:
    """Whether a delay is ever set to its maxDelayTime or beyond."""
    most = delay.get("maxDelayTime", 2**24)
    values = [delay.get("delayTime", 0)]
    for call in calls:
        if call.get("node") == delay["as"] and call.get("param") == "delayTime":
            values += call.get("values", [call.get("value", 0)])
    return max(values) >= most


def is_within_a_quantum(curve: Call, quantum: int) -> bool:
    """Whether a curve begins behind the first frame of a quantum of so many frames, and ends before
    the next one."""
    first, last = curve["time"], curve["time"] + curve.get("duration", 0)
    return first < last and first % quantum > 0 and first // quantum == last // quantum


def goes_on_too_early(calls: list[Call], quantum: int) -> bool:
    """Whether a parameter has such a curve, and an event behind it."""
    events = [call for call in calls if "time" in call and "param" in call]
    latest: dict[tuple[str, str], int] = {}
    for call in events:
        place = call["node"], call["param"]
        latest[place] = max(latest.get(place, 0), call["time"])
    return any(call["time"] + call["duration"] <= latest[call["node"], call["param"]]
               for call in events if is_within_a_quantum(call, quantum))


def graph_departures(calls: list[Call]) -> Iterator[str]:
    """Departures that the nodes and connections show."""
    edges = ways_of((call["from"], call["to"]) for call in calls
                    if call["op"] in ("connect", "connectParam"))
    delays = [call for call in calls if call["op"] == "createDelay"]
    names = {call["as"] for call in delays}
    cycles = cycles_of(edges)
    if any(cycle & names for cycle in cycles):
        yield "a loop through a delay is one quantum longer in Chromium"
    if any(cycle and not cycle & names for cycle in cycles):
        yield "a cycle without a delay is not muted in Chromium"
    if any(is_at_its_most(calls, delay) for delay in delays):
        yield "a delay equal to maxDelayTime may leak the newest frame in Chromium"


SILENT_INPUTS = ("a merger, or a node with a number of channels of its own, has one channel in "
                 "Chromium while its inputs are all silent")


def accepted(calls: list[Call], refused: set[int], numbers: Iterator[int]) -> list[Call]:
    """The calls without those that were refused, by their ordinals."""
    kept = []
    for call in calls:
        number = next(numbers)
        if "then" in call:
            call = {**call, "then": accepted(call["then"], refused, numbers)}
        if number not in refused:
            kept.append(call)
    return kept


def channel_departures(script: dict[str, Any], of_path: dict[str, int]) -> Iterator[str]:
    """Departures of nodes whose number of channels changes."""
    calls = script["calls"]
    channels = Channels(calls, of_path)
    changing = {node.creation["op"] for node in channels.nodes.values()
                if channels.is_changing(node)}
    if "createDelay" in changing:
        yield "a delay whose input comes to have fewer channels mixes down in Chromium"
    if "createIIRFilter" in changing:
        yield "Chromium begins the history of an IIR filter anew where its channels change"
    if "createConvolver" in changing:
        yield "a channel of a convolver stands still in Chromium while its input has not got it"
    if not channels.tell_silence(script["context"].get("channels", 1)):
        return
    nodes = channels.nodes.items()
    if any(map(channels.may_fall_silent, channels.nodes)):
        yield SILENT_INPUTS
    at_once = {call["node"] for call in calls if call["op"] == "start" and not call.get("when")}
    if any(node.creation["op"] == "createBufferSource" and channels.most[name] > 1
           and name not in at_once for name, node in nodes):
        yield "a buffer source that does not play yet has the channels of its buffer in Chromium"


IDLE_NODE = ("a source, a delay, a filter or a convolver stands still in Chromium while it is not "
             "heard")
IDLE_TIMELINE = ("a timeline stands still in Chromium while its node plays or hears nothing, or is "
                 "not heard")

BY_OPERATION = {
    "cancelScheduledValues": "Chromium holds the value of a ramp that is cancelled on its way, and "
                             "keeps a curve that ends at a cancel",
}
BY_OPERATION["cancelAndHoldAtTime"] = BY_OPERATION["cancelScheduledValues"]

BY_LOSS = {
    "lowered-biquad": "Chromium ends biquads at an estimated tail",
    "lowered-target": "a target is late in Chromium where another event lies in the same quantum",
    "browser-target": "Chromium begins a target a frame off where a ramp or another target leads "
                      "to it or by a rounding of its time, and takes it for reached too early",
    "browser-rounded": "Chromium rounds what filters feed back: to single floats in biquads, to "
                       "double ones in IIR filters",
    "buffer-written": "Chromium plays what is written into a buffer after a source acquired it",
}

EARLY_EVENT = ("behind a curve that begins within a quantum and ends in it, Chromium goes on too "
               "early to what comes next")
# Losses by which a script has curves that the page had not.
MAKE_CURVES = {"lowered-ramp", "lowered-exponential", "lowered-target", "lowered-hold",
               "lowered-panner"}

LATE_CHANGE = ("a change at a suspension may come one quantum late in Chromium, in one run and not "
               "in the next")


def known_departures(script: dict[str, Any], losses: set[str],
                     of_path: dict[str, int] | None = None,
                     refused: Iterable[int] = ()) -> list[str]:
    """Where Chromium is known to differ from the profile, as far as the calls show it. `of_path`
    has the number of channels of each asset, and `refused` the ordinals of the calls that it
    refused."""
    script = {**script, "calls": accepted(script["calls"], set(refused), itertools.count(1))}
    calls = list(all_calls(script["calls"]))
    ops = {call["op"] for call in calls}
    found = [*graph_departures(calls), *channel_departures(script, of_path or {})]
    found += [text for kind, text in BY_LOSS.items() if kind in losses]
    found += [text for op, text in BY_OPERATION.items() if op in ops]
    quantum = script["context"].get("renderQuantum", DEFAULT_QUANTUM)
    has_own_curves = not losses & MAKE_CURVES or "lowered-curve" in losses
    if has_own_curves and goes_on_too_early(calls, quantum):
        found.append(EARLY_EVENT)
    spans = Spans(script["calls"], quantum)
    if has_idle_timeline(script["calls"], spans):
        found.append(IDLE_TIMELINE)
    if has_idle_node(script["calls"], spans):
        found.append(IDLE_NODE)
    suspensions = [call for call in calls if call["op"] == "suspend"]
    length = script["context"]["length"]
    if any(is_at_an_edge(call["time"], length, quantum) for call in suspensions):
        found.append("a suspension at frame 0 or at the length is accepted by Chromium")
    if any(changes_at_once(inner) for call in suspensions for inner in call.get("then", [])):
        found.append(LATE_CHANGE)
    return list(dict.fromkeys(found))
