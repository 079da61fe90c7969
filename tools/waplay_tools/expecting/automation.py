"""The timelines of parameters: their edits, what these are refused with, and the values that they
give."""

import itertools
from collections.abc import Callable
from typing import NamedTuple, TypeGuard

from waplay_tools.expecting.numbers import rounded_quotient
from waplay_tools.expecting.reading import Call
from waplay_tools.expecting.refusals import Refused


class Set(NamedTuple):
    """The value is this one from the time on."""

    time: int
    value: int


class Ramp(NamedTuple):
    """The value goes to this one, which it has at the time."""

    time: int
    value: int


class Curve(NamedTuple):
    """The value goes through the points, spread over the duration. Its end is where it is cut, if
    it is, and else its time and its duration."""

    time: int
    points: list[int]
    duration: int
    end: int


Event = Set | Ramp | Curve


def curve_value(curve: Curve, frame: int) -> int:
    """The value of a curve that was not cut, at its time or later."""
    way = (len(curve.points) - 1) * (frame - curve.time)
    point, part = divmod(way, curve.duration)
    if point >= len(curve.points) - 1:
        return curve.points[-1]
    rise = curve.points[point + 1] - curve.points[point]
    return curve.points[point] + rounded_quotient(rise * part, curve.duration)


def has_in_it(event: Event | None, time: int) -> TypeGuard[Curve]:
    """Whether an event is a curve that has this time in it."""
    return isinstance(event, Curve) and event.time <= time < event.end


class Timeline:
    """The events of a parameter in order of time, equal times in order of their calls. Before all
    of them it has its base. The slot is what a read of its value gives."""

    def __init__(self, value: int) -> None:
        self.base = self.slot = value
        self.events: list[Event] = []
        self.is_k_rate = False

    # Values.

    def around(self, frame: int) -> tuple[Event | None, Event | None]:
        """The last event that is no later than a frame, and the one after it; None where there is
        none."""
        last = None
        for event in self.events:
            if event.time > frame:
                return last, event
            last = event
        return last, None

    def value(self, frame: int) -> int:
        """The value at a frame, without what is connected to the parameter, and in no range."""
        return self.values(frame, 1)[0]

    def values(self, first: int, count: int) -> list[int]:
        """The same at so many frames from one on."""
        places = {event.time for event in self.events} | {
            event.end for event in self.events if isinstance(event, Curve)
        }
        bounds = sorted(
            {first, first + count, *(place for place in places if first < place < first + count)}
        )
        parts = [
            self.values_of_part(range(begin, end)) for begin, end in itertools.pairwise(bounds)
        ]
        return list(itertools.chain(*parts))

    def values_of_part(self, frames: range) -> list[int]:
        """The same at these frames. Events and ends of curves lie only at the first of them, or
        outside."""
        last, following = self.around(frames.start)
        if last is None:
            return [self.base] * len(frames)
        if has_in_it(last, frames.start):
            return [curve_value(last, frame) for frame in frames]
        start, value = (
            (last.end, curve_value(last, last.end))
            if isinstance(last, Curve)
            else (last.time, last.value)
        )
        if isinstance(following, Ramp):
            rise, whole = following.value - value, following.time - start
            return [value + rounded_quotient(rise * (frame - start), whole) for frame in frames]
        return [value] * len(frames)

    # Edits. Each is made at the frame `now`, before which nothing can be put.

    def put(self, event: Event) -> None:
        """Adds an event, behind those that have its time already."""
        self.events.append(event)
        self.events.sort(key=lambda it: it.time)  # equal times keep their order

    def time_of(self, call: Call, now: int) -> int:
        """The frame at which a call's event is put: its time, or now where that is past. A negative
        time is refused."""
        if call["time"] < 0:
            raise Refused("RangeError")
        return max(call["time"], now)

    def check_curves(self, time: int) -> None:
        """Refuses an edit whose time lies in a curve."""
        if any(has_in_it(event, time) for event in self.events):
            raise Refused("NotSupportedError")

    def set_value(self, call: Call, now: int) -> None:
        """Sets the value from now on; a read gives it at once."""
        self.check_curves(now)
        self.put(Set(now, call["value"]))
        self.slot = call["value"]

    def set_value_at_time(self, call: Call, now: int) -> None:
        """Sets the value from a time on."""
        time = self.time_of(call, now)
        self.check_curves(time)
        self.put(Set(time, call["value"]))

    def linear_ramp(self, call: Call, now: int) -> None:
        """Goes to the value in a straight line, from the event before, and where there is none from
        what a read gives now."""
        time = self.time_of(call, now)
        self.check_curves(time)
        if self.around(time)[0] is None:
            self.put(Set(now, self.slot))
        self.put(Ramp(time, call["value"]))

    def set_value_curve(self, call: Call, now: int) -> None:
        """Spreads a list of values over a duration, within which there may be no other event."""
        points, duration = call["values"], call["duration"]
        if len(points) < 2:
            raise Refused("InvalidStateError")
        time = self.time_of(call, now)
        if duration <= 0:
            raise Refused("RangeError")
        self.check_curves(time)
        if any(time < event.time < time + duration for event in self.events):
            raise Refused("NotSupportedError")
        self.put(Curve(time, points, duration, time + duration))

    def cancel(self, call: Call, now: int) -> None:
        """Takes away the events from a time on, and a curve that reaches it."""
        time = self.time_of(call, now)
        self.events = [
            event
            for event in self.events
            if event.time < time and not (isinstance(event, Curve) and event.end >= time)
        ]
        if self.around(now)[0] is None:
            self.base = self.slot

    def cancel_and_hold(self, call: Call, now: int) -> None:
        """Takes away the events behind a time, and keeps the value that is reached there."""
        time = self.time_of(call, now)
        last, following = self.around(time)
        value = self.value(time)
        self.events = [event for event in self.events if event.time <= time]
        if has_in_it(last, time):
            self.events[-1] = last._replace(end=time)
        elif isinstance(following, Ramp):
            self.events.append(Ramp(time, value))

    def set_rate(self, call: Call, now: int) -> None:
        """Says whether the value is taken anew at each frame, or once for a quantum."""
        self.is_k_rate = call["value"] == "k-rate"


# The calls that edit a timeline, and those that name a feature which the profile leaves out.
EDITS: dict[str, Callable[[Timeline, Call, int], None]] = {
    "setValue": Timeline.set_value,
    "setValueAtTime": Timeline.set_value_at_time,
    "linearRampToValueAtTime": Timeline.linear_ramp,
    "setValueCurveAtTime": Timeline.set_value_curve,
    "cancelScheduledValues": Timeline.cancel,
    "cancelAndHoldAtTime": Timeline.cancel_and_hold,
    "setAutomationRate": Timeline.set_rate,
}
LEFT_OUT_EDITS = {
    "exponentialRampToValueAtTime": "exponential-ramp",
    "setTargetAtTime": "set-target",
}
