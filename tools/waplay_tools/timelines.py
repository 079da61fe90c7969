"""Works out what 20,000 random lists of edits make of a timeline: a second calculation, apart from
the crates' own.

It follows the rules of docs/MEANING.md ("The timeline of a parameter") in the plainest way: a
timeline is a list that is rebuilt by each edit, and each value is found anew among all events. Only
the random numbers are made as the tests make them. It needs Python 3 and nothing else.

The digest is that which crates/time_tests/src/digests.rt is to give too.
"""

import collections

from waplay_tools import digests
from waplay_tools.digests import GREATEST, LEAST, Cases, mixed, rounded

FAR = 2**40

Refusal = str | tuple[str, int] | None  # its name, and the place of the event that is in the way


class Numbers(digests.Random):
    """Random values, times and durations."""

    def value(self) -> int:
        """A value: half of them small, the others at an end of the range."""
        kind = self.below(4)
        return LEAST if kind == 0 else GREATEST if kind == 1 else self.below(2001) - 1000

    def time(self) -> int:
        """A time: mostly one of the first 300 frames, at times negative or far away."""
        kind = self.below(20)
        return -1 if kind == 0 else FAR if kind == 1 else self.below(300)

    def duration(self) -> int:
        """A duration: mostly below 90 frames, at times 0 or very long."""
        kind = self.below(20)
        return 0 if kind == 0 else FAR if kind == 1 else self.below(90)


def on_line(start: int, end: int, n: int, frames: int) -> int:
    """The value after n of so many frames on a straight line, rounded once."""
    return start + rounded((end - start) * n, frames)


class Event:
    """An event of a timeline: a set, a ramp or a curve. Only a curve ends later than its time."""
    def __init__(
        self,
        kind: str,
        time: int,
        value: int = 0,
        points: list[int] | None = None,
        duration: int = 0,
    ) -> None:
        self.kind, self.time, self.value = kind, time, value
        self.points, self.duration = points or [], duration
        self.end = time + duration if kind == "curve" else time

    def runs_at(self, time: int) -> bool:
        """Whether it is a curve that has this time in it, its end not."""
        return self.kind == "curve" and self.time <= time < self.end

    def at(self, frame: int) -> int:
        """The value of a curve at a frame from its first on."""
        last = len(self.points) - 1
        way = last * (frame - self.time)
        k = way // self.duration
        if k >= last:
            return self.points[last]
        return on_line(self.points[k], self.points[k + 1], way - k * self.duration, self.duration)

    def left(self) -> int:
        """The value that holds after it."""
        return self.at(self.end) if self.kind == "curve" else self.value


class Timeline:
    """A timeline, whose edits answer with the name of their refusal, or None. Where an event is in
    the way, its place stands beside the name."""
    def __init__(self, base: int) -> None:
        self.base = self.slot = base
        self.events: list[Event] = []

    def value_at(self, frame: int) -> int:
        """The intrinsic value at a frame."""
        before = [e for e in self.events if e.time <= frame]
        later = [e for e in self.events if e.time > frame]
        if not before:
            return self.base
        event = before[-1]
        if event.kind == "curve" and frame < event.end:
            return event.at(frame)
        held = event.left()
        if later and later[0].kind == "ramp":
            ramp = later[0]
            return on_line(held, ramp.value, frame - event.end, ramp.time - event.end)
        return held

    def put(self, event: Event) -> None:
        """Puts an event behind those that have its time."""
        before = [e for e in self.events if e.time <= event.time]
        later = [e for e in self.events if e.time > event.time]
        self.events = before + [event] + later

    def in_curve(self, time: int) -> Refusal:
        """The refusal of an edit at a time that a curve has in it."""
        for place, event in enumerate(self.events):
            if event.runs_at(time):
                return ("InCurve", place)
        return None

    def set_value(self, now: int, value: int, time: int) -> Refusal:
        """Does setValueAtTime, at the frame `now`."""
        if time < 0:
            return "NegativeTime"
        time = max(time, now)
        refusal = self.in_curve(time)
        if not refusal:
            self.put(Event("set", time, value))
        return refusal

    def ramp(self, now: int, value: int, time: int) -> Refusal:
        """Does linearRampToValueAtTime; where no event comes before, a set of the slot is put at
        `now`."""
        if time < 0:
            return "NegativeTime"
        time = max(time, now)
        refusal = self.in_curve(time)
        if not refusal:
            if not any(e.time <= time for e in self.events):
                self.put(Event("set", now, self.slot))
            self.put(Event("ramp", time, value))
        return refusal

    def curve(self, now: int, points: list[int], time: int, duration: int) -> Refusal:
        """Does setValueCurveAtTime, over which no other event may lie."""
        if len(points) < 2:
            return "ShortCurve"
        if time < 0:
            return "NegativeTime"
        if duration <= 0:
            return "BadDuration"
        time = max(time, now)
        refusal = self.in_curve(time)
        if refusal:
            return refusal
        for place, event in enumerate(self.events):
            if time < event.time < time + duration:
                return ("CurveOver", place)
        self.put(Event("curve", time, points=points, duration=duration))
        return None

    def set_now(self, now: int, value: int) -> Refusal:
        """Sets the value at `now`, and the slot with it."""
        refusal = self.in_curve(now)
        if not refusal:
            self.put(Event("set", now, value))
            self.slot = value
        return refusal

    def cancel(self, now: int, time: int) -> Refusal:
        """Does cancelScheduledValues; where nothing is left up to `now`, the slot becomes the
        base."""
        if time < 0:
            return "NegativeTime"
        time = max(time, now)
        self.events = [
            e
            for e in self.events
            if e.time < time and not (e.kind == "curve" and e.time <= time <= e.end)
        ]
        if not any(e.time <= now for e in self.events):
            self.base = self.slot
        return None

    def hold(self, now: int, time: int) -> Refusal:
        """Does cancelAndHoldAtTime."""
        if time < 0:
            return "NegativeTime"
        time = max(time, now)
        value = self.value_at(time)
        before = [e for e in self.events if e.time <= time]
        later = [e for e in self.events if e.time > time]
        if before and before[-1].kind == "curve" and time < before[-1].end:
            before[-1].end = time
        elif later and later[0].kind == "ramp":
            before.append(Event("ramp", time, value))
        self.events = before
        return None


def edit(line: Timeline, random: Numbers, now: int) -> Refusal:
    """Does a random edit at the frame `now`. Its numbers are drawn whatever the edit is, as the
    tests draw them."""
    value, time = random.value(), random.time()
    kind = random.below(9)
    if kind < 2:
        return line.set_value(now, value, time)
    if kind < 4:
        return line.ramp(now, value, time)
    if kind < 6:
        points = [value, random.value(), 7, random.value(), value]
        count = random.below(6)
        return line.curve(now, points[:count], time, random.duration())
    if kind == 6:
        return line.set_now(now, value)
    if kind == 7:
        return line.cancel(now, time)
    return line.hold(now, time)


NUMBERS: dict[str | None, int] = {None: 0, "NegativeTime": 1, "BadDuration": 2, "ShortCurve": 3}


def answer_number(answer: Refusal) -> int:
    """The number by which the digest has an answer."""
    if isinstance(answer, tuple):
        return 2 * answer[1] + (4 if answer[0] == "InCurve" else 5)
    return NUMBERS[answer]


def main() -> None:
    """Prints the digest, or how often each case came up."""
    is_counted = digests.is_counted("tools/timelines", __doc__)
    random = Numbers(2024)
    digest = digests.EMPTY
    counts: Cases = collections.Counter()
    for _ in range(20_000):
        line = Timeline(random.value())
        pace = random.below(12)
        for i in range(random.below(14)):
            answer = edit(line, random, i * pace)
            counts[answer[0] if isinstance(answer, tuple) else answer or "Ok"] += 1
            digest = mixed(digest, answer_number(answer))
            if random.below(3) == 0:
                line.slot = random.value()
        counts.update(e.kind for e in line.events)
        counts["cut curve"] += sum(
            e.kind == "curve" and e.end < e.time + e.duration for e in line.events
        )
        digest = mixed(mixed(digest, line.base + 2**31), line.slot + 2**31)
        first = random.below(200)
        for frame in range(first, first + 200):
            digest = mixed(digest, line.value_at(frame) + 2**31)
    digests.tell(digest, counts, is_counted)


if __name__ == "__main__":
    main()
