"""Suspensions, and what is changed at them."""

from waplay_tools.random_scripts.chances import CHANGES
from waplay_tools.random_scripts.kinds import AUTOMATED, TIME, Call, Calls
from waplay_tools.random_scripts.sounds import Sounds


class Suspensions(Sounds):
    """Suspensions, and what is changed at them."""

    def suspension_time(self) -> int:
        """A time that is rounded up to a frame to come, or now and then one at which there can be
        no suspension."""
        quantum, now = self.quantum, self.now
        last = quantum - 1  # the last frame of the first quantum
        ahead = range(now // quantum * quantum + quantum, self.length, quantum)
        if ahead and self.may(0.8):
            early = self.rng.choice([0, 0, 0, 1, last, self.rng.randint(0, last)])
            return self.rng.choice(ahead) - early
        past = self.rng.choice([0, -1, -last, -quantum, now, now - 1, now - last, -TIME])
        late = self.rng.choice(
            [
                self.length,
                self.length - 1,
                self.length + 1,
                (self.length - 1) // quantum * quantum,
                TIME,
            ]
        )
        return self.rng.choice([past, late, now + 1])

    def suspend(self, time: int | None = None) -> Call:
        """A suspension at this time, or mostly at one to come, with a list of changes."""
        time = self.suspension_time() if time is None else time
        call = self.call("suspend", [("time", time)])
        if self.may(0.97):
            rounded = -(-time // self.quantum) * self.quantum
            call["then"] = self.changes(max(0, min(rounded, self.length)))
        return call

    def changes(self, frame: int) -> Calls:
        """The calls of a list at a suspension. Most lists resume, mostly with their last call."""
        before, self.now, self.depth = self.now, frame, self.depth + 1
        calls = []
        for _ in range(0 if self.depth > 3 else self.rng.choice([0, 2, 4, 6, 10])):
            made = self.made_by(CHANGES)
            calls += made if isinstance(made, list) else [made]
        self.now, self.depth = before, self.depth - 1
        if self.may(0.97):
            calls.insert(
                len(calls) if self.may(0.8) else self.rng.randint(0, len(calls)), {"op": "resume"}
            )
        return calls

    def heard(self, name: str) -> Call:
        """A connection by which a node is mostly heard."""
        return self.joined(name, "destination" if self.may(0.6) else self.target())

    def voice(self) -> Calls:
        """A source that is made and connected, mostly by a gain, and starts."""
        calls = [self.create_source()]
        name = last = calls[0]["as"]
        if self.may(0.6):
            calls.append(self.create_gain())
            last = calls[-1]["as"]
            calls.append(self.joined(name, last))
            if self.read_ops.issuperset(AUTOMATED) and self.may(0.5):
                calls += self.timeline(last)[:4]
        return calls + [self.heard(last), self.call("start", [("node", name)], when=self.time())]

    def rewired(self) -> Call:
        """A connection by which a node that is there is mostly heard."""
        return self.heard(self.name(lambda kind: kind.outputs))

    def moved(self) -> Calls:
        """Edits of a parameter, mostly from now on."""
        edits = self.timeline(self.name(lambda kind: kind.parameter))
        return edits[: self.rng.choice([1, 2, 4, 8])]

    def sampled(self) -> Calls:
        """Buffers, and a source that plays one."""
        calls = self.some_buffers() + [self.create_buffer_source()]
        name = calls[-1]["as"]
        return calls + [self.heard(name), self.start(name)]

    def values_read(self) -> Calls:
        """Reads of up to three parameters' values."""
        names = [name for name, kind in self.names.items() if kind.parameter]
        return [self.edit("readValue", name) for name in self.rng.sample(names, min(3, len(names)))]

    def suspended(self, calls: Calls) -> Calls:
        """The calls with suspensions between them, which are made in order of time."""
        calls, ahead = list(calls), range(self.quantum, self.length, self.quantum)
        frames = self.rng.sample(ahead, min(len(ahead), self.rng.choice([1, 1, 2, 3, 5])))
        times = [frame - self.rng.choice([0, 0, 0, 1, self.quantum - 1]) for frame in frames]
        times += [self.suspension_time() for _ in range(self.rng.choice([0, 0, 1, 2]))]
        for call in [self.suspend(time) for time in sorted(times)]:
            calls.insert(self.rng.randint(len(calls) // 2, len(calls)), call)
        return calls

    def for_a_while(self, calls: Calls, name: str) -> Calls:
        """Suspensions that bring a node into a cycle and out of it, or that take something away
        from it which is connected by these calls, and give it back."""
        frames = list(range(0, self.length, self.quantum))[1:6]
        heard = [call for call in calls if call["op"] == "connect" and call["to"] == name]
        changes = self.joined(name, name), {"op": "disconnect", "from": name, "to": name}
        if heard and self.may(0.6):
            back = self.rng.choice(heard)
            changes = {**back, "op": "disconnect"}, back
            if "input" in back or "output" in back:
                changes = {"op": "disconnect", "from": back["from"], "to": name}, back
        if len(frames) < 2:
            return []
        return [
            {"op": "suspend", "time": frame, "then": [change, {"op": "resume"}]}
            for frame, change in zip(sorted(self.rng.sample(frames, 2)), changes)
        ]
