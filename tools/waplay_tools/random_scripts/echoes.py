"""Shapes of scripts: delays, mostly in cycles, and what is made around them."""

from waplay_tools.random_scripts.effects import Effects
from waplay_tools.random_scripts.kinds import KINDS, ONE, Call, Calls, Make, Sound


class Echoes(Effects):
    """Shapes of scripts: delays, mostly in cycles, and what is made around them."""

    def kept_quiet(self, calls: Calls, most: int = ONE) -> Calls:
        """Gives constants and gains of these calls mostly a value of this size at most."""
        for call in calls:
            for field in ("offset", "gain"):
                if field in call and self.may(0.9):
                    call[field] = self.rng.randint(-most, most)
        return calls

    def looped(self, name: str | None = None) -> Calls:
        """Connections by which a delay mostly comes into a cycle: with itself, with a gain, of
        which it may reach the parameter alone, or with any node."""
        name, some = name or self.delay(), self.rng.randint(0, 9)
        if some < 2:
            calls = [self.joined(name, name)]
        elif some < 8:
            calls = self.kept_quiet([self.create_gain()], ONE * 3 // 4)
            between = calls[0]["as"]
            there = self.joined(name, between) if some < 6 else self.connect_param(name, between)
            calls += [there, self.joined(between, name)]
            calls += [self.joined(self.source(), between)] if some >= 6 else []
        else:
            between = self.name(lambda kind: kind.inputs and kind.outputs)
            calls = [self.joined(name, between), self.joined(between, name)]
        self.loops += [call for call in calls if call["op"] == "connect"][:2]
        return calls

    def unlooped(self) -> Call:
        """A connection that brings a delay into a cycle is taken away, or all of a delay."""
        loop = (
            self.rng.choice(self.loops) if self.loops and self.may(0.8) else {"from": self.delay()}
        )
        return {
            "op": "disconnect",
            **{field: loop[field] for field in ("from", "to") if field in loop},
        }

    def moving(self, name: str, sources: list[str]) -> Calls:
        """What moves the time of a delay: edits, a source by a gain that makes some frames of it,
        or any node."""
        some, calls = self.rng.randint(0, 9), []
        if some < 5:
            calls = self.timeline(name)[: self.rng.choice([2, 4, 8])]
        elif some < 8:
            calls = [self.create_gain()]
            calls[0]["gain"] = self.seconds(self.rng.choice([1, 10, self.quantum, 400, -40]))
            calls += [
                self.joined(self.rng.choice(sources), calls[0]["as"]),
                self.connect_param(calls[0]["as"], name),
            ]
        else:
            calls = [self.connect_param(name if self.may(0.4) else None, name)]
        calls += [self.edit("setAutomationRate", name)] if self.may(0.3) else []
        return calls + ([self.edit("readValue", name)] if self.may(0.3) else [])

    def widened(self, name: str | None = None) -> Calls:
        """Constants that come to a delay on several channels."""
        name, merger = name or self.delay(), self.create_merger()
        calls, place = [merger], merger["as"]
        for at in range(min(self.names[place].inputs, 6)):
            if self.may(0.8):
                calls += self.kept_quiet([self.create_constant()])
                source = calls[-1]["as"]
                calls += [
                    {**self.joined(source, place), "input": at},
                    self.call("start", [("node", source)]),
                ]
        self.loops.append(self.joined(place, name))
        return calls + self.loops[-1:]

    def passing(self, name: str | None = None) -> Calls:
        """A source of several channels that comes to a delay for some quanta at most."""
        name, channels, length = (
            name or self.delay(),
            self.rng.choice([2, 2, 3, 4, 6]),
            self.rng.randint(1, 200),
        )
        buffer, source, player = self.new_name(), self.new_name(), KINDS["createBufferSource"]
        self.names[buffer], self.names[source] = Sound(0, 0, False, channels, length), player
        calls = [
            {
                "op": "createBuffer",
                "as": buffer,
                "channels": channels,
                "length": length,
                "rate": self.rate,
            }
        ]
        calls += [
            {
                "op": "copyToChannel",
                "buffer": buffer,
                "channel": channel,
                "samples": [self.rng.randint(-ONE, ONE) for _ in range(length)],
            }
            for channel in range(channels)
        ]
        calls += [
            {"op": "createBufferSource", "as": source, "buffer": buffer},
            self.joined(source, name),
        ]
        when = self.rng.choice([0, self.rng.randint(self.now, max(self.now, self.length))])
        return calls + [{"op": "start", "node": source, "when": when}]

    def split(self, name: str | None = None) -> Calls:
        """A splitter behind a delay, so that it is heard how many channels the delay has."""
        call = self.create_splitter()
        outputs = range(min(self.names[call["as"]].outputs, 6))
        heard = [
            {**self.joined(call["as"], "destination"), "output": output}
            for output in outputs
            if self.may(0.7)
        ]
        return [call, self.joined(name or self.delay(), call["as"]), *heard]

    def for_some_quanta(self, name: str) -> Calls:
        """Suspensions between which a delay is in a cycle, is muted by its own time, or has another
        interpretation."""
        frames = list(range(0, self.length, self.quantum))[1:6]
        gain = {"op": "createGain", "as": "between", "gain": self.rng.randint(-ONE // 2, ONE)}
        control = {"from": name, "to": name, "param": "delayTime"}
        changes: list[tuple[Calls, Calls]] = [
            ([self.joined(name, name)], [{"op": "disconnect", "from": name, "to": name}]),
            (
                [gain, self.joined(name, "between"), self.joined("between", name)],
                [{"op": "disconnect", "from": "between"}],
            ),
            ([{"op": "connectParam", **control}], [{"op": "disconnectParam", **control}]),
        ]
        if "setChannelInterpretation" in self.attributes:
            there, back = (
                [{"op": "setChannelInterpretation", "node": name, "value": word}]
                for word in ("discrete", "speakers")
            )
            changes.append((there, back))
        if len(frames) < 2:
            return []
        return [
            {"op": "suspend", "time": frame, "then": [*calls, {"op": "resume"}]}
            for frame, calls in zip(sorted(self.rng.sample(frames, 2)), self.rng.choice(changes))
        ]

    def swaying(self) -> Calls:
        """A constant source whose values go up and down along a curve, so that each frame has its
        own, and starts."""
        calls = self.kept_quiet([self.create_constant()])
        points = [self.rng.randint(-ONE, ONE) for _ in range(self.rng.choice([2, 3, 9, 40]))]
        curve = {
            "op": "setValueCurveAtTime",
            "node": calls[0]["as"],
            "param": "offset",
            "values": points,
            "time": self.rng.choice([0, 0, 1, 100]),
            "duration": self.rng.randint(1, 2 * self.length),
        }
        return calls + [curve, self.call("start", [("node", calls[0]["as"])])]

    def begun(self, sources: list[str]) -> Calls:
        """The sources start, and most of them are short or move."""
        calls = []
        for name in sources:
            begins = [0, 0, 0, 1, *self.near(1)[:2], self.rng.randint(0, self.length)]
            when = self.rng.choice(begins)
            calls.append(self.call("start", [("node", name), ("when", when)]))
            if self.may(0.6):
                played = self.rng.choice([1, 1, 2, 100, self.quantum, self.rng.randint(1, 300)])
                calls.append(self.call("stop", [("node", name), ("when", when + played)]))
            elif self.names[name].parameter and self.may(0.6):
                calls += self.timeline(name)[:4]
        return calls

    def delayed(self) -> Calls:
        """Sources, and delays behind one another with a few other nodes between, many of them in
        cycles and some in cycles without a delay. Numbers of channels grow, and times of delays
        move."""
        calls = self.kept_quiet([self.create_source() for _ in range(self.rng.randint(1, 4))])
        sources = [call["as"] for call in calls]
        for _ in range(self.rng.randint(1, 5)):
            others: list[Make] = [self.create_gain, self.create_place]
            make = self.create_delay if self.may(0.6) else self.rng.choice(others)
            calls += self.kept_quiet([make()])
        places = list(dict.fromkeys(call["as"] for call in calls))
        delays = [name for name in places if self.names[name] is KINDS["createDelay"]]
        calls += self.in_a_row(places)
        if delays:
            swaying = self.swaying()
            calls += swaying + [
                self.joined(swaying[0]["as"], delays[0]),
                self.joined(delays[-1], "destination"),
            ]
        for name in delays:
            for around, chance in (
                (self.looped, 0.4),
                (self.widened, 0.15),
                (self.passing, 0.25),
                (self.split, 0.4),
            ):
                calls += around(name) if self.may(chance) else []
            if "setChannelInterpretation" in self.attributes and self.may(0.25):
                calls.append({"op": "setChannelInterpretation", "node": name, "value": "discrete"})
            calls += self.moving(name, sources) if self.may(0.5) else []
            calls += self.for_some_quanta(name) if self.suspends and self.may(0.4) else []
        calls += [
            self.attribute(op, name)
            for name in places + ["destination"]
            for op in self.attributes
            if self.may(0.1)
        ]
        calls += self.begun(sources)
        calls += [self.any_call() for _ in range(self.rng.choice([0, 0, 0, 3]))]
        return calls + [self.start_rendering()]

    def crossed(self) -> Calls:
        """A splitter whose outputs go through delays into a merger, and from each delay back to a
        delay, as in echoes that go from side to side."""
        calls = self.kept_quiet([self.create_source() for _ in range(self.rng.randint(1, 3))])
        sources = [call["as"] for call in calls]
        swaying = self.swaying()
        calls += swaying + [self.create_splitter(), self.create_merger()]
        splitter, merger = (call["as"] for call in calls[-2:])
        calls += [self.joined(name, splitter) for name in [*sources, swaying[0]["as"]]]
        sides = [self.create_delay() for _ in range(self.rng.randint(2, 4))]
        calls += sides
        for at, side in enumerate(sides):
            name, other = side["as"], sides[(at + self.rng.choice([0, 1, 1])) % len(sides)]["as"]
            calls += [self.joined(splitter, name), self.joined(name, merger)]
            back = self.kept_quiet([self.create_gain()], ONE * 3 // 4)
            calls += back + [self.joined(name, back[0]["as"])]
            if self.may(0.8):
                calls.append(self.joined(back[0]["as"], other))
                self.loops.append(calls[-1])
            calls += self.moving(name, sources) if self.may(0.2) else []
        calls.append(self.joined(merger, "destination"))
        calls += [self.disconnect() for _ in range(self.rng.choice([0, 0, 0, 1, 3]))]
        return calls + self.begun(sources) + [self.start_rendering()]
