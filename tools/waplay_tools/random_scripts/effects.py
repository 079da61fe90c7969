"""Shapes of scripts: parameters that move, wave shapers and filters."""

from waplay_tools.random_scripts.graphs import Graphs
from waplay_tools.random_scripts.kinds import FIX, KINDS, ONE, Call, Calls, Make


class Effects(Graphs):
    """Shapes of scripts: parameters that move, wave shapers and filters."""

    def automated(self) -> Calls:
        """Sources and gains behind one another, whose parameters have timelines and hear other
        nodes, some of them at k-rate and some in cycles. In some the last gain brings the whole
        range of values into the file. The list of startRendering reads the values and goes on with
        edits."""
        calls = [self.create_constant()] + [
            self.create_source() for _ in range(self.rng.randint(0, 3))
        ]
        calls += [
            self.create_gain() if self.may(0.7) else self.create_place()
            for _ in range(self.rng.randint(0, 5))
        ]
        places = list(dict.fromkeys(call["as"] for call in calls))
        if self.may(0.7):  # most sources and gains begin with what can be heard
            for call in calls:
                for field in {"offset", "gain"} & set(call):
                    call[field] = self.rng.randint(-ONE, ONE)
        last = "destination"
        if self.may(0.4):
            quiet = self.rng.choice([2**16, 2**17, 2**15 + 1])
            calls.append({"op": "createGain", "as": "quiet", "gain": quiet})
            calls.append({"op": "connect", "from": "quiet", "to": "destination"})
            last = "quiet"
        controlled = [name for name in places if self.names[name].parameter] or ["nobody"]
        calls += self.started(places) + self.led_on(places, last)
        calls += self.controls_of(places, controlled)
        calls += self.wide_controls(controlled) if self.may(0.3) else []
        if self.may(0.3):  # what is connected at k-rate
            heard = [call["to"] for call in self.controls if call["to"] in controlled]
            calls += [self.edit("setAutomationRate", name) for name in dict.fromkeys(heard)]
        calls += self.edits_of(controlled)
        calls += [
            self.attribute(op, name)
            for name in places + ["destination"]
            for op in self.attributes
            if self.may(0.05)
        ]
        cuts = [self.disconnect_param, self.disconnect]
        calls += [self.rng.choice(cuts)() for _ in range(self.rng.choice([0, 0, 0, 1, 3]))]
        calls += [self.stop() for _ in range(self.rng.choice([0, 0, 0, 1]))]
        calls += [self.any_call() for _ in range(self.rng.choice([0, 0, 0, 3]))]
        held = self.edits_between_reads(controlled)
        rendering: Call = {"op": "startRendering", "then": held}
        place = self.rng.randint(len(calls) // 2, len(calls)) if self.may(0.3) else len(calls)
        return calls[:place] + [rendering] + calls[place:]

    def started(self, places: list[str]) -> Calls:
        """Nearly all sources of these nodes start, most of them at once."""
        calls = []
        for name in places:
            if self.names[name].plays and self.may(0.97):
                calls.append(self.call("start", [("node", name)]))
                if self.may(0.3):
                    calls[-1]["when"] = max(0, self.time())
        return calls

    def led_on(self, places: list[str], last: str) -> Calls:
        """Connections of each node to one or two of those behind it, or to the last one."""
        calls = []
        for at, name in enumerate(places):
            after = [place for place in places[at + 1 :] if self.names[place].inputs]
            for _ in range(self.rng.choice([1, 1, 2])):
                calls.append(
                    self.joined(name, self.rng.choice(after) if after and self.may(0.7) else last)
                )
        return calls

    def controls_of(self, places: list[str], controlled: list[str]) -> Calls:
        """Connections of nodes to parameters, in some scripts also to those before them."""
        calls, backward = [], self.rng.choice([0, 0, 0, 0.3])
        for _ in range(self.rng.choice([0, 0, 1, 2, 4, 8])):
            a, b = self.rng.randrange(len(places)), self.rng.randrange(len(controlled))
            if places[a] not in controlled[b:] or self.may(backward):
                calls.append(self.connect_param(places[a], controlled[b]))
        return calls

    def wide_controls(self, controlled: list[str]) -> Calls:
        """Several channels at parameters, of nodes that mostly take their inputs as discrete."""
        sides = [self.create_constant() for _ in range(self.rng.randint(2, 6))]
        calls: Calls = [*sides, *({"op": "start", "node": call["as"]} for call in sides)]
        calls.append(self.create_merger())
        wide = calls[-1]["as"]
        calls += [
            {**self.joined(call["as"], wide), "input": place} for place, call in enumerate(sides)
        ]
        calls += [
            self.connect_param(wide, self.rng.choice(controlled))
            for _ in range(self.rng.randint(1, 3))
        ]
        calls += [
            {"op": "setChannelInterpretation", "node": name, "value": "discrete"}
            for name in controlled
            if "setChannelInterpretation" in self.attributes and self.may(0.7)
        ]
        return calls

    def edits_of(self, controlled: list[str]) -> Calls:
        """The timelines of parameters, woven into one another, each in its order."""
        calls: Calls = []
        lines = [self.timeline(name) for name in controlled if self.may(0.7)]
        if self.may(0.2):  # a sum past the range at a parameter, whose own value brings it back
            loud, extreme = self.rng.choice(controlled), self.rng.choice(FIX)
            for name in ("loud", "louder", "loudest")[: self.rng.randint(1, 3)]:
                control = {"from": name, "to": loud, "param": self.parameter(loud)[1]}
                calls += [
                    {"op": "createConstantSource", "as": name, "offset": extreme},
                    {"op": "start", "node": name},
                    {"op": "connectParam", **control},
                ]
            values = [*FIX, -extreme - 1, -extreme // 2]
            lines.append(
                [
                    {**self.edit("setValueAtTime", loud), "value": self.rng.choice(values)}
                    for _ in range(self.rng.randint(1, 4))
                ]
            )
        while lines:
            line = self.rng.choice(lines)
            calls.append(line.pop(0))
            lines = [line for line in lines if line]
        return calls

    def edits_between_reads(self, controlled: list[str]) -> Calls:
        """Reads of these nodes' parameters, some edits, and the same reads again."""
        reads = [self.edit("readValue", name) for name in controlled]
        edits = [
            self.any_edit(self.rng.choice(controlled)) for _ in range(self.rng.choice([0, 3, 10]))
        ]
        return reads + edits + reads

    def bent(self) -> Calls:
        """Sources that mostly move, and shapers behind one another with a few other nodes between,
        some of them in cycles. What comes to a shaper is mostly up to 2.0. Some curves are set
        before the connections and some behind them, and some are taken away."""
        calls = [self.create_constant()] + [
            self.create_source() for _ in range(self.rng.randint(0, 3))
        ]
        sources = [call["as"] for call in calls]
        for _ in range(self.rng.randint(1, 6)):
            make = (
                self.create_shaper
                if self.may(0.7)
                else self.rng.choice([self.create_gain, self.create_place])
            )
            calls.append(make())
        places = list(dict.fromkeys(call["as"] for call in calls))
        shapers = [name for name in places if self.names[name] is KINDS["createWaveShaper"]]
        for call in calls:
            if "oversample" in call and self.may(0.8):
                del call["oversample"]
            if {"offset", "gain"} & set(call) and self.may(0.7):
                call.update(
                    dict.fromkeys(
                        {"offset", "gain"} & set(call), self.rng.randint(-2 * ONE, 2 * ONE)
                    )
                )
        early = [self.set_curve(name) for name in shapers if self.may(0.3)]
        calls += self.in_a_row(places)
        if shapers:
            calls.append(self.joined(shapers[-1], "destination"))
        calls += early + [
            call
            for name in sources
            if self.names[name].parameter and self.may(0.8)
            for call in self.timeline(name)
        ]
        calls += [self.connect_param(name) for name in shapers if self.may(0.2)]
        calls += [
            self.attribute(op, name)
            for name in places + ["destination"]
            for op in self.attributes
            if self.may(0.1)
        ]
        calls += [self.call("start", [("node", name)]) for name in sources if self.may(0.95)]
        late: list[Make] = [self.set_curve, self.set_curve, self.set_oversample, self.any_call]
        calls += [self.rng.choice(late)() for _ in range(self.rng.choice([0, 0, 1, 4]))]
        calls += [self.stop() for _ in range(self.rng.choice([0, 0, 1]))]
        return calls + [self.start_rendering()]

    def filtered(self) -> Calls:
        """Sources that are mostly short or move, and filters behind one another with a few other
        nodes between, some of them in cycles. Sources of several channels start and end, so that
        channels come and go."""
        calls = [self.create_source() for _ in range(self.rng.randint(1, 4))]
        sources = [call["as"] for call in calls]
        for _ in range(self.rng.randint(1, 6)):
            calls.append(self.create_filter() if self.may(0.7) else self.create_place())
        places = list(dict.fromkeys(call["as"] for call in calls))
        filters = [name for name in places if self.names[name] is KINDS["createIIRFilter"]]
        for call in calls:
            if {"offset", "gain"} & set(call) and self.may(0.8):
                call.update(
                    dict.fromkeys({"offset", "gain"} & set(call), self.rng.randint(-ONE, ONE))
                )
        calls += self.in_a_row(places)
        if filters:
            calls.append(self.joined(filters[-1], "destination"))
        if filters and self.suspends:
            calls += self.for_a_while(calls, self.rng.choice(filters))
        for name in sources:
            begins = [0, 0, 1, *self.near(1)[:2], self.rng.randint(0, self.length)]
            when = self.rng.choice(begins)
            calls.append(self.call("start", [("node", name), ("when", when)]))
            if self.may(0.6):
                played = self.rng.choice([1, 1, 2, self.quantum, self.rng.randint(1, 300)])
                calls.append(self.call("stop", [("node", name), ("when", when + played)]))
            elif self.names[name].parameter and self.may(0.5):
                calls += self.timeline(name)[:4]
        calls += [self.connect_param(name) for name in filters if self.may(0.2)]
        calls += [
            self.attribute(op, name)
            for name in places + ["destination"]
            for op in self.attributes
            if self.may(0.1)
        ]
        calls += [self.any_call() for _ in range(self.rng.choice([0, 0, 0, 3]))]
        return calls + [self.start_rendering()]
