"""Shapes of scripts: any calls, and graphs of nodes of several channels."""

from typing import Any

from waplay_tools.expecting.sessions import ATTRIBUTES
from waplay_tools.random_scripts.kinds import KINDS, ONE, Call, Calls, Make, Sound
from waplay_tools.random_scripts.suspensions import Suspensions


class Graphs(Suspensions):
    """Shapes of scripts: any calls, and graphs of nodes of several channels."""

    def mixed(self) -> Calls:
        """Any calls, hostile ones among them; rendering is started before some of them."""
        calls = [self.create_source() for _ in range(self.rng.randint(0, 3))]
        calls += [self.start() for _ in calls]
        calls += [
            self.any_call() for _ in range(self.rng.randint(0, self.rng.choice([10, 30, 80])))
        ]
        calls += [
            {"op": "connect", "from": name, "to": "destination"}
            for name, kind in self.names.items()
            if not isinstance(kind, Sound) and self.may(0.3)
        ]
        for _ in range(self.rng.choice([0, 1, 1, 1, 1, 1, 1, 2])):
            calls.insert(self.rng.randint(len(calls) // 2, len(calls)), self.start_rendering())
        return calls

    def graph(self) -> Calls:
        """Nodes and connections, cycles in some; every source starts, some stop, and in some graphs
        attributes are set, before and after connections, and connections are taken away."""
        calls = [self.create_source() for _ in range(self.rng.randint(1, 8))]
        calls += [
            self.create_place() for _ in range(self.rng.randint(0, self.rng.choice([3, 12, 40])))
        ]
        places = list(dict.fromkeys(call["as"] for call in calls))
        starts = [
            {"op": "start", "node": name, "when": max(0, self.time())}
            for name in places
            if self.names[name].plays
        ]
        backward = self.rng.choice([0, 0, 0.02, 0.3])
        often = self.rng.choice([0, 0.1, 0.5, 0.9])
        sets = [
            self.attribute(op, name)
            for name in places + ["destination"]
            for op in self.attributes
            if self.may(often)
        ]
        self.rng.shuffle(sets)
        early = self.rng.randint(0, len(sets))
        calls += sets[:early]
        for _ in range(self.rng.randint(1, 3 * len(places))):
            a, b = self.rng.randrange(len(places)), self.rng.randrange(len(places) + 1)
            if b <= a and not self.may(backward):
                b = len(places)
            calls.append(self.joined(places[a], (places + ["destination"])[b]))
        calls += sets[early:] + starts + [self.stop() for _ in range(self.rng.choice([0, 0, 1, 4]))]
        calls += [self.disconnect() for _ in range(self.rng.choice([0, 0, 0, 1, 4]))]
        return calls + [self.start_rendering()]

    def wide(self) -> Calls:
        """Nodes behind one another, most of them with a count of channels that is set: what comes
        from the sources is mixed up and down on its way. Some begin with 5.1 and quad, where it
        comes to the surround channels, and some have a node that is connected to itself at their
        side."""
        calls = [self.create_source() for _ in range(self.rng.randint(1, 3))]
        calls += [{"op": "start", "node": call["as"]} for call in calls]
        places = [call["as"] for call in calls[: len(calls) // 2]]

        def joined_to(target: str, *sources: str) -> Calls:
            """Connections of these sources to one node."""
            return [self.joined(source, target) for source in sources]

        def set_to(place: str, **values: Any) -> Calls:
            """Calls that set these attributes of a node, as far as they are read."""
            return [
                {"op": op, "node": place, "value": values[attribute]}
                for op, attribute in ATTRIBUTES.items()
                if op in self.attributes and attribute in values
            ]

        surround = [(6, "speakers"), (4, "discrete"), (6, "speakers")]
        for count, interpretation in surround[: self.rng.choice([0, 0, 2, 3])]:
            calls.append(self.create_place())
            place = calls[-1]["as"]
            calls += set_to(place, count=count, mode="explicit", interpretation=interpretation)
            calls += joined_to(place, places[-1])
            places.append(place)
        for _ in range(self.rng.randint(1, 10)):
            calls.append(self.create_place())
            place = calls[-1]["as"]
            calls += [self.attribute(op, place) for op in self.attributes if self.may(0.8)]
            calls += set_to(place, mode="explicit") if self.may(0.6) else []
            calls += joined_to(
                place, places[-1], *self.rng.choices(places, k=self.rng.randint(0, 1))
            )
            if self.may(0.1):
                calls += joined_to(place, place) + joined_to(self.rng.choice(places), place)
            else:
                places.append(place)
        calls += joined_to(
            "destination", places[-1], *self.rng.choices(places, k=self.rng.randint(0, 2))
        )
        calls += [self.attribute(op, "destination") for op in self.attributes if self.may(0.4)]
        return calls + [self.start_rendering()]

    def woven(self) -> Calls:
        """Splitters and mergers behind one another, with gains between, and most outputs and inputs
        in use: what comes from the sources is on several channels and changes its places.
        Attributes are set before and after, and some connections are taken away. Some go back to
        where they come from. The sources are mostly quiet, so that sums stay within the range."""
        calls = [self.create_source() for _ in range(self.rng.randint(2, 7))]
        for call in calls:
            if call["op"] == "createConstantSource" and self.may(0.95):
                call["offset"] = self.rng.randint(-(10**5), 10**5)
        calls += [{"op": "start", "node": call["as"]} for call in calls]
        layer = [call["as"] for call in calls[: len(calls) // 2]]
        backward = self.rng.choice([0, 0, 0, 0.1])
        before = layer
        for step in range(self.rng.randint(2, 7)):
            make = self.create_merger
            if step and self.may(0.8):
                make = self.rng.choice([self.create_splitter, self.create_merger, self.create_gain])
            made = [make() for _ in range(self.rng.randint(1, 3))]
            for call in made:
                if "gain" in call and self.may(0.9):
                    call["gain"] = self.rng.randint(-ONE, ONE)
            after = [call["as"] for call in made]
            calls += made + self.between(layer, after)
            if self.may(backward):
                calls.append(self.joined(self.rng.choice(after), self.rng.choice(layer)))
            if self.may(0.1):
                calls.append(self.joined(self.rng.choice(before), self.rng.choice(after)))
            before, layer = layer, after
        if self.may(0.5):
            calls += self.merged(before + layer)
            layer = ["last"]
        calls += [
            self.joined(name, "destination")
            for name in layer
            for _ in range(self.rng.randint(1, 3))
        ]
        sets = [
            self.set_attribute()
            for _ in range(self.rng.choice([0, 0, 3, 10]) if self.attributes else 0)
        ]
        cuts = [self.disconnect() for _ in range(self.rng.choice([0, 0, 1, 5]))]
        again = [
            self.joined(self.rng.choice(layer), "destination")
            for _ in range(self.rng.choice([0, 1, 3]))
        ]
        return calls + sets + cuts + again + [self.start_rendering()]

    def between(self, layer: list[str], after: list[str]) -> Calls:
        """Connections from one layer to the next: each input is joined to an output, nearly all of
        them, and half of the outputs to an input. Some nodes have attributes set."""
        calls = []
        for name in after:
            if self.may(0.2):
                calls += [self.attribute(op, name) for op in self.attributes if self.may(0.6)]
            for place in range(min(self.names[name].inputs, 40)):
                source = self.rng.choice(layer)
                if self.may(0.85):
                    calls.append({**self.joined(source, name), "input": place})
        for source in layer:
            for output in range(min(self.names[source].outputs, 40)):
                if self.may(0.5):
                    calls.append({**self.joined(source, self.rng.choice(after)), "output": output})
        return calls

    def merged(self, sources: list[str]) -> Calls:
        """A merger `last`, by which sources come to the destination on as many channels as it
        has."""
        self.names["last"] = KINDS["createChannelMerger"]._replace(inputs=self.channels)
        call: Call = {"op": "createChannelMerger", "as": "last", "numberOfInputs": self.channels}
        return [call] + [
            {**self.joined(self.rng.choice(sources), "last"), "input": place}
            for place in range(self.channels)
            if self.may(0.9)
        ]

    def played(self) -> Calls:
        """Buffers, and sources that play them, with loops, offsets, durations, rates and stops, by
        a few nodes or none. What is too late for a buffer or a loop comes too."""
        calls = [self.create_buffer_source() for _ in range(self.rng.randint(1, 6))]
        sources = [call["as"] for call in calls]
        if self.may(0.3):
            calls += [self.create_constant() for _ in range(self.rng.randint(1, 2))]
        calls += [self.create_place() for _ in range(self.rng.choice([0, 0, 1, 3]))]
        places = [call["as"] for call in calls]
        changes: list[Make] = [
            self.set_loop,
            self.set_loop,
            self.set_buffer,
            self.set_buffer,
            self.copy_to_channel,
        ]
        calls += [self.rng.choice(changes)() for _ in range(self.rng.choice([0, 0, 2, 6]))]
        calls += [
            self.attribute(op, name)
            for name in places + ["destination"]
            for op in self.attributes
            if self.may(0.1)
        ]
        for at, name in enumerate(places):
            after = [place for place in places[at + 1 :] if self.names[place].inputs] + [
                "destination"
            ]
            calls += [
                self.joined(name, self.rng.choice(after)) for _ in range(self.rng.choice([1, 1, 2]))
            ]
        late = [self.start(name) for name in places if self.names[name].plays and self.may(0.95)]
        for call in late:
            if self.may(0.5):
                call["when"] = self.rng.choice([0, 0, 1, self.rng.randint(0, 40)])
        late += [self.rng.choice(changes)() for _ in range(self.rng.choice([0, 0, 0, 2]))]
        self.rng.shuffle(late)
        late += [
            self.call("stop", [("node", self.rng.choice(sources))], when=self.time())
            for _ in range(self.rng.choice([0, 0, 1, 3]))
        ]
        late += [
            self.rng.choice([*changes, self.any_call])() for _ in range(self.rng.choice([0, 0, 3]))
        ]
        return calls + late + [self.start_rendering()]

    def in_a_row(self, places: list[str]) -> Calls:
        """Connections of nodes that stand behind one another, in some scripts also back."""
        calls: Calls = []
        backward = self.rng.choice([0, 0, 0, 0.1, 0.3])
        for at, name in enumerate(places):
            after = [place for place in places[at + 1 :] if self.names[place].inputs]
            after = places if self.may(backward) else after
            for _ in range(self.rng.choice([1, 1, 2])):
                target = self.rng.choice(after) if after and self.may(0.7) else "destination"
                calls.append(self.joined(name, target))
        return calls

    def sprinkled(self, calls: Calls) -> Calls:
        """The calls with some more between them that have to do with parameters."""
        calls = list(calls)
        for _ in range(self.rng.choice([1, 3, 10, 30])):
            makes: list[Make] = [self.any_edit] if self.automated_by else []
            others: dict[str, Make] = {
                "connectParam": self.connect_param,
                "disconnectParam": self.disconnect_param,
            }
            makes += [make for op, make in others.items() if op in self.read_ops and self.may(0.3)]
            if makes:
                calls.insert(
                    len(calls) - self.rng.randint(0, len(calls) // 2), self.rng.choice(makes)()
                )
        return calls
