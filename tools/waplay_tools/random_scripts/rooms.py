"""Shapes of scripts: convolvers and processors, and what is made around them."""

from waplay_tools.random_scripts.echoes import Echoes
from waplay_tools.random_scripts.kinds import FIX, KINDS, ONE, Calls, Make
from waplay_tools.random_scripts.programs import any_code


class Rooms(Echoes):
    """Shapes of scripts: convolvers and processors, and what is made around them."""

    def echoed(self, name: str) -> Calls:
        """A delay that brings a node into a cycle, in which the node can be rendered."""
        calls = self.kept_quiet([self.create_delay(), self.create_gain()], ONE // 2)
        delay, gain = (call["as"] for call in calls)
        calls += [self.joined(name, delay), self.joined(delay, gain), self.joined(gain, name)]
        self.loops.append(calls[-1])
        return calls

    def room_of(self, calls: Calls, name: str) -> Calls:
        """What comes around a node: cycles with a delay and without one, sources of several
        channels, attributes, and what changes for a while."""
        made: Calls = []
        around: list[tuple] = [
            (self.echoed, 0.3),
            (self.looped, 0.15),
            (self.widened, 0.15),
            (self.passing, 0.3),
            (self.split, 0.3),
        ]
        for make, chance in around:
            made += make(name) if self.may(chance) else []
        made += [self.attribute(op, name) for op in self.attributes if self.may(0.2)]
        if self.suspends and self.may(0.6):
            made += self.for_a_while(calls, name)
        return made

    def behind_one_another(self, op: str, create: Make, changes: list[Make]) -> Calls:
        """Sources that are mostly short or move, and nodes of a kind, which are made by this
        operation, behind one another with a few other nodes between. Some such changes come late.
        """
        begun = self.kept_quiet([self.create_source() for _ in range(self.rng.randint(1, 3))])
        sources = [call["as"] for call in begun]
        for _ in range(self.rng.randint(1, 4)):
            others: list[Make] = [self.create_gain, self.create_place]
            make = create if self.may(0.6) else self.rng.choice(others)
            begun += self.kept_quiet([make()])
        places = list(dict.fromkeys(call["as"] for call in begun))
        of_kind = [name for name in places if self.names[name] is KINDS[op]]
        calls = begun + self.in_a_row(places)
        if of_kind:
            swaying = self.swaying()
            calls += swaying + [
                self.joined(swaying[0]["as"], of_kind[0]),
                self.joined(of_kind[-1], "destination"),
            ]
        for name in of_kind:
            calls += self.room_of(calls, name)
        calls += [self.rng.choice(changes)() for _ in range(self.rng.choice([0, 0, 1, 3]))]
        calls += self.begun(sources)
        calls += [self.any_call() for _ in range(self.rng.choice([0, 0, 0, 3]))]
        return calls + [self.start_rendering()]

    def convolved(self) -> Calls:
        """Convolvers behind one another. Their responses are written before, and some are written
        late."""
        calls = [call for _ in range(self.rng.randint(1, 3)) for call in self.create_response()]
        late: list[Make] = [self.copy_to_channel, self.create_convolver, self.set_attribute]
        return calls + self.behind_one_another("createConvolver", self.create_convolver, late)

    def processed(self) -> Calls:
        """Processors behind one another."""
        late: list[Make] = [self.create_processor, self.set_attribute, self.disconnect]
        return self.behind_one_another("createProcessor", self.create_processor, late)

    def side_by_side(self) -> Calls:
        """Sixteen processors that hear the same noise, with silence and the ends of the range in
        it, each on two channels: as it is, and by a gain that brings all of its range into the
        file."""
        ends = [0, 0, 0, 1, -1, ONE, -ONE, *FIX]
        noise = [
            self.rng.choice(ends) if self.may(0.3) else self.rng.randint(-ONE, ONE)
            for _ in range(self.length)
        ]
        shape = {"channels": 1, "length": self.length, "rate": self.rate}
        calls: Calls = [
            {"op": "createBuffer", "as": "noise", **shape},
            {"op": "copyToChannel", "buffer": "noise", "channel": 0, "samples": noise},
            {"op": "createBufferSource", "as": "source", "buffer": "noise"},
            {"op": "createChannelMerger", "as": "all", "numberOfInputs": 32},
            {"op": "connect", "from": "all", "to": "destination"},
            {"op": "start", "node": "source"},
        ]
        for place in range(0, 32, 2):
            name, quiet = f"p{place}", f"quiet{place}"
            calls += [
                {"op": "createProcessor", "as": name, "code": any_code(self.rng)},
                {"op": "createGain", "as": quiet, "gain": ONE // 256},
                {"op": "connect", "from": "source", "to": name},
                {"op": "connect", "from": name, "to": quiet},
                {"op": "connect", "from": name, "to": "all", "input": place},
                {"op": "connect", "from": quiet, "to": "all", "input": place + 1},
            ]
        return calls + [{"op": "startRendering"}]
