"""Shapes of scripts: at the limits of a session, and with faults."""

from waplay_tools.expecting.reading import OPERATIONS as FIELDS
from waplay_tools.random_scripts.chances import SPOILED
from waplay_tools.random_scripts.kinds import KINDS, ONE, Calls, Make, Script, Sound
from waplay_tools.random_scripts.rooms import Rooms


class Limits(Rooms):
    """Shapes of scripts: at the limits of a session, and with faults."""

    def lines(self) -> Calls:
        """Delays of as many frames as there may be in all or nearly so, then more of them, and any
        calls."""
        capacities, calls = 0, []
        while capacities < 2**22:
            frames = min(
                self.rng.randint(1, 16 * self.rate),
                2**22 - capacities + self.rng.choice([0, 0, 0, 1]),
            )
            calls.append(
                {**self.create_delay(), "maxDelayTime": min(16 * ONE, self.seconds(frames) + 1)}
            )
            capacities += max(frames, self.quantum)
        calls += [self.create_delay() for _ in range(10)] + self.kept_quiet(
            [self.create_constant()]
        )
        self.length = min(self.length, 300)
        return (
            calls
            + [self.connect() for _ in range(60)]
            + [self.any_call() for _ in range(20)]
            + [self.start_rendering()]
        )

    def store(self) -> Calls:
        """As many samples in buffers as there may be or nearly so, then more buffers, of assets
        too."""
        calls = [
            {
                "op": "createBuffer",
                "as": "most",
                "channels": 32,
                "length": 2**22 - self.rng.choice([0, 0, 1, 2]),
                "rate": self.rate,
            }
        ]
        self.names["most"] = Sound(0, 0, False, 32, 1000)
        calls += [
            {
                "op": "createBuffer",
                "as": "rest",
                "channels": 32,
                "length": self.rng.randint(1, 2),
                "rate": self.rate,
            }
            for _ in range(self.rng.randint(0, 3))
        ]
        makes: list[Make] = [self.create_buffer, *([self.decode] if self.has_assets else [])]
        calls += [self.rng.choice(makes)() for _ in range(30)]
        return calls + self.played()

    def cables(self) -> Calls:
        """A splitter of 32 outputs into eight mergers of 32 inputs, as many connections as there
        may be or nearly so, and then any calls."""
        calls = [self.create_source() for _ in range(3)]
        calls += [{"op": "start", "node": call["as"]} for call in calls]
        splitter, *mergers = ["splitter", *(f"merger{i}" for i in range(8))]
        self.names[splitter] = KINDS["createChannelSplitter"]._replace(outputs=32)
        self.names.update(dict.fromkeys(mergers, KINDS["createChannelMerger"]._replace(inputs=32)))
        calls.append({"op": "createChannelSplitter", "as": splitter, "numberOfOutputs": 32})
        calls += [
            {"op": "createChannelMerger", "as": name, "numberOfInputs": 32} for name in mergers
        ]
        calls += [self.joined(calls[0]["as"], splitter)] * self.rng.randint(0, 1)
        calls += [
            {"op": "connect", "from": splitter, "output": output, "to": merger, "input": place}
            for output in range(32)
            for merger in mergers
            for place in range(32)
        ]
        self.length = min(self.length, self.quantum + 2)
        calls += [{**self.disconnect(), "from": splitter} for _ in range(self.rng.randint(0, 3))]
        calls.append(self.joined(mergers[0], "destination"))
        calls += [self.connect_param() for _ in range(4) if "connectParam" in self.read_ops]
        return calls + [self.any_call() for _ in range(30)] + [self.start_rendering()]

    def crowd(self) -> Calls:
        """More nodes than there may be, and then any calls."""
        count = 1500 if "createDelay" in self.kinds else 1030  # there may not be so many delays
        calls = [self.create_node() for _ in range(count)]
        calls += [self.connect() for _ in range(300)] + [self.start() for _ in range(100)]
        self.length = min(self.length, self.quantum + 2)
        return calls + [self.any_call() for _ in range(30)] + [self.start_rendering()]

    def tangle(self) -> Calls:
        """More connections than there may be, each source to each gain, and then any calls."""
        sources, gains = (
            [make() for _ in range(98)] for make in (self.create_source, self.create_gain)
        )
        calls = sources + gains
        calls += [{"op": "connect", "from": a["as"], "to": b["as"]} for a in sources for b in gains]
        calls += [{"op": "start", "node": a["as"]} for a in sources]
        self.length = min(self.length, self.quantum + 2)
        return calls + [self.any_call() for _ in range(30)] + [self.start_rendering()]

    def faulty(self) -> Calls:
        """Any calls, in some scripts many that set attributes. One member of the script or more is
        spoiled afterwards."""
        sets = [
            self.set_attribute()
            for _ in range(self.rng.choice([0, 5, 50]) if self.attributes else 0)
        ]
        return sets + self.mixed()

    def spoil(self, script: Script) -> None:
        """Puts something wrong into a script: members that are taken away, changed, or lengthened
        by an item."""
        objects = [script, script["context"]]
        for object in objects:  # which grows
            for value in object.values():
                if isinstance(value, list):
                    objects += [it for it in value if isinstance(it, dict)]
        for _ in range(self.rng.choice([1, 1, 2, 5])):
            object = self.rng.choice(objects if self.may(0.9) else objects[:2])
            fields = FIELDS.get(str(object.get("op")), [])
            name = self.rng.choice([*object, "op", *(field for field, *_ in fields)])
            if self.may(0.2):
                object.pop(name, None)
            elif isinstance(object.get(name), list) and self.may(0.5):
                object[name] = object[name] + [self.rng.choice(SPOILED)]
            else:
                object[name] = self.rng.choice(SPOILED)

    def unrendered(self) -> Calls:
        """A context at the ends of its ranges, within or past them. Rendering is not started."""
        return [call for call in self.mixed() if call["op"] != "startRendering"]
