"""Calls that make nodes, connect them, set their attributes, start and stop them."""

from collections.abc import Iterable
from typing import Any

from waplay_tools.expecting.reading import LEFT_OUT
from waplay_tools.expecting.reading import OPERATIONS as FIELDS
from waplay_tools.random_scripts.chances import NO_INSTRUCTIONS, OPERATIONS
from waplay_tools.random_scripts.kinds import FIX, KINDS, ONE, Call, Calls, Fits, Sound
from waplay_tools.random_scripts.programs import any_code, good_code
from waplay_tools.random_scripts.values import Values


class Nodes(Values):
    """Calls that make nodes, connect them, set their attributes, start and stop them."""

    def call(self, op: str, needed: Iterable[tuple[str, Any]] = (), **optional: Any) -> Call:
        """A call with its needed fields, and some of those that may be absent."""
        fields = {
            **dict(needed),
            **{key: value for key, value in optional.items() if self.may(0.7)},
        }
        if self.may(0.01):
            fields["note"] = [None, {"op": "start"}]
        return {"op": op, **fields}

    def create(self, op: str, **optional: Any) -> Call:
        """A call that makes a node of a new name, by which later calls can take it."""
        name = self.new_name()
        self.names[name] = KINDS[op]
        return self.call(op, [("as", name)], **optional)

    def create_with(self, op: str, field: str, ports: str) -> Call:
        """A node that is told how many inputs or outputs it has, which are 6 where the call does
        not."""
        call = self.create(op, **{field: self.number()})
        there = call.get(field, 6)
        self.names[call["as"]] = KINDS[op]._replace(**{ports: there if there <= 33 else 0})
        return call

    def create_node(self, fits: Fits = lambda kind: True) -> Call:
        """A call that makes a node of a kind that fits, each as often as KINDS has it."""
        kinds = [kind for kind in self.kinds.values() if fits(kind)]
        kind = self.rng.choices(kinds, [kind.often for kind in kinds])[0]
        return getattr(self, kind.make)()

    def create_source(self) -> Call:
        """A call that makes a node which starts and stops."""
        return self.create_node(lambda kind: kind.plays)

    def create_place(self) -> Call:
        """A call that makes a node with an input."""
        return self.create_node(lambda kind: kind.inputs)

    def create_constant(self) -> Call:
        """A constant source with any offset, or with none told."""
        return self.create("createConstantSource", offset=self.fix())

    def create_gain(self) -> Call:
        """A gain with any value, or with none told."""
        return self.create("createGain", gain=self.fix())

    def create_buffer_source(self) -> Call:
        """A buffer source, mostly with a buffer that is there, a loop near the buffer's ends, and a
        rate that may be refused."""
        sounds = [name for name, kind in self.names.items() if isinstance(kind, Sound)]
        name = (
            self.rng.choice(sounds)
            if sounds and self.may(0.9)
            else None
            if self.may(0.8)
            else self.buffer()
        )
        length = getattr(self.names.get(name or ""), "length", 3)
        call = self.create(
            "createBufferSource",
            buffer=name,
            loop=self.may(0.6),
            loopStart=self.loop_point(length),
            loopEnd=self.loop_point(length),
        )
        if self.may(0.1):  # a loop past the buffer's end
            call["loopStart"] = length + self.rng.randint(0, 2)
            call["loopEnd"] = call["loopStart"] + self.rng.randint(1, 9)
        some = self.rng.randint(0, 19)
        if some < 8:
            call["playbackRate"] = ONE * (
                self.rng.randint(1, 4) if some < 7 else self.rng.randint(1, 127)
            )
        elif some < 10:
            call["playbackRate"] = self.rng.choice(
                [0, -ONE, ONE // 2, ONE + 1, 3 * ONE - 1, *FIX, self.rng.randint(*FIX)]
            )
        return call

    def create_splitter(self) -> Call:
        """A splitter, mostly of a few outputs."""
        return self.create_with("createChannelSplitter", "numberOfOutputs", "outputs")

    def create_merger(self) -> Call:
        """A merger, mostly of a few inputs."""
        return self.create_with("createChannelMerger", "numberOfInputs", "inputs")

    def create_shaper(self) -> Call:
        """A wave shaper with a curve or without one; some are refused for their oversampling."""
        return self.create(
            "createWaveShaper",
            curve=self.bend(),
            oversample=self.rng.choice(["none"] * 8 + ["2x", "4x"]),
        )

    def set_curve(self, name: str | None = None) -> Call:
        """A call that sets the curve of this wave shaper, or mostly of any, or takes it away."""
        return self.call("setCurve", [("node", name or self.shaper()), ("curve", self.bend())])

    def set_oversample(self) -> Call:
        """A call that sets an oversampling, half of them one that is refused."""
        return self.call(
            "setOversample",
            [("node", self.shaper()), ("value", self.rng.choice(["none", "none", "2x", "4x"]))],
        )

    def create_filter(self) -> Call:
        """An IIR filter, now and then with lists that are refused."""
        forward, back = self.coefficients()
        call = self.create("createIIRFilter")
        return {**call, "feedforward": forward, "feedback": back}

    def create_convolver(self) -> Call:
        """A convolver, mostly with a buffer of one channel or without one. Some are refused for
        their buffer, and some would normalize it."""
        sounds = {name: kind for name, kind in self.names.items() if isinstance(kind, Sound)}
        responses = [name for name, kind in sounds.items() if kind.channels == 1]
        call = self.create("createConvolver")
        if responses and self.may(0.85):
            call["buffer"] = self.rng.choice(responses)
        elif self.may(0.6 if sounds else 0.05):
            call["buffer"] = self.buffer()
        elif self.may(0.5):
            call["buffer"] = None
        if self.may(0.98):
            call["disableNormalization"] = self.may(0.97)
        return call

    def create_processor(self) -> Call:
        """A processor, mostly with a program that is accepted. Now and then there is an instruction
        that is none."""
        call = self.create("createProcessor")
        code: list[Any] = [*(good_code if self.may(0.7) else any_code)(self.rng)]
        if self.may(0.005):
            code.insert(self.rng.randint(0, len(code)), self.rng.choice(NO_INSTRUCTIONS))
        return {**call, "code": code}

    def create_delay(self) -> Call:
        """A delay: mostly one of some quanta or a second at most; now and then one that there
        cannot be."""
        some, call = self.rng.randint(0, 39), self.create(
            "createDelay", delayTime=self.delayed_by()
        )
        if some < 20:
            call["maxDelayTime"] = self.seconds(
                self.rng.randint(1, 500) + self.rng.choice([0, 0.5])
            ) + self.rng.choice([0, 1])
        elif some < 28:
            call["maxDelayTime"] = self.rng.choice(
                [1, 1, ONE, 2 * ONE, 16 * ONE, self.rng.randint(1, 16 * ONE)]
            )
        elif some < 30:
            call["maxDelayTime"] = self.rng.choice([0, -1, 16 * ONE + 1, *FIX])
        return call

    def connect(self) -> Call:
        """A connection between any nodes, with an output and an input that are mostly there."""
        source, target = self.name(), self.target()
        return self.call(
            "connect",
            [("from", source), ("to", target)],
            output=self.index(source, "outputs"),
            input=self.index(target, "inputs"),
        )

    def joined(self, source: str, target: str) -> Call:
        """A connection from any output to any input, nearly always such that are there."""
        call: Call = {"op": "connect", "from": source, "to": target}
        for field, name in ("output", source), ("input", target):
            there = getattr(self.names.get(name), field + "s", 1)
            if there != 1 or self.may(0.1):
                call[field] = self.index(name, field + "s", 0.99)
        return call

    def disconnect(self) -> Call:
        """A call of any form that takes connections away; where there are connections to
        parameters, often between such nodes."""
        source, target = self.name(), self.target()
        # Nodes that may have a connection to a parameter between them.
        if self.controls and self.may(0.4):
            control = self.rng.choice(self.controls)
            source, target = control["from"], control["to"]
        call: Call = {"op": "disconnect", "from": source}
        values: Call = {
            "output": self.index(source, "outputs"),
            "to": target,
            "input": self.index(target, "inputs"),
        }
        forms: list[list[str]] = [[], ["output"], ["to"], ["to", "output"]]
        form = self.rng.choice([*forms, ["to", "output", "input"]])
        for field, value in values.items():
            if field in form:
                call[field] = value
            elif self.may(0.1):
                call[field] = None
        return call

    def set_attribute(self) -> Call:
        """A call that sets the count, the mode or the interpretation of a node, mostly of one with
        inputs."""
        some = self.rng.randint(0, 9)
        name = (
            "destination"
            if some == 0
            else self.name(lambda kind: kind.inputs or some < 3 and kind.outputs)
        )
        return self.attribute(self.rng.choice(self.attributes), name)

    def attribute(self, op: str, name: str) -> Call:
        """Mostly a count that has a layout, and often the one that is there where it is fixed."""
        kind = next(kind for field, kind, *_ in FIELDS[op] if field == "value")
        value: str | int
        some = self.rng.randint(0, 9)
        if kind != "count":
            value = self.rng.choice(kind.split())
        elif name == "destination" and some < 4:
            value = self.channels
        elif some < 4:
            there = self.names.get(name, KINDS["createGain"])
            value = there.outputs if there.inputs == 1 else 1  # what a splitter and a merger have
        elif some < 7:
            value = self.rng.choice([1, 2, 4, 6])
        else:
            value = (
                self.rng.randint(1, 32)
                if some < 9
                else self.rng.choice([0, 1, 32, 33, 2**32 - 1])
            )
        return self.call(op, [("node", name), ("value", value)])

    def start(self, name: str | None = None) -> Call:
        """Sources of buffers mostly begin near the start of what they play."""
        offset = self.time() if self.may(0.3) else self.rng.choice([0, 0, 1, 2, self.frames()])
        duration = self.rng.choice([None, None, self.time(), self.frames()])
        return self.call(
            "start",
            [("node", name or self.source())],
            when=self.time(),
            offset=offset,
            duration=duration,
        )

    def stop(self) -> Call:
        """A call that stops a source, which may not be started."""
        return self.call("stop", [("node", self.source())], when=self.time())

    def start_rendering(self) -> Call:
        """A call of startRendering, mostly with a list."""
        return self.call("startRendering", then=self.held())

    def read(self) -> Call:
        """A call that reads the state or the time, or resumes. Now and then it has a list that it
        can't hold."""
        call: Call = {"op": self.rng.choice(["readState", "readTime", "resume"])}
        if self.may(0.05):
            call["then"] = [{"op": "no operation, and no call"}]
        return call

    def left_out(self) -> Call:
        """A call of an operation that the profile leaves out."""
        return {"op": self.rng.choice(list(LEFT_OUT)), "as": self.new_name()}

    def made_by(self, rows: list[tuple]) -> Any:
        """What the method of one of these rows makes, of those whose operations are read."""
        rows = [row for row in rows if self.read_ops.issuperset(row[2:])]
        drawn = self.rng.choices([row[1] for row in rows], [row[0] for row in rows])[0]
        method, *words = drawn.split()
        return getattr(self, method)(*words)

    def any_call(self) -> Call:
        """A call of any operation."""
        return self.made_by(OPERATIONS)

    def held(self) -> Calls:
        """The calls of a list that a call holds."""
        self.depth += 1
        calls = [
            self.any_call() for _ in range(0 if self.depth > 3 else self.rng.choice([0, 1, 4, 8]))
        ]
        self.depth -= 1
        return calls
