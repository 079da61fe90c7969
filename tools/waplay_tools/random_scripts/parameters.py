"""Calls on parameters: edits of their timelines, and connections to them."""

from typing import Any

from waplay_tools.expecting.reading import OPERATIONS as FIELDS
from waplay_tools.random_scripts.kinds import KINDS, TIME, Call, Calls
from waplay_tools.random_scripts.nodes import Nodes


class Parameters(Nodes):
    """Calls on parameters: edits of their timelines, and connections to them."""

    def edit(self, op: str, name: str | None = None, time: int | None = None) -> Call:
        """A call of this operation on a parameter, that of this node and at this time where they
        are told."""
        node, parameter = self.parameter(name)
        needed: list[tuple[str, Any]] = [("node", node), ("param", parameter)]
        value = self.delayed_by if self.names.get(node) is KINDS["createDelay"] else self.value
        fields = [field for field, *_ in FIELDS[op][2:]]
        at = time or 0
        if "time" in fields:
            at = self.instant(node) if time is None else time
            self.instants.setdefault(node, [0]).append(at)
        for field in fields:
            if field == "time":
                needed.append((field, at))
            elif field == "values":
                needed.append((field, self.points(value)))
            elif field == "duration":
                needed.append((field, self.span(node, at)))
                self.instants[node].append(at + needed[-1][1])
            elif op == "setAutomationRate":
                needed.append((field, self.rng.choice(["a-rate", "k-rate", "k-rate"])))
            else:
                needed.append((field, value()))
        return self.call(op, needed)

    def any_edit(self, name: str | None = None) -> Call:
        """A call of any operation on parameters, on that of this node where it is told."""
        return self.edit(self.rng.choice(self.automated_by), name)

    def timeline(self, name: str) -> Calls:
        """Edits of a parameter that are mostly in order of time, so that few are refused, and some
        that are not. Many have the time of the one before them or where its curve ends, or are a
        frame apart."""
        edits = [self.edit("setAutomationRate", name)] if self.may(0.25) else []
        if self.may(0.15):  # a value that is current and is cancelled
            edits += [
                self.edit("setValue", name),
                self.edit("cancelScheduledValues", name, self.now + self.rng.choice([0, 0, 1])),
            ]
        time = self.now + self.rng.choice(
            [0, 0, 0, 1, 120, self.rng.randint(0, self.length - self.now)]
        )
        if self.may(0.15):  # an event, and a ramp before it
            after = time + self.rng.randint(1, 200)
            edits.append(
                self.edit(self.rng.choice(["setValueAtTime", "setValueCurveAtTime"]), name, after)
            )
            edits.append(self.edit("linearRampToValueAtTime", name, time))
        events = [
            "setValueAtTime",
            "linearRampToValueAtTime",
            "linearRampToValueAtTime",
            "setValueCurveAtTime",
        ]
        for _ in range(self.rng.choice([1, 2, 4, 4, 8, 20])):
            if self.may(0.2):
                edits.append(self.any_edit(name))
            edits.append(self.edit(self.rng.choice(events), name, min(TIME, time)))
            time += max(0, edits[-1].get("duration", 0))
            to_quantum = -time % self.quantum + self.rng.randint(-1, 1)
            time += self.rng.choice(
                [0, 0, 1, 1, 2, self.rng.randint(1, 40), self.rng.randint(1, 40), to_quantum]
            )
            time = max(0, time)
        if self.may(0.4):
            ends = ["cancelScheduledValues", "cancelAndHoldAtTime", "cancelAndHoldAtTime"]
            edits.append(self.edit(self.rng.choice(ends), name))
            edits += [self.any_edit(name) for _ in range(self.rng.choice([0, 1, 3]))]
        return edits

    def connect_param(self, source: str | None = None, name: str | None = None) -> Call:
        """A connection to a parameter, from this source and to that of this node where they are
        told."""
        source = source or (
            "destination" if self.may(0.03) else self.name(lambda kind: kind.outputs)
        )
        node, parameter = self.parameter(name)
        call = self.call(
            "connectParam",
            [("from", source), ("to", node), ("param", parameter)],
            output=self.index(source, "outputs", 0.97 if name else 0.9),
        )
        self.controls.append(call)
        return call

    def disconnect_param(self) -> Call:
        """A call that takes connections to a parameter away, mostly such as were made."""
        there = self.controls and self.may(0.7)
        made = self.rng.choice(self.controls) if there else self.connect_param()
        call: Call = {**made, "op": "disconnectParam"}
        if self.may(0.3):
            call["output"] = self.rng.choice([None, 0, 1])
        return call
