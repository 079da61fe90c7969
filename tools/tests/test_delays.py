"""Tests of how tools/expected.py works out delays and cycles, and of the load that has delays.

The rules are tried one by one, on sessions whose samples are told by hand, and together on random
sessions, against a calculation by recursion from one frame to another (meaning.py)."""

import collections
import functools
import itertools
import json
import os
import random
import shutil
import tempfile
import types
import unittest
import unittest.mock

import fixtures
from waplay_tools import load_script
import meaning
from waplay_tools.random_scripts import maker
from waplay_tools.random_scripts.answers import REFUSALS, answers_of
from waplay_tools.random_scripts.assets import write_assets
from waplay_tools.random_scripts.maker import operations, programs_of, script_of
from waplay_tools.expecting import automation, delay, graph, numbers, reading, refusals, sessions
from waplay_tools.expecting.graph import End
from waplay_tools.expecting.numbers import QUANTA

RATE = 16384  # 1,024 is the time of one frame, and 131,072 that of a quantum by default
COUNT = int(os.environ.get("DELAY_SESSIONS", "30"))  # random sessions
READ = [op for op in operations() if op != "createProcessor"]  # which has a shape of its own


def call(op, **fields):
    return {"op": op, **fields}


def create(op, name, **fields):
    return {"op": op, "as": name, **fields}


def connect(source, target, **fields):
    return call("connect", **{"from": source}, to=target, **fields)


def disconnect(source, **fields):
    return call("disconnect", **{"from": source}, **fields)


def connect_param(source, target, param, op="connectParam"):
    return call(op, **{"from": source}, to=target, param=param)


def edit(node, op, param="delayTime", **fields):
    """A call that edits or reads a parameter."""
    return call(op, node=node, param=param, **fields)


def suspend(time, *calls):
    return call("suspend", time=time, then=[*calls, call("resume")])


def ramp(node, param, value, time):
    """Calls that let a parameter grow from 0 to a value at a time."""
    return [
        edit(node, "setValueAtTime", param, value=0, time=0),
        edit(node, "linearRampToValueAtTime", param, value=value, time=time),
    ]


def delayed(**fields):
    """Calls that make a delay d, which hears c and is heard."""
    creation = create("createDelay", "d", **fields)
    return [creation, connect("c", "d"), connect("d", "destination")]


def constant(name, **fields):
    return [create("createConstantSource", name, **fields), call("start", node=name)]


def gain(name, **fields):
    return create("createGain", name, **fields)


# A constant c whose sample at each frame is the frame's number.
NUMBERS = [
    create("createConstantSource", "c"),
    *ramp("c", "offset", 8192, 4096),
    call("start", node="c"),
]


def mono(*samples):
    return [[sample] for sample in samples]


def session_of(calls, channels=1, length=384, **context):
    """The session of calls, and of startRendering behind them."""
    script = fixtures.script([*calls, call("startRendering")], channels, length, RATE, **context)
    return sessions.replayed(script)[2]


def samples_of(calls, **context):
    return session_of(calls, **context).samples


def answer_of(calls):
    """The answer to the last of the calls."""
    session = session_of(calls, length=1)
    last = "%d " % (session.calls_run - 1)
    return next(line.removeprefix(last) for line in session.lines if line.startswith(last))


def delays_and_others(*kinds):
    """Nodes of these kinds behind a destination."""
    return [types.SimpleNamespace(kind=kind) for kind in ("destination", *kinds)]


class Creations(unittest.TestCase):
    def test_refusals_come_in_their_order(self):
        fill = [create("createDelay", "d", maxDelayTime=2**28)] * 16
        nodes = [gain("g")] * 1007
        for before, longest, wanted in [
            ([], 0, "throw NotSupportedError"),
            ([], -(2**31), "throw NotSupportedError"),
            ([], 2**28 + 1, "throw NotSupportedError profile:long-delay"),
            ([], 2**28, "ok"),
            ([], 1, "ok"),
            (fill, 1, "throw NotSupportedError profile:delay-limit"),
            (fill, 0, "throw NotSupportedError"),
            (fill, 2**28 + 1, "throw NotSupportedError profile:long-delay"),
            (fill + nodes, 1, "throw NotSupportedError profile:node-limit"),
            (fill + nodes, 0, "throw NotSupportedError"),
        ]:
            creation = create("createDelay", "e", maxDelayTime=longest)
            self.assertEqual(answer_of([*before, creation]), wanted, (len(before), longest))
        for time in -1, 2**31 - 1:
            self.assertEqual(answer_of([create("createDelay", "e", delayTime=time)]), "ok")

    def test_the_capacity_is_the_longest_time_and_a_quantum_at_least(self):
        for longest, rate, frames in [
            (2**24, 48000, 48000),
            (1, 96000, 0),
            (2**28, 96000, 1536000),
            (2**28, 8000, 128000),
            (130 * 1024, 16384, 130),
            (130 * 1024 + 511, 16384, 130),
            (130 * 1024 + 512, 16384, 131),
            (128 * 1024 + 512, 16384, 129),
            (127 * 1024, 16384, 127),
            (31 * 1024 + 512, 16384, 32),
            (1025 * 1024, 16384, 1025),
        ]:
            for quantum in QUANTA:
                it = delay.Delay({"as": "d", "maxDelayTime": longest}, rate, 0, quantum)
                self.assertEqual(it.capacity, max(frames, quantum))

    def test_what_a_refused_delay_would_have_is_free(self):
        # 128 frames are left, and the last one would have 129.
        longest = [2**28] * 15 + [268304384, 132096]
        creations = [create("createDelay", "d", maxDelayTime=it) for it in longest]
        self.assertEqual(answer_of(creations), "throw NotSupportedError profile:delay-limit")
        smaller = create("createDelay", "e", maxDelayTime=131072)
        self.assertEqual(answer_of([*creations, smaller]), "ok")

    def test_the_quantum_counts_for_what_is_left(self):
        # 16 delays of 262,144 frames have all that there may be, and so have 15 of them and short
        # ones, which have a quantum each.
        longest = [2**28] * 15 + [1] * 257
        creations = [create("createDelay", "d", maxDelayTime=it) for it in longest]
        lines = session_of(creations, length=1, renderQuantum=1024).lines
        self.assertEqual(lines[270], "271 ok")
        self.assertEqual(lines[271], "272 throw NotSupportedError profile:delay-limit")

    def test_faults_of_reading_are_those_of_the_fields(self):
        for fields, wanted in [
            ({}, "1 as MissingField"),
            ({"as": "d", "maxDelayTime": 1.0}, "1 maxDelayTime WrongKind"),
            ({"as": "d", "maxDelayTime": 2**31, "delayTime": None}, "1 maxDelayTime OutOfRange"),
            ({"as": "d", "delayTime": -(2**31) - 1}, "1 delayTime OutOfRange"),
            ({"as": "d"}, None),
        ]:
            data = fixtures.script([{"op": "createDelay", **fields}])
            try:
                reading.script_of(data)
                found = None
            except reading.Fault as fault:
                found = str(fault)
            self.assertEqual(found, wanted)


class Graphs(unittest.TestCase):
    def test_parameters_count_for_cycles(self):
        nodes = delays_and_others("delay", "gain")
        for edges, in_cycle in [
            ({(1, 0, 0, 0)}, set()),
            ({(1, 0, 1, 0)}, {1}),
            ({(1, 0, 1, "delayTime")}, {1}),
            ({(1, 0, 2, "gain"), (2, 0, 1, 0)}, {1}),
            ({(2, 0, 2, 0), (2, 0, 1, 0)}, set()),
        ]:
            self.assertEqual(graph.Graph(nodes, edges).in_cycle, in_cycle, edges)

    def test_ends_that_reach_themselves_are_muted(self):
        nodes = delays_and_others("delay", "gain", "delay")
        reader, other, gain = End(1, False), End(3, False), End(2, False)
        for edges, muted in [
            ({(1, 0, 1, 0)}, set()),
            ({(1, 0, 1, "delayTime")}, {reader}),
            ({(1, 0, 2, 0), (2, 0, 1, 0)}, set()),
            ({(1, 0, 2, 0), (2, 0, 1, "delayTime")}, {reader, gain}),
            ({(2, 0, 2, "gain"), (2, 0, 1, 0)}, {gain}),
            ({(1, 0, 3, "delayTime"), (3, 0, 1, "delayTime")}, {reader, other}),
            ({(1, 0, 3, "delayTime"), (3, 0, 1, 0)}, set()),
        ]:
            self.assertEqual(graph.Graph(nodes, edges).muted, muted, edges)

    def test_random_graphs_are_those_of_all_paths(self):
        rng = random.Random("graphs")
        cycles = muted = 0
        for _ in range(4 * COUNT):
            kinds = [rng.choice(["delay", "gain"]) for _ in range(rng.randint(1, 7))]
            nodes = delays_and_others(*kinds)
            parameters = {"delay": "delayTime", "gain": "gain"}
            edges = set()
            for _ in range(rng.randint(0, 10)):
                source, target = rng.randint(1, len(kinds)), rng.randint(0, len(kinds))
                edges.add(
                    (
                        source,
                        0,
                        target,
                        parameters[kinds[target - 1]] if target and rng.random() < 0.3 else 0,
                    )
                )
            found = graph.Graph(nodes, edges)
            world = meaning.World(nodes, edges)
            self.assertEqual((found.in_cycle, found.muted), (world.in_cycle, world.muted), edges)
            self.assertFalse([end for end in found.muted if end.is_writer])
            self.assertEqual(sorted([*found.order, *found.muted]), sorted(found.arrows))
            places = {end: place for place, end in enumerate(found.order)}
            for end, following in found.arrows.items():
                for it in following - found.muted:
                    self.assertTrue(end in found.muted or places[end] < places[it], edges)
            cycles += len(found.in_cycle)
            muted += len(found.muted)
        self.assertGreater(min(cycles, muted), COUNT)


class Times(unittest.TestCase):
    def heard(self, delay_of_n, *more):
        """Compares what a delay gives, whose time is set by more calls, with its delay in frames at
        each frame."""
        found = samples_of([*NUMBERS, *delayed(), *more])
        wanted = [max(0, n - delay_of_n(n)) for n in range(384)]
        self.assertEqual(found, mono(*wanted))

    def test_halves_of_a_frame_go_up(self):
        for time, frames in (
            (0, 0),
            (511, 0),
            (512, 1),
            (1535, 1),
            (1536, 2),
            (-1, 0),
            (131072, 128),
            (131071, 128),
            (130559, 127),
        ):
            self.heard(lambda _: frames, edit("d", "setValue", value=time))

    def test_the_computed_value_is_within_its_range_and_the_slot_is_not(self):
        for time, frames in (-5000, 0), (2049, 2), (2**31 - 1, 2), (1024, 1):
            calls = [*NUMBERS, *delayed(delayTime=time, maxDelayTime=2048), edit("d", "readValue")]
            session = session_of(calls, length=20)
            self.assertIn("8 value %d" % time, session.lines)
            self.assertEqual(session.samples, mono(*(max(0, n - frames) for n in range(20))))

    def test_rates(self):
        growing = ramp("d", "delayTime", 393216, 384)
        self.heard(lambda n: n, *growing)
        self.heard(lambda n: n - n % 128, *growing, edit("d", "setAutomationRate", value="k-rate"))

    def test_a_value_at_k_rate_is_that_of_the_first_frame_of_a_quantum(self):
        for quantum in QUANTA:
            at_k_rate = edit("c", "setAutomationRate", "offset", value="k-rate")
            direct = [*NUMBERS, at_k_rate, connect("c", "destination")]
            found = samples_of(direct, length=2100, renderQuantum=quantum)
            self.assertEqual(found, mono(*(n - n % quantum for n in range(2100))))

    def test_nodes_that_are_connected(self):
        heard = connect_param("k", "d", "delayTime")
        growing = [*constant("k"), *ramp("k", "offset", 393216, 384), heard]
        self.heard(lambda n: n, *growing)
        self.heard(lambda n: n - n % 128, *growing, edit("d", "setAutomationRate", value="k-rate"))
        self.heard(lambda n: max(0, n - 5), *growing, edit("d", "setValue", value=-5120))

    def test_every_operation_on_a_parameter_is_there(self):
        operations = [*automation.EDITS, *automation.LEFT_OUT_EDITS, "readValue"]
        fields = {"value": 0, "values": [0, 0], "time": 0, "duration": 5}
        for op in operations:
            given = {name: fields[name] for name, *_ in reading.OPERATIONS[op][2:]}
            given.update({"value": "k-rate"} if op == "setAutomationRate" else {})
            wanted = automation.LEFT_OUT_EDITS.get(op)
            wanted = (
                "throw NotSupportedError profile:" + wanted
                if wanted
                else "value 7"
                if op == "readValue"
                else "ok"
            )
            made = [*NUMBERS, *delayed(delayTime=7)]
            self.assertEqual(answer_of([*made, edit("d", op, **given)]), wanted)
        other = edit("d", "setValue", "gain", value=0)
        self.assertEqual(answer_of([*NUMBERS, *delayed(), other]), "throw TypeError")
        self.assertEqual(answer_of([gain("g"), edit("g", "setValue", value=0)]), "throw TypeError")

    def test_values_of_many_frames_are_those_of_each(self):
        rng = random.Random("timelines")
        for _ in range(3 * COUNT):
            timeline = automation.Timeline(rng.randint(-99, 99))
            for _ in range(rng.randint(0, 9)):
                call = {
                    "value": rng.randint(-9999, 9999),
                    "time": rng.randint(0, 300),
                    "duration": rng.randint(1, 90),
                    "values": [rng.randint(-999, 999) for _ in range(rng.randint(2, 5))],
                }
                edits = [edit for op, edit in automation.EDITS.items() if op != "setAutomationRate"]
                try:
                    rng.choice(edits)(timeline, call, rng.randint(0, 60))
                except refusals.Refused:
                    pass
            first = rng.randint(0, 300)
            self.assertEqual(
                timeline.values(first, 128),
                [self.value(timeline, frame) for frame in range(first, first + 128)],
            )

    def value(self, timeline, frame):
        """The value of a timeline at a frame, by its rule."""
        until = [event for event in timeline.events if event.time <= frame]
        after = timeline.events[len(until) :]
        if not until:
            return timeline.base
        last, start = until[-1], until[-1].time
        if isinstance(last, automation.Curve):
            start = last.end
            value = automation.curve_value(last, min(frame, last.end))
            if frame < last.end:
                return value
        else:
            value = last.value
        if after and isinstance(after[0], automation.Ramp):
            rise, whole = after[0].value - value, after[0].time - start
            return value + numbers.rounded_quotient(rise * (frame - start), whole)
        return value


class Channels(unittest.TestCase):
    def test_blocks_are_mixed_as_frames_are(self):
        rng = random.Random("blocks")
        for several, count, word in itertools.product(
            [*range(1, 9), 31, 32], [*range(1, 9), 31, 32], ["speakers", "discrete"]
        ):
            blocks = [
                [rng.randint(-(2**31), 2**31 - 1) for _ in range(128)] for _ in range(several)
            ]
            found = list(zip(*numbers.mixed_blocks(blocks, count, word)))
            self.assertEqual(
                [list(frame) for frame in found],
                [numbers.mixed(list(it), count, word) for it in zip(*blocks)],
            )

    def test_what_a_writer_had_its_reader_keeps(self):
        for quantum in QUANTA:
            it = delay.Delay({"as": "d"}, RATE, 2 * quantum, quantum)
            times, block = [0] * quantum, [0] * quantum
            self.assertEqual(len(it.read(2 * quantum, times, True)), 1)
            for number, written, in_cycle, in_none in [
                (2, 1, 1, 1),
                (3, 4, 1, 4),
                (4, 2, 4, 4),
                (5, 6, 4, 6),
                (6, 1, 6, 6),
            ]:
                first = number * quantum
                it.write(first, [block] * written)
                self.assertEqual(len(it.read(first, times, True)), in_cycle)
                self.assertEqual(len(it.read(first, times, False)), in_none)

    def test_what_may_be_asked_for_is_kept_and_no_more(self):
        for quantum, capacity, kept in [
            (128, 128, 3),
            (128, 129, 4),
            (128, 200, 4),
            (128, 256, 4),
            (128, 257, 5),
            (128, 1000, 10),
            (32, 32, 3),
            (32, 1000, 34),
            (1024, 1024, 3),
            (1024, 1025, 4),
        ]:
            it = delay.Delay({"as": "d", "maxDelayTime": 1024 * capacity}, RATE, 0, quantum)
            for first in range(0, quantum * 40, quantum):
                frames = range(first, first + quantum)
                it.write(first, [list(frames)])
                for late in 0, 1, quantum - 1, quantum, capacity - 1, capacity:
                    found = it.read(first, [1024 * late] * quantum, False)[0]
                    self.assertEqual(found, [max(0, n - late) for n in frames])
            self.assertLessEqual(len(it.written), kept)

    def test_what_is_mixed_up_goes_by_the_interpretation_when_it_is_read(self):
        it = delay.Delay({"as": "d"}, RATE, 0, 128)
        it.write(0, [[7] * 128])
        it.write(128, [[1] * 128, [2] * 128])
        for word, wanted in ("speakers", [7, 7]), ("discrete", [7, 0]):
            it.interpretation = word
            self.assertEqual([block[0] for block in it.read(128, [131072] * 128, False)], wanted)
            self.assertEqual([block[0] for block in it.read(128, [0] * 128, False)], [1, 2])

    def test_before_its_birth_a_delay_is_silent(self):
        for quantum in QUANTA:
            it = delay.Delay({"as": "d"}, RATE, quantum, quantum)
            it.write(quantum, [[5] * quantum])
            times = [1024 * 3] * quantum
            self.assertEqual(it.read(quantum, times, False), [[0, 0, 0] + [5] * (quantum - 3)])
            self.assertEqual(it.read(quantum, times, True), [[0] * quantum])
            self.assertEqual(it.read(2 * quantum, times, True), [[5] * quantum])


class Cycles(unittest.TestCase):
    def test_a_delay_in_a_cycle_lasts_a_quantum_at_least(self):
        cycle = [gain("g", gain=0), connect("d", "g"), connect("g", "d")]
        for quantum in QUANTA:
            shape = {"length": 2 * quantum + 128, "renderQuantum": quantum}
            for frames in 0, 1, quantum - 1, quantum, quantum + 1, quantum + 72:
                calls = [*NUMBERS, *delayed(delayTime=1024 * frames), *cycle]
                late = mono(*(max(0, n - max(quantum, frames)) for n in range(shape["length"])))
                self.assertEqual(samples_of(calls, **shape), late)
                found = samples_of([*calls, disconnect("g")], **shape)
                wanted = mono(*(max(0, n - frames) for n in range(shape["length"])))
                self.assertEqual(found, wanted)

    def test_a_cycle_by_a_parameter_is_one(self):
        by_gain = connect_param("d", "g", "gain")
        for more, is_one in [
            ([connect_param("d", "c", "offset")], True),
            ([by_gain], False),
            ([by_gain, connect("g", "d")], True),
        ]:
            found = samples_of([*NUMBERS, *delayed(), gain("g", gain=0), *more], length=128)
            self.assertEqual(found, mono(0) * 128 if is_one else mono(*range(128)), more)

    def test_a_cycle_lasts_for_the_quanta_in_which_it_is_there(self):
        places = itertools.combinations(range(1, 4), 2)
        for quantum, (first, last) in itertools.product((32, 128, 256), places):
            calls = [
                *NUMBERS,
                *delayed(),
                gain("g", gain=0),
                suspend(quantum * first, connect("d", "g"), connect("g", "d")),
                suspend(quantum * last, disconnect("d", to="g")),
            ]
            late = range(quantum * first, quantum * last)
            wanted = mono(*(n - quantum if n in late else n for n in range(4 * quantum)))
            found = samples_of(calls, length=4 * quantum, renderQuantum=quantum)
            self.assertEqual(found, wanted)

    def test_a_muted_delay_is_silent_and_writes(self):
        calls = [
            *NUMBERS,
            *delayed(delayTime=131072),
            connect_param("d", "d", "delayTime"),
            suspend(256, connect_param("d", "d", "delayTime", "disconnectParam")),
        ]
        self.assertEqual(samples_of(calls), mono(*[0] * 256, *range(128, 256)))

    def test_a_muted_delay_has_one_channel(self):
        calls = [
            *constant("l", offset=2),
            *constant("r", offset=4),
            create("createChannelMerger", "m", numberOfInputs=2),
            connect("l", "m", input=0),
            connect("r", "m", input=1),
            create("createDelay", "d"),
            connect("m", "d"),
            *constant("c", offset=8),
            gain("h"),
            connect("c", "h"),
            connect("h", "destination"),
            connect("d", "h"),
        ]
        self.assertEqual(samples_of(calls, channels=6, length=1), [[5, 6, 0, 0, 0, 0]])
        muted = connect_param("d", "d", "delayTime")
        self.assertEqual(samples_of([*calls, muted], channels=6, length=1), [[0, 0, 4, 0, 0, 0]])

    def test_nodes_behind_a_cycle_are_not_muted(self):
        cycle = [gain("g"), connect("g", "g"), connect("g", "d"), connect("c", "g")]
        calls = [*NUMBERS, *delayed(), *cycle]
        self.assertEqual(samples_of(calls), mono(*range(384)))


class Meaning(unittest.TestCase):
    def scripts(self, count=COUNT, quantum=None):
        """Random scripts with delays whose assets stand in a folder of their own."""
        shapes = [(1, "delayed"), (1, "crossed")]
        for number in range(count):
            with unittest.mock.patch.multiple(maker, SHAPES=[], DELAY_SHAPES=shapes):
                script, assets = script_of(99, number, READ, quantum)
            if len(script["calls"]) <= 70:
                folder = tempfile.mkdtemp()
                self.addCleanup(shutil.rmtree, folder)
                write_assets(folder, assets)
                yield number, json.dumps(script).encode(), folder

    def compare(self, session, values, number):
        """Holds a session against these values of the recursion, and gives them in one list."""
        samples = [[numbers.sample_of(value) for value in frame] for frame in values]
        self.assertEqual(session.samples, samples, number)
        flat = list(itertools.chain(*values))
        self.assertEqual((session.peak, session.sum), (max(map(abs, flat)), sum(flat)), number)
        return flat

    def test_random_sessions_of_each_quantum_are_those_of_the_recursion(self):
        for quantum in QUANTA:
            compared = 0
            for number, data, folder in self.scripts(1 + COUNT // 5, quantum):
                session, _, values = meaning.values_of(data, folder)
                if values is not None:
                    self.assertEqual(session.quantum, quantum)
                    self.compare(session, values, (number, quantum))
                    compared += 1
            self.assertGreater(compared, 0)

    def test_random_sessions_are_those_of_the_recursion(self):
        compared, moving, cycles, muted = 0, 0, 0, 0
        for number, data, folder in self.scripts():
            session, tape, values = meaning.values_of(data, folder)
            if values is None:
                continue
            flat = self.compare(session, values, number)
            compared += 1
            moving += len(set(flat)) > 20
            cycles += any(world.in_cycle for world in tape)
            muted += any(number in world.delays for world in tape for number, _ in world.muted)
        self.assertGreater(compared, COUNT // 2)
        for some in moving, cycles, 4 * muted:
            self.assertGreater(some, COUNT // 5)

    def test_every_legal_order_gives_the_same(self):
        rng = random.Random("orders")

        def legal_order(self):
            """The ends that are not muted, in a random order of those that are legal."""
            order, there = [], set(self.muted)
            while len(there) < len(self.arrows):
                ready = [
                    end
                    for end in self.arrows
                    if end not in there
                    and all(it in there for it in self.arrows if end in self.arrows[it])
                ]
                order.append(rng.choice(ready))
                there.add(order[-1])
            return order

        for number, data, folder in self.scripts(COUNT // 2):
            plain = sessions.replayed(data, folder)
            for _ in range(2):
                with unittest.mock.patch.object(graph.Graph, "legal_order", legal_order):
                    mixed = sessions.replayed(data, folder)
                self.assertEqual(mixed[:2], plain[:2], number)
                self.assertEqual(
                    mixed[2] and mixed[2].samples, plain[2] and plain[2].samples, number
                )


class RandomScripts(unittest.TestCase):
    def quanta(self, quantum=None, make=script_of):
        """How often a context tells each quantum, in scripts of which one may be told. Few have a
        spoiled context."""
        contexts = [make(7, number, quantum=quantum)[0].get("context") for number in range(200)]
        told = [it.get("renderQuantum", 128) for it in contexts if isinstance(it, dict)]
        return collections.Counter(it for it in told if type(it) is int)

    def test_most_have_quanta_of_128_frames_and_some_each_other_size(self):
        for make in functools.partial(script_of, read=READ), programs_of:
            found = self.quanta(make=make)
            self.assertTrue(100 < found[128] < 180, found)
            for quantum in QUANTA:
                self.assertGreater(found[quantum], 2, found)
            others = sum(count for quantum, count in found.items() if quantum not in QUANTA)
            self.assertTrue(0 < others < 12, found)

    def test_all_have_the_quantum_that_is_told(self):
        read = [op for op in READ if op != "suspend"]
        for make in functools.partial(script_of, read=read), programs_of:
            for quantum in 32, 128, 1024:
                self.assertGreater(self.quanta(quantum, make)[quantum], 195)

    def test_delays_come_in_many_scripts(self):
        texts = [json.dumps(script_of(3, number, operations())[0]) for number in range(80)]
        found = sum('"createDelay"' in text for text in texts)
        self.assertTrue(found > 30, found)

    def test_every_answer_of_a_creation_comes_up(self):
        answers = set()
        for number, shape in enumerate(["lines"] * 4 + ["crowd"] * 2):
            with unittest.mock.patch.multiple(maker, SHAPES=[], DELAY_SHAPES=[(1, shape)]):
                script, _ = script_of(5, number, READ)
            _, text, _ = sessions.replayed(json.dumps(script).encode())
            answers.update(answers_of(script, text))
        wanted = {"createDelay throw " + refusal for refusal in REFUSALS["createDelay"]}
        self.assertEqual(wanted - answers, set())


class Loads(unittest.TestCase):
    def test_the_numbers_of_a_load(self):
        for number in 0, 1, 9999:
            script = load_script.script(number)
            _, following = reading.numbered(script["calls"], 1)
            creations = [call["op"] for call in script["calls"] if call["op"].startswith("create")]
            self.assertEqual(
                (following - 1, len(creations) + 1, creations.count("createDelay")), (1768, 451, 25)
            )
            self.assertEqual(script["context"], {"channels": 2, "length": 480000, "rate": 48000})
            reading.script_of(json.dumps(script).encode())

    def test_the_first_draws_of_0(self):
        draws = load_script.Draws(0)
        self.assertEqual(
            [draws.draw(most) for most in (2048, 32768, 4096, 240)], [0, 21468, 1796, 37]
        )
        draws = load_script.Draws(0)
        self.assertEqual([draws.draw(2**15) for _ in range(4)], [0, 21468, 9988, 22117])
        source, _, _, ramp = load_script.script(0)["calls"][:4]
        self.assertEqual((source["offset"], ramp["value"], ramp["time"]), (-65536, 5495808, 114945))

    def test_what_is_no_number_of_a_load(self):
        for word in "-1", "10000", "x", "1.0":
            self.assertEqual(fixtures.run("load-script", word).returncode, 2)

    def test_the_summary_is_that_of_each_voice_by_itself(self):
        length = 3000
        script = {
            **load_script.script(7),
            "context": {"channels": 2, "length": length, "rate": 48000},
        }
        script["calls"] = [call for call in script["calls"] if call["op"] != "suspend"]
        total = [0] * length
        for voice in range(load_script.VOICES):
            calls = [
                call
                for call in script["calls"]
                if str(voice) in [it[1:] for it in call.values() if isinstance(it, str)]
            ]
            total = [a + b for a, b in zip(total, self.voice(calls, length))]
        with tempfile.TemporaryDirectory() as folder:
            path = fixtures.write(folder, "load.json", json.dumps(script))
            found = fixtures.run("expected.py", path, "--summary").stdout.decode()
        self.assertEqual(
            found,
            "summary calls 1726 quanta 24 ended 0 refused 0 peak %d sum %d\nend completed\n"
            % (max(map(abs, total)), 2 * sum(total)),
        )

    def voice(self, calls, length):
        """The values that a voice brings to the destination."""
        fields = {call["op"]: call for call in calls}
        offset, ramp = fields["createConstantSource"]["offset"], fields["linearRampToValueAtTime"]
        levels = [
            numbers.rounded_quotient(ramp["value"] * min(n, ramp["time"]), ramp["time"])
            for n in range(length)
        ]
        heard = [
            numbers.rounded_quotient(offset * level, 2**24) if n >= fields["start"]["when"] else 0
            for n, level in enumerate(levels)
        ]
        if "createDelay" not in fields:
            return heard
        late, given = (
            max(128, numbers.rounded_quotient(fields["createDelay"]["delayTime"] * 48000, 2**24)),
            [],
        )
        for n in range(length):
            given.append(
                heard[n - late] + numbers.rounded_quotient(given[n - late] * 2**23, 2**24)
                if n >= late
                else 0
            )
        return given


if __name__ == "__main__":
    unittest.main()
