"""Tests of how samples are derived and derivations are checked.

Derivations of small sessions, worked out by hand, are cases below tests/cases. Those of random
sessions are held against the samples of the second calculation, and each of their facts against a
third one, by recursion (meaning.py). Then they are changed at one place, and have to be refused at
the line where it is.

The variables name how many random sessions there are, how many samples of each, and how many lines
a text has at most that is changed."""

import json
import os
import random
import shlex
import subprocess
import tempfile
import unittest
import unittest.mock
from typing import Any

import fixtures
import meaning
from waplay_tools.cases.case import read_case
from waplay_tools.expecting import sessions
from waplay_tools.expecting.nodes import AssetFault
from waplay_tools.expecting.numbers import ONE, rounded_quotient, saturated
from waplay_tools.explaining import deriving
from waplay_tools.explaining.checking import Wrong, checked, verdict
from waplay_tools.explaining.deriving import TooLong, derivation, sample_key
from waplay_tools.explaining.equations import Equations
from waplay_tools.explaining.facts import Count, Fact, Hist, In, Key, Numbers, Par, fact_of
from waplay_tools.explaining.tape import NoTape, Tape, tape_of
from waplay_tools.explanations import changed
from waplay_tools.places import CASES
from waplay_tools.random_scripts.assets import write_assets
from waplay_tools.random_scripts.maker import operations, script_of

COUNT = int(os.environ.get("EXPLAINED_SESSIONS", "40"))
SAMPLES = int(os.environ.get("EXPLAINED_SAMPLES", "5"))
LINES = int(os.environ.get("CHANGED_LINES", "300"))
CHANGES = 20  # of each text

RATE = 16384  # 1,024 is the time of one frame
START = {"op": "startRendering"}


def call(op: str, **fields: Any) -> dict[str, Any]:
    return {"op": op, **fields}


def create(op: str, name: str, **fields: Any) -> dict[str, Any]:
    return {"op": "create" + op, "as": name, **fields}


def connect(source: str, target: str, **fields: Any) -> dict[str, Any]:
    return {"op": "connect", "from": source, "to": target, **fields}


def constant(name: str, offset: int = ONE) -> list[dict[str, Any]]:
    return [create("ConstantSource", name, offset=offset), call("start", node=name)]


def suspend(*calls: dict[str, Any]) -> dict[str, Any]:
    """A call that lets these be run at frame 32."""
    return call("suspend", time=32, then=[*calls, call("resume")])


def buffer(*channels: list[int]) -> list[dict[str, Any]]:
    """Calls that make a buffer b of these channels."""
    made = create("Buffer", "b", channels=len(channels), length=len(channels[0]), rate=RATE)
    return [made] + [
        call("copyToChannel", buffer="b", channel=number, samples=samples)
        for number, samples in enumerate(channels)
    ]


def through(name: str, made: dict[str, Any], offset: int = ONE) -> list[dict[str, Any]]:
    """Calls that lead a constant through a node to the destination."""
    return [*constant("c", offset), made, connect("c", name), connect(name, "destination")]


def data_of(calls: list[dict[str, Any]], channels: int = 1, quantum: int = 32) -> bytes:
    return fixtures.script(
        [*calls, START], channels, 2 * quantum, RATE, renderQuantum=quantum
    )


def tape_of_calls(calls: list[dict[str, Any]], **context: int) -> Tape:
    return tape_of(data_of(calls, **context), os.curdir)


def lines_of(text: str) -> list[str]:
    """The lines of a text, each without what is in front of it."""
    return [line.strip() + "\n" for line in text.splitlines() if line.strip()]


ONE_CONSTANT = [*constant("c"), connect("c", "destination")]
A_QUANTUM = fixtures.script([*ONE_CONSTANT, START])
CELLS = " 0" * 15


class ByHand(unittest.TestCase):
    """Derivations that were worked out by hand: those of the cases below tests/cases/deriving."""

    def test_each_line_is_needed_and_has_the_one_value(self):
        derived = 0
        for path in sorted((CASES / "deriving").glob("*.json")):
            for _, case in read_case(path).each():
                lines = case.left.get("d.txt", {}).get("lines")
                if case.script is not None and lines and not case.files:
                    with self.subTest(path.stem):
                        tape = tape_of(case.input_bytes(), os.curdir)
                        self.look_at(tape, [line + "\n" for line in lines])
                        derived += 1
        self.assertGreater(derived, 30)

    def look_at(self, tape, lines):
        """Looks at what comes of a derivation without a line, and with another number."""
        self.assertEqual(verdict(tape, "".join(lines).encode()), "valid " + lines[-1])
        for number in range(1, len(lines)):  # each but the last one is needed
            text = "".join(lines[: number - 1] + lines[number:]).encode()
            found = checked(tape, text)
            self.assertIsInstance(found, Wrong)
            self.assertGreaterEqual(found.line, number)
            self.assertEqual(found.why, "lacks a need")
        self.refuse_other_numbers(tape, lines)

    def refuse_other_numbers(self, tape, lines):
        """Changes each number of each value in turn by one. Such a line is refused itself."""
        for number, line in enumerate(lines, 1):
            key, numbers = line.split(" = ")
            for place, value in enumerate(map(int, numbers.split(" "))):
                for other in (value - 1, value + 1):
                    told = numbers.split()
                    told[place] = str(other)
                    text = [*lines[: number - 1], f"{key} = {' '.join(told)}\n", *lines[number:]]
                    found = checked(tape, "".join(text).encode())
                    self.assertEqual(found, Wrong(number, "another value"), text[number - 1])

    def test_connections_are_in_the_order_of_their_sources_and_then_as_they_were_made(self):
        calls = [*constant("c", 1), *constant("e", 4), create("ChannelSplitter", "p")]
        calls += [connect("c", "p"), connect("p", "destination", output=2)]
        calls += [connect("p", "destination", output=1), connect("e", "destination")]
        calls += [connect("p", "destination", output=0), connect("p", "destination", output=1)]
        calls += [{"op": "disconnect", "from": "p", "output": 2}]
        calls += [connect("c", "destination"), connect("p", "destination", output=2)]
        tape = tape_of_calls(calls)
        lines = derivation(tape, sample_key(0, 0))
        self.assertEqual(lines[:6], lines_of("""
            count 0 1 0 = 1
            count 0 2 0 = 1
            count 0 3 1 = 1
            count 0 3 0 = 1
            count 0 3 2 = 1
            count 0 0 0 = 1
        """))
        self.assertEqual(lines[-1], "out 0 0 0 0 = 6\n")

    def test_a_filter_goes_on_while_it_is_muted(self):
        made = create("IIRFilter", "f", feedforward=[ONE], feedback=[ONE, -(ONE // 2)])
        parted = {"op": "disconnect", "from": "f", "to": "f"}
        calls = [*through("f", made), connect("f", "f")]
        calls.append(suspend(parted))
        tape = tape_of_calls(calls)
        self.assertEqual(derivation(tape, Hist(31, 2, 0))[-3:], lines_of("""
            hist 29 2 0 = 0
            hist 30 2 0 = 0
            hist 31 2 0 = 0
        """))
        lines = derivation(tape, sample_key(33, 0))
        self.assertEqual(lines[-1], "out 33 0 0 0 = 25165824\n")
        self.assertNotIn("in 31 2 0 0", "".join(lines))


class Checking(unittest.TestCase):
    """Texts that are checked line by line."""

    def setUp(self):
        made = create("IIRFilter", "f", feedforward=[ONE], feedback=[ONE, ONE])
        calls = [*through("f", made), create("Processor", "p", code=["in"])]
        calls += [create("Delay", "d"), create("Gain", "g"), connect("c", "g")]
        self.tape = tape_of_calls(calls)

    def found(self, text):
        data = text if isinstance(text, bytes) else "".join(lines_of(text)).encode()
        return checked(self.tape, data)

    def test_what_a_text_without_lines_is(self):
        self.assertIsNone(self.found(b""))
        self.assertEqual(verdict(self.tape, b""), "invalid empty\n")
        self.assertEqual(self.found(b"\n"), Wrong(1, "no fact"))
        self.assertEqual(self.found(b"count 0 1 0 = 1"), Wrong(1, "no fact"))
        self.assertEqual(self.found(b"count 0 1 0 = 1\n\n"), Wrong(2, "no fact"))
        self.assertEqual(verdict(self.tape, b"count 0 1 0 = 1\nx"), "invalid 2\n")

    def test_channels_that_there_are_not(self):
        source = "count 0 1 0 = 1\n par 5 1 offset = 16777216\n out 5 1 0 0 = 16777216\n"
        for text in (
            "count 0 1 0 = 1\n out 5 1 0 31 = 0",
            source + "in 5 2 0 31 = 0",
            "count 0 1 0 = 1\n count 0 2 0 = 1\n hist 0 2 31 = 0",
            f"count 0 3 0 = 1\n hist 0 3 31 = 0 0{CELLS}",
        ):
            self.assertIsInstance(self.found(text), Fact, text)
        self.assertEqual(self.found("out 5 1 0 31 = 0"), Wrong(1, "lacks a need"))
        self.assertEqual(self.found("count 0 1 0 = 1\n in 5 2 0 1 = 0").why, "lacks a need")

    def test_needs_may_stand_in_any_order_above(self):
        lines = lines_of("""
            count 0 1 0 = 1
            par 5 1 offset = 16777216
            out 5 1 0 0 = 16777216
            count 0 2 0 = 1
            in 5 2 0 0 = 16777216
        """)
        right = [[0, 1, 2, 3, 4], [1, 0, 2, 3, 4], [0, 3, 1, 2, 4], [1, 0, 3, 2, 4]]
        wrong = [([1, 2, 0, 3, 4], 2), ([3, 0, 1, 2, 4], 1), ([0, 1, 4, 2, 3], 3)]
        for order in right:
            self.assertIsInstance(self.found("".join(lines[at] for at in order)), Fact, order)
        for order, place in wrong:
            found = self.found("".join(lines[at] for at in order))
            self.assertEqual(found, Wrong(place, "lacks a need"), order)

    def test_a_fact_may_stand_twice(self):
        line = b"count 0 1 0 = 1\n"
        self.assertIsInstance(self.found(2 * line), Fact)
        self.assertEqual(self.found(line + b"count 0 1 0 = 2\n"), Wrong(2, "another value"))

    def test_a_fact_that_no_sample_needs(self):
        for line in ("count 1 4w 0 = 1", "count 1 3 0 = 1", "par 63 1 offset = 16777216",
                     "par 5 5 gain = 16777216", "par 0 4 delayTime = 0", "in 5 4w 0 0 = 0"):
            self.assertIsInstance(self.found(line), Fact, line)
        for line in ("count 0 5 0 = 1", "count 0 4 0 = 1", "count 0 0 0 = 1", "in 0 5 0 0 = 0"):
            self.assertEqual(self.found(line), Wrong(1, "lacks a need"), line)

    def test_lines_that_are_no_facts(self):
        far = "9" * 5000
        for line in (
            "count 0 1 0 = +1", "count 0 1 0 = 01", "count 00 1 0 = 1", "count 0 1 0 = -0",
            "count 0 1 0  = 1", " count 0 1 0 = 1", "count 0 1 0 = 1 ", "count 0 1 0 = 1\r",
            "count 0 1 0 =1", "count 0 1 0\t= 1", "Count 0 1 0 = 1", "count 0 1 = 1",
            "count 0 1 0 = ", "count 0 1 0 = 1.0", "count 0 1 0 = 1 1", "count -1 1 0 = 1",
            "count 0 1 0 = \u0661", f"count 0 1 0 = {far}", f"count {far} 1 0 = 1",
            "count 0 1w 0 = 1", "count 0 01 0 = 1", "count 0 4W 0 = 1", "count 0 4ww 0 = 1",
            "count 2 1 0 = 1", "count 0 6 0 = 1", "count 0 1 1 = 1", "count 0 4w 1 = 1",
            "in 5 1 0 0 = 0", "in 5 4 0 0 = 0", "in 5 2w 0 0 = 0", "in 5 4w 1 0 = 0",
            "in 64 4w 0 0 = 0", "in 5 4w 0 32 = 0", "par 5 1 gain = 0", "par 5 0 offset = 0",
            "par 64 1 offset = 16777216", "par 5 1 detune = 0", "par 5 4w delayTime = 0",
            "hist 5 1 0 = 0", "hist 5 4 0 = 0", "hist 5 2 32 = 0", "hist 64 2 0 = 0",
            "hist 0 3 0 = 0", f"hist 0 2 0 = 0 0{CELLS}", f"hist 0 3 0 = 0{CELLS}",
            f"hist 0 3 0 = 0 0 0{CELLS}", f"out 0 1 0 0 = 0 0{CELLS}", "out 64 1 0 0 = 0",
            "out 0 6 0 0 = 0", "out 0 1 1 0 = 0", "out 0 1 0 32 = 0", "out 0 1w 0 0 = 0", "",
        ):
            self.assertEqual(self.found(line.encode() + b"\n"), Wrong(1, "no fact"), line)
        self.assertEqual(self.found(b"count 0 1 0 = 1\n\xff\n"), Wrong(2, "no fact"))


class Limits(unittest.TestCase):
    """Derivations that are too long."""

    def setUp(self):
        self.tape = tape_of(A_QUANTUM, os.curdir)
        self.size = sum(map(len, derivation(self.tape, sample_key(5, 0))))

    def is_too_long(self, name, value):
        with unittest.mock.patch.object(deriving, name, value):
            try:
                return not derivation(self.tape, sample_key(5, 0))
            except TooLong:
                return True

    def test_a_derivation_has_so_many_facts_and_bytes_at_most(self):
        self.assertEqual((deriving.MOST_KEYS, deriving.MOST_BYTES), (1_048_576, 67_108_864))
        self.assertFalse(self.is_too_long("MOST_KEYS", 6))
        self.assertTrue(self.is_too_long("MOST_KEYS", 5))
        self.assertFalse(self.is_too_long("MOST_BYTES", self.size))
        self.assertTrue(self.is_too_long("MOST_BYTES", self.size - 1))

    def test_a_filter_far_from_its_birth(self):
        made = create("IIRFilter", "f", feedforward=[ONE // 2], feedback=[ONE, -(ONE // 4)])
        tape = tape_of(fixtures.script([*through("f", made), START], 1, 2001), os.curdir)
        lines = derivation(tape, sample_key(2000, 0))
        self.assertEqual((len(lines), lines[-1]), (8040, "out 2000 0 0 0 = 11184811\n"))


class Commands(unittest.TestCase):
    """The two commands."""

    def setUp(self):
        room = tempfile.TemporaryDirectory()
        self.addCleanup(room.cleanup)
        self.folder = room.name
        self.script = fixtures.write(self.folder, "script.json", A_QUANTUM)

    def run_tool(self, tool, *words):
        ran = fixtures.run(tool, *words, cwd=self.folder)
        self.assertEqual(ran.stderr, b"")
        return ran.returncode, ran.stdout.decode()

    def test_a_derivation_and_its_check(self):
        self.assertEqual(
            self.run_tool("derive", self.script, "5", "0", "d.txt"), (0, "facts 6\n")
        )
        lines = fixtures.read(self.folder, "d.txt").decode().splitlines(keepends=True)
        self.assertEqual(lines, lines_of("""
            count 0 1 0 = 1
            count 0 0 0 = 1
            par 5 1 offset = 16777216
            out 5 1 0 0 = 16777216
            in 5 0 0 0 = 16777216
            out 5 0 0 0 = 16777216
        """))
        self.assertEqual(self.run_tool("derive", self.script, "5", "0"), (0, "".join(lines)))
        self.assertEqual(
            self.run_tool("check-derivation", self.script, "d.txt"),
            (0, "valid out 5 0 0 0 = 16777216\n"),
        )
        fixtures.write(self.folder, "e.txt", "".join(lines[:2] + lines[3:]))
        fixtures.write(self.folder, "z.txt", "")
        for name, line in (("e", "3"), ("z", "empty"), ("none", "missing")):
            self.assertEqual(
                self.run_tool("check-derivation", self.script, f"{name}.txt"),
                (12, f"invalid {line}\n"),
            )

    def test_frames_and_channels_are_digits_alone(self):
        for word in ("+5", "-0", "-5", " 5", "5_0", "5.0", "\u0665", "", "10000000000"):
            for words in ((word, "0"), ("5", word)):
                ran = fixtures.run("derive", self.script, *words, "d.txt", cwd=self.folder)
                self.assertEqual((ran.returncode, ran.stdout), (2, b""), words)
                self.assertIn("is no number of 1 to 10 digits", ran.stderr.decode(), words)
        self.assertEqual(sorted(os.listdir(self.folder)), ["script.json"])
        self.assertEqual(
            self.run_tool("derive", self.script, "0000000005", "00"),
            self.run_tool("derive", self.script, "5", "0"),
        )

    def test_what_cannot_be_read_or_written(self):
        fixtures.write(self.folder, "long.json", A_QUANTUM.ljust(2**24 + 1))
        for script, status in (("nowhere.json", 6), (".", 6), ("long.json", 5)):
            self.assertEqual(self.run_tool("derive", script, "5", "0", "d.txt"), (status, ""))
            self.assertEqual(self.run_tool("check-derivation", script, "d.txt"), (status, ""))
        self.assertFalse(os.path.exists(os.path.join(self.folder, "d.txt")))
        told = self.run_tool("derive", self.script, "5", "0", "nowhere/d.txt")
        self.assertEqual(told, (9, "facts 6\n"))
        self.assertEqual(self.run_tool("check-derivation", self.script, "."), (7, ""))
        for words in (("derive", "5", "0", ""), ("check-derivation", "")):
            ran = fixtures.run(words[0], self.script, *words[1:], cwd=self.folder)
            self.assertEqual((ran.returncode, ran.stdout), (2, b""), words)

    @unittest.skipUnless(os.path.exists("/dev/full"), "there is no full device")
    def test_what_does_not_go_out(self):
        fixtures.write(self.folder, "z.txt", "")
        for words in (("derive", "5", "0"), ("derive", "5", "0", "d.txt"),
                      ("derive", "128", "0"), ("check-derivation", "z.txt")):
            line = shlex.join([f"{fixtures.TOOLS}/{words[0]}", self.script, *words[1:]])
            ran = subprocess.run(
                ["sh", "-c", f"exec {line} > /dev/full"], cwd=self.folder, capture_output=True
            )
            self.assertEqual((ran.returncode, ran.stderr), (8, b""), words)
        self.assertFalse(os.path.exists(os.path.join(self.folder, "d.txt")))

    def test_what_has_no_derivation(self):
        self.assertEqual(self.run_tool("derive", self.script, "128", "0"), (13, "out of range\n"))
        self.assertEqual(self.run_tool("derive", self.script, "0", "1"), (13, "out of range\n"))
        fixtures.write(self.folder, "idle.json", fixtures.script([]))
        fixtures.write(self.folder, "faulty.json", b"{")
        for words in (("derive", "0", "0"), ("check-derivation", "d.txt")):
            tool, *more = words
            for name, told in (("idle", (3, "end idle\n")), ("faulty", (4, "script: BadJson\n"))):
                self.assertEqual(self.run_tool(tool, f"{name}.json", *more), told)


class Wider(meaning.Meaning):
    """The third calculation, with convolvers too."""

    def value_of(self, frame, number, output, channel, is_writer):
        world = self.world(frame)
        count = self.count(frame // self.quantum, number, is_writer)
        if world.nodes[number].kind != "convolver" or (number, False) in world.muted:
            return super().value_of(frame, number, output, channel, is_writer)
        return self.convolved(frame, number, channel) if channel < count else 0

    def convolved(self, frame, number, channel):
        taps = self.world(frame).nodes[number].taps
        heard = [
            self.taken(frame - ago, number, channel)
            for ago in range(min(len(taps), frame - self.births[number] + 1))
        ]
        return saturated(rounded_quotient(sum(a * b for a, b in zip(taps, heard)), ONE))

    def taken(self, frame, number, channel):
        is_muted = (number, False) in self.world(frame).muted
        return 0 if is_muted else self.heard(frame, number, 0, channel)

    def numbers(self, key: Key) -> Numbers:
        """What it has of a key."""
        if isinstance(key, Count):
            return (self.count(key.quantum, *key.end),)
        if isinstance(key, In):
            return (self.heard(key.frame, key.end.node, key.input, key.channel),)
        if isinstance(key, Par):
            return (self.parameter(key.frame, key.node, key.name),)
        if not isinstance(key, Hist):
            (number, is_writer), at = key.end, key.frame
            return (self.value(at, number, key.output, key.channel, is_writer),)
        node, place = self.world(key.frame).nodes[key.node], key[:3]
        if node.kind == "processor":
            output, cells = self.processed(*place)
            return (output, *cells)
        if node.kind == "shaper":
            return (node.shaped(self.taken(*place)),)
        return (self.filtered(*place) if node.kind == "filter" else self.convolved(*place),)


def facts_of(lines: list[str]) -> list[Fact]:
    """The facts of lines that are all facts."""
    return [fact for fact in (fact_of(line.rstrip("\n").encode()) for line in lines) if fact]


def needs_of(tape: Tape, key: Key, known: dict[Key, Numbers]) -> list[Key]:
    """What a key needs, where all of that is known."""
    equation, needs = Equations(tape).of(key), []
    try:
        needs.append(next(equation))
        while True:
            needs.append(equation.send(known[needs[-1]]))
    except StopIteration:
        return needs


class Changed:
    """A derivation, and where a change of it has to be found."""

    def __init__(self, tape: Tape, lines: list[str]) -> None:
        self.tape, self.lines, self.facts = tape, lines, facts_of(lines)
        known: dict[Key, Numbers] = dict(self.facts)
        self.needed: dict[Key, int] = {}  # of each key the first line that needs it
        for number, fact in enumerate(self.facts, 1):
            for need in needs_of(tape, fact.key, known):
                self.needed.setdefault(need, number)

    def is_right(self, place: int, line: str) -> bool:
        """Whether a line may stand at a place, by a derivation of its own."""
        fact = fact_of(line.encode())
        if fact is None or not Equations(self.tape).is_fact(fact):
            return False
        try:
            anew = derivation(self.tape, fact.key)
        except TooLong:
            return False
        needs = needs_of(self.tape, fact.key, dict(facts_of(anew)))
        above = {it.key for it in self.facts[:place]}
        return anew[-1] == line + "\n" and above.issuperset(needs)

    def wanted(self, place: int, line: str) -> int | None:
        """The first wrong line where the one at a place, from 0 on, is replaced by this one, which
        has its end with it if it has one."""
        if line == self.lines[place] + "\n":
            return place + 2
        if line.find("\n") != len(line) - 1 or not self.is_right(place, line[:-1]):
            return place + 1
        return self.needed.get(self.facts[place].key)


class Random(unittest.TestCase):
    """Random sessions of all shapes."""

    def derive_all(self, number: int) -> int:
        """Derives samples of a session, and says how many."""
        script, assets = script_of(1, number, operations())
        data, rng = json.dumps(script).encode(), random.Random(number)
        with tempfile.TemporaryDirectory() as folder:
            write_assets(folder, assets)
            try:
                tape = tape_of(data, folder)
            except (NoTape, AssetFault):
                return 0
            with meaning.taped() as worlds:
                session = sessions.replayed(data, folder)[2]
        third = Wider(worlds, tape.quantum)
        for _ in range(SAMPLES):
            frame, channel = rng.randrange(tape.length), rng.randrange(tape.channels)
            told = f"script {number}, frame {frame}, channel {channel}"
            lines = derivation(tape, sample_key(frame, channel))
            facts = facts_of(lines)
            self.assertEqual(facts[-1].numbers, (session.values[frame][channel],), told)
            self.assertEqual(verdict(tape, "".join(lines).encode()), "valid " + lines[-1], told)
            self.assertEqual(len({fact.key for fact in facts}), len(lines), told)
            for fact in facts:  # in this order none has many frames to go back
                self.assertEqual(fact.numbers, third.numbers(fact.key), f"{told}: {fact}")
            if len(lines) <= LINES:
                self.change(tape, lines, rng, told)
        return SAMPLES

    def change(self, tape: Tape, lines: list[str], rng: random.Random, told: str) -> None:
        """Changes a derivation at one character, again and again."""
        text = Changed(tape, lines)
        for _ in range(CHANGES):
            place = rng.randrange(len(lines))
            line = changed(rng, lines[place])
            found = checked(tape, "".join([*lines[:place], line, *lines[place + 1:]]).encode())
            with self.subTest(f"{told}, line {place + 1}: {line!r}"):
                first = found.line if isinstance(found, Wrong) else None
                self.assertEqual(first, text.wanted(place, line))

    def test_random_sessions(self) -> None:
        derived = sum(map(self.derive_all, range(COUNT)))
        self.assertGreater(derived, COUNT * SAMPLES // 2)


if __name__ == "__main__":
    unittest.main()
