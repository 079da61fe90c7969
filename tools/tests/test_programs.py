"""Tests of programs of processors: what the second calculation accepts, why it refuses the rest,
its machine beside one that knows every way through a program, and how a report tells it."""

import collections
import json
import os
import random
import unittest
import unittest.mock

import fixtures
import meaning
from waplay_tools.expecting import sessions
from waplay_tools.expecting.programs import (
    AT_BIRTH,
    NUMBERS,
    STACK,
    Wrong,
    cause_of,
    code_of,
    frame,
    written,
    wrong_of,
)
from waplay_tools.random_scripts import maker
from waplay_tools.random_scripts import programs as random_programs
from waplay_tools.reporting import following, refusals, rules, script_reading, transcript_reading
from waplay_tools.reporting.programs import why

MAX, MIN = 2**31 - 1, -(2**31)
COUNT = int(os.environ.get("PROCESSOR_SESSIONS", "20"))  # random sessions

# Of programs why they are not accepted, by hand.
WRONG = [
    ([], Wrong("BadLength", 0)),
    (["in"] * 257, Wrong("BadLength", 257)),
    (["skip 1", "in", "in"], Wrong("Unreached", 1)),
    (["in", "skip 1", "neg", "neg"], Wrong("Unreached", 2)),
    (["in", "skip 2", "neg", "neg"], Wrong("Unreached", 2)),
    (["in", "skip 1", "neg"], Wrong("Unreached", 2)),
    (["in", "skipz 1", "push 5"], Wrong("Uneven", 3, (0, 1))),
    (["in", "skipz 1", "push 5", "push 6"], Wrong("Uneven", 3, (0, 1))),
    (["in", "in", "skipz 1", "drop", "load 16"], Wrong("Uneven", 4, (0, 1))),
    (["in", "dup", "dup", "skipz 1", "dup", "add"], Wrong("Uneven", 5, (2, 3))),
    (["load 16"], Wrong("BadCell", 0, (0,))),
    (["in", "load 16", "add"], Wrong("BadCell", 1, (1,))),
    (["in", "store 16"], Wrong("BadCell", 1, (1,))),
    (["store 16"], Wrong("BadCell", 0, (0,))),  # the cell is looked at before the stack
    (["in", "load 2147483647"], Wrong("BadCell", 1, (1,))),
    (["div 0"], Wrong("BadDivisor", 0, (0,))),
    (["in", "div 0", "neg"], Wrong("BadDivisor", 1, (1,))),
    (["in", "div 0"], Wrong("BadDivisor", 1, (1,))),
    (["skip 1"], Wrong("BadJump", 0, (0,))),
    (["skipz 1"], Wrong("BadJump", 0, (0,))),  # a jump is looked at before the stack
    (["in", "skip 2", "neg"], Wrong("BadJump", 1, (1,))),
    (["in", "in", "skipz 1"], Wrong("BadJump", 2, (2,))),
    (["in", "skip 2147483647"], Wrong("BadJump", 1, (1,))),
    (["add"], Wrong("Underflow", 0, (0,))),
    (["in", "add", "in"], Wrong("Underflow", 1, (1,))),
    (["in", "swap"], Wrong("Underflow", 1, (1,))),
    (["in", "drop", "dup"], Wrong("Underflow", 2, (0,))),
    (["in"] * 33, Wrong("TooDeep", 32, (32,))),
    (["in"] * 32 + ["dup"] + ["add"] * 32, Wrong("TooDeep", 32, (32,))),
    (["in"] * 32, Wrong("BadEnd", 32, (32,))),
    (["in", "drop"], Wrong("BadEnd", 0, (0,))),
    (["skip 0"], Wrong("BadEnd", 0, (0,))),
    (["in", "in"], Wrong("BadEnd", 2, (2,))),
    # The first place counts, and at a place the first reason.
    (["load 16", "div 0"], Wrong("BadCell", 0, (0,))),
    (["div 0", "load 16"], Wrong("BadDivisor", 0, (0,))),
    (["in", "add", "skip 9"], Wrong("Underflow", 1, (1,))),
    (["in", "skip 1", "div 0", "add"], Wrong("Unreached", 2)),
    (["in", "dup", "skipz 2", "drop", "skip 0", "div 0"], Wrong("Uneven", 5, (0, 1))),
]

GOOD = [
    ["in"],
    ["push 0"],
    ["load 15"],
    ["in", "skip 0"],
    ["in", "dup", "skipz 0"],
    ["in", "div 1"],
    ["in", "in", "skipz 1", "neg"],
    ["in", "skipz 2", "push 5", "skip 1", "push 7"],
    ["in"] * 32 + ["add"] * 31,
    ["in", *["neg"] * 255],
    ["load 0", "in", "add", "div 2", "dup", "store 0"],
]


def all_ways(code):
    """What the ways through a program come to, in which each skipz may go on at either place: the
    heights with which each place is reached, and whether an instruction can go wrong."""
    heights = collections.defaultdict(set)
    to_do, goes_wrong = [(0, 0)], False
    while to_do:
        place, height = to_do.pop()
        if height in heights[place]:
            continue
        heights[place].add(height)
        if place >= len(code):
            goes_wrong = goes_wrong or place > len(code) or height != 1
            continue
        word, number = code[place]
        popped, pushed = STACK[word]
        left = height - popped + pushed
        is_wrong = height < popped or left > 32 or word == "div" and number == 0
        if is_wrong or word in ("load", "store") and number > 15:
            goes_wrong = True
            continue
        if word != "skip":
            to_do.append((place + 1, left))
        if word in ("skip", "skipz"):
            to_do.append((place + 1 + number, left))
    return heights, goes_wrong


class Acceptance(unittest.TestCase):
    def test_programs_that_are_not_accepted(self):
        for texts, wrong in WRONG:
            self.assertEqual([cause_of(it) for it in texts], [None] * len(texts))
            self.assertEqual(wrong_of(texts), wrong, texts)
        self.assertEqual(len({wrong.reason for _, wrong in WRONG}), 9)

    def test_programs_that_are_accepted(self):
        for texts in GOOD:
            self.assertIsNone(wrong_of(texts), texts)

    def test_those_are_accepted_on_whose_ways_nothing_goes_wrong(self):
        counts = collections.Counter()
        for number in range(2000):
            texts = random_programs.any_code(random.Random(f"ways {number}"))
            wrong, code = wrong_of(texts), code_of(texts)
            counts[wrong.reason if wrong else "accepted"] += 1
            heights, goes_wrong = all_ways(code)
            is_even = all(len(heights[place]) == 1 for place in range(len(code) + 1))
            is_long = 1 <= len(code) <= 256
            self.assertEqual(wrong is None, is_long and is_even and not goes_wrong, texts)
        self.assertEqual(len(counts), 10)
        self.assertGreater(counts["accepted"], 700)
        self.assertGreater(min(counts.values()), 10)

    def test_walks_are_accepted(self):
        for number in range(2000):
            texts = random_programs.good_code(random.Random(f"walk {number}"))
            self.assertIsNone(wrong_of(texts), texts)


class Machine(unittest.TestCase):
    def outputs(self, texts, *inputs):
        """What a program gives for these inputs."""
        cells, given = AT_BIRTH, []
        for x in inputs:
            output, cells = frame(code_of(texts), cells, x)
            given.append(output)
        return given

    def test_each_instruction(self):
        for texts, x, wanted in [
            (["in"], 7, 7),
            (["push -3"], 7, -3),
            (["push -0"], 7, 0),
            (["push 0012"], 7, 12),
            (["load 0"], 7, 0),
            (["in", "store 5", "load 5"], 7, 7),
            (["in", "push 3", "add"], 7, 10),
            (["in", "push 3", "sub"], 7, 4),
            (["in", "push 3", "min"], 7, 3),
            (["in", "push 3", "max"], 7, 7),
            (["in", "push 8388608", "mul"], 7, 4),  # 3.5
            (["in", "push 8388608", "mul"], -7, -3),  # -3.5
            (["in", "neg"], 7, -7),
            (["in", "div 2"], 7, 4),
            (["in", "div 2"], -7, -3),
            (["in", "div 3"], -7, -2),
            (["in", "dup", "add"], 7, 14),
            (["in", "push 3", "swap", "sub"], 7, -4),
            (["in", "push 3", "drop"], 7, 7),
            (["push 1", "in", "skipz 1", "neg"], 0, 1),
            (["push 1", "in", "skipz 1", "neg"], 7, -1),
            (["in", "push 1", "add"], MAX, MAX),
            (["in", "push 1", "sub"], MIN, MIN),
            (["in", "neg"], MIN, MAX),
            (["in", "dup", "mul"], MIN, MAX),
            (["in", "div 1"], MIN, MIN),
        ]:
            self.assertEqual(self.outputs(texts, x), [wanted], (texts, x))

    def test_cells_are_kept_from_frame_to_frame(self):
        filter_of_one_pole = ["load 0", "in", "add", "div 2", "dup", "store 0"]
        self.assertEqual(
            self.outputs(filter_of_one_pole, *[8388608] * 3), [4194304, 6291456, 7340032]
        )
        self.assertEqual(self.outputs(["load 3", "in", "store 3"], 5, 6, 7), [0, 5, 6])

    def test_accepted_programs_never_go_wrong(self):
        rng = random.Random("frames")
        ends = [0, 1, -1, MAX, MIN, 2**24]
        for number in range(400):
            code = code_of(random_programs.good_code(random.Random(f"good {number}")))
            cells = AT_BIRTH
            for _ in range(8):
                output, cells = frame(code, cells, rng.choice([*ends, rng.randint(MIN, MAX)]))
                self.assertTrue(all(MIN <= it <= MAX for it in (output, *cells)))
                self.assertEqual(len(cells), 16)

    def test_a_function_of_python_gives_the_same(self):
        rng = random.Random("written")
        ends = [0, 0, 1, -1, MAX, MIN, 2**24]
        for number in range(600):
            code = code_of(random_programs.good_code(random.Random(f"written {number}")))
            block = [rng.choice([*ends, rng.randint(MIN, MAX)]) for _ in range(12)]
            cells, wanted = AT_BIRTH, []
            for x in block:
                output, cells = frame(code, cells, x)
                wanted.append(output)
            found = [0] * 16
            self.assertEqual(written(code)(found, block), wanted, code)
            self.assertEqual(tuple(found), cells, code)


class Reading(unittest.TestCase):
    def test_what_is_an_instruction(self):
        for word in STACK:
            self.assertEqual(cause_of(word), "WrongKind" if word in NUMBERS else None)
            self.assertEqual(cause_of(f"{word} 1"), None if word in NUMBERS else "WrongKind")
            self.assertEqual(cause_of(f"{word} -1"), None if word == "push" else "WrongKind")
            above = cause_of(f"{word} 2147483648")
            self.assertEqual(above, "OutOfRange" if word in NUMBERS else "WrongKind")
        for text in [None, 5, "", " ", "add ", "push", "push ", "push  1", "push +1", "load -0",
                     "push 1 ", "push 1.0", "push \u0661", "Push 1", "in\n", "push -", "div -0"]:
            self.assertEqual(cause_of(text), "WrongKind", text)
        for text in ["push -2147483649", "div 99999999999", "push -1" + "0" * 6000]:
            self.assertEqual(cause_of(text), "OutOfRange", text[:20])
        for text in ["push -2147483648", "push -0", "push -000", "load 000", "div 0"]:
            self.assertIsNone(cause_of(text), text)
        self.assertIsNone(cause_of("skip " + "0" * 6000 + "1"))


class Sessions(unittest.TestCase):
    """Processors in sessions, beside a calculation by recursion from frame to frame."""

    def processors(self, count):
        """The random scripts of this shape, of which so many have a processor and no convolver,
        which that calculation does not know."""
        shape = {"SHAPES": [], "DELAY_SHAPES": [], "PROCESSOR_SHAPES": [(1, "processed")]}
        read = [op for op in maker.operations() if op != "createConvolver"]
        number = 0
        while count:
            number += 1
            if random.Random(f"9 {number} processors").random() < 0.8:
                continue
            with unittest.mock.patch.multiple(maker, **shape):
                script, assets = maker.script_of(9, number, read)
            if not assets:
                count -= 1
                yield number, json.dumps(script).encode()

    def test_random_sessions(self):
        compared = moving = several = 0
        for number, data in self.processors(COUNT):
            session, _, values = meaning.values_of(data, os.curdir)
            if values is None:
                continue
            self.assertEqual([list(frame) for frame in session.values], values, number)
            compared += 1
            moving += len({value for frame in values for value in frame}) > 20
            several += any(
                node.histories[1:] for node in session.nodes if node.kind == "processor"
            )
        self.assertGreater(compared, COUNT // 2)
        self.assertGreater(min(moving, several), COUNT // 10)


class Reports(unittest.TestCase):
    def test_each_reason_is_a_cause_of_its_own(self):
        calls = [
            {"op": "createProcessor", "as": f"p{at}", "code": code}
            for at, code in enumerate([["add"], ["in", "in"], ["add"], ["in"]])
        ]
        data = fixtures.script([*calls, {"op": "connect", "from": "p0", "to": "destination"}])
        _, text, _ = sessions.replayed(data)
        lines = transcript_reading.lines_of(text.encode(), "t")
        session = following.Session(script_reading.script_of(data), lines, ("s", "t"))
        causes = refusals.causes_of(session)
        self.assertEqual([(it.calls, it.following) for it in causes], [([1, 3], [5]), ([2], [])])
        told = rules.meaning(causes[0].row, session.script)
        self.assertTrue(told.endswith(why(["add"])), told)


class Words(unittest.TestCase):
    def test_why_a_program_is_not_accepted(self):
        for texts, told in [
            (["in"], ""),
            ([], "A program has from 1 to 256 instructions, and this one has none."),
            (["in"] * 300, "A program has from 1 to 256 instructions, and this one has 300"
             " instructions."),
            (["skip 1", "in", "in"], "Place 1, `in`: no earlier place goes on here."),
            (["in", "in", "skipz 1", "dup", "neg"],
             "Place 4, `neg`: two ways lead here with 1 and 2 values on the stack."),
            (["in", "skipz 1", "push 5"],
             "Place 3, the end: two ways lead here with 0 and 1 value on the stack."),
            (["in", "load 16"],
             "Place 1, `load 16`: there is no cell 16: a channel has the cells 0 to 15."),
            (["in", "div 0"], "Place 1, `div 0`: nothing is divided by 0."),
            (["in", "skip 1"], "Place 1, `skip 1`: it may go on at place 3, behind the end, 2."),
            (["add"], "Place 0, `add`: it takes 2 values from the stack, which has 0."),
            (["neg"], "Place 0, `neg`: it takes 1 value from the stack, which has 0."),
            (["in"] * 33, "Place 32, `in`: the stack would have 33 values, and has 32 at most."),
            (["in", "in"], "At the end the stack has 2 values, and not the one to give."),
        ]:
            self.assertEqual(why(texts), told)

    def test_every_reason_has_words(self):
        for texts, _ in WRONG:
            self.assertRegex(why(texts), r"^[A-Z].*\.$")


if __name__ == "__main__":
    unittest.main()
