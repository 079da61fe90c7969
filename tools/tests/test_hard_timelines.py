"""Tests of the scripts that are hard on parameters, and of how a program is compared on them."""

import collections
import json
import shutil
import tempfile
import unittest

import fixtures
from waplay_tools import hard_timelines
from waplay_tools.expecting import sessions

PROFILE = "throw NotSupportedError profile:"

# A program that gives what is worked out, but for what the test has it do otherwise.
PROGRAM = """
import sys
from waplay_tools import hard_timelines
status, text, file = hard_timelines.expected(sys.stdin.buffer.read())
%s
sys.stdout.buffer.write(text)
if file:
    with open(sys.argv[1], "wb") as out:
        out.write(file)
sys.exit(status)
"""


def answers(name):
    """Of each operation of a script its answers, and the script's last line."""
    ((_, data),) = hard_timelines.scripts_of([name])
    calls, found = json.loads(data)["calls"], collections.defaultdict(set)
    text = sessions.replayed(data)[1].splitlines()
    for line in text:
        if line[0].isdigit():
            ordinal, answer = line.split(" ", 1)
            found[calls[int(ordinal) - 1]["op"]].add(
                "value" if answer.startswith("value ") else answer
            )
    return found, text[-1]


class Scripts(unittest.TestCase):
    def test_each_operation_meets_each_refusal_of_parameters(self):
        found, last = answers("every_parameter")
        for op in [
            *hard_timelines.EDITS,
            *hard_timelines.LEFT_OUT_EDITS,
            "readValue",
            "connectParam",
        ]:
            wanted = {"throw TypeError", PROFILE + "playback-rate-automation", PROFILE + "detune"}
            left_out = hard_timelines.LEFT_OUT_EDITS.get(op)
            wanted.add(PROFILE + left_out if left_out else "value" if op == "readValue" else "ok")
            self.assertLessEqual(wanted, found[op], op)
        self.assertEqual(last, "end completed")

    def test_curves_that_are_short(self):
        found, last = answers("short_curves")
        wanted = {"ok", "throw InvalidStateError", "throw RangeError", "throw NotSupportedError"}
        self.assertEqual((found["setValueCurveAtTime"], last), (wanted, "end completed"))

    def test_each_fault_is_one(self):
        found = collections.Counter()
        for name, data in hard_timelines.scripts_of(["faults"]):
            status, text, file = hard_timelines.expected(data)
            self.assertEqual((status, file), (4, None), name)
            found[text.decode().split(" ", 2)[2].strip()] += 1
        for field in ["time", "duration", "values"]:
            for cause in ["OutOfRange", "WrongKind"]:
                self.assertGreater(found["%s %s" % (field, cause)], 0, (field, cause))

    def test_there_are_as_many_events_as_a_script_has_room_for(self):
        for name in ["many_timelines", "many_timelines_at_once"]:
            ((_, data),) = hard_timelines.scripts_of([name])
            self.assertLess(0.9 * hard_timelines.LONGEST, len(data))
            self.assertLessEqual(len(data), hard_timelines.LONGEST)
        self.assertEqual(
            hard_timelines.expected(b" " * (hard_timelines.LONGEST + 1)), (5, b"", None)
        )


@unittest.skipUnless(shutil.which("time"), "GNU time is not installed")
class Comparison(unittest.TestCase):
    def compared(self, change):
        with tempfile.TemporaryDirectory() as work:
            program = fixtures.program(work, PROGRAM % change)
            ran = fixtures.run("hard-timelines", "--program", program, "times", "short_curves")
        self.assertEqual(ran.stderr, b"")
        return ran.returncode, ran.stdout.decode().splitlines()

    def test_a_program_that_does_so_does_not_differ(self):
        status, lines = self.compared("")
        self.assertEqual((status, lines[-1]), (0, "2 scripts, 0 differences"))
        self.assertRegex(lines[0], r"^times: \d+\.\d\d s, \d+\.\d MiB, \d+ bytes, status 0$")

    def test_a_program_that_does_otherwise_differs(self):
        for change, told in [
            ("text = text[1:]", "status 0, DIFFERS: transcript"),
            ("file = file[:-1]", "DIFFERS: WAV file"),
            ("status = 3", "DIFFERS: status 3"),
        ]:
            status, lines = self.compared(change)
            self.assertEqual((status, lines[-1]), (1, "2 scripts, 2 differences"))
            self.assertIn(told, lines[0])
