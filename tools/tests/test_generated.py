"""Tests of how a program's loads are compared, and of the second calculation where it is told to
check or to give 16 bits."""

import json
import os
import struct
import tempfile
import unittest
import unittest.mock

import fixtures
from small_load import small

from waplay_tools import generated, load_script
from waplay_tools.expecting import numbers, sessions

# The widths of samples at which a wrong program is looked at; all of them where it is asked for.
WIDTHS = generated.WIDTHS if "ALL_WIDTHS" in os.environ else (24,)

# A program that generates small scripts, and does with them what is wanted, but for what the test
# has it do otherwise.
PROGRAM = """
import json, os, sys
from waplay_tools import command_lines
from waplay_tools.expecting.sessions import file_of, replayed, summary_of, wav_bytes
from small_load import small
asked = command_lines.reading([os.fsencode(word) for word in sys.argv[1:]])
is_checked, is_generated = asked.mode != "render", asked.generated is not None
data = json.dumps(small(asked.generated)).encode() if is_generated else sys.stdin.buffer.read()
status, text, session = replayed(data, is_checked=is_checked)
text = summary_of(session) + "\\nend completed\\n" if is_generated else text
file = file_of(session, asked.mode, asked.bits)
%s
sys.stdout.write(text)
if file:
    with open(asked.out, "wb") as out:
        out.write(file)
sys.exit(status)
"""


class Loads(unittest.TestCase):
    def test_the_counts_of_a_load_are_the_same_for_every_number(self):
        for number in [0, 1, 4711, 9999]:
            script = load_script.script(number)
            status, text, session = sessions.replayed(json.dumps(script).encode(), is_checked=True)
            self.assertEqual((status, len(session.nodes)), (0, 451))
            self.assertEqual(
                sessions.summary_of(session), "summary calls 1768 quanta 3750 ended 200 refused 0"
            )
            self.assertEqual(generated.counted(text.encode()), (1768, 200, 0))

    def test_numbers_are_drawn_as_is_said(self):
        draws = load_script.Draws(0)
        self.assertEqual(
            [draws.draw(count) for count in (2048, 32768, 4096, 240)], [0, 21468, 1796, 37]
        )
        self.assertNotEqual(load_script.script(1), load_script.script(0))


class SecondCalculation(unittest.TestCase):
    def test_a_session_that_is_checked_has_the_same_lines(self):
        for name in fixtures.SESSIONS:
            data = fixtures.script_of_case(name)
            status, text, session = sessions.replayed(data, fixtures.EXAMPLES, is_checked=True)
            self.assertEqual((status, text), sessions.replayed(data, fixtures.EXAMPLES)[:2], name)
            self.assertIsNone(session and session.values, name)

    def test_samples_of_16_bits(self):
        for value, sample in [
            (16777216, 32767),
            (8388608, 16384),
            (5592405, 10923),
            (1, 0),
            (-257, -1),
            (-256, 0),
            (255, 0),
            (256, 1),
            (-16777216, -32768),
            (2**31 - 1, 32767),
            (-(2**31), -32768),
        ]:
            self.assertEqual(numbers.sample_of(value, 16), sample)
        session = sessions.replayed(json.dumps(small(0)).encode())[2]
        file = sessions.wav_bytes(session, 16)
        self.assertEqual(
            struct.unpack("<IHHIIHH4sI", file[16:44]),
            (16, 1, 2, 48000, 192000, 4, 16, b"data", 1200),
        )
        self.assertEqual(file[44:], bytes(12) + struct.pack("<h", 10) * 274 + bytes(640))


class Comparison(unittest.TestCase):
    def compared(self, change, number=7, is_whole=True):
        with tempfile.TemporaryDirectory() as work, unittest.mock.patch(
            "waplay_tools.load_script.script", small
        ):
            program = fixtures.program(work, PROGRAM % change)
            return generated.compared((program, number, is_whole))

    def test_a_program_that_does_what_is_wanted_does_not_differ(self):
        for number, is_whole in [(7, True), (7, False), (9999, False)]:
            self.assertEqual(self.compared("", number, is_whole), (number, []))

    def test_a_program_that_does_otherwise_differs(self):
        for change, told in [
            ("sys.stdin.buffer.read()", "bytes of standard input are read"),
            ("status = 3 * is_generated", "status 3"),
            (
                "sys.stderr.write('load' * is_generated); open('load', 'w').close()",
                "files ['load']",
            ),
            ("file = wav_bytes(replayed(data)[2], 24)", "another file in mode check"),
            ("file = file and file.replace(b'offset', b'level')", "another file in mode migrate"),
            ("text = text.replace('ended 1 c\\n', '')", "the transcript has other counts"),
            ("text = text.replace('end c', 'end  c')", "the text b'summary calls 8 quanta 3"),
            (
                "text = text.replace('refused 1\\n', 'refused 1 peak 4 sum 4\\n')",
                "a greatest value in mode check",
            ),
            (
                "file = file and is_generated and file[:-1] or file",
                "another file than that of the script",
            ),
            ("text += (asked.order == 'down') * is_generated * 'again\\n'", "several texts"),
            ("text = text.replace('sum 1368356', 'sum 1368357')", "the file can't have"),
            ("text = text.replace('peak 4994 ', 'peak 4995 ')", "the file can't have"),
        ]:
            with unittest.mock.patch.object(generated, "WIDTHS", WIDTHS):
                number, wrong = self.compared(change, is_whole=False)
            self.assertIn(told, "\n".join(wrong), change)

    def test_a_number_that_is_looked_at_whole(self):
        near = "text = text.replace('sum 1368356', 'sum 1368355')"
        self.assertEqual(self.compared(near, is_whole=False)[1], [])
        self.assertIn("the text b'summary", self.compared(near)[1][0])
        both = "file = file and file[:-1] + b'\\1'"
        self.assertIn("another file than was worked out", self.compared(both)[1][0])
