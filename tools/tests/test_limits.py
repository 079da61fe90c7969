"""Tests of the table of limits, and its cases on the program.

The program is the one that the variable WAPLAY names, or else the shipped one. Where neither is
there, it is not run."""

import os
import unittest
from pathlib import Path

from waplay_tools.limits.__main__ import row_of, told_at
from waplay_tools.limits.table import TABLE
from waplay_tools.places import SHIPPED

PROGRAM = Path(os.environ.get("WAPLAY") or SHIPPED).absolute()

# The limits of a session, a script and a file.
NUMBERS = {
    "bytes of a script": 16777216,
    "arrays and objects, one in another": 127,
    "nodes, the destination among them": 1024,
    "connections": 8192,
    "samples in all buffers": 134217728,
    "frames in all delays, in quanta of 32": 4194304,
    "frames in all delays, in quanta of 1,024": 4194304,
    "least render quantum near 32": 32,
    "most render quantum near 1,024": 1024,
    "frames of a response": 16384,
    "least sample of a response": -33554432,
    "most sample of a response": 33554432,
    "most instructions of a program": 256,
    "values on the stack of a program": 32,
    "cell that is loaded": 15,
    "most version": 2,
    "digits of seconds before the point": 10,
    "digits of seconds behind the point": 9,
    "bytes of an asset": 67108864,
    "channels times length of a context": 67108864,
}


def size_of(name: str, past: bool) -> int:
    """How many bytes the script, or the asset, of a limit has."""
    (limit,) = [it for it in TABLE if it.counts == name]
    case = limit.cases()[past]
    return case.files["zeros"]["zeros"] if case.files else len(case.input_bytes() or b"")


class Limits(unittest.TestCase):
    def test_no_limit_is_left_out(self) -> None:
        told = {limit.counts: limit.number for limit in TABLE}
        self.assertEqual(len(told), len(TABLE))
        self.assertEqual({name: told[name] for name in NUMBERS}, NUMBERS)

    def test_sizes_are_met_to_the_byte(self) -> None:
        for name in ("bytes of a script", "bytes of an asset"):
            self.assertEqual(size_of(name, False), NUMBERS[name])
            self.assertEqual(size_of(name, True), NUMBERS[name] + 1)

    def test_a_row_tells_both_answers(self) -> None:
        rows = {limit.counts: row_of(limit) for limit in TABLE}
        self.assertEqual(
            rows["least channelCount"],
            "least channelCount: 1: ok; one below it: throw NotSupportedError",
        )

    @unittest.skipUnless(os.access(PROGRAM, os.X_OK), "there is no program")
    def test_each_limit_is_met_at_its_number_and_one_past_it(self) -> None:
        for number in range(len(TABLE)):
            self.assertEqual(told_at(number, [PROGRAM]), [])


if __name__ == "__main__":
    unittest.main()
