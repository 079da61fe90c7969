"""Tests of the worst scripts: each is one without a fault, within the limit, and a run of the
program is measured.

The program is the one that the variable WAPLAY names, or else the shipped one. Where neither is
there, it is not run."""

import argparse
import json
import os
import unittest
from pathlib import Path

from waplay_tools.expecting.reading import script_of
from waplay_tools.places import SHIPPED
from waplay_tools.running import Ran
from waplay_tools.worst.__main__ import measured, told
from waplay_tools.worst.scripts import (
    ASSET,
    LEFT,
    MOST,
    PAGE,
    TABLE,
    all_at_once,
    all_at_once_in_full_length,
    writes,
)

PROGRAM = Path(os.environ.get("WAPLAY") or SHIPPED).absolute()
READ = 1000000  # bytes of a script that the second calculation reads soon


class WorstScripts(unittest.TestCase):
    def test_each_is_a_script_within_the_limit(self) -> None:
        self.assertEqual(len({it.shows for it in TABLE}), len(TABLE))
        read = 0
        for it in TABLE:
            text = it.text()
            self.assertLessEqual(len(text), MOST, it.shows)
            self.assertTrue(text.startswith('{"version":1,') and text.endswith("}"), it.shows)
            if "16 MiB" in it.shows:
                self.assertGreater(len(text), MOST - 2**8, it.shows)
            if len(text) <= READ:
                script_of(text.encode())
                read += 1
        self.assertGreater(read, 10)

    def test_full_length_adds_calls_before_rendering_starts(self) -> None:
        fullest = json.loads(all_at_once())
        longest = json.loads(all_at_once_in_full_length())
        calls, last = fullest["calls"], len(fullest["calls"]) - 1
        added = longest["calls"][last:-1]
        self.assertGreater(len(added), 190000)
        self.assertEqual({call["op"] for call in added}, {"copyToChannel"})
        del longest["calls"][last:-1]
        self.assertEqual(calls[last]["op"], "startRendering")
        self.assertEqual(longest, fullest)

    def test_all_at_once_has_as_many_samples_as_buffers_may_have(self) -> None:
        calls = json.loads(all_at_once())["calls"]
        made = [call for call in calls if call["op"] == "createBuffer"]
        created = sum(call["channels"] * call["length"] for call in made)
        self.assertEqual(created + ASSET + LEFT, 2**27)

    def test_each_write_has_two_pages_of_its_own(self) -> None:
        written = list(writes("ab", 3, 20 * PAGE))
        self.assertEqual(len(written), 2 * 3 * 10)
        pages = set()
        for call in written:
            for at in range(call["at"], call["at"] + len(call["samples"])):
                pages.add((call["buffer"], call["channel"], at // PAGE))
        self.assertEqual(len(pages), 2 * len(written))

    @unittest.skipUnless(os.access(PROGRAM, os.X_OK), "there is no program")
    def test_a_run_is_measured(self) -> None:
        asked = argparse.Namespace(waplay=PROGRAM, patience=100, seconds=None, memory=None)
        (number,) = [at for at, it in enumerate(TABLE) if it.shows == "8,192 connections"]
        length, ran = measured(number, asked)
        self.assertEqual((length, ran.status), (len(TABLE[number].text()), 0))
        cells, is_good = told(length, ran, asked)
        self.assertEqual((cells[1], is_good), ("0", True))

    def test_a_row_tells_what_was_too_much(self) -> None:
        ran = Ran(0, b"", b"", 6.0, 700 * 2**20, False)
        asked = argparse.Namespace(seconds=5, memory=None)
        self.assertEqual(told(1234, ran, asked), (["1,234", "0", "6.00", "700"], False))
        asked = argparse.Namespace(seconds=7, memory=600)
        self.assertFalse(told(1, ran, asked)[1])
        asked = argparse.Namespace(seconds=7, memory=800)
        self.assertTrue(told(1, ran, asked)[1])
        late = ran._replace(is_late=True, status=-9)
        self.assertEqual(told(1, late, asked)[0][1], "late")


if __name__ == "__main__":
    unittest.main()
