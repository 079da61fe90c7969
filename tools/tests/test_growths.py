"""Tests of how growths are refused, and that a run ends with status 10 then.

The programs are those that the variables WAPLAY, WAEXPLAIN and WAPRUNE name, or else the shipped
ones. Where there is no program, or no C compiler, the tests are skipped."""

import contextlib
import io
import os
import tempfile
import unittest
from pathlib import Path

import fixtures
from waplay_tools.growths.__main__ import BEFORE, compiled, judged, performed, refused_in, whole_of
from waplay_tools.growths.scripts import ASSET, EXPLAIN_RUNS, PRUNE_RUNS, RUNS

PROGRAM = fixtures.tried("waplay")
EXPLAIN_PROGRAM = fixtures.tried("waexplain")
PRUNE_PROGRAM = fixtures.tried("waprune")


@unittest.skipUnless(os.access(PROGRAM, os.X_OK), "there is no program")
class Growths(unittest.TestCase):
    def setUp(self) -> None:
        room = tempfile.TemporaryDirectory()
        self.addCleanup(room.cleanup)
        library = compiled(Path(room.name))
        if library is None:
            self.skipTest("there is no C compiler")
        self.library = library

    def test_runs_end_as_they_have_to_where_nothing_is_refused(self) -> None:
        self.assertEqual(len(ASSET), 85)
        for it in RUNS:
            whole = whole_of(PROGRAM, self.library, it)
            self.assertGreater(whole.growths, 20, it.shows)
            self.assertIn(whole.answer.status, (0, 2, 4), it.shows)
            self.assertNotIn(b"throw", whole.answer.text, it.shows)

    def test_each_growth_of_a_run_is_refused(self) -> None:
        with contextlib.redirect_stdout(io.StringIO()) as text:
            growths, wrong = refused_in(PROGRAM, self.library, RUNS[0])
        self.assertEqual(wrong, [])
        self.assertIn(f"status 0, {growths} growths, each refused twice", text.getvalue())

    def test_a_number_past_the_last_growth_refuses_none(self) -> None:
        whole = whole_of(PROGRAM, self.library, RUNS[0])
        told = {"REFUSED": str(whole.growths + 1)}
        left = performed(PROGRAM, self.library, RUNS[0], told)
        self.assertEqual((left.ran.status, left.growths), (0, whole.growths))
        self.assertEqual(set(left.files), set(BEFORE))
        found = judged(PROGRAM, self.library, RUNS[0], whole, told)
        self.assertEqual(found.faults, ["status 0 in place of 10"])

    @unittest.skipUnless(os.access(EXPLAIN_PROGRAM, os.X_OK), "there is no waexplain")
    def test_so_it_is_with_waexplain(self) -> None:
        for it in EXPLAIN_RUNS:
            whole = whole_of(EXPLAIN_PROGRAM, self.library, it)
            self.assertGreater(whole.growths, 5, it.shows)
            self.assertIn(whole.answer.status, (0, 2, 3, 4, 12, 13), it.shows)
        for it in EXPLAIN_RUNS[:2]:
            with contextlib.redirect_stdout(io.StringIO()):
                self.assertEqual(refused_in(EXPLAIN_PROGRAM, self.library, it)[1], [])

    @unittest.skipUnless(os.access(PRUNE_PROGRAM, os.X_OK), "there is no waprune")
    def test_so_it_is_with_waprune(self) -> None:
        for it in PRUNE_RUNS:
            whole = whole_of(PRUNE_PROGRAM, self.library, it)
            self.assertGreater(whole.growths, 5, it.shows)
            self.assertIn(whole.answer.status, (0, 2, 3, 4), it.shows)
        with contextlib.redirect_stdout(io.StringIO()):
            self.assertEqual(refused_in(PRUNE_PROGRAM, self.library, PRUNE_RUNS[0])[1], [])


if __name__ == "__main__":
    unittest.main()
