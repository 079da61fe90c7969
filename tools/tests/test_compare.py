"""Tests of how two runs are compared, and of results as test suites read them."""

import contextlib
import importlib.util
import io
import json
import os
import tempfile
import unittest
import unittest.mock
import xml.etree.ElementTree
from pathlib import Path

import fixtures
from test_report import Page
from test_report_take import CONSTANT, take

from waplay_tools import compare
from waplay_tools.expecting import reading
from waplay_tools.expecting.writing import script_text
from waplay_tools.reporting import checks, runs
from waplay_tools.reporting.call_changes import changes_of, head_of
from waplay_tools.reporting.checks import Check
from waplay_tools.reporting.script_reading import script_of

GAIN = {"op": "createGain", "as": "g"}


def told(old, new):
    """The changes of two lists of calls but those that are alike, by their ordinals."""
    changes = changes_of(*(script_of(fixtures.script(calls)) for calls in (old, new)))
    return [(it.kind, it.old and it.old.ordinal, it.new and it.new.ordinal)
            for it in changes if it.kind != "same"]


class Calls(unittest.TestCase):
    def test_calls_that_are_alike(self):
        self.assertEqual(told(CONSTANT, CONSTANT), [])

    def test_a_call_that_is_new_or_gone(self):
        self.assertEqual(told(CONSTANT, [GAIN, *CONSTANT]), [("new", None, 1)])
        self.assertEqual(told([GAIN, *CONSTANT], CONSTANT), [("gone", 1, None)])

    def test_a_value_that_is_another_one(self):
        self.assertEqual(told(CONSTANT, [{**CONSTANT[0], "offset": 1}, *CONSTANT[1:]]),
                         [("changed", 1, 1)])

    def test_a_call_at_another_place(self):
        moved = [CONSTANT[0], CONSTANT[2], CONSTANT[1], CONSTANT[3]]
        (change,) = told(CONSTANT, moved)
        self.assertEqual(change[0], "moved")

    def test_other_names_are_no_change(self):
        renamed = json.loads(json.dumps(CONSTANT).replace('"c"', '"c2"'))
        self.assertEqual(told(CONSTANT, renamed), [])

    def test_a_script_and_what_is_migrated_of_it_are_alike(self):
        for name in ("first_piece", "tremolo", "swing"):
            old = Path(fixtures.EXAMPLES, f"{name}.json").read_bytes()
            scripts = script_of(old), script_of(script_text(reading.script_of(old)))
            self.assertEqual({it.kind for it in changes_of(*scripts)}, {"same"}, name)
            self.assertEqual(*map(head_of, scripts))

    def test_a_context_of_another_quantum_is_another_one(self):
        plain, told, other = (
            head_of(script_of(fixtures.script([], **more)))
            for more in ({}, {"renderQuantum": 128}, {"renderQuantum": 32})
        )
        self.assertEqual(plain, told)
        self.assertNotEqual(plain, other)

    def test_scripts_with_faults(self):
        for calls in ([7], [{"op": []}], [{"op": "no"}], [{}]):
            self.assertEqual(told(calls, calls), [])
            self.assertEqual([it[0] for it in told(calls, CONSTANT)].count("new"), 4)

    def test_a_name_that_stands_for_another_node_of_its_kind_is_a_change(self):
        two = [{"op": "createGain", "as": "a"}, {"op": "createGain", "as": "b"}]
        lead = {"op": "connect", "from": "a", "to": "destination"}
        self.assertEqual(told([*two, lead], [*two, {**lead, "from": "b"}]), [("changed", 3, 3)])


class Runs(unittest.TestCase):
    def setUp(self):
        folder = tempfile.TemporaryDirectory()
        self.addCleanup(folder.cleanup)
        self.folders = [os.path.join(folder.name, name) for name in ("old", "new")]
        for it in self.folders:
            os.mkdir(it)

    def takes(self, old, new, **more):
        """Writes two takes of these calls."""
        for folder, calls in zip(self.folders, (old, new)):
            take(folder, fixtures.script(calls, length=256), **more)

    def wrong(self, tolerance=0.0):
        """What is wrong, by the names of the checks."""
        return {it.name: it.wrong for it in runs.checks_of(*self.folders, tolerance) if it.wrong}

    def run_compare(self, *words):
        """The status and what is printed."""
        out, err = io.StringIO(), io.StringIO()
        with unittest.mock.patch("sys.argv", ["compare", *self.folders, *words]):
            with contextlib.redirect_stdout(out), contextlib.redirect_stderr(err):
                return compare.main(), out.getvalue(), err.getvalue()

    def test_equal_runs(self):
        self.takes(CONSTANT, CONSTANT)
        self.assertEqual(self.wrong(), {})
        self.assertEqual(self.run_compare()[0], 0)

    def test_samples_that_differ(self):
        self.takes(CONSTANT, [{**CONSTANT[0], "offset": 2**22 + 4}, *CONSTANT[1:]])
        found = self.wrong()
        self.assertEqual(found["context 1: samples"], "Context 1: 256 samples differ, first at"
                         " frame 0 of channel 0, by 2.38e\u22127 at most.")
        told = "calls are other ones (1 changed), first call 1: changed createConstantSource"
        self.assertIn(told, found["context 1: calls"])
        self.assertNotIn("context 1: samples", self.wrong(2.0**-20))

    def test_an_exception_that_is_another_one(self):
        self.takes(CONSTANT, CONSTANT)
        lines = "1 ok\n2 throw TypeError\n3 ok\n4 pending\n4 resolved\n"
        lines += "complete 256\nend completed\n"
        fixtures.write(self.folders[1], "1.txt", lines)
        self.assertEqual(self.wrong(), {"context 1: answers": "Context 1: 1 answer differs, first"
                                        " call 2, connect, was 2 ok and is 2 throw TypeError."})

    def test_answers_of_calls_that_have_other_numbers(self):
        self.takes(CONSTANT, [GAIN, *CONSTANT])
        self.assertEqual(list(self.wrong()), ["context 1: calls"])

    def test_contexts_that_come_and_go(self):
        self.takes(CONSTANT, CONSTANT)
        take(self.folders[1], fixtures.script(CONSTANT, length=256), number=2)
        self.assertEqual(self.wrong(), {"context 2": "context 2 is new."})

    def test_the_page_and_the_lines(self):
        self.takes(CONSTANT, [GAIN, *CONSTANT])
        path = os.path.join(self.folders[0], "page.html")
        status, out, _ = self.run_compare("-o", path, "--tap")
        self.assertEqual(status, 1)
        self.assertIn("not ok 1 - context 1: calls\n# Context 1: calls are other ones (1 new)", out)
        with open(path, "rb") as file:
            page = Page(file.read())
        self.assertEqual(page.wrong, [])
        self.assertEqual(len(page.of("tr", **{"class": "new"})), 1)
        self.assertEqual(len(page.of("audio")), 2)

    def test_folders_that_are_no_takes(self):
        status, _, err = self.run_compare()
        self.assertEqual(status, 2)
        self.assertIn("old is no folder of a take", err)


class Results(unittest.TestCase):
    CHECKS = [Check("one", "", 0.5), Check("two # <b>", "It is <wrong>.")]

    def test_lines_of_tap(self):
        self.assertEqual(checks.tap(self.CHECKS), "TAP version 13\n1..2\nok 1 - one\n"
                         "not ok 2 - two \\# <b>\n# It is <wrong>.\n")

    @unittest.skipUnless(importlib.util.find_spec("junitparser"), "junitparser is not installed")
    def test_junit_xml(self):
        suite = xml.etree.ElementTree.fromstring(checks.junit("suite", self.CHECKS))[0]
        self.assertEqual((suite.get("name"), suite.get("tests"), suite.get("failures")),
                         ("suite", "2", "1"))
        self.assertEqual([it.get("name") for it in suite], ["one", "two # <b>"])
        self.assertEqual(suite[1][0].get("message"), "It is <wrong>.")


if __name__ == "__main__":
    unittest.main()
