"""Tests of how cases are read, written short, run and compared."""

import dataclasses
import hashlib
import json
import tempfile
import unittest
from pathlib import Path

import fixtures
from waplay_tools import wav
from waplay_tools.cases.__main__ import CASES, files_in
from waplay_tools.cases.case import OF_VARIANTS, Case, CaseFault, case_of, read_case
from waplay_tools.cases.differences import differences, wanted_file
from waplay_tools.cases.expansion import calls_in, lines_in, runs_in, runs_of
from waplay_tools.cases.folder import changes_in, content_of, write_files
from waplay_tools.cases.layout import layout
from waplay_tools.cases.performers import Outcome, calculate
from waplay_tools.cases.words import words_of
from waplay_tools.places import PROGRAMS, TOP
from waplay_tools.program_words import option_of

SCHEMA = json.loads((TOP / "tests" / "case.schema.json").read_text(encoding="utf-8"))
CONTEXT = {"channels": 1, "length": 3, "rate": 8000}
MEMBERS = {
    "shows": "three samples",
    "from": "by hand",
    "transcript": ["1 ok", "end completed"],
    "script": {"version": 1, "context": CONTEXT, "calls": []},
    "samples": [[[3, 1, 2]]],
}


def case_with(**members: object) -> Case:
    return case_of({**MEMBERS, **members}, Path("tests/cases/made/up.json"))


def told(
    case: Case, text: str = "1 ok\nend completed\n", status: int = 0, samples: object = (1, 3, 5)
) -> list[str]:
    file = None if samples is None else wav.wav_bytes(wav.Form(1, 8000, 24), [list(samples)])
    return differences(case, Outcome(status, text.encode(), file), None)


class ShortForms(unittest.TestCase):
    def test_runs_are_written_out_and_found_again(self):
        for numbers in ([], [5], [1, 2], [0, 0, 0, 7], [1, 2, 3, 9, 9], [3, 1, 4, 1, 5]):
            self.assertEqual(runs_in(runs_of(numbers)), numbers)
        self.assertEqual(runs_of([1, 2, 3, 9, 9]), [[3, 1, 1], [2, 9, 0]])
        self.assertEqual(runs_of([1, 0, 0, 0, 1, 1]), [[1, 1, 0], [3, 0, 0], [2, 1, 0]])

    def test_runs_that_come_again_and_again(self):
        self.assertEqual(runs_in([[2, [[1, 5, 0], [2, 7, 1]]], [1, 0, 0]]), [5, 7, 8, 5, 7, 8, 0])
        self.assertEqual(runs_in([[2, [[2, [[1, 3, 0], [1, 4, 0]]]]]]), [3, 4] * 4)

    def test_a_range_of_lines_is_a_line_each(self):
        self.assertEqual(
            lines_in(["1 throw TypeError", "2..4 ok"]),
            ["1 throw TypeError", "2 ok", "3 ok", "4 ok"],
        )

    def test_calls_are_made_for_each_number(self):
        calls = [
            {
                "for": "n",
                "first": 0,
                "last": 1,
                "calls": [
                    {
                        "op": "connect",
                        "from": "g{n}",
                        "to": "g{n+1}",
                        "output": "{n}",
                        "x": "{n*128+1}",
                    }
                ],
            }
        ]
        self.assertEqual(
            calls_in(calls),
            [
                {"op": "connect", "from": "g0", "to": "g1", "output": 0, "x": 1},
                {"op": "connect", "from": "g1", "to": "g2", "output": 1, "x": 129},
            ],
        )

    def test_numbers_of_two_loops_stand_together(self):
        calls = [
            {
                "for": "a",
                "first": 1,
                "last": 2,
                "calls": [{"for": "b", "first": 1, "last": 2, "calls": ["{a}{b}"]}],
            }
        ]
        self.assertEqual(calls_in(calls), ["11", "12", "21", "22"])

    def test_runs_stand_for_a_list_in_a_call_and_in_a_list_that_it_holds(self):
        call = {"op": "suspend", "then": [{"samples": {"runs": [[2, 5, 1]]}}, {"as": "{n}"}]}
        self.assertEqual(
            calls_in([call]), [{"op": "suspend", "then": [{"samples": [5, 6]}, {"as": "{n}"}]}]
        )


class Reading(unittest.TestCase):
    def test_faults_of_cases_are_told(self):
        for change in ({"sample": []}, {"input": ""}, {"samples_at": {"0": [1]}}):
            with self.assertRaises(CaseFault):
                case_with(**change)
        for name in ("shows", "from", "transcript", "script"):
            with self.assertRaises(CaseFault):
                case_of({key: it for key, it in MEMBERS.items() if key != name}, Path())

    def test_fronts_are_a_run_each(self):
        members = {**MEMBERS, "fronts": True, "input": "[1]"}
        del members["script"], members["samples"]
        runs = case_of(members, Path()).each()
        self.assertEqual([one.input_bytes() for _, one in runs], [b"", b"[", b"[1"])
        self.assertEqual(runs[2][0], "over its first 2 bytes, ")
        self.assertEqual(case_with().each(), [("", case_with())])

    def test_variants_are_a_run_each(self):
        runs = case_with(variants=[{"status": 3}, {"words": ["x"], "transcript": []}]).each()
        self.assertEqual([which for which, _ in runs], ["variant 1, ", "variant 2, "])
        self.assertEqual([it.status for _, it in runs], [3, 0])
        self.assertEqual(runs[1][1].each(), [("", case_with(words=["x"], transcript=[]))])
        with self.assertRaises(CaseFault):
            case_with(variants=[{"script": {}}])

    def test_a_last_line_that_is_cut(self):
        self.assertEqual(case_with(is_cut=True).text(), "1 ok\nend completed")
        self.assertEqual(case_with(transcript=[], is_cut=True).text(), "")

    def test_the_schema_has_the_members_of_a_case(self):
        names = {field.name for field in dataclasses.fields(Case)} - {"is_example", "path"}
        self.assertEqual(set(SCHEMA["properties"]), (names - {"source"}) | {"from"})
        self.assertEqual(SCHEMA["properties"]["program"]["enum"], list(PROGRAMS))
        of_variants = SCHEMA["properties"]["variants"]["items"]["properties"]
        self.assertEqual(set(of_variants), OF_VARIANTS)

    def test_each_case_has_the_one_layout(self):
        for path in files_in([CASES]):
            text = path.read_text(encoding="utf-8")
            self.assertEqual(layout(json.loads(text)), text, path)

    def test_each_case_is_one_and_meets_the_schema(self):
        try:
            import jsonschema
        except ImportError:
            self.skipTest("the module jsonschema is not installed")
        look = jsonschema.Draft202012Validator(SCHEMA)
        for path in files_in([CASES]):
            read_case(path)
            self.assertEqual(
                [it.message for it in look.iter_errors(json.loads(path.read_text()))], [], path
            )

    def test_words(self):
        self.assertEqual(words_of(["--bits", "16", "--mode=check", "a.wav"]).bits, 16)
        self.assertEqual(words_of(["--", "--x"]).out, "--x")
        for words in (
            [],
            ["a", "b"],
            ["--bits", "8", "a"],
            ["--what", "a"],
            ["--bits=16", "--bits=16", "a"],
        ):
            self.assertIsNone(words_of(words))


class Comparing(unittest.TestCase):
    def test_what_is_as_wanted_is_not_told(self):
        self.assertEqual(told(case_with()), [])

    def test_each_kind_of_difference_is_told_in_words(self):
        case = case_with()
        self.assertEqual(told(case, status=3), ["status: wanted 0, found 3"])
        self.assertEqual(
            told(case, text="1 throw TypeError\nend completed\n"),
            ["line 1, of call 1: wanted “1 ok”, found “1 throw TypeError”"],
        )
        self.assertEqual(
            told(case, text="1 ok\n"), ["line 2: wanted “end completed”, found no line"]
        )
        self.assertEqual(
            told(case, samples=(1, 4, 6)),
            ["frame 1, channel 0: wanted 3, found 4; 2 samples differ"],
        )
        self.assertEqual(told(case, samples=(1, 3)), ["WAV file: wanted 3 frames, found 2"])
        self.assertEqual(
            told(case, samples=None), ["WAV file: wanted one of 54 bytes, found no file"]
        )

    def test_samples_of_some_frames(self):
        members = {key: it for key, it in MEMBERS.items() if key != "samples"}
        case = case_of({**members, "samples_at": {"1": [3]}, "frames": 3}, Path())
        self.assertEqual(told(case), [])
        self.assertEqual(told(case, samples=(1, 9, 5)), ["frame 1, channel 0: wanted 3, found 9"])
        self.assertEqual(told(case, samples=(1, 3)), ["WAV file: wanted 3 frames, found 2"])

    def test_a_digest(self):
        members = {key: it for key, it in MEMBERS.items() if key != "samples"}
        case = case_of({**members, "wav_sha256": "0" * 64}, Path())
        self.assertTrue(told(case)[0].startswith("digest of the file: wanted 000"))

    def test_a_file_has_an_even_number_of_bytes(self):
        self.assertEqual(len(wanted_file(case_with())), 44 + 9 + 1)


class Performing(unittest.TestCase):
    def test_the_second_calculation_writes_a_derivation(self):
        path = CASES / "deriving" / "a_constant_for_one_quantum.json"
        with tempfile.TemporaryDirectory() as room:
            outcome = calculate(read_case(path), Path(room))
            self.assertEqual(outcome, Outcome(0, b"facts 6\n", None))
            self.assertEqual((Path(room) / "d.txt").read_bytes().count(b"\n"), 6)

    def test_the_second_calculation_writes_a_pruned_script(self):
        path = CASES / "pruning" / "each_call_is_heard.json"
        with tempfile.TemporaryDirectory() as room:
            outcome = calculate(read_case(path), Path(room))
            self.assertEqual(outcome, Outcome(0, b"pruned 4 of 4\n", None))
            self.assertTrue((Path(room) / "out.json").read_bytes().startswith(b'{"calls":[{"as"'))

    def test_a_program_that_is_not_there(self):
        there = [word for name in PROGRAMS for word in (option_of(name), "/bin/sh")]
        for name in PROGRAMS:
            done = fixtures.run("cases", *there, option_of(name), "/nowhere", text=True)
            self.assertEqual((done.returncode, done.stdout), (2, ""))
            self.assertIn("there is no program /nowhere", done.stderr)


class Folders(unittest.TestCase):
    def test_files_are_written_and_changes_are_told(self):
        files = {
            "a/b": {"hex": ["00 ff"]},
            "c": {"zeros": 3},
            "d": {"folder": True},
            "e": {"text": "x"},
        }
        with tempfile.TemporaryDirectory() as room:
            folder = Path(room)
            write_files(folder, files)
            self.assertEqual((folder / "a/b").read_bytes(), b"\0\xff")
            self.assertEqual(changes_in(folder, files, {}, None), [])
            (folder / "e").write_text("y")
            (folder / "new").write_text("z")
            (folder / "d").rmdir()
            self.assertEqual(len(changes_in(folder, files, {}, None)), 3)
            self.assertEqual(changes_in(folder, files, {"e": {"text": "y"}, "d": None}, "new"), [])

    def test_a_file_of_lines_and_one_that_is_told_by_its_digest(self):
        digest = hashlib.sha256(b"a\nb\n").hexdigest()
        with tempfile.TemporaryDirectory() as room:
            folder = Path(room)
            write_files(folder, {"x": {"lines": ["a", "b"]}})
            self.assertEqual((folder / "x").read_bytes(), b"a\nb\n")
            self.assertEqual(changes_in(folder, {}, {"x": {"sha256": digest}}, None), [])
            (folder / "x").write_text("a\n")
            self.assertEqual(len(changes_in(folder, {}, {"x": {"sha256": digest}}, None)), 1)
            (folder / "x").unlink()
            self.assertEqual(len(changes_in(folder, {}, {"x": {"sha256": digest}}, None)), 1)

    def test_a_file_that_is_a_script(self):
        read = {"for": "n", "first": 1, "last": 2, "calls": [{"op": "readTime", "n": "{n}"}]}
        context = {"channels": 1, "length": 1, "rate": 8000}
        told = {"script": {"version": 1, "context": context, "calls": [read]}}
        wanted = (
            b'{"calls":[{"op":"readTime"},{"op":"readTime"}],"context":{"channels":1,"length":1,'
            b'"rate":8000,"renderQuantum":128},"version":2}'
        )
        self.assertEqual(content_of(told), wanted)

    def test_fronts_of_a_file_are_a_file_each(self):
        files = {"cut/{n}": {"fronts": {"hex": "00ff"}}, "whole": {"text": "x"}}
        with tempfile.TemporaryDirectory() as room:
            write_files(Path(room), files)
            found = [(Path(room) / "cut" / str(n)).read_bytes() for n in range(3)]
            self.assertEqual(found, [b"", b"\0", b"\0\xff"])
            self.assertEqual(changes_in(Path(room), files, {}, None), [])
            (Path(room) / "cut" / "1").unlink()
            self.assertEqual(len(changes_in(Path(room), files, {}, None)), 1)

    def test_a_file_of_samples(self):
        data = content_of(
            {"wav": {"rate": 8000, "bits": 16, "channels": [[[2, 1, 1]], [[2, -1, 0]]]}}
        )
        form = wav.form_of(data)
        self.assertEqual(
            (form, wav.samples_of(data, form)), (wav.Form(2, 8000, 16), [1, -1, 2, -1])
        )


if __name__ == "__main__":
    unittest.main()
