"""Tests of how scripts, bytes and streams are changed, and of what is found in programs that are
wrong: small scripts of sh in place of waplay. Where the module hypothesis is missing, those that
want it are skipped."""

import importlib.util
import json
import os
import tempfile
import time
import unittest
from pathlib import Path

from waplay_tools.fuzz import pieces, trees
from waplay_tools.fuzz.smaller import smaller
from waplay_tools.fuzz.trials import Trial, ill_formed, judged, keep
from waplay_tools.places import SHIPPED
from waplay_tools.running import FULL, Terms
from waplay_tools.shrinking import shortened

PROGRAM = Path(os.environ.get("WAPLAY") or SHIPPED).absolute()
SCRIPT = b'{"version":1,"context":{"channels":1,"length":1,"rate":8000},"calls":[]}'
RENDERED = SCRIPT.replace(b"[]", b'[{"op":"startRendering"}]')
IDLE = "cat >/dev/null; echo end idle; exit 3"
HAS_HYPOTHESIS = importlib.util.find_spec("hypothesis") is not None


class Changes(unittest.TestCase):
    def changed(self, text: str, name: str, where: int, what: int) -> str:
        tree = trees.tree_of(text)
        places = list(trees.places_in(tree))
        getattr(trees, name)(places[where], what, places)
        return trees.text_of(tree).decode()

    def test_a_text_is_written_as_it_was(self) -> None:
        for text in ['{"a":1,"a":-0,"b":[1e400,"\\u00e9",null]}', "[]", "true", "1.50"]:
            self.assertEqual(trees.text_of(trees.tree_of(text)).decode(), text)

    def test_changes_of_values(self) -> None:
        text = '{"a":[1,2],"b":"c"}'
        for name, where, what, wanted in [
            ("_near", 1, 0, '{"a":[2,2],"b":"c"}'),
            ("_near", 3, 0, text),
            ("_out", 0, 0, '{"b":"c"}'),
            ("_again", 3, 0, '{"a":[1,2],"b":"c","b":"c"}'),
            ("_swapped", 1, 1, '{"a":[2,1],"b":"c"}'),
            ("_alike", 1, 1, '{"a":[2,2],"b":"c"}'),
            ("_as_another", 3, 0, '{"a":[1,2],"b":[1,2]}'),
            ("_as_another", 1, 0, '{"a":[[1,2],2],"b":"c"}'),
            ("_moved", 1, 2, '{"a":[2,1],"b":"c"}'),
            ("_nested", 3, 2, '{"a":[1,2],"b":[["c"]]}'),
            ("_nested", 3, 1, '{"a":[1,2],"b":{"x":"c"}}'),
            ("_renamed", 3, 0, '{"a":[1,2],"a":"c"}'),
        ]:
            self.assertEqual(self.changed(text, name, where, what), wanted, name)

    def test_every_change_leaves_a_text(self) -> None:
        for number in range(len(trees.CHANGES)):
            for where in range(12):
                tree = trees.tree_of(RENDERED.decode())
                trees.change(tree, number, where, 7 * where + number)
                self.assertTrue(trees.text_of(tree))
        trees.change("no place", 0, 0, 0)

    def test_changes_of_bytes(self) -> None:
        wanted = [b"a%ccdef" % 7, b"a\xe2cdef", b"a[cdef", b"adef", b"abcbcdef", b"adbcef", b"a"]
        told = [(0, 7), (1, 7), (2, 3), (3, 0), (4, 0), (5, 0), (6, 0)]
        found = [pieces.change(b"abcdef", number, 1, 2, what) for number, what in told]
        wanted[2] = b"a" + pieces.PIECES[3] + b"bcdef"
        self.assertEqual(found, wanted)
        for data, what, wanted in [(b"a1", 13, b"a3"), (b"ab", 0, b"aa"), (b"a{", 0, b"a{")]:
            self.assertEqual(pieces.change(data, 7, 1, 0, what), wanted)

    def test_shortening(self) -> None:
        self.assertEqual(shortened(b"xxaxxbxx", lambda it: b"a" in it and b"b" in it), b"ab")
        self.assertEqual(shortened([1, 2, 3, 4], lambda it: sum(it) > 6), [3, 4])
        self.assertEqual(shortened(b"", lambda it: True), b"")


class Programs(unittest.TestCase):
    def setUp(self) -> None:
        room = tempfile.TemporaryDirectory()
        self.addCleanup(room.cleanup)
        self.folder = Path(room.name)

    def program(self, script: str) -> Path:
        path = self.folder / "program"
        path.write_text(f"#!/bin/sh\n{script}\n")
        path.chmod(0o755)
        return path


class Judging(Programs):
    def faults(self, script: str, trial: Trial = Trial(SCRIPT)) -> list[str]:
        return judged(self.program(script), trial).faults

    def test_what_is_right_has_no_fault(self) -> None:
        self.assertEqual(self.faults(IDLE), [])
        self.assertEqual(self.faults("echo end idle; exit 3", Trial(SCRIPT, (b"a b",))), [])

    def test_what_is_wrong_is_found(self) -> None:
        for script, fault in [
            ("cat >/dev/null; echo end idle; exit 1", "status 1"),
            ("cat >/dev/null; echo end idle", "status 0 in place of 3"),
            ("cat >/dev/null; exit 3", "the text is cut"),
            ("cat >/dev/null; echo end idly; exit 3", "the text is no front part"),
            (f"echo >&2; {IDLE}", "on standard error"),
            (f"echo >out.wav; {IDLE}", "OUT is touched"),
            (f"echo >beside; {IDLE}", "'beside' in the folder is not as before"),
            (f"echo >another; {IDLE}", "'another' in the folder is not as before"),
            ("cat >/dev/null; exit 10", "status 10 in place of 3"),
            ("kill -SEGV $$", "status -11"),
        ]:
            found = self.faults(script)
            self.assertEqual(len(found), 1, (script, found))
            self.assertIn(fault, found[0])

    def test_faults_that_the_terms_let_come(self) -> None:
        full = Trial(SCRIPT, terms=Terms(output=FULL))
        self.assertEqual(self.faults("exit 8", full), [])
        self.assertIn("the text is cut", self.faults("exit 3", full)[0])
        self.assertNotEqual(self.faults("exit 9", full), [])

    def test_forms_of_texts(self) -> None:
        good = b"1 ok\n2 throw TypeError\n3 rejected NotSupportedError profile:node-limit\n"
        self.assertEqual(ill_formed(0, good + b"ended 1 a-b\ncomplete 128\nend completed\n"), [])
        self.assertEqual(ill_formed(3, b"1 value -5\n2 state closed\nend stalled 128\n"), [])
        self.assertEqual(ill_formed(4, b"script: 1 gain OutOfRange\n"), [])
        for status, text in [
            (0, good + b"end idle\n"),
            (3, good),
            (3, b"end idle"),
            (3, b"1 done\nend idle\n"),
            (4, b"script: no\n"),
        ]:
            self.assertNotEqual(ill_formed(status, text), [], text)

    def test_what_is_found_is_kept(self) -> None:
        keep(Trial(SCRIPT, assets={"a.wav": b"RIFF"}), ["status 1"], self.folder / "kept")
        told = json.loads((self.folder / "kept" / "found.json").read_text())
        self.assertEqual((told["wrong"], told["words"]), (["status 1"], ["out.wav"]))
        self.assertEqual((self.folder / "kept" / "script.json").read_bytes(), SCRIPT)
        self.assertEqual((self.folder / "kept" / "a.wav").read_bytes(), b"RIFF")

    @unittest.skipUnless(os.access(PROGRAM, os.X_OK), "there is no program")
    def test_the_program_has_no_fault(self) -> None:
        for trial in [
            Trial(RENDERED),
            Trial(RENDERED, (b"--mode=check", b"--gen=5", b"x")),
            Trial(RENDERED, terms=Terms(output=5)),
            Trial(RENDERED, terms=Terms(file_most=45)),
            Trial(RENDERED, terms=Terms(given=None)),
            Trial(b"[" * 100000),
        ]:
            self.assertEqual(judged(PROGRAM, trial).faults, [])


class Smaller(Programs):
    def test_values_bytes_and_assets_go(self) -> None:
        wrong = self.program(
            'grep -q "readTime" && [ -e a.wav ] && kill -9 $$; echo end idle; exit 3'
        )
        calls = b'[{"op":"resume"},{"op":"readTime","x":[1,2]},{"op":"readState"}]'
        assets = {"a.wav": b"RIFF", "b.wav": b"RIFF"}
        trial = Trial(SCRIPT.replace(b"[]", calls), assets=assets)
        found, faults = smaller(wrong, trial, ["status -9"])
        self.assertEqual(found.given, b'{"calls":[{"op":"readTime"}]}')
        self.assertEqual((found.assets, faults), ({"a.wav": b""}, ["status -9"]))
        found, _ = smaller(wrong, Trial(b'[["readTime"', assets=assets), ["status -9"])
        self.assertEqual(found.given, b"readTime")


@unittest.skipUnless(HAS_HYPOTHESIS, "the module hypothesis is not installed")
class Rounds(Programs):
    def test_each_kind_draws_trials(self) -> None:
        from waplay_tools.fuzz.rounds import Job, play
        from waplay_tools.fuzz.strategies import KINDS

        for kind in KINDS:
            done = play(Job(self.program("kill -9 $$"), kind, 1, 0, time.time() + 30))
            self.assertIsNotNone(done.found, kind)

    def test_what_is_found_is_made_small(self) -> None:
        from waplay_tools.fuzz.rounds import Job, play

        wrong = self.program('cat >given; grep -q "\\[" given && rm given && kill -9 $$; rm given')
        done = play(Job(wrong, "bytes of scripts", 1, 0, time.time() + 30))
        assert done.found is not None
        self.assertLess(done.found[0].size(), 200)


if __name__ == "__main__":
    unittest.main()
