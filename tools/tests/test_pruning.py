"""Tests of how scripts are pruned, and of the tool that looks at it.

What is left of scripts is shown by the cases below tests/cases/pruning. The programs are those that
the variables WAPLAY and WAPRUNE name, or else the shipped ones. Where one of them is not there,
they are not run. PRUNED_SCRIPTS says how many random scripts there are."""

import contextlib
import functools
import os
import subprocess
import tempfile
import unittest
import unittest.mock
from pathlib import Path
from typing import Any

import fixtures
from waplay_tools import prunings
from waplay_tools.cases.case import read_case
from waplay_tools.cases.folder import write_files
from waplay_tools.expecting.reading import script_of
from waplay_tools.expecting.sessions import replayed, wav_bytes
from waplay_tools.expecting.writing import script_text
from waplay_tools.places import CASES, EXAMPLES
from waplay_tools.pruning.heard import Hearing
from waplay_tools.pruning.pruned import pruned
from waplay_tools.prunings import Outcome, Programs
from waplay_tools.waprune import USAGE, answer_to, out_of

PROGRAM = fixtures.tried("waplay")
PRUNE_PROGRAM = fixtures.tried("waprune")
COUNT = int(os.environ.get("PRUNED_SCRIPTS", "60"))
FULL = "/dev/full"
SECOND = Programs(prunings.played, prunings.pruned_here)


def call(op: str, **fields: Any) -> dict[str, Any]:
    return {"op": op, **fields}


def connect(source: str, target: str, **fields: Any) -> dict[str, Any]:
    return {"op": "connect", "from": source, "to": target, **fields}


def gain(name: str) -> dict[str, Any]:
    return {"op": "createGain", "as": name}


CREATED = {"op": "createConstantSource", "as": "c"}
HEARD = connect("c", "destination")
STARTED = call("start", node="c")
RENDERED = call("startRendering")
OSCILLATOR = {"op": "createOscillator", "as": "o"}
A_QUANTUM = [CREATED, HEARD, STARTED, RENDERED]  # a constant for one quantum


def suspend(time: int, *calls: dict[str, Any]) -> dict[str, Any]:
    return call("suspend", time=time, then=list(calls))


def sound_of(data: bytes, folder: str = os.curdir) -> bytes:
    """The WAV file of a script."""
    session = replayed(data, folder)[2]
    assert session is not None
    return wav_bytes(session)


class Scripts(unittest.TestCase):
    """What is left of the scripts of cases."""

    def test_what_is_left_sounds_the_same_and_has_no_refusal(self) -> None:
        looked = 0
        for path in sorted((CASES / "pruning").glob("*.json")):
            case = read_case(path)
            data = case.input_bytes()
            if case.program == "waprune" and case.status == 0 and data is not None:
                with self.subTest(path.stem), tempfile.TemporaryDirectory() as folder:
                    write_files(Path(folder), case.files)
                    self.look_at(data, folder)
                    looked += 1
        self.assertGreater(looked, 45)

    def look_at(self, data: bytes, folder: str) -> None:
        """Looks at what is left of a script of these bytes."""
        it = pruned(data, folder)
        text = script_text(it.script)
        self.assertEqual(sound_of(text, folder), sound_of(data, folder))
        self.assertNotRegex(replayed(text, folder)[1], "throw|rejected")
        again = pruned(text, folder)
        self.assertEqual(again.of, it.kept)
        if prunings.without_late(script_of(data)) == script_text(script_of(data)):
            self.assertEqual(script_text(again.script), text)

    def test_nodes_that_are_not_heard(self) -> None:
        calls = [CREATED, gain("g"), gain("h"), gain("g"), connect("c", "g"),
                 connect("g", "destination"), RENDERED]
        it = script_of(fixtures.script(calls))
        lines = ["%d ok" % number for number in range(1, 7)] + ["7 pending", "7 resolved"]
        hearing = Hearing([(n, c, []) for n, c in enumerate(it["calls"], 1)], lines)
        self.assertEqual(hearing.silent(), [2, 3])
        self.assertEqual(hearing.kept_ordinals(), {1, 4, 5, 6, 7})


class Answers(unittest.TestCase):
    """What waprune answers by the second calculation."""

    def test_words(self) -> None:
        self.assertEqual(out_of(["a b"]), "a b")
        for words in ([], [""], ["-"], ["-x"], ["a", "b"], ["\udcff"]):
            self.assertIsNone(out_of(words))
            self.assertEqual(answer_to(words, b"{", "."), (2, USAGE, None))

    def test_an_answer_has_a_script_where_it_is_written(self) -> None:
        data = fixtures.script([OSCILLATOR, *A_QUANTUM])
        wanted = script_text(script_of(fixtures.script(A_QUANTUM)))
        self.assertEqual(answer_to(["x"], data, "."), (0, "pruned 4 of 5\n", wanted))
        self.assertEqual(answer_to(["x"], fixtures.script([]), "."), (3, "end idle\n", None))
        self.assertEqual(answer_to(["x"], bytes(2**24 + 1), "."), (5, "", None))


class Command(unittest.TestCase):
    """The command, its lines and its statuses."""

    def setUp(self) -> None:
        room = tempfile.TemporaryDirectory()
        self.addCleanup(room.cleanup)
        self.folder = room.name

    def prune(self, data: bytes, status: int, line: bytes, *words: str, **more: Any) -> None:
        """Prunes a script of these bytes; no OUT may be touched unless the status is 0 or 9."""
        fixtures.write(self.folder, "script.json", data)
        fixtures.write(self.folder, "out.json", "before")
        words = words or ("script.json", "out.json")
        done = fixtures.run("prune", *words, cwd=self.folder, **more)
        self.assertEqual((done.returncode, done.stdout, done.stderr), (status, line, b""))
        if status != 0:
            self.assertEqual(fixtures.read(self.folder, "out.json"), b"before")

    def test_a_script_that_is_pruned(self) -> None:
        calls = [OSCILLATOR, *A_QUANTUM[:3], gain("g"), connect("c", "g"), RENDERED]
        self.prune(fixtures.script(calls), 0, b"pruned 4 of 7\n")
        wanted = script_text(script_of(fixtures.script(A_QUANTUM)))
        self.assertEqual(fixtures.read(self.folder, "out.json"), wanted)
        self.prune(wanted, 0, b"pruned 4 of 4\n")
        self.assertEqual(fixtures.read(self.folder, "out.json"), wanted)

    def test_sessions_that_do_not_complete(self) -> None:
        self.prune(fixtures.script([]), 3, b"end idle\n")
        self.prune(fixtures.script([suspend(1), RENDERED], length=300), 3, b"end stalled 128\n")

    def test_scripts_with_a_fault(self) -> None:
        self.prune(b"[]", 4, b"script: 0 script WrongKind\n")
        self.prune(fixtures.script([{"op": "start"}]), 4, b"script: 1 node MissingField\n")

    def test_a_script_that_is_too_long_or_cannot_be_read(self) -> None:
        whole = fixtures.script(A_QUANTUM)
        self.prune(whole.ljust(2**24), 0, b"pruned 4 of 4\n")
        self.prune(whole.ljust(2**24 + 1), 5, b"")
        self.prune(whole, 6, b"", "nowhere.json", "out.json")
        self.prune(whole, 6, b"", ".", "out.json")

    def test_assets_are_those_of_the_folder_that_it_runs_in(self) -> None:
        it = call("decodeAudioData", path="it.wav") | {"as": "b"}
        data = fixtures.script([it, *A_QUANTUM])
        self.prune(data, 0, b"pruned 4 of 5\n")
        fixtures.write(self.folder, "it.wav", fixtures.wav([[1]]))
        self.prune(data, 0, b"pruned 5 of 5\n")
        os.remove(os.path.join(self.folder, "it.wav"))
        os.mkdir(os.path.join(self.folder, "it.wav"))
        self.prune(data, 7, b"")

    @unittest.skipUnless(os.path.exists(FULL), "there is no full device")
    def test_a_line_or_a_file_that_cannot_be_written(self) -> None:
        data = fixtures.script(A_QUANTUM)
        self.prune(data, 9, b"pruned 4 of 4\n", "script.json", "nowhere/out.json")
        self.prune(data, 9, b"pruned 4 of 4\n", "script.json", FULL)
        fixtures.write(self.folder, "script.json", data)
        for given in (data, fixtures.script([])):
            fixtures.write(self.folder, "script.json", given)
            line = f"exec {fixtures.TOOLS / 'prune'} script.json out.json > {FULL}"
            done = subprocess.run(["sh", "-c", line], cwd=self.folder, check=False)
            self.assertEqual(done.returncode, 8)
            self.assertEqual(fixtures.read(self.folder, "out.json"), b"before")

    def test_wrong_words(self) -> None:
        for words in ([], ["script.json"], ["script.json", ""], ["script.json", "a", "b"]):
            done = fixtures.run("prune", *words, cwd=self.folder)
            self.assertEqual((done.returncode, done.stdout), (2, b""), words)
            self.assertIn(b"usage: tools/prune", done.stderr)


class Documents(unittest.TestCase):
    def test_the_rows_of_the_pieces(self) -> None:
        page = (fixtures.TOP / "docs" / "EXAMPLES.md").read_text(encoding="utf-8")
        for path in sorted(EXAMPLES.glob("*.json")):
            it = pruned(path.read_bytes(), str(EXAMPLES))
            self.assertIn(f"\n| {path.stem} | {it.of} | {it.kept} |\n", page)


def keeping(**told: Any) -> contextlib.AbstractContextManager:
    """Has all calls heard of which the class says so otherwise."""
    return unittest.mock.patch.multiple(Hearing, **told)


class Prunings(unittest.TestCase):
    """The tool that prunes many scripts, and what it finds."""

    def look(self, programs: Programs, count: int) -> None:
        found = [prunings.found_of_number(programs, 1, number) for number in range(count)]
        wrong = {n: it.different for n, it in enumerate(found) if it.different}
        self.assertEqual(wrong, {})
        done = [it for it in found if it.kept is not None]
        self.assertGreater(len(done), count // 2)
        self.assertLess(sum(it.kept for it in done), sum(it.of for it in done) * 9 // 10)

    def test_random_scripts(self) -> None:
        self.look(SECOND, COUNT // 2)

    @unittest.skipUnless(os.access(PROGRAM, os.X_OK), "there is no program")
    @unittest.skipUnless(os.access(PRUNE_PROGRAM, os.X_OK), "there is no waprune")
    def test_random_scripts_on_the_programs(self) -> None:
        play = functools.partial(prunings.played_on, PROGRAM)
        self.look(Programs(play, functools.partial(prunings.pruned_on, PRUNE_PROGRAM)), COUNT)

    def found(self, calls: list[dict[str, Any]], **other: Any) -> prunings.Found:
        """What is found of a script of these calls, where a program is another one."""
        data = fixtures.script(calls, length=512)
        return prunings.found_at(SECOND._replace(**other), data, os.curdir)

    def test_what_is_pruned_wrongly_is_told(self) -> None:
        calls = [OSCILLATOR, *A_QUANTUM[:3], gain("g"), RENDERED]
        self.assertEqual(self.found(calls).different, ())
        with keeping(is_heard=lambda self, ordinal: True):
            self.assertEqual(
                self.found(calls).different, ("a call of the pruned script is refused",)
            )
        with keeping(is_heard=lambda self, ordinal: self.by_ordinal[ordinal]["op"] != "start"):
            self.assertIn("the pruned script has another WAV file", self.found(calls).different)

    def test_another_script_of_waprune_is_told(self) -> None:
        def longer(data: bytes, folder: str) -> Outcome:
            it = prunings.pruned_here(data, folder)
            return it._replace(file=(it.file or b"") + b" ")

        def unpruned(data: bytes, folder: str) -> Outcome:
            return prunings.pruned_here(data, folder)._replace(file=data)

        def idle(data: bytes, folder: str) -> Outcome:
            return Outcome(3, "end idle\n")

        calls = [*A_QUANTUM[:3], gain("g"), RENDERED]
        other = "waprune leaves another script than tools/prune"
        otherwise = "the pruned script stands otherwise in mode migrate"
        again = "pruned again it is another script"
        for prune, wanted in (
            (longer, (other, otherwise, again)),
            (unpruned, (other, otherwise, again)),
            (idle, ("waprune gives 3 'end idle\\n', and not 0 'pruned 4 of 5\\n'", other)),
        ):
            self.assertEqual(self.found(calls, prune=prune).different, wanted)
        told = ("waprune leaves another script than tools/prune",)
        self.assertEqual(self.found([], prune=lambda *_: Outcome(3, "end idle\n", b"")).different,
                         told)

    def test_another_transcript_of_waplay_is_told(self) -> None:
        def other(data: bytes, folder: str, mode: str) -> Outcome:
            it = prunings.played(data, folder, mode)
            return it._replace(text=it.text.replace("4 ok", "4 throw TypeError"))

        found = self.found([*A_QUANTUM[:3], gain("g"), RENDERED], play=other)
        self.assertEqual(found.different, ())
        found = self.found([gain("g"), *A_QUANTUM], play=other)
        self.assertIn("by the lines of the program other calls are left out", found.different)

    def test_another_status_is_told(self) -> None:
        def other(data: bytes, folder: str, mode: str) -> Outcome:
            return prunings.played(data, folder, mode)._replace(status=0)

        told = ("waplay gives 0 'end idle\\n', and not 3 'end idle\\n'",)
        self.assertEqual(self.found([], play=other), prunings.Found(None, different=told))
        self.assertEqual(self.found([]).different, ())

    def test_a_script_that_is_too_long_is_not_pruned(self) -> None:
        data = fixtures.script(A_QUANTUM).ljust(2**24 + 1)
        programs = SECOND._replace(play=lambda *_: Outcome(5, ""))
        self.assertEqual(prunings.found_at(programs, data, os.curdir), prunings.Found(None))

    def test_a_program_that_does_not_end_is_told(self) -> None:
        with tempfile.TemporaryDirectory() as folder:
            program = Path(fixtures.program(folder, "import time\ntime.sleep(60)\n"))
            with unittest.mock.patch.object(prunings, "SECONDS", 0.1):
                found = self.found(A_QUANTUM, prune=functools.partial(prunings.pruned_on, program))
        told = (f"{program.name} did not end within 0.1 seconds",)
        self.assertEqual(found, prunings.Found(None, different=told))

    def test_nodes_that_only_the_list_of_start_rendering_makes_live(self) -> None:
        late = call("startRendering", then=[connect("g", "destination")])
        found = self.found([gain("g"), late])
        self.assertTrue(found.is_late)
        self.assertEqual(found.different, ())
        self.assertFalse(self.found([gain("g"), connect("g", "destination"), late]).is_late)

    def test_scripts_of_takes_are_told_by_their_folders(self) -> None:
        names = [prunings.name_of(Path(it)) for it in ("drums.waplay/1.json", "drums.json")]
        self.assertEqual(names, ["drums.waplay/1", "drums"])

    def test_a_program_that_is_not_there(self) -> None:
        words = ["--program", "/bin/sh", "--prune-program", "/nowhere"]
        done = fixtures.run("prunings", *words, text=True)
        told = "tools/prunings: there is no program /nowhere\n"
        self.assertEqual((done.returncode, done.stdout, done.stderr), (2, "", told))

    def test_rows_of_scripts_that_are_named(self) -> None:
        paths = [str(EXAMPLES / f"{name}.json") for name in ("first_piece", "one_pole_filter")]
        done = fixtures.run("prunings", "--second-alone", "--jobs", "1", *paths, text=True)
        self.assertEqual(
            done.stdout.splitlines(),
            [
                "| first_piece | 10 | 9 |",
                "| one_pole_filter | 24 | 24 |",
                "2 scripts, 2 pruned to 33 of 34 calls, 0 with nodes that only the list of"
                " startRendering makes live; 0 differ",
            ],
        )
        self.assertEqual(done.returncode, 0, done.stderr)


if __name__ == "__main__":
    unittest.main()
