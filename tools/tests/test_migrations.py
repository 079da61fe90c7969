"""Tests of how a program's migrations are looked at, and of the random texts of seconds."""

import tempfile
import unittest
from pathlib import Path

import fixtures
from waplay_tools.expecting.reading import cause
from waplay_tools.migrations.sessions import differences_of_case
from waplay_tools.migrations.texts import PLACES, Texts, differences_of_texts, scripts_of

CASES = Path(fixtures.TOP, "tests", "cases")
TEXTS = 3000

# A program that does what the second calculation does, but for what the test has it do otherwise.
PROGRAM = """
import os, sys
from waplay_tools import command_lines
from waplay_tools.expecting import reading, sessions, writing
asked = command_lines.reading([os.fsencode(word) for word in sys.argv[1:]])
data = sys.stdin.buffer.read()
frame_of = reading.frame_of
%s
status, text, session = sessions.replayed(data, is_checked=asked.mode != "render")
file = sessions.file_of(session, asked.mode, asked.bits) if session else None
%s
sys.stdout.write(text)
if file is not None:
    with open(asked.out, "wb") as out:
        out.write(file)
sys.exit(status)
"""


class Migrations(unittest.TestCase):
    def setUp(self) -> None:
        room = tempfile.TemporaryDirectory()
        self.addCleanup(room.cleanup)
        self.folder = room.name

    def program(self, before: str = "", behind: str = "") -> Path:
        return Path(fixtures.program(self.folder, PROGRAM % (before, behind)))

    def found(self, name: str, before: str = "", behind: str = "") -> list[str]:
        """What differs at a case with a program that does this otherwise."""
        return differences_of_case(self.program(before, behind), CASES / f"{name}.json")

    def test_a_program_that_does_so_does_not_differ(self) -> None:
        for name in (
            "migration/a_stalled_session",
            "migration/a_refused_context_of_a_rate_of_7999",
            "seconds/no_seconds_empty",
            "suspensions/a_context_of_one_quantum",
            "streams/a_full_device_for_the_lines",
            "command-line/unread_help",
        ):
            self.assertEqual(self.found(name), [], name)

    def test_a_program_that_does_otherwise_differs(self) -> None:
        migrated, again = "migrated: another ", "migrated again: another file"
        for name, before, behind, told in [
            (
                "migration/a_stalled_session",
                "",
                "status = 0 if asked.mode == 'migrate' else status",
                migrated + "status",
            ),
            ("migration/a_stalled_session", "", "file = None", migrated + "file"),
            ("migration/a_stalled_session", "", "file = file and file + b' '", migrated + "file"),
            (
                "migration/a_refused_context_of_a_rate_of_7999",
                "",
                "file = writing.script_text(session.script)",
                migrated + "file",
            ),
            (
                "suspensions/a_context_of_one_quantum",
                "",
                "file = None if b'\"version\":2' in data else file",
                again,
            ),
        ]:
            self.assertIn(told, self.found(name, before, behind), (name, behind))

    def test_a_program_that_reads_seconds_otherwise_differs(self) -> None:
        half = Texts(8000, ["1", "0.0000625", "2.5"])
        self.assertEqual(differences_of_texts(self.program(), half)[1], [])
        down = "reading.frame_of = lambda it, rate: -frame_of('-' + it, rate)"
        name, wrong = differences_of_texts(self.program(down), half)
        self.assertEqual((name, wrong), ('"2.5" at 8000', ["another file"]))
        point = "reading.frame_of = lambda it, rate: frame_of(it.removesuffix('.'), rate)"
        none = Texts(8000, ["1", "1."])
        self.assertEqual(
            differences_of_texts(self.program(point), none)[1], ["another status, lines, file"]
        )


class RandomTexts(unittest.TestCase):
    def test_each_script_has_one_fault_at_most_and_it_is_the_last(self) -> None:
        scripts = scripts_of(1, TEXTS)
        faults = {None: 0, "WrongKind": 0, "OutOfRange": 0}
        for it in scripts:
            before = {cause(text, "time", it.rate) for text in it.texts[:-1]}
            self.assertLessEqual(before, {None})
            faults[cause(it.texts[-1], "time", it.rate)] += 1
        self.assertGreater(faults["WrongKind"], TEXTS // 40)
        self.assertGreater(faults["OutOfRange"], TEXTS // 40)
        self.assertLessEqual(faults[None], TEXTS // 500)

    def test_they_hang_on_the_seed(self) -> None:
        self.assertEqual(scripts_of(2, 50), scripts_of(2, 50))
        self.assertNotEqual(scripts_of(2, 50), scripts_of(3, 50))

    def test_every_field_that_is_a_time_is_tried(self) -> None:
        self.assertEqual(len(PLACES), 15)


if __name__ == "__main__":
    unittest.main()
