"""Tests of a stop at every call to the outside, on the built program: a preloaded library lets its
calls to the system take few bytes, and one of them fail.

The programs are those that the variables WAPLAY, WAEXPLAIN and WAPRUNE name, or else the shipped
ones. Where there is no program, or no C compiler, the tests are skipped."""

import os
import tempfile
import unittest
from pathlib import Path

import fixtures
from waplay_tools.growths.__main__ import SOURCE, compiled
from waplay_tools.growths.scripts import ASSET, DERIVATION, PRUNE_RUNS, RUNS
from waplay_tools.running import Ran, Terms, run
from waplay_tools.wav import Form, wav_bytes

PROGRAM = fixtures.tried("waplay")
EXPLAIN_PROGRAM = fixtures.tried("waexplain")
PRUNE_PROGRAM = fixtures.tried("waprune")
ONE = RUNS[0].given  # a constant of 1.0 for one quantum
LINES = b"1 ok\n2 ok\n3 ok\n4 pending\n4 resolved\ncomplete 128\nend completed\n"
FILE = wav_bytes(Form(1, 48000, 24), [[2**23 - 1] * 128])
BEFORE = b"abc"


class Room(unittest.TestCase):
    """A folder, and the library that fails."""

    def setUp(self) -> None:
        room = tempfile.TemporaryDirectory()
        self.addCleanup(room.cleanup)
        library = compiled(Path(room.name), SOURCE.with_name("failing.c"))
        if library is None:
            self.skipTest("there is no C compiler")
        self.library = str(library)
        self.folder = Path(room.name, "folder")
        self.folder.mkdir()

    def terms(self, given: bytes, variables: dict[str, int]) -> Terms:
        """What a run has to do with whose calls fail as the variables tell."""
        told = {name: str(number) for name, number in variables.items()}
        return Terms(given, variables={"LD_PRELOAD": self.library, **told})


@unittest.skipUnless(os.access(PROGRAM, os.X_OK), "there is no program")
class Stops(Room):
    def ran(self, given: bytes = ONE, **variables: int) -> tuple[Ran, bytes]:
        """What a run gives over an OUT that is there, and what stands at OUT then."""
        (self.folder / "out.wav").write_bytes(BEFORE)
        ran = run([PROGRAM, "out.wav"], self.folder, self.terms(given, variables))
        self.assertLessEqual(set(os.listdir(self.folder)), {"out.wav", "two.wav"})
        return ran, (self.folder / "out.wav").read_bytes()

    def test_nothing_fails(self) -> None:
        ran, file = self.ran(READ_MOST=7, WRITE_MOST=1, APPEND_MOST=5)
        self.assertEqual((ran.status, ran.text, file), (0, LINES, FILE))
        self.assertEqual((len(LINES), len(FILE)), (63, 428))

    def test_each_write_of_one_byte_of_the_lines(self) -> None:
        for call in range(1, 64):
            ran, file = self.ran(WRITE_MOST=1, WRITE_FAILS=call)
            self.assertEqual((ran.status, ran.text, file), (8, LINES[: call - 1], BEFORE))
        ran, file = self.ran(WRITE_MOST=1, WRITE_FAILS=64)
        self.assertEqual((ran.status, ran.text, file), (0, LINES, FILE))

    def test_the_third_write_of_four_bytes(self) -> None:
        ran, file = self.ran(WRITE_MOST=4, WRITE_FAILS=3)
        self.assertEqual((ran.status, ran.text, file), (8, b"1 ok\n2 o", BEFORE))

    def test_each_read_of_seven_bytes(self) -> None:
        reads = -(-len(ONE) // 7) + 1  # the last one finds the end
        for call in range(1, reads + 1):
            ran, file = self.ran(READ_MOST=7, READ_FAILS=call)
            self.assertEqual((ran.status, ran.text, file), (6, b"", BEFORE))
        self.assertEqual(self.ran(READ_MOST=7, READ_FAILS=reads + 1)[0].status, 0)

    def test_the_file(self) -> None:
        ran, file = self.ran(OPEN_FAILS=1)
        self.assertEqual((ran.status, ran.text, file), (9, LINES, BEFORE))
        for call, leaves, stands in [(1, 0, 0), (1, 10, 10), (2, 0, 44), (2, 100, 144)]:
            ran, file = self.ran(APPEND_FAILS=call, APPEND_LEAVES=leaves)
            self.assertEqual((ran.status, ran.text, file), (9, LINES, FILE[:stands]))

    def test_each_opening_of_the_file(self) -> None:
        statuses = []
        while 0 not in statuses:
            ran, file = self.ran(OPEN_FAILS=len(statuses) + 1)
            statuses.append(ran.status)
            self.assertEqual(ran.text, LINES)
            if ran.status:
                self.assertEqual(ran.status, 9)
                self.assertTrue(FILE.startswith(file) or len(statuses) == 1)
        self.assertGreater(len(statuses), 1)

    def test_each_append_of_five_bytes(self) -> None:
        appends = 9 + 77  # of the header, and of the samples
        for call in range(1, appends + 1):
            ran, file = self.ran(APPEND_MOST=5, APPEND_FAILS=call, APPEND_LEAVES=0)
            stands = 5 * (call - 1) if call < 10 else 44 + 5 * (call - 10)
            self.assertEqual((ran.status, ran.text, file), (9, LINES, FILE[:stands]))

    def test_each_read_of_seven_bytes_of_an_asset(self) -> None:
        (self.folder / "two.wav").write_bytes(ASSET)
        statuses = []
        while 0 not in statuses:
            ran, file = self.ran(RUNS[3].given, FETCH_MOST=7, FETCH_FAILS=len(statuses) + 1)
            statuses.append(ran.status)
            if ran.status:
                self.assertEqual((ran.status, ran.text, file), (7, b"", BEFORE))
        self.assertGreater(len(statuses), len(ASSET) // 7)


@unittest.skipUnless(os.access(EXPLAIN_PROGRAM, os.X_OK), "there is no waexplain")
class ExplainStops(Room):
    def ran(self, *words: str, **variables: int) -> tuple[int, bytes, bytes]:
        """The status and the text of a run over an OUT that is there, and what stands there
        then."""
        (self.folder / "out.txt").write_bytes(BEFORE)
        (self.folder / "in.txt").write_bytes(DERIVATION)
        ran = run([EXPLAIN_PROGRAM, *words], self.folder, self.terms(ONE, variables))
        self.assertEqual(set(os.listdir(self.folder)), {"out.txt", "in.txt"})
        self.assertEqual((self.folder / "in.txt").read_bytes(), DERIVATION)
        return ran.status, ran.text, (self.folder / "out.txt").read_bytes()

    def derived(self, **variables: int) -> tuple[int, bytes, bytes]:
        return self.ran("derive", "5", "0", "out.txt", **variables)

    def checked(self, **variables: int) -> tuple[int, bytes, bytes]:
        return self.ran("check", "in.txt", **variables)

    def test_nothing_fails(self) -> None:
        most = {"READ_MOST": 7, "FETCH_MOST": 5, "WRITE_MOST": 1, "APPEND_MOST": 3}
        self.assertEqual(self.derived(**most), (0, b"facts 6\n", DERIVATION))
        told = b"valid out 5 0 0 0 = 16777216\n"
        self.assertEqual(self.checked(**most), (0, told, BEFORE))

    def test_each_write_of_one_byte_of_the_line(self) -> None:
        for call in range(1, 9):
            found = self.derived(WRITE_MOST=1, WRITE_FAILS=call)
            self.assertEqual(found, (8, b"facts 6\n"[: call - 1], BEFORE))
        self.assertEqual(self.derived(WRITE_MOST=1, WRITE_FAILS=9)[0], 0)

    def test_each_append_of_five_bytes(self) -> None:
        appends = -(-len(DERIVATION) // 5)
        for call in range(1, appends + 1):
            found = self.derived(APPEND_MOST=5, APPEND_FAILS=call, APPEND_LEAVES=0)
            self.assertEqual(found, (9, b"facts 6\n", DERIVATION[: 5 * (call - 1)]))
        self.assertEqual(self.derived(APPEND_MOST=5, APPEND_FAILS=appends + 1)[0], 0)
        self.assertEqual(self.derived(OPEN_FAILS=1), (9, b"facts 6\n", BEFORE))

    def test_each_read_of_seven_bytes(self) -> None:
        reads = -(-len(ONE) // 7) + 1  # the last one finds the end
        for call in range(1, reads + 1):
            for found in (self.derived, self.checked):
                self.assertEqual(found(READ_MOST=7, READ_FAILS=call), (6, b"", BEFORE))
        self.assertEqual(self.checked(READ_MOST=7, READ_FAILS=reads + 1)[0], 0)

    def test_each_read_of_seven_bytes_of_a_text(self) -> None:
        statuses = []
        while 0 not in statuses:
            status, text, _ = self.checked(FETCH_MOST=7, FETCH_FAILS=len(statuses) + 1)
            statuses.append(status)
            if status:
                self.assertEqual((status, text), (7, b""))
        self.assertGreater(len(statuses), len(DERIVATION) // 7)


@unittest.skipUnless(os.access(PRUNE_PROGRAM, os.X_OK), "there is no waprune")
class PruneStops(Room):
    LINE = b"pruned 4 of 7\n"
    SCRIPT = (
        b'{"calls":[{"as":"c","offset":16777216,"op":"createConstantSource"},'
        b'{"from":"c","input":0,"op":"connect","output":0,"to":"destination"},'
        b'{"duration":null,"node":"c","offset":"0.000000000","op":"start","when":"0.000000000"},'
        b'{"op":"startRendering"}],'
        b'"context":{"channels":1,"length":128,"rate":48000,"renderQuantum":128},"version":2}'
    )

    def pruned(self, given: bytes = PRUNE_RUNS[0].given, **variables: int) -> tuple:
        """The status and the text of a run over an OUT that is there, and what stands there
        then."""
        (self.folder / "out.json").write_bytes(BEFORE)
        ran = run([PRUNE_PROGRAM, "out.json"], self.folder, self.terms(given, variables))
        self.assertLessEqual(set(os.listdir(self.folder)), {"out.json", "two.wav"})
        return ran.status, ran.text, (self.folder / "out.json").read_bytes()

    def test_nothing_fails(self) -> None:
        found = self.pruned(READ_MOST=7, WRITE_MOST=1, APPEND_MOST=3)
        self.assertEqual(found, (0, self.LINE, self.SCRIPT))

    def test_each_write_of_one_byte_of_the_line(self) -> None:
        for call in range(1, 15):
            found = self.pruned(WRITE_MOST=1, WRITE_FAILS=call)
            self.assertEqual(found, (8, self.LINE[: call - 1], BEFORE))
        self.assertEqual(self.pruned(WRITE_MOST=1, WRITE_FAILS=15)[0], 0)

    def test_each_append_of_five_bytes(self) -> None:
        appends = -(-len(self.SCRIPT) // 5)
        for call in range(1, appends + 1):
            found = self.pruned(APPEND_MOST=5, APPEND_FAILS=call, APPEND_LEAVES=0)
            self.assertEqual(found, (9, self.LINE, self.SCRIPT[: 5 * (call - 1)]))
        self.assertEqual(self.pruned(APPEND_MOST=5, APPEND_FAILS=appends + 1)[0], 0)
        self.assertEqual(self.pruned(OPEN_FAILS=1), (9, self.LINE, BEFORE))

    def test_each_read_of_seven_bytes(self) -> None:
        reads = -(-len(PRUNE_RUNS[0].given) // 7) + 1  # the last one finds the end
        for call in range(1, reads + 1):
            found = self.pruned(READ_MOST=7, READ_FAILS=call)
            self.assertEqual(found, (6, b"", BEFORE))
        self.assertEqual(self.pruned(READ_MOST=7, READ_FAILS=reads + 1)[0], 0)

    def test_each_read_of_seven_bytes_of_an_asset(self) -> None:
        (self.folder / "two.wav").write_bytes(ASSET)
        statuses = []
        while 0 not in statuses:
            fails = len(statuses) + 1
            status, text, file = self.pruned(RUNS[3].given, FETCH_MOST=7, FETCH_FAILS=fails)
            statuses.append(status)
            if status:
                self.assertEqual((status, text, file), (7, b"", BEFORE))
        self.assertGreater(len(statuses), len(ASSET) // 7)


if __name__ == "__main__":
    unittest.main()
