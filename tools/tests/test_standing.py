"""Tests of what may stand after each status, by the table of docs/FORMATS.md."""

import os
import tempfile
import unittest
from pathlib import Path

from waplay_tools.standing import Answer, changed_in, files_in, wrong_after

RENDERED = Answer(0, b"1 ok\nend completed\n", b"RIFF and so on")
IDLE = Answer(3, b"end idle\n", None)
MIGRATED = Answer(3, b"end idle\n", b'{"calls":[]}')
BEFORE = b"before"


class Standing(unittest.TestCase):
    def test_what_may_stand(self) -> None:
        whole, before = RENDERED.text, (BEFORE, BEFORE)
        for status, text, out, answer in [
            (0, whole, (BEFORE, RENDERED.file), RENDERED),
            (3, IDLE.text, before, IDLE),
            (6, b"", before, RENDERED),
            (7, b"", before, RENDERED),
            (8, b"", before, RENDERED),
            (8, b"1 o", before, RENDERED),
            (9, whole, before, RENDERED),
            (9, whole, (BEFORE, b""), RENDERED),
            (9, whole, (None, RENDERED.file), RENDERED),
            (10, b"1", before, RENDERED),
            (10, whole, (BEFORE, b"RIFF"), RENDERED),
            (3, MIGRATED.text, (BEFORE, MIGRATED.file), MIGRATED),
            (9, MIGRATED.text, (BEFORE, b"{"), MIGRATED),
            (-9, b"1 ok", before, RENDERED),
            (-9, whole, (BEFORE, b"RI"), RENDERED),
        ]:
            self.assertEqual(wrong_after(status, text, out, answer), [], (status, text, out))

    def test_what_may_not_stand(self) -> None:
        whole, before = RENDERED.text, (BEFORE, BEFORE)
        for status, text, out, answer in [
            (2, b"", before, RENDERED),
            (3, whole, before, RENDERED),
            (0, whole, before, RENDERED),
            (0, whole[:-1], (BEFORE, RENDERED.file), RENDERED),
            (3, IDLE.text, (BEFORE, b""), IDLE),
            (3, MIGRATED.text, before, MIGRATED),
            (3, MIGRATED.text, (BEFORE, b"{"), MIGRATED),
            (6, b"1", before, RENDERED),
            (7, b"", (BEFORE, b""), RENDERED),
            (8, whole, before, RENDERED),
            (8, b"2", before, RENDERED),
            (8, b"1", (BEFORE, b""), RENDERED),
            (9, b"1", before, RENDERED),
            (9, IDLE.text, (BEFORE, b""), IDLE),
            (10, b"1", (BEFORE, b"RIFF"), RENDERED),
            (10, whole, (BEFORE, b"RIFX"), RENDERED),
            (-9, whole, (BEFORE, None), RENDERED),
        ]:
            self.assertNotEqual(wrong_after(status, text, out, answer), [], (status, text, out))

    def test_files_of_a_folder(self) -> None:
        with tempfile.TemporaryDirectory() as room:
            folder = Path(room)
            (folder / "below").mkdir()
            (folder / "below" / "a").write_bytes(b"a")
            os.symlink("below/a", folder / "link")
            os.mkfifo(folder / "pipe")
            before = files_in(folder)
            self.assertEqual(before["below"], None)
            self.assertEqual(before["below/a"], b"a")
            self.assertEqual(before["link"], b"link to below/a")
            self.assertEqual(changed_in(before, files_in(folder), None), [])
            (folder / "below" / "a").write_bytes(b"b")
            (folder / "out").write_bytes(b"")
            after = files_in(folder)
            self.assertEqual(len(changed_in(before, after, "out")), 1)
            self.assertEqual(len(changed_in(before, after, None)), 2)


if __name__ == "__main__":
    unittest.main()
