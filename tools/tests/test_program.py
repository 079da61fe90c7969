"""Tests of the program that no case can tell: runs that are compared with one another, and a path
that names the folder of the run.

The program is the one that the variable WAPLAY names, or else the shipped one. Where neither is
there, the tests are skipped."""

import hashlib
import json
import os
import re
import subprocess
import tempfile
import unittest
from pathlib import Path

import fixtures
from waplay_tools import load_script

SHIPPED = Path(fixtures.TOP, "bin", "waplay-x86_64-linux")
PROGRAM = Path(os.environ.get("WAPLAY") or SHIPPED).absolute()
# The digest that tools/expected.py gives for the script of the load of 0, and the size of the file.
LOAD = "e499f2a9fe115d8819822d99f6bd86dedf661f0c01e0cd0a21d442a1e631ac63"
LOAD_BYTES = 44 + 480000 * 2 * 3  # a frame has two samples of three bytes
SUMMARY = re.compile(
    r"summary calls (\d+) quanta (\d+) ended (\d+) refused (\d+) peak \d+ sum -?\d+\n"
    r"end completed\n"
)
SECONDS = 120  # for a run


def run(folder: str, *words: str, data: bytes = b"") -> tuple[int, str]:
    """Runs the program in a folder: its status and its text."""
    command = [PROGRAM, *words]
    ran = subprocess.run(
        command, input=data, capture_output=True, cwd=folder, timeout=SECONDS, check=False
    )
    return ran.returncode, (ran.stdout + ran.stderr).decode()


@unittest.skipUnless(os.access(PROGRAM, os.X_OK), "there is no program")
class Program(unittest.TestCase):
    def setUp(self) -> None:
        room = tempfile.TemporaryDirectory()
        self.addCleanup(room.cleanup)
        self.folder = os.path.realpath(room.name)

    def file(self, name: str) -> bytes:
        return Path(self.folder, name).read_bytes()

    def test_a_load_is_what_its_script_gives_in_either_order(self) -> None:
        script = json.dumps(load_script.script(0)).encode()
        status, text = run(self.folder, "script.wav", data=script)
        self.assertEqual(status, 0)
        self.assertEqual(run(self.folder, "--order", "down", "down.wav", data=script), (0, text))
        status, summary = run(self.folder, "--gen", "0", "load.wav")
        self.assertEqual(status, 0)
        other = run(self.folder, "--gen", "0", "--order=down", "load_down.wav")
        self.assertEqual(other, (0, summary))
        wanted = self.file("script.wav")
        self.assertEqual((len(wanted), hashlib.sha256(wanted).hexdigest()), (LOAD_BYTES, LOAD))
        for name in "down.wav", "load.wav", "load_down.wav":
            self.assertEqual(self.file(name), wanted, name)
        self.compare_counts(summary, text)

    def compare_counts(self, summary: str, transcript: str) -> None:
        """Compares the counts of a summary with the lines that it stands for."""
        told = SUMMARY.fullmatch(summary)
        self.assertTrue(told, summary)
        calls, quanta, ended, refused = map(int, told.groups())
        ordinals = {int(it) for it in re.findall(r"^(\d+) ", transcript, re.M)}
        self.assertEqual((calls, quanta), (len(ordinals), 480000 // 128))
        self.assertEqual(ended, len(re.findall(r"^ended ", transcript, re.M)))
        self.assertEqual(refused, len(re.findall(r"^\d+ (?:throw|rejected) ", transcript, re.M)))

    def test_a_path_that_names_the_folder_leads_nowhere(self) -> None:
        bell = Path(fixtures.EXAMPLES, "bell.wav").read_bytes()
        Path(self.folder, "bell.wav").write_bytes(bell)
        paths = [f"{self.folder}/bell.wav", "bell.wav"]
        calls = [{"op": "decodeAudioData", "as": "b", "path": path} for path in paths]
        found = run(self.folder, "out.wav", data=fixtures.script(calls, rate=8000))
        self.assertEqual(found, (3, "1 rejected NotFoundError\n2 resolved\nend idle\n"))
        self.assertEqual(os.listdir(self.folder), ["bell.wav"])


if __name__ == "__main__":
    unittest.main()
