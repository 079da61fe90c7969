"""Tests of what becomes of OUT while it is written: it is moved, replaced, or no plain file.

The program is the one that the variable WAPLAY names, or else the shipped one. Where neither is
there, the tests are skipped."""

import json
import os
import subprocess
import tempfile
import time
import unittest
from collections.abc import Callable
from pathlib import Path

import fixtures

SHIPPED = Path(fixtures.TOP, "bin", "waplay-x86_64-linux")
PROGRAM = Path(os.environ.get("WAPLAY") or SHIPPED).absolute()
CHANNELS, LENGTH = 16, 1048576
BYTES = 44 + CHANNELS * LENGTH * 3  # the header, and three bytes a sample
WAV_FAULT = 9  # the status where OUT cannot be written
SECONDS = 60  # for a run

SCRIPT = json.dumps({
    "version": 1,
    "context": {"channels": CHANNELS, "length": LENGTH, "rate": 48000},
    "calls": [{"op": "startRendering"}],
}).encode()


@unittest.skipUnless(os.access(PROGRAM, os.X_OK), "there is no program")
class Out(unittest.TestCase):
    def setUp(self) -> None:
        room = tempfile.TemporaryDirectory()
        self.addCleanup(room.cleanup)
        self.folder = Path(room.name)
        self.out = self.folder / "out.wav"

    def start(self) -> subprocess.Popen[bytes]:
        """A run that writes silence into OUT."""
        run = subprocess.Popen(
            [PROGRAM, "out.wav"], stdin=subprocess.PIPE, stdout=subprocess.DEVNULL,
            stderr=subprocess.DEVNULL, cwd=self.folder,
        )
        self.addCleanup(run.kill)
        assert run.stdin
        run.stdin.write(SCRIPT)
        run.stdin.close()
        return run

    def run_and(self, change: Callable[[], object]) -> int:
        """Changes something as soon as OUT has its first bytes: the status of the run."""
        run = self.start()
        end = time.monotonic() + SECONDS
        while time.monotonic() < end:
            if self.out.exists() and self.out.stat().st_size:
                break
        change()
        return run.wait(SECONDS)

    def check_whole(self, path: Path) -> None:
        data = path.read_bytes()
        size = (BYTES - 44).to_bytes(4, "little")
        self.assertEqual((len(data), data[:4], data[40:44]), (BYTES, b"RIFF", size))
        self.assertEqual(data[44:].strip(b"\0"), b"")

    def test_a_file_that_is_moved_is_written_to_its_end(self) -> None:
        moved = self.folder / "moved.wav"
        self.assertEqual(self.run_and(lambda: self.out.rename(moved)), 0)
        self.check_whole(moved)
        self.assertFalse(self.out.exists())

    def test_what_replaces_the_file_gets_none_of_its_bytes(self) -> None:
        moved, other = self.folder / "moved.wav", self.folder / "other"
        other.write_bytes(b"of another")

        def replace() -> None:
            self.out.rename(moved)
            self.out.symlink_to(other)

        self.assertEqual(self.run_and(replace), 0)
        self.assertEqual(other.read_bytes(), b"of another")
        self.check_whole(moved)

    def test_a_pipe_gets_the_whole_file(self) -> None:
        os.mkfifo(self.out)
        run = self.start()
        data = self.out.read_bytes()
        self.assertEqual(run.wait(SECONDS), 0)
        got = self.folder / "got.wav"
        got.write_bytes(data)
        self.check_whole(got)

    def test_a_pipe_whose_reader_quits_is_a_fault(self) -> None:
        os.mkfifo(self.out)
        run = self.start()
        with self.out.open("rb") as pipe:
            self.assertEqual(pipe.read(4), b"RIFF")
        self.assertEqual(run.wait(SECONDS), WAV_FAULT)

    def test_two_runs_at_once_leave_a_whole_file(self) -> None:
        runs = [self.start(), self.start()]
        self.assertEqual([run.wait(SECONDS) for run in runs], [0, 0])
        self.check_whole(self.out)


if __name__ == "__main__":
    unittest.main()
