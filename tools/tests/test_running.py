"""Tests of runs whose streams fail or whose room is short, on programs of the system."""

import signal
import tempfile
import unittest
from pathlib import Path

from waplay_tools.running import CLOSED, FULL, GONE, Ran, Terms, run


class Running(unittest.TestCase):
    def setUp(self) -> None:
        room = tempfile.TemporaryDirectory()
        self.addCleanup(room.cleanup)
        self.folder = Path(room.name)

    def sh(self, script: str, terms: Terms = Terms()) -> Ran:
        return run(["/bin/sh", "-c", script], self.folder, terms)

    def test_what_a_run_gives(self) -> None:
        ran = self.sh("cat; echo no >&2; exit 3", Terms(b"read"))
        self.assertEqual((ran.status, ran.text, ran.errors), (3, b"read", b"no\n"))
        self.assertFalse(ran.is_late)
        self.assertGreater(ran.memory, 2**20)
        self.assertEqual(self.sh("cat", Terms(bytes(10**6))).text, bytes(10**6))

    def test_what_is_read(self) -> None:
        path = self.folder / "given"
        path.write_bytes(b"of a file")
        self.assertEqual(self.sh("cat", Terms(path)).text, b"of a file")
        self.assertNotEqual(self.sh("cat 2>/dev/null", Terms(self.folder)).status, 0)
        ran = self.sh("test -e /proc/self/fd/0 || echo none", Terms(None))
        self.assertEqual(ran.text, b"none\n")

    def test_standard_output_that_takes_nothing(self) -> None:
        for output in (FULL, CLOSED):
            self.assertNotEqual(self.sh("/bin/echo x 2>/dev/null", Terms(output=output)).status, 0)
        ran = self.sh("/bin/echo x", Terms(output=GONE))
        self.assertIn(ran.status, (-signal.SIGPIPE, 128 + signal.SIGPIPE))

    def test_sizes(self) -> None:
        ran = self.sh("/bin/echo 12345 2>/dev/null", Terms(output=3))
        self.assertEqual((ran.status, ran.text), (1, b"123"))
        ran = self.sh("/bin/echo 12345 2>/dev/null", Terms(output=3, ends_at_limit=True))
        self.assertIn(ran.status, (-signal.SIGXFSZ, 128 + signal.SIGXFSZ))
        ran = self.sh("/bin/echo 12345 >file; cat file; echo; echo of a pipe", Terms(file_most=4))
        self.assertEqual(ran.text, b"1234\nof a pipe\n")

    def test_time(self) -> None:
        ran = self.sh("exec sleep 60", Terms(seconds=0.2))
        self.assertEqual((ran.status, ran.is_late), (-signal.SIGKILL, True))

    def test_memory_and_variables(self) -> None:
        whole = "x=$(head -c 50000000 /dev/zero | tr '\\0' x); echo ${#x}"
        self.assertEqual(self.sh(whole).text, b"50000000\n")
        self.assertNotEqual(self.sh(f"({whole}) 2>/dev/null", Terms(memory=2**25)).status, 0)
        self.assertEqual(self.sh("echo $GIVEN", Terms(variables={"GIVEN": "so"})).text, b"so\n")


if __name__ == "__main__":
    unittest.main()
