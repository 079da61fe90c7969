"""Tests of the packages: what is in them, and that what is in them runs without the repository."""

import importlib.util
import os
import shutil
import subprocess
import sys
import tempfile
import unittest
import zipfile
from pathlib import Path

import fixtures

from waplay_tools import package
from waplay_tools.places import PROGRAMS

HAS_ESBUILD = shutil.which("esbuild") is not None
HAS_WHEEL = all(importlib.util.find_spec(name) for name in ("setuptools", "wheel"))


@unittest.skipUnless(HAS_ESBUILD, "esbuild is not installed")
class Packages(unittest.TestCase):
    def setUp(self):
        folder = tempfile.TemporaryDirectory()
        self.addCleanup(folder.cleanup)
        self.folder = Path(folder.name)

    def made(self, kind, name="made"):
        """A package of a kind."""
        out = self.folder / name
        ran = fixtures.run("package", kind, str(out))
        self.assertEqual((ran.returncode, ran.stderr), (0, b""))
        return Path(ran.stdout.decode().strip())

    @unittest.skipUnless(HAS_WHEEL, "setuptools or wheel is not installed")
    def test_a_wheel(self):
        path = self.made("wheel")
        self.assertRegex(path.name, r"\Awaplay-1\.\d{8}-py3-none-linux_x86_64\.whl\Z")
        with zipfile.ZipFile(path) as file:
            names = set(file.namelist())
            for name, shipped in PROGRAMS.items():
                program = file.getinfo(f"waplay_tools/packaged/{name}")
                self.assertEqual(file.read(program), shipped.read_bytes())
                self.assertEqual(program.external_attr >> 16 & 0o111, 0o111)
            told = next(name for name in names if name.endswith("entry_points.txt"))
            scripts = file.read(told).decode()
        for name in (*PROGRAMS, *(f"waplay-{it}" for it in package.COMMANDS)):
            self.assertIn(f"{name} = waplay_tools.launching:", scripts)
        for name in ("packaged/recorder.js", "reporting/page.css", "reporting/page.js",
                     "recorder/leaving.js", "archive/__main__.py"):
            self.assertIn(f"waplay_tools/{name}", names)
        self.assertTrue([name for name in names if name.endswith("share/doc/waplay/RECORDING.md")])
        self.assertFalse([name for name in names if "random_scripts" in name or "tests" in name])
        self.assertEqual(path.read_bytes(), self.made("wheel", "again").read_bytes())

    @unittest.skipUnless(shutil.which("dpkg-deb"), "dpkg-deb is not installed")
    def test_a_debian_package(self):
        path = self.made("deb")
        self.assertEqual(path.read_bytes(), self.made("deb", "again").read_bytes())
        root = self.folder / "root"
        subprocess.run(["dpkg-deb", "-x", path, root], check=True)
        for name, shipped in PROGRAMS.items():
            program = (root / "usr/bin" / name).resolve()
            self.assertEqual(program.read_bytes(), shipped.read_bytes())
        self.assertTrue(os.access(root / "usr/bin/waplay-report", os.X_OK))
        lines = fixtures.script([{"op": "startRendering"}])
        run = subprocess.run([root / "usr/bin/waplay", self.folder / "out.wav"], input=lines,
                             capture_output=True, check=False)
        self.assertEqual(run.stdout.splitlines()[-1], b"end completed")
        for name, text in (("1.json", lines), ("1.txt", run.stdout)):
            fixtures.write(self.folder, name, text)
        shutil.copy(self.folder / "out.wav", self.folder / "1.wav")
        told = {**os.environ, "PYTHONPATH": str(root / "usr/lib/python3/dist-packages")}
        words = [sys.executable, root / "usr/bin/waplay-compare", self.folder, self.folder]
        run = subprocess.run(words, capture_output=True, text=True, env=told, check=False)
        self.assertEqual((run.returncode, run.stderr), (0, ""))
        self.assertEqual(run.stdout.count("the same"), 3)
        words = [sys.executable, root / "usr/bin/waplay-piece", "--expect", self.folder]
        run = subprocess.run(words, capture_output=True, text=True, env=told, check=False)
        self.assertEqual(run.returncode, 2)
        self.assertTrue(run.stderr.startswith("waplay-piece: "), run.stderr)

    def test_a_folder_that_cannot_be_made(self):
        path = fixtures.write(self.folder, "file", b"")
        ran = fixtures.run("package", "wheel", path)
        self.assertEqual(ran.returncode, 2)
        self.assertRegex(ran.stderr.decode(), r"\Apackage: [^\n]+\n\Z")


if __name__ == "__main__":
    unittest.main()
