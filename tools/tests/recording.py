"""What the tests of the recorder share: pages that are written and recorded."""

import array
import os
import shutil
import signal
import subprocess
import sys
import tempfile
import unittest
from pathlib import Path

from waplay_tools.chromium import find_chromium

TOP = Path(__file__).resolve().parents[2]
RECORDER = TOP / "recorder"
CHROMIUM = find_chromium(os.environ.get("CHROMIUM"))
ESBUILD = shutil.which("esbuild")

needs_browser = unittest.skipUnless(CHROMIUM and ESBUILD, "Chromium or esbuild is not installed")


def temporary_folder(case: unittest.TestCase) -> Path:
    """A folder that is there for one test."""
    folder = tempfile.TemporaryDirectory(prefix="waplay-test-")
    case.addCleanup(folder.cleanup)
    return Path(folder.name)


def write_files(folder: Path, files: dict[str, str]) -> None:
    """Writes files by their paths in a folder."""
    for name, text in files.items():
        path = folder / name
        path.parent.mkdir(parents=True, exist_ok=True)
        path.write_text(text, encoding="utf-8")


def start_record(*words: object) -> subprocess.Popen:
    """Starts tools/record."""
    environment = {**os.environ, "CHROMIUM": str(CHROMIUM)}
    return subprocess.Popen([TOP / "tools" / "record", *map(str, words)], text=True,
                            stdin=subprocess.DEVNULL, stdout=subprocess.PIPE,
                            stderr=subprocess.PIPE, env=environment)


def run_record(*words: object, seconds: float = 300) -> subprocess.CompletedProcess:
    """Runs tools/record to its end."""
    running = start_record(*words)
    try:
        out, err = running.communicate(timeout=seconds)
    except subprocess.TimeoutExpired:
        running.send_signal(signal.SIGTERM)
        running.communicate()
        raise
    return subprocess.CompletedProcess(running.args, running.returncode, out, err)


def floats_of(path: Path) -> list[array.array]:
    """The channels of a WAV file of floats, as tools/record writes it."""
    data = path.read_bytes()
    channels, start = int.from_bytes(data[22:24], "little"), data.index(b"data") + 8
    words = array.array("f", data[start:])
    if sys.byteorder == "big":
        words.byteswap()
    return [words[channel::channels] for channel in range(channels)]
