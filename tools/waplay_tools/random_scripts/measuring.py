"""Measures the time and the memory that a program takes for scripts."""

import shutil
import subprocess
import tempfile
from pathlib import Path

RUNS = 3  # of each script, of which the least figures count


def measured(command: list[str | Path], script: Path) -> tuple[int, float, float]:
    """The status of a run, its user time in seconds, and its peak memory in KiB."""
    with script.open("rb") as file:
        ran = subprocess.run(
            command, stdin=file, capture_output=True, cwd=script.parent, text=True, check=False
        )
    seconds, memory = ran.stderr.split("\n")[-2].split()
    return ran.returncode, float(seconds), float(memory)


def measure(program: Path, folder: Path) -> None:
    """Prints the least time and memory of some runs of each script of a folder."""
    with tempfile.TemporaryDirectory() as work:
        time = shutil.which("time") or "time"
        command: list[str | Path] = [time, "-f", "%U %M", program, Path(work, "out.wav")]
        for script in sorted(folder.glob("*.json")):
            runs = [measured(command, script.resolve()) for _ in range(RUNS)]
            status, seconds, memory = (min(column) for column in zip(*runs))
            print(f"{script.name}: {seconds:.2f} s, {memory / 1024:.1f} MiB, status {status}")
