"""Runs what tells whether the programs work: the cases on built ones and on the second calculation,
and the tests of the tools and of the recorder that need no browser. It needs Python 3 and nothing
else; what is skipped because something is not installed is said."""

import argparse
import concurrent.futures
import os
import re
import shutil
import subprocess
import sys
import tempfile
import time
import tomllib
from pathlib import Path

from waplay_tools.places import PROGRAMS, TOP
from waplay_tools.program_words import option_of

FOLDERS = (TOP / "tools" / "tests", TOP / "recorder" / "tests")
BROWSER = "browser"  # a module of tests whose name has this word wants a browser
# The modules that take longest, so that none of them is left for the end.
LONG = (
    "test_archive",
    "test_command_lines",
    "test_delays",
    "test_explaining",
    "test_explanations",
    "test_generated",
    "test_pruning",
    "test_reading",
    "test_report",
    "test_schema",
    "test_worst",
)

# The files of each program that are tested, by its name.
Programs = dict[str, list[Path]]

_RAN = re.compile(r"^Ran (\d+) tests?", re.M)
_NOT_PASSED = re.compile(r"^FAILED \((.*)\)$", re.M)
_SKIPPED = re.compile(r"skipped=(\d+)")


def modules(with_browser: bool) -> list[Path]:
    """The modules of tests, first those that take long; those that want a browser only where they
    are asked for."""
    found = [path for folder in FOLDERS for path in sorted(folder.glob("test_*.py"))]
    found.sort(key=lambda path: path.stem not in LONG)
    return [path for path in found if with_browser or BROWSER not in path.stem]


def environment(programs: Programs, room: Path) -> dict[str, str]:
    """The environment of tests: where the tools are, the programs that they run, and this Python,
    which keeps in a folder of its own what it compiles of the tools, once for all of its runs."""
    paths = [TOP / "tools", *FOLDERS, TOP / "recorder"]
    told = {
        "PATH": os.pathsep.join([os.path.dirname(sys.executable), os.environ.get("PATH", "")]),
        "PYTHONPATH": os.pathsep.join(map(str, paths)),
        "PYTHONPYCACHEPREFIX": str(room),
        "PYTHONDONTWRITEBYTECODE": "",
    }
    run = {name.upper(): str(files[0]) for name, files in programs.items() if files}
    return {**os.environ, **told, **run}


def run_module(path: Path, told: dict[str, str]) -> tuple[str, int, int, int, str]:
    """Runs a module of tests: its name, how many passed, failed and were skipped, and what it
    printed."""
    command = [sys.executable, "-m", "unittest", "-v", path.stem]
    done = subprocess.run(
        command,
        cwd=path.parent,
        env=told,
        text=True,
        errors="replace",
        check=False,
        stdin=subprocess.DEVNULL,
        stdout=subprocess.PIPE,
        stderr=subprocess.STDOUT,
    )
    ran = _RAN.search(done.stdout)
    if not ran:
        return path.stem, 0, 1, 0, done.stdout
    skipped = sum(map(int, _SKIPPED.findall(done.stdout.splitlines()[-1])))
    faults = _NOT_PASSED.search(done.stdout)
    counts = re.findall(r"(?:failures|errors)=(\d+)", faults[1]) if faults else []
    failed = sum(map(int, counts))
    failed = max(failed, int(done.returncode not in (0, 5)))
    return path.stem, int(ran[1]) - failed - skipped, failed, skipped, done.stdout


def run_modules(paths: list[Path], told: dict[str, str]) -> tuple[int, int]:
    """Runs modules of tests side by side, and says what failed or was skipped."""
    passed_by_all = failed_by_all = 0
    with concurrent.futures.ThreadPoolExecutor(len(os.sched_getaffinity(0))) as pool:
        for name, passed, failed, skipped, text in pool.map(
            run_module, paths, [told] * len(paths)
        ):
            print(f"{name}: {passed} passed" + f", {failed} failed" * (failed > 0))
            if failed:
                print(text)
            for line in re.findall(r"^.* \.\.\. skipped .*$", text, re.M) if skipped else []:
                print(f"    {line}")
            passed_by_all, failed_by_all = passed_by_all + passed, failed_by_all + failed
    return passed_by_all, failed_by_all


def run_cases(programs: Programs, told: dict[str, str]) -> tuple[int, int]:
    """Runs the cases on these programs, and on the shipped ones where there are none."""
    command = [sys.executable, "-m", "waplay_tools.cases"]
    for name, files in programs.items():
        for file in files:
            command += [option_of(name), str(file)]
    done = subprocess.run(command, env=told, stdout=subprocess.PIPE, text=True, check=False)
    *lines, last = done.stdout.splitlines() or [""]
    print("\n".join(lines), flush=True)
    counts = re.fullmatch(r"(\d+) passed, (\d+) failed", last)
    return (int(counts[1]), int(counts[2])) if counts else (0, 1)


def linters() -> list[list[str]]:
    """The commands that look at the tools' own Python. What pycodestyle is told stands in
    pyproject.toml, as do the settings of those that read it themselves."""
    told = tomllib.loads((TOP / "tools" / "pyproject.toml").read_text(encoding="utf-8"))
    style = [
        f"--{name}={','.join(value) if isinstance(value, list) else value}"
        for name, value in told["tool"]["pycodestyle"].items()
    ]
    return [["ruff", "check", "--quiet"], ["pycodestyle", *style], ["pyflakes3"]]


def run_linters() -> tuple[int, int]:
    """Runs those of the linters that are installed, and says what they find."""
    passed = failed = 0
    for name, *words in linters():
        if not shutil.which(name):
            print(f"{name}: skipped, as it is not installed")
            continue
        done = subprocess.run([name, *words, "tools", "recorder"], cwd=TOP, check=False)
        print(f"{name}: {'no fault' if done.returncode == 0 else 'faults'}")
        passed, failed = passed + (done.returncode == 0), failed + (done.returncode != 0)
    return passed, failed


def main() -> int:
    """Runs all that the command line asks for. The last line has the counts, and the status is 0
    where nothing failed."""
    parser = argparse.ArgumentParser(prog="./test", description=__doc__)
    for name in PROGRAMS:
        told = f"test this {name}; may stand several times; the shipped one where it is absent"
        parser.add_argument(
            option_of(name),
            dest=name,
            action="append",
            type=Path,
            default=[],
            metavar="FILE",
            help=told,
        )
    parser.add_argument(
        "--browser", action="store_true", help="also run the tests that want a browser"
    )
    parser.add_argument(
        "--before",
        default="0 passed, 0 failed",
        metavar="LINE",
        help="a last line, 'N passed, M failed', whose numbers are added to those of this run",
    )
    asked = parser.parse_args()
    begun = time.monotonic()
    programs = {name: [it.resolve() for it in getattr(asked, name)] for name in PROGRAMS}
    counts = [tuple(map(int, re.findall(r"(\d+) (?:passed|failed)", asked.before)))]
    with tempfile.TemporaryDirectory(prefix="waplay-test-") as room:
        told = environment(programs, Path(room))
        counts.append(run_cases(programs, told))
        counts.append(run_modules(modules(asked.browser), told))
    counts.append(run_linters())
    print(f"./test took {time.monotonic() - begun:.0f} s")
    print(f"{sum(it[0] for it in counts)} passed, {sum(it[1] for it in counts)} failed")
    return 1 if any(it[1] for it in counts) else 0


if __name__ == "__main__":
    sys.exit(main())
