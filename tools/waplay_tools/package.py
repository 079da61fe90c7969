"""Makes a package of the programs, the recorder and the tools: a wheel for Linux on x86-64, or a
Debian package.

Both have the commands waplay, waexplain, waprune, waplay-piece, waplay-record, waplay-report,
waplay-compare and waplay-archive, and the documents in share/doc/waplay. A wheel wants setuptools
and wheel, a Debian package dpkg-deb, and both esbuild; nothing is fetched. The same sources give
the same bytes. The status is 0, or 2 with a sentence on standard error.
"""

import argparse
import datetime
import os
import re
import shutil
import subprocess
import sys
import tempfile
from pathlib import Path

from waplay_tools.places import PROGRAMS, TOP
from waplay_tools.recorder.bundle import NoBundle, recorder_text
from waplay_tools.reporting.text import BadInput

PACKAGE = TOP / "tools" / "waplay_tools"
# What the commands need of the tools; the rest is for those who work on the program.
PARTS = ("__init__.py", "archive", "chromium.py", "compare.py", "expecting", "explaining",
         "launching.py", "piece", "places.py", "pruning", "recorder", "report.py", "reporting",
         "wav.py")
COMMANDS = ("piece", "record", "report", "compare", "archive")  # beside the programs
SUMMARY = "Replays sessions of the Web Audio API, offline and in whole numbers"

PYPROJECT = """[build-system]
requires = ["setuptools"]
build-backend = "setuptools.build_meta"

[project]
name = "waplay"
version = "{version}"
description = "{summary}"
requires-python = ">=3.11"

[project.optional-dependencies]
all = ["distributed", "junitparser", "numpy", "tqdm"]

[project.scripts]
{scripts}

[tool.setuptools]
packages = {packages}

[tool.setuptools.package-data]
"*" = ["*.css", "*.js", "packaged/*"]

[tool.setuptools.data-files]
"share/doc/waplay" = ["documents/*"]
"""

SETUP = """[bdist_wheel]
plat_name = linux_x86_64
"""

CONTROL = """Package: waplay
Version: {version}
Architecture: amd64
Maintainer: waplay <waplay@localhost>
Installed-Size: {size}
Depends: python3 (>= 3.11), libc6
Recommends: chromium, graphviz, python3-numpy, python3-tqdm
Suggests: python3-distributed, python3-junitparser
Section: sound
Priority: optional
Description: {summary}
 Records the Web Audio calls of a page, replays them, says why a sample is what it is, leaves out
 what is never heard, and makes reports and archives.
"""

PRERM = """#!/bin/sh
set -e
find /usr/lib/python3/dist-packages/waplay_tools -name __pycache__ -prune -exec rm -rf {} +
"""

COMMAND = """#!/usr/bin/python3
from waplay_tools.launching import {name}

{name}()
"""


def released() -> datetime.date:
    """The day of the newest part of CHANGES.md."""
    text = (TOP / "docs" / "CHANGES.md").read_text(encoding="utf-8")
    found = re.search(r"^## (\d+ [A-Z][a-z]+ \d{4})$", text, re.M)
    if not found:
        raise BadInput("docs/CHANGES.md has no day")
    return datetime.datetime.strptime(found[1], "%d %B %Y").date()


def environment() -> dict[str, str]:
    """The environment in which packages are made: no file is newer than that day."""
    start = datetime.datetime.combine(released(), datetime.time(), datetime.timezone.utc)
    return {**os.environ, "SOURCE_DATE_EPOCH": str(int(start.timestamp()))}


def put_documents(folder: Path) -> None:
    """Makes a folder with the documents."""
    shutil.copytree(TOP / "docs", folder, ignore=shutil.ignore_patterns("pictures"))
    shutil.copyfile(TOP / "README.md", folder / "README.md")


def stage(folder: Path) -> None:
    """Puts the parts of the package into a folder: the tools, the programs and the recorder."""
    ignored = shutil.ignore_patterns("__pycache__", "*.pyc")
    made = folder / "waplay_tools"
    made.mkdir(parents=True)
    for part in [PACKAGE / name for name in PARTS]:
        if part.is_dir():
            shutil.copytree(part, made / part.name, ignore=ignored)
        else:
            shutil.copyfile(part, made / part.name)
    packaged = made / "packaged"
    packaged.mkdir()
    for name, shipped in PROGRAMS.items():
        shutil.copyfile(shipped, packaged / name)
        (packaged / name).chmod(0o755)
        told = f"{name}-built-from"
        shutil.copyfile(shipped.with_name(told), packaged / told)
    (packaged / "recorder.js").write_text(recorder_text(), encoding="utf-8")


def version() -> str:
    """The version of a package: the day of its newest change."""
    return f"1.{released():%Y%m%d}"


def wheel(out: Path) -> Path:
    """Makes a wheel in a folder."""
    with tempfile.TemporaryDirectory(prefix="waplay-package-") as room:
        folder = Path(room)
        stage(folder)
        put_documents(folder / "documents")
        packages = sorted(
            path.parent.relative_to(folder).as_posix().replace("/", ".")
            for path in folder.rglob("__init__.py")
        )
        scripts = [f'{name} = "waplay_tools.launching:{name}"' for name in PROGRAMS]
        scripts += [f'waplay-{name} = "waplay_tools.launching:{name}"' for name in COMMANDS]
        text = PYPROJECT.format(version=version(), summary=SUMMARY, scripts="\n".join(scripts),
                                packages=packages)
        (folder / "pyproject.toml").write_text(text, encoding="utf-8")
        (folder / "setup.cfg").write_text(SETUP, encoding="utf-8")
        code = "from setuptools import build_meta; build_meta.build_wheel('made')"
        run = subprocess.run([sys.executable, "-c", code], cwd=folder, capture_output=True,
                             text=True, env=environment(), check=False)
        made = list((folder / "made").glob("*.whl")) if run.returncode == 0 else []
        if not made:
            last = (run.stderr.strip().splitlines() or ["it says nothing"])[-1]
            raise BadInput(f"the wheel is not made, which wants setuptools and wheel: {last}")
        return Path(shutil.copy(made[0], out))


def debian(out: Path) -> Path:
    """Makes a Debian package in a folder."""
    if not shutil.which("dpkg-deb"):
        raise BadInput("a Debian package wants dpkg-deb, which is not installed")
    with tempfile.TemporaryDirectory(prefix="waplay-package-") as room:
        folder = Path(room) / "root"
        stage(folder / "usr/lib/python3/dist-packages")
        binaries = folder / "usr/bin"
        binaries.mkdir()
        for name in PROGRAMS:
            packaged = "../lib/python3/dist-packages/waplay_tools/packaged"
            (binaries / name).symlink_to(f"{packaged}/{name}")
        for name in COMMANDS:
            path = binaries / f"waplay-{name}"
            path.write_text(COMMAND.format(name=name), encoding="utf-8")
            path.chmod(0o755)
        put_documents(folder / "usr/share/doc/waplay")
        size = sum(it.stat().st_size for it in folder.rglob("*") if it.is_file()) // 1024
        control = folder / "DEBIAN"
        control.mkdir()
        text = CONTROL.format(version=version(), size=size, summary=SUMMARY)
        (control / "control").write_text(text, encoding="utf-8")
        (control / "prerm").write_text(PRERM, encoding="utf-8")
        (control / "prerm").chmod(0o755)
        path = out / f"waplay_{version()}_amd64.deb"
        run = subprocess.run(["dpkg-deb", "--root-owner-group", "--build", folder, path],
                             capture_output=True, text=True, env=environment(), check=False)
        if run.returncode:
            raise BadInput(f"the Debian package is not made: {run.stderr.strip()}")
        return path


KINDS = {"wheel": wheel, "deb": debian}


def parser() -> argparse.ArgumentParser:
    """The words of the command line."""
    made = argparse.ArgumentParser(
        prog="tools/package",
        description=__doc__,
        formatter_class=argparse.RawDescriptionHelpFormatter,
    )
    made.add_argument("kind", choices=sorted(KINDS), help="what is made")
    made.add_argument("out", metavar="OUT", type=Path, help="the folder that gets it")
    return made


def main() -> int:
    """Makes a package, and prints its path."""
    words = parser().parse_args()
    os.umask(0o022)
    try:
        words.out.mkdir(parents=True, exist_ok=True)
        print(KINDS[words.kind](words.out))
    except (BadInput, NoBundle) as bad:
        print(f"package: {bad}", file=sys.stderr)
        return 2
    except OSError as fault:
        print(f"package: {fault.filename or words.out} can't be used: {fault.strerror}",
              file=sys.stderr)
        return 2
    return 0


if __name__ == "__main__":
    sys.exit(main())
