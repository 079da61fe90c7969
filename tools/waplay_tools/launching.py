"""What an installed package starts: the programs and the tools, each as a command of its own."""

import os
import runpy
import sys
from typing import NoReturn

from waplay_tools.places import PACKAGED


def _become(program: str) -> NoReturn:
    """Becomes a program, with the words of this command."""
    path = PACKAGED / program
    try:
        os.execv(path, [str(path), *sys.argv[1:]])
    except OSError as fault:
        print(f"{program}: {path} can't be run: {fault.strerror}", file=sys.stderr)
        sys.exit(2)


def waplay() -> NoReturn:
    """Becomes the replayer."""
    _become("waplay")


def waexplain() -> NoReturn:
    """Becomes what derives samples and checks derivations."""
    _become("waexplain")


def waprune() -> NoReturn:
    """Becomes what leaves out calls that are not heard."""
    _become("waprune")


def _run(module: str) -> NoReturn:
    """Runs a module as a program."""
    runpy.run_module(f"waplay_tools.{module}", run_name="__main__", alter_sys=True)
    sys.exit(0)


def piece() -> NoReturn:
    """Runs tools/piece."""
    _run("piece")


def record() -> NoReturn:
    """Runs tools/record."""
    _run("recorder")


def report() -> NoReturn:
    """Runs tools/report."""
    _run("report")


def compare() -> NoReturn:
    """Runs tools/compare."""
    _run("compare")


def archive() -> NoReturn:
    """Runs tools/archive."""
    _run("archive")
