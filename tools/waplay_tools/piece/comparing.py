"""Compares takes as tools/compare does."""

import argparse
from pathlib import Path

from waplay_tools import compare
from waplay_tools.recorder.command import Refused
from waplay_tools.reporting import takes


def compare_takes(words: argparse.Namespace, old: Path, new: Path, page: Path) -> tuple[int, str]:
    """Compares two takes, prints what came of it, and writes the page of both. Samples may differ
    by what `words.apart` says. The status is 0 where nothing differs, else 1 with a reason."""
    wrong = compare.compared(argparse.Namespace(
        old=str(old), new=str(new), output=str(page), tolerance=words.apart, junit=words.junit,
        tap=words.tap))
    return (1, wrong[0]) if wrong else (0, "")


def check_kept(kept: Path, out: Path) -> None:
    """Refuses a folder that is no take, or into which the new take is to come."""
    takes.numbers_of(kept)
    if kept.resolve() == out.resolve():
        raise Refused(f"The new take would replace {kept}, which it is to be compared with; name "
                      "another folder with -o.")
