"""Tests of the words that tools share which run a program on what they draw."""

import argparse
import os
import re
import subprocess
import sys
import unittest
import unittest.mock
from pathlib import Path

import fixtures
from waplay_tools.places import PROGRAMS, SHIPPED
from waplay_tools.program_words import asked_of, option_of


def asked(*told: str) -> argparse.Namespace:
    """What these words ask for of a tool that has none of its own."""
    with unittest.mock.patch.object(sys, "argv", ["tool", *told]):
        return asked_of(argparse.ArgumentParser(), "scripts")


class ProgramWords(unittest.TestCase):
    def test_a_program_is_a_path_from_the_root(self) -> None:
        found = asked("--program", os.path.relpath(sys.executable), "--seed", "7", "--jobs", "2")
        self.assertEqual(found.program, Path(sys.executable).resolve())
        self.assertEqual((found.seed, found.jobs), (7, 2))

    @unittest.skipUnless(os.access(SHIPPED, os.X_OK), "there is no program")
    def test_without_words_it_is_the_shipped_one(self) -> None:
        found = asked()
        self.assertEqual((found.program, found.seed), (SHIPPED, 1))
        self.assertEqual(found.jobs, len(os.sched_getaffinity(0)))

    def test_the_second_calculation_needs_no_program(self) -> None:
        self.assertIsNone(asked("--second-alone", "--program", "nowhere").program)

    def test_the_names_of_the_programs(self) -> None:
        """tools/building.sh has the same names and words of a command line."""
        lines = (fixtures.TOOLS / "building.sh").read_text(encoding="utf-8")
        names = re.search(r"^programs='(.*)'$", lines, re.M)
        self.assertEqual(names and names[1].split(), list(PROGRAMS))
        words = 'top=.; . tools/building.sh; digest_of_sources() { :; }; take "$0"; echo $option'
        for name in PROGRAMS:
            done = subprocess.run(["sh", "-c", words, name], cwd=fixtures.TOP, text=True,
                                  capture_output=True, check=True)
            self.assertEqual(done.stdout.strip(), option_of(name))

    def test_a_program_that_is_not_there(self) -> None:
        for tool in ("migrations", "prunings", "quanta"):
            done = fixtures.run(tool, "--program", "/nowhere", text=True)
            self.assertEqual((done.returncode, done.stdout), (2, ""), tool)
            self.assertEqual(done.stderr, f"tools/{tool}: there is no program /nowhere\n")

    def test_words_that_build_nothing(self) -> None:
        for tool, says in (("prove", "Proves every crate"), ("ship", "Puts the programs")):
            done = fixtures.run(tool, "--help", text=True)
            self.assertEqual((done.returncode, done.stderr), (0, ""), tool)
            self.assertTrue(done.stdout.startswith(says), tool)
            done = fixtures.run(tool, "nothing", text=True)
            self.assertEqual((done.returncode, done.stdout), (2, ""), tool)


if __name__ == "__main__":
    unittest.main()
