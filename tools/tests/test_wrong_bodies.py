"""Whether each edit that docs/GUARANTEES.md names is there for the gate to try."""

import re
import unittest
from pathlib import Path

import fixtures

TOP = Path(fixtures.TOP)


class WrongBodies(unittest.TestCase):
    def test_each_edit_that_is_named_is_there(self):
        text = (TOP / "docs" / "GUARANTEES.md").read_text(encoding="utf-8")
        named = re.findall(r"`(\w+/must-fail/\w+\.edit)`", text)
        self.assertGreaterEqual(len(named), 16)
        for edit in named:
            self.assertTrue((TOP / "crates" / edit).is_file(), edit)


if __name__ == "__main__":
    unittest.main()
