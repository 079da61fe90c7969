"""A test of the examples' assets: they are the files that tools/assets.py makes."""

import unittest

import fixtures


class Assets(unittest.TestCase):
    def test_the_assets_are_those_that_are_made(self):
        ran = fixtures.run("assets", "--check", text=True)
        self.assertEqual((ran.returncode, ran.stdout, ran.stderr), (0, "", ""))


if __name__ == "__main__":
    unittest.main()
