"""Tests of tools/difftranscript."""

import os
import random
import tempfile
import unittest

import fixtures
from waplay_tools.reporting import difference, transcript_reading


def lines_of(text):
    return transcript_reading.lines_of(text.encode(), "t")


class Difference(unittest.TestCase):
    def setUp(self):
        folder = tempfile.TemporaryDirectory()
        self.addCleanup(folder.cleanup)
        self.folder = folder.name

    def run_on(self, one, two, *words):
        """The status and the output of a run on two texts."""
        paths = [fixtures.write(self.folder, name, text) for name, text in (("A", one), ("B", two))]
        ran = fixtures.run("difftranscript", *paths, *words)
        self.assertEqual(ran.stderr, b"")
        return ran.returncode, ran.stdout.decode()

    def refused(self, *words):
        ran = fixtures.run("difftranscript", *words)
        self.assertEqual((ran.returncode, ran.stdout), (2, b""))
        self.assertRegex(ran.stderr.decode(), r"\Adifftranscript: [^\n]+\n\Z")
        return ran.stderr.decode()

    def test_equal_transcripts(self):
        text = fixtures.session_of_case("hi_hat_choked")[1]
        self.assertEqual(self.run_on(text, text), (0, "The transcripts are equal: 47 lines.\n"))

    def test_where_they_part_and_what_differs(self):
        data, text, _ = fixtures.session_of_case("hi_hat_choked")
        script = fixtures.write(self.folder, "it.json", data)
        other = text.replace("\n6 ok\n", "\n6 throw NotSupportedError profile:node-limit\n")
        status, told = self.run_on(text, other, "--script", script, "--context", "1")
        self.assertEqual(status, 1)
        self.assertIn("The transcripts part at line 6.", told)
        self.assertIn('  call 6: createGain as="hats" gain=8388608\n', told)
        self.assertIn("| 6 ok ", told)
        self.assertIn(
            '| 6 throw NotSupportedError profile:node-limit | createGain as="hats" gain=8388608\n',
            told,
        )
        self.assertIn("  ... 4 alike\n", told)
        self.assertIn("\nLines: 46 alike, 1 other in A than in B.\n", told)

    def test_lines_of_one_transcript_alone_and_at_other_places(self):
        end = "2 resolved\ncomplete 128\nend completed\n"
        one = "1 ok\n2 pending\nended 1 a\nended 2 b\nended 3 c\n" + end
        two = "1 ok\n2 pending\nended 2 b\nended 1 a\n" + end
        status, told = self.run_on(one, two, "--all")
        self.assertEqual(status, 1)
        self.assertEqual(
            told.splitlines()[4:13],
            [
                "  A             | B",
                "  1 ok          | 1 ok",
                "  2 pending     | 2 pending",
                "  ended 1 a     | ended 1 a",
                "~ ended 2 b     | ended 2 b",
                "< ended 3 c     |",
                "  2 resolved    | 2 resolved",
                "  complete 128  | complete 128",
                "  end completed | end completed",
            ],
        )
        self.assertIn("Lines: 6 alike, 1 only in A, 1 at another place in B.", told)
        status, told = self.run_on(two, one)
        self.assertIn(">               | ended 3 c\n", told)

    def test_a_transcript_that_goes_on(self):
        status, told = self.run_on("1 ok\nend idle\n", "1 ok\n2 ok\nend idle\n")
        self.assertEqual(status, 1)
        self.assertIn("The transcripts part at line 2.", told)
        self.assertIn(">          | 2 ok", told)

    def test_random_changes_are_all_shown(self):
        rng, text = random.Random("changes"), fixtures.suspended()[1]
        for _ in range(300):
            lines = text.splitlines()
            at = rng.randrange(len(lines) - 1)
            if rng.random() < 0.5:
                lines.pop(at)
            else:
                lines[at] = (
                    lines[at].split()[0] + " value 7" if lines[at][0].isdigit() else "ended 1 other"
                )
            other = lines_of("\n".join(lines) + "\n")
            pairs = difference.pairs_of(lines_of(text), other)
            self.assertEqual([pair.left.text for pair in pairs if pair.left], text.splitlines())
            self.assertEqual(sorted(pair.right.text for pair in pairs if pair.right), sorted(lines))
            self.assertEqual(difference.parting(lines_of(text), other), at + 1)

    def test_input_that_is_of_no_use(self):
        data, text, _ = fixtures.session_of_case("constant")
        script, good = fixtures.write(self.folder, "it.json", data), fixtures.write(
            self.folder, "good", text
        )
        other = fixtures.write(self.folder, "other", fixtures.suspended()[1])
        nowhere = os.path.join(self.folder, "nowhere")
        self.assertIn("can't be read", self.refused(good, nowhere))
        self.assertIn("can't be read", self.refused(nowhere, good))
        self.assertIn("can't be read", self.refused(good, good, "--script", nowhere))
        self.assertIn("is no transcript: line 1 is", self.refused(good, script))
        self.assertIn("does not belong", self.refused(good, other, "--script", script))
        self.assertIn("the script has no such call", self.refused(good, good, "--script", good))
        self.assertIn("0 or more", self.refused(good, other, "--context", "-1"))


if __name__ == "__main__":
    unittest.main()
