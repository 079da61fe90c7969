"""Whether README and the guide say what comes when their commands are typed in."""

import json
import re
import unittest
from pathlib import Path

import fixtures
from waplay_tools.expecting.sessions import file_of, replayed
from waplay_tools.waexplain import answer_to
from waplay_tools.waprune import answer_to as prune_answer

TOP = Path(fixtures.TOP)
EXAMPLES = TOP / "examples"


def blocks_of(document: str) -> list[str]:
    """The blocks of a document that are indented by four blanks, without them."""
    text = (TOP / document).read_text(encoding="utf-8")
    found = re.findall(r"(?:^ {4}.*\n(?:\n(?= {4}))?)+", text, re.M)
    return [re.sub(r"^ {4}", "", block, flags=re.M).strip("\n") for block in found]


def block_with(document: str, words: str) -> str:
    """The first block of a document in which these words stand."""
    return next(block for block in blocks_of(document) if words in block)


class Documents(unittest.TestCase):
    def test_the_first_piece_stands_in_the_readme(self):
        piece = json.loads((EXAMPLES / "first_piece.json").read_text(encoding="utf-8"))
        told = json.loads(block_with("README.md", '"version"'))
        self.assertEqual(told, {name: it for name, it in piece.items() if name != "about"})

    def test_the_lines_of_the_first_piece_stand_in_the_readme(self):
        lines = (EXAMPLES / "first_piece.txt").read_text(encoding="utf-8").splitlines()
        text = " ".join((TOP / "README.md").read_text(encoding="utf-8").split())
        told = ", ".join(f"`{line}`" for line in [lines[0], *lines[8:]])
        self.assertEqual(lines[1:8], [f"{call} ok" for call in range(2, 9)])
        self.assertIn(told.replace(", ", ", `2 ok` to `8 ok`, ", 1), text)

    def test_the_first_piece_of_the_guide_has_its_transcript(self):
        script = block_with("docs/GUIDE.md", '"version"')
        status, text, _ = replayed(script.encode(), str(EXAMPLES), is_checked=True)
        self.assertEqual((status, text.strip()), (0, block_with("docs/GUIDE.md", "end completed")))

    def test_the_echo_of_the_guide_can_be_added(self):
        script = block_with("docs/GUIDE.md", '"version"')
        echo = block_with("docs/GUIDE.md", '"createDelay"')
        longer = re.sub(r"(?=\{ \"op\": \"startRendering\")", lambda _: echo.strip() + "\n", script)
        status, text, _ = replayed(longer.encode(), str(EXAMPLES), is_checked=True)
        self.assertEqual((status, re.findall("throw|rejected", text)), (0, []))

    def test_the_first_piece_in_seconds_is_the_first_piece_migrated(self):
        data = (EXAMPLES / "first_piece.json").read_bytes()
        _, text, session = replayed(data, str(EXAMPLES), is_checked=True)
        migrated = EXAMPLES / "first_piece_in_seconds.json"
        self.assertEqual(migrated.read_bytes(), file_of(session, "migrate"))
        self.assertEqual(migrated.with_suffix(".txt").read_text(encoding="utf-8"), text)

    def test_the_script_of_the_formats_is_migrated_as_they_say(self):
        script = block_with("docs/FORMATS.md", '"version": 1')
        migrated = block_with("docs/FORMATS.md", '"version":2}').replace("\n", "")
        _, _, session = replayed(script.encode(), is_checked=True)
        self.assertEqual(migrated.encode(), file_of(session, "migrate"))

    def test_derivations_stand_as_they_are(self):
        piece = (EXAMPLES / "first_piece.json").read_bytes()
        for document, data, frame in (
            ("README.md", piece, "50000"),
            ("docs/GUIDE.md", block_with("docs/GUIDE.md", '"version"').encode(), "22100"),
        ):
            answer = answer_to(["derive", frame, "0", "why.txt"], data, str(EXAMPLES))
            self.assertEqual(block_with(document, "count "), (answer.derivation or "").strip())
            command = f"../waexplain derive {frame} 0 "
            self.assertIn(command, block_with(document, "waexplain derive"))
            text = (TOP / document).read_text(encoding="utf-8")
            self.assertIn(f"prints `{answer.text.strip()}`", text)

    def test_pruned_scripts_stand_as_they_are(self):
        page = (TOP / "docs" / "FORMATS.md").read_text(encoding="utf-8")
        script = block_with("docs/FORMATS.md", '"version"').encode()
        answer = prune_answer(["out.json"], script, ".")
        self.assertIn(f"`waprune out.json` prints `{answer.text.strip()}`", page)
        migrated = block_with("docs/FORMATS.md", '"version":2').replace("\n", "")
        left_out = ',"then":[{"op":"readState"}]'
        self.assertIn(f"without `{left_out}`", page)
        self.assertEqual(migrated.replace(left_out, "").encode(), answer.script)
        data = (EXAMPLES / "first_piece.json").read_bytes()
        self.assertIn("../waprune ../shorter.json < first_piece.json",
                      block_with("docs/EXAMPLES.md", "waprune"))
        text = prune_answer(["shorter.json"], data, str(EXAMPLES)).text.strip()
        examples = (TOP / "docs" / "EXAMPLES.md").read_text(encoding="utf-8")
        self.assertIn(f"prints `{text}`", examples)

    def test_derivations_of_pieces_have_as_many_facts_as_is_told(self):
        page = (TOP / "docs" / "EXAMPLES.md").read_text(encoding="utf-8")
        rows = re.findall(r"^\| (\w+) \| ([\d,]+) \| (\d{1,3}) \|$", page, re.M)
        told = [(name, frame, facts) for name, frame, facts in rows if "," in frame]
        self.assertGreater(len(told), 3)
        for name, frame, facts in told:
            words = ["derive", frame.replace(",", ""), "0", "why.txt"]
            data = (EXAMPLES / f"{name}.json").read_bytes()
            self.assertEqual(answer_to(words, data, str(EXAMPLES)).text, f"facts {facts}\n")

    def test_every_piece_stands_in_the_page_of_pieces(self):
        page = (TOP / "docs" / "EXAMPLES.md").read_text(encoding="utf-8")
        pictures = page + (TOP / "README.md").read_text(encoding="utf-8")
        for path in sorted(EXAMPLES.glob("*.json")):
            self.assertIn(f"](../examples/{path.name})", page)
            # A piece that was migrated looks as it did before.
            self.assertIn(f"pictures/{path.stem.removesuffix('_in_seconds')}.svg", pictures)
            self.assertTrue(path.with_suffix(".txt").is_file(), path)


class Assets(unittest.TestCase):
    def test_the_files_are_those_that_are_made(self):
        ran = fixtures.run("assets", "--check")
        self.assertEqual((ran.returncode, ran.stdout), (0, b""))


if __name__ == "__main__":
    unittest.main()
