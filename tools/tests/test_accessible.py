"""Pages can be read by those who don't see them, or see colours less well: names, headings, the
order of keys, and contrasts, all without a browser."""

import re
import tempfile
import unittest

import accessible
import fixtures
import pages_shown
from waplay_tools.places import TOP

STYLE = (TOP / "tools" / "waplay_tools" / "reporting" / "page.css").read_text(encoding="utf-8")
CODE = (TOP / "tools" / "waplay_tools" / "reporting" / "page.js").read_text(encoding="utf-8")

SOME_EVENTS = 1100  # from 1,000 lines on a page has them as plain text
GROUNDS = ("--ground", "--raised", "--bad-ground")
VARIABLE = re.compile(r"var\((--[\w-]+)\)")
# The colours of texts that stand on drawings, with what is drawn below them.
ON_DRAWINGS = [("text", "--text", "--wave-fill")]
# The colours of drawings by which something is told apart from what is behind it.
SIGNS = ["--wave", "--other", "--difference", "--event", "--stop", "--bad", "--quiet", "--link"]


def is_of_text(selectors: str) -> bool:
    """Whether a rule that fills is one of a text in a drawing."""
    return re.search(r"\btext\b|label", selectors) is not None


def colours_of_texts() -> set[str]:
    """The names of the colours that texts have, by the style sheet."""
    found = set()
    for rule in accessible.rules_of(STYLE):
        values = [rule.says.get("color", "")]
        values += [rule.says.get("fill", "")] if is_of_text(rule.selectors) else []
        for value in filter(None, values):
            name = VARIABLE.fullmatch(value)
            if name:
                found.add(name[1])
            elif value not in ("inherit", "none"):
                raise AssertionError(f"{rule.selectors} has a colour without a name: {value}")
    return found


class Colours(unittest.TestCase):
    def test_texts_have_a_contrast_of_four_and_a_half_on_every_ground(self) -> None:
        texts = colours_of_texts()
        self.assertLess({"--text", "--quiet", "--link", "--bad", "--good", "--doubt"}, texts)
        pairs = [("text", text, ground) for text in sorted(texts) for ground in GROUNDS]
        self.assertEqual(list(accessible.low_contrasts(STYLE, pairs + ON_DRAWINGS)), [])

    def test_signs_and_drawings_have_a_contrast_of_three(self) -> None:
        pairs = [("sign", sign, ground) for sign in SIGNS for ground in GROUNDS]
        pairs += [("sign", "--play", ground) for ground in GROUNDS[:2]]
        self.assertEqual(list(accessible.low_contrasts(STYLE, pairs)), [])

    def test_each_ground_is_among_those_that_are_looked_at(self) -> None:
        for rule in accessible.rules_of(STYLE):
            for key in ("background", "background-color"):
                for name in VARIABLE.findall(rule.says.get(key, "")):
                    self.assertIn(name, (*GROUNDS, "--wave-fill", "--select", "--play"), rule)

    def test_both_schemes_have_the_same_colours(self) -> None:
        roots = [rule for rule in accessible.rules_of(STYLE) if rule.selectors == ":root"]
        light, dark = ({key for key in it.says if key.startswith("--")} for it in roots)
        self.assertEqual(light, dark)

    def test_what_has_the_keys_is_seen(self) -> None:
        (rule,) = (it for it in accessible.rules_of(STYLE) if it.selectors == ":focus-visible")
        self.assertRegex(rule.says["outline"], r"^3px solid var\(--link\)$")
        self.assertNotRegex(STYLE, r"outline: *(none|0)")

    def test_contrasts_are_those_of_the_recommendation(self) -> None:
        for one, two, wanted in (("#000000", "#ffffff", 21.0), ("#777777", "#ffffff", 4.48),
                                 ("#ffffff", "#ffffff", 1.0), ("#1f2328", "#f6f8fa", 14.84)):
            self.assertAlmostEqual(accessible.contrast(one, two), wanted, places=2)

    def test_low_contrasts_are_found(self) -> None:
        for change, told in (("--quiet: #57606a", "light"), ("--quiet: #a0abb8", "dark")):
            worse = STYLE.replace(change, "--quiet: #808080")
            pairs = [("text", "--quiet", "--raised")]
            (found,) = accessible.low_contrasts(worse, pairs)
            self.assertTrue(found.startswith(f"{told}: --quiet on --raised has "), found)


class Names(unittest.TestCase):
    def test_every_page_has_its_names_headings_and_order(self) -> None:
        with tempfile.TemporaryDirectory() as folder:
            for name, path in pages_shown.paths_of_all(folder, SOME_EVENTS).items():
                with open(path, encoding="utf-8") as file:
                    self.assertEqual(accessible.wrong_of(file.read()), [], name)

    def test_what_scripts_make_has_names_too(self) -> None:
        self.assertIn('button.setAttribute("aria-label"', CODE)
        self.assertEqual(CODE.count("createElement("), 1)  # that button
        self.assertNotRegex(CODE, r"tabIndex = [^0]")

    def test_what_is_lacking_is_found(self) -> None:
        with tempfile.TemporaryDirectory() as folder:
            data, text, sound = fixtures.session_of_case("drum_loop")
            ran = fixtures.run("report", *fixtures.written(folder, "it", data, text, sound))
        whole = ran.stdout.decode()
        self.assertEqual(accessible.wrong_of(whole), [])
        for old, new, told in LACKING:
            self.assertIn(old, whole)
            found = " ".join(accessible.wrong_of(whole.replace(old, new, 1)))
            self.assertIn(told, found)


# Of each change to a page what is told of it.
LACKING = [
    ('<button type="button" data-do="in">Zoom in', '<button type="button" data-do="in">',
     "<button> has no name"),
    ("<audio ", "<audio></audio><audio ", "<audio> has no name"),
    ("<label>From frame", "<label>", "<input> has no name"),
    ('role="group" aria-label="Waveform by channel"', 'role="group"', "has no name"),
    ('<svg class="lane" role="img"', '<svg class="lane"', "is a picture without a word"),
    ("<h3>", "<h4>x</h4><h3>", "a heading of level 4 follows one of level 2"),
    ("<h1>", "<h1>x</h1><h1>", "headings of level 1: 2"),
    (' id="part-1"', ' id="part-1-title"', "id part-1-title stands twice"),
    ('aria-labelledby="part-1-title"', 'aria-labelledby="x"', "refers to x, which is not there"),
    (' lang="en"', "", "the page has no language"),
    ("<title>", "<title></title><title>", "the page has no title, or more than one"),
    ('class="scroll" tabindex="0"', 'class="scroll"', "can't be scrolled by keys"),
    ('tabindex="0"', 'tabindex="3"', "has a place of its own in the order of keys: 3"),
    ('<th scope="col"', "<th", "does not say what it heads"),
    ("<p>", '<p onclick="x">', "is pressed by a mouse alone"),
]


if __name__ == "__main__":
    unittest.main()
