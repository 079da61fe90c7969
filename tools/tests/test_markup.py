"""Tests of the templates that the pages of reports are made of."""

import ast
import re
import unittest
from collections.abc import Iterator

from waplay_tools.places import TOP
from waplay_tools.reporting.markup import Html, filled, isolated, joined, sentence

REPORTING = TOP / "tools" / "waplay_tools" / "reporting"
TAG = re.compile(r"(?<!\(\?P)<[/a-z%]")  # and no group of a regular expression


def made_by_hand(text: str) -> Iterator[int]:
    """The lines in which text with a tag is put together in another way than by a template."""
    for node in ast.walk(ast.parse(text)):
        parts: list[ast.AST] = node.values if isinstance(node, ast.JoinedStr) else []
        if isinstance(node, ast.BinOp) and isinstance(node.op, ast.Mod):
            parts = [node.left]
        for part in parts:
            if isinstance(part, ast.Constant) and TAG.search(str(part.value)):
                yield node.lineno


class Templates(unittest.TestCase):
    def test_what_is_put_in_is_escaped(self):
        escaped = "<p>&lt;b a=&#x27;&quot;&#x27;&gt;&amp;</p>"
        self.assertEqual(filled("<p>{it}</p>", it="<b a='\"'>&"), escaped)
        self.assertEqual(filled("{it}", it="a\u202eb\n"), "a\\u202eb\\u000a")
        self.assertEqual(filled("{it!r}{it:>3}", it="<"), "&#x27;&lt;&#x27;  &lt;")
        self.assertEqual(filled("{it:.1f}%", it=0.25), "0.2%")
        self.assertEqual(filled("{one}", one="{two}", two="<"), "{two}")

    def test_html_stays_as_it_is(self):
        part = filled("<i>{it}</i>", it="<")
        self.assertIsInstance(part, Html)
        self.assertEqual(filled("<p>{it}</p>", it=part), "<p><i>&lt;</i></p>")
        self.assertEqual(joined([part, part], " "), "<i>&lt;</i> <i>&lt;</i>")
        self.assertEqual(isolated("<"), "<bdi>&lt;</bdi>")
        self.assertEqual(sentence("a `<b>` c"), "a <code>&lt;b&gt;</code> c")
        for it in (joined([]), isolated(""), sentence("")):
            self.assertIsInstance(it, Html)

    def test_what_was_html_and_was_changed_is_escaped_again(self):
        self.assertEqual(filled("{it}", it=Html("<p>") + "<"), "&lt;p&gt;&lt;")

    def test_pages_are_made_of_templates_alone(self):
        for path in REPORTING.glob("*.py"):
            self.assertEqual(list(made_by_hand(path.read_text(encoding="utf-8"))), [], path.name)
        self.assertEqual(list(made_by_hand("a = f'<p>{b}'\n'<%s>' % b")), [1, 2])


if __name__ == "__main__":
    unittest.main()
