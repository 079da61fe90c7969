"""Tests of what waexplain answers by the second calculation, and of the tool that derives samples
of random scripts.

The programs are those that the variables WAPLAY and WAEXPLAIN name, or else the shipped ones. Where
one of them is not there, they are not run. EXPLAINED_SCRIPTS tells on how many scripts they are."""

import functools
import json
import os
import random
import unittest
import unittest.mock
from collections.abc import Callable
from pathlib import Path

import fixtures
from waplay_tools import explanations
from waplay_tools.explanations import Found, Outcome, Programs, Sizes
from waplay_tools.waexplain import USAGE, Check, Derive, answer_to, request_of

PROGRAM = fixtures.tried("waplay")
EXPLAIN_PROGRAM = fixtures.tried("waexplain")
COUNT = int(os.environ.get("EXPLAINED_SCRIPTS", "20"))
SIZES = Sizes(3, 5, 300)
SECOND = Programs(explanations.played, explanations.explained)
ONE_CONSTANT = [
    {"op": "createConstantSource", "as": "c"},
    {"op": "connect", "from": "c", "to": "destination"},
    {"op": "start", "node": "c"},
    {"op": "startRendering"},
]
DATA = fixtures.script(ONE_CONSTANT)


class Answers(unittest.TestCase):
    def test_words(self) -> None:
        self.assertEqual(request_of(["derive", "05", "0", "x"]), Derive(5, 0, "x"))
        self.assertEqual(request_of(["check", ""]), Check(""))
        for words in ([], ["derive", "5", "0"], ["derive", "+5", "0", "x"], ["check", "\udcff"]):
            self.assertIsNone(request_of(words))
            self.assertEqual(answer_to(words, b"{", "."), (2, USAGE, None))

    def test_an_answer_has_a_derivation_where_it_is_written(self) -> None:
        answer = answer_to(["derive", "5", "0", "x"], DATA, ".")
        self.assertEqual((answer.status, answer.text), (0, "facts 6\n"))
        self.assertEqual((answer.derivation or "").count("\n"), 6)
        for words in (["derive", "128", "0", "x"], ["check", "nowhere"]):
            self.assertIsNone(answer_to(words, DATA, ".").derivation)


Explain = Callable[[list[str], bytes, str], Outcome]


class Tool(unittest.TestCase):
    def look(self, explain: Explain, calls: list[dict] | None = None) -> Found:
        """What the tool finds where this explains."""
        data = fixtures.script(ONE_CONSTANT if calls is None else calls)
        with unittest.mock.patch.object(explanations.maker, "script_of") as made:
            made.return_value = json.loads(data), {}
            return explanations.found_of_number(Programs(SECOND.play, explain), SIZES, 1, 1)

    def test_nothing_differs(self) -> None:
        found = self.look(SECOND.explain)
        self.assertEqual((found.derived, found.changed, found.different), (3, 15, ()))
        self.assertEqual(self.look(SECOND.explain, []).different, ())
        self.assertEqual(self.look(SECOND.explain, [{"op": "start"}]).different, ())

    def test_random_scripts(self) -> None:
        look = functools.partial(explanations.found_of_number, SECOND, SIZES, 1)
        found = [look(number) for number in range(8)]
        self.assertEqual([it.different for it in found if it.different], [])
        self.assertGreater(sum(it.derived for it in found), 8)

    def test_what_differs_is_told(self) -> None:
        def wrong_count(words: list[str], data: bytes, folder: str) -> Outcome:
            found = SECOND.explain(words, data, folder)
            return found._replace(text=found.text.replace("facts 6", "facts 7"))

        def wrong_text(words: list[str], data: bytes, folder: str) -> Outcome:
            found = SECOND.explain(words, data, folder)
            if words[0] == "derive":
                place = Path(folder, words[-1])
                place.write_text(place.read_text().replace("16777216", "8388608"))
            return found

        def all_valid(words: list[str], data: bytes, folder: str) -> Outcome:
            if words[0] == "derive":
                return SECOND.explain(words, data, folder)
            last = Path(folder, words[-1]).read_text().splitlines()[-1:]
            return Outcome(0, f"valid {''.join(last)}\n")

        def never_valid(words: list[str], data: bytes, folder: str) -> Outcome:
            found = SECOND.explain(words, data, folder)
            return Outcome(12, "invalid 1\n") if words[0] == "check" else found

        for explain, told in (
            (wrong_count, "derive gives 0 'facts 7\\n', and not 'facts 6\\n'"),
            (wrong_text, "the derivation is another text"),
            (wrong_text, "the last fact is b'out"),
            (wrong_text, "the second calculation says 'invalid 3"),
            (all_valid, "and not 'invalid"),
            (never_valid, "waexplain says 'invalid 1\\n' of the derivation, with status 12"),
        ):
            found = self.look(explain)
            self.assertTrue([it for it in found.different if told in it], (told, found.different))

    def test_what_does_not_complete(self) -> None:
        def idle(words: list[str], data: bytes, folder: str) -> Outcome:
            return Outcome(3, "end idle\n")

        self.assertEqual(self.look(idle, []).different, ())
        found = self.look(idle, [{"op": "start"}])
        self.assertEqual(len(found.different), 2)
        self.assertIn("and waplay 4 'script: 1 node MissingField\\n'", found.different[0])

    def test_changes_are_changes(self) -> None:
        rng = random.Random("changes")
        made = {explanations.changed(rng, "out 5 0 0 0 = 1\n") for _ in range(2000)}
        self.assertNotIn("out 5 0 0 0 = 1\n", made)
        self.assertGreater(len(made), 300)

    def test_a_program_that_is_not_there(self) -> None:
        words = ["--program", "/bin/sh", "--explain-program", "/nowhere"]
        done = fixtures.run("explanations", *words, text=True)
        told = "tools/explanations: there is no program /nowhere\n"
        self.assertEqual((done.returncode, done.stdout, done.stderr), (2, "", told))


@unittest.skipUnless(os.access(PROGRAM, os.X_OK), "there is no program")
@unittest.skipUnless(os.access(EXPLAIN_PROGRAM, os.X_OK), "there is no waexplain")
class Built(unittest.TestCase):
    def test_random_scripts(self) -> None:
        programs = Programs(
            functools.partial(explanations.played_on, PROGRAM),
            functools.partial(explanations.run_on, EXPLAIN_PROGRAM),
        )
        look = functools.partial(explanations.found_of_number, programs, SIZES, 2)
        found = [look(number) for number in range(COUNT)]
        self.assertEqual([it.different for it in found if it.different], [])
        self.assertGreater(sum(it.derived for it in found), COUNT)


if __name__ == "__main__":
    unittest.main()
