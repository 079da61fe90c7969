"""Tests of what does not hang on the frames of a render quantum, and of the tool that looks at it.

The program is the one that the variable WAPLAY names, or else the shipped one. Where neither is
there, it is not run."""

import os
import unittest
import unittest.mock
from pathlib import Path

import fixtures
from waplay_tools import quanta
from waplay_tools.expecting.numbers import QUANTA
from waplay_tools.expecting.sessions import replayed
from waplay_tools.places import SHIPPED

PROGRAM = Path(os.environ.get("WAPLAY") or SHIPPED).absolute()
COUNT = int(os.environ.get("QUANTA_SCRIPTS", "60"))  # random scripts

BUFFER = {"op": "createBuffer", "as": "b", "channels": 2, "length": 9, "rate": 48000}
PLAYED = [BUFFER, {"op": "createBufferSource", "as": "s", "buffer": "b", "loop": True}]
LOOP = [
    {"op": "createDelay", "as": "d"},
    {"op": "connect", "from": "d", "to": "d"},
]


def start(**fields: int) -> list[dict]:
    return [{"op": "start", "node": "s", **fields}]


def hangs(*calls: dict) -> bool:
    """Whether what a session of these calls gives may hang on its quantum."""
    data = fixtures.script([*calls, {"op": "startRendering"}], length=100, renderQuantum=1024)
    session = replayed(data)[2]
    assert session is not None
    return quanta.hangs_on_quantum(session)


class Quanta(unittest.TestCase):
    def compare(self, program: Path | None, count: int) -> None:
        found = [quanta.compared(program, 1, number) for number in range(count)]
        self.assertEqual([it.different for it in found if it.different], [])
        self.assertGreater(sum(it.is_compared for it in found), count // 4)

    def test_random_scripts_give_the_same_in_quanta_of_each_size(self) -> None:
        self.compare(None, COUNT)

    @unittest.skipUnless(os.access(PROGRAM, os.X_OK), "there is no program")
    def test_so_they_do_on_the_program(self) -> None:
        self.compare(PROGRAM, COUNT // 2)

    def test_those_that_are_left_out_may_give_something_else(self) -> None:
        with unittest.mock.patch.object(quanta, "hangs_on_quantum", lambda session: False):
            found = [quanta.compared(None, 1, number) for number in range(30)]
        self.assertTrue(any(it.different for it in found))

    def test_what_may_hang_on_the_quantum(self) -> None:
        delays = [{"op": "createDelay", "as": "e", "maxDelayTime": 2**28}] * 6
        for calls, wanted in [
            ([], False),
            (LOOP, True),
            (LOOP[:1], False),
            (PLAYED, False),
            (PLAYED + start(), False),
            (PLAYED + start(when=1), True),
            (PLAYED + start(when=1024), False),
            (PLAYED + start() + [{"op": "stop", "node": "s", "when": 100}], True),
            (PLAYED + start() + [{"op": "stop", "node": "s", "when": 1024}], False),
            ([{**BUFFER, "channels": 1}, PLAYED[1], *start(when=1)], False),
            (delays[:5], False),
            (delays, True),
        ]:
            self.assertEqual(hangs(*calls), wanted, calls)

    def test_what_is_made_of_a_script(self) -> None:
        calls = [
            {"op": "suspend", "time": 1},
            {"op": "setAutomationRate", "node": "c", "param": "offset", "value": "k-rate"},
            {"op": "readTime"},
            {"op": "startRendering", "then": [{"op": "readTime"}]},
        ]
        script = {"version": 1, "context": {"length": 1}, "calls": calls}
        made = quanta.plain(script)
        self.assertEqual(made, {**script, "calls": [calls[2], {"op": "startRendering"}]})
        self.assertIn("then", calls[3])
        for spoiled in ({"calls": 7}, {"context": 7}, {"calls": [7]}):
            self.assertIsNone(quanta.plain({**script, **spoiled}))

    def test_differences_are_told(self) -> None:
        one = quanta.Outcome(0, ["1 pending"], b"RIFF")
        found = dict.fromkeys(QUANTA, one)
        self.assertEqual(quanta.differences(found), [])
        found[256] = one._replace(status=3, file=None)
        self.assertEqual(
            quanta.differences(found),
            [
                "in quanta of 256 another status than in those of 32",
                "in quanta of 256 another file than in those of 32",
            ],
        )

    def test_lines_of_sources_that_ended_do_not_count(self) -> None:
        text = "1 ok\nended 1 s\nend completed\n"
        self.assertEqual(quanta.lines_of(text), ["1 ok", "end completed"])


if __name__ == "__main__":
    unittest.main()
