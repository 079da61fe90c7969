"""Tests of how random sessions are judged, without a browser: each class, what tells of a
difference and what does not, and runs that go on where an earlier one ended."""

import argparse
import array
import contextlib
import io
import json
import signal
import time
import unittest
from pathlib import Path
from unittest import mock

from recording import temporary_folder

from waplay_tools.random_sessions import __main__ as command
from waplay_tools.random_sessions import judging
from waplay_tools.random_sessions.judging import Judgement, Run, judge
from waplay_tools.recorder import departures
from waplay_tools.recorder.replaying import FULL, Replay
from waplay_tools.recorder.results import Recorded

TAIL = departures.BY_LOSS["lowered-biquad"]
TARGET = departures.BY_LOSS["lowered-target"]
CANCEL = departures.BY_OPERATION["cancelScheduledValues"]
DELAY = "a delay whose input comes to have fewer channels mixes down in Chromium"


def floats(*samples: float) -> list[array.array]:
    """One channel of samples."""
    return [array.array("f", samples)]


def loss(kind: str, grade: str, error: float = 0.0) -> dict:
    """A loss as a recording has it."""
    return {"kind": kind, "grade": grade, "count": 1, "error": error}


def run(page: float, script: float, replay: float, *texts: str, kinds: tuple[dict, ...] = (),
        lines: tuple[str, ...] = ()) -> Run:
    """A session of one sample other than 0: what the browser renders of the page and of the script,
    and what the program does. The texts are departures."""
    recorded = Recorded(1, "{}", ["context 1", *lines], "lowered", list(kinds), {})
    recorded.rendered = floats(0.0, page)
    told = [*lines, *(f"{judging.DEPARTURE}{text}" for text in texts)]
    outcome = "differs" if abs(page - replay) > judging.TOLERANCE else "agrees"
    return Run(recorded, floats(0.0, script), Replay(told, outcome, None, replay == 0),
               [[0, round(replay * FULL)]])


class Judging(unittest.TestCase):
    """What a session is judged to be."""

    def kind(self, *runs: Run, lower: bool = True) -> str:
        return judge(runs, lower).kind

    def test_what_is_not_off(self) -> None:
        self.assertEqual(self.kind(run(0.5, 0.5, 0.5)), judging.EXACT)
        self.assertEqual(self.kind(run(0.5, 0.5, 0.50005)), judging.NEAR)
        self.assertEqual(self.kind(run(1.75, 1.75, 1 - 1 / FULL)), judging.EXACT)

    def test_what_is_off_has_to_be_told(self) -> None:
        self.assertEqual(self.kind(run(0.5, 0.5, 0.25)), judging.NOT_TOLD)
        for made, script in [(loss("lowering-failed", "refused"), 0.5),
                             (loss("delay-fraction", "heard", 0.5), 0.25),
                             (loss("coefficients-rounded", "heard", 0.02), 0.25),
                             (loss("feedback-rounded", "heard", 0.02), 0.5)]:
            found = judge([run(0.5, script, 0.25, kinds=(made,))], True)
            self.assertEqual(found.kind, judging.TOLD)
            self.assertTrue(found.words.endswith(f"{made['grade']} {made['kind']}"), found.words)
        told = "replay: 1 calls ended otherwise than in the browser: 3 (ok for x)"
        self.assertEqual(self.kind(run(0.5, 0.5, 0.25, lines=(told,))), judging.TOLD)

    def test_losses_that_are_no_cause(self) -> None:
        for made in (loss("lowered-target", "lowered"), loss("value-rounded", "rounded", 2**-25),
                     loss("feedback-rounded", "heard", 0.01), loss("browser-rounded", "exact", 1),
                     loss("delay-fraction", "heard", 0.5)):
            self.assertEqual(self.kind(run(0.5, 0.5, 0.25, kinds=(made,))), judging.NOT_TOLD)

    def test_a_departure_tells_of_the_side_on_which_it_is(self) -> None:
        for text, of_page, of_script in [(TARGET, True, False), (DELAY, False, True),
                                         (CANCEL, True, True), (TAIL, False, False)]:
            found = [self.kind(run(0.5, 0.25, 0.25, text)), self.kind(run(0.5, 0.5, 0.25, text))]
            self.assertEqual([kind == judging.TOLD for kind in found], [of_page, of_script], text)

    def test_both_sides_may_have_a_part(self) -> None:
        script = 0.5 + 0.8 * judging.TOLERANCE
        for text in (TARGET, DELAY):
            found = self.kind(run(0.5, script, 0.5 + 1.2 * judging.TOLERANCE, text))
            self.assertEqual(found, judging.TOLD, text)

    def test_what_the_browser_does_tells_of_what_is_large_enough(self) -> None:
        for text, its in judging.MEASURED.items():
            for error, kind in [(0.02, judging.TOLD), (0.01, judging.NOT_TOLD),
                                (None, judging.TOLD)]:
                made = loss(its, "exact", error)
                found = self.kind(run(0.5, 0.25, 0.25, text, kinds=(made,)))
                self.assertEqual(found, kind, text)

    def test_a_late_change_tells_where_runs_differ(self) -> None:
        one = run(0.5, 0.5, 0.25, departures.LATE_CHANGE)
        other = run(0.75, 0.75, 0.25, departures.LATE_CHANGE)
        self.assertEqual(self.kind(one, one), judging.NOT_TOLD)
        self.assertEqual(self.kind(one, other), judging.TOLD)

    def test_the_nearest_of_several_runs_counts(self) -> None:
        self.assertEqual(self.kind(run(0.5, 0.5, 0.25), run(0.25, 0.25, 0.25)), judging.EXACT)

    def test_a_script_that_is_not_its_page(self) -> None:
        self.assertEqual(self.kind(run(0.5, 0.50001, 0.5), lower=False), judging.NOT_TOLD)
        self.assertEqual(self.kind(run(0.5, 0.50001, 0.5)), judging.EXACT)
        self.assertEqual(self.kind(run(0.5, 0.75, 0.5)), judging.EXACT)

    def test_silence(self) -> None:
        page, replay = "silent silent: count 1", "silent: every sample of the replay is 0"
        for lines, kind in [((), judging.SILENT_NOT_TOLD), ((page,), judging.SILENT_NOT_TOLD),
                            ((replay,), judging.SILENT_NOT_TOLD), ((page, replay), judging.SILENT)]:
            self.assertEqual(self.kind(run(0, 0, 0, lines=lines)), kind)
        self.assertEqual(self.kind(run(0.5, 0.5, 0)), judging.SILENT_NOT_TOLD)

    def test_a_replay_that_failed(self) -> None:
        failed = run(0.5, 0.5, 0.5)
        failed.replay = Replay(["replay: failed, no file"], "fails")
        found = judge([failed], True)
        self.assertEqual(found, Judgement(judging.FAILED, "replay: failed, no file"))

    def test_departures_are_named_as_replays_name_them(self) -> None:
        self.assertLessEqual(judging.NEVER | judging.OF_BOTH, judging.OF_PAGES)
        script = {"context": {"length": 256, "rate": 8000}, "calls": [
            {"op": "cancelScheduledValues"}]}
        told = departures.known_departures(json.loads(json.dumps(script)), {"lowered-target"})
        self.assertEqual(told, [TARGET, CANCEL])


class Runs(unittest.TestCase):
    """The command, with sessions that are judged by their seeds."""

    def judged(self, words: argparse.Namespace, program: Path, chromium: str, seeds) -> object:
        while not seeds.empty():
            seed = seeds.get()
            self.seen.append(seed)
            yield seed, Judgement(self.kinds.get(seed, judging.EXACT), "0.5 at frame 1")

    def run_of(self, *words: str, **kinds: str) -> tuple[int, str]:
        self.seen: list[int] = []
        self.kinds = {int(name[1:]): kind for name, kind in kinds.items()}
        told = io.StringIO()
        with mock.patch.object(command, "judgements", self.judged), \
                mock.patch.object(command, "find_program", lambda _: (Path("program"), "")), \
                mock.patch.object(command, "find_chromium", lambda _: "chromium"), \
                contextlib.redirect_stdout(told):
            return command.run(command.parser().parse_args(words)), told.getvalue().splitlines()[-1]

    def test_a_line_for_each_and_counts(self) -> None:
        status, last = self.run_of("3", "7", s4=judging.TOLD, s5=judging.SILENT)
        self.assertEqual((status, sorted(self.seen)), (0, [3, 4, 5, 6, 7]))
        self.assertEqual(last, "5 sessions: 3 exact, 0 within 0.0001, 1 off and told, 0 off and "
                               "not told, 1 silent and told, 0 silent and not told, 0 failed")

    def test_what_is_not_told_or_failed_has_a_status(self) -> None:
        for kind in judging.CLASSES:
            status, _ = self.run_of("1", "2", s2=kind)
            self.assertEqual(status, int(kind in (judging.NOT_TOLD, judging.SILENT_NOT_TOLD,
                                                  judging.FAILED)), kind)

    def test_a_log_is_gone_on_with(self) -> None:
        log = str(temporary_folder(self) / "log")
        self.run_of("1", "3", "--log", log, s2=judging.NOT_TOLD, s3=judging.NEAR)
        status, last = self.run_of("1", "5", "--log", log, "--browsers", "2")
        self.assertEqual((status, sorted(self.seen)), (1, [4, 5]))
        self.assertIn("5 sessions: 3 exact, 1 within 0.0001, 0 off and told, 1 off and not", last)
        status, _ = self.run_of("3", "5", "--log", log)
        self.assertEqual((status, self.seen), (0, []))

    def test_one_that_is_stopped_leaves_no_seeds(self) -> None:
        def judged(words: argparse.Namespace, program: Path, chromium: str, seeds) -> object:
            while not seeds.empty():
                self.seen.append(seeds.get())
                time.sleep(0.2)
                yield self.seen[-1], Judgement(judging.EXACT, "0")

        with mock.patch.object(self, "judged", judged):
            signal.signal(signal.SIGALRM, command.stop_at)
            signal.setitimer(signal.ITIMER_REAL, 0.1)
            with self.assertRaises(SystemExit):
                self.run_of("1", "100")
        self.assertEqual(self.seen, [1])

    def test_a_log_of_other_sessions(self) -> None:
        log = str(temporary_folder(self) / "log")
        self.run_of("1", "1", "--log", log)
        for other in [("--plain",), ("--realtime",), ("--quantum", "256")]:
            with self.assertRaises(SystemExit):
                self.run_of("1", "2", "--log", log, *other)
        self.run_of("1", "2", "--log", log, "--quantum", "128")


if __name__ == "__main__":
    unittest.main()
