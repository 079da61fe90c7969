"""Tests of what is recorded: the pages of recorder/pages, random sessions, and the examples.

Where a script says what its page did, the browser plays the script again, and the two are
compared. That sees faults of the recorder, and none of waplay.
"""

import contextlib
import io
import json
import os
import re
import unittest
from collections.abc import Callable
from typing import Any

from recorder_pages import PAGES, Page
from recording import (CHROMIUM, RECORDER, floats_of, needs_browser, run_record,
                       temporary_folder)

from waplay_tools.chromium import Browser
from waplay_tools.random_sessions import __main__ as random_sessions
from waplay_tools.recorder.driving import Wishes, open_recorded
from waplay_tools.recorder.playing import difference, played
from waplay_tools.recorder.replaying import find_program
from waplay_tools.recorder.results import Recorded
from waplay_tools.recorder.serving import Folder

Look = Callable[[Recorded, list[dict[str, Any]]], Any]


def outcomes(recorded: Recorded, _: list[dict[str, Any]]) -> list[str]:
    """The exceptions of the calls."""
    return list(recorded.outcomes.values())


def quanta(recorded: Recorded, calls: list[dict[str, Any]]) -> tuple[int | None, list[int]]:
    """The render quantum that the script has, and the frame to which the browser rounded up the
    time of the page's suspension or timer: the page sets a value to a part of 2,048 of it."""
    script = json.loads(recorded.script)
    return script["context"].get("renderQuantum"), [
        inner["value"] * 2048 // 2**24 for call in calls for inner in call.get("then", [])
        if inner["op"] == "setValue"]


# What some pages are for: of each the value that it must have, worked out of the recording and the
# main list of its calls.
SPECIAL: dict[str, tuple[Any, Look]] = {
    "exception": (["IndexSizeError"], outcomes),
    # A resumption before the start, and suspensions before the first frame, at one that is taken,
    # and behind the end.
    "refused_suspensions": (["InvalidStateError"] * 4, outcomes),
    # The inner suspension stands in the list of the outer one, which ends with what resumes.
    "suspension_in_a_suspension": ([["suspend", "resume"]], lambda _, calls: [
        [inner["op"] for inner in call["then"]][-2:] for call in calls if call["op"] == "suspend"]),
    # One buffer for each of two sources, and another one for the third, whose samples are those of
    # the second's file or not.
    "buffer_written_between_starts": ((2, 3), lambda recorded, calls: (
        len(recorded.assets),
        len({call["buffer"] for call in calls if call["op"] == "createBufferSource"}))),
    "reordered": (["createBufferSource", "setBuffer", "setLoop", "start"], lambda _, calls: [
        call["op"] for call in calls if "source2" in (call.get("as"), call.get("node"))]),
    # Timers every 20 milliseconds, and a frame of the screen at 100: the next quanta, none within
    # another, and none that is idle.
    "timers": ([1024, 1920, 2944, 3840, 4864], lambda _, calls: [
        call["time"] for call in calls if call["op"] == "suspend"]),
    # Sizes that waplay has, one by default, and such as it has not.
    **{f"render_quantum_{size}": ((size, [size]), quanta) for size in (32, 64, 256, 512, 1024)},
    **{f"render_quantum_{words}": ((None, [128]), quanta) for words in (
        "128", "by_word_default", "by_word_hardware", "without_a_hint_renderQuantumSize",
        "without_a_hint_renderQuantum")},
    **{f"other_render_quantum_{size}": ((None, [size]), quanta) for size in (1, 100, 2048)},
    "real_time_render_quantum_32": ((32, [64]), quanta),
    "real_time_render_quantum_128": ((None, [128]), quanta),
    "real_time_render_quantum_1024": ((1024, [1024]), quanta),
}

# Random sessions: the options, and the last seed.
SESSIONS = [
    (["--plain"], 150), ([], 150), (["--realtime", "--plain"], 30), (["--realtime"], 30),
    (["--quantum", "32"], 10), (["--quantum", "1024"], 10), (["--quantum", "1024", "--plain"], 10),
    (["--quantum", "1024", "--realtime"], 10)]

# Where a replay of an example differs, its cause: the echo of the bells feeds back.
LOOP = "known departure: a loop through a delay is one quantum longer in Chromium"
DEPARTURES = {"bells": LOOP}

# Of the examples: options, number of files, verdict, greatest difference when played again.
EXAMPLES = {
    "bells": ([], 10, "heard", 3e-7),
    "drums": ([], 6, "rounded", 1e-7),
    "sequencer": (["--realtime", "5", "--click", "#start"], 8, "rounded", 1e-7),
}


@needs_browser
class Pages(unittest.TestCase):
    """One browser records and plays all pages."""

    @classmethod
    def setUpClass(cls) -> None:
        cls.browser = Browser(str(CHROMIUM))
        cls.addClassCleanup(cls.browser.close)

    @contextlib.contextmanager
    def served(self):
        folder = temporary_folder(self)
        with Folder(folder) as served:
            yield served

    def recorded(self, served: Folder, page: Page) -> Recorded:
        path = served.root / "page.html"
        path.write_text(page.text, encoding="utf-8")
        wishes = Wishes(page=str(path), plain=page.plain, realtime=page.realtime,
                        loops_as_browser=page.loops,
                        timeout=page.seconds, quiet=0.2)
        recorded = open_recorded(self.browser, served.url_of(path), wishes).contexts[0]
        recorded.write(served.root)
        return recorded

    def apart(self, served: Folder, recorded: Recorded) -> float:
        """How far the script is from its page when it is played again."""
        return difference(played(self.browser, served, recorded.number), recorded.rendered)

    def look_at(self, page: Page) -> None:
        with self.served() as served:
            recorded = self.recorded(served, page)
            self.assertEqual({loss["kind"] for loss in recorded.kinds}, page.kinds)
            self.assertEqual(recorded.verdict, page.verdict)
            if page.name in SPECIAL:
                wanted, look = SPECIAL[page.name]
                self.assertEqual(look(recorded, json.loads(recorded.script)["calls"]), wanted)
            if page.tolerance is None:
                return
            apart = self.apart(served, recorded)
            for _ in range(2):  # a change at a suspension may come one quantum late, now and then
                if apart > page.tolerance:
                    recorded = self.recorded(served, page)
                    apart = self.apart(served, recorded)
            self.assertLessEqual(apart, page.tolerance, "when it is played again")
            self.assertGreater(max(map(abs, recorded.rendered[0])), 0.01, "it is silent")


def add_pages() -> None:
    """Makes a test of each page."""
    for page in PAGES:
        def look(self: Pages, page: Page = page) -> None:
            self.look_at(page)
        setattr(Pages, f"test_{page.name}", look)


add_pages()


@needs_browser
@unittest.skipUnless(find_program(os.environ.get("WAPLAY"))[0], "waplay is not built")
class RandomSessions(unittest.TestCase):
    """Random sessions are recorded, played again and replayed. Where one is off, its take has to
    say so."""

    def test_random_sessions(self) -> None:
        for words, last in SESSIONS:
            with self.subTest(words=words):
                told = io.StringIO()
                asked = random_sessions.parser().parse_args(
                    ["1", str(last), "--chromium", str(CHROMIUM), *words])
                with contextlib.redirect_stdout(told):
                    status = random_sessions.run(asked)
                lines = [line for line in told.getvalue().splitlines()
                         if re.search("not told|failed", line)]
                self.assertEqual(status, 0, "\n".join(lines))


@needs_browser
class Examples(unittest.TestCase):
    """The examples are recorded by the command line, and played again; where there is a program,
    it replays them."""

    def test_examples(self) -> None:
        for name, (words, files, verdict, tolerance) in EXAMPLES.items():
            with self.subTest(name):
                folder = temporary_folder(self)
                run = run_record(RECORDER / "examples" / f"{name}.html", folder, *words)
                self.assertEqual((run.returncode, run.stderr), (0, ""))
                self.assertEqual(len(list(folder.iterdir())), files)
                report = (folder / "1.report.txt").read_text(encoding="utf-8")
                self.assertEqual(report.splitlines()[-1], f"verdict: {verdict}")
                with Browser(str(CHROMIUM)) as browser, Folder(folder) as served:
                    again = played(browser, served, 1)
                apart = difference(again, floats_of(folder / "1.browser.wav"))
                self.assertLessEqual(apart, tolerance)

    @unittest.skipUnless(find_program(os.environ.get("WAPLAY"))[0], "waplay is not built")
    def test_replays_of_the_examples(self) -> None:
        for name, (words, *_) in EXAMPLES.items():
            with self.subTest(name):
                folder = temporary_folder(self)
                run = run_record(RECORDER / "examples" / f"{name}.html", folder, *words, "--replay")
                wanted = DEPARTURES.get(name)
                self.assertEqual(run.returncode, 4 if wanted else 0, run.stderr)
                if wanted:
                    self.assertIn(wanted, run.stdout)


if __name__ == "__main__":
    unittest.main()
