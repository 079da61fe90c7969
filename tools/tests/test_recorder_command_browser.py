"""Tests of tools/record as a command: pages of all places, several contexts, what is left behind,
and replays. Also of the recorder in a page that loads it itself."""

import json
import os
import signal
import subprocess
import sys
import tempfile
import time
import unittest
from pathlib import Path

from recording import (CHROMIUM, RECORDER, needs_browser, run_record, start_record,
                       temporary_folder, write_files)

from waplay_tools.chromium import Browser
from waplay_tools.recorder.serving import Folder

# A piece of a tenth of a second, or of as many as it is asked for.
MAKE = """
function piece(tenths = 1) {
  const context = new OfflineAudioContext(1, tenths * 4800, 48000);
  const buffer = new AudioBuffer({length: 480, sampleRate: 48000});
  buffer.getChannelData(0).fill(0.5);
  const source = new AudioBufferSourceNode(context, {buffer, loop: true});
  source.connect(context.destination);
  source.start();
  return context.startRendering();
}
const pause = milliseconds => new Promise(done => setTimeout(done, milliseconds));
"""

ABSOLUTE = "<!doctype html><script src=/resources/make.js></script>"
INNER = ABSOLUTE.replace("<!doctype html>", "") + "<script>piece(2)</script>"
SITE = {
    "resources/make.js": MAKE,
    "app/absolute.html": ABSOLUTE + "<script>piece()</script>",
    "app/above.html": "<script src=../resources/make.js></script><script>piece()</script>",
    "app/frames.html": f"{ABSOLUTE}<iframe src=absolute.html></iframe>"
                       f'<iframe srcdoc="{INNER}"></iframe><script>piece(3)</script>',
    "app/sandboxed.html": "<iframe src=absolute.html sandbox=allow-scripts></iframe>",
    "app/click_inside.html": '<iframe srcdoc="<script src=/resources/make.js></script>'
                             '<button id=start onclick=piece()>go</button>"></iframe>',
    "app/goes.html": ABSOLUTE + "<script>piece(3).then(() => location.href = 'absolute.html')"
                                "</script>",
    "app/goes_at_once.html": ABSOLUTE + "<script>piece(20); location.href = 'absolute.html';"
                                        "</script>",
    "app/reloads.html": ABSOLUTE + "<script>if (location.hash) piece(); else piece(2).then(() => {"
                                   "location.hash = 'x'; location.reload(); });</script>",
    "app/pauses.html": ABSOLUTE + """<script>(async () => {
        for (const tenths of [1, 2, 3]) {
          await piece(tenths);
          await pause(2500);
        }
        globalThis.isDone = true;
      })();</script>""",
    "app/works.html": ABSOLUTE + """<script>(async () => {
        for (const tenths of [1, 2, 3]) {
          await piece(tenths);
          const end = performance.now() + 1200;
          while (performance.now() < end);
        }
      })();</script>""",
}


def seconds_of(out: Path) -> list[float]:
    """The lengths of the contexts of a take."""
    summary = json.loads((out / "take.json").read_text(encoding="utf-8"))
    return [context["seconds"] for context in summary["contexts"]]


@needs_browser
class Places(unittest.TestCase):
    """Pages of a site, whose folder is the root."""

    @classmethod
    def setUpClass(cls) -> None:
        folder = tempfile.TemporaryDirectory(prefix="waplay-test-")
        cls.addClassCleanup(folder.cleanup)
        cls.site, cls.out = Path(folder.name) / "site", Path(folder.name) / "out"
        write_files(cls.site, SITE)

    def recorded(self, name: str, *words: object) -> list[float]:
        run = run_record(self.site / "app" / f"{name}.html", self.out, "--root", self.site, *words)
        self.assertEqual((run.stderr, run.returncode), ("", 0))
        return seconds_of(self.out)

    def test_paths(self) -> None:
        self.assertEqual(self.recorded("absolute"), [0.1])
        self.assertEqual(self.recorded("above"), [0.1])

    def test_frames(self) -> None:
        self.assertEqual(sorted(self.recorded("frames")), [0.1, 0.2, 0.3])
        for number in (1, 2, 3):
            calls = json.loads((self.out / f"{number}.json").read_text(encoding="utf-8"))["calls"]
            paths = [call["path"] for call in calls if call["op"] == "decodeAudioData"]
            self.assertEqual(paths, [f"{number}-b1.wav"])
            self.assertTrue((self.out / paths[0]).is_file())
            report = (self.out / f"{number}.report.txt").read_text(encoding="utf-8")
            self.assertTrue(report.startswith(f"context {number}: "))

    def test_a_frame_with_an_origin_of_its_own(self) -> None:
        self.assertEqual(self.recorded("sandboxed"), [0.1])

    def test_a_click_in_a_frame(self) -> None:
        self.assertEqual(self.recorded("click_inside", "--click", "#start"), [0.1])

    def test_pages_that_go_elsewhere(self) -> None:
        self.assertEqual(self.recorded("goes"), [0.3, 0.1])
        self.assertEqual(self.recorded("goes_at_once"), [2.0, 0.1])
        self.assertEqual(self.recorded("reloads"), [0.2, 0.1])

    def test_several_contexts(self) -> None:
        self.assertEqual(self.recorded("works"), [0.1, 0.2, 0.3])
        self.assertEqual(self.recorded("pauses", "--contexts", "3"), [0.1, 0.2, 0.3])
        self.assertEqual(self.recorded("pauses", "--until", "isDone"), [0.1, 0.2, 0.3])
        self.assertEqual(self.recorded("pauses", "--quiet", "4"), [0.1, 0.2, 0.3])

    def test_an_address(self) -> None:
        with Folder(self.site) as served:
            url = f"{served.origin}/app/absolute.html?take=1"
            run = run_record(url, self.out)
            self.assertEqual((run.stderr, run.returncode), ("", 0))
            self.assertEqual(seconds_of(self.out), [0.1])
            missing = run_record(f"{served.origin}/none.html", self.out)
        self.assertEqual(missing.returncode, 2)
        self.assertIn("it could not load", missing.stderr)
        self.assertIn("/none.html (404 File not found).", missing.stderr)
        closed = run_record(url, self.out)
        self.assertIn("net::ERR_CONNECTION_REFUSED", closed.stderr)
        self.assertEqual(closed.returncode, 2)

    def test_an_earlier_take_is_removed(self) -> None:
        write_files(self.out, {"1-b117.wav": "", "7.json": ""})
        self.recorded("absolute")
        self.assertEqual(sorted(path.name for path in self.out.iterdir()),
                         ["1-b1.wav", "1.browser.wav", "1.json", "1.report.txt", "take.json"])


@needs_browser
class Ends(unittest.TestCase):
    """What is left behind, and browsers that fail."""

    def test_a_signal_leaves_nothing_behind(self) -> None:
        folder = temporary_folder(self)
        write_files(folder, {"page.html": "<!doctype html>", "room/x": ""})
        for number in (signal.SIGTERM, signal.SIGHUP, signal.SIGINT):
            with mock_folder(folder / "room"):
                running = start_record(folder / "page.html", folder / "out")
                deadline = time.monotonic() + 60
                while not any((folder / "room").glob("waplay-chromium-*/profile/Default")):
                    self.assertLess(time.monotonic(), deadline, "the browser does not start")
                    time.sleep(0.05)
                time.sleep(0.5)
                running.send_signal(number)
                running.communicate(timeout=60)
            with self.subTest(number):
                self.assertNotEqual(running.returncode, 0)
                self.assertEqual([path.name for path in (folder / "room").iterdir()], ["x"])
                self.assertEqual(self.processes_with(str(folder)), [])

    def processes_with(self, text: str) -> list[str]:
        """Processes whose words have a text."""
        found = []
        for path in Path("/proc").glob("[0-9]*/cmdline"):
            try:
                command = path.read_bytes().replace(b"\0", b" ").decode(errors="replace")
            except OSError:
                continue
            if text in command:
                found.append(command)
        return found

    def test_browsers_that_fail(self) -> None:
        folder = temporary_folder(self)
        write_files(folder, {"page.html": "", "ending": "#!/bin/sh\nexit 3\n", "broken": "\0"})
        for name, sentence in [("ending", "The browser ended."),
                               ("broken", "cannot be started")]:
            (folder / name).chmod(0o755)
            run = run_record(folder / "page.html", folder / "out", "--chromium", folder / name)
            self.assertEqual(run.returncode, 2)
            self.assertIn(sentence, run.stderr)
            self.assertNotIn("Traceback", run.stderr)


class mock_folder:
    """While this is open, temporary files come to another folder."""

    def __init__(self, folder: Path) -> None:
        self.folder = folder

    def __enter__(self) -> None:
        self.before = os.environ.get("TMPDIR")
        os.environ["TMPDIR"] = str(self.folder)

    def __exit__(self, *_: object) -> None:
        del os.environ["TMPDIR"]
        if self.before is not None:
            os.environ["TMPDIR"] = self.before


# A stand-in for the program: a transcript, and what the browser rendered, cut to 24 bits, with one
# sample moved.
STAND_IN = """#!{python}
import array, sys
data = open("1.browser.wav", "rb").read()
channels, rate = int.from_bytes(data[22:24], "little"), int.from_bytes(data[24:28], "little")
floats = array.array("f", data[data.index(b"data") + 8:])
samples = [min(2**23 - 1, round(value * 2**23)) for value in floats]
samples[7 * channels + 1] += {moved}
body = b"".join(sample.to_bytes(3, "little", signed=True) for sample in samples)
parts = [(16, 4), (1, 2), (channels, 2), (rate, 4), (rate * channels * 3, 4), (channels * 3, 2),
         (24, 2)]
form = b"".join(value.to_bytes(size, "little") for value, size in parts)
head = b"RIFF" + (36 + len(body)).to_bytes(4, "little") + b"WAVEfmt " + form
open(sys.argv[1], "wb").write(head + b"data" + len(body).to_bytes(4, "little") + body)
print({text!r})
"""


@needs_browser
class Replays(unittest.TestCase):
    """What is said of a replay, by stand-ins for the program."""

    def replayed(self, moved: int, text: str, *words: str) -> tuple[int, list[str], list[str]]:
        folder = temporary_folder(self)
        program = folder / "program"
        program.write_text(STAND_IN.format(python=sys.executable, moved=moved, text=text),
                           encoding="utf-8")
        program.chmod(0o755)
        run = run_record(RECORDER / "examples" / "drums.html", folder / "out", "--replay",
                         "--waplay", program, *words)
        report = (folder / "out" / "1.report.txt").read_text(encoding="utf-8").splitlines()
        lines = [line for line in report if line.startswith(("replay", "known"))]
        return run.returncode, lines, run.stderr.splitlines()

    def test_a_replay_that_agrees(self) -> None:
        status, lines, told = self.replayed(0, "end completed")
        self.assertEqual((status, told, len(lines)), (0, [], 1))

    def test_a_replay_that_differs(self) -> None:
        status, lines, told = self.replayed(2**13, "end completed")
        self.assertEqual((status, lines), (4, [
            "replay: greatest difference from the browser 0.000977 at frame 7 of channel 1"]))
        self.assertEqual(told, [f"tools/record: context 1: {lines[0]}"])

    def test_a_tolerance(self) -> None:
        self.assertEqual(self.replayed(2**13, "end completed", "--tolerance", "2^-9")[0], 0)

    def test_a_call_that_ended_otherwise(self) -> None:
        status, lines, _ = self.replayed(0, "1 throw NotSupportedError profile:buffer-limit")
        self.assertEqual(status, 4)
        self.assertEqual(lines[0], "replay: 1 calls ended otherwise than in the browser: 1 "
                         "(NotSupportedError profile:buffer-limit for ok)")


@needs_browser
class ByHand(unittest.TestCase):
    """A page that loads the built recorder itself: one call gives the script as a text."""

    def test_by_hand(self) -> None:
        folder = temporary_folder(self)
        subprocess.run([RECORDER / "build", folder / "recorder.js"], check=True)
        text = (RECORDER / "examples" / "drums.html").read_text(encoding="utf-8")
        write_files(folder, {"drums.html": "<script src=recorder.js></script>\n" + text})
        with Browser(str(CHROMIUM)) as browser, Folder(folder) as served:
            browser.open(served.url_of(folder / "drums.html"))
            while not browser.evaluate("document.readyState === 'complete' "
                                       "&& waplayRecorder.progress().complete === 1"):
                time.sleep(0.05)
            script = json.loads(browser.evaluate("waplayRecorder.text()"))
            report = browser.evaluate("waplayRecorder.report()")
        ops = [call["op"] for call in script["calls"]]
        self.assertEqual(ops.count("copyToChannel"), 2)
        self.assertNotIn("decodeAudioData", ops)
        self.assertTrue(report.endswith("verdict: rounded\n"), report)


if __name__ == "__main__":
    unittest.main()
