"""Tests of tools/piece with a browser: from a page to its folder."""

import json
import os
import subprocess
import unittest
from pathlib import Path

from recording import CHROMIUM, RECORDER, TOP, needs_browser, temporary_folder, write_files
from test_report import Page

from waplay_tools.recorder.replaying import find_program

PAGE = """<!doctype html><meta name="waplay" content="--quiet 0.5">
<script>
const context = new OfflineAudioContext(2, 24000, 48000), tone = new OscillatorNode(context);
tone.connect(new GainNode(context, {gain: 0.5})).connect(new DynamicsCompressorNode(context))
  .connect(context.destination);
tone.start();
context.startRendering();
</script>"""


CONSTANT = """<!doctype html><script>
const context = new OfflineAudioContext(1, 128, 48000);
const source = new ConstantSourceNode(context, {offset: 0.5});
source.connect(context.destination);
try { source.start(); } catch { /* it was started */ }
context.startRendering();
</script>"""

KEYBOARD = """<!doctype html><button id="go">go</button><input id="level" value="1"><script>
let context, source;
document.querySelector('#go').onclick = () => { context = new AudioContext(); };
document.onkeydown = ({key}) => {
  if (key !== 'a') return;
  source = new ConstantSourceNode(context, {offset: +document.querySelector('#level').value});
  source.connect(context.destination);
  source.start();
};
document.onkeyup = () => source.stop();
</script>"""

ACTIONS = """
input('#level', 0.25);
click('#go');
await wait(0.25);
await key('a', 0.25);
"""


def run_piece(*words: object) -> subprocess.CompletedProcess:
    """Runs tools/piece to its end."""
    return subprocess.run([TOP / "tools" / "piece", *map(str, words)], text=True, timeout=300,
                          stdin=subprocess.DEVNULL, capture_output=True, check=False,
                          env={**os.environ, "CHROMIUM": str(CHROMIUM)})


@needs_browser
@unittest.skipUnless(find_program(os.environ.get("WAPLAY"))[0], "waplay is not built")
class Pieces(unittest.TestCase):
    def test_a_page_to_its_folder(self) -> None:
        folder = temporary_folder(self)
        write_files(folder, {"a.html": PAGE})
        for _ in range(2):  # the second time the folder is ours, and emptied
            run = run_piece(folder / "a.html")
            self.assertEqual(run.returncode, 0, run.stderr)
            self.assertRegex(run.stdout, r"^1: 0\.5 s, frozen, 0 % live, agrees with the browser "
                                         rf"to \S+ -> {folder}/a\.waplay/index\.html\n$")
        names = {path.name for path in (folder / "a.waplay").iterdir()}
        self.assertEqual(names, {"index.html", "1.json", "1.txt", "1.wav", "1.browser.wav",
                                 "1.report.txt", "1-b1.wav", "take.json"})
        shown = Page((folder / "a.waplay" / "index.html").read_bytes())
        self.assertEqual((shown.wrong, len(shown.of("audio"))), ([], 2))
        self.assertIn("It differs from the browser by", shown.text())
        told = json.loads((folder / "a.waplay" / "take.json").read_text(encoding="utf-8"))
        self.assertEqual([each["name"] for each in told["contexts"][0]["frozen"]], ["compressor1"])
        for words in ("recording", "rendering", "freezing", "replaying"):
            self.assertIn(words, run.stderr)

    def test_a_take_that_is_expected(self) -> None:
        folder = temporary_folder(self)
        write_files(folder, {"a.html": CONSTANT})
        kept, page = folder / "kept", folder / "a.html"
        self.assertEqual(run_piece(page, "-o", kept).returncode, 0)
        run = run_piece(page, "--expect", kept)
        self.assertEqual(run.returncode, 0, run.stderr)
        page.write_text(CONSTANT.replace("0.5", "0.25"), encoding="utf-8")
        run = run_piece(page, "--expect", kept)
        self.assertEqual(run.returncode, 1, run.stderr)
        self.assertRegex(run.stderr.splitlines()[-1], r"^tools/piece: Context 1: calls are other "
                         r"ones \(1 changed\), first call 1: changed createConstantSource ")
        self.assertEqual(run.stdout.splitlines()[-1], "Context 1: 128 samples differ, first at "
                         "frame 0 of channel 0, by 0.25 at most.")
        page.write_text(CONSTANT.replace("source.start();", "source.start();" * 2),
                        encoding="utf-8")
        run = run_piece(page, "--expect", kept)
        self.assertEqual(run.returncode, 1, run.stderr)

    def test_a_page_with_nothing(self) -> None:
        folder = temporary_folder(self)
        write_files(folder, {"a.html": "<!doctype html><script>engine.start();</script>"})
        run = run_piece(folder / "a.html")
        self.assertEqual(run.returncode, 2)
        self.assertIn("it threw ReferenceError: engine is not defined", run.stderr)

    def test_a_table(self) -> None:
        folder = temporary_folder(self)
        write_files(folder, {"a.html": PAGE, "b.html": "<!doctype html><script>x();</script>"})
        run = run_piece("--all", folder)
        self.assertEqual(run.returncode, 2)
        rows = run.stdout.splitlines()
        self.assertRegex(rows[2], r"^\| \[a\]\(\S+/a\.waplay/index\.html\) "
                                  r"\| 0\.5 \| frozen \| 0 % \| \S+ \| \d+ \| 1 \| \d+ s \| ")
        self.assertRegex(rows[3], r"^\| b \| \| nothing \|")

    def test_actions_on_the_clock_of_the_audio(self) -> None:
        folder = temporary_folder(self)
        write_files(folder, {"a.html": KEYBOARD, "actions.js": ACTIONS, "wrong.js": "click('#b')"})
        run = run_piece(folder / "a.html", "--realtime", 1, "--do", folder / "actions.js")
        self.assertEqual(run.returncode, 0, run.stderr)
        script = json.loads((folder / "a.waplay" / "1.json").read_text(encoding="utf-8"))
        # The key goes down at the first quantum from 12,000 frames on, and up 12,000 frames later.
        self.assertEqual([(call["time"], [inner["op"] for inner in call["then"]])
                          for call in script["calls"] if call["op"] == "suspend"], [
            (12032, ["createConstantSource", "connect", "start", "resume"]),
            (24064, ["stop", "resume"])])
        self.assertEqual(script["calls"][0]["then"][0]["offset"], 2**22)
        run = run_piece(folder / "a.html", "--realtime", 1, "--do", folder / "wrong.js")
        self.assertEqual(run.returncode, 2)
        self.assertIn("the actions find no element #b", run.stderr)

    def test_an_example(self) -> None:
        room = temporary_folder(self)
        run = run_piece(Path(RECORDER) / "examples" / "drums.html", "-o", room / "drums")
        self.assertEqual(run.returncode, 0, run.stderr)


if __name__ == "__main__":
    unittest.main()
