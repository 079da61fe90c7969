"""Tests of the part of a report that says why a sample is what it is."""

import html
import json
import os
import random
import re
import tempfile
import unittest
import unittest.mock
from pathlib import Path

import fixtures
from test_explaining import (
    RATE,
    START,
    buffer,
    call,
    connect,
    constant,
    create,
    data_of,
    suspend,
    tape_of_calls,
    through,
)
from waplay_tools import report
from waplay_tools.expecting import sessions
from waplay_tools.expecting.nodes import AssetFault
from waplay_tools.expecting.numbers import ONE
from waplay_tools.explaining import deriving
from waplay_tools.explaining.tape import NoTape, tape_of
from waplay_tools.random_scripts.assets import write_assets
from waplay_tools.random_scripts.maker import operations, script_of
from waplay_tools.reporting import explained
from waplay_tools.reporting.explained import Explained
from waplay_tools.reporting.facts_html import Telling, value_text
from waplay_tools.reporting.text import BadInput

COUNT = int(os.environ.get("EXPLAINED_SESSIONS", "40"))
HEADING = "<h3>Why a sample is what it is</h3>"
# What answers as waexplain does.
A_PROGRAM = """
import sys
from pathlib import Path
from waplay_tools.waexplain import answer_to

answer = answer_to(sys.argv[1:], sys.stdin.buffer.read(), ".")
print(answer.text, end="")
if answer.derivation is not None:
    Path(sys.argv[-1]).write_text(answer.derivation)
sys.exit(answer.status)
"""
A_GAIN = through("g", create("Gain", "g", gain=ONE // 4), ONE // 2)


def text_of(page):
    """The text of HTML, with one blank for several."""
    return re.sub(r"\s+", " ", html.unescape(re.sub(r"<[^>]*>", "", page)))


def steps_of(step, depth=1):
    """A step and all under it, with how deep they stand."""
    return [(step, depth), *(it for one in step.under for it in steps_of(one, depth + 1))]


def sentences_of(it):
    """What is said of the facts that lead to a sample, sentence by sentence."""
    telling = Telling(it.tape, it.known)
    return [text_of(telling.sentence(key)) for key in it.known]


class Sentences(unittest.TestCase):
    """What is said of facts."""

    def says(self, calls, *wanted, frame=5, channel=0, **context):
        found = sentences_of(Explained(tape_of_calls(calls, **context), frame, channel))
        for sentence in wanted:
            self.assertIn(sentence, found)

    def test_a_gain(self):
        it = Explained(tape_of_calls(A_GAIN), 5, 0)
        telling = Telling(it.tape, it.known)
        self.assertEqual(
            [(depth, text_of(telling.sentence(step.key))) for step, depth in steps_of(it.steps())],
            [
                (1, "the destination at frame 5 is 0.125"),
                (2, "the destination at frame 5 hears 0.125 from gain g"),
                (3, "gain g at frame 5: 0.5 times 0.25 is 0.125"),
                (4, "gain of gain g at frame 5 is 0.25"),
                (4, "gain g at frame 5 hears 0.5 from constant source c"),
                (5, "constant source c at frame 5 plays its offset: 0.5"),
                (6, "offset of constant source c at frame 5 is 0.5"),
            ],
        )
        self.assertEqual(
            [text_of(telling.sentence(key)) for key in it.counts()],
            [
                "constant source c has 1 channel in quantum 0",
                "gain g has 1 channel in quantum 0",
                "the destination has 1 channel in quantum 0",
            ],
        )

    def test_values(self):
        for value, text in (
            (0, "0"), (ONE, "1"), (-ONE // 2, "\u22120.5"), (ONE // 3, "\u22480.333333"),
            (1, "1\u00b72^\u221224"), (-100, "\u2212100\u00b72^\u221224"),
            (2**14, "\u22480.000977"), (-(2**31), "\u2212128"),
        ):
            self.assertEqual(value_text(value), text)

    def test_parameters(self):
        control = {"op": "connectParam", "from": "k", "to": "g", "param": "gain"}
        rate = call("setAutomationRate", node="g", param="gain", value="k-rate")
        calls = [*A_GAIN, *constant("k", ONE // 8), control]
        says = "gain of gain g at frame 5: 0.25 plus 0.125 from constant source k is 0.375"
        self.says(calls, says)
        self.says([*calls, rate], says + ", as at frame 0")
        self.says([*calls, rate], says.replace("frame 5", "frame 0"), frame=0)
        late = through("d", create("Delay", "d", delayTime=2 * ONE))
        self.says(late, "delayTime of delay d at frame 5: 2 is 1, the end of its range")

    def test_sums(self):
        most = 2**31 - 1
        calls = [*constant("c", most), *constant("d", most)]
        calls += [connect("c", "destination"), connect("d", "destination")]
        self.says(calls, "the destination at frame 5 hears \u2248128 from constant source c plus"
                         " \u2248128 from constant source d, together \u2248128, the end of the"
                         " range")
        self.says([], "the destination at frame 5 hears 0, as nothing is connected")
        many = [it for at in range(11) for it in constant(f"c{at}", ONE)]
        many += [connect(f"c{at}", "destination") for at in range(11)]
        found = sentences_of(Explained(tape_of_calls(many), 5, 0))
        self.assertTrue(any(it.endswith("c7 plus 3 more, together 11") for it in found))

    def test_channels(self):
        calls = [*buffer([ONE // 2], [ONE // 4]), create("BufferSource", "s", buffer="b")]
        calls += [call("start", node="s"), create("ChannelSplitter", "p", numberOfOutputs=2)]
        calls += [create("ChannelMerger", "m", numberOfInputs=2), connect("s", "p")]
        calls += [connect("p", "m", output=0, input=1), connect("s", "m"),
                  connect("m", "destination")]
        self.says(
            calls,
            "the destination at frame 0, channel 1 is 0.5",
            "channel merger m at frame 0, channel 1 is what it hears on input 1: 0.5",
            "channel merger m at frame 0 hears on input 1 0.5 from output 0 of channel splitter p",
            "channel merger m at frame 0 hears on input 0 0.375 from buffer source s (2 channels"
            " mixed to 1)",
            "output 0 of channel splitter p at frame 0 is channel 0 of what it hears: 0.5",
            "buffer source s at frame 0, channel 1 plays frame 0 of its buffer: 0.25",
            channel=1, channels=2, frame=0,
        )

    def test_silence(self):
        idle = [create("ConstantSource", "c"), connect("c", "destination")]
        self.says(idle, "constant source c at frame 5 does not play: 0")
        circle = [create("Gain", "g"), connect("g", "g"), connect("g", "destination")]
        self.says(circle, "gain g at frame 5 is muted, as it hears itself without a delay"
                          " between: 0")
        self.says(circle, "gain g has 1 channel in quantum 0, as it is muted")

    def test_delays(self):
        calls = through("d", create("Delay", "d", delayTime=2048), 2**20)
        self.says(calls, "delay d at frame 5 gives what went in 2 frames before: 0.0625",
                  "what goes into delay d at frame 3 is 0.0625",
                  "delay d at frame 3 hears 0.0625 from constant source c")
        self.says(calls, "delay d at frame 1 gives what went in 2 frames before, when it was not"
                         " there yet: 0", frame=1)
        stereo = call("setChannelCountMode", node="d", value="explicit")
        self.says([*calls, suspend(stereo)], "delay d at frame 33, channel 0 gives what went in 2"
                  " frames before (1 channel mixed to 2): 0.0625", frame=33)

    def test_nodes_that_remember(self):
        for made, wanted in (
            (create("WaveShaper", "n", curve=[0, ONE]),
             "wave shaper n at frame 5 makes 1 of what it hears then, by its curve"),
            (create("WaveShaper", "n"),
             "wave shaper n at frame 5 makes 1 of what it hears then, as it has no curve"),
            (create("IIRFilter", "n", feedforward=[ONE], feedback=[ONE]),
             "IIR filter n at frame 5 makes 1 of what it hears then"),
            (create("IIRFilter", "n", feedforward=[ONE, 0, 0], feedback=[ONE, 0]),
             "IIR filter n at frame 5 makes 1 of what it hears then and at the 2 frames before and"
             " of what it made at the frame before"),
            (create("Convolver", "n", disableNormalization=True),
             "convolver n at frame 5 makes 0 of nothing, as it has no response"),
            (create("Convolver", "n", buffer="b", disableNormalization=True),
             "convolver n at frame 5 makes 1 of what it hears then and at the frame before"),
            (create("Processor", "n", code=["in"]),
             "processor n at frame 5 makes 1 of what it hears then and of its cells before"),
        ):
            calls = [*buffer([ONE, 0]), *through("n", made)]
            node, value = re.fullmatch(r"(.*) makes (\d) of .*", wanted).groups()
            self.says(calls, wanted, f"{node} is {value}")

    def test_random_sessions(self):
        told = 0
        for number in range(COUNT):
            script, assets = script_of(2, number, operations())
            with tempfile.TemporaryDirectory() as folder:
                write_assets(folder, assets)
                try:
                    tape = tape_of(json.dumps(script).encode(), folder)
                except (NoTape, AssetFault):
                    continue
            rng = random.Random(number)
            it = Explained(tape, rng.randrange(tape.length), rng.randrange(tape.channels))
            self.assertEqual(len(sentences_of(it)), len(it.lines))
            steps = steps_of(it.steps())
            self.assertLessEqual(len(steps), explained.MOST_STEPS)
            self.assertLessEqual(max(depth for _, depth in steps), explained.DEEPEST)
            keys = {step.key for step, _ in steps}
            self.assertEqual(len(keys), len(steps))
            if not any(step.left for step, _ in steps):
                self.assertEqual(len(keys) + len(list(it.counts())), len(it.known))
            told += 1
        self.assertGreater(told, COUNT // 2)


class Page(unittest.TestCase):
    """The part of the page."""

    def setUp(self):
        folder = tempfile.TemporaryDirectory()
        self.addCleanup(folder.cleanup)
        self.folder = folder.name

    def paths(self, data, name="it", **samples):
        """Writes a session, and gives the paths of its files."""
        _, text, session = sessions.replayed(data, self.folder)
        sound = sessions.wav_bytes(session, **samples) if session.values else None
        return fixtures.written(self.folder, name, data, text, sound)

    def page(self, *words):
        """The page of these words."""
        asked = report.parser().parse_args(words)
        return report.report(asked)

    def refused(self, *words):
        ran = fixtures.run("report", *words)
        self.assertEqual((ran.returncode, ran.stdout), (2, b""))
        return ran.stderr.decode()

    def test_a_sample_is_explained(self):
        words = self.paths(data_of(A_GAIN))
        ran = fixtures.run("report", *words, "--explain", "5", "0")
        self.assertEqual((ran.returncode, ran.stderr), (0, b""))
        page = ran.stdout.decode()
        self.assertIn(HEADING, page)
        told = text_of(page[page.index(HEADING):])
        self.assertIn(
            "Frame 5 of channel 0 is 0.125. The file has 1,048,576 there, which is that in 24"
            " bits. 10 facts lead to it, each of which follows from those under it.", told)
        self.assertIn("Numbers of channels (3 facts)", told)
        self.assertIn("As a text (10 lines) Run where the script stands, waexplain derive 5 0"
                      " why.txt < it.json writes this text, and waexplain check why.txt < it.json"
                      " checks it. count 0 1 0 = 1 ", told)
        self.assertIn("out 5 0 0 0 = 2097152 ", told)
        self.assertNotIn(HEADING, self.page(*words))

    def test_what_the_file_has(self):
        loud = through("g", create("Gain", "g", gain=ONE), 4 * ONE)
        for calls, bits, told in (
            (A_GAIN, 16, "The file has 4,096 there, which is that in 16 bits."),
            (loud, 24, "The file has 8,388,607 there, which is the end of 24 bits."),
        ):
            words = self.paths(data_of(calls), bits=bits)
            self.assertIn(told, text_of(self.page(*words, "--explain", "5", "0")))
        script = self.paths(data_of(A_GAIN))[0]
        other = self.paths(data_of(loud), "other")[1:]
        page = self.page(script, *other, "--explain", "5", "0")
        told = "The file has 8,388,607 there, and not 1,048,576, which is that in 24 bits."
        self.assertIn(told, text_of(page))
        self.assertIn('<p class="outcome bad">', page)

    def test_many_facts_are_cut(self):
        made = create("IIRFilter", "f", feedforward=[ONE // 2], feedback=[ONE, -(ONE // 4)])
        data = fixtures.script([*through("f", made), START], 1, 1000)
        page = self.page(*self.paths(data), "--explain", "900", "0")
        told = text_of(page)
        self.assertIn("and 1 fact more, with all that lead there", told)
        self.assertRegex(told, r"As a text \(3,6\d\d lines\)")
        self.assertRegex(told, r"and 2,6\d\d more")
        self.assertLess(page.count("<li>"), 1000)
        self.assertLess(len(page), 400_000)

    def test_too_many_facts(self):
        words = self.paths(data_of(A_GAIN))
        nothing = unittest.mock.patch.object(explained, "newest_of", lambda name: None)
        with nothing, unittest.mock.patch.object(deriving, "MOST_KEYS", 5):
            page = self.page(*words, "--explain", "5", "0")
        self.assertIn("To frame 5 of channel 0 lead more than 1,048,576 facts or 67,108,864 bytes,"
                      " which are too many.", text_of(page))

    def page_by(self, text):
        """The text of a page that is made where waexplain is a program of this text in Python;
        where there is none, it is not there."""
        program = text and Path(fixtures.program(self.folder, text))
        words = self.paths(data_of(A_GAIN))
        with unittest.mock.patch.object(explained, "newest_of", lambda name: program):
            return text_of(self.page(*words, "--explain", "5", "0"))

    def test_who_derives_it(self):
        self.assertIn("The second calculation derived them.", self.page_by(""))
        told = self.page_by(A_PROGRAM)
        self.assertIn("waexplain derived them, and the second calculation finds each of them"
                      " right.", told)
        self.assertIn("As a text (10 lines)", told)
        self.assertIn("The second calculation derived them.", self.page_by("raise SystemExit(10)"))
        self.assertIn("which are too many.", self.page_by("raise SystemExit(11)"))
        for wrong in ('.replace("5 0 0 0 = 2", "5 0 0 0 = 3")', '.replace("out 5 0 0 0", "x")',
                      '.partition("in 5")[0]'):
            with self.assertRaisesRegex(BadInput, "is no derivation to the second calculation"):
                self.page_by(A_PROGRAM.replace("answer.derivation)", f"answer.derivation{wrong})"))

    def test_a_program_that_cannot_be_run(self):
        words = self.paths(data_of(A_GAIN))
        with unittest.mock.patch.object(explained, "newest_of", lambda name: Path(words[0])):
            told = text_of(self.page(*words, "--explain", "5", "0"))
        self.assertIn("The second calculation derived them.", told)

    def test_assets_are_beside_the_script(self):
        samples = [2**20, 2**21]
        fixtures.write(self.folder, "a.wav", fixtures.wav([samples], RATE))
        calls = [call("decodeAudioData", **{"as": "a", "path": "a.wav"}),
                 create("BufferSource", "s", buffer="a"), call("start", node="s"),
                 connect("s", "destination")]
        page = self.page(*self.paths(data_of(calls)), "--explain", "1", "0")
        self.assertIn("buffer source s at frame 1 plays frame 1 of its buffer: 0.25", text_of(page))

    def test_what_has_no_sample(self):
        words = self.paths(data_of(A_GAIN))
        for frame, channel in (("64", "0"), ("0", "1")):
            told = self.refused(*words, "--explain", frame, channel)
            self.assertIn(f"has no frame {frame} of channel {channel}: it has 64 frames and 1"
                          " channel", told)
        for word in ("x", "+5", "5_0", "-1"):
            self.assertIn("--explain", self.refused(*words, "--explain", word, "0"))
        idle = self.paths(fixtures.script(A_GAIN), "idle")
        self.assertIn("the session was not rendered, so it has no sample to explain",
                      self.refused(*idle, "--explain", "5", "0"))
        self.assertIn("a sample is explained of one session",
                      self.refused(self.folder, "--explain", "5", "0"))

    def test_the_command_that_asks(self):
        words = self.paths(data_of(A_GAIN), 'a "<b>\'')
        page = self.page(*words)
        (found,) = re.findall(r'<form class="range asking" data-command="([^"]*)"', page)
        command = html.unescape(found)
        self.assertTrue(command.startswith("tools/report '"), command)
        self.assertTrue(command.endswith(".wav' --explain"), command)
        self.assertIn("click to play from there and to ask why a sample is what it is", page)


if __name__ == "__main__":
    unittest.main()
