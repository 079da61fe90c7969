"""Tests of the page that tools/report writes, without a browser."""

import array
import base64
import html.parser
import io
import json
import os
import random
import re
import subprocess
import tempfile
import unittest
import unittest.mock

import fixtures
import test_reading

from waplay_tools import report
from waplay_tools.expecting import sessions
from waplay_tools.recorder.results import wav_of_words
from waplay_tools.reporting import waveform
from waplay_tools.reporting.content import File, Room
from waplay_tools.reporting.players import players_html
from waplay_tools.reporting.wav_samples import Differences, front_of, sound_of, spans

VOID = {"meta", "input", "br", "wbr", "img", "link", "hr"}


def floats(samples):
    """The bytes of a WAV file of floats with one channel."""
    return wav_of_words(array.array("f", samples), 1, 48000, 3)


def columns_of(text):
    """The lowest and the highest number of each column for zooming, as a page reads them."""
    numbers = array.array("h", base64.b64decode(text))
    return list(zip(numbers[::2], numbers[1::2]))


class Page(html.parser.HTMLParser):
    """A page as it is parsed: its elements, and its text. It notes tags that do not close."""

    def __init__(self, data):
        super().__init__()
        self.open, self.wrong, self.elements, self.texts, self.rows = [], [], [], [], []
        self.feed(data.decode())
        self.wrong += self.open

    def handle_starttag(self, tag, attributes):
        self.elements.append((tag, dict(attributes)))
        if tag not in VOID:
            self.open.append(tag)
        if tag == "tr":
            self.rows.append("")

    def handle_startendtag(self, tag, attributes):
        self.elements.append((tag, dict(attributes)))

    def handle_endtag(self, tag):
        if not self.open or self.open.pop() != tag:
            self.wrong.append(tag)

    def handle_data(self, data):
        if not {"script", "style"} & set(self.open):
            self.texts.append(data)
            if "tr" in self.open:
                self.rows[-1] += data

    def text(self):
        """The text that is read, with one blank for several."""
        return re.sub(r"\s+", " ", "".join(self.texts))

    def of(self, tag, **attributes):
        """The attributes of the elements of a tag that have these."""
        return [
            it
            for name, it in self.elements
            if name == tag and all(it.get(key) == value for key, value in attributes.items())
        ]


class Report(unittest.TestCase):
    def setUp(self):
        folder = tempfile.TemporaryDirectory()
        self.addCleanup(folder.cleanup)
        self.folder = folder.name

    def report(self, paths, *more):
        """The page of these files."""
        ran = fixtures.run("report", *paths, *more)
        self.assertEqual((ran.returncode, ran.stderr), (0, b""))
        page = Page(ran.stdout)
        self.assertEqual(page.wrong, [])
        return page

    def page(self, paths):
        """The same, without a process of its own."""
        out = io.TextIOWrapper(io.BytesIO())
        with unittest.mock.patch("sys.argv", ["report", *paths]):
            with unittest.mock.patch("sys.stdout", out):
                self.assertEqual(report.main(), 0)
        page = Page(out.buffer.getvalue())
        self.assertEqual(page.wrong, [])
        return page

    def refused(self, *words):
        """The one sentence of a run that ends with status 2."""
        ran = fixtures.run("report", *words)
        self.assertEqual((ran.returncode, ran.stdout), (2, b""))
        self.assertRegex(ran.stderr.decode(), r"\Areport: [^\n]+\n\Z")
        return ran.stderr.decode()

    def test_every_session_has_its_page(self):
        for name in fixtures.SESSIONS:
            data, text, sound = fixtures.session_of_case(name)
            page = self.page(fixtures.written(self.folder, name, data, text, sound))
            channels = json.loads(data)["context"]["channels"] if sound else 0
            self.assertEqual(len(page.of("path", **{"class": "envelope"})), channels)
            self.assertEqual(len(page.of("audio")), 1 if sound else 0)
            rows = [row for row in page.rows if row]
            for line in text.splitlines():
                answer = line.split(" ", 1)[1] if line[0].isdigit() else line
                self.assertTrue(any(answer in row for row in rows), line)
            refused = len(re.findall(r"^\d+ (?:throw|rejected)", text, re.M))
            self.assertEqual(len(page.of("tr", **{"class": "refused"})), refused)
            self.assertEqual(sum("Refused:" in row for row in rows), refused)

    def test_automation_has_its_values_and_its_rules(self):
        def on(node, name, op, **fields):
            return {"op": op, "node": node, "param": name, **fields}

        calls = [
            {"op": "createBufferSource", "as": "b"},
            {"op": "createGain", "as": "g"},
            on("b", "playbackRate", "readValue"),
            on("b", "detune", "setValue", value=0),
            on("g", "gain", "exponentialRampToValueAtTime"),
            on("g", "gain", "setTargetAtTime"),
            on("g", "gain", "setValue", value=-(2**23)),
            on("g", "gain", "readValue"),
            {"op": "startRendering"},
        ]
        data = fixtures.script(calls)
        _, text, session = sessions.replayed(data)
        page = self.report(
            fixtures.written(self.folder, "it", data, text, sessions.wav_bytes(session))
        )
        for answer, told in [
            ("profile:playback-rate-automation", "The playback rate of a source stays"),
            ("profile:detune", "Detuning is not part of the profile"),
            ("profile:exponential-ramp", "Exponential ramps are not part of the profile"),
            ("profile:set-target", "Approaching a target exponentially is not part of the profile"),
            ("value -8388608 (\u22120.5)", "readValue"),
        ]:
            self.assertTrue(any(answer in row and told in row for row in page.rows), answer)

    def test_peaks_and_sums_are_those_of_a_plain_sum(self):
        for name in ("hi_hat_choked", "six_channels", "drum_loop"):
            data, text, sound = fixtures.session_of_case(name)
            page = self.report(fixtures.written(self.folder, name, data, text, sound))
            _, _, session = sessions.replayed(data, fixtures.EXAMPLES)
            for channel, samples in enumerate(zip(*session.samples)):
                greatest = max(map(abs, samples))
                frame = list(map(abs, samples)).index(greatest)
                time = "{:,.6f}".format(frame / session.rate).rstrip("0").rstrip(".")
                row = "%d%s%.6f%s%s s%s" % (
                    channel,
                    "{:,}".format(greatest),
                    samples[frame] / 2**23,
                    "{:,}".format(frame),
                    time,
                    "{:,}".format(sum(samples)),
                )
                self.assertIn(
                    row.replace("-", "\u2212"),
                    [row.replace("\u00a0", " ") for row in page.rows],
                    name,
                )

    def test_the_page_needs_nothing_beside_it_and_runs_nothing_else(self):
        page = self.report(fixtures.written(self.folder, "it", *fixtures.hostile()))
        for _, attributes in page.elements:
            for name, value in attributes.items():
                self.assertFalse(name.startswith("on"), name)
                self.assertNotIn(name, ("style", "srcdoc", "srcset", "action", "formaction"))
                if name in ("src", "href"):
                    self.assertRegex(value, r"\A(data:audio/wav;base64,[A-Za-z0-9+/=]+|#[a-z-]+)\Z")
        self.assertEqual(
            [
                len(page.of(tag))
                for tag in ("script", "style", "img", "iframe", "object", "a", "link", "base")
            ],
            [1, 1, 0, 0, 0, 0, 0, 0],
        )
        policy = page.of("meta", **{"http-equiv": "Content-Security-Policy"})[0]["content"]
        self.assertIn("default-src 'none'", policy)
        self.assertNotIn("unsafe", policy)

    def test_hostile_names_are_text(self):
        page = self.report(fixtures.written(self.folder, "it", *fixtures.hostile()))
        text = page.text()
        for shown in (
            '"</script><script>window.hurt=1</script>"',
            '"\\"><img src=x onerror=\\"window.hurt=1\\">"',
            '"&lt;b&gt;"',
            "\\u0000\\u0007\\u001b[31m",
            "\\u202eabc\\u202c",
            "\\u2028line\\u2029",
            "(300 letters)",
            "{{constructor}}",
            "%s %d %(title)s",
            "a\\nb\\tc",
            '"`code` ${1}" stands for nothing.',
        ):
            self.assertIn(shown, text)
        self.assertNotRegex(
            text, "[\u0000-\u0008\u000b-\u001f\u007f-\u009f\u202a-\u202e\u2066-\u2069]"
        )

    def test_hostile_file_names(self):
        data, text, sound = fixtures.session_of_case("constant")
        name = (
            "</title><script>window.hurt=1</script>\n\u202e'\"&".replace("/", "\u2215").encode()
            + b"\xff"
        )
        folder = os.fsencode(self.folder)
        paths = [os.path.join(folder, name + end) for end in (b".json", b".txt", b".wav")]
        for path, content in zip(paths, (data, text.encode(), sound)):
            with open(path, "wb") as file:
                file.write(content)
        page = self.report(
            [os.fsdecode(path) for path in paths], "--against", os.fsdecode(paths[2])
        )
        self.assertEqual(len(page.of("script")), 1)
        self.assertIn("\\u000a\\u202e'\"&\\udcff.json", page.text())

    def test_what_the_transcript_tells_of_suspensions(self):
        page = self.report(fixtures.written(self.folder, "it", *fixtures.suspended()))
        text = page.text()
        for wanted in (
            "The session stalled at frame 1,536",
            "Suspended at frame 512: the list of call 14",
            "suspended and not resumedby call 20.",
            "A suspension comes at the end of a quantum",
            'a source ended"c", the constant source of call 1.',
            "The session wrote no WAV file.",
            "A wave shaper does not oversample",
            "Calls that were not run",
        ):
            self.assertIn(wanted, text)
        self.assertEqual(len(page.of("use", **{"class": "placed stalled"})), 1)
        page = self.report(fixtures.written(self.folder, "it", *fixtures.resumed()))
        places = {it["class"].split()[1]: it["x"] for it in page.of("use") if it.get("class")}
        self.assertEqual(places, {"suspended": "75.000%", "ended": "48.828%"})

    def test_what_is_not_heard(self):
        calls = [
            {"op": "createOscillator", "as": "o"},
            {"op": "createGain", "as": "g"},
            {"op": "connect", "from": "g", "to": "destination"},
            {"op": "createGain", "as": "meter"},
            {"op": "connect", "from": "g", "to": "meter"},
            {"op": "readTime"},
            {"op": "suspend", "time": 0, "then": [{"op": "readState"}, {"op": "resume"}]},
            {"op": "startRendering", "then": [{"op": "readState"}, {"op": "connect",
             "from": "meter", "to": "g"}]},
        ]
        page = self.page(self.worked_out(calls))
        for wanted in (
            "Calls12, 2 refused, 7 not heard",
            "7 of 12 calls are not heard: the same samples come without them.",
            "2 were refused: calls 1, 7.",
            "2 were never run: calls 8 to 9.",
            "2 came after the last sample: calls 11 to 12.",
            "1 only reads: call 6.",
            "Run where the script stands, waprune shorter.json < it.json writes the script without"
            " them.",
        ):
            self.assertIn(wanted, page.text())
        self.assertNotIn("never heard", page.text())
        del calls[-1]["then"][1]
        page = self.page(self.worked_out(calls))
        self.assertIn("2 are of nodes that are never heard: calls 4 to 5.", page.text())
        self.assertIn("Nodes that are never heard: meter.", page.text())

    def test_many_nodes_that_are_not_heard_are_folded(self):
        calls = [{"op": "createGain", "as": f"g{at}"} for at in range(300)]
        page = self.page(self.worked_out([*calls, {"op": "startRendering"}]))
        self.assertIn("300 of 301 calls are not heard", page.text())
        self.assertIn("Nodes that are never heard (300)", page.text())
        self.assertIn("g199gain200", page.rows)
        self.assertNotIn("g200gain201", page.rows)
        self.assertIn("and 100 nodes more", page.text())

    def test_a_session_that_is_heard_whole_has_no_such_part(self):
        page = self.page(self.worked_out([{"op": "startRendering"}]))
        self.assertIn("Calls1, 0 refused", page.text())
        self.assertNotIn("not heard", page.text())
        idle = fixtures.script([{"op": "createGain", "as": "g"}])
        page = self.page(fixtures.written(self.folder, "idle", idle, "1 ok\nend idle\n"))
        self.assertNotIn("not heard", page.text())

    def worked_out(self, calls):
        """The paths of a session of these calls."""
        data = fixtures.script(calls)
        _, text, session = sessions.replayed(data)
        return fixtures.written(self.folder, "it", data, text, sessions.wav_bytes(session))

    def test_sessions_without_sound(self):
        gain = {"op": "createGain", "as": "g"}
        for data, text, wanted in [
            (fixtures.script([gain]), "1 ok\nend idle\n", "Rendering was not started"),
            (
                fixtures.script([gain], channels=33),
                "end refused NotSupportedError\n",
                "A context has from 1 to 32 channels",
            ),
            (
                fixtures.script([gain], renderQuantum=100),
                "end refused NotSupportedError\n",
                "Render quantum100 frames",
            ),
            (
                fixtures.script([gain], renderQuantum=1024),
                "1 ok\nend idle\n",
                "Render quantum1,024 frames",
            ),
            (b"{", "script: BadJson\n", "The script is no JSON text"),
            (b"\xff", "script: BadJson\n", "byte 0 is not UTF-8"),
            (b"[]", "script: 0 script WrongKind\n", "The script is no object."),
            (fixtures.script([gain, 7]), "script: 2 call WrongKind\n", "Call 2 is no object."),
            (
                fixtures.script([{"op": "createFoo"}]),
                "script: 1 op UnknownOp\n",
                '"createFoo", which is no operation',
            ),
            (fixtures.script([{"op": 7}]), "script: 1 op UnknownOp\n", "The call has the op 7"),
            (
                fixtures.script([{"op": "createDelay", "as": "d"}]),
                "script: 1 op UnknownOp\n",
                "does not read this operation",
            ),
            (
                fixtures.script([{**gain, "gain": 2**31}]),
                "script: 1 gain OutOfRange\n",
                "It is 2147483648.",
            ),
            (fixtures.script([{**gain, "gain": 1.0}]), "script: 1 gain WrongKind\n", "It is 1.0."),
            (
                fixtures.script([{"op": "disconnect", "from": "g", "input": 0}]),
                "script: 1 to MissingField\n",
                "to and output beside it",
            ),
            (
                b'{"version":1}',
                "script: 0 context MissingField\n",
                "The script has no member context",
            ),
            (b'{"version":3}', "script: 0 version OutOfRange\n", "it has to be 1 or 2"),
            (
                fixtures.script([{"op": "stop", "node": "c", "when": "1."}], version=2),
                "script: 1 when WrongKind\n",
                "a string of seconds",
            ),
            (
                fixtures.script([{"op": "stop", "node": "c", "when": "9999999999"}], version=2),
                "script: 1 when OutOfRange\n",
                'It is "9999999999".',
            ),
        ]:
            paths = fixtures.written(self.folder, "it", data, text)
            page = self.report(paths)
            self.assertIn(wanted, page.text())
            self.assertIn("The session wrote no WAV file.", page.text())
            self.assertIn(
                "was not read",
                self.report([*paths, os.path.join(self.folder, "nowhere.wav")]).text(),
            )

    def test_random_sessions_have_pages(self):
        for number in range(1000, 1060):
            data = json.dumps(test_reading.random_script(number, number % 4 == 0)).encode()
            _, text, session = sessions.replayed(data, os.path.join(self.folder, "nowhere"))
            if text:
                sound = sessions.wav_bytes(session) if session and session.samples else None
                self.page(fixtures.written(self.folder, "it", data, text, sound))

    def test_differences_are_told(self):
        data, text, sound = fixtures.resumed()
        paths, other = fixtures.written(self.folder, "it", data, text, sound), bytearray(sound)
        self.assertIn(
            "No sample differs, of 2,048 that were compared.",
            self.report(paths, "--against", paths[2]).text(),
        )
        for frame, value in (700, b"\x01\x00\x00"), (900, b"\xff\xff\x7f"), (901, b"\x00\x00\x80"):
            other[44 + 3 * frame : 47 + 3 * frame] = value
        against = ["--against", fixtures.write(self.folder, "other.wav", bytes(other))]
        page = self.report(paths, *against, "--tolerance", "0")
        ours, theirs = (sound_of(bytes(it), "it").channels[0] for it in (sound, other))
        plain = [(abs(b - a), -frame) for frame, (a, b) in enumerate(zip(ours, theirs)) if a != b]
        self.assertIn("%d of 2,048 samples differ." % len(plain), page.text())
        frames = {"first": -max(it[1] for it in plain), "greatest": -max(plain)[1]}
        for kind, frame in frames.items():
            less = (theirs[frame] - ours[frame]) / 2**23
            told = "".join("%.6f" % (it / 2**23) for it in (ours[frame], theirs[frame]))
            row = next(
                row.replace("\u00a0", "").replace("\u2212", "-")
                for row in page.rows
                if row.replace(" ", "").startswith(kind)
            )
            self.assertTrue(row.endswith(told), (row, told))
            self.assertIn(("%.3g" % less).replace("e-0", "e-"), row)
            self.assertIn("%d" % frame, row)
        page = self.report(paths, *against)
        beyond = [frame for frame, (a, b) in enumerate(zip(ours, theirs)) if abs(b - a) > 128]
        told = "By more than the tolerance, 2^\u221216, differ %d." % len(beyond)
        self.assertIn(told, page.text())
        page = self.report(
            paths,
            "--against",
            fixtures.write(self.folder, "other.wav", fixtures.wav([[0], [1]], 8000, 16)),
        )
        self.assertIn(
            "The files differ in channels (1 here, 2 there), frames (2,048 here, 1 there), ",
            page.text(),
        )

    def test_input_that_is_of_no_use(self):
        data, text, sound = fixtures.session_of_case("hi_hat_choked")
        script, transcript, wav = fixtures.written(self.folder, "it", data, text, sound)
        nowhere = os.path.join(self.folder, "no\nwhere")
        empty = fixtures.write(self.folder, "empty", b"")
        for words in [
            (nowhere, transcript, wav),
            (script, nowhere, wav),
            (script, transcript, nowhere),
            (self.folder, transcript, wav),
            (script, transcript, wav, "--against", nowhere),
        ]:
            self.assertIn("can't be read: ", self.refused(*words))
        self.assertIn("no whole transcript", self.refused(script, empty, wav))
        self.assertIn("no WAV file", self.refused(script, transcript, empty))
        self.assertIn("no WAV file", self.refused(script, transcript, transcript))
        self.assertIn("no WAV file", self.refused(script, transcript, wav, "--against", script))
        self.assertIn("third word", self.refused(script, transcript))
        self.assertIn("is no transcript", self.refused(script, script, wav))
        self.assertIn("does not belong", self.refused(empty, transcript, wav))
        other = fixtures.write(self.folder, "other.json", fixtures.script_of_case("constant"))
        self.assertIn("does not belong", self.refused(other, transcript, wav))
        short = fixtures.write(self.folder, "short.wav", fixtures.wav([[0] * 191]))
        self.assertIn(
            "its length is 191, and the context's is 192", self.refused(script, transcript, short)
        )
        idle = fixtures.written(self.folder, "idle", fixtures.script([]), "end idle\n")
        self.assertIn("no WAV file", self.refused(*idle, "--against", wav))

    def test_a_page_that_can_not_be_written(self):
        paths = fixtures.written(self.folder, "it", *fixtures.session_of_case("constant"))
        with open("/dev/full", "wb") as full:
            command = [fixtures.TOOLS / "report", *paths]
            ran = subprocess.run(command, stdout=full, stderr=subprocess.PIPE)
        self.assertEqual(ran.returncode, 2)
        self.assertRegex(ran.stderr.decode(), r"\Areport: [^\n]+\n\Z")


class Waveforms(unittest.TestCase):
    def test_the_outline_reaches_each_sample(self):
        rng = random.Random("outline")
        samples = [rng.randint(-100, 100) for _ in range(37)]
        path = waveform.path_of([(it, it) for it in samples], 100)
        heights = [float(it) for it in re.findall(r"[V,](-?[\d.]+)H", path)]
        wanted = [waveform.HEIGHT / 2 - it * waveform.REACH / 100 for it in samples]
        self.assertEqual(heights, [round(it, 1) for it in wanted + wanted[::-1]])

    def test_the_scale_holds_all_samples(self):
        for samples, scale in (
            ([0, 0], 1),
            ([-(2**23)], 1),
            ([2**22], 0.5),
            ([2**22 + 1], 1),
            ([1], 2**-23),
        ):
            self.assertEqual(waveform.scale_of([sound_of(fixtures.wav([samples]), "it")]), scale)

    def test_the_scale_of_floats_beyond_1(self):
        for greatest, scale in (1.0, 1), (1.001, 2), (-2, 2), (2.5, 4), (-128, 128), (1e30, 128):
            sound = sound_of(floats([0.5, greatest]), "it")
            self.assertEqual(waveform.scale_of([sound]), scale)

    def test_columns_for_zooming_of_samples_beyond_full_scale(self):
        samples = [0.25, -0.25, 1.0, -1.0, 1.5, -1.5, 3e38, -3e38]
        heights = columns_of(waveform.fine_columns(samples, 1.0))
        edge = 32767
        wanted = [8192, -8192, edge, -edge, edge, -edge, edge, -edge]
        self.assertEqual(heights, [(it, it) for it in wanted])
        whole = columns_of(waveform.fine_columns(samples[:6], 2.0))
        self.assertEqual(whole, [(it, it) for it in (4096, -4096, 16384, -16384, 24575, -24575)])

    def test_columns_for_zooming_hold_the_ends_of_many_samples(self):
        rng = random.Random("columns")
        samples = [rng.uniform(-2, 2) for _ in range(5 * waveform.FINE_COLUMNS + 3)]
        for full in 1.0, 2.0:
            found = columns_of(waveform.fine_columns(samples, full))
            wanted = [tuple(max(-32767, min(32767, round(it * 32767 / full))) for it in pair)
                      for pair in spans(samples, waveform.FINE_COLUMNS)]
            self.assertEqual(len(found), waveform.FINE_COLUMNS)
            self.assertEqual(found, wanted)

    def test_files_that_are_too_large_for_a_page(self):
        data = fixtures.wav([[1, 2, 3]]), fixtures.wav([[1, 2, 3, 4]])
        files = [File("a b.wav", it, sound_of(it, "it")) for it in data]
        for most, held in (1000, 2), (len(data[0]), 1), (10, 0):
            text, is_whole = players_html(*files, Room(".", most))
            self.assertEqual(text.count("data:audio/wav"), held)
            self.assertEqual(text.count('src="a%20b.wav"'), 2 - held)
            self.assertEqual(text.count("is not in this page"), 2 - held)
            self.assertEqual(is_whole, held == 2)

    def test_what_is_played_of_many_channels_are_the_first_two(self):
        for bits in (8, 16, 24, 32):
            channels = [[at, -at, 100, at + 1] for at in range(9)]
            front = sound_of(front_of(fixtures.wav(channels, 44100, bits)), "it")
            self.assertEqual(
                ([list(it) for it in front.channels], front.rate, front.bits),
                (channels[:2], 44100, bits),
            )

    def test_a_difference_of_files_that_are_equal_is_none(self):
        sound = sound_of(fixtures.wav([[1, 2, 3]]), "it")
        self.assertIsNone(Differences(sound, sound).first)


if __name__ == "__main__":
    unittest.main()
