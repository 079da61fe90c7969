"""Tests of the page of a take, and of what it says at the top: without a browser."""

import array
import io
import json
import os
import re
import tempfile
import unittest
import unittest.mock

import fixtures
from test_report import Page

from waplay_tools import report
from waplay_tools.expecting import sessions
from waplay_tools.recorder.results import wav_of_words
from waplay_tools.reporting import graph, graph_layout, judging, notes_html, refusals
from waplay_tools.reporting.content import Content, File, Loss
from waplay_tools.reporting.following import Session
from waplay_tools.reporting.graph import Arrow, Box, Picture
from waplay_tools.reporting.script_reading import script_of
from waplay_tools.reporting.takes import losses_of
from waplay_tools.reporting.transcript_reading import lines_of
from waplay_tools.reporting.wav_samples import Differences, sound_of

REPORT = """context 1: 1 channels, 256 frames, 48000 frames a second; 4 calls, 0 assets
refused compressor: count 1, calls 1: not part of the profile
rounded value-rounded: count 2, greatest error 2.98e-8, calls 2 3: values
the page threw ReferenceError: draw is not defined (piece.html, line 5)
verdict: refused in part
"""


def floats(samples, rate=48000):
    """The bytes of a WAV file of floats with one channel."""
    return wav_of_words(array.array("f", samples), 1, rate, 3)


def take(folder, data, browser=None, told=None, number=1, transcript=None):
    """Writes a take of one context, replayed by the second calculation."""
    _, text, session = sessions.replayed(data, folder)
    fixtures.write(folder, f"{number}.json", data)
    fixtures.write(folder, f"{number}.txt", transcript or text)
    if session and session.samples:
        fixtures.write(folder, f"{number}.wav", sessions.wav_bytes(session))
    if browser:
        fixtures.write(folder, f"{number}.browser.wav", browser)
    if told:
        fixtures.write(folder, f"{number}.report.txt", told)
    return text


def content_of(data, folder="nowhere", lengths=None):
    """The content of a script, replayed by the second calculation."""
    _, text, session = sessions.replayed(data, folder)
    content = Content(Session(script_of(data), lines_of(text.encode(), "it"), ("a", "b"), lengths))
    if session and session.samples:
        it = sessions.wav_bytes(session)
        content.sound = File("it.wav", it, sound_of(it, "it"))
    return content


def texts(content):
    """What is said at the top of a session, with its grades."""
    return [(it.grade, it.text) for it in judging.findings(content)]


CONSTANT = [
    {"op": "createConstantSource", "as": "c", "offset": 2**22},
    {"op": "connect", "from": "c", "to": "destination"},
    {"op": "start", "node": "c"},
    {"op": "startRendering"},
]


class Takes(unittest.TestCase):
    def setUp(self):
        folder = tempfile.TemporaryDirectory()
        self.addCleanup(folder.cleanup)
        self.folder = folder.name

    def run_report(self, *words):
        """The status, the page and the sentence of a run."""
        out = io.TextIOWrapper(io.BytesIO())
        err = io.StringIO()
        with unittest.mock.patch("sys.argv", ["report", *words]):
            with unittest.mock.patch("sys.stdout", out), unittest.mock.patch("sys.stderr", err):
                status = report.main()
        out.flush()
        return status, out.buffer.getvalue(), err.getvalue()

    def page(self, *words):
        """The page of a run that ends with 0."""
        status, data, err = self.run_report(self.folder, *words)
        self.assertEqual((status, err), (0, ""))
        page = Page(data)
        self.assertEqual(page.wrong, [])
        return page

    def test_both_sounds_are_compared_within_the_tolerance(self):
        samples = [0.25] * 256
        samples[100] += 2.0**-17  # half the tolerance
        take(self.folder, fixtures.script(CONSTANT, length=256), floats(samples))
        text = self.page().text()
        self.assertIn("It differs from the browser by 7.63e\u22126 at most", text)
        told = "1 of 256 samples differ. By more than the tolerance, 2^\u221216, differ none."
        self.assertIn(told, text)
        samples[200] = 0.5
        take(self.folder, fixtures.script(CONSTANT, length=256), floats(samples))
        page = self.page()
        told = "It differs from the browser by 0.25 (\u221212 dB), where 1.53e\u22125 is allowed"
        self.assertIn(f"{told}; first at frame 200.", page.text())
        rows = [row.replace("\u00a0", " ") for row in page.rows]
        self.assertIn("2002000.004167 s0.25\u221212.0 dB", rows)
        self.assertEqual(len(page.of("path", **{"class": "other"})), 1)
        self.assertEqual(len(page.of("path", **{"class": "tolerance"})), 1)

    def test_a_sound_beyond_full_scale_is_drawn_whole(self):
        samples = [0.25] * 256
        samples[100], samples[200] = 2.5, -3.0
        take(self.folder, fixtures.script(CONSTANT, length=256), floats(samples))
        page = self.page()
        self.assertIn("\u22124 to 4", page.text())
        (other,) = page.of("path", **{"class": "other"})
        # The middle is at 100, and 4 is 96 above or below it.
        heights = {float(it) for it in re.findall(r"[V,](-?[\d.]+)H", other["d"])}
        self.assertEqual(heights, {94.0, 40.0, 172.0})
        (own,) = page.of("path", **{"class": "envelope"})[:1]
        self.assertEqual({float(it) for it in re.findall(r"[V,](-?[\d.]+)H", own["d"])}, {94.0})

    def test_the_piece_heads_the_page(self):
        take(self.folder, fixtures.script(CONSTANT, length=256), floats([0.25] * 256), REPORT)
        told = {"page": "http://localhost/piece.html", "title": "Rain <b>", "date": "2026-01-02",
                "browser": "Chromium 140", "program": "waplay 1", "digest": "abc", "status": 1,
                "reason": "the page threw Oh", "missing": []}
        fixtures.write(self.folder, "take.json", json.dumps(told))
        text = self.page().text()
        for shown in ("Rain <b>", "http://localhost/piece.html", "2026-01-02", "Chromium 140",
                      "waplay 1", "refused in part", "compressor, value-rounded",
                      "The recorder: refused compressor", "threw ReferenceError: draw",
                      "The recorder ended with 1: the page threw Oh"):
            self.assertIn(shown, text)

    def test_all_contexts_are_in_one_page(self):
        take(self.folder, fixtures.script(CONSTANT, length=256), floats([0.25] * 256))
        take(self.folder, fixtures.script(CONSTANT[:1] + CONSTANT[2:], length=256), number=2)
        page = self.page()
        self.assertEqual(len(page.of("section", **{"class": "context"})), 2)
        self.assertEqual([it["href"] for it in page.of("a")], ["#part-1", "#part-2"])
        self.assertIn("Context 2: Silent: each of 256 samples of waplay is 0.", page.text())
        ids = [it["id"] for _, it in page.elements if "id" in it]
        self.assertEqual(len(ids), len(set(ids)))

    def test_long_sounds_are_beside_the_page(self):
        data = fixtures.script(CONSTANT, length=2_000_000)
        lines = "1 ok\n2 ok\n3 ok\n4 pending\n4 resolved\ncomplete 2000000\nend completed\n"
        for name, held in (("1.json", data), ("1.txt", lines),
                           ("1.wav", fixtures.wav([[2**21] * 2_000_000]))):
            fixtures.write(self.folder, name, held)
        path = os.path.join(self.folder, "index.html")
        self.assertEqual(self.run_report(self.folder, "-o", path), (0, b"", ""))
        with open(path, "rb") as file:
            written = file.read()
        self.assertLess(len(written), 300_000)
        self.assertIn(b'src="1.wav"', written)
        self.assertGreater(len(self.run_report(self.folder, "--whole")[1]), 6_000_000)

    def test_a_summary_that_is_none(self):
        take(self.folder, fixtures.script(CONSTANT, length=256))
        for told in (
            "[", "[]", '{"contexts": 5, "missing": {}, "title": [1], "status": "x"}',
            '{"contexts": [7, {"number": 1, "frozen": [3, {}]}], "reason": [], "page": 1}',
        ):
            fixtures.write(self.folder, "take.json", told)
            self.assertIn("Context 1", self.page().text())

    def test_a_tool_writes_the_page_of_its_take(self):
        take(self.folder, fixtures.script(CONSTANT, length=256))
        path = os.path.join(self.folder, "index.html")
        report.write_take(self.folder, path)
        page = Page(fixtures.read(self.folder, "index.html"))
        self.assertEqual((page.wrong, len(page.of("audio"))), ([], 1))

    def test_a_context_that_was_not_replayed_is_told(self):
        take(self.folder, fixtures.script(CONSTANT, length=256))
        fixtures.write(self.folder, "2.json", fixtures.script(CONSTANT))
        page = self.page()
        self.assertEqual(len(page.of("section", **{"class": "context"})), 1)
        self.assertIn("Context 2 can't be shown:", page.text())
        self.assertIn("2.txt is not there: tools/record makes it with --replay.", page.text())

    def test_folders_that_are_no_take(self):
        status, _, err = self.run_report(self.folder)
        self.assertEqual((status, err), (
            2, f"report: {self.folder} is no folder of a take: it has no script, as 1.json\n"))
        fixtures.write(self.folder, "1.json", fixtures.script(CONSTANT))
        status, _, err = self.run_report(self.folder)
        self.assertEqual((status, err), (
            2, f"report: {self.folder}/1.txt is not there: tools/record makes it with --replay\n"))
        status, _, err = self.run_report(os.path.join(self.folder, "1.json"))
        self.assertEqual(status, 2)
        self.assertIn("is no folder of a take; with a script its transcript is wanted", err)

    def test_reports_of_the_recorder(self):
        losses, lines, verdict = losses_of(REPORT)
        self.assertEqual([(it.grade, it.kind, it.calls) for it in losses],
                         [("refused", "compressor", [1]), ("rounded", "value-rounded", [2, 3])])
        self.assertEqual(verdict, "refused in part")
        self.assertEqual(len(lines), 1)
        losses, _, _ = losses_of("context 1\nfrozen frozen-node: count 1, calls 2: nodes\n")
        self.assertEqual([(it.grade, it.kind, it.calls) for it in losses],
                         [("frozen", "frozen-node", [2])])


class Tops(unittest.TestCase):
    """What is said at the top."""

    def test_a_silent_session(self):
        calls = [*CONSTANT[:1], {"op": "createGain", "as": "g", "gain": 0},
                 {"op": "connect", "from": "c", "to": "g"},
                 {"op": "connect", "from": "g", "to": "destination"}, *CONSTANT[2:]]
        content = content_of(fixtures.script(calls))
        self.assertIn(("bad", "Silent: each of 128 samples of The sound is 0."), texts(content))

    def test_nothing_reaches_the_destination(self):
        wanted = ("bad", "Nothing reaches the destination: no source that was started is connected"
                         " with it.")
        self.assertIn(wanted, texts(content_of(fixtures.script(CONSTANT[:1] + CONSTANT[2:]))))
        self.assertNotIn(wanted, texts(content_of(fixtures.script(CONSTANT))))
        unstarted = fixtures.script(CONSTANT[:2] + CONSTANT[3:])
        self.assertIn(wanted, texts(content_of(unstarted)))

    def test_silence_stands_before_the_refusals_that_lead_to_it(self):
        refused = [{"op": "createOscillator", "as": "c"}, *CONSTANT[1:]]
        told = [text.split(":")[0] for _, text in texts(content_of(fixtures.script(refused)))]
        self.assertEqual(told, ["Silent", "Nothing reaches the destination", "Refused"])

    def test_clipping(self):
        loud = [{**CONSTANT[0], "offset": 2**25}, *CONSTANT[1:]]
        self.assertIn(("doubtful", "The sound: 128 samples are at the end of their range, so it"
                                   " clips."), texts(content_of(fixtures.script(loud))))
        self.assertEqual(sound_of(floats([1.0, -1.0, 1.25, -2.0]), "it").clipped(), 2)

    def test_refusals_are_grouped_by_their_cause(self):
        calls = [
            {"op": "createDynamicsCompressor", "as": "k"},
            *CONSTANT[:1],
            {"op": "connect", "from": "c", "to": "k"},
            {"op": "connect", "from": "k", "to": "destination"},
            {"op": "createOscillator", "as": "o"},
            {"op": "start", "node": "o"},
            {"op": "start", "node": "c", "when": -1},
            {"op": "createOscillator", "as": "p"},
            {"op": "connect", "from": "q", "to": "destination"},
            {"op": "startRendering"},
        ]
        content = content_of(fixtures.script(calls))
        found = [(it.row.call.op, it.calls, it.following)
                 for it in refusals.causes_of(content.session)]
        self.assertEqual(found, [
            ("createDynamicsCompressor", [1], [3, 4]),
            ("createOscillator", [5, 8], [6]),
            ("start", [7], []),
            ("connect", [9], []),
        ])
        self.assertIn(("bad", "Refused: createDynamicsCompressor (throw NotSupportedError"
                              " profile:compressor), call 1, so 2 calls have no object."),
                      texts(content))

    def test_a_buffer_that_cannot_be_read_is_the_cause(self):
        calls = [{"op": "decodeAudioData", "as": "b", "path": "gone.wav"},
                 {"op": "createBufferSource", "as": "s", "buffer": "b"},
                 {"op": "connect", "from": "s", "to": "destination"},
                 {"op": "startRendering"}]
        (cause,) = refusals.causes_of(content_of(fixtures.script(calls)).session)
        self.assertEqual((cause.calls, cause.following), ([1], [2, 3]))


class Samples(unittest.TestCase):
    def test_floats(self):
        it = sound_of(floats([0.5, float("nan"), -1.5, float("inf")], 44100), "it")
        self.assertEqual((list(it.channels[0]), it.rate, it.full, it.lost),
                         ([0.5, 0.0, -1.5, 0.0], 44100, 1, 2))

    def test_what_whole_numbers_cannot_hold_is_no_difference(self):
        ours = sound_of(fixtures.wav([[2**23 - 1, -(2**23)]]), "it")
        self.assertFalse(Differences(ours, sound_of(floats([1.5, -3.0]), "it")).count)

    def test_places_beyond_the_tolerance(self):
        samples = [0.0] * 1024
        for frame, value in (10, 0.5), (130, 0.25), (640, -0.125), (641, 2.0**-20):
            samples[frame] = value
        found = Differences(sound_of(fixtures.wav([[0] * 1024]), "it"),
                            sound_of(floats(samples), "it"))
        self.assertEqual(found.places(), [(10, 130, 0.5), (640, 640, 0.125)])
        self.assertEqual((found.count, found.beyond), (4, 3))
        self.assertEqual((found.first.frame, found.greatest.frame), (10, 10))


class Lanes(unittest.TestCase):
    def test_notes_begin_and_end_where_the_calls_say(self):
        calls = [{"op": "decodeAudioData", "as": "b", "path": "beat.wav"},
                 {"op": "createBufferSource", "as": "s", "buffer": "b"},
                 {"op": "createBufferSource", "as": "t", "buffer": "b"},
                 {"op": "start", "node": "s", "when": 100},
                 {"op": "start", "node": "t", "when": 300, "offset": 20},
                 *CONSTANT[:1], {"op": "start", "node": "c"},
                 {"op": "stop", "node": "c", "when": 700}]
        lines = "1 resolved\n" + "".join(f"{at} ok\n" for at in range(2, 9)) + "end idle\n"
        data = fixtures.script(calls, length=1024)
        session = Session(script_of(data), lines_of(lines.encode(), "it"), ("a", "b"),
                          {"beat.wav": 60})
        found = [(it.thing.name, it.first, it.last) for it in notes_html.notes_of(Content(session))]
        self.assertEqual(found, [("c", 0, 700), ("s", 100, 160), ("t", 300, 340)])

    def test_the_line_of_a_parameter(self):
        def on(op, **more):
            return {"op": op, "node": "c", "param": "offset", **more}

        calls = [*CONSTANT[:3], on("setValueAtTime", value=0, time=256),
                 on("linearRampToValueAtTime", value=2**24, time=512),
                 on("setValueAtTime", value=5, time=700), on("cancelScheduledValues", time=600),
                 {"op": "startRendering"}]
        content = content_of(fixtures.script(calls, length=1024))
        thing = content.session.book.nodes[1]
        points = [tuple(it) for it in notes_html.points_of(thing, "offset", 2**22, 1024)]
        self.assertEqual(points, [(0, 2**22), (256, 2**22), (256, 0), (512, 2**24), (1024, 2**24)])

    def test_notes_at_a_time_do_not_lie_over_one_another(self):
        calls = []
        for name, when in (("a", 0), ("b", 0), ("c", 64)):
            calls += [{"op": "createConstantSource", "as": name},
                      {"op": "start", "node": name, "when": when}]
        calls.append({"op": "stop", "node": "a", "when": 32})
        found = notes_html.lanes_of(notes_html.notes_of(content_of(
            fixtures.script([*calls, {"op": "startRendering"}])
        )))
        self.assertEqual(
            [(name, [note.thing.name for note in lane]) for name, lane in found],
            [("constant sources, voice 1", ["a", "c"]), ("constant sources, voice 2", ["b"])],
        )

    def test_many_notes_are_drawn_without_their_names(self):
        for count in (3, 401):
            calls = [call for at in range(count) for call in (
                {"op": "createConstantSource", "as": f"c{at}"}, {"op": "start", "node": f"c{at}"})]
            lanes = notes_html.note_lanes(content_of(fixtures.script(calls + CONSTANT[3:])))
            drawn = (count, 0) if count == 3 else (0, count)
            found = [lanes.count(f'<{kind} class="placed note"') for kind in ("svg", "rect")]
            self.assertEqual(tuple(found), drawn)
            self.assertEqual(lanes.count("<title>"), count)


class Graphs(unittest.TestCase):
    def looped(self, *between):
        """The content of a loop of gains, with these nodes of other kinds in it."""
        calls = [*CONSTANT[:1], *({"op": op, "as": op} for op in between)]
        names = ["g", *between, "g"]
        calls += [{"op": "createGain", "as": "g"}]
        calls += [{"op": "connect", "from": a, "to": b} for a, b in zip(names, names[1:])]
        calls += [{"op": "connect", "from": "c", "to": "g"},
                  {"op": "connect", "from": "g", "to": "destination"}, *CONSTANT[2:]]
        return content_of(fixtures.script(calls))

    def flags(self, content):
        """The flags of the nodes by their names."""
        found = graph.flags_of(content)
        return {it.name: found[it.number] for it in content.session.book.nodes}

    def test_a_cycle_without_a_delay_is_muted(self):
        self.assertEqual(self.flags(self.looped())["g"], ("muted",))
        found = self.flags(self.looped("createDelay"))
        self.assertEqual((found["g"], found["createDelay"]), (("in a cycle",), ("in a cycle",)))
        self.assertEqual(found["c"], ())

    def test_frozen_sources_are_told(self):
        content = self.looped()
        content.losses.append(Loss("lowered", "baked-source", "", [1]))
        self.assertEqual(self.flags(content)["c"], ("baked",))

    def test_frozen_nodes_are_told_by_their_names(self):
        content = self.looped()
        content.frozen = {"g"}
        content.lines.append("live: 60 % of the sound comes through none of what is frozen")
        self.assertIn("frozen", self.flags(content)["g"])
        self.assertIn(("doubtful", "Frozen: 60 % of the sound comes through none of what is"
                                   " frozen."), texts(content))

    def test_nodes_that_are_alike_are_one(self):
        calls = []
        for at in range(5):
            calls += [{"op": "createConstantSource", "as": f"c{at}"},
                      {"op": "createGain", "as": f"g{at}"},
                      {"op": "connect", "from": f"c{at}", "to": f"g{at}"},
                      {"op": "connect", "from": f"g{at}", "to": "destination"}]
        calls += [{"op": "createGain", "as": "alone"}, {"op": "startRendering"}]
        drawn = graph.picture_of(content_of(fixtures.script(calls)))
        self.assertEqual(sorted(len(box.names) for box in drawn.boxes), [1, 1, 5, 5])
        self.assertEqual(len(drawn.arrows), 2)

    def test_what_changed_at_a_suspension(self):
        calls = [*CONSTANT[:3],
                 {"op": "suspend", "time": 128, "then": [
                     {"op": "disconnect", "from": "c"}, {"op": "createGain", "as": "g"},
                     {"op": "connect", "from": "c", "to": "g"}, {"op": "resume"}]},
                 {"op": "startRendering"}]
        book = content_of(fixtures.script(calls, length=256)).session.book
        ((frame, (come, gone)),) = graph.changes_of(book).items()
        self.assertEqual((frame, come[0].end.name, gone[0].end.name), (128, "g", "destination"))

    def test_both_layouts_keep_boxes_apart(self):
        boxes = [Box(at, "gain", [f"g{at}"], ()) for at in range(6)]
        boxes.append(Box(6, "destination", ["destination"], ()))
        arrows = [Arrow(a, b, "", True) for a, b in
                  ((0, 1), (1, 2), (2, 0), (0, 3), (4, 3), (5, 5), (3, 6))]
        for way in graph_layout.in_columns, graph_layout.by_graphviz:
            made = way(Picture(boxes, arrows))
            if made is None:
                continue  # graphviz is not installed
            self.assertEqual(len(made.arrows), len(arrows))
            for at, one in enumerate(made.boxes):
                for two in made.boxes[:at]:
                    self.assertTrue(abs(one.x - two.x) >= (one.width + two.width) / 2
                                    or abs(one.y - two.y) >= (one.height + two.height) / 2)


if __name__ == "__main__":
    unittest.main()
