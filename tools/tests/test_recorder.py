"""Tests of the recorder's Python without a browser: statuses, folders of takes, what is served, how
a replay is compared, and what is told of a page."""

import argparse
import array
import contextlib
import io
import json
import os
import re
import stat
import struct
import sys
import unittest
import urllib.error
import urllib.request
from pathlib import Path
from unittest import mock

from recorder_pages import PAGES
from recording import RECORDER, TOP, temporary_folder, write_files

from waplay_tools.chromium import Event
from waplay_tools.recorder import command, departures, replaying, results, take
from waplay_tools.recorder.news import News
from waplay_tools.recorder.results import Asset, Recorded
from waplay_tools.recorder.serving import Folder

QUARTER, TINY = 2**21, 2.0**-17  # of a sample of 24 bits; a difference within the tolerance


def recorded(samples: list[float] | None = None, grades: tuple[str, ...] = (),
             calls: tuple[dict, ...] = (), kind: str = "some-loss") -> Recorded:
    """A context of one channel that rendered these samples."""
    context = {"channels": 1, "length": 2, "rate": 8000}
    script = f'{{"version": 1, "context": {json.dumps(context)}, "calls": {json.dumps(calls)}}}'
    made = Recorded(1, script, ["context 1: 1 channels"], "verdict",
                    [{"kind": kind, "grade": grade} for grade in grades], {})
    made.rendered = [array.array("f", [0.25, 0.25] if samples is None else samples)]
    made.rate = 8000
    return made


def file_of(samples: list[int]) -> bytes:
    """A WAV file of one channel of 24 bits."""
    body = b"".join(sample.to_bytes(3, "little", signed=True) for sample in samples)
    head = struct.pack("<4sI4s4sIHHIIHH4sI", b"RIFF", 36 + len(body), b"WAVE", b"fmt ", 16, 1, 1,
                       8000, 24000, 3, 24, b"data", len(body))
    return head + body


def words(*options: str) -> argparse.Namespace:
    """The words of a command line."""
    return command.parser().parse_args(["page.html", "out", *options])


class Statuses(unittest.TestCase):
    """What a recording means for the status."""

    def status(self, made: Recorded, *options: str) -> int:
        ending = command.Ending()
        command.judge(words(*options), made, ending)
        return ending.status

    def test_grades(self) -> None:
        # Without an option, with --strict, with --exact.
        grades = {"exact": (0, 0, 0), "rounded": (0, 0, 1), "lowered": (0, 0, 1),
                  "frozen": (0, 0, 1), "heard": (0, 1, 1), "refused": (1, 1, 1)}
        for grade, wanted in grades.items():
            found = [self.status(recorded(grades=(grade,)), *options)
                     for options in ([], ["--strict"], ["--exact"])]
            self.assertEqual(tuple(found), wanted, grade)

    def test_silence_has_a_status_of_its_own(self) -> None:
        self.assertEqual(self.status(recorded([0, 0])), 3)
        self.assertEqual(self.status(recorded([0, 0], ("refused",))), 3)
        self.assertEqual(self.status(recorded([0, 2.0**-149])), 0)

    def test_the_greatest_status_counts_and_its_first_reason(self) -> None:
        ending = command.Ending()
        for status, reason in [(1, "a"), (4, "b"), (3, "c"), (4, "d")]:
            ending.add(status, reason)
        self.assertEqual((ending.status, ending.reason), (4, "b"))

    def test_a_replay_without_a_program(self) -> None:
        ending = command.Ending()
        replayed = command.replay_one(words("--waplay", "no-such-program"), recorded(), ending)
        self.assertEqual(ending.status, 4)
        self.assertEqual(replayed.lines, ["replay: none, there is no program no-such-program"])


class CommandLine(unittest.TestCase):
    """What is refused before a browser is started."""

    def told(self, *arguments: str) -> tuple[int, str]:
        told = io.StringIO()
        with contextlib.redirect_stderr(told), contextlib.suppress(SystemExit):
            return command.main(list(arguments)), told.getvalue()
        return 2, told.getvalue()

    def test_the_page_is_told_what_is_asked_for(self) -> None:
        for words, wanted in ([], False), (["--seconds"], True):
            asked = command.parser().parse_args(["http://127.0.0.1/", "out", *words])
            options = command.wishes_of(asked).options()
            self.assertIn(f'"seconds": {json.dumps(wanted)}', options)

    def test_what_is_refused(self) -> None:
        folder = temporary_folder(self)
        write_files(folder, {"a/page.html": "", "file": "", "full/notes.txt": ""})
        page, out = str(folder / "a/page.html"), str(folder / "out")
        for arguments, sentence in [
            (["none.html", out], "There is no page none.html."),
            ([str(folder), out], f"There is no page {folder}."),
            ([page, out, "--root", str(folder / "none")], f"There is no folder {folder}/none."),
            ([page, out, "--root", str(folder / "full")], f"is not in the folder {folder}/full."),
            (["http://127.0.0.1/", out, "--root", "."], "a URL is served already."),
            ([page, out, "--chromium", "no-such-browser"], "There is no browser no-such-browser."),
            ([page, out, "--realtime", "x"], "invalid piece_length value"),
            ([page, out, "--realtime", "-1"], "it takes seconds above 0, up to 3600"),
            ([page, out, "--timeout", "0"], "it takes seconds above 0, up to 86400"),
            ([page, out, "--contexts", "0"], "it takes a number from 1 on"),
            ([page, out, "--tolerance", "3"], "is no difference from 0 to 2"),
            ([page, out, "more"], "unrecognized arguments"),
            ([page], "OUT"),
            ([page, str(folder / "full"), "--chromium", "true"], "files that are of no take, as "
             "notes.txt; name another folder."),
            ([page, str(folder / "file"), "--chromium", "true"], "file cannot be written"),
        ]:
            with self.subTest(sentence):
                status, told = self.told(*arguments)
                self.assertEqual(status, 2)
                self.assertIn(sentence, told)
                self.assertNotIn("Traceback", told)

    def test_values(self) -> None:
        self.assertEqual(words().tolerance, 2.0**-16)
        self.assertEqual(words("--tolerance", "2^-20").tolerance, 2.0**-20)
        self.assertEqual(words("--tolerance", "0.5").tolerance, 0.5)
        self.assertEqual(words().quiet, 1)

    def test_each_option_has_a_help(self) -> None:
        for action in command.parser()._actions:
            self.assertTrue(action.help, action.dest)


class Takes(unittest.TestCase):
    """The folder that gets the files."""

    def test_an_earlier_take_is_removed(self) -> None:
        folder = temporary_folder(self)
        names = ["1.json", "12-b117.wav", "1.browser.wav", "1.report.txt", "take.json", "1.wav",
                 "1.txt", "out.wav"]
        write_files(folder, dict.fromkeys(names, ""))
        take.prepare(folder)
        self.assertEqual(list(folder.iterdir()), [])

    def test_a_folder_of_something_else_is_left_as_it_is(self) -> None:
        for name in ["notes.txt", "package.json", "b1.wav", "1.json/inner"]:
            folder = temporary_folder(self)
            write_files(folder, {name: "", "1.report.txt": ""})
            with self.assertRaises(take.NoTake):
                take.prepare(folder)
            self.assertEqual(len(list(folder.iterdir())), 2)

    def test_a_folder_that_is_not_there_is_made(self) -> None:
        folder = temporary_folder(self) / "a" / "b"
        take.prepare(folder)
        self.assertTrue(folder.is_dir())

    def test_files(self) -> None:
        made = recorded([0.5, -1.0])
        made.assets.append(Asset("1-b1.wav", 1, 2, 8000, array.array("i", [1, -2])))
        files = made.files()
        self.assertEqual(sorted(files), ["1-b1.wav", "1.browser.wav", "1.json"])
        # RIFF, a format of 16 bytes, and two words of 32 bits.
        self.assertEqual(files["1-b1.wav"][36:], b"data\x08\0\0\0\x01\0\0\0\xfe\xff\xff\xff")
        self.assertEqual(files["1.browser.wav"][-8:], struct.pack("<2f", 0.5, -1.0))

    def test_a_number_that_was_not_known_in_the_page(self) -> None:
        made = recorded(calls=({"op": "decodeAudioData", "path": "@-b1.wav"},))
        made.script = made.script.replace('"path": ', '"path":')
        made.number = 7
        made.assets.append(Asset("@-b1.wav", 1, 0, 8000, array.array("i")))
        results.rename(made)
        self.assertEqual(json.loads(made.script)["calls"][0]["path"], "7-b1.wav")
        self.assertEqual(made.assets[0].path, "7-b1.wav")

    def test_samples_that_are_cut_off_are_told(self) -> None:
        self.assertEqual(recorded([1.0, -1.0]).sound_lines(), [])
        self.assertIn("clipped: 2 samples", recorded([1.5, -1.01]).sound_lines()[0])


class Serving(unittest.TestCase):
    """The folder that is served."""

    def test_paths(self) -> None:
        folder = temporary_folder(self)
        write_files(folder, {"outer.js": "outer", "root/app/a b.html": "page",
                             "root/resources/x.js": "x"})
        with Folder(folder / "root") as served:
            url = served.url_of(folder / "root/app/a b.html")
            self.assertEqual(url, served.origin + "/app/a%20b.html")
            for place, wanted in [("app/a%20b.html", "page"), ("resources/x.js", "x"),
                                  ("app/../resources/x.js", "x"), ("../outer.js", None)]:
                with self.subTest(place):
                    self.assertEqual(self.read(f"{served.origin}/{place}"), wanted)

    def read(self, url: str) -> str | None:
        try:
            with urllib.request.urlopen(url, timeout=10) as answer:
                self.assertEqual(answer.headers["Cache-Control"], "no-store")
                return answer.read().decode()
        except urllib.error.HTTPError as fault:
            fault.close()
            self.assertEqual(fault.code, 404)
            return None


class Replays(unittest.TestCase):
    """How a replay is compared."""

    LOOP = ({"op": "createDelay", "as": "d", "delayTime": 0.1},
            {"op": "createGain", "as": "g"},
            {"op": "connect", "from": "d", "to": "g"}, {"op": "connect", "from": "g", "to": "d"})

    def test_times_are_frames_in_either_version(self) -> None:
        held = [{"op": "resume"}]
        context = {"channels": 1, "length": 1, "rate": 48000}
        frames = [{"op": "suspend", "time": 24000, "then": held}, {"op": "stop", "node": "s"}]
        seconds = [{**frames[0], "time": "0.500000000"}, frames[1]]
        for version, calls in ((1, frames), (2, seconds)):
            told = {"version": version, "context": context, "calls": calls}
            script = replaying.script_in_frames(json.dumps(told))
            self.assertEqual(script["calls"], frames)

    def compared(self, samples: list[int], made: Recorded,
                 transcript: str = "") -> replaying.Replay:
        script = json.loads(made.script)
        return replaying.compare(file_of(samples), transcript, made, script, replaying.TOLERANCE)

    def test_a_replay_that_agrees(self) -> None:
        found = self.compared([QUARTER, QUARTER], recorded([0.25, 0.25 + TINY], calls=self.LOOP))
        self.assertEqual(found.outcome, "agrees")
        self.assertEqual(found.lines, ["replay: greatest difference from the browser 7.63e-06 at "
                                       "frame 1 of channel 0"])

    def test_a_replay_that_differs_names_known_departures(self) -> None:
        found = self.compared([QUARTER, QUARTER], recorded([0.25, 0.5], calls=self.LOOP))
        self.assertEqual(found.outcome, "differs")
        self.assertEqual(found.lines[1:], ["known departure: a loop through a delay is one quantum "
                                           "longer in Chromium"])

    def test_what_the_browser_has_outside_counts_as_what_is_next_to_it(self) -> None:
        found = self.compared([2**23 - 1, -2**23], recorded([1.75, -3.0]))
        self.assertEqual((found.outcome, found.difference), ("agrees", 0.0))

    def test_a_silent_replay(self) -> None:
        found = self.compared([0, 0], recorded([0.25, 0.25]))
        self.assertTrue(found.is_silent)
        self.assertEqual(found.outcome, "differs")
        self.assertEqual(found.lines[0], "silent: every sample of the replay is 0")

    def test_another_length(self) -> None:
        self.assertEqual(self.compared([QUARTER], recorded()).outcome, "differs")

    def test_calls_that_ended_otherwise(self) -> None:
        transcript = "1 throw NotSupportedError profile:panner\n2 ok\n3 rejected InvalidStateError"
        made = recorded()
        made.outcomes = {2: "IndexSizeError", 3: "InvalidStateError"}
        found = self.compared([QUARTER, QUARTER], made, transcript)
        self.assertEqual(found.outcome, "differs")
        self.assertEqual(found.lines[0], "replay: 2 calls ended otherwise than in the browser: 1 "
                         "(NotSupportedError profile:panner for ok), 2 (ok for IndexSizeError)")

    def test_no_wav_file(self) -> None:
        made = recorded()
        found = replaying.compare(b"RIFF", "", made, json.loads(made.script), 0.0)
        self.assertEqual(found.outcome, "fails")


STAND_IN = """#!{python}
import sys
open(sys.argv[1], "wb").write({data!r})
print({text!r})
sys.exit({status})
"""


class Programs(unittest.TestCase):
    """The program that replays."""

    def setUp(self) -> None:
        self.folder = temporary_folder(self)

    def program(self, data: bytes, text: str, status: int) -> Path:
        path = self.folder / "program"
        path.write_text(STAND_IN.format(python=sys.executable, data=data, text=text,
                                        status=status), encoding="utf-8")
        path.chmod(path.stat().st_mode | stat.S_IXUSR)
        return path

    def replayed(self, data: bytes, text: str, status: int) -> replaying.Replay:
        made = recorded(calls=({"op": "createPanner", "as": "p"},))
        made.write(self.folder)
        return replaying.replay(self.program(data, text, status), self.folder, made)

    def test_a_program_that_ends_well(self) -> None:
        found = self.replayed(file_of([QUARTER, QUARTER]), "end completed", 0)
        self.assertEqual(found.outcome, "agrees")
        self.assertTrue((self.folder / "1.wav").is_file())
        self.assertEqual((self.folder / "1.txt").read_text(encoding="utf-8"), "end completed\n")

    def test_programs_that_fail(self) -> None:
        for text, status, line in [
            ("script: 1 op UnknownOp", 4,
             "replay: failed, the program does not build createPanner (call 1)"),
            ("end idle", 3, "replay: the program ended with status 3: end idle"),
            ("", 0, "replay: failed, its WAV file cannot be read: "),
        ]:
            found = self.replayed(b"", text, status)
            self.assertEqual(found.outcome, "fails")
            self.assertTrue(found.lines[0].startswith(line), found.lines)

    def test_a_program_that_cannot_be_run(self) -> None:
        path = self.folder / "text"
        path.write_text("text", encoding="utf-8")
        made = recorded()
        made.write(self.folder)
        self.assertIn("cannot be run", replaying.replay(path, self.folder, made).lines[0])

    def test_no_build_is_started(self) -> None:
        write_files(self.folder, {"crates/waplay/x": "", "waplay": "#!/bin/sh\nexit 99\n"})
        self.assertEqual(replaying.find_program(str(self.folder / "waplay"))[0], None)
        write_files(self.folder, {"bin/waplay-x86_64-linux": "\x7fELF"})
        shipped = self.folder / "bin" / "waplay-x86_64-linux"
        self.assertEqual(replaying.find_program(str(self.folder / "waplay"))[0], shipped)
        write_files(self.folder, {"crates/waplay/out/waplay": "\x7fELF"})
        built = self.folder / "crates" / "waplay" / "out" / "waplay"
        os.utime(shipped, (1, 1))
        self.assertEqual(replaying.find_built(self.folder)[0], built)


class Departures(unittest.TestCase):
    """Where Chromium is known to differ, as far as the calls show it."""

    def found(self, *calls: dict, losses: tuple[str, ...] = (), **context: int) -> list[str]:
        script = {"context": {"length": 256, **context}, "calls": list(calls)}
        return departures.known_departures(script, set(losses))

    def test_suspensions_go_by_the_quantum_of_the_context(self) -> None:
        call = {"op": "suspend", "time": 200}
        for quantum, is_at_an_edge in [(32, False), (64, True), (128, True), (1024, True)]:
            found = self.found(call, renderQuantum=quantum)
            self.assertEqual(bool(found), is_at_an_edge, quantum)

    def test_by_calls(self) -> None:
        loop = [{"op": "connect", "from": one, "to": other} for one, other in ("ab", "ba")]
        gains = [{"op": "createGain", "as": name} for name in "ab"]
        for calls, word in [
            ([*gains, *loop], "a cycle without a delay is not muted"),
            ([{"op": "createDelay", "as": "d", "delayTime": 9, "maxDelayTime": 9}], "newest frame"),
            ([{"op": "createChannelMerger", "as": "m"}], "inputs are all silent"),
            ([{"op": "cancelAndHoldAtTime"}], "cancelled on its way"),
            ([{"op": "suspend", "time": 0}], "at frame 0 or at the length"),
            ([{"op": "suspend", "time": 200}], "at frame 0 or at the length"),
            ([{"op": "suspend", "time": 128, "then": [{"op": "setValue"}]}], "one quantum late"),
        ]:
            with self.subTest(word):
                found = self.found(*calls)
                self.assertEqual(len(found), 1, found)
                self.assertIn(word, found[0])

    def test_what_comes_behind_a_curve(self) -> None:
        def calls(first: int, duration: int, time: int, param: str = "gain") -> list[dict]:
            place = {"node": "g", "param": "gain"}
            return [{"op": "setValueCurveAtTime", **place, "time": first, "duration": duration},
                    {"op": "linearRampToValueAtTime", **place, "param": param, "time": time}]

        for quantum, words, is_early in [
            (128, (1029, 20, 1100), True), (128, (1029, 20, 5000), True),
            (128, (1029, 20, 1049), True), (128, (1024, 20, 1100), False),
            (128, (1029, 123, 1200), False), (128, (1029, 122, 1200), True),
            (128, (1029, 20, 1000), False), (128, (1029, 20, 1100, "offset"), False),
            (128, (1100, 100, 1300), False), (1024, (1100, 100, 1300), True),
            (32, (1029, 20, 1100), True), (32, (1050, 20, 1100), False),
        ]:
            found = self.found(*calls(*words), renderQuantum=quantum)
            self.assertEqual(found, [departures.EARLY_EVENT] * is_early, words)
        # Curves that the page had not tell nothing of it.
        for losses, is_early in [(("lowered-target",), False), (("lowered-curve",), True),
                                 (("lowered-ramp", "lowered-curve"), True)]:
            found = self.found(*calls(1029, 20, 1100), losses=losses)
            self.assertEqual(departures.EARLY_EVENT in found, is_early, losses)

    # A stereo source that begins later, and a node that it leads to.
    STEREO = ({"op": "createBuffer", "as": "b", "channels": 2, "length": 9, "rate": 8000},
              {"op": "createBufferSource", "as": "s", "buffer": "b"},
              {"op": "start", "node": "s", "when": 200})
    FED = ({"op": "connect", "from": "s", "to": "n"}, {"op": "connect", "from": "n", "to": "m"})
    HUM = ({"op": "createConstantSource", "as": "h"}, {"op": "start", "node": "h"},
           {"op": "connect", "from": "h", "to": "n"})
    EXPLICIT = {"op": "setChannelCountMode", "node": "n", "value": "explicit"}
    DISCRETE = {"op": "setChannelInterpretation", "node": "n", "value": "discrete"}

    def node(self, op: str) -> dict:
        return {"op": op, "as": "n"}

    def test_by_numbers_of_channels(self) -> None:
        delay, gain = self.node("createDelay"), self.node("createGain")
        fewer = "a delay whose input comes to have fewer channels mixes down in Chromium"
        anew = "Chromium begins the history of an IIR filter anew where its channels change"
        unplayed = ("a buffer source that does not play yet has the channels of its buffer in "
                    "Chromium")
        still = "a channel of a convolver stands still in Chromium while its input has not got it"
        behind = {"op": "createIIRFilter", "as": "m"}
        for calls, wanted in [
            ([delay], [fewer]),
            ([delay, self.EXPLICIT], []),
            ([gain], []),
            ([gain, self.DISCRETE], [unplayed]),
            ([gain, self.EXPLICIT, self.DISCRETE], [departures.SILENT_INPUTS, unplayed]),
            ([gain, self.EXPLICIT, self.DISCRETE, *self.HUM], [unplayed]),
            ([self.node("createChannelSplitter")], [unplayed]),
            ([self.node("createIIRFilter")], [anew]),
            ([self.node("createConvolver")], [still]),
            ([self.node("createConvolver"), *self.HUM], [still]),
            ([self.node("createConvolver"), self.EXPLICIT], []),
            # A filter behind a gain that always has two channels. Where it is taken away from it
            # at times, the filter has one.
            ([gain, self.EXPLICIT, behind], []),
            ([gain, self.EXPLICIT, behind, {"op": "disconnect", "from": "n"}], [anew]),
            # What a suspension sets does not hold from the beginning on.
            ([delay, {"op": "suspend", "time": 128, "then": [self.EXPLICIT]}],
             [fewer, departures.LATE_CHANGE]),
        ]:
            with self.subTest(calls):
                self.assertEqual(self.found(*self.STEREO, *calls, *self.FED), wanted)

    def test_timelines_before_the_start(self) -> None:
        def calls(when: int, place: int, op: str) -> list[dict]:
            told = {"node": "c", "param": "offset", "time": place}
            return [{"op": "createConstantSource", "as": "c"},
                    {"op": "connect", "from": "c", "to": "destination"},
                    {"op": "start", "node": "c", "when": when}, {"op": "setValueAtTime", **told},
                    {"op": op, **told, "time": place + 200}]

        for when, place, op, is_idle in [
            (300, 255, "linearRampToValueAtTime", True), (300, 255, "setValueCurveAtTime", True),
            (300, 256, "linearRampToValueAtTime", False), (300, 255, "setValueAtTime", False),
        ]:
            found = self.found(*calls(when, place, op))
            self.assertEqual(found, [departures.IDLE_TIMELINE] if is_idle else [])

    def test_timelines_of_what_hears_nothing_or_is_not_heard(self) -> None:
        event = {"op": "setValueCurveAtTime", "node": "h", "param": "gain", "time": 0,
                 "duration": 129}
        source = {"op": "createConstantSource", "as": "c"}
        start = {"op": "start", "node": "c"}
        links = [{"op": "connect", "from": one, "to": other} for one, other in
                 [("c", "g"), ("g", "h"), ("h", "destination")]]

        def at(time: int, *calls: dict) -> dict:
            return {"op": "suspend", "time": time, "then": list(calls)}

        def parted(name: str) -> dict:
            return {"op": "disconnect", "from": name}

        for calls, is_idle in [
            ([start, *links], False),
            (links, False),  # nothing plays
            ([start, *links[:2]], False),  # nothing is heard
            ([start, links[0], links[2], at(128, links[1])], True),
            ([start, *links[:2], at(128, links[2])], True),
            ([start, *links, at(128, parted("g"))], False),  # nothing is heard any more
            ([start, *links, at(128, parted("g")), at(256, links[1])], True),
            ([start, *links, at(128, parted("h")), at(256, links[2])], True),
            ([start, *links, at(128, {**parted("h"), "to": "x"}), at(256, links[2])], False),
            ([start, *links, at(256, parted("h")), at(384, links[2])], False),  # it is over
            ([start, *links, at(128, parted("g"), links[1])], False),
            ([start, {"op": "stop", "node": "c", "when": 100}, *links], False),
        ]:
            with self.subTest(calls):
                found = self.found(source, event, *calls)
                self.assertEqual(departures.IDLE_TIMELINE in found, is_idle)

    def test_nodes_that_are_not_heard(self) -> None:
        start = {"op": "start", "node": "c", "when": 100}
        link, end = ({"op": "connect", "from": one, "to": other} for one, other in
                     [("c", "g"), ("g", "destination")])
        parted = {"op": "disconnect", "from": "g"}

        def at(time: int, *calls: dict) -> dict:
            return {"op": "suspend", "time": time, "then": list(calls)}

        for source, node, calls, is_idle in [
            ("createBufferSource", "createGain", [link, at(256, end)], True),
            ("createConstantSource", "createGain", [link, at(256, end)], False),
            ("createConstantSource", "createDelay", [link, at(256, end)], True),
            ("createConstantSource", "createIIRFilter", [link, at(256, end)], True),
            ("createBufferSource", "createGain", [link, end], False),
            ("createBufferSource", "createGain", [link], False),
            ("createBufferSource", "createGain", [link, end, at(256, parted)], False),
            ("createBufferSource", "createGain", [link, end, at(256, parted), at(384, end)], True),
            ("createConstantSource", "createDelay", [end, at(256, link)], False),
        ]:
            with self.subTest(node=node, calls=calls):
                made = [{"op": source, "as": "c"}, {"op": node, "as": "g"}]
                found = self.found(*made, start, *calls)
                self.assertEqual(departures.IDLE_NODE in found, is_idle)

    def test_calls_that_were_refused(self) -> None:
        script = {"context": {"length": 256}, "calls": [
            *self.STEREO, self.node("createDelay"), *self.FED]}
        number = script["calls"].index(self.FED[0]) + 1
        self.assertEqual(len(departures.known_departures(script, set())), 1)
        self.assertEqual(departures.known_departures(script, set(), None, {number: "x"}), [])

    def test_channels_of_assets(self) -> None:
        script = {"context": {"length": 256}, "calls": [
            {"op": "decodeAudioData", "as": "b", "path": "1-b1.wav"}, *self.STEREO[1:],
            self.node("createDelay"), *self.FED]}
        self.assertEqual(departures.known_departures(script, set(), {"1-b1.wav": 1}), [])
        self.assertEqual(len(departures.known_departures(script, set(), {"1-b1.wav": 2})), 1)

    def test_by_losses(self) -> None:
        for kind, text in [("lowered-biquad", "Chromium ends biquads at an estimated tail"),
                           ("browser-rounded", departures.BY_LOSS["browser-rounded"])]:
            self.assertEqual(self.found(losses=(kind,)), [text])

    def test_none(self) -> None:
        self.assertEqual(self.found({"op": "createGain", "as": "g"},
                                    {"op": "suspend", "time": 128, "then": [{"op": "resume"}]}), [])


class WhatAPageTells(unittest.TestCase):
    """Causes, out of what the browser tells."""

    def setUp(self) -> None:
        self.browser = mock.Mock(listeners=[])
        self.news = News(self.browser, "http://127.0.0.1:1")

    def tell(self, method: str, **params: object) -> None:
        for listener in self.browser.listeners:
            listener(Event(method, params, "session"))

    def load(self, url: str, kind: str, status: int) -> None:
        self.tell("Network.requestWillBeSent", requestId=url, type=kind, request={"url": url})
        answer = {"url": url, "status": status, "statusText": "Not Found"}
        self.tell("Network.responseReceived", requestId=url, type=kind, response=answer)

    def throw(self, text: str, number: int = 1) -> None:
        frames = [{"url": "", "lineNumber": 9},
                  {"url": "http://127.0.0.1:1/a/b.js?c", "lineNumber": 4}]
        self.tell("Runtime.exceptionThrown", exceptionDetails={
            "exceptionId": number, "lineNumber": 0, "text": "Uncaught",
            "stackTrace": {"callFrames": frames},
            "exception": {"description": f"{text}\n    at f (http://127.0.0.1:1/a/b.js:5:1)"}})

    def test_what_could_not_be_loaded_comes_before_what_was_thrown(self) -> None:
        self.throw("ReferenceError: Engine is not defined")
        self.load("http://127.0.0.1:1/lib/engine%20a.js", "Script", 404)
        self.assertEqual(self.news.cause(), "could not load /lib/engine a.js (404 Not Found) and "
                         "threw ReferenceError: Engine is not defined (b.js, line 5)")

    def test_pictures_are_no_cause(self) -> None:
        self.load("http://127.0.0.1:1/cat.png", "Image", 404)
        self.assertEqual(self.news.cause(), None)
        self.assertEqual(self.news.lines(), ["the page could not load /cat.png (404 Not Found)"])

    def test_what_the_browser_asks_for_by_itself(self) -> None:
        self.load("http://127.0.0.1:1/favicon.ico", "Other", 404)
        self.assertEqual(self.news.lines(), [])

    def test_a_rejection_that_is_handled_later(self) -> None:
        self.throw("Error: late", 7)
        self.tell("Runtime.exceptionRevoked", exceptionId=7)
        self.assertEqual(self.news.lines(), [])

    def test_errors_on_the_console(self) -> None:
        self.tell("Runtime.consoleAPICalled", type="log", args=[{"value": "fine"}])
        self.tell("Runtime.consoleAPICalled", type="error",
                  args=[{"value": "no"}, {"description": "Error: sound\n  at f"}])
        self.assertEqual(self.news.cause(), "says: no Error: sound")

    def test_what_is_being_loaded(self) -> None:
        self.tell("Network.requestWillBeSent", requestId="1", type="Script",
                  request={"url": "http://127.0.0.1:1/slow.js"})
        self.tell("Network.requestWillBeSent", requestId="2", type="WebSocket",
                  request={"url": "ws://127.0.0.1:1/"})
        self.assertEqual(self.news.loading(), ["/slow.js"])
        self.tell("Network.loadingFinished", requestId="1")
        self.assertEqual(self.news.loading(), [])

    def test_a_load_that_failed_twice_is_told_once(self) -> None:
        self.load("http://127.0.0.1:1/x.js", "Script", 404)
        self.tell("Network.loadingFailed", requestId="http://127.0.0.1:1/x.js", type="Script",
                  errorText="net::ERR_ABORTED")
        self.assertEqual(len(self.news.lines()), 1)


class Coverage(unittest.TestCase):
    """Every kind of loss has a page, and a line in the document."""

    def kinds(self) -> set[str]:
        text = (RECORDER / "losses.js").read_text(encoding="utf-8")
        return set(re.findall(r"'([a-z-]+)':\s+(?:\{|')", text))

    def test_every_kind_has_a_page(self) -> None:
        shown = {kind for page in PAGES for kind in page.kinds}
        self.assertEqual(self.kinds() - shown, {"recorder-fault"})
        self.assertEqual(shown - self.kinds(), set())

    def test_every_kind_is_told(self) -> None:
        text = (TOP / "docs" / "RECORDING.md").read_text(encoding="utf-8")
        self.assertEqual(self.kinds() - set(re.findall(r"`([a-z-]+)`", text)), set())


if __name__ == "__main__":
    unittest.main()
