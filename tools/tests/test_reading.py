"""Tests of how scripts, transcripts and WAV files are read, and of the rules in words."""

import json
import os
import random
import re
import unittest

import fixtures
from waplay_tools.expecting import reading, sessions
from waplay_tools.expecting.numbers import QUANTA
from waplay_tools.expecting.writing import script_text
from waplay_tools.random_scripts.answers import REFUSALS
from waplay_tools.random_scripts.maker import Maker
from waplay_tools.reporting import entries, rules, script_reading, transcript_reading, wav_samples
from waplay_tools.reporting.following import Session
from waplay_tools.reporting.text import BadInput, quoted, visible
from waplay_tools.cases.__main__ import CASES, files_in
from waplay_tools.cases.case import read_case


def fault_of(data):
    """The fault of a script as the second calculation tells it."""
    try:
        reading.script_of(data)
    except reading.Fault as fault:
        return str(fault)
    return None


def random_script(number, spoiled=False, most=60):
    """A random script of at most so many calls, with its assets' paths leading nowhere. Half of
    them have suspensions."""
    read = [op for op in reading.OPERATIONS if op != "suspend" or number % 2 == 0]
    maker = Maker(random.Random("tools %d" % number), read)
    maker.draw_quantum(random.Random("quantum %d" % number), None)
    script = maker.script()
    script["calls"] = (
        script["calls"][:most] if isinstance(script.get("calls"), list) else script.get("calls")
    )
    if spoiled and isinstance(script.get("context"), dict):
        maker.spoil(script)
    return script


class Reading(unittest.TestCase):
    def test_the_table_of_operations_is_that_of_the_second_calculation(self):
        for op, fields in reading.OPERATIONS.items():
            own = [
                (name, "name" if kind == "param" else kind, *default)
                for name, kind, *default in entries.fields_of(op)
            ]
            self.assertEqual(own, [tuple(field) for field in fields], op)
        self.assertEqual(entries.LEFT_OUT, reading.LEFT_OUT)

    def test_faults_are_those_of_the_second_calculation(self):
        faulty = 0
        for number in range(1500):
            data = json.dumps(random_script(number, number % 3 > 0)).encode()
            wanted, found = fault_of(data), script_reading.script_of(data).fault
            if wanted and wanted.endswith("UnknownOp") and found != wanted:
                op = script_reading.script_of(data).by_ordinal[int(wanted.split()[0])].op
                self.assertIn(op, entries.OPERATIONS)  # one that is not built
                continue
            self.assertEqual(found, wanted, data[:300])
            faulty += wanted is not None
        self.assertGreater(faulty, 300)

    def test_texts_that_are_no_json(self):
        deep = b"[" * 127 + b"]" * 127
        texts = [
            b"",
            b"\xff",
            b"\xef\xbb\xbf{}",
            b"{",
            b"{}{}",
            b'"\\ud800"',
            b"[1e400]",
            b"NaN",
            b"[" + deep + b"]",
            b"[" * 100000,
            b'{"a":"\\ud800","a":1}',
            deep,
            b"[-0]",
            b'{"\\ud800":1}',
            b"9" * 5000,
            b"01",
            b"'a'",
            b"[1,]",
        ]
        for data in texts:
            self.assertEqual(script_reading.script_of(data).fault, fault_of(data), data[:40])

    def test_numbers_that_are_not_whole(self):
        form = (
            '{"version":1,"context":{"channels":1,"length":1,"rate":8000},'
            '"calls":[{"op":"stop","node":"c","when":%s}]}'
        )
        for number, wanted in [
            ("-0", "WrongKind"),
            ("0.0", "WrongKind"),
            ("1e2", "WrongKind"),
            ("18446744073709551616", "WrongKind"),
            ("18446744073709551615", "OutOfRange"),
            ("-9223372036854775808", "OutOfRange"),
            ("-9223372036854775809", "WrongKind"),
            ("1099511627776", None),
            ("1099511627777", "OutOfRange"),
        ]:
            data = (form % number).encode()
            self.assertEqual(script_reading.script_of(data).fault, wanted and "1 when " + wanted)
            self.assertEqual(script_reading.script_of(data).fault, fault_of(data))

    def test_times_are_frames_in_either_version(self):
        times = 0
        for name in fixtures.SESSIONS:
            data = fixtures.script_of_case(name)
            _, _, session = sessions.replayed(data, fixtures.EXAMPLES, is_checked=True)
            if session is None:
                continue
            one = script_reading.script_of(data)
            two = script_reading.script_of(script_text(session.script))
            self.assertEqual((one.version(), two.version(), two.fault), (1, 2, None), name)
            for old, new in zip(one.calls, two.calls, strict=True):
                fields = [field for field, kind, *_ in entries.fields_of(old.op) if kind != "calls"]
                times += sum(kind == "time" for _, kind, *_ in entries.fields_of(old.op))
                self.assertEqual(
                    [old.field(it) for it in fields], [new.field(it) for it in fields], name
                )
        self.assertGreater(times, 20)

    def test_seconds_that_have_a_fault_stay_as_they_are(self):
        calls = [{"op": "stop", "node": "c", "when": it} for it in ("0.5", "1.", "9999999999", 1)]
        for faulty in calls[1:]:
            script = script_reading.script_of(fixtures.script([calls[0], faulty], version=2))
            self.assertEqual([it.members["when"] for it in script.calls], [24000, faulty["when"]])

    def test_no_line_of_another_form_is_read(self):
        for text in (
            "",
            "\n",
            "1 ok",
            "1 ok\n",
            "01 ok\nend idle\n",
            "1  ok\nend idle\n",
            "1 ok \nend idle\n",
            "end idle\nend idle\n",
            "1 throw Error\nend idle\n",
            "1 throw TypeError profile:detune\nend idle\n",
            "ended 1 a b\nend idle\n",
            "end idle\r\n",
            "script: 1 a b\n",
            "script: BadJson\nend idle\n",
            "1 value -\nend idle\n",
            "1 time -1\nend idle\n",
            "1 ok\nend idle\n\n",
            "end stalled\n",
            "\u00e9\nend idle\n",
            "\0\nend idle\n",
            "2 value -0x1\nend idle\n",
        ):
            with self.assertRaises(BadInput, msg=repr(text)):
                transcript_reading.lines_of(text.encode(), "t")

    def test_visible_text_has_nothing_unseen(self):
        self.assertEqual(
            visible("a\u0000\u202e\u00a0\u2028\ud800\U000e0001"),
            "a\\u0000\\u202e\\u00a0\\u2028\\ud800\\udb40\\udc01",
        )
        self.assertEqual(visible("\u00e9 \u4e2d \U0001f3b9"), "\u00e9 \u4e2d \U0001f3b9")
        self.assertEqual(quoted('"\n'), '"\\"\\n"')


class Rules(unittest.TestCase):
    def test_every_refusal_has_its_rule(self):
        built = {
            op: [it.rsplit("profile:", 1)[-1] for it in refusals]
            for op, refusals in REFUSALS.items()
        }
        for op, refusals in built.items():
            for refusal in refusals:
                is_feature = refusal not in transcript_reading.EXCEPTIONS
                told = rules.rule(
                    op,
                    "NotSupportedError" if is_feature else refusal,
                    refusal if is_feature else None,
                )
                self.assertTrue(told.endswith("."), (op, refusal))
                self.assertNotIn(told, rules._OF_EXCEPTION.values(), (op, refusal))
                self.assertNotEqual(told, "The profile leaves this out.", (op, refusal))

    def test_every_operation_that_may_be_refused_is_looked_at(self):
        self.assertEqual(set(entries.OPERATIONS) - {*REFUSALS}, {"readState", "readTime"})


class Samples(unittest.TestCase):
    def test_numbers_of_every_width(self):
        rng = random.Random("widths")
        for bits in (8, 16, 24, 32):
            low = -(2 ** (bits - 1))
            channels = [
                [rng.choice([low, -low - 1, 0, rng.randint(low, -low - 1)]) for _ in range(40)]
                for _ in range(3)
            ]
            sound = wav_samples.sound_of(fixtures.wav(channels, bits=bits), "it")
            self.assertEqual([list(channel) for channel in sound.channels], channels)
            for channel in sound.channels:
                greatest, value, frame = wav_samples.peak(channel)
                self.assertEqual(greatest, max(map(abs, channel)))
                self.assertEqual(
                    (channel[frame], frame), (value, [abs(it) for it in channel].index(greatest))
                )

    def test_spans_hold_every_sample(self):
        samples = list(range(1000, 0, -1))
        for columns in (1, 7, 999, 1000, 2000):
            spans = wav_samples.spans(samples, columns)
            self.assertEqual(len(spans), min(columns, 1000))
            self.assertEqual(
                (min(low for low, _ in spans), max(high for _, high in spans)), (1, 1000)
            )

    def test_differences_are_those_of_a_plain_search(self):
        rng = random.Random("differences")
        for _ in range(40):
            frames, count = rng.randint(1, 60), rng.randint(1, 3)
            one = [[rng.randint(-5, 5) for _ in range(frames)] for _ in range(count)]
            two = [
                [it if rng.random() < 0.9 else rng.randint(-5, 5) for it in channel]
                for channel in one
            ]
            found = wav_samples.Differences(
                *(wav_samples.sound_of(fixtures.wav(it), "it") for it in (one, two)), tolerance=0
            )
            plain = [
                (frame, channel, a, b, (b - a) / 2**23)
                for frame in range(frames)
                for channel in range(count)
                for a, b in [(one[channel][frame], two[channel][frame])]
                if a != b
            ]
            self.assertEqual(found.count, len(plain))
            self.assertEqual(found.first, min(plain, default=None))
            most = max((abs(it[4]) for it in plain), default=0)
            self.assertEqual(
                found.greatest, min((it for it in plain if abs(it[4]) == most), default=None)
            )

    def test_files_of_other_shapes(self):
        files = fixtures.wav([[256, 512, 0]]), fixtures.wav([[1, 2], [3, 4]], 8000, 16)
        one, two = (wav_samples.sound_of(data, "it") for data in files)
        found = wav_samples.Differences(one, two)
        self.assertEqual(found.count, 0)
        self.assertEqual(
            [it[0] for it in found.shapes],
            ["channels", "frames", "frames a second", "bits a sample"],
        )


class Following(unittest.TestCase):
    def test_random_sessions_belong_to_their_scripts_and_sources_end_where_they_end(self):
        exact = between = 0
        for number in range(400):
            data = json.dumps(random_script(number)).encode()
            nowhere = os.path.join(fixtures.TOP, "nowhere")
            status, text, session = sessions.replayed(data, nowhere, is_checked=True)
            if status not in (0, 3):
                continue
            lines = transcript_reading.lines_of(text.encode(), "t")
            found = Session(script_reading.script_of(data), lines, ("s", "t"))
            ends = {
                line.number: mark
                for mark in found.marks
                for line in [mark.told]
                if mark.kind == "ended"
            }
            for node, mark in ends.items():
                end = session.nodes[node].end()
                self.assertLessEqual(mark.low, end)
                self.assertGreaterEqual(mark.high, end)
                exact += mark.low == mark.high
                between += mark.low != mark.high
        self.assertGreater(exact, 50)
        self.assertEqual(between, 0)  # no asset is there

    def test_a_source_may_take_the_name_of_its_buffer(self):
        data = fixtures.script(
            [
                {"op": "createBuffer", "as": "b", "channels": 1, "length": 20, "rate": 48000},
                {"op": "createBufferSource", "as": "b", "buffer": "b"},
                {"op": "start", "node": "b", "when": 5},
                {"op": "startRendering"},
            ]
        )
        _, text, _ = sessions.replayed(data)
        found = Session(
            script_reading.script_of(data),
            transcript_reading.lines_of(text.encode(), "t"),
            ("s", "t"),
        )
        self.assertEqual([(it.kind, it.low, it.high) for it in found.marks], [("ended", 25, 25)])

    def test_ends_of_decoded_files_lie_between_their_frames(self):
        for name in (
            "drum_loop",
            "mono_and_stereo_files",
            "one_shot_cut_by_stop",
            "sustained_note",
        ):
            data, text, _ = fixtures.session_of_case(name)
            _, _, session = sessions.replayed(data, fixtures.EXAMPLES)
            found = Session(
                script_reading.script_of(data),
                transcript_reading.lines_of(text.encode(), "t"),
                ("s", "t"),
            )
            for mark in found.marks:
                self.assertTrue(
                    mark.low <= session.nodes[mark.told.number].end() <= mark.high,
                    (name, mark.text),
                )

    def test_suspensions_are_marks_and_begin_parts(self):
        data, text = fixtures.suspended()
        found = Session(
            script_reading.script_of(data),
            transcript_reading.lines_of(text.encode(), "t"),
            ("s", "t"),
        )
        self.assertEqual(
            [(it.kind, it.low) for it in found.marks],
            [("suspended", 512), ("ended", 1000), ("stalled", 1536)],
        )
        self.assertEqual(
            [part.title for part in found.parts],
            [
                "The main list, at frame 0",
                "Suspended at frame 512: the list of call 14",
                "Rendering, from frame 512 on",
                "Suspended at frame 1,536: the list of call 20",
                "The end",
            ],
        )
        self.assertEqual([call.ordinal for call in found.not_run], [23])

    def test_transcripts_of_cases_belong_to_their_scripts(self):
        for path in files_in([CASES]):
            case = read_case(path)
            has_transcript = case.program == "waplay" and case.status in (0, 3, 9)
            if case.script is not None and has_transcript:
                self.belongs_to_its_script(path.stem, case.input_bytes(), case.text())

    def belongs_to_its_script(self, name, data, text):
        """Whether what a transcript tells is put where it belongs in its script."""
        script = script_reading.script_of(data)
        found = Session(script, transcript_reading.lines_of(text.encode(), "t"), ("s", "t"))
        marks = [mark for mark in found.marks if mark.kind != "ended"]
        resolved = [int(it) for it in re.findall(r"^(\d+) resolved$", text, re.M)]
        self.assertEqual(
            [mark.told.ordinal for mark in marks],
            [it for it in resolved if script.by_ordinal[it].op == "suspend"],
            name,
        )
        self.assertEqual(
            [mark.low for mark in marks if mark.kind == "stalled"],
            [int(it) for it in re.findall(r"^end stalled (\d+)$", text, re.M)],
            name,
        )
        answered = {int(it) for it in re.findall(r"^(\d+) ", text, re.M)}
        self.assertEqual(
            [call.ordinal for call in found.not_run],
            [call.ordinal for call in script.calls if call.ordinal not in answered],
            name,
        )

    def test_suspensions_come_at_ends_of_quanta_of_any_size(self):
        for quantum in QUANTA:
            calls = [
                {"op": "suspend", "time": 1, "then": [{"op": "resume"}]},
                {"op": "suspend", "time": quantum + 1},
                {"op": "startRendering"},
            ]
            data = fixtures.script(calls, length=2 * quantum + 1, renderQuantum=quantum)
            script = script_reading.script_of(data)
            lines = transcript_reading.lines_of(sessions.replayed(data)[1].encode(), "t")
            found = Session(script, lines, ("s", "t"))
            self.assertEqual(
                [(mark.kind, mark.low) for mark in found.marks],
                [("suspended", quantum), ("stalled", 2 * quantum)],
            )

    def test_the_quantum_of_a_script_is_one_that_there_is(self):
        for told, wanted in [(32, 32), (1024, 1024), (100, 128), (0, 128), ("x", 128), (None, 128)]:
            script = script_reading.script_of(fixtures.script([], renderQuantum=told))
            self.assertEqual(script.quantum(), wanted)
        self.assertEqual(script_reading.script_of(fixtures.script([])).quantum(), 128)
        self.assertEqual(script_reading.script_of(b"[]").quantum(), 128)

    def test_transcripts_that_do_not_belong_to_their_script(self):
        data, text = fixtures.suspended()
        rendered, whole, _ = fixtures.resumed()
        for script, good, old, new in [
            (data, text, "\n1 ok\n2 ok\n", "\n2 ok\n1 ok\n"),
            (data, text, "\n2 ok\n", "\n"),
            (data, text, "\n2 ok\n", "\n2 ok\n2 ok\n"),
            (data, text, "\n4 ok\n5 ok\n", "\n5 ok\n4 ok\n"),
            (data, text, "\n2 ok\n", "\n2 pending\n"),
            (data, text, "\n12 value -16777216\n", "\n12 ok\n"),
            (data, text, "\n14 pending\n", "\n14 ok\n"),
            (data, text, "\n20 pending\n", "\n20 resolved\n"),
            (data, text, "ended 1 c", "ended 2 c"),
            (data, text, "ended 1 c", "ended 1 d"),
            (data, text, "ended 1 c\n", "ended 1 c\n" * 2),
            (data, text, "ended 1 c", "ended 9 c"),
            (data, text, "end stalled 1536", "end stalled 1500"),
            (data, text, "end stalled 1536", "end idle"),
            (data, text, "\n22 pending\n", "\n22 rejected InvalidStateError\n"),
            (data, text, "\n18 resolved\n", "\n"),
            (
                data,
                text,
                "\n14 resolved\n15 ok\n16 time 512\n17 throw TypeError\n18 resolved\n",
                "\n",
            ),
            (rendered, whole, "complete 2048", "complete 2047"),
            (rendered, whole, "complete 2048\n", ""),
            (rendered, whole, "24 state closed", "24 throw TypeError"),
            (rendered, whole, "end completed", "end idle"),
        ]:
            changed = ("\n" + good).replace(old, new)[1:]
            self.assertNotEqual(changed, good, old)
            with self.assertRaisesRegex(BadInput, "^t does not belong to s: ", msg=(old, new)):
                Session(
                    script_reading.script_of(script),
                    transcript_reading.lines_of(changed.encode(), "t"),
                    ("s", "t"),
                )

    def test_changed_transcripts_are_refused_or_followed_without_another_error(self):
        rng, refused = random.Random("changed"), 0
        texts = [
            fixtures.suspended(),
            fixtures.resumed()[:2],
            fixtures.session_of_case("refused_calls")[:2],
            fixtures.session_of_case("hi_hat_choked")[:2],
        ]
        words = [
            ("ok", "throw TypeError"),
            ("ended 1", "ended 9"),
            ("1", "2"),
            ("pending", "ok"),
            ("resolved", "rejected TypeError"),
            ("completed", "idle"),
        ]
        for _ in range(1500):
            data, text = rng.choice(texts)
            lines = text.splitlines()
            for _ in range(rng.randint(1, 2)):
                at = rng.randrange(len(lines))
                change = rng.choice(["drop", "double", "swap", "word", "cut"])
                if change == "drop" and len(lines) > 1:
                    lines.pop(at)
                elif change == "double":
                    lines.insert(at, lines[at])
                elif change == "swap":
                    lines[at], lines[-1 - at] = lines[-1 - at], lines[at]
                elif change == "cut":
                    lines = lines[:at] + lines[-1:]
                else:
                    lines[at] = lines[at].replace(*rng.choice(words), 1)
            changed = "\n".join(lines) + "\n"
            try:
                Session(
                    script_reading.script_of(data),
                    transcript_reading.lines_of(changed.encode(), "t"),
                    ("s", "t"),
                )
            except BadInput as bad:
                refused += 1
                self.assertNotIn("\n", str(bad))
        self.assertGreater(refused, 1000)


if __name__ == "__main__":
    unittest.main()
