"""Tests of the second reading of command lines, of the random lines, and of how a program is
compared."""

import collections
import itertools
import os
import random
import tempfile
import unittest
from pathlib import Path

import fixtures
from waplay_tools import command_lines
from waplay_tools.expecting import sessions
from waplay_tools.command_lines import (
    BAD_OUT,
    BAD_TEXT,
    NO_OUT,
    NOT_TEXT,
    REPEATED,
    SEVERAL,
    UNKNOWN,
    WITHOUT_TEXT,
    NoReading,
)
from waplay_tools.cases.case import read_case
from waplay_tools.cases.words import words_of

LINES = 30000  # how many random ones

PLAIN = command_lines.Reading("o", 24, "up", "render", None)

# Lines with a reading, and how it differs from that of the path `o` alone. Blanks part the words.
READ = {
    "o": {},
    "out.wav": {"out": "out.wav"},
    "help": {"out": "help"},
    "--bits 16 o": {"bits": 16},
    "--bits=16 -- out.wav": {"bits": 16, "out": "out.wav"},
    "--bits=24 --order=up --mode=render o": {},
    "o --order down": {"order": "down"},
    "--mode check o": {"mode": "check"},
    "--mode migrate o": {"mode": "migrate"},
    "--mode=migrate --bits=16 o": {"mode": "migrate", "bits": 16},
    "--gen 0 --mode migrate o": {"generated": 0, "mode": "migrate"},
    "--gen 0 --mode check o": {"generated": 0, "mode": "check"},
    "--gen 0012 o": {"generated": 12},
    "--gen=9999 o": {"generated": 9999},
    "--gen=7 o --mode=check --bits 16 --order=down": {
        "bits": 16,
        "order": "down",
        "mode": "check",
        "generated": 7,
    },
    "o --": {},
    "-- o": {},
    "-- --": {"out": "--"},
    "-- --bits=16": {"out": "--bits=16"},
    "--bits 16 -- -x": {"bits": 16, "out": "-x"},
}

# Lines without one, and why.
UNREAD = {
    "": NO_OUT,
    "--": NO_OUT,
    "--bits 16": NO_OUT,
    "--gen 12": NO_OUT,
    "-": BAD_OUT,
    "-- -": BAD_OUT,
    "a b": SEVERAL,
    "-- a b": SEVERAL,
    "o -- --bits=16": SEVERAL,
    "-- --bits 16": SEVERAL,
    "--bits 8 out.wav": BAD_TEXT["bits"],
    "--bits= o": BAD_TEXT["bits"],
    "--bits -- o": BAD_TEXT["bits"],
    "--bits --order o": BAD_TEXT["bits"],
    "--bits==16 o": BAD_TEXT["bits"],
    "--order sideways o": BAD_TEXT["order"],
    "--order UP o": BAD_TEXT["order"],
    "--mode migration o": BAD_TEXT["mode"],
    "--mode MIGRATE o": BAD_TEXT["mode"],
    "--gen 12345 o": BAD_TEXT["gen"],
    "--gen 00000 o": BAD_TEXT["gen"],
    "--gen= o": BAD_TEXT["gen"],
    "--gen +1 o": BAD_TEXT["gen"],
    "--gen -1 o": BAD_TEXT["gen"],
    "--gen \u0663 o": BAD_TEXT["gen"],
    "o --bits": WITHOUT_TEXT,
    "--bits 16 --bits 16 o": REPEATED,
    "--bits=16 --bits 24 o": REPEATED,
    "--bit 16 o": UNKNOWN,
    "--bit=16 o": UNKNOWN,
    "-b 16 o": UNKNOWN,
    "-bits 16 o": UNKNOWN,
    "---bits 16 o": UNKNOWN,
    "--BITS 16 o": UNKNOWN,
    "--=16 o": UNKNOWN,
    "--help o": UNKNOWN,
    "-h": UNKNOWN,
    "--version": UNKNOWN,
    "-V o": UNKNOWN,
    "-5": UNKNOWN,
    "-\u00e9 o": UNKNOWN,
}

# A program that does as the second reading wants, but for what the test has it do otherwise. It
# renders no loads, but writes a text that hangs on the load and the bits.
PROGRAM = """
import hashlib, json, os, sys
from waplay_tools.command_lines import *
asked, reason = None, None
try:
    asked = reading([os.fsencode(word) for word in sys.argv[1:]])
except NoReading as it:
    reason = str(it)
if asked is None:
    given = Input(b"", 2, USAGE, False)
elif asked.generated is None:
    data = sys.stdin.buffer.read()
    given = next((it for it in INPUTS if it.data == data), Input(data, 0, b"", True))
else:
    text = SUMMARY + (b" peak 12 sum -34" if asked.mode == "render" else b"") + LAST
    load = load_script.script(asked.generated)
    given = Input(json.dumps(load).encode(), 0, text, True, script_text(load))
%s
sys.stdout.buffer.write(given.text)
if asked and asked.mode == "migrate" and given.migrated is not None:
    with open(asked.out, "wb") as file:
        file.write(given.migrated)
if given.is_rendered and asked.mode == "render":
    with open(asked.out, "wb") as file:
        is_load = len(given.data) > 1000
        load = hashlib.sha256(given.data + b"%%d" %% asked.bits).digest()
        file.write(load if is_load else ONE_SAMPLE[asked.bits])
sys.exit(given.status)
"""


def bytes_of(line):
    return [word.encode() for word in line.split()]


def spelled(rng, asked):
    """A line that asks for this: each option in any of its forms, or left out where it is the
    default."""
    options = [
        (name, text)
        for name, text, default in [
            ("bits", str(asked.bits), "24"),
            ("order", asked.order, "up"),
            ("mode", asked.mode, "render"),
        ]
        if text != default or rng.random() < 0.5
    ]
    if asked.generated is not None:
        options.append(("gen", str(asked.generated).zfill(rng.randint(1, 4))))
    rng.shuffle(options)
    parts = [
        rng.choice([["--" + name, text], ["--%s=%s" % (name, text)]]) for name, text in options
    ]
    if asked.out.startswith("-") or rng.random() < 0.3:
        parts.append(["--", asked.out])
    else:
        parts.insert(rng.randint(0, len(parts)), [asked.out])
    return parts


def joined(parts):
    return [word.encode() for part in parts for word in part]


class Lines(unittest.TestCase):
    def reason(self, words):
        with self.assertRaises(NoReading, msg=words) as caught:
            command_lines.reading(words)
        return str(caught.exception)

    def test_lines_that_are_read(self):
        for line, changes in READ.items():
            self.assertEqual(command_lines.reading(bytes_of(line)), PLAIN._replace(**changes), line)

    def test_lines_without_a_reading(self):
        for line, why in UNREAD.items():
            self.assertEqual(self.reason(bytes_of(line)), why, line)

    def test_words_that_are_empty_or_have_blanks(self):
        for words, why in [
            ([b""], BAD_OUT),
            ([b"--", b""], BAD_OUT),
            ([b"", b"o"], SEVERAL),
            ([b"--bits", b"", b"o"], BAD_TEXT["bits"]),
            ([b"--gen", b"1 ", b"o"], BAD_TEXT["gen"]),
            ([b"--bits ", b"16", b"o"], UNKNOWN),
            ([b"--gen", b"1\n", b"o"], BAD_TEXT["gen"]),
        ]:
            self.assertEqual(self.reason(words), why, words)
        self.assertEqual(command_lines.reading([b" "]).out, " ")

    def test_words_that_are_not_utf_8(self):
        for spoiled in command_lines.NOT_UTF8:
            for words in [
                [spoiled],
                [b"o", spoiled],
                [b"--", b"a" + spoiled],
                [b"--bits=" + spoiled, b"o"],
            ]:
                self.assertEqual(self.reason(words), NOT_TEXT, words)

    def test_what_is_asked_for_is_read_however_it_is_spelled(self):
        rng = random.Random("spelled lines")
        outs = ["o", "a b", "a=b", "\u00e9", "--", "--bits=16", "-x", "up"]
        for out, bits, order, mode, generated in itertools.product(
            outs, [16, 24], ["up", "down"], ["render", "check", "migrate"], [None, 0, 7, 9999]
        ):
            asked = command_lines.Reading(out, bits, order, mode, generated)
            parts = spelled(rng, asked)
            self.assertEqual(command_lines.reading(joined(parts)), asked, parts)
            options = [place for place, part in enumerate(parts) if part[0] not in ("--", out)]
            if options:
                place = rng.choice(options)
                self.assertEqual(
                    self.reason(joined(parts[:place] + [parts[place]] + parts[place:])),
                    REPEATED,
                    parts,
                )
                short = [parts[place][0].replace("--", "--x", 1), *parts[place][1:]]
                self.assertEqual(
                    self.reason(joined(parts[:place] + [short] + parts[place + 1 :])),
                    UNKNOWN,
                    parts,
                )


class Cases(unittest.TestCase):
    def test_words_are_read_as_the_cases_say(self):
        reasons = set()
        for path in sorted(Path(fixtures.TOP, "tests", "cases").rglob("*.json")):
            case = read_case(path)
            if case.program != "waplay":
                continue
            words = [os.fsencode(word) for word in case.words]
            # Where standard output fails, the status does not tell that there is no reading.
            if case.status == 2 or (case.output is not None and words_of(case.words) is None):
                reasons.add(command_lines.answer(words))
                self.assertRaises(NoReading, command_lines.reading, words)
                continue
            asked, of_runner = command_lines.reading(words), words_of(case.words)
            self.assertEqual(
                (asked.out, asked.bits, asked.mode, asked.generated is not None),
                (of_runner.out, of_runner.bits, of_runner.mode, of_runner.is_generated),
                path,
            )
        self.assertEqual(reasons, set(command_lines.REASONS))


class RandomLines(unittest.TestCase):
    def test_each_answer_comes_up(self):
        times = collections.Counter(
            command_lines.answer(command_lines.line(1, number)) for number in range(1000)
        )
        read = command_lines.READ, *command_lines.BY_MODE.values()
        for name in [*read, *command_lines.REASONS]:
            self.assertGreater(times[name], 0, name)
        self.assertGreater(times[command_lines.READ], 300)
        self.assertGreater(times[command_lines.CHECKED], 100)
        self.assertLess(times[command_lines.RENDERED], 20)  # which take their time
        self.assertGreater(1000 - sum(times[name] for name in read), 300)

    def test_a_number_is_given_in_many_ways(self):
        wanted = {
            "--gen",
            "--ge",
            "--g",
            "-g",
            "-gen",
            "---gen",
            "--GEN",
            "gen",
            "--gen=",
            "--gens",
            "--generate",
        }
        wanted |= {
            "--gen=" + text for text in ["10000", "x", "-0", "+0", "00012", "\u0661\u0662", "0"]
        }
        seen, spoiled, behind, zeros = set(), 0, 0, 0
        for number in range(LINES):
            words = command_lines.line(3, number)
            seen.update(word.decode(errors="replace") for word in words)
            spoiled += any(
                word.startswith(b"--gen=") and "\ufffd" in word.decode(errors="replace")
                for word in words
            )
            behind += b"--" in words and b"--gen=0" in words[words.index(b"--") :]
            zeros += any(
                len(word) == len("--gen=0012") and word.startswith(b"--gen=00") for word in words
            )
        self.assertFalse(wanted - seen)
        self.assertGreater(min(spoiled, behind, zeros), 3)

    def test_a_line_hangs_on_its_seed_and_number(self):
        for number in range(20):
            self.assertEqual(command_lines.line(7, number), command_lines.line(7, number))
        self.assertNotEqual(
            [command_lines.line(7, number) for number in range(20)],
            [command_lines.line(8, number) for number in range(20)],
        )

    def test_a_file_can_be_written_at_each_path(self):
        for number in range(LINES // 10):
            for word in command_lines.line(2, number):
                self.assertTrue(len(word) < 255 and b"/" not in word and b"\0" not in word, word)
                self.assertNotIn(word, [b".", b".."])


class Comparison(unittest.TestCase):
    def compared(self, change, *words, count=40):
        with tempfile.TemporaryDirectory() as work:
            program = fixtures.program(work, PROGRAM % change)
            ran = fixtures.run(
                "command-lines", "--count", str(count), "--seed", "3", "--program", program, *words
            )
        self.assertEqual(ran.stderr, b"")
        return ran.returncode, ran.stdout.decode().splitlines()

    def test_a_program_that_does_so_does_not_differ(self):
        self.assertEqual(self.compared("")[1][-1], "0 of 40 lines differ")

    def test_a_program_that_reads_lines_otherwise_differs(self):
        status, lines = self.compared(
            """
if reason == UNKNOWN:
    given = Input(b"", 3, b"end idle\\n", False)"""
        )
        self.assertEqual(status, 1)
        self.assertIn(": status 3 in place of 2, the text b'end idle\\n': [", lines[0])
        status, lines = self.compared(
            """
if asked and asked.generated is not None:
    given = Input(b"", 2, USAGE, False)"""
        )
        self.assertIn(": status 2 in place of 0, the usage line", lines[0])

    def test_a_program_that_does_otherwise_differs(self):
        is_generated = "\nif asked and asked.generated is not None:\n    "
        for change, told in [
            (is_generated + "sys.stdin.buffer.read()", "bytes read in place of 0: ["),
            (
                is_generated + "given = given._replace(text=given.text.replace(b'1768', b'1767'))",
                ": the text b'summary calls 1767 ",
            ),
            (
                is_generated + "given = given._replace(text=SUMMARY + b' peak 0 sum -0' + LAST)",
                ": the text b'summary calls ",
            ),
            (is_generated + "asked = asked._replace(mode='render')", ": another file b'"),
            (is_generated + "sys.stderr.write('load')", ": b'load' on standard error: ["),
            ("open('other.wav', 'w').close()", ": another file b'other.wav': ["),
            ("given = given._replace(is_rendered=False)", ": another file b'"),
            ("given = given._replace(migrated=None)", ": another file b'"),
            ("given = given._replace(migrated=b'{}')", ": another file b'"),
        ]:
            status, lines = self.compared(change, count=20)
            self.assertEqual(status, 1)
            self.assertIn(told, "\n".join(lines[:-1]), change)

    def test_the_file_of_one_sample_is_that_of_the_second_calculation(self):
        for it in command_lines.INPUTS:
            status, text, session = sessions.replayed(it.data)
            self.assertEqual(
                (it.status, it.text, it.is_rendered), (status, text.encode(), status == 0)
            )
            migrated = sessions.file_of(session, "migrate") if session else None
            self.assertEqual(it.migrated, migrated)
            for bits, file in command_lines.ONE_SAMPLE.items():
                self.assertEqual(sessions.wav_bytes(session, bits) if status == 0 else file, file)
