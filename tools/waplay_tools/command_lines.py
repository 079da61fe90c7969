"""A second reading of the program's command lines, and random lines to compare it with the program.

A line has a reading where it is UTF-8, gives each option at most once and with a good text, and has
one word more, OUT. The options are --bits 16|24, --order up|down, --mode render|check|migrate and
--gen N, where N is 1 to 4 decimal digits. The text of an option is the rest of its word after a
`=`, or else the next word, whatever it is. The word `--` ends the options. OUT is not empty and not
`-`.

The program is run in a folder of its own, in which a file out.wav stands, over an input that is no
script, or one that starts no rendering, or one of one frame. Compared are the status, the text, the
folder's files to the byte, that nothing is printed on standard error, and how much was read of
standard input: all of it where the line has a reading without a number, and else nothing. With a
number the text is the summary of a load (tools/load-script), and the file is the one that the
program writes for that load's script, or in mode migrate that script in version 2. What the
greatest value and the sum are is looked at by tools/generated, and not here.

It prints a line for each difference, then how often each answer came up, and last how many lines
differ. The status is 0 where none does and each answer came up.
"""

import argparse
import collections
import json
import os
import random
import re
import subprocess
import sys
import tempfile
from collections.abc import Mapping
from typing import Any, NamedTuple

from waplay_tools import load_script
from waplay_tools.expecting.writing import script_text

USAGE = (
    b"words: waplay [--bits 16|24] [--order up|down] [--mode render|check|migrate] [--gen N] OUT\n"
)
READ = "reading"
CHECKED = "reading with a number, in mode check"
RENDERED = "reading with a number, in mode render"
MIGRATED = "reading with a number, in mode migrate"
BY_MODE = {"render": RENDERED, "check": CHECKED, "migrate": MIGRATED}


# The reading.


class Reading(NamedTuple):
    """What a line asks for, with the number of `--gen` where it stands."""

    out: str
    bits: int
    order: str
    mode: str
    generated: int | None


# Of each option the texts that stand for something, and what they stand for. A number is read
# apart.
TEXTS: dict[str, dict[str, int | str]] = {
    "bits": {"16": 16, "24": 24},
    "order": {"up": "up", "down": "down"},
    "mode": {"render": "render", "check": "check", "migrate": "migrate"},
}
OPTIONS = [*TEXTS, "gen"]


class NoReading(Exception):
    """Why a line has no reading."""


NOT_TEXT = "not UTF-8"
UNKNOWN = "unknown option"
REPEATED = "option repeated"
WITHOUT_TEXT = "option without a text"
NO_OUT = "no OUT"
SEVERAL = "several words"
BAD_OUT = "bad OUT"
BAD_TEXT = {name: "bad text of --" + name for name in OPTIONS}
REASONS = [NOT_TEXT, UNKNOWN, REPEATED, WITHOUT_TEXT, NO_OUT, SEVERAL, BAD_OUT, *BAD_TEXT.values()]


def decoded(words: list[bytes]) -> list[str]:
    """The words as text; there is no reading where one is not UTF-8."""
    try:
        return [word.decode("utf-8") for word in words]
    except UnicodeDecodeError:
        raise NoReading(NOT_TEXT)


def parted(words: list[str]) -> tuple[dict[str, str], list[str]]:
    """The text of each option that is given, and the other words."""
    texts: dict[str, str] = {}
    others: list[str] = []
    left = list(words)
    while left:
        word = left.pop(0)
        if word == "--":
            return texts, others + left
        if word == "-" or not word.startswith("-"):
            others.append(word)
            continue
        option, is_attached, text = word.partition("=")
        name = option[2:]
        if not option.startswith("--") or name not in OPTIONS:
            raise NoReading(UNKNOWN)
        if name in texts:
            raise NoReading(REPEATED)
        if not is_attached and not left:
            raise NoReading(WITHOUT_TEXT)
        texts[name] = text if is_attached else left.pop(0)
    return texts, others


def value(name: str, text: str) -> Any:
    """What the text of an option stands for."""
    if name == "gen" and re.fullmatch("[0-9]{1,4}", text):
        return int(text)
    if name == "gen" or text not in TEXTS[name]:
        raise NoReading(BAD_TEXT[name])
    return TEXTS[name][text]


def reading(words: list[bytes]) -> Reading:
    """What the words after the program's name ask for. Each word is its bytes."""
    texts, others = parted(decoded(words))
    values = {name: value(name, text) for name, text in texts.items()}
    if len(others) != 1:
        raise NoReading(SEVERAL if others else NO_OUT)
    if others[0] in ("", "-"):
        raise NoReading(BAD_OUT)
    return Reading(
        others[0],
        values.get("bits", 24),
        values.get("order", "up"),
        values.get("mode", "render"),
        values.get("gen"),
    )


def answer(words: list[bytes]) -> str:
    """The name of the answer to a line: that it has a reading, or why not."""
    try:
        asked = reading(words)
    except NoReading as reason:
        return str(reason)
    return READ if asked.generated is None else BY_MODE[asked.mode]


# The lines. No word has a slash, a full stop in front, or more bytes than a file's name may have:
# OUT may be written.


GOOD = {"bits": ["16", "24"], "order": ["up", "down"], "mode": ["render", "check", "migrate"]}
OUTS = [
    "out.wav",
    "out.wav",
    "o",
    "0012",
    "a b",
    "a=b",
    "a-",
    "help",
    "16",
    "up",
    "\u00e9.wav",
    "\U0001f3b9",
    "x" * 200,
]
DASHED_OUTS = [
    "--",
    "--bits=16",
    "--gen",
    "--gen=0",
    "--mode=check",
    "--help",
    "-x",
    "---",
    "-5",
    *OUTS,
]
TEXTS_NEARBY = [
    "",
    "-",
    "--",
    "-1",
    "+1",
    "016",
    "8",
    " 16",
    "16 ",
    "1e1",
    "1.0",
    "0x10",
    "Up",
    "UP",
    "sideways",
    "migration",
    "check ",
    "=16",
    "=",
    "12345",
    "00000",
    "\u0663",
    "\uff11\uff16",
    "--order",
    "--bits=16",
    "-b",
]
NUMBERS_NEARBY = [
    "10000",
    "010000",
    "99999",
    "00012",
    "65536",
    "4294967296",
    "18446744073709551616",
    "9" * 40,
    "-0",
    "+0",
    "-12",
    "+9999",
    "x",
    "0x1",
    "12x",
    "x12",
    "1e3",
    "1.0",
    "1,0",
    "1_0",
    "1 2",
    " 12",
    "12 ",
    "\t12",
    "12\n",
    "\u0661\u0662",
    "\uff11",
    "\u00b2",
    "N",
    "--mode",
    "--gen",
]
UNKNOWNS = [
    "--help",
    "--version",
    "-h",
    "-V",
    "--quiet",
    "--bits16",
    "---",
    "--=16",
    "-",
    "-\u00e9",
    "--\u00e9=1",
    "-=",
    "--gen-",
    "--generate",
    "--no-bits",
    "-o",
]
NOT_UTF8 = [b"\xff", b"\xc3", b"\xc0\xaf", b"\xed\xa0\x80", b"\xf4\x90\x80\x80", b"\x80"]


def good_text(rng: random.Random, name: str) -> str:
    """A text that the option takes."""
    if name != "gen":
        return rng.choice(GOOD[name])
    return str(rng.randint(0, 9999)).zfill(rng.randint(1, 4))


def text_for(rng: random.Random, name: str) -> str:
    """The text of an option: mostly a good one, else one nearby or that of another option."""
    some = rng.random()
    if some < 0.85:
        return good_text(rng, name)
    if some < 0.9:
        return good_text(rng, rng.choice(OPTIONS))
    return rng.choice(TEXTS_NEARBY + NUMBERS_NEARBY if name == "gen" else TEXTS_NEARBY)


def misspelled(rng: random.Random, name: str) -> str:
    """An option that is not spelled in full."""
    return rng.choice(
        [
            "--" + name[:-1],
            "--" + name[:1],
            "-" + name[:1],
            "-" + name,
            "---" + name,
            "--" + name.upper(),
            "--" + name + " ",
            "--" + name + "s",
            name,
        ]
    )


def option_words(rng: random.Random, name: str, text: str) -> list[str]:
    """One use of an option: in one word, in two, or, now and then, misspelled or without its
    text."""
    option = "--" + name if rng.random() < 0.95 else misspelled(rng, name)
    if rng.random() < 0.02:
        return [option]
    return [option + "=" + text] if rng.random() < 0.5 else [option, text]


def uses(rng: random.Random) -> list[list[str]]:
    """Uses of options. With a number the mode is mostly not render, since rendering a load takes
    its time."""
    names = [name for name in OPTIONS if rng.random() < 0.35]
    if rng.random() < 0.08:
        names.append(rng.choice(names or OPTIONS))
    is_checked = "gen" in names and rng.random() < 0.98
    if is_checked and "mode" not in names:
        names.append("mode")
    rng.shuffle(names)
    return [
        option_words(
            rng,
            name,
            (
                rng.choice(["check", "check", "migrate"])
                if is_checked and name == "mode" and rng.random() < 0.9
                else text_for(rng, name)
            ),
        )
        for name in names
    ]


def others(rng: random.Random, names: list[str]) -> list[str]:
    """The words that are no options: mostly one."""
    some = rng.random()
    if some < 0.06:
        return rng.choice([[], ["", ""], [rng.choice(names), rng.choice(names)]])
    return [rng.choice(["", "-"]) if some < 0.1 else rng.choice(names)]


def spoiled(rng: random.Random, words: list[bytes]) -> list[bytes]:
    """The words with one of them changed, left out or put in."""
    words, place = list(words), rng.randint(0, len(words))
    some = rng.randint(0, 5)
    if some == 0:
        return words[:place] + [rng.choice([b"--", *map(str.encode, UNKNOWNS)])] + words[place:]
    if some == 1 or place == len(words):
        return words[:place] + words[place + 1 :]
    if some == 2:
        return words[:place] + words[place : place + 1] * 2 + words[place + 1 :]
    if some == 3:
        rng.shuffle(words)
        return words
    word, at = words[place], rng.randint(0, len(words[place]))
    words[place] = (
        word[:at]
        + (rng.choice(NOT_UTF8) if some == 4 else rng.choice([b"-", b"=", b" ", b"1"]))
        + word[at:]
    )
    return words


def line(seed: int, number: int) -> list[bytes]:
    """The line of a seed with this number: its words as bytes. Each line is run over one of the
    inputs."""
    rng = random.Random(f"command line {seed} {number}")
    parts = uses(rng)
    if rng.random() < 0.3:
        parts += [["--"], others(rng, DASHED_OUTS)]
    else:
        for word in others(rng, OUTS):
            parts.insert(rng.randint(0, len(parts)), [word])
    words = [word.encode() for part in parts for word in part]
    return spoiled(rng, words) if rng.random() < 0.25 else words


# The comparison.


def input_of(calls: list[dict[str, Any]]) -> bytes:
    """A script of one frame with these calls."""
    return json.dumps(
        {"version": 1, "context": {"channels": 1, "length": 1, "rate": 48000}, "calls": calls}
    ).encode()


class Input(NamedTuple):
    """An input, and where a line reads it, the status, the text, and whether a file is written: one
    sample, 1.0. In mode migrate the file is the script in version 2, where it has no fault."""

    data: bytes
    status: int
    text: bytes
    is_rendered: bool
    migrated: bytes | None = None


INPUTS = [
    Input(
        input_of([]),
        3,
        b"end idle\n",
        False,
        b'{"calls":[],'
        b'"context":{"channels":1,"length":1,"rate":48000,"renderQuantum":128},"version":2}',
    ),
    Input(input_of([{"op": "start"}]), 4, b"script: 1 node MissingField\n", False),
    Input(b"\xff", 4, b"script: BadJson\n", False),
    Input(json.dumps(load_script.script(0)).encode()[:-1], 4, b"script: BadJson\n", False),
    Input(
        input_of(
            [
                {"op": "createConstantSource", "as": "c"},
                load_script.connected("c", "destination"),
                {"op": "start", "node": "c"},
                {"op": "startRendering"},
            ]
        ),
        0,
        b"1 ok\n2 ok\n3 ok\n4 pending\n4 resolved\ncomplete 1\nend completed\n",
        True,
        b'{"calls":[{"as":"c","offset":16777216,"op":"createConstantSource"},'
        b'{"from":"c","input":0,"op":"connect","output":0,"to":"destination"},'
        b'{"duration":null,"node":"c","offset":"0.000000000","op":"start","when":"0.000000000"},'
        b'{"op":"startRendering"}],'
        b'"context":{"channels":1,"length":1,"rate":48000,"renderQuantum":128},"version":2}',
    ),
]
ONE_SAMPLE = {
    16: bytes.fromhex(
        "524946462600000057415645666d7420100000000100010080bb00000077010002001000"
        "6461746102000000ff7f"
    ),
    24: bytes.fromhex(
        "524946462800000057415645666d7420100000000100010080bb0000803202000300180064617461"
        "03000000ffff7f00"
    ),
}
BEFORE = {b"out.wav": b"before\n"}  # the files of the folder before a run

SUMMARY = b"summary calls 1768 quanta 3750 ended 200 refused 0"
WHOLE = rb"(0|-?[1-9][0-9]*)"
SUMMARY_OF_SAMPLES = SUMMARY + b" peak " + WHOLE + b" sum " + WHOLE
LAST = b"\nend completed\n"


class Wanted(NamedTuple):
    """What a run is to give. The text is what all of it matches, and the files are all of the
    folder; None where the program wrote none for a load's script."""

    status: int
    text: bytes
    files: Mapping[bytes, bytes | None]
    bytes_read: int


def run(
    program: str, words: list[bytes], data: bytes, folder: str
) -> tuple[subprocess.CompletedProcess[bytes], int]:
    """Runs the program over this input in a folder: what it gives, and how many bytes it has
    read."""
    with tempfile.TemporaryFile(buffering=0) as file:
        file.write(data)
        file.seek(0)
        ran = subprocess.run(
            [os.fsencode(program), *words], stdin=file, capture_output=True, cwd=folder, timeout=600
        )
        return ran, os.lseek(file.fileno(), 0, os.SEEK_CUR)


def files_in(folder: str) -> dict[bytes, bytes]:
    """The files of a folder, which is empty afterwards."""
    files = {}
    for entry in os.scandir(os.fsencode(folder)):
        with open(entry, "rb") as file:
            files[entry.name] = file.read()
        os.remove(entry)
    return files


def load_file(program: str, number: int, bits: int, folder: str) -> bytes | None:
    """The file that the program writes for the script of a load."""
    data = json.dumps(load_script.script(number)).encode()
    run(program, [b"--bits", b"%d" % bits, b"load.wav"], data, folder)
    return files_in(folder).get(b"load.wav")


def file_of_input(input: Input, asked: Reading) -> bytes | None:
    """What an input leaves in OUT, if anything."""
    if asked.mode == "migrate":
        return input.migrated
    return ONE_SAMPLE[asked.bits] if input.is_rendered and asked.mode == "render" else None


def wanted_of(program: str, words: list[bytes], input: Input, folder: str) -> Wanted:
    """What a run on these words and this input is to give."""
    try:
        asked = reading(words)
    except NoReading:
        return Wanted(2, re.escape(USAGE), BEFORE, 0)
    out = asked.out.encode()
    if asked.generated is None:
        file = file_of_input(input, asked)
        files = BEFORE if file is None else {**BEFORE, out: file}
        return Wanted(input.status, re.escape(input.text), files, len(input.data))
    if asked.mode == "check":
        return Wanted(0, SUMMARY + LAST, BEFORE, 0)
    if asked.mode == "migrate":
        migrated = script_text(load_script.script(asked.generated))
        return Wanted(0, SUMMARY + LAST, {**BEFORE, out: migrated}, 0)
    written = load_file(program, asked.generated, asked.bits, folder)
    return Wanted(0, SUMMARY_OF_SAMPLES + LAST, {**BEFORE, out: written}, 0)


def differences(program: str, words: list[bytes], input: Input, folder: str) -> list[str]:
    """What differs where the program is run on these words and this input in this folder."""
    wanted, wrong = wanted_of(program, words, input, folder), []
    with open(os.path.join(folder, "out.wav"), "wb") as file:
        file.write(BEFORE[b"out.wav"])
    ran, bytes_read = run(program, words, input.data, folder)
    files = files_in(folder)
    if ran.returncode != wanted.status:
        wrong.append(f"status {ran.returncode} in place of {wanted.status}")
    if not re.fullmatch(wanted.text, ran.stdout):
        wrong.append("the usage line" if ran.stdout == USAGE else f"the text {ran.stdout[:100]!r}")
    if ran.stderr:
        wrong.append(f"{ran.stderr[:100]!r} on standard error")
    if bytes_read != wanted.bytes_read:
        wrong.append(f"{bytes_read} bytes read in place of {wanted.bytes_read}")
    names = sorted({*files, *wanted.files})
    return wrong + [
        f"another file {name!r}" for name in names if files.get(name) != wanted.files.get(name)
    ]


def compare(program: str, seed: int, count: int, folder: str) -> int:
    """Runs the program on lines of a seed, tells what differs, and gives the status."""
    wrong = 0
    times: collections.Counter[str] = collections.Counter()
    for number in range(count):
        words, input = line(seed, number), random.Random(f"input {seed} {number}").choice(INPUTS)
        times[answer(words)] += 1
        found = differences(program, words, input, folder)
        if found:
            wrong += 1
            print(f"line {number}: {', '.join(found)}: {words!r}", flush=True)
    answers = [READ, *BY_MODE.values(), *REASONS]
    for name in answers:
        print(f"{name}: {times[name]}")
    print(f"{wrong} of {count} lines differ")
    return 1 if wrong or not all(times[name] for name in answers) else 0


def show(words: list[bytes]) -> None:
    """Prints the words of a line, and its reading or why it has none."""
    print(*map(repr, words))
    try:
        print(reading(words))
    except NoReading as reason:
        print("no reading:", reason)


def main() -> int:
    """Compares lines, or prints one."""
    parser = argparse.ArgumentParser(
        prog="tools/command-lines",
        description=__doc__,
        formatter_class=argparse.RawDescriptionHelpFormatter,
    )
    parser.add_argument("--count", type=int, default=1000, help="how many lines, 1,000 by default")
    parser.add_argument("--seed", type=int, default=1, help="the seed of the lines, 1 by default")
    parser.add_argument("--program", metavar="FILE", help="the program that is run on the lines")
    parser.add_argument(
        "--print",
        type=int,
        metavar="NUMBER",
        help="print the line of this number and its reading, and run nothing",
    )
    given = parser.parse_args()
    if given.print is not None:
        show(line(given.seed, given.print))
        return 0
    if given.program is None or not os.access(given.program, os.X_OK):
        print("command_lines: --program FILE has to name a program", file=sys.stderr)
        return 2
    with tempfile.TemporaryDirectory() as work:
        return compare(os.path.abspath(given.program), given.seed, given.count, work)


if __name__ == "__main__":
    sys.exit(main())
