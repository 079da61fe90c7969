"""Compares what waplay gives for a number, with --gen, with the load of that number
(tools/load-script).

Of each number the program is run with both orders and both widths of samples, in each mode, and so
is the load's script, as standard input. The summary has to have the counts that tools/expected.py
works out, and those of the script's transcript. The file has to be the script's to the byte,
whatever the order, and there is none in mode check; in mode migrate it is the script in version 2.
The greatest value and the sum have to be such that their values can have the file's samples. Of a
number that is looked at whole they, and each byte of both files, have to be those that
tools/expected.py works out, which takes some minutes. Standard input has a fault, of which nothing
is read.

It prints a line for each difference, and last how many numbers were compared, how many of them
whole, and how many differ. The status is 0 where none does.
"""

import argparse
import itertools
import json
import multiprocessing
import os
import random
import re
import subprocess
import sys
import tempfile

from waplay_tools import load_script
from waplay_tools.expecting.sessions import replayed, summary_of, wav_bytes
from waplay_tools.expecting.writing import script_text

FAULTY = b'{"version":1,"context":{"channels":1,"length":1,"rate":48000},"calls":[{"op":"start"}]}'
SUMMARY = re.compile(
    rb"(summary calls \d+ quanta \d+ ended \d+ refused \d+)(?: peak (\d+) sum (-?\d+))?\nend"
    rb" completed\n"
)
BEFORE = b"before\n"
WIDTHS, ORDERS, MODES = (24, 16), ("up", "down"), ("render", "check", "migrate")


class Run:
    """A run of the program with these words, in a folder in which it finds a file OUT, over these
    bytes."""

    def __init__(self, program: str, words: list[str], data: bytes) -> None:
        with tempfile.TemporaryDirectory() as work, tempfile.TemporaryFile(buffering=0) as file:
            out = os.path.join(work, "out.wav")
            with open(out, "wb") as before:
                before.write(BEFORE)
            file.write(data)
            file.seek(0)
            ran = subprocess.run(
                [program, *words, "out.wav"], stdin=file, capture_output=True, cwd=work, timeout=600
            )
            self.bytes_read = os.lseek(file.fileno(), 0, os.SEEK_CUR)
            self.status, self.text, self.printed = ran.returncode, ran.stdout, ran.stderr
            with open(out, "rb") as after:
                self.file = after.read()
            self.others = set(os.listdir(work)) - {"out.wav"}


def counted(text: bytes) -> tuple[int, int, int]:
    """What the transcript of a script says of the counts: calls that were run, sources ended and
    calls refused."""
    words = [line.split() for line in text.decode().splitlines()]
    return (
        len({first for first, *_ in words if first.isdigit()}),
        sum(first == "ended" for first, *_ in words),
        sum(second in ("throw", "rejected") for _, second, *_ in words),
    )


def samples_of(file: bytes) -> list[int]:
    """The samples of a file of 24 bits, all channels together."""
    return [
        int.from_bytes(file[at : at + 3], "little", signed=True)
        for at in range(44, len(file) - 2, 3)
    ]


def can_be(samples: list[int], peak: int, total: int) -> bool:
    """Whether values that have these samples of 24 bits, none at an end of the range, can have this
    greatest one, without its sign, and this sum. The values of a sample s are 2 s - 1 and 2 s."""
    least, most = min(samples), max(samples)
    peaks = [max(abs(2 * least - low), abs(2 * most - high)) for low in (0, 1) for high in (0, 1)]
    top = 2 * sum(samples)
    return min(peaks) <= peak <= max(peaks) and top - len(samples) <= total <= top


class Comparison:
    """What differs at one number."""

    def __init__(self, program: str, number: int) -> None:
        self.program, self.number = program, number
        self.wrong: list[str] = []
        self.script = json.dumps(load_script.script(number)).encode()

    def look(self, is_right: object, words: list[str], what: str) -> None:
        """Notes what is wrong at these words, where the first is false."""
        if not is_right:
            self.wrong.append(f"{' '.join(words) or 'the script'}: {what}")

    def generated(self, bits: int, order: str, mode: str) -> tuple[list[str], Run]:
        """The run with the number and these options, looked at by itself."""
        words = ["--gen", str(self.number), "--bits", str(bits), "--order", order, "--mode", mode]
        ran = Run(self.program, words, FAULTY)
        self.look(ran.status == 0, words, f"status {ran.status}")
        self.look(ran.bytes_read == 0, words, f"{ran.bytes_read} bytes of standard input are read")
        self.look(not ran.printed, words, f"{ran.printed[:100]!r} on standard error")
        self.look(not ran.others, words, f"files {sorted(ran.others)!r}")
        return words, ran

    def compare(self, is_whole: bool) -> list[str]:
        """What is wrong at the number, a sentence each. Looked at whole, samples and summary are
        worked out anew."""
        session = replayed(self.script, is_checked=not is_whole)[2]
        assert session is not None  # a load has no fault
        counts = summary_of(session).split(" peak")[0].encode()
        scripts = {bits: Run(self.program, ["--bits", str(bits)], self.script) for bits in WIDTHS}
        lines = [
            b"summary calls %d quanta %d ended %d refused %d"
            % (calls, session.quanta, ended, refused)
            for calls, ended, refused in [counted(scripts[24].text)]
        ]
        self.look(
            lines == [counts], [], f"the transcript has other counts than {counts!r}: {lines!r}"
        )
        texts = set()
        for bits, order, mode in itertools.product(WIDTHS, ORDERS, MODES):
            words, ran = self.generated(bits, order, mode)
            found = SUMMARY.fullmatch(ran.text)
            self.look(found and found[1] == counts, words, f"the text {ran.text[:100]!r}")
            if mode != "render":
                self.look(found and found[2] is None, words, f"a greatest value in mode {mode}")
                wanted = BEFORE if mode == "check" else script_text(session.script)
                self.look(ran.file == wanted, words, f"another file in mode {mode}")
                continue
            texts.add(ran.text)
            self.look(ran.file == scripts[bits].file, words, "another file than that of the script")
            if is_whole:
                self.look(
                    ran.text == (summary_of(session) + "\nend completed\n").encode(),
                    words,
                    f"the text {ran.text!r}",
                )
                self.look(
                    ran.file == wav_bytes(session, bits), words, "another file than was worked out"
                )
        self.look(len(texts) == 1, [], f"several texts: {sorted(texts)!r}")
        found = SUMMARY.fullmatch(min(texts))
        fits = (
            found
            and found[2]
            and can_be(samples_of(scripts[24].file), int(found[2]), int(found[3]))
        )
        self.look(fits, [], f"the file can't have the greatest value and the sum of {min(texts)!r}")
        return self.wrong


def compared(job: tuple[str, int, bool]) -> tuple[int, list[str]]:
    """What is wrong at a number with a program; a comparison that fails itself is told as wrong."""
    program, number, is_whole = job
    try:
        return number, Comparison(program, number).compare(is_whole)
    except Exception as error:
        return number, [f"no comparison: {error!r}"]


def numbers_of(seed: int, count: int, whole: list[int]) -> dict[int, bool]:
    """The numbers to be compared, and of each whether it is whole."""
    drawn = random.Random(f"generated {seed}").choices(range(10000), k=count)
    return {number: number in whole for number in [*whole, 0, 1, 9999, *drawn]}


def main() -> int:
    """Compares numbers."""
    parser = argparse.ArgumentParser(
        prog="tools/generated",
        description=__doc__,
        formatter_class=argparse.RawDescriptionHelpFormatter,
    )
    parser.add_argument("--program", metavar="FILE", required=True, help="the program")
    parser.add_argument(
        "--seed", type=int, default=1, help="the seed of the drawn numbers, 1 by default"
    )
    parser.add_argument(
        "--count",
        type=int,
        default=20,
        help="how many numbers are drawn beside 0, 1 and 9999; 20 by default",
    )
    parser.add_argument(
        "--whole",
        type=int,
        action="append",
        metavar="N",
        help="compare this number whole; may stand several times; 0 where it is absent",
    )
    parser.add_argument("--no-whole", action="store_true", help="compare no number whole")
    parser.add_argument(
        "--jobs", type=int, default=1, help="how many numbers are compared at a time, 1 by default"
    )
    words = parser.parse_args()
    program = os.path.abspath(words.program)
    if not os.access(program, os.X_OK):
        print("generated: --program FILE has to name a program", file=sys.stderr)
        return 2
    whole = [] if words.no_whole else words.whole or [0]
    numbers, wrong = numbers_of(words.seed, words.count, whole), 0
    with multiprocessing.Pool(words.jobs) as pool:
        jobs = [(program, number, is_whole) for number, is_whole in numbers.items()]
        for number, different in pool.imap_unordered(compared, jobs):
            wrong += bool(different)
            for it in different:
                print(f"number {number}: {it}", flush=True)
    print(f"{len(numbers)} numbers, {sum(numbers.values())} of them whole, {wrong} differ")
    return 1 if wrong else 0


if __name__ == "__main__":
    sys.exit(main())
