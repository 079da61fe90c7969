"""Derives samples of random scripts by waexplain, and has what comes checked.

The scripts are those of tools/random-scripts, half of them in seconds. Each is run on waplay. Where
its session completes, random samples of it are derived, and these have to hold:

- The derivation is the text that the second calculation derives, and the line tells its facts.
- The last fact is the sample that the WAV file has.
- waexplain finds the derivation valid, and so does the second calculation.
- Where one character of it is another one, or there is one less or one more, both give the same
  answer: the first line with which something is wrong, or that it is valid all the same.

Where the session does not complete, waexplain has to give the status and the last line of waplay.

A line is printed for each difference, and last how many scripts, samples and changed texts there
were and how many scripts differ. The status is 0 where none does.
"""

import argparse
import concurrent.futures
import functools
import json
import random
import sys
import tempfile
from collections.abc import Callable, Iterator
from pathlib import Path
from typing import NamedTuple

from waplay_tools import wav
from waplay_tools.expecting.nodes import AssetFault
from waplay_tools.expecting.numbers import sample_of
from waplay_tools.expecting.sessions import file_of, replayed
from waplay_tools.explaining.checking import verdict
from waplay_tools.explaining.facts import fact_of
from waplay_tools.explaining.tape import NoTape, Tape, tape_of
from waplay_tools.places import PROGRAMS
from waplay_tools.program_words import asked_of, there
from waplay_tools.random_scripts import maker
from waplay_tools.random_scripts.assets import write_assets
from waplay_tools.random_scripts.versions import Versions
from waplay_tools.running import Terms, run
from waplay_tools.waexplain import answer_to, derived

SECONDS = 600.0  # for one run of a program
TEXT = "derivation.txt"  # the file beside the assets that derivations stand in
CHARACTERS = 3 * "0123456789" + " -+w=\ncounthispr.eg"


class Outcome(NamedTuple):
    """What a run gives: its status, its text, and the file that it leaves."""

    status: int
    text: str
    file: bytes | None = None


class Programs(NamedTuple):
    """What plays a script of these bytes, whose assets are in the folder, and what explains it by
    these words."""

    play: Callable[[bytes, str], Outcome]
    explain: Callable[[list[str], bytes, str], Outcome]


class Sizes(NamedTuple):
    """How many samples of a script are derived, how often each derivation is changed, and how many
    lines one has at most that is."""

    samples: int
    changes: int
    lines: int


class Found(NamedTuple):
    """What became of a script: how many samples were derived, how many texts were changed and how
    many of those refused, and what differs."""

    derived: int = 0
    changed: int = 0
    refused: int = 0
    different: tuple[str, ...] = ()


def run_on(program: Path, words: list[str], data: bytes, folder: str) -> Outcome:
    """What a program gives."""
    ran = run([program, *words], folder, Terms(data, seconds=SECONDS))
    return Outcome(-1 if ran.is_late else ran.status, ran.text.decode(errors="replace"))


def played_on(program: Path, data: bytes, folder: str) -> Outcome:
    """What waplay gives, and its WAV file."""
    with tempfile.TemporaryDirectory() as room:
        out = Path(room, "out.wav")
        ran = run_on(program, [str(out)], data, folder)
        return ran._replace(file=out.read_bytes() if out.exists() else None)


def played(data: bytes, folder: str) -> Outcome:
    """What the second calculation gives in its place."""
    status, text, session = replayed(data, folder)
    return Outcome(status, text, file_of(session, "render") if session else None)


def explained(words: list[str], data: bytes, folder: str) -> Outcome:
    """What the second calculation gives in place of waexplain."""
    answer = answer_to(words, data, folder)
    if answer.derivation is not None:
        Path(folder, words[-1]).write_text(answer.derivation, encoding="ascii")
    return Outcome(answer.status, answer.text)


def changed(rng: random.Random, line: str) -> str:
    """A line with its end, of which one character is another one, or there is one less or one
    more. It ends with a line's end where that was not touched."""
    while True:
        at, new = rng.randrange(len(line)), rng.choice(CHARACTERS)
        made = line[:at] + rng.choice([new, new, "", new + line[at]]) + line[at + 1 :]
        if made != line:
            return made


class Script:
    """A script, its assets beside it, and what explains it."""

    def __init__(self, programs: Programs, data: bytes, folder: str) -> None:
        self.programs, self.data, self.folder = programs, data, folder

    def explain(self, *words: str) -> Outcome:
        """What comes of these words."""
        return self.programs.explain(list(words), self.data, self.folder)

    def check(self, text: bytes) -> Outcome:
        """What comes of the check of a text."""
        Path(self.folder, TEXT).write_bytes(text)
        return self.explain("check", TEXT)

    def derive(self, frame: int, channel: int) -> tuple[Outcome, bytes]:
        """What comes of deriving a sample, and the text that is left."""
        out = Path(self.folder, TEXT)
        out.unlink(missing_ok=True)
        found = self.explain("derive", str(frame), str(channel), TEXT)
        return found, out.read_bytes() if out.exists() else b""


def wanted_of(line: str) -> Outcome:
    """What a check has to give where this is its line."""
    return Outcome(0 if line.startswith("valid") else 12, line)


def differences_of_sample(
    script: Script, tape: Tape, place: tuple[int, int], sample: int
) -> tuple[bytes, list[str]]:
    """The derivation of a sample, and what is wrong with it."""
    wanted = derived(tape, *place)
    found, text = script.derive(*place)
    wrong = []
    if found != Outcome(wanted.status, wanted.text):
        wrong.append(f"derive gives {found.status} {found.text!r}, and not {wanted.text!r}")
    if text != (wanted.derivation or "").encode():
        wrong.append("the derivation is another text than that of the second calculation")
    if not text:
        return text, wrong
    last = text.splitlines()[-1]
    fact = fact_of(last)
    if fact is None or sample_of(fact.numbers[0], 24) != sample:
        wrong.append(f"the last fact is {last!r}, and the file has {sample}")
    lines = {
        "waexplain": script.check(text),
        "the second calculation": wanted_of(verdict(tape, text)),
    }
    for name, it in lines.items():
        if it != wanted_of(f"valid {last.decode()}\n"):
            wrong.append(f"{name} says {it.text!r} of the derivation, with status {it.status}")
    return text, wrong


def differences_of_changes(
    script: Script, tape: Tape, text: bytes, times: int, rng: random.Random
) -> Iterator[tuple[bool, list[str]]]:
    """Of a derivation that is changed again and again whether it is refused, and what differs."""
    lines = text.decode().splitlines(keepends=True)
    for _ in range(times):
        at = rng.randrange(len(lines))
        line = changed(rng, lines[at])
        other = "".join([*lines[:at], line, *lines[at + 1 :]]).encode()
        wanted, found = wanted_of(verdict(tape, other)), script.check(other)
        wrong = [f"with line {at + 1} {line!r} {found.text!r}, and not {wanted.text!r}"]
        yield wanted.status != 0, [] if found == wanted else wrong


def found_of_samples(script: Script, sizes: Sizes, file: bytes, rng: random.Random) -> Found:
    """What comes of samples of a session that completes with this WAV file."""
    try:
        tape = tape_of(script.data, script.folder)
    except (NoTape, AssetFault):
        return Found(different=("the second calculation does not complete",))
    form = wav.form_of(file)
    assert form is not None
    samples = wav.samples_of(file, form)
    found = Found()
    for _ in range(sizes.samples):
        place = rng.randrange(tape.length), rng.randrange(tape.channels)
        sample = samples[place[0] * form.channels + place[1]]
        text, different = differences_of_sample(script, tape, place, sample)
        times = sizes.changes if 0 < text.count(b"\n") <= sizes.lines else 0
        changes = list(differences_of_changes(script, tape, text, times, rng))
        different += [it for _, wrong in changes for it in wrong]
        told = tuple(f"frame {place[0]}, channel {place[1]}: {it}" for it in different)
        found = Found(
            found.derived + 1,
            found.changed + len(changes),
            found.refused + sum(is_refused for is_refused, _ in changes),
            found.different + told,
        )
    return found


def found_at(script: Script, sizes: Sizes, rng: random.Random) -> Found:
    """What becomes of a script."""
    first = script.programs.play(script.data, script.folder)
    if first.status == 0 and first.file is not None:
        return found_of_samples(script, sizes, first.file, rng)
    wanted = Outcome(first.status, "".join(first.text.splitlines(keepends=True)[-1:]))
    asked = {"derive": script.derive(0, 0)[0], "check": script.explain("check", TEXT)}
    return Found(
        different=tuple(
            f"{name} gives {it.status} {it.text!r}, and waplay {wanted.status} {wanted.text!r}"
            for name, it in asked.items()
            if it != wanted
        )
    )


def found_of_number(programs: Programs, sizes: Sizes, seed: int, number: int) -> Found:
    """What becomes of the random script of a number."""
    of = Versions(functools.partial(maker.script_of, read=maker.operations()), None)
    made, assets = of(seed, number)
    with tempfile.TemporaryDirectory() as folder:
        write_assets(folder, assets)
        script = Script(programs, json.dumps(made).encode(), folder)
        return found_at(script, sizes, random.Random(f"explained {seed} {number}"))


def arguments() -> argparse.Namespace:
    """The words of the command line."""
    words = argparse.ArgumentParser(
        prog="tools/explanations",
        description=__doc__,
        formatter_class=argparse.RawDescriptionHelpFormatter,
    )
    for name, most, what in (
        ("count", 300, "how many scripts"),
        ("samples", 20, "how many samples of each are derived"),
        ("changes", 20, "how often each derivation is changed"),
        ("lines", 3000, "how many lines a derivation has at most that is changed"),
    ):
        words.add_argument(f"--{name}", type=int, default=most, help=f"{what}, {most:,} by default")
    words.add_argument(
        "--explain-program",
        type=Path,
        default=PROGRAMS["waexplain"],
        metavar="FILE",
        help="waexplain; the shipped one",
    )
    asked = asked_of(words, "scripts")
    asked.explain_program = asked.program and there(words, asked.explain_program)
    return asked


def programs_of(asked: argparse.Namespace) -> Programs:
    """What the command line asks for."""
    if asked.program is None:
        return Programs(played, explained)
    return Programs(
        functools.partial(played_on, asked.program),
        functools.partial(run_on, asked.explain_program),
    )


def main() -> int:
    """Derives samples, and gives the status."""
    asked = arguments()
    sizes = Sizes(asked.samples, asked.changes, asked.lines)
    look = functools.partial(found_of_number, programs_of(asked), sizes, asked.seed)
    found = []
    with concurrent.futures.ProcessPoolExecutor(asked.jobs) as pool:
        for number, it in enumerate(pool.map(look, range(asked.count))):
            for different in it.different:
                print(f"script {number}: {different}", flush=True)
            found.append(it)
    derived_of, texts = (sum(it[at] for it in found) for at in (0, 1))
    print(
        f"{len(found)} scripts, {derived_of} samples derived,"
        f" {sum(it.refused for it in found)} of {texts} changed texts refused;"
        f" {sum(bool(it.different) for it in found)} scripts differ"
    )
    return 1 if any(it.different for it in found) else 0


if __name__ == "__main__":
    sys.exit(main())
