"""Trials: what a run is given, and what is wrong with what came of it."""

import contextlib
import dataclasses
import json
import os
import re
import signal
import tempfile
import types
from collections.abc import Iterator, Mapping
from pathlib import Path
from typing import Any

from waplay_tools import command_lines, load_script
from waplay_tools.expecting.sessions import file_of, replayed
from waplay_tools.expecting.writing import script_text
from waplay_tools.random_scripts.assets import write_assets
from waplay_tools.random_scripts.kinds import Asset
from waplay_tools.running import CLOSED, FULL, GONE, Ran, Terms, run
from waplay_tools.standing import STATUSES, Answer, changed_in, files_in, wrong_after

SCRIPT_BYTES = 2**24
CALCULATED = 1.0  # seconds that the second calculation has for an answer
SECONDS = 10.0  # of a processor, for a run
LONG_CONTEXT = 2**20  # frames; longer contexts are checked and not rendered
LONG_SECONDS = 60.0  # for a run of one
MEMORY = (
    7 * 2**29
)  # bytes at a time: two Worlds of buffers, rings, a rendering, and what JSON takes
OUT = "out.wav"
BEFORE: dict[str, Asset] = {OUT: b"before\n", "beside": b"beside\n"}

Stood = tuple[bytes | None, bytes | None]  # what stands at OUT before a run and after it

_EXCEPTION = rb"(?:[A-Z]\w+Error(?: profile:[a-z-]+)?)"
_LINE = re.compile(
    rb"\d+ (?:ok|pending|resolved|(?:throw|rejected) %b|value -?\d+|time \d+"
    rb"|state (?:suspended|running|closed))|ended \d+ [\w-]{1,64}|complete \d+" % _EXCEPTION
)
_LAST = re.compile(rb"end (?:completed|stalled \d+|idle|refused NotSupportedError)")
_SUMMARY = re.compile(command_lines.SUMMARY_OF_SAMPLES + command_lines.LAST)
_FAULT = re.compile(
    rb"script: (?:BadJson|\d+ (?:op UnknownOp|\w+ (?:MissingField|WrongKind|OutOfRange)))\n"
)


@dataclasses.dataclass(frozen=True)
class Trial:
    """What a run is given: standard input, words, the files of its folder, and its terms."""

    given: bytes
    words: tuple[bytes, ...] = (OUT.encode(),)
    assets: Mapping[str, Asset] = dataclasses.field(default_factory=dict)
    terms: Terms = Terms()

    def size(self) -> int:
        """How large it is, which gets less as it is shrunk."""
        lengths = [len(it) for it in self.assets.values() if isinstance(it, bytes)]
        return len(self.given) + sum(map(len, self.words)) + sum(lengths)


@dataclasses.dataclass
class Judged:
    """What is wrong with a trial, the status of its run, and whether the second calculation had an
    answer for it."""

    faults: list[str]
    status: int
    is_calculated: bool


class _TooSlow(Exception):
    """The second calculation has had its time."""


@contextlib.contextmanager
def within(seconds: float) -> Iterator[None]:
    """Raises _TooSlow in what takes longer."""

    def stop(_: int, __: types.FrameType | None) -> None:
        """Is called by the system."""
        raise _TooSlow

    before = signal.signal(signal.SIGALRM, stop)
    signal.setitimer(signal.ITIMER_REAL, seconds)
    try:
        yield
    finally:
        signal.setitimer(signal.ITIMER_REAL, 0)
        signal.signal(signal.SIGALRM, before)


def reading_of(trial: Trial) -> command_lines.Reading | None:
    """What the words ask for; None where they have no reading."""
    try:
        return command_lines.reading(list(trial.words))
    except command_lines.NoReading:
        return None


def answer_of(trial: Trial, folder: str) -> Answer | None:
    """What has to come where nothing fails, by the second calculation; None where that is slow."""
    asked = reading_of(trial)
    if asked is None:
        return Answer(2, command_lines.USAGE, None)
    is_checked = asked.mode != "render"
    if asked.generated is not None:
        text, is_migrated = command_lines.SUMMARY + command_lines.LAST, asked.mode == "migrate"
        file = script_text(load_script.script(asked.generated)) if is_migrated else None
        return Answer(0, text, file) if is_checked else None
    if len(trial.given) > SCRIPT_BYTES:
        return Answer(5, b"", None)
    try:
        with within(CALCULATED):
            status, lines, session = replayed(trial.given, folder, is_checked)
            file = file_of(session, asked.mode, asked.bits) if session else None
            return Answer(status, lines.encode(), file)
    except _TooSlow:
        return None


def ill_formed(status: int, text: bytes) -> list[str]:
    """What is wrong with the form of a text that nobody has worked out."""
    if status == 4:
        return [] if _FAULT.fullmatch(text) else ["the text is no line of a fault"]
    if status not in (0, 3) or re.fullmatch(_SUMMARY, text):
        return []
    *lines, last, rest = text.split(b"\n") if b"\n" in text else [b"", text]
    if rest or not _LAST.fullmatch(last) or (status == 0) != (last == b"end completed"):
        return [f"the last line is {last[:80]!r}"]
    wrong = [line for line in lines if not _LINE.fullmatch(line)]
    return [f"a line is {wrong[0][:80]!r}"] if wrong else []


def _allowed(trial: Trial) -> set[int]:
    """The statuses that the terms of a trial let come beside that of the answer."""
    terms = trial.terms
    is_short = terms.file_most is not None or isinstance(terms.output, int)  # that of OUT too
    allowed = {8} if terms.output is not None else set()
    allowed |= {9} if is_short else set()
    allowed |= {10, -signal.SIGSEGV} if terms.memory is not None else set()
    return allowed | ({6} if terms.given is None or isinstance(terms.given, Path) else set())


def is_long(given: bytes) -> bool:
    """Whether a script has a context that takes long to render."""
    length = re.search(rb'"length"\s*:\s*(\d+)', given)
    return length is not None and int(length[1][:12]) > LONG_CONTEXT


def _took_too_much(trial: Trial, ran: Ran) -> list[str]:
    seconds = LONG_SECONDS if is_long(trial.given) else SECONDS
    faults = [f"it took {ran.seconds:.1f} s of a processor"] if ran.seconds > seconds else []
    return faults + ([f"it took {ran.memory} bytes"] if ran.memory > MEMORY else [])


def reference(program: Path, trial: Trial, folder: Path, out: str | None) -> Answer:
    """What comes of a trial on the program itself, where nothing fails. OUT is as before then."""
    before = files_in(folder)
    whole = run([os.fsencode(program), *trial.words], folder, Terms(trial.given))
    found = files_in(folder).get(out) if out else None
    file = found if out and found != before.get(out) else None
    if out and file is not None:
        (folder / out).unlink(missing_ok=True)
        write_assets(str(folder), {out: before[out]} if out in before else {})
    return Answer(whole.status, whole.text, file)


def _faults_of(trial: Trial, ran: Ran, answer: Answer | None, out: Stood) -> list[str]:
    """What is wrong with what a run gave, and with OUT before it and after it."""
    if ran.is_late:
        return ["it did not end"]
    if ran.status not in STATUSES and ran.status not in _allowed(trial):
        return [f"status {ran.status}"]
    faults = [f"{ran.errors[:80]!r} on standard error"] if ran.errors and ran.status >= 0 else []
    if answer is None:
        asked = reading_of(trial)
        written = (0, 3) if asked and asked.mode == "migrate" else (0,)
        is_touched = out[0] != out[1] and ran.status not in written
        return faults + ill_formed(ran.status, ran.text) + ["OUT is touched"] * is_touched
    if ran.status not in (answer.status, *_allowed(trial)):
        return [*faults, f"status {ran.status} in place of {answer.status}"]
    return faults + wrong_after(ran.status, ran.text, out, answer)


def judged_in(program: Path, trial: Trial, folder: Path) -> Judged:
    """Runs a trial in this empty folder, and judges it."""
    write_assets(str(folder), {**BEFORE, **trial.assets})
    asked, before = reading_of(trial), files_in(folder)
    out = asked.out if asked else None
    answer = answer_of(trial, str(folder))
    is_calculated = answer is not None
    if answer is None and _allowed(trial):
        answer = reference(program, trial, folder, out)
    terms = trial.terms
    if terms.given == b"":
        terms = dataclasses.replace(terms, given=trial.given)
    ran = run([os.fsencode(program), *trial.words], folder, terms)
    after = files_in(folder)
    stood = (before.get(out), after.get(out)) if out else (None, None)
    faults = changed_in(before, after, out) + _took_too_much(trial, ran)
    return Judged(faults + _faults_of(trial, ran, answer, stood), ran.status, is_calculated)


def judged(program: Path, trial: Trial) -> Judged:
    """Runs a trial in a folder of its own, and judges it."""
    with tempfile.TemporaryDirectory(prefix="waplay-fuzz-") as room:
        folder = Path(room, "folder")
        folder.mkdir()
        return judged_in(program, trial, folder)


def keep(trial: Trial, faults: list[str], folder: Path) -> None:
    """Writes a trial into a folder, with what is wrong and how it is run."""
    folder.mkdir(parents=True, exist_ok=True)
    told: dict[str, Any] = {
        "wrong": faults,
        "words": [word.decode("utf-8", "surrogateescape") for word in trial.words],
        "terms": {
            name: str(value)
            for name, value in dataclasses.asdict(trial.terms).items()
            if value not in (None, b"", False, {}, Terms().seconds)
        },
    }
    files: dict[str, Asset] = {**BEFORE, **trial.assets, "script.json": trial.given}
    write_assets(str(folder), {**files, "found.json": json.dumps(told, indent=2).encode()})


FAILING_OUTPUTS = (FULL, GONE, CLOSED)
