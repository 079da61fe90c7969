"""Reads the folder of a take, as tools/record leaves it: its contexts, and what is known of the
piece."""

import json
import re
from pathlib import Path
from typing import Any

from waplay_tools.places import as_called_here
from waplay_tools.reporting import script_reading, transcript_reading, wav_samples
from waplay_tools.reporting.content import Content, File, Loss
from waplay_tools.reporting.following import Session
from waplay_tools.reporting.judging import Finding
from waplay_tools.reporting.page import Facts, Heading
from waplay_tools.reporting.script_reading import Script
from waplay_tools.reporting.text import BadInput, visible
from waplay_tools.reporting.wav_samples import TOLERANCE, Differences

SCRIPT = re.compile(r"(\d+)\.json")
LOSS = re.compile(r"(exact|rounded|lowered|frozen|heard|silent|refused) ([a-z-]+): (.*)")
CALLS = re.compile(r"\bcalls? ([\d ]+)")
BROWSER = "the browser"


def is_take(path: str) -> bool:
    """Whether this is a folder of a take."""
    return Path(path).is_dir()


def numbers_of(folder: Path) -> list[int]:
    """The numbers of the contexts of a take."""
    try:
        names = [SCRIPT.fullmatch(path.name) for path in folder.iterdir()]
    except OSError as error:
        raise BadInput(f"{visible(str(folder))} can't be read: {error.strerror}") from None
    found = sorted(int(name[1]) for name in names if name)
    if not found:
        name = visible(str(folder))
        raise BadInput(f"{name} is no folder of a take: it has no script, as 1.json")
    return found


def summary_of(folder: Path) -> dict[str, Any]:
    """What take.json has; nothing where it is not there or is none."""
    try:
        told = json.loads((folder / "take.json").read_text(encoding="utf-8"))
    except (OSError, ValueError):
        return {}
    return told if isinstance(told, dict) else {}


def list_of(told: dict[str, Any], name: str) -> list[Any]:
    """A list of take.json; an empty one where there is none."""
    found = told.get(name)
    return found if isinstance(found, list) else []


def losses_of(text: str) -> tuple[list[Loss], list[str], str]:
    """The losses of a report of the recorder, its other lines, and its verdict."""
    losses, lines, verdict = [], [], ""
    for line in text.splitlines()[1:]:
        found = LOSS.fullmatch(line)
        if found:
            calls = CALLS.search(found[3])
            numbers = [int(it) for it in calls[1].split()] if calls else []
            losses.append(Loss(found[1], found[2], found[3], numbers))
        elif line.startswith("verdict: "):
            verdict = line[len("verdict: ") :]
        else:
            lines.append(line)
    return losses, lines, verdict


def lengths_of(folder: Path, script: Script) -> dict[str, int]:
    """The frames of the files that a script decodes, by their paths; none of those that cannot be
    read."""
    found = {}
    for call in script.calls:
        path = call.members.get("path")
        if call.op == "decodeAudioData" and isinstance(path, str) and path not in found:
            try:
                frames = wav_samples.frames_of((folder / path).read_bytes())
            except (OSError, ValueError):
                continue
            if frames is not None:
                found[path] = frames
    return found


def frozen_of(folder: Path, number: int) -> set[str]:
    """The names of the nodes of a context that are frozen, as take.json tells."""
    for told in list_of(summary_of(folder), "contexts"):
        if isinstance(told, dict) and told.get("number") == number:
            return {str(it.get("name")) for it in list_of(told, "frozen") if isinstance(it, dict)}
    return set()


def file_of(path: Path, label: str) -> File | None:
    """A WAV file of a take; None where it is not there."""
    if not path.is_file():
        return None
    data = script_reading.bytes_of(str(path))
    return File(str(path), data, wav_samples.sound_of(data, visible(str(path))), label)


def replay_of(folder: Path, number: int) -> Content:
    """A context of a take with what waplay made of it. It wants its transcript: a take is replayed
    before it is looked at."""
    names = [str(folder / f"{number}{end}") for end in (".json", ".txt")]
    script = script_reading.script_of(script_reading.bytes_of(names[0]))
    if not Path(names[1]).is_file():
        maker = as_called_here("tools/record")
        raise BadInput(f"{visible(names[1])} is not there: {maker} makes it with --replay")
    lines = transcript_reading.lines_of(script_reading.bytes_of(names[1]), visible(names[1]))
    shown = (f"{number}.json", f"{number}.txt")
    session = Session(script, lines, shown, lengths_of(folder, script))
    content = Content(session, f"Context {number}")
    if session.end().word == "completed":
        content.sound = file_of(folder / f"{number}.wav", "waplay")
        content.paths = [f"{number}{end}" for end in (".json", ".txt", ".wav")]
        content.paths_of = "the folder of the take"
    return content


def content_of(folder: Path, number: int, tolerance: float) -> Content:
    """A context of a take, with what the browser rendered and what the recorder told."""
    content = replay_of(folder, number)
    if content.sound:
        content.other = file_of(folder / f"{number}.browser.wav", BROWSER)
    if content.sound and content.other:
        content.differences = Differences(content.sound.sound, content.other.sound, tolerance)
    content.frozen = frozen_of(folder, number)
    report = folder / f"{number}.report.txt"
    if report.is_file():
        told = script_reading.bytes_of(str(report)).decode(errors="replace")
        content.losses, content.lines, content.verdict = losses_of(told)
    return content


# What take.json may tell of a piece, and how it is called in a page.
_FACTS = {
    "page": "Page",
    "title": "Title",
    "date": "Recorded",
    "browser": "Browser",
    "program": "waplay",
    "digest": "Digest of waplay",
}


def _facts(told: dict[str, Any], contents: list[Content]) -> Facts:
    """What is known of a piece."""
    facts: Facts = [(name, str(told[key])) for key, name in _FACTS.items() if told.get(key)]
    verdicts = list(dict.fromkeys(it.verdict for it in contents if it.verdict))
    if verdicts:
        facts.append(("Verdict", ", ".join(verdicts)))
    losses = list(dict.fromkeys(loss.kind for it in contents for loss in it.losses))
    facts.append(("Losses", ", ".join(losses) or "none"))
    return facts


def heading_of(folder: Path, contents: list[Content]) -> Heading:
    """What the page of a take is headed by."""
    told = summary_of(folder)
    page = str(told.get("page") or folder.absolute().name)
    title = str(told.get("title") or page.rstrip("/").rsplit("/", 1)[-1] or page)
    found = [Finding("doubtful", f"{line}.") for line in list_of(told, "missing")]
    reason = str(told.get("reason") or "")
    if reason and not reason.startswith("context "):  # which that context tells itself
        found.append(Finding("bad", f"The recorder ended with {told.get('status')}: {reason}"))
    return Heading(title, _facts(told, contents), found)


def take_of(path: str, tolerance: float = TOLERANCE) -> tuple[Heading, list[Content]]:
    """What a take is headed by, and its contexts. A context that can't be shown has a sentence at
    the top; where none can, it raises BadInput."""
    folder = Path(path)
    contents, faults = [], []
    for number in numbers_of(folder):
        try:
            contents.append(content_of(folder, number, tolerance))
        except BadInput as bad:
            faults.append((number, bad))
    if not contents:
        raise faults[0][1]
    heading = heading_of(folder, contents)
    heading.findings += [Finding("bad", f"Context {number} can't be shown: {bad}.")
                         for number, bad in faults]
    return heading, contents
