"""Verifies an archive: checks every bag, replays every script, and compares. A run that was stopped
goes on where it was."""

import concurrent.futures
import dataclasses
import datetime
import json
import time
from collections.abc import Iterator
from pathlib import Path
from typing import Any

from waplay_tools.archive import adding, bags, performing
from waplay_tools.archive.adding import Program
from waplay_tools.archive.bags import Wrong
from waplay_tools.archive.performing import Kept, Outcome, Task
from waplay_tools.archive.processes import pool
from waplay_tools.reporting import transcript_reading, wav_samples
from waplay_tools.reporting.difference import parting
from waplay_tools.reporting.text import BadInput, grouped, quoted
from waplay_tools.reporting.wav_samples import Differences

RESULTS = "verified.jsonl"


@dataclasses.dataclass
class Result:
    """What came of one bag."""

    bag: str
    wrong: list[str]
    contexts: int = 0
    seconds: float = 0.0

    def line(self) -> str:
        """It as a line of JSON."""
        return json.dumps(dataclasses.asdict(self), ensure_ascii=False) + "\n"


def task_of(bag: Path, with_files: bool) -> Task:
    """The scripts of a bag to replay. On another machine their files are wanted as well."""
    data = bag / "data"
    kept = []
    for path in sorted(data.glob("*.json")):
        if not path.stem.isdigit():
            continue
        sound = data / f"{path.stem}.wav"
        digest = bags.digest_of(sound) if sound.is_file() else None
        kept.append(Kept(int(path.stem), bags.digest_of(data / f"{path.stem}.txt"), digest))
    if not with_files:
        return Task(kept, str(data))
    own = {f"{it.number}{end}" for it in kept for end in (".wav", ".browser.wav")}
    names = [path for path in data.iterdir() if path.suffix in (".json", ".wav")]
    return Task(kept, None, {it.name: it.read_bytes() for it in names if it.name not in own})


def differing(bag: Path, outcome: Outcome) -> Iterator[Wrong]:
    """What a replay made otherwise than it is kept: which line, which sample."""
    number, data = outcome.number, bag / "data"
    if outcome.reason:
        yield Wrong(f"data/{number}.json", f"can't be replayed: {outcome.reason}")
        return
    if outcome.transcript is not None:
        yield Wrong(f"data/{number}.txt", _lines_told(data / f"{number}.txt", outcome.transcript))
    kept = data / f"{number}.wav"
    if kept.is_file() and not outcome.has_sound:
        yield Wrong(f"data/{number}.wav", "is not made any more")
    elif outcome.sound is not None:
        yield Wrong(f"data/{number}.wav", _samples_told(kept, outcome.sound))


def _lines_told(path: Path, made: bytes) -> str:
    """In words, at which line a transcript parts from the kept one."""
    kept = path.read_bytes()
    try:
        lines = [transcript_reading.lines_of(data, path.name) for data in (kept, made)]
    except BadInput as bad:
        return f"is another transcript, and no whole one: {bad}"
    place = parting(*lines) or 0
    was, now = (its[place - 1].text if place <= len(its) else "" for its in lines)
    return f"is another transcript from line {place} on: kept {quoted(was)}, made {quoted(now)}"


def _samples_told(path: Path, made: bytes) -> str:
    """In words, at which sample a sound parts from the kept one."""
    if not path.is_file():
        return "is made, and was not kept"
    kept = path.read_bytes()
    try:
        sounds = [wav_samples.sound_of(data, path.name) for data in (kept, made)]
    except BadInput as bad:
        return f"is another file: {bad}"
    found = Differences(sounds[0], sounds[1], 0.0)
    if found.first is None:
        return "is another file with the same samples"
    first = found.first
    return (f"has other samples: {grouped(found.count)} of them, first at frame"
            f" {grouped(first.frame)} of channel {first.channel}, kept {first.here} and made"
            f" {first.there}")


class Ledger:
    """The results of a run as lines of JSON, which a later run goes on from if this one is
    stopped."""

    def __init__(self, archive: Path, program: Program, is_anew: bool) -> None:
        self.path = archive / RESULTS
        self.head = {"program": program.digest, "list": adding.list_digest(archive)}
        self.done = {} if is_anew else self._unfinished()
        if self.done:
            self._keep_whole_lines()
        else:
            begun = {**self.head, "begun": _now()}
            self.path.write_text(json.dumps(begun) + "\n", encoding="utf-8")
        self.file = self.path.open("a", encoding="utf-8")

    def _told(self) -> list[dict[str, Any]]:
        """The lines that are there, but for one that was cut off."""
        if not self.path.is_file():
            return []
        lines = []
        for line in self.path.read_bytes().split(b"\n")[:-1]:
            try:
                lines.append(json.loads(line))
            except ValueError:
                break
        return lines

    def _unfinished(self) -> dict[str, Result]:
        """The results of a run of the same program over the same list that did not come to its
        end."""
        lines = self._told()
        if not lines or "finished" in lines[-1]:
            return {}
        if any(lines[0].get(name) != value for name, value in self.head.items()):
            return {}
        return {line["bag"]: Result(**line) for line in lines[1:]}

    def _keep_whole_lines(self) -> None:
        """Cuts off a line that was not written to its end."""
        text = self.path.read_bytes()
        self.path.write_bytes(text[: text.rfind(b"\n") + 1])

    def add(self, result: Result) -> None:
        """Writes a result at once."""
        self.done[result.bag] = result
        self.file.write(result.line())
        self.file.flush()

    def finish(self) -> None:
        """Writes the last line."""
        wrong = sum(bool(it.wrong) for it in self.done.values())
        told = {"finished": _now(), "bags": len(self.done), "wrong": wrong}
        self.file.write(json.dumps(told) + "\n")
        self.file.close()


def _now() -> str:
    """The time, in UTC."""
    return datetime.datetime.now(datetime.timezone.utc).isoformat(timespec="seconds")


def checked(bag: Path, digest: str, with_files: bool) -> tuple[list[str], Task | None]:
    """What is wrong with a bag by its digests, and what is to be replayed of a good one."""
    wrong = [str(it) for it in bags.check(bag, digest)]
    if wrong:
        return wrong, None
    try:
        return [], task_of(bag, with_files)
    except OSError as fault:
        return [f"{fault.filename} can't be read: {fault.strerror}"], None


def verify_here(bag: Path, digest: str, program: str) -> Result:
    """Checks and replays one bag on this machine."""
    begun = time.monotonic()
    wrong, task = checked(bag, digest, False)
    if task is not None:
        for outcome in performing.perform(task, program):
            wrong += [str(it) for it in differing(bag, outcome)]
    contexts = len(task.contexts) if task else 0
    return Result(bag.name, wrong, contexts, round(time.monotonic() - begun, 4))


def on_this_machine(
    archive: Path, digests: dict[str, str], program: Program, processes: int
) -> Iterator[Result]:
    """The results of bags, side by side on the processors of this machine, as they come."""
    with pool(processes) as made:
        waiting = {
            made.submit(verify_here, archive / name, digest, program.path)
            for name, digest in digests.items()
        }
        for future in concurrent.futures.as_completed(waiting):
            yield future.result()
