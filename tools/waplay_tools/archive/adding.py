"""Puts takes into an archive: each as a bag, with its page, what waplay makes of it, and a report.
"""

import dataclasses
import hashlib
import html.parser
import json
import os
import re
import shutil
import subprocess
import urllib.parse
from pathlib import Path
from typing import TextIO

from waplay_tools.archive import bags, performing
from waplay_tools.recorder.take import OURS
from waplay_tools.reporting import page, takes
from waplay_tools.reporting.content import Room
from waplay_tools.reporting.text import BadInput, visible

LIST = "archive.jsonl"
MOST_PAGE_FILES = 200


@dataclasses.dataclass
class Program:
    """The program that replays, and its digest."""

    path: str
    digest: str

    @classmethod
    def at(cls, path: Path) -> "Program":
        """The program at a path."""
        return cls(str(path.absolute()), bags.digest_of(path))


class _Named(html.parser.HTMLParser):
    """The files that a page names."""

    def __init__(self) -> None:
        super().__init__()
        self.found: list[str] = []

    def handle_starttag(self, tag: str, attrs: list[tuple[str, str | None]]) -> None:
        """Notes what an element names."""
        for name, value in attrs:
            is_file = name == "src" or name == "href" and tag == "link"
            if is_file and value and not urllib.parse.urlsplit(value).scheme:
                self.found.append(urllib.parse.unquote(urllib.parse.urlsplit(value).path))


def page_files(told: str) -> dict[str, Path]:
    """The page of a take and the files beside or below it that it names, by their paths in the
    bag; nothing of a page that is no file any more."""
    path = Path(told)
    if not told or not path.is_file():
        return {}
    named = _Named()
    named.feed(path.read_text(encoding="utf-8", errors="replace"))
    found, top = {f"page/{path.name}": path}, path.absolute().parent
    for name in named.found[:MOST_PAGE_FILES]:
        its = Path(os.path.normpath(top / name))
        if its.is_relative_to(top) and its.is_file():
            found[f"page/{its.relative_to(top).as_posix()}"] = its
    return found


def _copied(take: Path, data: Path) -> None:
    """Copies what a take has to the payload of a bag."""
    for path in sorted(take.iterdir()):
        if path.name == "page" and path.is_dir():
            shutil.copytree(path, data / "page")
        elif path.is_file() and (OURS.fullmatch(path.name) or path.suffix == ".wav"):
            shutil.copyfile(path, data / path.name)
    for name, path in page_files(str(takes.summary_of(take).get("page") or "")).items():
        if not (data / name).exists():
            (data / name).parent.mkdir(parents=True, exist_ok=True)
            shutil.copyfile(path, data / name)


def _replayed(data: Path, program: Program) -> None:
    """Replays the scripts of a payload. What a take has of that already has to be the same."""
    for number in takes.numbers_of(data):
        script = (data / f"{number}.json").read_bytes()
        transcript, sound = performing.replay(program.path, script, str(data))
        for name, made in ((f"{number}.txt", transcript), (f"{number}.wav", sound)):
            path = data / name
            if path.exists() and path.read_bytes() != made:
                raise BadInput(f"{name} is another one than this program makes")
            if made is not None:
                path.write_bytes(made)


def _report(data: Path) -> None:
    """Writes the report of a payload. It plays the sounds that lie beside it."""
    heading, contents = takes.take_of(str(data))
    text = page.page(heading, contents, Room(str(data), most=0))
    (data / "report.html").write_text(text, encoding="utf-8")


def name_for(archive: Path, take: Path, taken: set[str]) -> str:
    """A name for a take that no bag of the archive has."""
    base = re.sub(r"[^A-Za-z0-9._-]+", "-", take.absolute().name).strip(".-") or "take"
    name, number = base, 1
    while name in taken or (archive / name).exists():
        number += 1
        name = f"{base}-{number}"
    return name


def unfinished(archive: Path, name: str) -> Path:
    """The folder in which a bag of this name is made."""
    return archive / f".{name}.part"


def prepare(archive: Path, take: Path, name: str, program: Program) -> dict[str, object]:
    """Makes the bag of a take, beside the others and not yet one of them, and gives its line of the
    list. Nothing of it is left where it fails, with a sentence."""
    part = unfinished(archive, name)
    bags.put_away(part)
    try:
        (part / "data").mkdir(parents=True)
        takes.numbers_of(take)
        _copied(take, part / "data")
        _replayed(part / "data", program)
        _report(part / "data")
        told = takes.summary_of(take)
        info = {
            "Bag-Software-Agent": "waplay archive",
            "External-Description": str(told.get("page") or take.name),
            "Waplay-Program-SHA256": program.digest,
        }
        digest = bags.close(part, info)
        contexts = len(takes.numbers_of(part / "data"))
    except (BadInput, OSError, subprocess.TimeoutExpired) as fault:
        bags.put_away(part)
        reason = fault.strerror if isinstance(fault, OSError) else str(fault)
        if isinstance(fault, subprocess.TimeoutExpired):
            reason = f"the program took more than {performing.LIMIT} seconds"
        raise BadInput(f"{visible(str(take))} is not added: {reason}") from None
    return {
        "bag": name,
        "digest": digest,
        "program": program.digest,
        "page": str(told.get("page") or ""),
        "contexts": contexts,
    }


def accept(archive: Path, line: dict[str, object], file: TextIO) -> None:
    """Makes a bag that was prepared one of the archive, and writes its line to the list."""
    name = str(line["bag"])
    unfinished(archive, name).rename(archive / name)
    file.write(json.dumps({**line, "line": line_digest(line)}, ensure_ascii=False) + "\n")
    file.flush()


def line_digest(line: dict[str, object]) -> str:
    """The digest of a line of the list, which stands in it as well."""
    return hashlib.sha256(json.dumps(line, sort_keys=True).encode()).hexdigest()


def listed(archive: Path) -> tuple[dict[str, dict], list[str]]:
    """The lines of the list of an archive, by the names of its bags, and what is wrong with it."""
    path = archive / LIST
    if not path.is_file():
        raise BadInput(f"{visible(str(archive))} is no archive: it has no {LIST}")
    found: dict[str, dict] = {}
    wrong = []
    for number, line in enumerate(path.read_bytes().splitlines(), 1):
        try:
            told = json.loads(line)
            digest = told.pop("line")
            found[told["bag"]] = {**told, "digest": str(told["digest"])}
            if digest != line_digest(told):
                wrong.append(f"line {number} of {LIST}, of {visible(told['bag'])}, was changed")
        except (ValueError, KeyError, TypeError, AttributeError):
            wrong.append(f"line {number} of {LIST} can't be read")
    there = {path.name for path in archive.iterdir() if path.is_dir()}
    bags_there = {name for name in there if not name.startswith(".")}
    wrong += [f"{visible(name)} is no bag of {LIST}" for name in sorted(bags_there - set(found))]
    return found, wrong


def list_digest(archive: Path) -> str:
    """The digest of the list, by which a run that goes on knows that it is of the same archive."""
    return hashlib.sha256((archive / LIST).read_bytes()).hexdigest()
