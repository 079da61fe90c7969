"""The folder that a case's run stands in: its files before, and what is there after."""

import base64
import hashlib
from collections.abc import Callable
from pathlib import Path
from typing import Any

from waplay_tools import wav
from waplay_tools.cases.expansion import runs_in, script_bytes
from waplay_tools.expecting.reading import script_of
from waplay_tools.expecting.writing import script_text
from waplay_tools.places import TOP

# A file's content: its bytes, how many zero bytes, or None for a folder.
Content = bytes | int | None


def content_of(told: dict[str, Any]) -> Content:
    """What a file has that is told so."""
    ((form, value),) = told.items()
    if form == "wav":
        channels = [runs_in(channel) for channel in value["channels"]]
        return wav.wav_bytes(wav.Form(len(channels), value["rate"], value["bits"]), channels)
    readings: dict[str, Callable[[], Content]] = {
        "hex": lambda: bytes.fromhex("".join(value) if isinstance(value, list) else value),
        "base64": lambda: base64.b64decode(value),
        "text": lambda: value.encode(),
        "lines": lambda: "".join(f"{line}\n" for line in value).encode(),
        "zeros": lambda: value,
        "folder": lambda: None,
        "copy": lambda: (TOP / value).read_bytes(),
        "script": lambda: script_text(script_of(script_bytes(value))),
    }
    return readings[form]()


def each_file(files: dict[str, Any]) -> dict[str, Any]:
    """The files of a case, where one with fronts is a file for each of them."""
    made = {}
    for path, told in files.items():
        if "fronts" not in told:
            made[path] = told
            continue
        data = content_of(told["fronts"])
        assert isinstance(data, bytes)
        for length in range(len(data) + 1):
            made[path.replace("{n}", str(length))] = {"hex": data[:length].hex()}
    return made


def write_files(folder: Path, files: dict[str, Any]) -> None:
    """Writes the files of a case into its folder."""
    for path, told in each_file(files).items():
        content = content_of(told)
        target = folder / path
        target.parent.mkdir(parents=True, exist_ok=True)
        if content is None:
            target.mkdir(exist_ok=True)
        elif isinstance(content, int):
            with target.open("wb") as file:
                file.truncate(content)
        else:
            target.write_bytes(content)


def _is_so(target: Path, told: dict[str, Any]) -> bool:
    if "sha256" in told:
        is_file = target.is_file()
        return is_file and hashlib.sha256(target.read_bytes()).hexdigest() == told["sha256"]
    content = content_of(told)
    if content is None:
        return target.is_dir()
    if not target.is_file() or target.is_symlink():
        return False
    if isinstance(content, int):
        return target.stat().st_size == content
    return target.read_bytes() == content


def changes_in(
    folder: Path, files: dict[str, Any], left: dict[str, Any], out: str | None
) -> list[str]:
    """What stands in the folder otherwise than it must. The file `out` is looked at elsewhere."""
    all_files = {**each_file(files), **left}
    wanted = {path: told for path, told in all_files.items() if told is not None}
    folders = {str(parent) for path in wanted for parent in Path(path).parents}
    differences = [
        f"left in the folder: {path} is not what it must be"
        for path, told in wanted.items()
        if path != out and not _is_so(folder / path, told)
    ]
    for target in sorted(folder.rglob("*")):
        path = str(target.relative_to(folder))
        if path not in wanted and path not in folders and path != out:
            differences.append(f"left in the folder: {path}, which must not be there")
    return differences
