"""What may stand after a run: docs/FORMATS.md, "What stands after each status", as a judgement."""

import dataclasses
import os
from pathlib import Path

TRANSCRIPT_FAULT, WAV_FAULT, NO_MEMORY = 8, 9, 10
UNWRITTEN = {5: "ScriptTooLong", 6: "ScriptFault", 7: "AssetFault"}  # they write nothing
STATUSES = (0, 2, 3, 4, 5, 6, 7, 8, 9, 10)

Files = dict[str, bytes | None]  # those of a folder by their paths; None is a folder


@dataclasses.dataclass(frozen=True)
class Answer:
    """What a run has to come to where nothing fails: its status, its text, and the bytes of OUT;
    None where it leaves OUT alone."""

    status: int
    text: bytes
    file: bytes | None


def files_in(folder: Path) -> Files:
    """The files of a folder and of those below it, and where a link leads."""
    found: Files = {}
    for place, folders, names in os.walk(os.fsencode(folder)):
        for name in folders + names:
            path = os.path.join(place, name)
            told = os.fsdecode(os.path.relpath(path, os.fsencode(folder)))
            if os.path.islink(path):
                found[told] = b"link to " + os.readlink(path)
            elif os.path.isdir(path):
                found[told] = None
            elif os.path.isfile(path):
                found[told] = Path(os.fsdecode(path)).read_bytes()
            else:
                found[told] = b"of another kind"
    return found


def changed_in(before: Files, after: Files, out: str | None) -> list[str]:
    """The files that are not as before, but for OUT."""
    paths = sorted({*before, *after} - {out})
    absent = object()
    return [
        f"{path!r} in the folder is not as before"
        for path in paths
        if before.get(path, absent) != after.get(path, absent)
    ]


def _text_faults(status: int, text: bytes, answer: Answer) -> list[str]:
    """What is wrong with a text that stands after this status."""
    if status in UNWRITTEN:
        return [] if text == b"" else ["there is a text, and there may be none"]
    if not answer.text.startswith(text):
        return ["the text is no front part of what it has to be"]
    is_whole = text == answer.text
    if status == TRANSCRIPT_FAULT and is_whole:
        return ["the text is whole, where a write of it failed"]
    if status in (answer.status, WAV_FAULT) and status != TRANSCRIPT_FAULT and not is_whole:
        return ["the text is cut"]
    return []


def _file_faults(
    status: int, is_whole: bool, answer: Answer, before: bytes | None, after: bytes | None
) -> list[str]:
    """What is wrong with what stands at OUT after this status, where the text is whole or not."""
    if status == answer.status and answer.file is not None:
        return [] if after == answer.file else ["the file is not what it has to be"]
    if after == before:
        return []
    is_touched = status in (WAV_FAULT, NO_MEMORY) or status < 0
    if not is_touched or answer.file is None:
        return ["OUT is touched"]
    if after is None or not answer.file.startswith(after):
        return ["OUT has no front part of the file"]
    return [] if is_whole else ["OUT is touched, and the text is not whole"]


def wrong_after(
    status: int, text: bytes, out: tuple[bytes | None, bytes | None], answer: Answer
) -> list[str]:
    """What is wrong with what a run left, whose answer is this one where nothing fails. OUT is told
    before and after. A status below 0 is a signal, which leaves front parts."""
    if status >= 0 and status not in (*UNWRITTEN, 8, 9, 10, answer.status):
        return [f"status {status} in place of {answer.status}"]
    is_whole = text == answer.text
    faults = _text_faults(status, text, answer)
    return faults + _file_faults(status, is_whole, answer, *out)
