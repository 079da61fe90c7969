"""Who runs a case: a built program, and the second calculation."""

import dataclasses
import os
from pathlib import Path

from waplay_tools import waexplain, waprune
from waplay_tools.expecting.sessions import file_of, replayed
from waplay_tools.cases.case import Case
from waplay_tools.cases.folder import changes_in, write_files
from waplay_tools.cases.words import words_of
from waplay_tools.running import SECONDS, Terms, run


@dataclasses.dataclass
class Outcome:
    """What a run gave: its status, its text, what it wrote to OUT if anything, and what else is
    wrong."""

    status: int
    text: bytes
    file: bytes | None
    faults: list[str] = dataclasses.field(default_factory=list)


def perform(program: Path, case: Case, folder: Path) -> Outcome:
    """Runs a program on a case, in this empty folder."""
    write_files(folder, case.files)
    given = Path("/") if case.input_folder else case.input_bytes()
    command = [os.fsencode(program), *map(os.fsencode, case.words)]
    done = run(command, folder, Terms(given, case.output, case.file_most))
    if done.is_late:
        return Outcome(-1, b"", None, [f"it did not end within {SECONDS:.0f} seconds"])
    asked = words_of(case.words)
    out = asked.out if asked and case.leaves_a_file() else None
    faults = changes_in(folder, case.files, case.left, out)
    if done.errors:
        faults.append(f"standard error: {done.errors[:200].decode(errors='replace')!r}")
    path = None if out is None else folder / out
    file = path.read_bytes() if path and path.is_file() else None
    return Outcome(done.status, done.text, file, faults)


def calculate(case: Case, folder: Path) -> Outcome:
    """What the second calculation gives for a case, whose files it reads in this empty folder."""
    write_files(folder, case.files)
    if case.program == "waexplain":
        return _explained(case, folder)
    if case.program == "waprune":
        return _pruned(case, folder)
    asked = words_of(case.words)
    if asked is None or asked.is_generated:
        raise ValueError(f"{case.path}: the second calculation has no such words")
    is_checked = asked.mode != "render"
    status, text, session = replayed(case.input_bytes() or b"", str(folder), is_checked)
    file = file_of(session, asked.mode, asked.bits) if session else None
    return Outcome(status, text.encode(), file)


def _explained(case: Case, folder: Path) -> Outcome:
    """What it gives for a case of waexplain, whose files are in this folder."""
    answer = waexplain.answer_to(case.words, case.input_bytes() or b"", str(folder))
    asked = waexplain.request_of(case.words)
    if answer.derivation is not None and isinstance(asked, waexplain.Derive):
        (folder / asked.out).write_text(answer.derivation, encoding="ascii")
    faults = changes_in(folder, case.files, case.left, None)
    return Outcome(answer.status, answer.text.encode(), None, faults)


def _pruned(case: Case, folder: Path) -> Outcome:
    """What it gives for a case of waprune, whose files are in this folder."""
    answer = waprune.answer_to(case.words, case.input_bytes() or b"", str(folder))
    if answer.script is not None:
        (folder / case.words[0]).write_bytes(answer.script)
    faults = changes_in(folder, case.files, case.left, None)
    return Outcome(answer.status, answer.text.encode(), None, faults)
