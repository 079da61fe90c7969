"""A case's script, migrated, run again, and migrated again."""

import base64
import dataclasses
import tempfile
from collections.abc import Callable
from pathlib import Path

from waplay_tools.cases.__main__ import case_at
from waplay_tools.cases.case import Case
from waplay_tools.cases.performers import Outcome, calculate, perform
from waplay_tools.cases.words import words_of

OUT = "out.json"
MOST = 16777216  # bytes of a script
BAD_WORDS, WAV_FAULT = 2, 9  # statuses
Run = Callable[[Case], Outcome]


def runner(program: Path | None) -> Run:
    """What runs a case: the program, or the second calculation where there is none."""

    def run(case: Case) -> Outcome:
        """Runs the case in a folder of its own."""
        with tempfile.TemporaryDirectory(prefix="waplay-migration-") as folder:
            place = Path(folder)
            return calculate(case, place) if program is None else perform(program, case, place)

    return run


def is_session(case: Case, program: Path | None) -> bool:
    """Whether a case is a session that can be migrated: of waplay, with words for a script that is
    read, a place for OUT, and streams that do not fail."""
    asked = words_of(case.words)
    is_run = program is not None or case.only_program is None
    is_replayed = case.program == "waplay"
    is_plain = case.output is None and case.file_most is None and not case.fronts
    is_read = case.input_bytes() is not None and case.input_zeros is None and not case.input_folder
    has_place = case.status not in (BAD_WORDS, WAV_FAULT)
    is_asked = asked is not None and not asked.is_generated and has_place
    return is_run and is_replayed and is_plain and is_read and is_asked


def migrating(case: Case) -> Case:
    """The case's script in mode migrate. What it leaves is looked at as a file."""
    return dataclasses.replace(case, words=["--mode", "migrate", OUT], is_example=True)


def with_script(case: Case, script: bytes) -> Case:
    """The case with another script."""
    told = {"script": None, "input": None}
    return dataclasses.replace(case, **told, input_base64=base64.b64encode(script).decode())


def unlike(one: Outcome, other: Outcome, what: str) -> list[str]:
    """In what two runs differ that have to be alike."""
    pairs = [
        ("status", one.status, other.status),
        ("lines", one.text, other.text),
        ("file", one.file, other.file),
    ]
    return [f"{what}: another {name}" for name, it, that in pairs if it != that]


def plain_of(case: Case) -> Case:
    """The case as it is run beside its migration, which is not one itself."""
    asked = words_of(case.words)
    words = ["out.wav"] if asked and asked.mode == "migrate" else case.words
    return dataclasses.replace(case, words=words, is_example=True, left={})


def look(case: Case, run: Run) -> list[str]:
    """What differs where a case's script is migrated and then run in its place."""
    plain = plain_of(case)
    first, found = run(plain), run(migrating(plain))
    wanted = run_second(migrating(plain)).file if case.only_program is None else found.file
    wrong = unlike(dataclasses.replace(first, file=wanted), found, "migrated")
    script = found.file
    if script is None or len(script) > MOST or wrong:
        return wrong
    other = with_script(plain, script)
    wrong += unlike(first, run(other), "the migrated script")
    return wrong + unlike(found, run(migrating(other)), "migrated again")


run_second = runner(None)


def differences_of_case(program: Path | None, path: Path) -> list[str]:
    """What differs at the case of a file; nothing where it is no session."""
    try:
        case = case_at(path)
        # A file that is there before would be taken for one that was left.
        case = dataclasses.replace(
            case, files={it: told for it, told in case.files.items() if it != "out.wav"}
        )
        return look(case, runner(program)) if is_session(case, program) else []
    except (OSError, ValueError, KeyError, TypeError) as fault:
        return [f"{type(fault).__name__}: {fault}"]
