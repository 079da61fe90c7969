"""Runs cases on built programs and on the second calculation, side by side."""

import argparse
import concurrent.futures
import itertools
import os
import sys
import tempfile
import time
from pathlib import Path

from waplay_tools.cases.case import Case, CaseFault, read_case
from waplay_tools.cases.changing import changed
from waplay_tools.cases.differences import differences
from waplay_tools.cases.examples import example_of
from waplay_tools.cases.performers import Outcome, calculate, perform
from waplay_tools.places import CASES, EXAMPLES, PROGRAMS, TOP
from waplay_tools.program_words import option_of

SECOND = "the second calculation"
# The files that are run on the cases of each program.
Programs = dict[str, list[Path]]


def words() -> argparse.Namespace:
    """The words of the command line."""
    parser = argparse.ArgumentParser(prog="tools/cases", description=__doc__)
    parser.add_argument(
        "paths",
        nargs="*",
        type=Path,
        metavar="CASE",
        help="a case, an example, or a folder of them; all of them where none is named",
    )
    for name in PROGRAMS:
        told = f"run this one on the cases of {name}; may stand several times; else the shipped one"
        parser.add_argument(
            option_of(name), dest=name, action="append", type=Path, metavar="FILE", help=told
        )
    parser.add_argument(
        "--second-alone", action="store_true", help="run the second calculation and no program"
    )
    parser.add_argument(
        "--changes",
        action="store_true",
        help="change wanted values of each case, one at a time, and say which changes are not told",
    )
    parser.add_argument(
        "--jobs",
        type=int,
        default=len(os.sched_getaffinity(0)),
        help="how many run at a time; one on each processor by default",
    )
    return parser.parse_args()


def files_in(paths: list[Path]) -> list[Path]:
    """The files of the cases and examples at these paths, in order."""
    found: list[Path] = []
    for path in paths or [EXAMPLES, CASES]:  # an example takes as long as a hundred cases
        found += sorted(path.rglob("*.json")) if path.is_dir() else [path]
    return [path.resolve() for path in found]


def case_at(path: Path) -> Case:
    """The case of a file, or the example that stands for one. It raises CaseFault where the file is
    neither."""
    return example_of(path) if path.parent == EXAMPLES else read_case(path)


def outcomes_of(case: Case, programs: list[Path]) -> dict[str, Outcome]:
    """What each performer gives for a case; first the second calculation, where it runs it."""
    found = {}
    with tempfile.TemporaryDirectory(prefix="waplay-case-") as room:
        if case.only_program is None:
            folder = Path(room, "second")
            folder.mkdir()
            found[SECOND] = calculate(case, folder)
        for number, program in enumerate(programs):
            folder = Path(room, str(number))
            folder.mkdir()
            found[str(program)] = perform(program, case, folder)
    return found


def told_of(case: Case, programs: list[Path]) -> dict[str, list[str]]:
    """What is otherwise than a case wants, by performer."""
    told: dict[str, list[str]] = {}
    for which, one in case.each():
        found = outcomes_of(one, programs)
        second = found.get(SECOND)
        for name, outcome in found.items():
            lines = [which + line for line in differences(one, outcome, second)]
            told.setdefault(name, []).extend(lines)
    return told


def looked_at(path: Path, programs: Programs) -> dict[str, list[str]]:
    """The same of the case of a file, which may be none."""
    try:
        case = case_at(path)
        return told_of(case, programs[case.program])
    except (CaseFault, OSError, ValueError, KeyError, TypeError) as fault:
        return {"the case itself": [f"{type(fault).__name__}: {fault}"]}


def changes_untold(path: Path, programs: Programs) -> dict[str, list[str]]:
    """Changes of the case that no performer's outcome tells."""
    _, case = case_at(path).each()[0]
    found = outcomes_of(case, programs[case.program])
    untold = {}
    for what, other in changed(case):
        silent = [name for name, outcome in found.items() if not differences(other, outcome, None)]
        untold[f"with {what} changed"] = [f"not told of {name}" for name in silent]
    return untold


def programs_of(asked: argparse.Namespace) -> Programs:
    """The programs that the command line asks for."""
    if asked.second_alone:
        return {name: [] for name in PROGRAMS}
    return {
        name: [it.resolve() for it in getattr(asked, name) or [shipped]]
        for name, shipped in PROGRAMS.items()
    }


def main() -> int:
    """Runs what the command line names, tells what is otherwise than wanted, and gives the
    status."""
    asked = words()
    programs = programs_of(asked)
    for program in itertools.chain(*programs.values()):
        if not os.access(program, os.X_OK):
            print(f"tools/cases: there is no program {program}", file=sys.stderr)
            return 2
    begun, paths = time.monotonic(), files_in(asked.paths)
    look = changes_untold if asked.changes else looked_at
    passed: dict[str, int] = {}
    failed = 0
    with concurrent.futures.ProcessPoolExecutor(asked.jobs) as pool:
        for path, told in zip(paths, pool.map(look, paths, [programs] * len(paths))):
            for name, lines in told.items():
                passed[name] = passed.get(name, 0) + (not lines)
                failed += bool(lines)
                if lines:
                    print(
                        f"{os.path.relpath(path, TOP)},"
                        f" {os.path.relpath(name, TOP) if name[0] == '/' else name}:"
                    )
                    print("".join(f"    {line}\n" for line in lines), end="")
    for name, number in passed.items():
        print(f"{os.path.relpath(name, TOP) if name[0] == '/' else name}: {number} as wanted")
    print(f"{len(paths)} cases in {time.monotonic() - begun:.0f} s")
    print(f"{sum(passed.values())} passed, {failed} failed")
    return 1 if failed else 0


if __name__ == "__main__":
    sys.exit(main())
