"""Keeps takes in an archive, and verifies that they still are what they were.

add puts takes into the folder: each becomes a BagIt bag (RFC 8493) with its page, script, assets,
transcript, sounds and report, and the digest of the program that made them. verify checks every bag
by its digests, replays every script with the program that is there, and says which transcript or
sample is another one. list tells what is there.

The status is 0; 1 where something is not as it was kept; 2, with a sentence on standard error,
where it could not be done.
"""

import argparse
import concurrent.futures.process
import contextlib
import importlib
import os
import sys
from collections.abc import Iterator
from pathlib import Path
from typing import Any

from waplay_tools.archive import adding, cluster, processes, summary, verifying
from waplay_tools.archive.adding import LIST, Program
from waplay_tools.archive.verifying import Result
from waplay_tools.places import as_called_here
from waplay_tools.recorder.replaying import find_program
from waplay_tools.reporting import checks
from waplay_tools.reporting.text import BadInput, counted, visible


def parser() -> argparse.ArgumentParser:
    """The words of the command line."""
    made = argparse.ArgumentParser(
        prog=as_called_here("tools/archive"),
        description=__doc__,
        formatter_class=argparse.RawDescriptionHelpFormatter,
        usage="%(prog)s add FOLDER TAKE.. | verify FOLDER | list FOLDER [options]",
    )
    made.add_argument("act", choices=("add", "verify", "list"), help="what is to be done")
    made.add_argument("folder", metavar="FOLDER", type=Path, help="the archive")
    made.add_argument("takes", metavar="TAKE", type=Path, nargs="*", help="folders of takes to add")
    made.add_argument(
        "--waplay", metavar="PATH", default=os.environ.get("WAPLAY"),
        help="the program that replays; also the variable WAPLAY; that of this checkout by default",
    )
    made.add_argument(
        "--processes", metavar="N", type=int, default=len(os.sched_getaffinity(0)),
        help="how many bags are worked on side by side; as many as there are processors by default",
    )
    made.add_argument(
        "--scheduler", metavar="ADDRESS",
        help="verify: send the replays to a Dask cluster, as tcp://127.0.0.1:8786",
    )
    made.add_argument(
        "--anew", action="store_true",
        help="verify: begin again, where an earlier run was stopped",
    )
    made.add_argument("--junit", metavar="FILE", help="verify: write JUnit XML there")
    made.add_argument("--tap", metavar="FILE", help="verify: write lines of TAP there")
    return made


def program_of(words: argparse.Namespace) -> Program:
    """The program that replays."""
    path, reason = find_program(words.waplay)
    if path is None:
        raise BadInput(reason)
    return Program.at(path)


def bar(total: int, done: int) -> Any:
    """A progress bar on standard error, where that is a terminal and tqdm is installed."""
    try:
        tqdm = importlib.import_module("tqdm")
    except ImportError:
        return contextlib.nullcontext()
    return tqdm.tqdm(total=total, initial=done, unit="bag", disable=None)


def add(words: argparse.Namespace) -> int:
    """Adds takes, side by side, each of which gets its line of the list as soon as it is there."""
    if not words.takes:
        raise BadInput("add wants the folders of takes")
    program = program_of(words)
    words.folder.mkdir(parents=True, exist_ok=True)
    (words.folder / LIST).touch()
    taken = set(adding.listed(words.folder)[0])
    named = {}
    for take in words.takes:
        name = adding.name_for(words.folder, take, taken)
        taken.add(name)
        named[name] = take
    status = 0
    with processes.pool(words.processes) as made:
        waiting = [made.submit(adding.prepare, words.folder, take, name, program)
                   for name, take in named.items()]
        with (words.folder / LIST).open("a", encoding="utf-8") as file, bar(len(named), 0) as shown:
            for future in concurrent.futures.as_completed(waiting):
                try:
                    adding.accept(words.folder, future.result(), file)
                except BadInput as bad:
                    print(f"archive: {bad}", file=sys.stderr)
                    status = 2
                if shown is not None:
                    shown.update()
    print(f"{counted(len(adding.listed(words.folder)[0]), 'bag')} in {visible(str(words.folder))}")
    return status


def results_of(words: argparse.Namespace, program: Program, left: dict[str, str]) -> Iterator:
    """The results of the bags that are left, as they come."""
    if words.scheduler:
        return cluster.on_a_cluster(words.folder, left, program, words.scheduler)
    return verifying.on_this_machine(words.folder, left, program, words.processes)


def verify(words: argparse.Namespace) -> int:
    """Verifies an archive, and goes on with a run that was stopped."""
    program = program_of(words)
    listed, wrong_list = adding.listed(words.folder)
    ledger = verifying.Ledger(words.folder, program, words.anew)
    if ledger.done:
        print(f"{counted(len(ledger.done), 'bag was', 'bags were')} verified before; going on.")
    left = {name: it["digest"] for name, it in listed.items() if name not in ledger.done}
    with bar(len(listed), len(ledger.done)) as shown:
        for result in results_of(words, program, left):
            ledger.add(result)
            if shown is not None:
                shown.update()
    ledger.finish()
    results = list(ledger.done.values())
    summary.write(words.folder, results, wrong_list, program)
    tell(words, results, wrong_list)
    return int(bool(wrong_list) or any(it.wrong for it in results))


def tell(words: argparse.Namespace, results: list[Result], wrong_list: list[str]) -> None:
    """Prints what is wrong, and writes what test suites read."""
    wrong = sorted((it for it in results if it.wrong), key=lambda it: it.bag)
    for text in wrong_list:
        print(text)
    for result in wrong:
        for text in result.wrong:
            print(f"{result.bag}: {text}")
    count = len(results) - len(wrong)
    print(f"{count} of {counted(len(results), 'bag is', 'bags are')} as kept")
    found = [checks.Check(it.bag, "; ".join(it.wrong), it.seconds) for it in results]
    found += [checks.Check(LIST, text) for text in wrong_list]
    if words.junit:
        text = checks.junit(words.folder.name, found)
        Path(words.junit).write_text(text, encoding="utf-8")
    if words.tap:
        Path(words.tap).write_text(checks.tap(found), encoding="utf-8")


def show(words: argparse.Namespace) -> int:
    """Prints a line for each bag."""
    listed, wrong = adding.listed(words.folder)
    for name, told in sorted(listed.items()):
        contexts = counted(int(told.get("contexts", 0)), "context")
        page = visible(str(told.get("page", "")))
        print(f"{name}  {contexts}  waplay {str(told.get('program', ''))[:12]}  {page}")
    for text in wrong:
        print(text)
    return int(bool(wrong))


ACTS = {"add": add, "verify": verify, "list": show}


def main() -> int:
    """Does what is asked for."""
    words = parser().parse_args()
    processes.stop_at_signals()
    try:
        if words.act != "add" and words.takes:
            raise BadInput(f"{words.act} takes the folder of an archive alone")
        if words.processes < 1:
            raise BadInput("--processes wants 1 or more")
        return ACTS[words.act](words)
    except BadInput as bad:
        print(f"archive: {bad}", file=sys.stderr)
    except OSError as fault:
        where = visible(str(fault.filename or words.folder))
        print(f"archive: {where} can't be used: {fault.strerror}", file=sys.stderr)
    except concurrent.futures.process.BrokenProcessPool:
        print("archive: a process of its own was ended; the same command goes on", file=sys.stderr)
    except KeyboardInterrupt:
        print("archive: stopped; the same command goes on", file=sys.stderr)
    return 2


if __name__ == "__main__":
    sys.exit(main())
