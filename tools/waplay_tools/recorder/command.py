"""The command line of the recorder."""

import argparse
import dataclasses
import datetime
import hashlib
import json
import os
import shutil
import signal
import sys
from pathlib import Path
from types import FrameType

from waplay_tools.chromium import BrowserFault, find_chromium
from waplay_tools.places import as_called_here
from waplay_tools.recorder import take
from waplay_tools.recorder.bundle import NoBundle
from waplay_tools.recorder.driving import Take, Wishes, record
from waplay_tools.recorder.replaying import Replay, find_program, replay
from waplay_tools.recorder.results import Recorded
from waplay_tools.reporting.tolerances import tolerance
from waplay_tools.reporting.wav_samples import TOLERANCE

DESCRIPTION = """Records the Web Audio calls of a page as scripts for waplay. It opens the page in a
headless Chromium, with the recorder in front of it. For each context N that starts rendering, the
folder OUT gets N.json (the script), N-bK.wav (buffers), N.browser.wav (what the browser rendered)
and N.report.txt (what was lost). docs/RECORDING.md says more."""

EPILOG = """The status is 0; 1 where something was refused, the page threw an exception, or
something that was asked for did not come (with --strict also where something is heard to differ,
with --exact also where anything was rounded, rewritten or frozen); 2 where nothing was recorded;
3 where a recording is silent; 4 where a replay differs, fails or has no program. Of several it is
the greatest."""

FINE, LOST, NOTHING, SILENT, DIFFERS = range(5)
MOST_LINES = 20  # on what went wrong in a page


def positive(text: str) -> float:
    """A number of seconds above 0."""
    seconds = float(text)
    if not 0 < seconds <= 86400:
        raise argparse.ArgumentTypeError("it takes seconds above 0, up to 86400")
    return seconds


def piece_length(text: str) -> float:
    """The length of a real-time piece."""
    seconds = float(text)
    if not 0 < seconds <= 3600:
        raise argparse.ArgumentTypeError("it takes seconds above 0, up to 3600")
    return seconds


def count(text: str) -> int:
    """A number of contexts."""
    number = int(text)
    if number < 1:
        raise argparse.ArgumentTypeError("it takes a number from 1 on")
    return number


def parser() -> argparse.ArgumentParser:
    """The options, and a word on each."""
    made = argparse.ArgumentParser(prog=as_called_here("tools/record"),
                                   description=DESCRIPTION, epilog=EPILOG)
    add = made.add_argument
    add("page", help="the HTML file, or the URL of a page that is served")
    add("out", metavar="OUT", type=Path,
        help="the folder that gets the files; an earlier take in it is removed first")
    add("--root", type=Path, metavar="FOLDER",
        help="the folder that is served, in which the page is; the page's own by default")
    add("--realtime", type=piece_length, default=0, metavar="SECONDS",
        help="record a real-time piece of this length")
    add("--click", metavar="SELECTOR", help="click on this element once the page is loaded")
    add("--do", type=Path, metavar="ACTIONS.js",
        help="clicks, keys and the like over time, which docs/RECORDING.md tells of")
    add("--plain", action="store_true",
        help="rewrite nothing of what a script has no word for")
    add("--loops-as-browser", action="store_true",
        help="make loops through delays as long as Chromium has them")
    add("--seconds", action="store_true",
        help="write scripts of version 2, whose times are seconds")
    add("--contexts", type=count, default=0, metavar="N", help="wait for this many contexts")
    add("--until", metavar="EXPRESSION", help="wait until this holds in the page")
    add("--quiet", type=positive, default=1, metavar="SECONDS",
        help="how long nothing new must come before the page is taken to be done; 1 by default")
    add("--timeout", type=positive, default=60, metavar="SECONDS",
        help="how long the page has, 60 by default, and four times the length of its pieces more")
    add("--strict", action="store_true",
        help="end with 1 where something is heard to differ, too")
    add("--exact", action="store_true",
        help="end with 1 where anything was rounded, rewritten or frozen, too")
    add("--replay", action="store_true",
        help="replay the scripts and compare them with the browser")
    add("--tolerance", type=tolerance, default=TOLERANCE, metavar="VALUE",
        help="the difference from which a replay differs, 2^-16 by default")
    add("--waplay", default=os.environ.get("WAPLAY"), metavar="PATH",
        help="the program that replays; also the variable WAPLAY; that of this checkout by default")
    add("--chromium", default=os.environ.get("CHROMIUM"), metavar="PATH",
        help="the browser; also the variable CHROMIUM")
    return made


class Refused(Exception):
    """Why nothing can be recorded, in one sentence."""


def wishes_of(words: argparse.Namespace) -> Wishes:
    """What is to be recorded."""
    names = {field.name for field in dataclasses.fields(Wishes)}
    wishes = Wishes(**{name: value for name, value in vars(words).items() if name in names})
    if wishes.is_url:
        if wishes.root:
            raise Refused("--root is for a file, and a URL is served already.")
        return wishes
    if wishes.do and not wishes.do.is_file():
        raise Refused(f"There is no file of actions {wishes.do}.")
    if not os.path.isfile(wishes.page):
        raise Refused(f"There is no page {wishes.page}.")
    if wishes.root:
        if not wishes.root.is_dir():
            raise Refused(f"There is no folder {wishes.root}.")
        if not Path(wishes.page).absolute().is_relative_to(wishes.root.absolute()):
            raise Refused(f"{wishes.page} is not in the folder {wishes.root}.")
    return wishes


@dataclasses.dataclass
class Ending:
    """The status of a run so far, and why it is not 0."""

    status: int = FINE
    reason: str = ""

    def add(self, status: int, reason: str) -> None:
        """Notes one more reason. The greatest status counts, and its first reason."""
        if status > self.status:
            self.status, self.reason = status, reason


def judge(words: argparse.Namespace, recorded: Recorded, ending: Ending) -> None:
    """What a recording means for the status."""
    name = f"context {recorded.number}"
    wanted = ["refused"]
    wanted += ["heard"] if words.strict or words.exact else []
    wanted += ["frozen", "lowered", "rounded"] if words.exact else []
    found = next((grade for grade in wanted if grade in recorded.grades), None)
    if found:
        ending.add(LOST, f"{name}: {recorded.kind_of(found)} is {found}")
    if recorded.is_silent:
        ending.add(SILENT, f"{name} is silent")


def replay_one(words: argparse.Namespace, recorded: Recorded, ending: Ending) -> Replay:
    """Replays a context where there is a program."""
    program, reason = find_program(words.waplay)
    if program is None:
        replayed = Replay([f"replay: none, {reason}"], "fails")
    else:
        replayed = replay(program, words.out, recorded, words.tolerance)
    if replayed.outcome != "agrees":
        ending.add(DIFFERS, f"context {recorded.number}: {replayed.lines[0]}")
    if replayed.is_silent:
        ending.add(SILENT, f"context {recorded.number}: its replay is silent")
    return replayed


def write(words: argparse.Namespace, taken: Take, ending: Ending) -> None:
    """Writes the files, and prints a line for each context and what is to be said of it."""
    for recorded in taken.contexts:
        recorded.write(words.out)
        judge(words, recorded, ending)
        lines = replay_one(words, recorded, ending).lines if words.replay else []
        recorded.write_report(words.out, lines)
        print(f"context {recorded.number}: {recorded.verdict}, {recorded.seconds:.4g} s")
        for line in [*recorded.worst_lines(), *recorded.sound_lines(), *lines]:
            print(f"  {line}")
    for line in [*taken.troubles[:MOST_LINES], *taken.missing]:
        print(line)
    if len(taken.troubles) > MOST_LINES:
        print(f"and {len(taken.troubles) - MOST_LINES} lines more, which the reports have")
    for fault in taken.faults:
        print(f"a fault of the recorder: {fault.splitlines()[0]}")
    for text in [*taken.exceptions, *taken.missing][:1]:
        ending.add(LOST, text if text.startswith("the page") else f"the page {text}")
    write_summary(words, taken, ending)


def write_summary(words: argparse.Namespace, taken: Take, ending: Ending) -> None:
    """Writes take.json: what the take is of, for programs that read it."""
    contexts = [{"number": each.number, "verdict": each.verdict, "seconds": each.seconds,
                 "silent": each.is_silent, "losses": each.kinds, "frozen": each.frozen,
                 "live": each.live} for each in taken.contexts]
    now = datetime.datetime.now(datetime.timezone.utc).isoformat(timespec="seconds")
    summary = {"page": words.page, "title": taken.title, "date": now, "browser": taken.browser,
               **program_told(words), "status": ending.status, "reason": ending.reason,
               "contexts": contexts, "troubles": taken.troubles, "missing": taken.missing}
    text = json.dumps(summary, indent=2, ensure_ascii=False) + "\n"
    (words.out / "take.json").write_text(text, encoding="utf-8")


def program_told(words: argparse.Namespace) -> dict[str, str]:
    """Of the program that replayed, its name and its digest."""
    if not getattr(words, "replay", True):
        return {}
    program = find_program(getattr(words, "waplay", None))[0]
    if program is None:
        return {}
    return {"program": program.name, "digest": hashlib.sha256(program.read_bytes()).hexdigest()}


def stop_at(number: int, _: FrameType | None) -> None:
    """Ends the program where it stands, so that all that is open is closed."""
    signal.signal(number, signal.SIG_IGN)
    raise SystemExit(128 + number)


def run(words: argparse.Namespace) -> Ending:
    """Records a page and writes its files."""
    wishes = wishes_of(words)
    chromium = find_chromium(words.chromium)
    if not chromium:
        raise Refused(f"There is no browser {words.chromium}." if words.chromium
                      else "No Chromium is installed; name one with --chromium.")
    if words.waplay:
        words.waplay = shutil.which(words.waplay) or words.waplay
    take.prepare(words.out)
    ending = Ending()
    write(words, record(wishes, chromium), ending)
    return ending


def main(arguments: list[str]) -> int:
    """Runs the command, and gives its status."""
    words = parser().parse_args(arguments)
    for number in (signal.SIGTERM, signal.SIGHUP):
        signal.signal(number, stop_at)
    try:
        ending = run(words)
    except (BrowserFault, NoBundle, Refused, take.NoTake) as fault:
        ending = Ending(NOTHING, str(fault))
    except OSError as fault:
        reason = f"{fault.filename or words.out} cannot be written: {fault.strerror}."
        ending = Ending(NOTHING, reason)
    except KeyboardInterrupt:
        ending = Ending(NOTHING, "Stopped.")
    if ending.status:
        print(as_called_here(f"tools/record: {ending.reason}"), file=sys.stderr)
    return ending.status
