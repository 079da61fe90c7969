"""Records a page, replays what was recorded, and shows what came of it.

tools/piece PAGE records a page in a headless Chromium, replays each of its contexts with the
program, compares both sounds, and writes all of it into a folder, whose index.html is the page to
look at. A line for each context is printed. --expect compares the take with one that is kept,
--compare OLD NEW compares two takes as tools/compare does, and --all makes a table of all pages of
a folder. docs/RECORDING.md says more.

The status is 0 where nothing is refused, silent or heard to differ and the replay is within the
tolerance; 1 where it is not so, with the worst reason; 2 where nothing was recorded. With --expect
and --compare it is 1 where a call, an answer or a sample differs, and 2 where nothing can be
compared.
"""

import argparse
import os
import shutil
import signal
import sys
import webbrowser
from pathlib import Path

from waplay_tools.chromium import BrowserFault
from waplay_tools import compare
from waplay_tools.piece import comparing, table, taking
from waplay_tools.piece.taking import NOTHING
from waplay_tools.places import as_called_here
from waplay_tools.recorder import take
from waplay_tools.recorder.bundle import NoBundle
from waplay_tools.recorder.command import (Refused, count, piece_length, positive, stop_at,
                                           wishes_of)
from waplay_tools.reporting import checks
from waplay_tools.reporting.text import BadInput
from waplay_tools.reporting.tolerances import tolerance
from waplay_tools.reporting.wav_samples import TOLERANCE


def add_recording(add: argparse._ArgumentGroup) -> None:
    """The options that say how a page is recorded."""
    add.add_argument("--root", type=Path, metavar="FOLDER",
                     help="the folder that is served, in which the page is; its own by default")
    add.add_argument("--realtime", type=piece_length, default=0, metavar="SECONDS",
                     help="record a real-time piece of this length")
    add.add_argument("--click", metavar="SELECTOR",
                     help="click on this element once the page is loaded")
    add.add_argument("--do", type=Path, metavar="ACTIONS.js",
                     help="clicks, keys and the like over time, which docs/RECORDING.md tells of")
    add.add_argument("--contexts", type=count, default=0, metavar="N",
                     help="wait for this many contexts")
    add.add_argument("--until", metavar="EXPRESSION", help="wait until this holds in the page")
    add.add_argument("--quiet", type=positive, default=1, metavar="SECONDS",
                     help="how long nothing new must come; 1 by default")
    add.add_argument("--timeout", type=positive, default=60, metavar="SECONDS",
                     help="how long the page has, 60 by default, and four times its length more")
    add.add_argument("--loops-as-browser", action="store_true",
                     help="make loops through delays as long as Chromium has them")
    add.add_argument("--plain", action="store_true",
                     help="rewrite nothing of what a script has no word for")


def parser() -> argparse.ArgumentParser:
    """The options, and a word on each."""
    made = argparse.ArgumentParser(prog=as_called_here("tools/piece"),
                                   description=as_called_here(__doc__),
                                   formatter_class=argparse.RawDescriptionHelpFormatter)
    add = made.add_argument
    add("page", nargs="?", help="the HTML file, or the URL of a page that is served")
    add("-o", "--out", type=Path, metavar="OUT",
        help="the folder that gets the files, PAGE.waplay by default; an earlier piece in it is "
             "removed first. With --compare it is the page that is written.")
    add("--compare", nargs=2, type=Path, metavar=("OLD", "NEW"),
        help="compare two takes, by their folders")
    add("--expect", type=Path, metavar="KEPT",
        help="compare the new take with one that is kept, by its folder")
    compare.add_results(made)
    add("--all", type=Path, metavar="FOLDER", help="make a table of all pages of a folder")
    add_recording(made.add_argument_group("how a page is recorded"))
    add("--tolerance", type=tolerance, metavar="VALUE",
        help="what a replay may differ by: from the browser, 2^-16 by default; from that of the "
             "other take, 0 by default")
    add("--open", action="store_true", help="show the page that was made in a browser")
    add("--waplay", default=os.environ.get("WAPLAY"), metavar="PATH",
        help="the program that replays; also the variable WAPLAY; that of this checkout by default")
    add("--chromium", default=os.environ.get("CHROMIUM"), metavar="PATH",
        help="the browser; also the variable CHROMIUM")
    return made


def tell(text: str) -> None:
    """Says on standard error what is being done."""
    print(f"{text} ..", file=sys.stderr, flush=True)


def run_one(words: argparse.Namespace) -> tuple[int, str]:
    """Takes one piece. Gives the status, and why it is not 0."""
    out = words.out or taking.default_out(words.page)
    if words.expect:
        comparing.check_kept(words.expect, out)
    piece = taking.take_piece(words, wishes_of(words), out, tell)
    for context in piece.contexts:  # lines of TAP have standard output for themselves
        print(f"{context.line} -> {piece.shown}", file=sys.stderr if words.tap else sys.stdout)
    for line in filter(None, [piece.no_page, *piece.taken.troubles[:20], *piece.taken.missing]):
        print(line, file=sys.stderr)
    show(words, piece.shown)
    if words.expect:
        return comparing.compare_takes(words, words.expect, out, out / "compared.html")
    return piece.status, piece.reason


def run_compare(words: argparse.Namespace) -> tuple[int, str]:
    """Compares two takes. Gives the status, and why it is not 0."""
    old, new = words.compare
    page = words.out or new / "compared.html"
    found = comparing.compare_takes(words, old, new, page)
    show(words, page)
    return found


def show(words: argparse.Namespace, path: Path) -> None:
    """Shows a page in a browser where that is asked for."""
    if words.open:
        webbrowser.open(path.absolute().as_uri())


def check_words(words: argparse.Namespace) -> None:
    """Refuses words that do not go together."""
    if sum(map(bool, (words.page, words.compare, words.all))) != 1:
        raise Refused("It takes one of PAGE, --compare OLD NEW and --all FOLDER.")
    if words.expect and not words.page:
        raise Refused("--expect is for a PAGE.")
    if (words.junit or words.tap) and not (words.compare or words.expect):
        raise Refused("--junit and --tap are for --compare and --expect.")
    if words.junit:
        checks.junit_module()


def run(words: argparse.Namespace) -> tuple[int, str]:
    """Does what is asked for. Gives the status, and why it is not 0."""
    check_words(words)
    words.apart = words.tolerance or 0.0  # of two replays, which agree to the last bit
    if words.tolerance is None:
        words.tolerance = TOLERANCE
    if words.waplay:
        words.waplay = shutil.which(words.waplay) or words.waplay
    if words.compare:
        return run_compare(words)
    if words.all:
        return table.run(words, parser(), tell)
    return run_one(words)


def main() -> int:
    """Runs the command, and gives its status."""
    words = parser().parse_args()
    for number in (signal.SIGTERM, signal.SIGHUP):
        signal.signal(number, stop_at)
    try:
        status, reason = run(words)
    except (BadInput, BrowserFault, NoBundle, Refused, take.NoTake) as fault:
        status, reason = NOTHING, str(fault)
    except OSError as fault:
        status, reason = NOTHING, f"{fault.filename or 'A file'} cannot be used: {fault.strerror}."
    except KeyboardInterrupt:
        status, reason = NOTHING, "Stopped."
    if status:
        print(as_called_here(f"tools/piece: {reason}"), file=sys.stderr)
    return status


if __name__ == "__main__":
    sys.exit(main())
