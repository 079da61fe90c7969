"""Takes a piece: records its page, replays its scripts, and makes the page that shows it."""

import argparse
import dataclasses
from collections.abc import Callable
from pathlib import Path

from waplay_tools import report
from waplay_tools.chromium import find_chromium
from waplay_tools.recorder import command, take
from waplay_tools.recorder.command import Ending, Refused
from waplay_tools.recorder.driving import Take, Wishes, record
from waplay_tools.recorder.replaying import Replay, find_program, replay
from waplay_tools.recorder.results import Recorded
from waplay_tools.reporting.text import BadInput

FINE, NO, NOTHING = range(3)


@dataclasses.dataclass
class Context:
    """A context of a piece: what was recorded of it, and what came of its replay."""

    recorded: Recorded
    replay: Replay

    @property
    def worst(self) -> tuple[int, str]:
        """How bad it is, from 0 for fine, and the worst reason in a few words."""
        recorded, replayed = self.recorded, self.replay
        for grade, number in (("refused", 5), ("heard", 1)):
            found = [loss["kind"] for loss in recorded.kinds if loss["grade"] == grade]
            if grade == "heard" and replayed.outcome != "agrees":
                why = "; ".join([replayed.lines[0].removeprefix("replay: "), *found[:1]])
                return (4, why) if replayed.outcome == "fails" else (2, why)
            if found:
                return number, f"{found[0]} is {grade}"
            if grade == "refused" and (recorded.is_silent or replayed.is_silent):
                return 3, "it is silent"
        return 0, ""

    @property
    def line(self) -> str:
        """A line on it."""
        recorded, replayed = self.recorded, self.replay
        parts = [f"{recorded.seconds:.4g} s", recorded.verdict]
        if recorded.frozen:
            parts.append(f"{100 * recorded.live:.0f} % live")
        if replayed.difference is not None:
            text = f"{replayed.difference:.2g}"
            parts.append(f"agrees with the browser to {text}" if replayed.outcome == "agrees"
                         else f"{text} from the browser")
        if self.worst[0]:
            parts.append(self.worst[1])
        return f"{recorded.number}: {', '.join(parts)}"


@dataclasses.dataclass
class Piece:
    """What came of a page."""

    page: str
    out: Path
    contexts: list[Context]
    taken: Take
    status: int = FINE
    reason: str = ""
    no_page: str = ""  # why it has no page

    @property
    def shown(self) -> Path:
        """What is to be looked at: the page, or the folder where there is none."""
        return self.out if self.no_page else self.out / "index.html"


def default_out(page: str) -> Path:
    """The folder of a piece where none is named: beside its page, or here for a URL."""
    if page.startswith(("http://", "https://")):
        return Path((page.rstrip("/").rsplit("/", 1)[-1].split("?")[0] or "page")).with_suffix(
            ".waplay")
    return Path(page).with_suffix(".waplay")


def chromium_of(words: argparse.Namespace) -> str:
    """The browser."""
    found = find_chromium(words.chromium)
    if not found:
        raise Refused(f"There is no browser {words.chromium}." if words.chromium
                      else "No Chromium is installed; name one with --chromium.")
    return found


def replay_of(words: argparse.Namespace, out: Path, recorded: Recorded) -> Replay:
    """Replays a script where there is a program."""
    program, reason = find_program(words.waplay)
    if program is None:
        return Replay([f"replay: none, {reason}"], "fails")
    return replay(program, out, recorded, words.tolerance)


def make_page(piece: Piece, tolerance: float) -> None:
    """Makes the page of a piece, as tools/report does; or notes why there is none."""
    try:
        report.write_take(str(piece.out), str(piece.out / "index.html"), tolerance)
    except BadInput as bad:
        piece.no_page = f"There is no page of it: {bad}."


def judge(piece: Piece) -> None:
    """The status of a piece, and the worst reason in one sentence."""
    reasons = [(context.worst[0], f"context {context.recorded.number}: {context.worst[1]}")
               for context in piece.contexts if context.worst[0]]
    reasons += [(6, text if text.startswith("the page") else f"the page {text}")
                for text in [*piece.taken.exceptions, *piece.taken.missing][:1]]
    if reasons:
        piece.status, piece.reason = NO, max(reasons, key=lambda pair: pair[0])[1]


def summarize(words: argparse.Namespace, piece: Piece) -> None:
    """Writes take.json, as tools/record does."""
    told = argparse.Namespace(page=piece.page, out=piece.out, waplay=words.waplay)
    command.write_summary(told, piece.taken, Ending(piece.status, piece.reason))


def take_piece(words: argparse.Namespace, wishes: Wishes, out: Path,
               tell: Callable[[str], None]) -> Piece:
    """Records a page, replays its scripts, and writes all files of the piece."""
    chromium = chromium_of(words)
    take.prepare(out)
    taken = record(wishes, chromium, tell)
    contexts = []
    for recorded in taken.contexts:
        recorded.write(out)
        tell(f"replaying context {recorded.number}")
        replayed = replay_of(words, out, recorded)
        recorded.write_report(out, replayed.lines)
        contexts.append(Context(recorded, replayed))
    piece = Piece(wishes.page, out, contexts, taken)
    judge(piece)
    summarize(words, piece)
    tell("making the page")
    make_page(piece, words.tolerance)
    return piece
